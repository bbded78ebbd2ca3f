"""What tests/ has commands for, a module for each."""
