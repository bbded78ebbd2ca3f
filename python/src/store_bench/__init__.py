"""What bench/ has commands for, a module for each."""
