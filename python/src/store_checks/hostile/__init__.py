"""Trials of what a job can do to others within its rights: tests/hostile/run."""
