"""The sessions of tests/soak: what they share, those with a job for themselves, and those that share a job."""
