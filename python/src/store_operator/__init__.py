"""What `store-daemon` and `storectl` are made of: a supervisor of `store serve`, and the orders that it takes."""

__version__ = "0.6.2"
