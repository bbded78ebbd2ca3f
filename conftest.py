"""For pytest, whose settings are in pyproject.toml. Without it the same tests are run by operate/tests/all, tests/library and
clients/python/tests/test_client.py.
"""

import signal

# what a shell runs in the background ignores Ctrl-C by itself, and so would the processes that are started here
signal.signal(signal.SIGINT, signal.default_int_handler)
