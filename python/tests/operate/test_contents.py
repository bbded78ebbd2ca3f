"""What a release takes from the last commit."""

from __future__ import annotations

import unittest

from store_release.contents import committed

# what tests share
TESTING = "store_testing"


class Contents(unittest.TestCase):
    def test_what_tests_share_is_in_no_release(self) -> None:
        """Neither itself, nor a program that would need it; pages may name it."""
        files = committed()
        self.assertIn("lib/store/store_client/__init__.py", files)
        self.assertEqual([name for name in files if TESTING in name], [])
        code = {name: file.data for name, file in files.items() if not name.endswith(".md")}
        self.assertEqual([name for name, data in code.items() if TESTING.encode() in data], [])
