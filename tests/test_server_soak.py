"""`ld.ldi`'s server: a short soak; `make soak-client` runs a long one."""
import unittest

from tests.soak_server import soak


class SoakTest(unittest.TestCase):
    """Random edits, and servers that are killed."""

    def test_soak(self) -> None:
        """50 rounds."""
        done = soak(50, seed=3)
        self.assertEqual(done.wrong, [])
        self.assertGreater(done.killed, 0)
