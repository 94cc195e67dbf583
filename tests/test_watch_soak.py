"""`ldi-watch`: a short soak; `make soak-client` runs a long one."""
import unittest

from tests.soak import soak


class SoakTest(unittest.TestCase):
    """Three writers and a reader."""

    def test_soak(self) -> None:
        """100 rounds, with sixty times the time limits."""
        done = soak(100, limit=60.0, seed=2, pace=0.03)
        self.assertEqual(done.wrong, [])
        self.assertGreaterEqual(done.images, 100)
