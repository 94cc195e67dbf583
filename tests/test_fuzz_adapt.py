"""Random scripts of GNU ld over small objects: `ld.ldi` makes the same image as GNU ld, or says that it does not."""
from __future__ import annotations

import os
import tempfile
import unittest
from collections.abc import Iterable

from tests.fuzz import objects
from tests.fuzz.adapted import link_adapted
from tests.fuzz.linked import CRASHED, REFUSED, SAME, SILENT, TWICE, link, prepare
from tests.fuzz.scripts import case, with_frames
from tests.linking import needs

COUNT = 300
"""The cases; `tools/fuzz-adapt` runs others by hand."""
COLLECTING = (8100034, 8300242, 8300540, 8300920)
"""Seeds of cases with --gc-sections that were silently another."""
BLOCKS = 626
"""The seed of a case with common blocks in a section that is not loaded."""
ADAPTED = (151, 334, 794, 1116, 2131, 2998)
"""Seeds of cases that `ldi-adapt` wrote silently as another script."""


@needs("ld.bfd", "as", "ar")
class FuzzTest(unittest.TestCase):
    """Cases of fixed seeds."""

    def setUp(self) -> None:
        """A folder with the pool of objects."""
        folder = tempfile.TemporaryDirectory(prefix="ldi-fuzz-")
        self.addCleanup(folder.cleanup)
        self.addCleanup(os.chdir, os.getcwd())
        os.chdir(folder.name)
        objects.make(".")

    def test_nothing_is_silent(self) -> None:
        """No image is another without a line that says so, and most are the same."""
        self.tried(range(COUNT), False)

    def test_collecting(self) -> None:
        """So with --gc-sections."""
        self.tried([*range(8200000, 8200000 + COUNT // 3), *COLLECTING], True)

    def test_names_twice(self) -> None:
        """So with output sections of one name."""
        self.tried([*range(500000, 500000 + COUNT // 5), BLOCKS], False, TWICE)

    def test_common_blocks(self) -> None:
        """So with common blocks in every object; many such links are refused, as the session has another order."""
        objects.make(".", 1)
        for seed in range(600000, 600000 + COUNT // 5):
            came = link(case(seed))
            self.assertNotIn(came.outcome, (SILENT, CRASHED), f"{seed}: {came.found} {came.said}")

    def test_frames(self) -> None:
        """So with entries of `.eh_frame` and with stabs, of which GNU ld leaves some out."""
        for seed in range(9000000, 9000000 + COUNT // 4):
            one = with_frames(case(seed, seed % 3 == 0, TWICE), seed)
            one.objects += objects.make_frames(".", seed)
            came = link(one)
            self.assertNotIn(came.outcome, (SILENT, CRASHED), f"{seed}: {came.found} {came.said}")

    def test_adapted(self) -> None:
        """So of what `ldi-adapt` writes, with the objects and without, where it says nothing."""
        for knows_objects in (False, True):
            for seed in (*range(COUNT // 2), *ADAPTED):
                one = case(seed, False, TWICE)
                prepare(one)
                outcome, found = link_adapted(one, knows_objects)
                with self.subTest(seed, knows_objects=knows_objects):
                    self.assertNotIn(outcome, (SILENT, CRASHED), found)

    def tried(self, seeds: Iterable[int], collects: bool, twice: int = 3) -> None:
        """Links the cases of some seeds."""
        outcomes: dict[str, int] = {}
        for seed in seeds:
            came = link(case(seed, collects, twice))
            outcomes[came.outcome] = outcomes.get(came.outcome, 0) + 1
            with self.subTest(seed):
                self.assertNotIn(came.outcome, (SILENT, CRASHED), f"{came.found} {came.said}")
        self.assertGreater(outcomes.get(SAME, 0), (2 if collects else 5) * outcomes.get(REFUSED, 0), outcomes)
