"""Runs the tests, and ends with the line `N passed, N failed`, with `, N skipped` where some were.

Words name modules of this folder, as `test_gdb`, or tests in them, as `test_gdb.GdbTest`; without words all are run.
`--list` prints the modules with what each is for. A test that takes longer than LIMIT is ended, and has
failed. The names of those that failed are printed before the last line.
"""
import ast
import os
import signal
import sys
import unittest
from pathlib import Path
from types import FrameType

LIMIT = 600
"""Seconds that a test may take: many times what it takes on a slow machine."""


class Result(unittest.TextTestResult):
    """Results of tests that have a limit of time."""

    def startTest(self, test: unittest.TestCase) -> None:
        """Lets the time begin."""
        super().startTest(test)
        signal.alarm(LIMIT)

    def stopTest(self, test: unittest.TestCase) -> None:
        """Lets it end."""
        signal.alarm(0)
        super().stopTest(test)


def too_long(_number: int, _frame: FrameType | None) -> None:
    """What comes of a test when its time is over."""
    raise TimeoutError(f"it takes longer than {LIMIT} s")


def purposes() -> list[str]:
    """A line for each module of tests: its name, and the first sentences of its text."""
    found = []
    for path in sorted(Path(__file__).parent.glob("test_*.py")):
        text = ast.get_docstring(ast.parse(path.read_text(encoding="utf-8"))) or ""
        found.append(f"{path.stem:26} {' '.join(text.split(chr(10) * 2)[0].split())}")
    return found


def main() -> int:
    """Runs the tests that the words name; gives the exit status."""
    if sys.argv[1:] == ["--list"]:
        print("\n".join(purposes()))
        return 0
    os.environ["LDI_SERVER"] = "0"  # no `ld.ldi` leaves a server, but in the tests of it
    folder = os.path.dirname(os.path.abspath(__file__))
    loader = unittest.TestLoader()
    if sys.argv[1:]:
        suite = loader.loadTestsFromNames([f"tests.{word}" for word in sys.argv[1:]])
    else:
        suite = loader.discover(folder, top_level_dir=os.path.dirname(folder))
    signal.signal(signal.SIGALRM, too_long)
    result = unittest.TextTestRunner(verbosity=2, resultclass=Result).run(suite)
    # a test whose subtests fail several times is one that failed
    bad = {getattr(test, "test_case", test).id() for test, _ in (*result.failures, *result.errors)}
    bad.update(test.id() for test in result.unexpectedSuccesses)
    for name in sorted(bad):
        print(f"failed: {name.removeprefix('tests.')}")
    failed, skipped = len(bad), len(result.skipped)
    print(f"{result.testsRun - failed - skipped} passed, {failed} failed{f', {skipped} skipped' if skipped else ''}")
    return 1 if failed else 0


sys.exit(main())
