"""A sentence for each refusal of an object: what `readobj` says of it."""
from __future__ import annotations

import re
import subprocess
from collections import Counter
from collections.abc import Iterator

from tests.message_links import SCRIPT, MessageTest
from tests.programs import LIMIT, ROOT, beside_ldi

REFUSALS = 13
"""The numbers of refusals of an object (docs/objects.md, 'Refusals')."""
EACH = 2
"""Of each number so many objects are looked at."""


def stored_objects() -> Iterator[bytes]:
    """The objects of readobj's stored run, which tools/write-readobj-run writes."""
    stream = (ROOT / "crates" / "readobj" / "stdin").read_bytes()
    at = 0
    while at < len(stream):
        end = stream.index(b"\n", at)
        word, length, _ = stream[at:end].split(b" ", 2)
        if word == b"object":
            yield stream[end + 1 : end + 1 + int(length)]
        at = end + 1 + int(length)


class RefusalTest(MessageTest):
    """Objects that are refused."""

    def said(self, name: str) -> list[str]:
        """What `readobj` says of a file: the refusal, and a text for each place.

        A line that is indented deeper than a place goes on with the one above.
        """
        done = subprocess.run([beside_ldi("readobj"), name], cwd=self.folder, capture_output=True, text=True,
                              check=False, timeout=LIMIT)
        return re.sub(r"\n {3,}", "; ", done.stdout).replace("\n  ", "\n").splitlines()

    def test_objects(self) -> None:
        """4 with each of its numbers, as `readobj` says it."""
        counts: Counter[str] = Counter()
        objects: dict[str, bytes] = {}
        wanted = []
        for data in stored_objects():
            if data.startswith(b"!<arch>"):
                continue  # an archive's members are linked
            name = f"o{len(objects)}.o"
            (self.folder / name).write_bytes(data)
            line, *reasons = self.said(name)
            if ": refused 4 " in line and counts[line.partition(": ")[2]] < EACH:
                counts[line.partition(": ")[2]] += 1
                objects[name] = data
                wanted += [(name, f"{name}: {reason}", line) for reason in reasons if ": R_X86_64_G" not in reason]
        self.assertEqual(len(counts), REFUSALS)
        state = self.state(SCRIPT, objects)
        self.assertEqual(state["event"], "refused")
        said = [(one["name"], one["message"], one["line"]) for one in state["inputs"]]
        # a relocation of another kind is named in its section, and what is no object by what else it is
        self.assertTrue(all("; compile with -fno-pic" in text for _, text, _ in said if "R_X86_64_GOT" in text))
        said = [one for one in said if "R_X86_64_GOT" not in one[1]]
        self.assertEqual([(name, text[:len(reason)], line) for (name, text, line), (_, reason, _) in zip(said, wanted)],
                         wanted)
        self.assertEqual(len(said), len(wanted))

    def test_other_files(self) -> None:
        """What files are that are no ELF files."""
        state = self.state(SCRIPT, {"bitcode.o": b"BC\xc0\xde" + bytes(100)})
        message, = [one["message"] for one in state["inputs"]]
        self.assertTrue(message.endswith("it is LLVM's bitcode, which has no code: compile without -flto"), message)
