"""The stored run of `trylink`, cut into its cases.

crates/trylink/stdin is one frame after another, crates/trylink/stdout what must be printed of each. A frame is a line
`KIND NAME LENGTH OPTION..` and so many bytes; a LENGTH `N+M` is N bytes of which the last stands M times more. What is
printed begins with the line `KIND NAME OPTION..`. In crates/trylink/cases a case is two files: SUBJECT/TITLE.in, the
bytes of its frame, which of a stream are commands as `ldi session` reads them; and SUBJECT/TITLE.out, what is printed
after the line. TITLE is the name without its number, so that a case keeps its files when another one is put before it.
The file `list` has a line for each case in the order of the two files: SUBJECT/TITLE, then the words of its line, with
`+M` after the name where a byte is repeated.
"""
import functools
import os
import re
from collections import Counter
from typing import Iterator, NamedTuple

from calculator import worked

CRATE = os.path.join(os.path.dirname(os.path.realpath(__file__)), "..", "crates", "trylink")
FOLDER = os.path.join(CRATE, "cases")
LIST = "list"
KINDS = (b"stream", b"list", b"counts", b"devices", b"steps", b"files", b"surface")


@functools.cache
def row_groups() -> list[str]:
    """The group of each row of the calculator, by its number."""
    return [group for group, _ in worked.rows_by_group()]


class Case(NamedTuple):
    """A frame of standard input, and what must be printed of it, each with its line."""

    kind: str
    name: str
    frame: bytes
    wanted: bytes

    @property
    def title(self) -> str:
        """What its files are called: the subject is the word before the number in the name of a stream or a list, of a
        row with its group below it, else the kind."""
        subject = self.name.partition("-")[0] if self.kind in ("stream", "list") else self.kind
        if subject == "row":
            subject = os.path.join(subject, row_groups()[int(self.name.partition(":")[0].partition("-")[2])])
        title = self.name.partition(":")[2] or self.name
        return os.path.join(subject, re.sub(r"[^A-Za-z0-9._]+", "-", title).strip("-.") or "none")

    @property
    def line(self) -> str:
        """The words of its line, without the length, but with `+M`."""
        kind, name, length, *options = self.frame.split(b"\n", 1)[0].decode().split(" ")
        more = [f"+{length.partition('+')[2]}"] if "+" in length else []
        return " ".join([kind, name, *more, *options])


def read(path: str) -> bytes:
    """The bytes of a file."""
    with open(path, "rb") as file:
        return file.read()


def stored() -> tuple[bytes, bytes]:
    """The crate's two files, as the gate reads them."""
    return read(os.path.join(CRATE, "stdin")), read(os.path.join(CRATE, "stdout"))


def frames(text: bytes) -> Iterator[tuple[bytes, bytes]]:
    """The first line of what is printed of each frame, and the frame."""
    at = 0
    while at < len(text):
        end = text.index(b"\n", at) + 1
        kind, name, length, *words = text[at:end - 1].split(b" ")
        assert kind in KINDS, kind
        last = end + int(length.split(b"+")[0])
        yield b" ".join([kind, name, *words]) + b"\n", text[at:last]
        at = last


def cut(given: bytes, printed: bytes) -> Iterator[Case]:
    """The cases of two files, in their order. That they are the two files, joined, holds by the way they are cut."""
    found, at = list(frames(given)), 0
    for place, (line, frame) in enumerate(found):
        assert printed.startswith(line, at), line
        last = place + 1 == len(found)
        end = len(printed) if last else printed.index(b"\n" + found[place + 1][0], at) + 1
        kind, name = line.split()[:2]
        yield Case(kind.decode(), name.decode(), frame, printed[at:end])
        at = end


def files_of(cases: list[Case]) -> dict[str, bytes]:
    """The bytes of each file of these cases, under its path below their folder. A title that is there before gets a
    number."""
    found: dict[str, bytes] = {}
    titles: Counter[str] = Counter()
    lines = []
    for case in cases:
        titles[case.title] += 1
        path = case.title if titles[case.title] == 1 else f"{case.title}-{titles[case.title]}"
        assert f"{path}.in" not in found, path
        lines.append(f"{path} {case.line}\n")
        found[f"{path}.in"] = case.frame.split(b"\n", 1)[1]
        found[f"{path}.out"] = case.wanted.split(b"\n", 1)[1]
    return {LIST: "".join(lines).encode(), **found}


def joined(folder: str = FOLDER) -> tuple[bytes, bytes]:
    """The crate's two files, made of the files of the cases."""
    given, printed = bytearray(), bytearray()
    for line in read(os.path.join(folder, LIST)).decode().splitlines():
        path, kind, name, *options = line.split(" ")
        data = read(os.path.join(folder, f"{path}.in"))
        more = options.pop(0) if options and options[0].startswith("+") else ""
        given += " ".join([kind, name, f"{len(data)}{more}", *options]).encode() + b"\n" + data
        printed += " ".join([kind, name, *options]).encode() + b"\n" + read(os.path.join(folder, f"{path}.out"))
    return bytes(given), bytes(printed)


def files_there() -> set[str]:
    """The path of each file below the folder of all cases."""
    return {os.path.relpath(os.path.join(at, name), FOLDER) for at, _, names in os.walk(FOLDER) for name in names}


def write(given: bytes, printed: bytes) -> None:
    """Writes the crate's two files and the files of all cases; a file that is no case's any more is removed."""
    for name, data in (("stdin", given), ("stdout", printed)):
        put(os.path.join(CRATE, name), data)
    files = files_of(list(cut(given, printed)))
    for path in files_there() - set(files):
        os.remove(os.path.join(FOLDER, path))
    for path, data in files.items():
        put(os.path.join(FOLDER, path), data)
    assert joined() == (given, printed)


def put(path: str, data: bytes) -> None:
    """Writes a file, in a folder that is made where it is not there; one that has these bytes is left alone."""
    if os.path.exists(path) and read(path) == data:
        return
    os.makedirs(os.path.dirname(path), exist_ok=True)
    with open(path, "wb") as file:
        file.write(data)
