"""The kernel that tools/check-kernel built, for tools/time-kernel and bench/watch: its last link, edits of an object.

An edit puts an object in place by a rename, as a build does: with another letter in a string, with a longer function at
the end of its code, or with a symbol more.
"""
import os
import subprocess
import sys
import tempfile

ROOT = os.path.realpath(os.path.join(os.path.dirname(os.path.abspath(__file__)), ".."))
sys.path.insert(0, ROOT)

from tests.object_file import ObjectFile  # noqa: E402

OBJECT = "init/main.o"
EDITS = ("the same sizes", "longer", "a symbol more")
STRINGS = b".rodata.str1.1"


def last_link(folder):
    """The words of the last call under the kernel's own script, without its output."""
    with open(os.path.join(folder, "calls"), encoding="utf-8") as file:
        calls = [line.split() for line in file if "x86/kernel/vmlinux.lds" in line]
    words = calls[-1]
    at = words.index("-o")
    # lld does not know every word of GNU ld
    return [word for word in words[:at] + words[at + 2:] if not word.startswith("--no-warn-")]


class Edited:
    """The object while it is edited; at the end it is as it was."""

    def __init__(self, folder):
        self.path = os.path.join(folder, OBJECT)
        with open(self.path, "rb") as file:
            self.old = file.read()

    def __enter__(self):
        return self

    def __exit__(self, *_):
        self.put(self.old)

    def edited(self, kind, number):
        """The bytes of an edited object; of other numbers they are others."""
        if kind == "the same sizes":
            return self._other_letter(number)
        with tempfile.TemporaryDirectory() as room:
            old, more, new = (os.path.join(room, name) for name in ("old.o", "more.o", "new.o"))
            with open(old, "wb") as file:
                file.write(self.old)
            if kind == "longer":
                text = f".text\n.fill {100 * (number + 1)},1,0x90\n" '.section .note.GNU-stack,"",@progbits\n'
                subprocess.run(["as", "-o", more, "-"], input=text.encode(), check=True)
                subprocess.run(["ld.bfd", "-r", "-o", new, old, more], check=True)
            else:
                symbol = f"ldi_more_{number}=.text:0,global,function"
                subprocess.run(["objcopy", "--add-symbol", symbol, old, new], check=True)
            with open(new, "rb") as file:
                return file.read()

    def put(self, data):
        """Puts these bytes in place."""
        with open(self.path + ".new", "wb") as file:
            file.write(data)
        os.rename(self.path + ".new", self.path)

    def _other_letter(self, number):
        file = ObjectFile(self.old)
        index = next(index for index in range(file.count) if file.section_name(index) == STRINGS)
        data = bytearray(self.old)
        data[file.headers[index].offset] = ord("A") + number % 26
        return bytes(data)
