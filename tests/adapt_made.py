"""Objects made for a script: a section for each pattern that it takes, and the symbols that it names.

What the script names is asked of `front/examples/outline.rs`, which reads it.
"""
from __future__ import annotations

import os
import re
import subprocess
import tempfile

from tests.programs import ROOT

OUTLINE = os.environ.get("OUTLINE") or str(ROOT / "front" / "target" / "release" / "examples" / "outline")
"""The program, as `tools/build-front build --release --example outline` builds it."""
_NOT_MADE = re.compile(r"\.(got|plt|iplt|igot|rel|dyn|hash|gnu\.|interp|eh_frame|note\.gnu|note\.GNU|sframe|tdata|tbss|"
                       r"tcommon|stab|symtab|strtab|shstrtab|reloc|gcc_except|exception_ranges|relr|group|ctf|"
                       r"lbss|ldata|lrodata|dynlbss|gnu_extab)|L")
_OUTSIDE = (".debug", ".zdebug", ".comment", ".stab", ".line", ".gnu.linkonce.wi.", ".symtab", ".strtab", ".shstrtab",
            ".gnu.build.attributes", ".note.GNU-stack", ".GCC.command.line", ".mdebug", ".gnu.attributes", ".SUNW_",
            ".gnu.lto_", ".gnu.debuglto_", ".ctf", ".gdb_index", ".annobin", ".rela.debug", ".rel.debug",
            ".stabstr", ".gnu_debuglink", ".group", ".pdr", ".llvm.", ".llvm_addrsig", ".gnu.object_only")
"""How the names of sections begin that have no ALLOC."""
_CODE = (".text", ".init", ".fini", ".head", ".entry", ".stub", ".start", ".vectors", ".fixup", ".boot", ".irqentry",
         ".kprobes", ".noinstr", ".exit", ".cpuidle", ".softirq")
_DATA = (".data", ".ctors", ".dtors", ".init_array", ".fini_array", ".preinit_array", ".sdata", ".init.data")


def sample(pattern: str) -> str:
    """A name that a pattern matches."""
    name = re.sub(r"\[[!^].*?\]", "Q", pattern)
    name = re.sub(r"\[(.).*?\]", r"\1", name)
    name = re.sub(r"\\(.)", r"\1", name)
    return name.replace("*", "z").replace("?", "q")


def _flags(name: str, owner: str) -> str:
    """Flags and type of a section by its name, or its output section's."""
    for word in (name, owner):
        if word.startswith((".init_array", ".fini_array", ".preinit_array", ".init.data", ".exit.data")):
            return '"aw"'
        if ".bss" in word[:9] or word.startswith((".sbss", ".lbss", ".dynbss")):
            return '"aw",@nobits'
        if word.startswith(_CODE):
            return '"ax"'
        if word.startswith((".rodata", ".note", ".srodata")):
            return '"a"'
        if word.startswith(_DATA):
            return '"aw"'
    return '"aw"'


def outline(text: bytes, folder: str) -> list[list[str]]:
    """What a script names: the lines of `outline`, as words. INCLUDE looks in the folder."""
    with tempfile.NamedTemporaryFile(suffix=".ld") as file:
        file.write(text)
        file.flush()
        done = subprocess.run([OUTLINE, file.name, folder], capture_output=True, check=True, timeout=180)
    return [line.split("\t") for line in done.stdout.decode("latin-1").splitlines()]


def without_asserts(text: bytes, folder: str) -> bytes:
    """The text with all its ASSERTs true: made objects need not be what a project asserts."""
    lines = outline(text, folder)
    if ["included"] in lines:
        return text
    spans = sorted({(int(words[1]), int(words[2])) for words in lines if words[0] == "assert"}, reverse=True)
    for start, end in spans:
        text = b"%s1 || (%s)%s" % (text[:start], text[start:end], text[end:])
    return text


class Made:
    """The objects for a script."""

    def __init__(self, text: bytes, folder: str) -> None:
        self.files: dict[str, list[tuple[str, str]]] = {}
        """By object: names and flags of its sections."""
        self.entry = "_start"
        self.names: dict[str, set[str]] = {kind: set() for kind in ("assigned", "provided", "used", "checked", "asked")}
        output = ""
        for kind, *words in outline(text, folder):
            if kind == "output":
                output = words[0]
            elif kind == "input" and output != "/DISCARD/":
                self._input(output, words[0], words[1:])
            elif kind == "entry":
                self.entry = words[0]
            elif kind in self.names:
                self.names[kind].add(words[0])
        self.assigned, self.provided = self.names["assigned"], self.names["provided"]
        self.foreign = self.names["used"] - self.assigned - self.names["asked"]
        self.checked = self.names["checked"] - self.assigned - self.foreign

    def _input(self, output: str, file: str, patterns: list[str]) -> None:
        literal = not any(char in file for char in "*?[")
        files = [sample(file.split(":")[-1])]
        if not literal and file in ("*", "*.o"):
            files = ["one.o", "two.o"]
        for pattern in patterns:
            name = sample(pattern)
            if name == "z" or _NOT_MADE.match(name) or name.startswith(_OUTSIDE) or not re.fullmatch(r"[!-~]+", name):
                continue
            for one in files:
                row = self.files.setdefault(_path(one), [])
                if name not in [entry[0] for entry in row]:
                    row.append((name, _flags(name, output)))

    def make(self, folder: str) -> list[str]:
        """Assembles the objects in a folder; gives their paths from there, as the script names them."""
        files = dict(self.files)
        files.setdefault("one.o", [])
        files.setdefault("two.o", [])
        paths: list[str] = []
        for count, (path, sections) in enumerate(sorted(files.items())):
            full = os.path.join(folder, path)
            os.makedirs(os.path.dirname(full) or ".", exist_ok=True)
            subprocess.run(["as", "-o", full, "-"], input=self._text(path, sections, count), text=True, check=True,
                           timeout=180, capture_output=True)
            paths.append(path)
        return paths

    def _text(self, path: str, sections: list[tuple[str, str]], count: int) -> str:
        """The assembly text of an object."""
        lines: list[str] = []
        for number, (name, flags) in enumerate(sections):
            if name == "COMMON":
                lines.append(f".comm common_{count}, {24 + 8 * count}, 16")
                continue
            label = re.sub(r"[^A-Za-z0-9]", "_", f"at_{count}_{name}_{number}")
            kind = ',@progbits' if "nobits" not in flags and not name.startswith((".init_array", ".fini_array",
                                                                                    ".preinit_array", ".note")) else ""
            size = 3 + (number * 7 + count * 5) % 29
            size = size * 8 if name.startswith((".ctors", ".dtors", ".init_array", ".fini_array")) else size
            lines += [f'.section "{name}",{flags}{kind}', f".balign {1 << (number + count) % 5}", f".globl {label}",
                      f"{label}: .skip {size}"]
        if path == "one.o":
            first = next((name for name, flags in sections if '"ax"' in flags), sections[0][0] if sections else ".none")
            flags = dict(sections).get(first, '"ax"')
            if first == "COMMON":
                first, flags = ".text", '"ax"'
            kind = "" if "nobits" in flags else ",@progbits"
            lines += [f'.section "{first}",{flags}{kind}']
            own = self.checked | ({self.entry} - self.assigned)
            lines += [f".globl {name}\n{name}:" for name in sorted(own) if _is_symbol(name)]
            if "nobits" not in flags:
                lines += [f".quad {name}" for name in sorted(self.provided) if _is_symbol(name)]
            lines += [f".globl {name}\n.set {name}, {0x1000 + 16 * i}"
                      for i, name in enumerate(sorted(self.foreign)) if _is_symbol(name)]
        return "\n".join(lines) + "\n"


def _is_symbol(name: str) -> bool:
    return bool(re.fullmatch(r"[A-Za-z_.$][A-Za-z0-9_.$]*", name))


def _path(file: str) -> str:
    """A file's path below a folder."""
    name = os.path.normpath(file).lstrip("/").replace("../", "")
    return name if "." in os.path.basename(name) else name + ".o"
