"""Completion and man pages: they have the words of the programs' own help."""
from __future__ import annotations

import re
import shutil

from tests.programs import BIN, LDI, ROOT
from tests.linking import LinkTest

COMPLETION = ROOT / "docs" / "completion"
PROGRAMS = {"ldi", "readobj", "readscript"} | {path.name for path in BIN.iterdir()}
OPTION = re.compile(r"(?<![\w-])(--?[A-Za-z][\w-]*)")


def options_in_help(text: str) -> set[str]:
    """The options at the front of the lines of a help text."""
    found: set[str] = set()
    for line in text.splitlines():
        if match := re.match(r"\s+(-.*?)(\s{2,}|$)", line):
            found |= set(OPTION.findall(match[1]))
    return found


class CompletionTest(LinkTest):
    """bash, asked what would complete a line."""

    def complete(self, line: str) -> set[str]:
        """The words that complete a line's last one."""
        name = line.split()[0]
        text = ('source "$1"; COMP_WORDS=($2); [[ $2 == *" " ]] && COMP_WORDS+=("");'
                ' COMP_CWORD=$((${#COMP_WORDS[@]} - 1)); $3; printf "%s\\n" "${COMPREPLY[@]}"')
        function = "_" + re.sub(r"[.-]", "_", name)
        return set(self.run_tool("bash", "-c", text, "bash", COMPLETION / name, line, function).split())

    def test_each_program_has_one(self) -> None:
        """A file for each program that is installed."""
        self.assertEqual({path.name for path in COMPLETION.iterdir()}, PROGRAMS)

    def test_ldi(self) -> None:
        """The words of clap's help."""
        ldi = LDI
        self.assertEqual(self.complete("ldi "), {"session", "link"} | options_in_help(self.run_tool(ldi, "--help")))
        for part in ("session", "link"):
            wanted = options_in_help(self.run_tool(ldi, part, "--help"))
            self.assertEqual(self.complete(f"ldi {part} -"), wanted)
        self.assertEqual(self.complete("ldi link --orphan-handling "), {"error", "discard"})

    def test_front(self) -> None:
        """The words of the help of the front end's programs."""
        for name in ("ldi-gdb", "ldi-watch", "ldi-adapt"):
            text = self.run_tool(BIN / name, "--help")
            words = set(OPTION.findall(text.split("\n\n")[0] if name == "ldi-watch" else "")) | options_in_help(text)
            self.assertEqual(words - self.complete(f"{name} -"), set(), name)


class ManTest(LinkTest):
    """The man pages that tools/man makes."""

    def test_pages(self) -> None:
        """A page for each program; groff has nothing to warn of; options and headings are there."""
        self.run_tool("/usr/bin/python3", ROOT / "tools" / "man", "man")
        pages = {path.name: path.read_text(encoding="utf-8") for path in (self.folder / "man").iterdir()}
        self.assertEqual(set(pages), {f"{name}.1" for name in PROGRAMS})
        plain = {name: text.replace("\\-", "-") for name, text in pages.items()}
        for option in options_in_help(self.run_tool(LDI, "link", "--help")):
            self.assertIn(option, plain["ldi.1"])
        self.assertIn("--print-memory-usage", plain["ld.ldi.1"])
        self.assertIn("--members", plain["ldi-gdb.1"])
        self.assertIn("--once", plain["ldi-watch.1"])
        if shutil.which("groff"):
            done = self.run_program("groff", "-man", "-ww", "-Tutf8", *(f"man/{name}" for name in sorted(pages)))
            self.assertEqual((done.returncode, done.stderr), (0, ""))

    def test_lists(self) -> None:
        """An item of a list within an item is further to the right; one with a number keeps it."""
        self.run_tool("/usr/bin/python3", ROOT / "tools" / "man", "man")
        page = (self.folder / "man" / "ld.ldi.1").read_text(encoding="utf-8")
        self.assertIn("\n.RS 2\n.IP \\(bu 2\nafter 10 minutes without a call", page)
        page = (self.folder / "man" / "ldi.1").read_text(encoding="utf-8")
        self.assertIn('\n.IP "2." 3\n1, 2, 3 and then 6', page)
