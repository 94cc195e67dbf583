"""Streams with the answers demanded: how a worked row is written, run and stored.

A row is a list of steps. A step is a command and what its answer must be: the answer itself, or a check of the bytes of
an image. The bytes of every small image are computed a second time, one by one, from their definition.
"""
import os
from dataclasses import dataclass, field

from . import answers, edits, elf, image
from .link import link

LARGEST_POINTWISE = 20_000


@dataclass(frozen=True)
class Row:
    title: str
    steps: list
    options: edits.Options = edits.Options()
    status: int = 0
    end: bytes = b""


@dataclass
class Result:
    """How many answers agreed, and a line for each that did not."""
    cases: int = 0
    differences: list = field(default_factory=list)

    def check(self, good, line):
        self.cases += 1
        if not good:
            self.differences.append(line)


# Commands.

def add(name, at, data):
    return b"add %s %d %d\n" % (elf.data_of(name), at, len(data)) + data


def replace(name, data):
    return b"replace %s %d\n" % (elf.data_of(name), len(data)) + data


def script(text):
    data = text if isinstance(text, bytes) else elf.data_of(text)
    return b"script %d\n" % len(data) + data


def move(name, to):
    return b"move %s %d\n" % (elf.data_of(name), to)


def remove(name):
    return b"remove %s\n" % elf.data_of(name)


IMAGE, MAP, FAULTS = b"image\n", b"map\n", b"faults\n"


# Answers.

def linked(status, length=0):
    return b"linked %d %d\n" % (status, length)


def refused(number, inner=0):
    return b"refused %d %d\n" % (number, inner)


def text(*lines):
    """The answer to a query of lines."""
    data = elf.data_of("".join(line + "\n" for line in lines))
    return b"bytes %d\n" % len(data) + data


def has_lines(*lines):
    """The answer to a query has these lines, one after the other."""
    data = elf.data_of("".join(line + "\n" for line in lines))
    return lambda answer: data in answer


def lacks(part):
    """The answer to a query does not have this text."""
    return lambda answer: elf.data_of(part) not in answer


def at(places):
    """The image has these bytes (hexadecimal, spaced as one likes) at these offsets."""
    def check(answer):
        data = answer[answer.index(b"\n") + 1:]
        return all(data[offset:offset + len(bytes.fromhex(found))] == bytes.fromhex(found)
                   for offset, found in places.items())
    return check


def length(end, sections, symbols=()):
    """The length of an image whose segments end at `end`, with these output sections and these symbols with a value."""
    strings = 1 + sum(len(name) + 1 for name in symbols)
    names = 1 + sum(len(name) + 1 for name in list(sections) + [".symtab", ".strtab", ".shstrtab"])
    table = elf.align_up(elf.align_up(end, 8) + 24 * (1 + len(symbols)) + strings + names, 8)
    return table + 64 * (len(sections) + 4)


# Running and storing.

def run(row, result):
    """Answers the stream of a row and compares step by step, then the status."""
    project, current = edits.Project(options=row.options), None
    current = link(project)
    for number, (command, wanted) in enumerate(row.steps, 1):
        found, after = answers.next_command(command, 0)
        assert after == len(command)
        given, project, following = answers.answer(project, current, found)
        good = wanted(given) if callable(wanted) else given == wanted
        other = "" if callable(wanted) else f", not {wanted[:200]!r}"
        result.check(good, f"{row.title}, step {number}: {given[:200]!r}{other}")
        if following is not current:
            check_bytes(row, number, following, result)
        current = following
    answered = []
    status = answers.answers(row.options, stream(row), answered.append)
    result.check(status == row.status, f"{row.title}: status {status}, not {row.status}")
    if row.end:
        result.check(answered[-1] == b"stream\n", f"{row.title}: no `stream` at the end")


def check_bytes(row, number, current, result):
    """The image byte by byte."""
    if current.status == 0 and len(current.image) <= LARGEST_POINTWISE:
        same = all(image.byte_at(current.built, offset) == byte for offset, byte in enumerate(current.image))
        result.check(same and len(current.image) == current.built.length, f"{row.title}, step {number}: bytes")


def stream(row):
    """The bytes of a row's stream; `end` is a bad tail."""
    return b"".join(command for command, _ in row.steps) + row.end


def words(options):
    """The command line of a row's options."""
    found = ["--gc-sections"] if options.gc else []
    if options.entry is not None:
        found += ["-e", options.entry]
    return found + ["--orphan-handling", "discard"] * (options.orphans == "discard")


def store(folder, name, options, data):
    """Writes a stream with its words, answers and status, as a runner of streams reads them."""
    found = []
    status = answers.answers(options, data, found.append)
    path = os.path.join(folder, name)
    for ending, content in ((".stream", data), (".answers", b"".join(found)), (".status", b"%d\n" % status)):
        with open(path + ending, "wb") as out:
            out.write(content)
    if words(options):
        with open(path + ".args", "w") as out:
            out.write("".join(word + "\n" for word in words(options)))
