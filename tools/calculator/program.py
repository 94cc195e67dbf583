"""The two programs: `session` answers a stream of commands, `link` links files once."""
import argparse
import contextlib
import os
import sys

from . import edits, elf
from .answers import answers
from .deferred import deferred_answers
from .link import link

REFUSED, DEVICE = 2, 3


def arguments(words):
    """The options and file names of both programs; a bad command line ends with status 2."""
    parser = argparse.ArgumentParser(prog="model", allow_abbrev=False)
    programs = parser.add_subparsers(dest="program", required=True)
    for name in ("session", "link"):
        program = programs.add_parser(name, allow_abbrev=False)
        program.add_argument("--gc-sections", action="store_true")
        program.add_argument("-e")
        program.add_argument("--orphan-handling", choices=("error", "discard"), default="error")
        if name == "session":
            program.add_argument("--deferred", action="store_true")
        if name == "link":
            program.add_argument("-T", required=True)
            program.add_argument("-o", required=True)
            program.add_argument("--Map")
            program.add_argument("objects", nargs="*")
    return parser.parse_args(words)


def name(word):
    """A word of the command line as text of one character a byte."""
    return elf.text(word.encode("utf-8", "surrogateescape"))


def session(options, is_deferred):
    """Standard input to standard output."""
    try:
        return (deferred_answers if is_deferred else answers)(options, sys.stdin.buffer.read(), write)
    except OSError:
        return DEVICE


def write(data, number=1):
    """All of the bytes to standard output, or to the file of this number."""
    left = memoryview(data)
    while left:
        left = left[os.write(number, left):]


def clash(given):
    """The line of an output that is an input or the other output, if one is."""
    pairs = [("-o", given.o, "--Map", given.Map)]
    for word, file in ("-T", given.T), *[("an object", file) for file in given.objects]:
        pairs += [("-o", given.o, word, file), ("--Map", given.Map, word, file)]
    for option, output, word, other in pairs:
        if output is not None and other is not None and is_same(output, other):
            return f"error: {option} and {word} name the same file: {output if word == '--Map' else other}"
    return None


def is_same(output, other):
    """Whether two names are those of one regular file, or of a file that is not there."""
    if os.path.exists(output) and os.path.exists(other):
        return os.path.isfile(output) and os.path.samefile(output, other)
    return os.path.realpath(output) == os.path.realpath(other)


def link_files(given, options):
    """Reads all files, the script first; sets the script, adds the objects in order, and links once."""
    try:
        script, objects = contents(given.T), [(word, contents(word)) for word in given.objects]
    except FileFault as fault:
        return ended(f"device\n{fault}", DEVICE)
    line = clash(given)
    if line is not None:
        return ended(line, REFUSED)
    found = link_contents(script, objects, options)
    if isinstance(found, tuple):
        word, refusal = found
        return ended(f"{word}: refused {refusal.number} {refusal.inner}", REFUSED)
    return write_files(given, found)


def link_contents(script, objects, options):
    """The link of a script and of objects, each under its word; or the word of the file whose edit is the first one
    refused, and the refusal."""
    project = edits.Project(options=options)
    steps = [("script", edits.Script(script))]
    steps += [(word, edits.Add(name(word), at, data)) for at, (word, data) in enumerate(objects)]
    for word, edit in steps:
        project = edits.after(project, edit)
        if isinstance(project, edits.Refusal):
            return word, project
    return link(project)


def write_files(given, linked):
    """The map and the image; or the fault lines on standard error, and no file."""
    if linked.status != 0:
        sys.stderr.buffer.write(linked.faults)
        return linked.status
    outputs = [(file, data) for file, data in ((given.Map, linked.map), (given.o, linked.image)) if file is not None]
    beside = {}
    try:
        for file, data in outputs:
            if os.path.isfile(file) or not os.path.lexists(file):
                beside[file] = f"{os.path.realpath(file)}.beside"
                put(beside[file], file, data)
        for file, data in outputs:
            if file not in beside:
                put(file, file, data)
        for file, written in beside.items():
            with doing("replaced", file):
                os.replace(written, os.path.realpath(file))
    except FileFault as fault:
        for written in beside.values():
            if os.path.exists(written):
                os.remove(written)
        return ended(f"device\n{fault}", DEVICE)
    return linked.status


class FileFault(Exception):
    """What could not be done with which file, and the system's reason."""

    def __init__(self, done, file, error):
        super().__init__(f"{file}: cannot be {done}: {error.strerror} (os error {error.errno})")


@contextlib.contextmanager
def doing(done, file):
    """An error of the system in this block is a fault of the file."""
    try:
        yield
    except OSError as error:
        raise FileFault(done, file, error) from error


def put(path, file, data):
    """Writes a file at a path."""
    with doing("opened", file):
        number = os.open(path, os.O_WRONLY | os.O_CREAT | os.O_TRUNC, 0o666)
    try:
        with doing("written", file):
            write(data, number)
    finally:
        os.close(number)


def contents(file):
    """The bytes of a file."""
    with doing("opened", file):
        number = os.open(file, os.O_RDONLY)
    try:
        with doing("read", file):
            return b"".join(iter(lambda: os.read(number, 1 << 20), b""))
    finally:
        os.close(number)


def ended(line, status):
    """A line on standard error, and the status."""
    print(line, file=sys.stderr)
    return status


def main(words):
    """Runs the program that the words name, and gives its exit status."""
    sys.setrecursionlimit(10_000)
    given = arguments(words)
    options = edits.Options(given.gc_sections, None if given.e is None else name(given.e), given.orphan_handling)
    return session(options, given.deferred) if given.program == "session" else link_files(given, options)
