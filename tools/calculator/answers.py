"""The answers to a stream of commands: cut as it is spelled, each answered from the project alone, bad tails too."""
import re
from dataclasses import dataclass

from . import edits, elf
from .link import link

LONGEST_LINE = 512
QUERIES = ("image", "map", "faults")
MALFORMED = 2

NAME = r"([^ \n]+)"
NUMBER = r"(0|[1-9][0-9]*)"
# The spelling of each command: its word and how many bytes follow are told by the groups.
FORMS = {
    "add": re.compile(f"add {NAME} {NUMBER} {NUMBER}"), "replace": re.compile(f"replace {NAME} {NUMBER}"),
    "script": re.compile(f"script {NUMBER}"), "move": re.compile(f"move {NAME} {NUMBER}"),
    "remove": re.compile(f"remove {NAME}"), "image": re.compile("image"), "map": re.compile("map"),
    "faults": re.compile("faults")}
WITH_PAYLOAD = ("add", "replace", "script")


@dataclass(frozen=True)
class Command:
    """The word, the words after it, and the payload."""
    word: str
    arguments: tuple
    payload: bytes


class BadTail(Exception):
    """What is left of a stream is not empty and begins no command."""


def next_command(stream, at):
    """The command that begins here and where the next one does; BadTail for anything else."""
    end = stream.find(b"\n", at, at + LONGEST_LINE + 1)
    if end < 0:
        raise BadTail()
    line = elf.text(stream[at:end])
    word = line.split(" ")[0]
    form = FORMS[word].fullmatch(line) if word in FORMS else None
    if form is None or any(int(number) >= 2 ** 64 for number in numbers(word, form)):
        raise BadTail()
    if word not in WITH_PAYLOAD:
        return Command(word, form.groups(), b""), end + 1
    size = int(form.groups()[-1])
    payload = stream[end + 1:end + 1 + size]
    if size > edits.LARGEST_PAYLOAD or len(payload) < size:
        raise BadTail()
    return Command(word, form.groups()[:-1], payload), end + 1 + size


def numbers(word, form):
    """The POS and LEN of a line: all groups but the name."""
    return form.groups() if word == "script" else form.groups()[1:]


def edit_of(command):
    """The edit that a command other than a query spells."""
    given, data = command.arguments, command.payload
    if command.word == "add":
        return edits.Add(given[0], int(given[1]), data)
    if command.word == "replace":
        return edits.Replace(given[0], data)
    if command.word == "move":
        return edits.Move(given[0], int(given[1]))
    return edits.Remove(given[0]) if command.word == "remove" else edits.Script(data)


def answer(project, linked, command):
    """The bytes answered, the next project and its link."""
    if command.word in QUERIES:
        found = getattr(linked, command.word)
        return b"bytes %d\n" % len(found) + found, project, linked
    following = edits.after(project, edit_of(command))
    if isinstance(following, edits.Refusal):
        return b"refused %d %d\n" % (following.number, following.inner), project, linked
    linked = link(following)
    return b"linked %d %d\n" % (linked.status, len(linked.image)), following, linked


def answers(options, stream, write):
    """Writes the answers to a whole stream from the empty project, and gives the status of the run.

    The link of a project is computed once, at the edit that makes it: it depends on nothing else.
    """
    project, at = edits.Project(options=options), 0
    linked = link(project)
    while at < len(stream):
        try:
            command, at = next_command(stream, at)
        except BadTail:
            write(b"stream\n")
            return MALFORMED
        given, project, linked = answer(project, linked, command)
        write(given)
    return linked.status
