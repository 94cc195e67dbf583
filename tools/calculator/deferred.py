"""Lists of edits as deferred sessions make them, with `link` at random places, beside the same edits linked one by one.

What is demanded of a deferred session comes from the answers to the same edits without the option: an edit is accepted
there exactly if it is linked here, and after a `link` the queries have the answers that they have after the last edit.
`deferred_answers` has the answers of the literal calculator; its `changes` are one range, the whole image.
"""
import random
from dataclasses import dataclass

from . import answers, edits
from .link import link

LINK, CHANGES = b"link\n", b"changes\n"
REFUSED = b"refused 7 0\n"
QUERIES = {b"map\n": "map", b"faults\n": "faults", b"image\n": "image"}


def deferred_answers(options, stream, write):
    """Writes the answers to a whole stream of a deferred session, and gives the status of the run."""
    project, at = edits.Project(options=options), 0
    linked, given = link(project), None
    while at < len(stream):
        word = next((word for word in (LINK, CHANGES) if stream.startswith(word, at)), None)
        if word == LINK:
            linked, at = link(project), at + len(LINK)
            write(b"linked %d %d\n" % (linked.status, len(linked.image)))
        elif word == CHANGES:
            at += len(CHANGES)
            write(whole(linked.image, given))
            given = linked.image
        else:
            try:
                command, at = answers.next_command(stream, at)
            except answers.BadTail:
                write(b"stream\n")
                return answers.MALFORMED
            if command.word in answers.QUERIES:
                write(answers.answer(project, linked, command)[0])
                given = linked.image if command.word == "image" else given
            else:
                following = edits.after(project, answers.edit_of(command))
                if isinstance(following, edits.Refusal):
                    write(b"refused %d %d\n" % (following.number, following.inner))
                else:
                    write(b"accepted\n")
                    project = following
    return linked.status


def whole(image, given):
    """An image as the answer to `changes`: all of it, unless it is the one that was given last, or has no byte."""
    if image in (given, b""):
        return b"changes %d 0\n" % len(image)
    return b"changes %d 1\n0 %d\n" % (len(image), len(image)) + image


@dataclass
class State:
    """What queries give after an edit."""
    answer: bytes
    map: bytes
    faults: bytes
    image: bytes

    @property
    def is_accepted(self):
        """Whether the edit was."""
        return self.answer.startswith(b"linked ")

    @property
    def linked(self):
        """The answer of a link."""
        return b"linked %d %d\n" % (bool(self.faults), len(self.image))


class Answers:
    """Answers, taken one after the other."""

    def __init__(self, data):
        self.data, self.at = data, 0

    def line(self):
        """A line with its line feed."""
        end = self.data.index(b"\n", self.at) + 1
        line, self.at = self.data[self.at:end], end
        return line

    def take(self, count):
        """This number of bytes."""
        found, self.at = self.data[self.at:self.at + count], self.at + count
        if len(found) < count:
            raise ValueError("the answers end early")
        return found

    def bytes(self):
        """The answer to a query."""
        word, count = self.line().split()
        if word != b"bytes":
            raise ValueError(f"no answer to a query: {word}")
        return self.take(int(count))

    def changes(self, given):
        """An image by the image given last and the answer to `changes`, and the number of bytes that were answered."""
        word, length, count = self.line().split()
        if word != b"changes":
            raise ValueError(f"no answer to `changes`: {word}")
        ranges = [tuple(map(int, self.line().split())) for _ in range(int(count))]
        image = bytearray(given[:int(length)].ljust(int(length), b"?"))
        end = 0
        for offset, size in ranges:
            if offset < end or size == 0 or offset + size > len(image):
                raise ValueError(f"ranges out of order: {ranges}")
            image[offset:offset + size] = self.take(size)
            end = offset + size
        return bytes(image), sum(size for _, size in ranges)


def edits_in(data):
    """The edits of a stream, each as it is spelled."""
    found, at = [], 0
    while at < len(data):
        command, end = answers.next_command(data, at)
        if command.word not in answers.QUERIES:
            found.append(data[at:end])
        at = end
    return found


def plain_stream(made):
    """The edits with all queries before the first and after each."""
    queries = b"".join(QUERIES)
    return queries + b"".join(edit + queries for edit in made)


def states_of(made, data):
    """What is demanded before the first edit and after each, by the answers to `plain_stream`."""
    given = Answers(data)
    found = [State(b"", given.bytes(), given.bytes(), given.bytes())]
    for _ in made:
        found.append(State(given.line(), given.bytes(), given.bytes(), given.bytes()))
    return found


class Deferred:
    """A deferred stream of these edits, and what is demanded of its answers."""

    def __init__(self, made, states, seed):
        self.random = random.Random(seed)
        self.data, self.demands = b"", []
        self.now, self.linked = states[0], states[0]
        frequency = self.random.choice([0.1, 0.3, 0.7, 1.0])
        self.ask()
        for edit, state in zip(made, states[1:]):
            self.send(edit, b"accepted\n" if state.is_accepted else state.answer)
            self.now = state if state.is_accepted else self.now
            while self.random.random() < frequency:
                self.link()
                self.ask()
                if frequency == 1.0:
                    break
            if self.random.random() < 0.1:
                self.ask()
        self.link()
        self.ask()

    def send(self, command, demand):
        """One more command, and the answer or the image that is demanded."""
        self.data += command
        self.demands.append((command.split(b"\n")[0].split(b" ")[0].decode(), demand))

    def link(self):
        """A link of the project of this moment."""
        self.linked = self.now
        self.send(LINK, self.linked.linked)

    def ask(self):
        """Some queries, in any order."""
        wanted = [*QUERIES, CHANGES, CHANGES]
        for query in self.random.sample(wanted, self.random.randint(0, len(wanted))):
            self.send(query, self.linked.image if query == CHANGES else getattr(self.linked, QUERIES[query]))


def differences(deferred, data):
    """What is wrong with the answers to a deferred stream, and the numbers of bytes that `changes` gave and that the
    images had."""
    found, taken = [], Answers(data)
    image, told, whole = b"", 0, 0
    try:
        for at, (word, demand) in enumerate(deferred.demands):
            if word == "changes":
                answer, count = taken.changes(image)
                image, told, whole = answer, told + count, whole + len(answer)
            elif word in answers.QUERIES:
                answer = taken.bytes()
                image = answer if word == "image" else image
            else:
                answer = taken.line()
            if answer != demand:
                found.append(f"command {at}, {word}: {answer[:80]} in place of {demand[:80]}")
        if taken.at != len(data):
            found.append(f"more is answered: {data[taken.at:taken.at + 80]}")
    except ValueError as wrong:
        found.append(str(wrong))
    return found, told, whole


def memory_stream(made, seed):
    """The commands of a deferred stream of these edits, with a link after half of them and two queries after each."""
    source, found = random.Random(seed), []
    for edit in made:
        found.append(edit)
        if source.random() < 0.5:
            found += [LINK, *source.sample([*QUERIES, CHANGES], 2)]
    return [*found, LINK, CHANGES, b"map\n", b"faults\n"]


def refusals_in(options, commands, data, link_of):
    """How many edits and links were answered `refused 7 0`; a ValueError where an answer is not by the definition, by
    which such an answer leaves the project and the last link as they were. `link_of` gives the link of a project."""
    project, image, refusals, given = edits.Project(options=options), b"", 0, Answers(data)
    linked = link_of(project)
    for command in commands:
        if command == CHANGES:
            image, _ = given.changes(image)
            demand(image == linked.image, command)
        elif command in QUERIES:
            answer = given.bytes()
            demand(answer == getattr(linked, QUERIES[command]), command)
            image = answer if QUERIES[command] == "image" else image
        else:
            line = given.line()
            if line == REFUSED:
                refusals += 1
            elif command == LINK:
                linked = link_of(project)
                demand(line == b"linked %d %d\n" % (linked.status, len(linked.image)), command)
            else:
                following = edits.after(project, answers.edit_of(answers.next_command(command, 0)[0]))
                if isinstance(following, edits.Refusal):
                    demand(line == b"refused %d %d\n" % (following.number, following.inner), command)
                else:
                    demand(line == b"accepted\n", command)
                    project = following
    demand(given.at == len(data), b"the end")
    return refusals


def demand(is_right, command):
    """Ends a look at answers at the first one that is wrong."""
    if not is_right:
        raise ValueError(f"wrong answer to {command[:40]}")
