"""A session of `ldi` through two pipes, the projects that bench/session and bench/edits open, and the edits that they
make in them."""
import fcntl
import subprocess
import threading
import time
from dataclasses import dataclass, field

from calculator.projects import (
    CALL, FUNCTION, LONGER, SCRIPT, SECTION, VALUE, project_object)

LONGEST = 300.0
PIPE_BYTES = 1 << 20
SEVERAL = 24
"""The number of objects that are replaced at once."""


class Session:
    """A session through two pipes, which hold as much as those of the front end's sessions."""

    def __init__(self, ldi, words=()):
        self.process = subprocess.Popen([ldi, "session", *words], stdin=subprocess.PIPE, stdout=subprocess.PIPE)
        for pipe in (self.process.stdin, self.process.stdout):
            fcntl.fcntl(pipe, fcntl.F_SETPIPE_SZ, PIPE_BYTES)

    def ask(self, line, payload=b""):
        """Sends a command; gives its answer's line, the bytes after it, and the time in seconds."""
        start = time.perf_counter()
        self.process.stdin.write(line.encode() + b"\n" + payload)
        self.process.stdin.flush()
        answer = self.answer()
        return answer, self.rest_of(answer), time.perf_counter() - start

    def rest_of(self, answer):
        """The bytes after the line of an answer: of an image or a text, or of the ranges of `changes`."""
        if answer[0] == "changes":
            ranges = [self.answer() for _ in range(int(answer[2]))]
            return self.process.stdout.read(sum(int(count) for _, count in ranges))
        return self.process.stdout.read(int(answer[1])) if answer[0] == "bytes" else b""

    def write(self, commands):
        """Sends commands whose answers are read meanwhile, each by `answer`; ends where the session does."""
        try:
            for line, payload in commands:
                self.process.stdin.write(line.encode() + b"\n" + payload)
            self.process.stdin.flush()
        except BrokenPipeError:
            pass

    def answer(self):
        """The words of the next answer."""
        return self.process.stdout.readline().decode().split()

    def peak(self):
        """The peak memory in bytes."""
        with open(f"/proc/{self.process.pid}/status") as lines:
            return next(int(line.split()[1]) * 1024 for line in lines if line.startswith("VmHWM"))

    def processor(self):
        """The seconds of the processor so far."""
        with open(f"/proc/{self.process.pid}/schedstat", encoding="ascii") as numbers:
            return int(numbers.read().split()[0]) / 1e9

    def end(self):
        self.process.stdin.close()
        self.process.wait()


@dataclass(frozen=True)
class Project:
    """A project, and what is sent to edit it."""
    title: str
    script: bytes
    objects: dict
    """The objects by their names, in their order."""
    edited: str
    """The name of the object that is edited."""
    variants: dict
    """The objects that come in its place, by what is changed; the first one differs in bytes alone."""
    leaf: bytes
    """An object that no other refers to."""
    other_script: bytes
    """The script with another address."""
    opening: list
    """The line and the payload of each command that opens it."""
    options: tuple = ()
    """The words of the session's options."""
    other_link: tuple | None = None
    """The folder and the words of the link by other linkers, where that is not one of these objects and this script."""
    front: int = 0
    """The first place to which an object is moved."""
    several: dict = field(default_factory=dict)
    """Objects that come in the place of others at once, each with a longer function."""

    @property
    def size(self):
        """The bytes of all input."""
        return len(self.script) + sum(map(len, self.objects.values()))

    def open(self, program):
        """A session of its own in which the project is open, and what its opening took."""
        session = Session(program, self.options)
        opened = send(session, self.opening)
        assert opened.answer[:2] == ["linked", "0"], opened.answer
        return session, opened


def opening(objects, script_first, entry_last):
    """The commands that open the project of these objects in their order; the first one has the entry symbol."""
    script = (f"script {len(SCRIPT)}", SCRIPT)
    adds = [(f"add o{number}.o {0 if entry_last else number} {len(data)}", data) for number, data in enumerate(objects)]
    if entry_last:
        adds.reverse()
    return [script, *adds] if script_first else [*adds, script]


def made_project(count):
    """The project of so many objects of tools/calculator/projects.py."""
    objects, middle = [project_object(number, count) for number in range(count)], count // 2
    variants = {
        "other bytes": project_object(middle, count, code=b"\xcc"),
        "a symbol that moves": project_object(middle, count, other=VALUE),
        "one longer function": project_object(middle, count, other=LONGER),
        "ten longer functions": project_object(middle, count, 528),
        "a call more": project_object(middle, count, other=CALL),
        "a symbol more": project_object(middle, count, another=True),
        "a function more": project_object(middle, count, other=FUNCTION),
        "a section more": project_object(middle, count, other=SECTION),
    }
    several = {f"o{number}.o": project_object(number, count, other=LONGER)
               for number in range(0, count, max(count // SEVERAL, 1))[:SEVERAL]}
    return Project(f"{count} objects", SCRIPT, {f"o{number}.o": data for number, data in enumerate(objects)},
                   f"o{middle}.o", variants, project_object(count, count), SCRIPT.replace(b"0x401000", b"0x403000"),
                   opening(objects, True, True), several=several)


@dataclass(frozen=True)
class Opened:
    """How many commands were answered, the last answer, and seconds: of all, of the last one."""
    answered: int
    answer: list
    seconds: float
    last: float


def send(session, commands):
    """Opens a project, or a part of it, where that takes too long. As in the front end, a thread sends the
    commands, and the answers are read meanwhile."""
    writer = threading.Thread(target=session.write, args=(commands,))
    start = before = now = time.perf_counter()
    answer, answered, last = [], 0, 0.0
    writer.start()
    for _ in commands:
        answer = session.answer()
        assert answer[:1] in (["linked"], ["accepted"]), answer
        answered += 1
        before, now = now, time.perf_counter()
        last = now - before
        if now - start > LONGEST:
            session.process.kill()
            break
    writer.join()
    return Opened(answered, answer, now - start, last)


def first_edits(project):
    """The title, the line and the payload of the edits that come first: bytes alone and back; and a longer function and
    back, for which the session takes memory that it keeps."""
    before = project.objects[project.edited]
    changed = next(iter(project.variants.values()))
    yield "other bytes, first", f"replace {project.edited} {len(changed)}", changed
    yield "other bytes, later", f"replace {project.edited} {len(before)}", before
    for what, longer in project.variants.items():
        if "longer" in what:
            yield f"{what}, first", f"replace {project.edited} {len(longer)}", longer
            yield f"back: {what}, first", f"replace {project.edited} {len(before)}", before
            break


def edits_of(project):
    """The title, the line and the payload of each edit and query."""
    name, before = project.edited, project.objects[project.edited]
    middle = list(project.objects).index(name)
    yield "script", f"script {len(project.script)}", project.script
    yield "script of another address", f"script {len(project.other_script)}", project.other_script
    yield "script of the first address", f"script {len(project.script)}", project.script
    for what, after in project.variants.items():
        yield f"replace: {what}", f"replace {name} {len(after)}", after
        yield f"back: {what}", f"replace {name} {len(before)}", before
    yield "replace by the same", f"replace {name} {len(before)}", before
    yield "move to the front", f"move {name} {project.front}", b""
    yield "move back", f"move {name} {middle}", b""
    yield "add, none refers to it", f"add leaf.o {middle} {len(project.leaf)}", project.leaf
    yield "remove, none refers to it", "remove leaf.o", b""
    yield "remove", f"remove {name}", b""
    yield "add again", f"add {name} {middle} {len(before)}", before
    for query in ("image", "map", "faults"):
        yield query, query, b""


def deferred_opening(project):
    """The commands that open a project in a deferred session, with one link."""
    edits = [edit for edit in project.opening if edit[0] not in ("link", "changes")]
    return [*edits, ("link", b"")]


def deferred_edits(project):
    """The title and the edits of each link of a deferred session, most of them made back by the next one."""
    name = project.edited
    longer = next(data for what, data in project.variants.items() if "longer" in what)
    bytes_alone = next(iter(project.variants.values()))

    def replace(objects):
        return [(f"replace {name} {len(data)}", data) for name, data in objects.items()]

    def script(text):
        return [(f"script {len(text)}", text)]

    before = {name: project.objects[name]}
    yield "other bytes", replace({name: bytes_alone})
    yield "back: other bytes", replace(before)
    yield "a longer function", replace({name: longer})
    yield "back: a longer function", replace(before)
    if project.several:
        yield f"{len(project.several)} objects, a longer function each", replace(project.several)
        yield "back: these", replace({name: project.objects[name] for name in project.several})
    yield "script of another address", script(project.other_script)
    yield "script of the first address", script(project.script)
    yield "script of another address, object", [*script(project.other_script), *replace({name: longer})]
    yield "back: both", [*script(project.script), *replace(before)]
