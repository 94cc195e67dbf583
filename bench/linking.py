"""Links the same files by each linker in turn and prints what each took; for bench/link, bench/image, bench/session and
bench/shapes.

Beside the program that is named stands the one that `make install` puts in place, the static one of examples/self:
where `make -C examples/self` left it, or where STATIC_LDI says."""
import os
import random
import shutil
import statistics
import tempfile
from dataclasses import dataclass

import measuring

ROOT = os.path.realpath(os.path.join(os.path.dirname(os.path.abspath(__file__)), ".."))
SCRIPT_NAME = "t.ld"


def program(words):
    """The path of `ldi`: the first of the words, if it is no number, and else LDI, or where proving leaves it."""
    if words and not words[0].isdigit():
        return os.path.abspath(words.pop(0))
    return os.path.abspath(os.environ.get("LDI", os.path.join(ROOT, "crates/ldi/out/ldi")))


def programs(ldi):
    """The name and the path of `ldi`, and of the static one if it is there."""
    static = os.path.abspath(os.environ.get("STATIC_LDI", os.path.join(ROOT, "examples/self/out/ldi")))
    return {"ldi": ldi, "static": static} if os.access(static, os.X_OK) else {"ldi": ldi}


@dataclass(frozen=True)
class Linker:
    """A linker, and how it is run."""
    name: str
    command: list
    takes_scripts: bool = True

    @property
    def is_own(self):
        """Whether it is `ldi link`."""
        return self.command[1:] == ["link"]

    def words(self, image):
        """Its words, but for options and objects."""
        script = ["-T", SCRIPT_NAME] if self.takes_scripts else ["-static"]
        return [*self.command, *script, "-o", image]


def linkers(ldi):
    """Each linker that is here, `ldi` first, each on one thread. mold takes no script."""
    found = [Linker(name, [path, "link"]) for name, path in programs(ldi).items()]
    if len(found) == 1:
        print("the static program is not there: 'make -C examples/self' links it")
    for name, words, takes_scripts in (
        ("ld.bfd", [], True),
        ("ld.lld", ["--threads=1"], True),
        ("mold", ["--no-fork", "--thread-count=1"], False),
    ):
        path = shutil.which(name)
        if path is None:
            print(f"{name} is not installed")
        else:
            found.append(Linker(name, [path, *words], takes_scripts))
    return found


def write(folder, name, data):
    """Makes a file, and gives its length."""
    with open(os.path.join(folder, name), "wb") as file:
        return file.write(data)


def commands(found, project, folder):
    """For each of these linkers that can link a project its name, its command and the folder that it runs in. The files
    are written to this folder, under their names without folders."""
    write(folder, SCRIPT_NAME, project.script)
    names = [name.replace("/", "_") for name in project.objects]
    for name, data in zip(names, project.objects.values()):
        write(folder, name, data)
    for linker in found:
        if linker.is_own or project.other_link is None:
            yield linker.name, [*linker.words("image"), *project.options * linker.is_own, *names], folder
        elif linker.takes_scripts:
            where, words = project.other_link
            yield linker.name, [*linker.command, *words, "-o", os.path.join(folder, "image")], where


class Link:
    """The links of one project by one linker."""

    def __init__(self, linker, folder, words):
        self.name, self.folder = linker.name, folder
        self.image = os.path.join(folder, f"{linker.name}.out")
        self.command = [*linker.words(self.image), *words]
        self.runs, self.failed = [], None

    def run(self):
        """Links once; keeps what it took, or how it failed."""
        if os.path.exists(self.image):
            os.remove(self.image)
        with tempfile.TemporaryFile() as said:
            usage = measuring.run(self.command, cwd=self.folder, stdout=said, stderr=said)
            self.runs.append(usage)
            if usage.status != 0:
                said.seek(0)
                lines = said.read(200).decode(errors="replace").splitlines()
                self.failed = f"status {usage.status}: {''.join(lines[:1])}"

    @property
    def length(self):
        """The length of the image."""
        return os.path.getsize(self.image)

    @property
    def seconds(self):
        """The least time of all runs on the clock."""
        return min(run.seconds for run in self.runs)

    @property
    def median(self):
        """The median time on the clock of all runs."""
        return statistics.median(run.seconds for run in self.runs)

    @property
    def processor(self):
        """The least time of the processor of all runs."""
        return min(run.processor for run in self.runs)

    @property
    def memory(self):
        return max(run.memory for run in self.runs)

    def line(self, given):
        """A line of the table; `given` is the length of all input."""
        if self.failed is not None:
            return f"  {self.name:8} {self.failed}"
        return (f"  {self.name:8} {self.seconds * 1000:9.1f} {self.median * 1000:9.1f} {self.processor * 1000:9.1f} "
                f"{self.memory / 1e6:9.1f} {self.memory / given:6.1f} {self.length:11}")


def links(found, folder, words):
    """The links of one project by all linkers."""
    return [Link(linker, folder, words) for linker in found]


def shuffled(some, number):
    """These in the order of a round, another one in each: what runs after a small program finds the files in the cache,
    and free pages of 2 MB, and takes up to a third less time than after a large one."""
    return random.Random(number).sample(list(some), len(some))


def run(all_links, rounds):
    """Runs links one after the other in each of several rounds, each time in another order."""
    for number in range(rounds):
        for one in shuffled(all_links, number):
            one.run()


HEAD = f"  {'':8} {'ms, least':>9} {'median':>9} {'processor':>9} {'peak MB':>9} {'/input':>6} {'image':>11}"


def ratios(some_links):
    """A line for each other linker: median time and peak memory of `ldi` as multiples of its own; of both programs."""
    good = [link for link in some_links if link.failed is None]
    for own in (link for link in good if link.name in ("ldi", "static")):
        for other in (link for link in good if link.name not in ("ldi", own.name)):
            yield (f"  {own.name} takes {own.median / other.median:.2f} times the time of {other.name}, "
                   f"{own.memory / other.memory:.2f} times its memory")


def show(title, some_links, given):
    """Prints the table of a project's links, `ldi` first, and its ratios; `given` is the length of all input."""
    lines = [f"{title}, {given / 1e6:.1f} MB of input", HEAD, *(one.line(given) for one in some_links)]
    print("\n".join([*lines, *ratios(some_links)]), flush=True)
