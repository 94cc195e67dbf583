"""Random scripts over random small objects: what `layout` makes of them beside what GNU ld does
(`tools/fuzz-layout`)."""
from __future__ import annotations

import os
import re
import resource
import subprocess
import sys
from collections import Counter
from dataclasses import dataclass, field
from random import Random

from tests.object_file import ALLOC, ObjectFile
from tests.fuzz import objects
from tests.fuzz.images import NOPS, Image, loads_of, read_image
from tests.fuzz.scripts import Case, case, with_options, without_rest

SAME, DIFFERS, UNKNOWN, BOTH_REFUSE = "same", "DIFFERENT", "not evaluated", "refused by both"
GNU_REFUSES, WE_REFUSE, FAILED = "refused by GNU ld alone", "REFUSED BY US ALONE", "FAILED"
GREATEST = 1 << 25
GNU = ["ld.bfd", "-static", "--no-warn-rwx-segments", "--no-warn-execstack", "-Map", "gnu.map"]
PIECE = re.compile(r"^ (\S+)\s+(0x[0-9a-f]+)\s+(0x[0-9a-f]+) (\S+)$", re.M)
OTHERS = (".symtab", ".strtab", ".shstrtab", ".comment", "")


@dataclass
class Answer:
    """What `layout` prints."""

    stop: str = ""
    sections: list[list[str]] = field(default_factory=list)
    pieces: list[tuple[int, int, str, str]] = field(default_factory=list)
    contents: list[tuple[str, int, int, bytes, bool]] = field(default_factory=list)
    """Of a section by name and address the bytes at a distance; whether they are a gap without a fill."""
    symbols: dict[str, int] = field(default_factory=dict)
    script: set[str] = field(default_factory=set)
    entry: int = 0
    headers: int = -1


class Program:
    """The program `layout`, which answers one call after the other."""

    def __init__(self, path: str) -> None:
        self.process = subprocess.Popen([path, "-"], stdin=subprocess.PIPE, stdout=subprocess.PIPE, text=True,
                                        encoding="latin-1")

    def ask(self, words: list[str]) -> list[str]:
        """The lines of an answer."""
        assert self.process.stdin is not None and self.process.stdout is not None
        self.process.stdin.write("\t".join(words) + "\n")
        self.process.stdin.flush()
        lines = []
        for line in self.process.stdout:
            if line == ".\n":
                return lines
            lines.append(line.rstrip("\n"))
        raise RuntimeError("layout ended")


def number(text: str) -> int:
    return int(text, 0)


def read_answer(lines: list[str]) -> Answer:
    """An answer's lines as what they say."""
    answer, start, name, has_bytes = Answer(), 0, "", False
    for line in lines:
        word, *rest = line.split(" ")
        if word in ("refused", "unknown", "failed"):
            answer.stop = line
        elif word == "section":
            answer.sections.append(rest)
            name, start, has_bytes = rest[0], number(rest[1]), rest[7] == "1"
        elif word == "input":
            answer.pieces.append((number(rest[0]), number(rest[1]), rest[2], rest[3]))
        elif word == "data" and has_bytes:
            size = number(rest[1])
            value = number(rest[2]) & (1 << 8 * size) - 1
            answer.contents.append((name, start, number(rest[0]), value.to_bytes(size, "little"), False))
        elif word == "gap" and has_bytes:
            size, fill = number(rest[1]), b"\0" if rest[2] == "-" else bytes.fromhex(rest[2])
            if size < 1 << 16:
                data = (fill * (size // len(fill) + 1))[:size]
                answer.contents.append((name, start, number(rest[0]), data, rest[2] == "-"))
        elif word == "symbol":
            answer.symbols[rest[0]] = number(rest[1])
            if rest[2].startswith("Script"):
                answer.script.add(rest[0])
        elif word == "entry":
            answer.entry = number(rest[0])
        elif word == "headers" and rest[1] == "1":
            answer.headers = number(rest[0])
    return answer


def pieces_of(text: str) -> list[tuple[int, int, str, str]]:
    """The input sections of GNU ld's map that are not empty."""
    text = text[text.find("Linker script and memory map"):]
    text = re.sub(r"^( \S+)\n +(0x)", r"\1 \2", text, flags=re.M)
    return [(number(address), number(size), owner, name) for name, address, size, owner in PIECE.findall(text)
            if number(size) and not name.startswith("*")]


def headers_of(data: bytes) -> dict[str, list[tuple[int, int, int, int, int]]]:
    """By name: addresses, sizes, types, flags and alignments of the sections of an image."""
    found: dict[str, list[tuple[int, int, int, int, int]]] = {}
    file = ObjectFile(data)
    for index, header in enumerate(file.headers):
        name = file.section_name(index).decode("latin-1")
        found.setdefault(name, []).append((header.address, header.size, header.kind, header.flags, header.alignment))
    return found


def differences(answer: Answer, gnu: Image, data: bytes, mapped: str, script: str) -> list[str]:
    """What GNU ld has another. Hidden symbols that no object has it may leave out of its table."""
    found = []
    hidden = re.findall(r"PROVIDE_HIDDEN\((\S+) =", script)
    headers = headers_of(data)
    rest = {(name, *one[:4]): one[4] for name, all_of in headers.items() for one in all_of if name not in OTHERS}
    loads = loads_of(mapped)
    for name, address, load, size, align, kind, bits, _ in answer.sections:
        key = name, number(address), number(size), number(kind), number(bits)
        if name in OTHERS or not number(size) and key not in rest:
            continue
        if key not in rest:
            found.append(f"section {key}: {headers.get(name)}")
        else:
            given = number(align) | key[1]
            if rest.pop(key) != given & -given:
                found.append(f"alignment of {name}")
        if number(bits) & ALLOC and loads.get(key[:3], number(load)) != number(load):
            found.append(f"load address of {name} {load}: {loads[key[:3]]:#x}")
    found += [f"section {key}: not here" for key in rest if key[2]]
    wanted = Counter(pieces_of(mapped))
    own = Counter(piece for piece in answer.pieces if piece[1])
    merged = (".comment", "COMMON")
    for piece, count in (wanted - own).items():
        if piece[3] not in merged[:1]:
            found.append(f"{piece[3]} of {piece[2]} is {piece[1]:#x} at {piece[0]:#x}: not here")
    found += [f"{piece[3]} of {piece[2]} {piece[1]:#x} at {piece[0]:#x}: not GNU ld's" for piece in own - wanted
              if piece[3] not in merged[:1]]
    for name, value in answer.symbols.items():
        theirs = gnu.symbols.get(name, gnu.local.get(name))
        if theirs is not None and theirs != value:
            found.append(f"symbol {name} {value:#x}: {theirs:#x}")
        if theirs is None and name in answer.script and name not in hidden:
            found.append(f"symbol {name} {value:#x}: none")
    for name, value in gnu.symbols.items():
        if name not in answer.symbols and name in answer.script:
            found.append(f"symbol {name}: {value:#x}")
    for name, address, offset, content, is_open in answer.contents:
        for section in gnu.sections:
            if section.data is not None and (section.name, section.address) == (name, address):
                theirs_at = section.data[offset:][:len(content)]
                if theirs_at != content and not (is_open and section.code and set(theirs_at) <= NOPS):
                    found.append(f"bytes of {name} at {offset:#x}: {content[:8].hex()}, GNU ld {theirs_at[:8].hex()}")
    if answer.entry != gnu.entry:
        found.append(f"entry {answer.entry:#x}: {gnu.entry:#x}")
    count = int.from_bytes(data[56:58], "little")
    if 0 <= answer.headers < count:
        found.append(f"program headers {answer.headers}: {count}")
    return found


def object_words(words: list[str]) -> list[str]:
    """The words with the archive's members in its place."""
    found = []
    for word in words:
        if word == objects.ARCHIVE:
            members = ["x1", "x2"] if "--whole-archive" in words else ["x1"]
            found += [f"{objects.ARCHIVE}({name}.o)={name}.o" for name in members]
        elif word != "--whole-archive":
            found.append(word)
    return found


def named_first(one: Case, words: list[str]) -> list[str]:
    """The words of a link whose script stands first: the objects that it names without a wildcard before the others, as
    GNU ld opens them when it reads it."""
    text = one.script
    for inner in one.files.values():
        text = text.replace("INCLUDE inner.ld", inner)
    named = list(dict.fromkeys(re.findall(r"(?<![\w.*?:\]])([a-g]\.o)\)*\(", text)))
    named = [name for name in named if name in words]
    at = len(words) - words[::-1].index("-T") + 1
    return [*words[:at], *named, *(word for word in words[at:] if word not in named)]


def compare(program: Program, one: Case, more: list[str]) -> tuple[str, str]:
    """What came of a case."""
    for name, text in {**one.files, "case.ld": one.script}.items():
        with open(name, "w", encoding="ascii") as file:
            file.write(text)
    if os.path.exists("gnu.out"):
        os.unlink("gnu.out")
    words = one.words("case.ld", "gnu.out")
    done = subprocess.run([*GNU, *more, *words], capture_output=True, text=True, timeout=180, check=False)
    answer = read_answer(program.ask(object_words([*more, *named_first(one, words)])))
    if answer.stop.startswith("failed"):
        return (BOTH_REFUSE if done.returncode else FAILED), answer.stop
    if answer.stop.startswith("unknown"):
        return UNKNOWN, answer.stop
    if done.returncode:
        return (BOTH_REFUSE if answer.stop else GNU_REFUSES), f"{answer.stop} | {done.stderr.strip()}"
    if answer.stop:
        return WE_REFUSE, answer.stop
    if "can't be allocated in segment" in done.stderr or " adjusted to " in done.stderr:
        return GNU_REFUSES, done.stderr  # segments of PHDRS that cannot be as they are asked for
    with open("gnu.out", "rb") as image, open("gnu.map", encoding="latin-1") as map_file:
        data, mapped = image.read(), map_file.read()
    found = differences(answer, read_image(data, loads_of(mapped)), data, mapped, one.script)
    return (DIFFERS, " | ".join(found[:5])) if found else (SAME, "")


COMMON_SOURCE = ".data\n.byte {0}\n.text\n.byte 0x90\n"


def with_commons(seed: int) -> Case:
    """A case whose objects have common blocks, some of them the same."""
    random, one = Random(seed), case(seed)
    for number_of in range(random.choice([1, 2, 3, 4])):
        text = COMMON_SOURCE.format(number_of)
        for name in random.sample(range(12), random.choice([1, 2, 5, 7])):
            text += f".comm com{name}, {random.randrange(1, 70)}, {random.choice([1, 2, 4, 8, 16, 32, 64])}\n"
        subprocess.run(["as", "-o", f"m{number_of}.o", "-"], input=text, text=True, check=True, timeout=180)
        one.objects.append(f"m{number_of}.o")
    if random.random() < 0.2:
        one.before.append(random.choice(["--sort-common", "--sort-common=ascending", "--sort-common=descending"]))
    return one


def with_overlay(one: Case, seed: int) -> Case:
    """A case with an OVERLAY in front of the last section, and one whose sections another script inserts."""
    random = Random(seed)
    lines = one.script.split("\n")
    at = next((i for i, line in enumerate(lines) if REST_OF.search(line)), None)
    if at is not None and random.random() < 0.6:
        head = random.choice(["", " 0x700000", " . + 8"]) + " :"
        head += random.choice(["", " AT(0x3000000)", " AT(0x3000004)"])
        tail = random.choice(["", " =0x90", " =0x1122"])
        bodies = random.sample(["*(.tab*)", "*(cmds)", "*(.rodata.*) LONG(1)", "*(.data)", "BYTE(1) . = ALIGN(8);"], 3)
        sections = " ".join(f".ov{i} {{ {body} }}" for i, body in enumerate(bodies))
        lines.insert(at, f"  OVERLAY{head} {{ {sections} }}{tail}")
        one.script = "\n".join(lines)
    if random.random() < 0.6:
        names = re.findall(r"^  (\.[a-z0-9]+) .*{", one.script, flags=re.M) or [".rest"]
        place = random.choice(["AFTER", "BEFORE"])
        body = random.choice(["*(.vectors) inserted = .;", "*(.init_array*) . = ALIGN(16);", "LONG(0x11) *(.text.b1)"])
        more = random.choice(["", "marked = .; ", ". = . + 16; "])
        one.files["insert.ld"] = f"SECTIONS {{ {more}.new : {{ {body} }} }} INSERT {place} {random.choice(names)};\n"
        one.before += ["-T", "insert.ld"]
    return one


REST_OF = re.compile(r"^  \.[a-z0-9]+ .*\*\(\.text \.text\.\*\)")


def main(words: list[str]) -> int:
    """`fuzz-layout COUNT [SEED] [--gc-sections] [--commons] [--orphans] [--overlays] [--options] [-v]`"""
    given, words = words, [word for word in words if not word.startswith("-")]
    count, first = int(words[0]) if words else 300, int(words[1]) if len(words) > 1 else 0
    folder = os.environ.get("FUZZ_FOLDER", "/tmp/fuzz-layout")
    program = Program(os.environ["LAYOUT"])
    os.makedirs(folder, exist_ok=True)
    os.chdir(folder)
    program.process.kill()
    program = Program(os.environ["LAYOUT"])
    objects.make(".")
    resource.setrlimit(resource.RLIMIT_FSIZE, (GREATEST, GREATEST))
    tally: Counter[str] = Counter()
    for seed in range(first, first + count):
        one = with_commons(seed) if "--commons" in given else case(seed, "--gc-sections" in given)
        one.script = re.sub(r"^(  ASSERT.*\)); $", r"\1", one.script, flags=re.M)  # none there for GNU ld 2.40
        if "--orphans" in given:
            one = without_rest(one, seed)
        if "--options" in given:
            one = with_options(one, seed)
        if "--overlays" in given:
            one = with_overlay(one, seed)
        came, said = compare(program, one, [word for word in given if word in ("-N", "-n")])
        tally[came] += 1
        if came in (DIFFERS, WE_REFUSE, FAILED, *([GNU_REFUSES, UNKNOWN] if "-v" in given else ())):
            print(f"{seed}: {came}: {said}", flush=True)
    print(", ".join(f"{number_of} {came}" for came, number_of in sorted(tally.items())))
    return 1 if tally[DIFFERS] or tally[WE_REFUSE] or tally[FAILED] else 0


if __name__ == "__main__":
    sys.exit(main(sys.argv[1:]))
