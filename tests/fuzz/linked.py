"""A random case linked by GNU ld and by `ld.ldi`, and what came of it."""
from __future__ import annotations

import os
import resource
import subprocess
import sys
import traceback
from collections import Counter
from dataclasses import dataclass, field
from random import Random

from tests.fuzz import objects
from tests.fuzz.adapted import link_adapted
from tests.fuzz.images import differences, loads_of, read_image, segment_differences
from tests.fuzz.scripts import Case, case, with_frames, with_insert, with_more_options, without_rest
from tests.programs import LD_LDI
from tests.symbol_table import table_differences

SAME, CHANGED, REFUSED = "same", "changed, which is said", "refused"
GNU_REFUSES, SILENT, CRASHED = "refused by GNU ld", "SILENT DIFFERENCE", "CRASHED"
LIMIT = 180.0
"""Seconds that a case may take."""
TWICE = 25
"""Of a hundred output sections that might have a name twice, how many do."""

GREATEST = 1 << 25
"""The bytes that a file may have: a case whose image has more is none."""
GNU = ["ld.bfd", "-static", "--no-warn-rwx-segments", "--no-warn-execstack", "-Map", "gnu.map"]


@dataclass
class Came:
    """What came of a case."""

    outcome: str
    said: str = ""
    found: list[str] = field(default_factory=list)


def prepare(one: Case) -> None:
    """Writes a case's files here, where the pool of objects is."""
    for name, text in {**one.files, "case.ld": one.script}.items():
        with open(name, "w", encoding="ascii") as file:
            file.write(text)
    for name in ("gnu.out", "ldi.out"):
        if os.path.exists(name):
            os.unlink(name)


def by_ldi(words: list[str]) -> tuple[int, str]:
    """The status of `ld.ldi`, and what it says; no other linker links in its place."""
    done = subprocess.run([LD_LDI, *words], capture_output=True, text=True, errors="replace", timeout=LIMIT,
                          check=False, env={**os.environ, "LDI_FALLBACK": "none", "LDI_SERVER": "0"})
    if done.returncode < 0 or done.returncode > 4:
        raise RuntimeError(f"status {done.returncode}: {done.stderr}")
    return done.returncode, done.stdout + done.stderr


def link(one: Case, with_headers: bool = False) -> Came:
    """Links a case by both; `with_headers` compares the headers of sections too."""
    prepare(one)
    try:
        done = subprocess.run([*GNU, *one.words("case.ld", "gnu.out")], capture_output=True, text=True, timeout=180,
                              check=False)
    except subprocess.TimeoutExpired:
        return Came(GNU_REFUSES)
    if done.returncode:
        return Came(GNU_REFUSES, done.stderr)
    try:
        status, said = by_ldi(one.words("case.ld", "ldi.out"))
    except Exception:  # whatever it is, it is a defect
        return Came(CRASHED, traceback.format_exc())
    if status:
        return Came(REFUSED, said)
    with open("gnu.out", "rb") as file, open("gnu.map", encoding="latin-1") as mapped:
        gnu, loads = file.read(), loads_of(mapped.read())
    with open("ldi.out", "rb") as file:
        own = file.read()
    found = differences(read_image(gnu, loads), read_image(own, loads), with_headers) + table_differences(gnu, own)
    if "PHDRS {" not in one.script:
        found += segment_differences(gnu, own)
    if not found:
        return Came(SAME, said)
    reported = any("changed:" in line or "PHDRS:" in line for line in said.splitlines())
    return Came(CHANGED if reported else SILENT, said, found)


def adapted_came(one: Case, knows_objects: bool) -> tuple[str, str, list[str]]:
    """What comes of a case whose script `ldi-adapt` writes anew."""
    outcome, found = link_adapted(one, knows_objects)
    return outcome, "", found


def main(words: list[str]) -> int:
    """`fuzz-adapt COUNT [SEED] [OPTIONS]`: that many cases, and a line for each silent difference."""
    given, words = words, [word for word in words if not word.startswith("-")]
    count, first = int(words[0]) if words else 300, int(words[1]) if len(words) > 1 else 0
    folder = os.environ.get("FUZZ_FOLDER", "/tmp/fuzz-adapt")
    os.makedirs(folder, exist_ok=True)
    os.chdir(folder)
    objects.make(".")
    resource.setrlimit(resource.RLIMIT_FSIZE, (GREATEST, GREATEST))
    tally: Counter[str] = Counter()
    for seed in range(first, first + count):
        if {"--commons", "--objects"}.intersection(given) and (seed == first or seed % 10 == 0):
            objects.make(".", seed // 10 if "--commons" in given else None,
                         seed // 10 if "--objects" in given else None)
        one = case(seed, "--gc-sections" in given, TWICE, "--objects" in given)
        if "--orphans" in given:
            one = without_rest(one, seed)
            one.objects += objects.make_orphans(".", seed)
        if "--frames" in given:
            one = with_frames(one, seed)
            one.objects += objects.make_frames(".", seed)
        if "--insert" in given:
            one = with_insert(one, seed)
        if "--options" in given:
            one = with_more_options(one, seed)
        if "--relocations" in given:
            one.after = [*one.after, "--emit-relocs"]
        elif "--headers" in given and Random(f"{seed} strip").randrange(8) == 0:
            one.after = [*one.after, "-s"]
        if {"--adapt", "--adapt-alone"}.intersection(given):
            prepare(one)
            came = Came(*adapted_came(one, "--adapt" in given))
        else:
            came = link(one, "--headers" in given)
        tally[came.outcome] += 1
        if came.outcome in (SILENT, CRASHED) or "-v" in given:
            print(f"{seed}: {came.outcome}: {' | '.join(came.found[:4]) or came.said[-300:]}", flush=True)
    print(", ".join(f"{number} {outcome}" for outcome, number in sorted(tally.items())))
    return 1 if tally[SILENT] or tally[CRASHED] else 0


if __name__ == "__main__":
    sys.exit(main(sys.argv[1:]))
