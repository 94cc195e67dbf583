"""A random script that `ldi-adapt` writes anew, linked by `ldi`, beside GNU ld's link of the script as it is."""
from __future__ import annotations

import os
import subprocess

from tests.adapt_compare import LinkFailed, differences, link_gnu, link_ldi
from tests.adapting import adapt
from tests.fuzz.scripts import Case

SAME, CHANGED, LEFT = "same", "changed, which is said", "left"
GNU_REFUSES, REFUSED, SILENT, CRASHED = "refused by GNU ld", "refused by ldi", "SILENT DIFFERENCE", "CRASHED"


def link_adapted(one: Case, knows_objects: bool) -> tuple[str, list[str]]:
    """What comes of a case whose files are here, and the differences; only its objects that are no archives count."""
    words = [word for word in one.before + one.after if word.startswith("--defsym=")]
    names = [name for name in one.objects if name.endswith(".o")]
    for name in ("gnu.out", "ldi.out", "adapted.ld"):
        if os.path.exists(name):
            os.unlink(name)
    try:
        gnu = link_gnu("case.ld", names, "gnu.out", tuple(words))
    except (LinkFailed, subprocess.TimeoutExpired):
        return GNU_REFUSES, []
    result = adapt("case.ld", "-o", "adapted.ld", *words, *(["--objects", *names] if knows_objects else []))
    if result.status not in (0, 1, 2) or "panicked" in result.errors:
        return CRASHED, [result.errors]
    if result.status:
        return (CHANGED if result.status == 1 else LEFT), []
    try:
        own = link_ldi("adapted.ld", names, "ldi.out")
    except LinkFailed as fault:
        return REFUSED, [str(fault)]
    found = differences(gnu, own)
    return (SILENT if found else SAME), found
