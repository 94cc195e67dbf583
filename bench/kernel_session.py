"""The kernel that tools/check-kernel built, as a session of `ldi` has it: for bench/edits and bench/session.

`ld.ldi` makes the kernel's last link, through a session whose commands are noted. So script, objects and options are
those of the link.
"""
import glob
import os
import subprocess
import sys
import tempfile

ROOT = os.path.realpath(os.path.join(os.path.dirname(os.path.abspath(__file__)), ".."))
sys.path.insert(0, ROOT)

import object_edits  # noqa: E402
from built_kernel import last_link  # noqa: E402
from calculator.build import CODE, DATA, Rel, Sec, Sym, build  # noqa: E402
from sessions import Project  # noqa: E402

LD_LDI = os.environ.get("LD_LDI") or os.path.join(ROOT, "front", "bin", "ld.ldi")
ADDRESS, OTHER_ADDRESS = "ALIGN(0x1000000,", "ALIGN(0x1200000,"
"""Where the script puts the kernel, and where another one does."""
PLT32 = 4

NOTING = """#!/bin/sh
if [ "$1" != session ]; then exec "{ldi}" "$@"; fi
shift
printf '%s\\n' "$@" > {room}/$$.words
tee {room}/$$.commands | "{ldi}" session "$@"
"""


def noted(ldi, folder, words):
    """The options of the session of a link by `ld.ldi`, and its edits, each with its payload."""
    with tempfile.TemporaryDirectory() as room:
        program = os.path.join(room, "ldi")
        with open(program, "w", encoding="utf-8") as file:
            file.write(NOTING.format(ldi=ldi, room=room))
        os.chmod(program, 0o755)
        command = [LD_LDI, "--no-server", *words, "-o", os.path.join(room, "image")]
        subprocess.run(command, cwd=folder, env={**os.environ, "LDI": program}, check=True, stderr=subprocess.PIPE)
        last = max(glob.glob(os.path.join(room, "*.commands")), key=os.path.getmtime)
        with open(last.replace(".commands", ".words"), encoding="utf-8") as file:
            options = [word for word in file.read().split() if word != "--deferred"]
        with open(last, "rb") as file:
            return options, list(edits_in(file))


def edits_in(stream):
    """The line and the payload of each edit of a stream of commands."""
    while line := stream.readline():
        words = line.decode().split()
        payload = stream.read(int(words[-1])) if words[0] in ("add", "replace", "script") else b""
        if words[0] not in ("image", "map", "faults", "link", "changes"):
            yield line.decode().rstrip("\n"), payload


def objects_after(edits):
    """The objects after some edits, by their names in their order."""
    order, objects = [], {}
    for line, payload in edits:
        words = line.split()
        if words[0] == "add":
            order.insert(int(words[2]), words[1])
        elif words[0] == "move":
            order.remove(words[1])
            order.insert(int(words[2]), words[1])
        elif words[0] == "remove":
            order.remove(words[1])
        if words[0] in ("add", "replace"):
            objects[words[1]] = payload
    return {name: objects[name] for name in order}


def script_after(edits):
    """The script after some edits."""
    return [payload for line, payload in edits if line.startswith("script ")][-1]


def at_another_address(ldi, folder, words):
    """The script of the same link with another address."""
    path = next(word for word in words if word.endswith("vmlinux.lds")).removeprefix("--script=")
    with open(os.path.join(folder, path), encoding="utf-8") as file:
        text = file.read()
    if ADDRESS not in text:
        sys.exit(f"{path}: no {ADDRESS}")
    with tempfile.NamedTemporaryFile("w", suffix=".lds", encoding="utf-8") as other:
        other.write(text.replace(ADDRESS, OTHER_ADDRESS))
        other.flush()
        _, edits = noted(ldi, folder, [word.replace(path, other.name) for word in words])
        return script_after(edits)


def edited(objects):
    """The name of the object that is edited, the first from the middle on in which each edit can be made; what the
    edits make of it; and the function that it then calls."""
    names = list(objects)
    middle = len(names) // 2
    for name in names[middle:] + names[:middle]:
        try:
            called = object_edits.function_elsewhere(objects.values(), objects[name])
            return name, object_edits.variants(objects[name], called), called.decode()
        except object_edits.Unsuited:
            pass
    sys.exit("no object for the edits")


def leaf(called):
    """An object that no other refers to, with a call of a function."""
    return build([Sec(".text", b"\x90" * 64, CODE, alignment=16), Sec(".data", bytes(64), DATA, alignment=8)],
                 [Sym("ldi_leaf", 1, 0, 64), Sym("ldi_leaf_data", 2, 0, 64), Sym(called)],
                 [Rel(1, 1, PLT32, called, -4)])


def kernel(ldi, folder):
    """The project of the kernel's last link, which other linkers link by its own words. Its first object stays first:
    it has the start, whose address is a number in the script that is sent."""
    words = last_link(folder)
    options, opening = noted(ldi, folder, words)
    objects = objects_after(opening)
    name, variants, called = edited(objects)
    return Project(f"the kernel of {folder}, {len(objects)} objects, edits of {name}", script_after(opening), objects,
                   name, variants, leaf(called), at_another_address(ldi, folder, words), opening, tuple(options),
                   (folder, words), 1)
