"""A session of `ldi` that something is done to: a program in the place of `ldi`, by LDI, that passes on what it gets.

Before it passes on the command `image` or `changes`, it runs the file of the name `between` in the working folder,
which it renames first, so that this is done once. So tests change files after a program has asked for the image, or
hold up a link for as long as they need. It works meanwhile, since a server gives up a link on which nothing works.
"""
from __future__ import annotations

import os
import stat
from pathlib import Path

from tests.programs import LDI

PROGRAM = f"""#!/usr/bin/python3
import os, subprocess, sys, time
if sys.argv[1:2] != ["session"]:
    os.execv("{LDI}", ["{LDI}", *sys.argv[1:]])
session = subprocess.Popen(["{LDI}", *sys.argv[1:]], stdin=subprocess.PIPE)
source = open(0, "rb")
while line := source.readline():
    words = line.split()
    if words and words[0] in (b"image", b"changes"):
        try:
            os.rename("between", "between.done")
        except OSError:
            pass
        else:
            run = subprocess.Popen(["/bin/sh", "between.done"], stdin=subprocess.DEVNULL, stdout=subprocess.DEVNULL)
            while run.poll() is None:
                time.sleep(0.01)
                end = time.process_time() + 0.001
                while time.process_time() < end:
                    pass
            assert run.returncode == 0
    session.stdin.write(line)
    if words and words[0] in (b"add", b"replace", b"script"):
        left = int(words[-1])
        while left and (part := source.read(min(left, 1 << 20))):
            session.stdin.write(part)
            left -= len(part)
    session.stdin.flush()
session.stdin.close()
sys.exit(session.wait())
"""


def put_between(folder: str | os.PathLike[str], commands: str) -> None:
    """Has these commands of the shell run in a working folder before the next image is passed on."""
    new = Path(folder, "between.new")
    new.write_text(commands, encoding="utf-8")
    new.rename(Path(folder, "between"))


def session_between(folder: str | os.PathLike[str]) -> str:
    """Writes the program into a folder; gives its path, for LDI."""
    path = Path(folder, "between-ldi")
    path.write_text(PROGRAM, encoding="utf-8")
    path.chmod(path.stat().st_mode | stat.S_IXUSR)
    return str(path)


def hold(folder: str | os.PathLike[str]) -> None:
    """Has the next image wait until `let_go`, or until the folder goes."""
    Path(folder, "go").unlink(missing_ok=True)
    Path(folder, "between.done").unlink(missing_ok=True)
    put_between(folder, "while [ -e between.done ] && [ ! -e go ]; do sleep 0.05; done")


def is_held(folder: str | os.PathLike[str]) -> bool:
    """Whether the session has come to the image that waits."""
    return Path(folder, "between.done").exists()


def let_go(folder: str | os.PathLike[str]) -> None:
    """Has the session go on."""
    Path(folder, "go").touch()
