"""Runs programs and measures them: time on the clock, time of the processor, greatest memory. Needs cc (measured.c)."""
import atexit
import functools
import os
import subprocess
import tempfile
from dataclasses import dataclass

SOURCE = os.path.join(os.path.dirname(os.path.abspath(__file__)), "measured.c")


@dataclass(frozen=True)
class Usage:
    """The exit status, seconds on the clock, seconds of the processor (user and system), and bytes of memory."""
    status: int
    seconds: float
    processor: float
    memory: int


@functools.cache
def helper():
    """The built program that starts others."""
    folder = tempfile.TemporaryDirectory()
    atexit.register(folder.cleanup)
    program = os.path.join(folder.name, "measured")
    subprocess.run(["cc", "-O2", "-static", "-o", program, SOURCE], check=True)
    return program


def run(command, **how):
    """Runs a program to its end; `how` is as in `subprocess.run`."""
    inner, outer = os.pipe()
    with open(inner, encoding="ascii") as line:
        try:
            subprocess.run([helper(), str(outer), *command], pass_fds=[outer], check=True, **how)
        finally:
            os.close(outer)
        status, nanoseconds, microseconds, kilobytes = map(int, line.read().split())
    return Usage(status, nanoseconds / 1e9, microseconds / 1e6, kilobytes * 1024)
