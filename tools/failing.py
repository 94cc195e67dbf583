"""Runs of `ldi session` with one allocation that fails: tools/fail_alloc.c stands before the C library. Needs gcc."""
import os
import struct
import subprocess

HERE = os.path.dirname(os.path.realpath(__file__))


class Trial:
    """Runs the program with one allocation that fails."""

    def __init__(self, program, folder):
        self.program, self.folder = program, folder
        self.library = os.path.join(folder, "fail_alloc.so")
        self.counted = os.path.join(folder, "counted")
        with open(self.counted, "wb") as file:
            file.write(bytes(8))
        source = os.path.join(HERE, "fail_alloc.c")
        subprocess.run(["gcc", "-O1", "-shared", "-fPIC", "-o", self.library, source, "-ldl"], check=True)

    def run(self, words, stream, fail=0):
        """What it prints, its status, and how many allocations it asked for."""
        given = {"LD_PRELOAD": self.library, "FAIL": str(fail), "COUNTED": self.counted}
        command = [self.program, "session", *words]
        done = subprocess.run(command, input=stream, capture_output=True, env=given, timeout=600)
        with open(self.counted, "rb") as file:
            return done.stdout, done.returncode, struct.unpack("<Q", file.read(8))[0]
