"""The programs, by the variables that name them, and a folder in which they are run."""
from __future__ import annotations

import os
import re
import shutil
import signal
import struct
import subprocess
import tempfile
import time
import unittest
from collections.abc import Callable, Mapping
from pathlib import Path

ROOT = Path(__file__).resolve().parents[1]
BIN = ROOT / "front" / "bin"
"""The front end under its names, as `tools/build-front` built it."""


def program(variable: str, otherwise: Path) -> str:
    """The path of the program that a variable names."""
    return os.path.abspath(os.environ.get(variable) or otherwise)


LD_LDI = program("LD_LDI", BIN / "ld.ldi")
LDI_WATCH = program("LDI_WATCH", BIN / "ldi-watch")
LDI_ADAPT = program("LDI_ADAPT", BIN / "ldi-adapt")
LDI_GDB = program("LDI_GDB", BIN / "ldi-gdb")
LDI = program("LDI", ROOT / "crates" / "ldi" / "out" / "ldi")
os.environ["LDI"] = LDI  # for the programs that a test starts with the environment of its own process

LIMIT = 180.0
"""Seconds after which a program that a test runs is ended, and the test fails, also on a slow machine."""
PATIENCE = 60.0
"""Seconds after which a test gives up waiting for what is to happen."""
ANSWER = "20"
"""The seconds that a call waits for an answer of its server, where the machine may be busy with other things."""

FLAGS = ("-O2", "-ffreestanding", "-fno-pic", "-fno-stack-protector", "-fno-asynchronous-unwind-tables")
CLEARED = ("CI", "container", "LDI_FALLBACK", "LDI_SERVER_IDLE", "LDI_SERVER_MEMORY")
"""Variables of which a test says itself what they are."""

Done = subprocess.CompletedProcess[str]


def beside_ldi(name: str) -> str:
    """The path of a program that is built as `ldi` is: beside it, or in the folder of its own crate."""
    own = Path(LDI).with_name(name)
    return str(own if own.exists() else ROOT / "crates" / name / "out" / name)


class OutsideTest(unittest.TestCase):
    """Tests in a temporary folder. No server is started but by `serve`, and none is left."""

    folder: Path

    def setUp(self) -> None:
        """Makes the folder, and one for sockets."""
        self.folder = Path(tempfile.mkdtemp(prefix="ldi-outside-"))
        self.addCleanup(shutil.rmtree, self.folder, ignore_errors=True)
        self.sockets = self.folder / "run"
        self.sockets.mkdir(mode=0o700)
        self.addCleanup(self._stop_servers)

    # files

    def write(self, name: str, text: str | bytes) -> Path:
        """Writes a file in the folder."""
        path = self.folder / name
        path.parent.mkdir(parents=True, exist_ok=True)
        path.write_bytes(text if isinstance(text, bytes) else text.encode())
        return path

    def compile(self, name: str, text: str, *flags: str) -> str:
        """Compiles a source, C or assembly by the end of its name; gives the name of the object."""
        self.write(name, text)
        output = name.rsplit(".", 1)[0] + ".o"
        self.must("gcc", *FLAGS, *flags, "-c", name, "-o", output)
        return output

    def read(self, name: str) -> bytes:
        """The bytes of a file in the folder."""
        return (self.folder / name).read_bytes()

    # programs

    def env(self, **more: str) -> dict[str, str]:
        """The environment of a program."""
        own = {name: value for name, value in os.environ.items() if name not in CLEARED}
        return own | {"LDI": LDI, "LDI_SERVER": "0", "XDG_RUNTIME_DIR": str(self.sockets)} | more

    def run_program(self, *words: str | Path, env: Mapping[str, str] | None = None, limit: float = LIMIT,
                    cwd: str | Path = "", stdin: int | str | None = None) -> Done:
        """Runs a program in the folder, or in `cwd` there; `env` is added to the environment, `stdin` may be a text."""
        given = {"input": stdin} if isinstance(stdin, str) else {"stdin": stdin or subprocess.DEVNULL}
        return subprocess.run([str(word) for word in words], cwd=self.folder / cwd, env=self.env(**(env or {})),
                              capture_output=True, text=True, errors="replace", timeout=limit, check=False, **given)

    def must(self, *words: str | Path, **how: object) -> str:
        """Runs a program that must succeed; gives its standard output."""
        done = self.run_program(*words, **how)  # type: ignore[arg-type]
        self.assertEqual(done.returncode, 0, f"{words}: {done.stdout}{done.stderr}")
        return done.stdout

    def ld(self, *words: str, **how: object) -> Done:
        """Runs `ld.ldi` without a server."""
        return self.run_program(LD_LDI, *words, **how)  # type: ignore[arg-type]

    def links(self, *words: str, **how: object) -> Done:
        """Runs `ld.ldi`, which must succeed."""
        done = self.ld(*words, **how)
        self.assertEqual(done.returncode, 0, f"{words}: {done.stdout}{done.stderr}")
        return done

    # servers

    def serving(self, **more: str) -> dict[str, str]:
        """The environment of calls that use a server, which has time to answer on a busy machine."""
        return {"LDI_SERVER": "1", "LDI_SERVER_ANSWER": ANSWER, **more}

    def serve(self, *words: str, env: Mapping[str, str] | None = None, **how: object) -> Done:
        """Runs `ld.ldi` with a server."""
        return self.ld(*words, env=self.serving(**(env or {})), **how)

    def serves(self, *words: str, **how: object) -> Done:
        """The same, with status 0."""
        done = self.serve(*words, **how)  # type: ignore[arg-type]
        self.assertEqual(done.returncode, 0, f"{words}: {done.stdout}{done.stderr}")
        return done

    def status(self) -> str:
        """What `ld.ldi --server-status` prints of the servers."""
        return self.run_program(LD_LDI, "--server-status", env=self.serving()).stdout

    def servers(self) -> list[int]:
        """The processes of the servers that answer."""
        return [int(pid) for pid in re.findall(r": process (\d+) in", self.status())]

    def one_server(self) -> int:
        """The process of the one server. On a busy machine it may not answer in time, so that it is asked again."""
        found: list[int] = []

        def is_one() -> bool:
            found[:] = self.servers()
            return len(found) == 1

        self.wait(is_one, "there is not one server")
        return found[0]

    def calls(self) -> int:
        """The links that the servers made in all."""
        return sum(int(count) for count in re.findall(r"(\d+) calls", self.status()))

    def _stop_servers(self) -> None:
        for pid in self.servers():
            for number in (signal.SIGCONT, signal.SIGTERM):
                signal_to(pid, number)
            self.wait(lambda pid=pid: not is_running(pid), "a server is left")  # type: ignore[misc]

    # waiting

    def wait(self, holds: Callable[[], bool], what: str, limit: float = PATIENCE) -> None:
        """Waits until something holds."""
        end = time.monotonic() + limit
        while not holds():
            self.assertLess(time.monotonic(), end, what)
            time.sleep(0.02)


SCRIPT = """ENTRY(_start)
SECTIONS {
  . = 0x401000;
  .text : { *(.text .text.*) }
  . = ALIGN(0x1000);
  .rodata : { *(.rodata .rodata.*) }
  . = ALIGN(0x1000);
  .data : { *(.data .data.*) }
  .bss : { *(.bss .bss.*) *(COMMON) }
  /DISCARD/ : { *(.eh_frame) *(.note.*) *(.comment) }
}
"""
START = "extern int value[]; void _start(void) { for (;;) *(volatile int *)value; }"
MARK = bytes.fromhex("5a5a1234a5a54321")
"""What stands before the number in an object and an image."""
WORDS = ("-T", "t.ld", "-o", "image", "a.o", "b.o")


class ProjectTest(OutsideTest):
    """Tests with a project in the folder `p`: `a.o`, `b.o` and the script `t.ld`. `b.o` has a number in its data."""

    def setUp(self) -> None:
        """Makes the project."""
        super().setUp()
        mark = ", ".join(map(str, struct.unpack("<2i", MARK)))
        self.objects = [self.read(self.compile(name, text)) for name, text in (
            ("a.c", START), ("b.c", f"int value[] = {{{mark}, 0}};"))]
        self.make("p", 1)

    def make(self, folder: str, number: int) -> None:
        """Makes a folder with the project and a number."""
        self.write(f"{folder}/t.ld", SCRIPT)
        self.write(f"{folder}/a.o", self.objects[0])
        self.put(f"{folder}/b.o", number)

    def object(self, number: int) -> bytes:
        """The object with a number."""
        return self.objects[1].replace(MARK + bytes(4), MARK + struct.pack("<i", number))

    def put(self, name: str, number: int) -> None:
        """Makes a file the object with a number, in one step."""
        os.rename(self.write(f"{name}.new", self.object(number)), self.folder / name)

    def number(self, image: str = "p/image") -> int | None:
        """The number of an image, or of an object; None where there is no file, or no number in it."""
        try:
            data = self.read(image)
        except FileNotFoundError:
            return None
        at = data.find(MARK)
        return None if at < 0 else struct.unpack_from("<i", data, at + len(MARK))[0]

    def call(self, *words: str, cwd: str = "p", **how: object) -> Done:
        """Runs `ld.ldi` with a server in the project, with status 0; without words by those of the project."""
        return self.serves(*(words or WORDS), cwd=cwd, **how)

    def begin(self, *words: str | Path, cwd: str = "p", env: Mapping[str, str] | None = None) -> subprocess.Popen[str]:
        """Starts a program in the project, and does not wait for it; it is ended with the test."""
        process = subprocess.Popen([str(word) for word in words], cwd=self.folder / cwd,
                                   env=self.env(**self.serving(**(env or {}))), text=True, errors="replace",
                                   stdin=subprocess.DEVNULL, stdout=subprocess.PIPE, stderr=subprocess.PIPE)
        self.addCleanup(end, process)
        return process


def end(process: subprocess.Popen[str]) -> None:
    """Ends a program, if it runs."""
    signal_to(process.pid, signal.SIGCONT)
    process.kill()
    process.communicate()


def signal_to(pid: int, number: signal.Signals) -> None:
    """Sends a signal to a process, if it is there."""
    try:
        os.kill(pid, number)
    except ProcessLookupError:
        pass


def is_running(pid: int) -> bool:
    """Whether a process is there, and no zombie."""
    try:
        return Path(f"/proc/{pid}/stat").read_text(encoding="utf-8").rpartition(")")[2].split()[0] != "Z"
    except OSError:
        return False


def needs(*programs: str) -> Callable[[type | Callable[..., object]], type]:
    """Skips a test where one of the programs is not there."""
    missing = [name for name in programs if shutil.which(name) is None]
    return unittest.skipIf(bool(missing), f"not there: {', '.join(missing)}")  # type: ignore[return-value]


def needs_root(test: Callable[..., None]) -> Callable[..., None]:
    """Skips a test where this is not root."""
    return unittest.skipIf(os.getuid() != 0, "only root can do this: mounts, or a second user")(test)
