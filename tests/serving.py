"""For the tests of `ld.ldi`'s server: a project, calls with and without a server, and no server that is left."""
from __future__ import annotations

import os
import re
import signal
import subprocess
import time
from collections.abc import Callable, Mapping
from pathlib import Path

from tests.session_proxy import hold, is_held
from tests.linking import LIMIT, LinkTest
from tests.programs import ANSWER, LD_LDI, PATIENCE

SCRIPT = """ENTRY(_start)
SECTIONS {
  . = 0x401000;
  .text : { *(.text .text.*) }
  . = ALIGN(0x1000);
  .rodata : { *(.rodata .rodata.*) }
  . = ALIGN(0x1000);
  .data : { *(.data .data.*) }
  .bss : { *(.bss .bss.*) *(COMMON) }
  end = .;
  /DISCARD/ : { *(.eh_frame) *(.note.*) *(.comment) }
}
"""
SOURCES = {
    "a.c": "extern int b(int); extern int other; void _start(void) { other = b(3); for (;;) ; }",
    "b.c": "int other = 5; int b(int x) { return x + 1; }",
    "c.c": "int unused; const char text[] = \"some text\";",
}
WORDS = ("-T", "t.ld", "-o", "image", "a.o", "b.o", "c.o")
Done = subprocess.CompletedProcess[str]


class ServerTest(LinkTest):
    """Tests in a temporary folder, with a runtime folder of their own and no server at the end."""

    def setUp(self) -> None:
        """Makes the project."""
        super().setUp()
        self.run_folder = self.folder / "run"
        self.run_folder.mkdir(mode=0o700)
        self.started: set[int] = set()
        self.addCleanup(self._clear)
        self.write("t.ld", SCRIPT)
        for name, text in SOURCES.items():
            self.compile(name, text)

    def _clear(self) -> None:
        """Ends what was started; a server that does not end by itself is one that is left."""
        for pid in filter(self._is_own, self.started | set(self.servers())):
            for number in (signal.SIGCONT, signal.SIGTERM):
                signal_to(pid, number)
        self.wait(lambda: not any(map(self._is_own, self.started)), "a server is left")

    def _is_own(self, pid: int) -> bool:
        """Whether a process is one of this test, and not another one that has its number now."""
        return is_running(pid) and has_variable(pid, "XDG_RUNTIME_DIR", str(self.run_folder))

    def env(self, **more: str) -> dict[str, str]:
        """The environment of a call with a server."""
        return {"XDG_RUNTIME_DIR": str(self.run_folder), "LDI_FALLBACK": "none", "LDI_SERVER": "1",
                "LDI_SERVER_ANSWER": ANSWER, **more}

    def call(self, *words: str, env: Mapping[str, str] | None = None) -> Done:
        """Runs `ld.ldi` with a server."""
        done = self.ld(*(words or WORDS), env=env or self.env())
        self.started.update(self.servers())
        return done

    def served(self, *words: str, env: Mapping[str, str] | None = None) -> Done:
        """The same, and the link is one of the server."""
        before = self.calls()
        done = self.call(*words, env=env)
        self.assertEqual(self.calls(), before + 1, f"not by the server: {done.stdout}{done.stderr}")
        return done

    def status(self) -> str:
        """What `--server-status` prints."""
        return self.run_program(LD_LDI, "--server-status", env=self.env()).stdout

    def calls(self) -> int:
        """The calls that the servers made in all."""
        return sum(int(count) for count in re.findall(r"(\d+) calls", self.status()))

    def servers(self) -> list[int]:
        """The processes of the servers that answer."""
        return [int(pid) for pid in re.findall(r": process (\d+) in", self.status())]

    def server(self) -> int:
        """The process of the one server. On a busy machine it may not answer in time, so that it is asked again."""
        found: list[int] = []

        def is_one() -> bool:
            found[:] = self.servers()
            return len(found) == 1

        self.wait(is_one, "there is not one server")
        return found[0]

    def start(self, *words: str, env: Mapping[str, str] | None = None) -> int:
        """The first call, which leaves a server; gives its process."""
        done = self.call(*words, env=env)
        self.assertEqual(done.returncode, 0, done.stderr)
        return self.server()

    def session(self) -> int:
        """The process of the session of the one server."""
        return session_of(self.server())

    def wait(self, holds: Callable[[], bool], what: str, limit: float = PATIENCE) -> None:
        """Waits until something holds."""
        end = time.monotonic() + limit
        while not holds():
            self.assertLess(time.monotonic(), end, what)
            time.sleep(0.02)

    def begin_held(self, *words: str, env: Mapping[str, str] | None = None) -> subprocess.Popen[str]:
        """Starts a call whose link waits before its image until `let_go`; the session is that of `session_between`."""
        hold(self.folder)
        call = self.begin(*words, env=env)
        self.wait(lambda: is_held(self.folder), "the server does not link")
        return call

    def begin(self, *words: str, env: Mapping[str, str] | None = None) -> subprocess.Popen[str]:
        """Starts a call, and does not wait for it."""
        environment = {**os.environ, "LDI_FALLBACK": "none", **(env or self.env())}
        return subprocess.Popen([LD_LDI, *(words or WORDS)], cwd=self.folder, env=environment, text=True,
                                stdin=subprocess.DEVNULL, stdout=subprocess.PIPE, stderr=subprocess.PIPE)

    def ends(self, process: subprocess.Popen[str], status: int = 0) -> tuple[str, str]:
        """Waits for a call; gives what it printed."""
        out, errors = process.communicate(timeout=LIMIT)
        self.assertEqual(process.returncode, status, errors)
        return out, errors

    def image(self, name: str = "image") -> bytes:
        """The image."""
        return (self.folder / name).read_bytes()

    def expected(self, *words: str) -> bytes:
        """The image that a call makes without a server."""
        self.assertEqual(self.ld("--no-server", *(words or WORDS), "-o", "expected").returncode, 0)
        return self.image("expected")

    def files(self) -> dict[str, tuple[int, bytes]]:
        """The modes and bytes of the files that links wrote."""
        names = [path for path in self.folder.iterdir() if path.is_file() and path.suffix not in (".o", ".c", ".ld")]
        return {path.name: (path.stat().st_mode, path.read_bytes()) for path in names}

    def assert_same(self, *words: str, status: int = 0) -> Done:
        """A call by the server prints and writes what one without a server does."""
        done = self.served(*words)
        found = done.returncode, done.stdout, done.stderr, self.files()
        alone = self.ld(*words)
        self.assertEqual(found, (alone.returncode, alone.stdout, alone.stderr, self.files()))
        self.assertEqual(done.returncode, status, done.stderr)
        return done

    def beside(self) -> list[str]:
        """The files that were left beside the image."""
        return [path.name for path in self.folder.iterdir() if path.name.startswith(".")]


def session_of(server: int) -> int:
    """The process of a server's session: the one that reads from a pipe of it."""
    pipes = {os.readlink(f"/proc/{server}/fd/{name}") for name in os.listdir(f"/proc/{server}/fd")} - {"/dev/null"}
    for name in filter(str.isdigit, os.listdir("/proc")):
        try:
            if int(name) != server and os.readlink(f"/proc/{name}/fd/0") in pipes:
                return int(name)
        except OSError:
            pass
    raise AssertionError("there is no session")


def signal_to(pid: int, number: signal.Signals) -> None:
    """Sends a signal to a process, if it is there."""
    try:
        os.kill(pid, number)
    except ProcessLookupError:
        pass


def has_variable(pid: int, name: str, value: str) -> bool:
    """Whether a process was started with a variable of this value."""
    try:
        return f"{name}={value}".encode() in Path(f"/proc/{pid}/environ").read_bytes().split(b"\0")
    except OSError:
        return False


def is_running(pid: int) -> bool:
    """Whether a process is there, and no zombie."""
    try:
        return Path(f"/proc/{pid}/stat").read_text(encoding="utf-8").rpartition(")")[2].split()[0] != "Z"
    except OSError:
        return False
