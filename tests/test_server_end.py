"""Closed streams, sockets of servers that are no more, and the memory of all servers together."""
from __future__ import annotations

import os
import re
import signal
from pathlib import Path

from tests.programs import LD_LDI, WORDS, Done, ProjectTest, is_running


class StreamsTest(ProjectTest):
    """Standard streams that are closed."""

    def closed(self, redirected: str, *words: str, serves: str = "0") -> Done:
        """A call with streams that the shell closes."""
        return self.run_program("sh", "-c", f'exec "$@" {redirected}', "sh", LD_LDI, *(words or WORDS), cwd="p",
                                env=self.serving(LDI_SERVER=serves))

    def test_closed(self) -> None:
        """A good link has status 0, with and without a server, and the streams are nobody's."""
        number = 10
        for redirected in (">&-", "2>&-", "<&-", ">&- 2>&-", "<&- >&- 2>&-"):
            for serves in ("0", "1", "1"):
                number += 1
                self.put("p/b.o", number)
                done = self.closed(redirected, serves=serves)
                self.assertEqual((done.returncode, self.number()), (0, number), f"{redirected}: {done.stderr}")
                self.assertEqual(done.stderr, "")

    def test_closed_with_fault(self) -> None:
        """A link that is not good has its status, and its message where there is a stream for it."""
        self.write("p/a.o", "no object")
        self.assertEqual(self.closed(">&-").returncode, self.ld(*WORDS, cwd="p").returncode)
        self.assertIn("a.o", self.closed(">&-").stderr)
        self.assertNotEqual(self.closed("2>&-").returncode, 0)
        self.assertEqual(self.closed("2>&-").stdout, "")


class SocketTest(ProjectTest):
    """What a server leaves that was killed."""

    def test_dead_server(self) -> None:
        """Its socket is said to be nothing, and is removed."""
        self.call()
        pid = self.one_server()
        os.kill(pid, signal.SIGKILL)
        self.wait(lambda: not is_running(pid), "the server stays")
        for word in ("--server-status", "--server-stop"):
            done = self.run_program(LD_LDI, word, env=self.serving())
            self.assertEqual((done.returncode, done.stdout, done.stderr), (0, "", ""))
        left = [path.name for path in self.sockets.rglob("*") if path.is_socket()]
        self.assertEqual(left, [])

    def test_live_server(self) -> None:
        """That of a server that works stays."""
        self.call()
        self.one_server()
        self.put("p/b.o", 2)
        self.call()
        self.assertEqual((self.calls(), self.number()), (1, 2))


class MemoryTest(ProjectTest):
    """Many outputs."""

    def memory(self) -> list[int]:
        """The megabytes that each server says that it holds."""
        return [int(number) for number in re.findall(r"(\d+) MB", self.status())]

    def test_all_together(self) -> None:
        """The oldest servers end where all hold more than LDI_SERVER_MEMORY."""
        self.call()
        self.wait(lambda: len(self.memory()) == 1, "the call left no server")
        one, = self.memory()
        limit = 3 * one + one // 2
        first = self.one_server()
        for number in range(6):
            words = [f"image{number}" if word == "image" else word for word in WORDS]
            self.call(*words, env={"LDI_SERVER_MEMORY": f"{limit}M"})
        self.wait(lambda: sum(self.memory()) <= limit, f"they hold more than {limit} MB: {self.memory()}")
        self.assertFalse(is_running(first) and len(self.servers()) > 3)
        self.assertIn(str(self.folder / "p" / "image5"), self.status())
        self.assertNotIn(f"{Path(self.folder, 'p', 'image')}:", self.status())
