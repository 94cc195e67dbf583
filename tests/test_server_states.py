"""`ld.ldi`'s server in every state: killed, stopped, busy, of another version; what it holds, and when it ends."""
from __future__ import annotations

import os
import re
import shutil
import signal
import socket
import stat
import subprocess
import time
import unittest
from pathlib import Path

from tests.session_proxy import let_go, session_between
from tests.linking import LIMIT
from tests.programs import LD_LDI
from tests.serving import WORDS, ServerTest, is_running, session_of, signal_to

MAKEFILE = """OUTPUTS := one two three four five
all: $(OUTPUTS)
$(OUTPUTS): a.o b.o c.o
\t+{ld} -T t.ld -o $@ a.o b.o c.o
"""


class HeldTest(ServerTest):
    """Calls whose link can be held up."""

    def setUp(self) -> None:
        """Makes the session that is held up."""
        super().setUp()
        self.ldi = session_between(self.folder)

    def env(self, **more: str) -> dict[str, str]:
        """The environment of a call, with that session."""
        return super().env(**{"LDI": self.ldi, **more})


class KilledTest(HeldTest):
    """What is killed, and when."""

    def change(self, number: int) -> None:
        """Makes b.o another."""
        self.compile("b.c", f"int other = 5; int b(int x) {{ return x + {number}; }}")

    def test_server_between_calls(self) -> None:
        """The next call links by itself, and leaves a server again."""
        for number in range(3):
            signal_to(self.start(), signal.SIGKILL)
            self.change(number)
            self.assertEqual(self.call().returncode, 0)
            self.assertEqual(self.image(), self.expected())
            self.change(number + 100)
            self.served()
            self.assertEqual(self.image(), self.expected())
            self.run_program(LD_LDI, "--server-stop", env=self.env())

    def test_server_in_a_call(self) -> None:
        """The call links by itself; what the server left beside the image goes when the next server starts."""
        pid = self.start()
        self.change(1)
        self.write(f".image.{pid}.0.new", "half an image")
        call = self.begin_held()
        self.assertIsNone(call.poll())
        session = session_of(pid)
        signal_to(pid, signal.SIGKILL)
        signal_to(session, signal.SIGKILL)
        self.ends(call)
        self.assertEqual(self.image(), self.expected())
        self.started.add(self.server())
        self.wait(lambda: not self.beside(), "something is left beside the image")

    def test_session(self) -> None:
        """A session that was killed is started again, between calls and in a call."""
        pid = self.start()
        signal_to(self.session(), signal.SIGKILL)
        self.change(1)
        self.served()
        self.assertEqual(self.image(), self.expected())
        self.change(2)
        session = self.session()
        call = self.begin_held()
        signal_to(session, signal.SIGKILL)
        self.ends(call)
        self.assertEqual(self.image(), self.expected())
        self.assertEqual(self.server(), pid)

    def test_call(self) -> None:
        """A call that is killed leaves the old image whole; the server goes on, and nothing is left."""
        pid = self.start()
        for number in range(3):
            before = self.image()
            self.change(number + 7)
            call = self.begin_held()
            call.send_signal((signal.SIGKILL, signal.SIGTERM, signal.SIGINT)[number])
            call.communicate(timeout=LIMIT)
            self.assertEqual(call.returncode, (-signal.SIGKILL, 128 + 15, 128 + 2)[number])
            let_go(self.folder)
            self.assertEqual(self.image(), before)
            self.wait(lambda: not self.beside(), "something is left beside the image")
            self.wait(lambda: "busy" not in self.status(), "it stays busy")
            self.served()
            self.assertEqual(self.image(), self.expected())
        self.assertEqual(self.server(), pid)


class StoppedTest(HeldTest):
    """A server that gives no answer, or none to this call."""

    def test_stopped(self) -> None:
        """The call links by itself and says so with --verbose; another server takes the place; the old one ends."""
        pid = self.start()
        os.kill(pid, signal.SIGSTOP)
        self.compile("b.c", "int other = 5; int b(int x) { return x + 9; }")
        done = self.call(*WORDS, "--verbose", env=self.env(LDI_SERVER_ANSWER="0.1"))
        self.assertEqual(done.returncode, 0, done.stderr)
        self.assertIn("ld.ldi: the server did not link: ", done.stderr)
        image = self.image()
        self.assertEqual(image, self.expected())
        self.assertNotEqual(self.server(), pid)
        os.kill(pid, signal.SIGCONT)
        self.wait(lambda: not is_running(pid), "the old server stays")
        self.assertEqual(self.image(), image)
        self.served()

    def test_stopped_in_a_call(self) -> None:
        """A server that is stopped while it links, and goes on after others have linked, writes over nothing."""
        pid = self.start()
        self.compile("b.c", "int other = 5; int b(int x) { return x + 9; }")
        call = self.begin_held(env=self.env(LDI_SERVER_ANSWER="1"))
        os.kill(pid, signal.SIGSTOP)
        self.ends(call)
        self.compile("b.c", "int other = 5; int b(int x) { return x * 9; }")
        self.assertEqual(self.call().returncode, 0)
        image = self.image()
        self.assertEqual(image, self.expected())
        let_go(self.folder)
        os.kill(pid, signal.SIGCONT)
        self.wait(lambda: not is_running(pid), "the old server stays")
        self.assertEqual(self.image(), image)
        self.assertEqual(self.beside(), [])

    def test_two_calls(self) -> None:
        """A second call for the output is told that the server is busy, and links by itself."""
        self.start()
        self.compile("b.c", "int other = 5; int b(int x) { return x + 9; }")
        first = self.begin_held()
        second = self.call(*WORDS, "--verbose")
        self.assertEqual(second.returncode, 0, second.stderr)
        self.assertIn("it is busy with another call", second.stderr)
        self.assertEqual(self.image(), self.expected())
        self.assertIsNone(first.poll())
        let_go(self.folder)
        self.ends(first)
        self.assertEqual(self.image(), self.expected())
        self.server()

    @unittest.skipIf(os.getuid() != 0, "needs root")
    def test_another_user(self) -> None:
        """A socket of someone else is not spoken to."""
        self.start()
        self.run_program(LD_LDI, "--server-stop", env=self.env())
        self.wait(lambda: not self.sockets(), "the socket stays")
        self.start()
        name = self.sockets()[0]
        self.run_program(LD_LDI, "--server-stop", env=self.env())
        self.wait(lambda: not self.sockets(), "the socket stays")
        listener = socket.socket(socket.AF_UNIX)
        path = str(self.run_folder / "ldi" / name)
        listener.bind(path)
        reading, writing = os.pipe()
        child = os.fork()
        if child == 0:
            os.setuid(65534)
            listener.listen(5)
            os.write(writing, b"l")
            time.sleep(LIMIT)
            os._exit(0)
        try:
            self.assertEqual(os.read(reading, 1), b"l")
            done = self.call(*WORDS, "--verbose")
            self.assertEqual(done.returncode, 0, done.stderr)
            self.assertIn("another user", done.stderr)
            self.assertEqual(self.image(), self.expected())
        finally:
            os.kill(child, signal.SIGKILL)
            os.waitpid(child, 0)
            listener.close()
            os.close(reading)
            os.close(writing)

    def sockets(self) -> list[str]:
        """The names of the sockets."""
        return [path.name for path in (self.run_folder / "ldi").iterdir() if stat.S_ISSOCK(path.lstat().st_mode)]

    def test_another_version(self) -> None:
        """Where `ldi` is another file, the call links by itself; the server of the old one ends."""
        program = self.folder / "ldi"
        shutil.copy(os.environ["LDI"], program)
        env = self.env(LDI=str(program))
        pid = self.start(env=env)
        program.rename(self.folder / "old")
        shutil.copy(self.folder / "old", program)
        self.assertEqual(self.call(env=env).returncode, 0)
        self.assertEqual(self.image(), self.expected())
        self.wait(lambda: not is_running(pid), "the old server stays")
        self.assertNotEqual(self.server(), pid)

    def test_another_program(self) -> None:
        """The same where the program is another file: the old server ends."""
        program = self.folder / "ld.ldi"
        shutil.copy(Path(LD_LDI).resolve(), program)
        self.assertEqual(self.run_program(program, *WORDS, env=self.env()).returncode, 0)
        pid = self.server()
        self.started.add(pid)
        program.rename(self.folder / "old")
        shutil.copy(self.folder / "old", program)
        self.compile("b.c", "int other = 5; int b(int x) { return x + 44; }")
        self.assertEqual(self.run_program(program, *WORDS, env=self.env()).returncode, 0)
        self.wait(lambda: not is_running(pid), "the old server stays")
        self.assertEqual(self.image(), self.expected())
        self.started.add(self.server())


class WantedTest(ServerTest):
    """Where there is a server, and when it ends."""

    def test_where_there_is_none(self) -> None:
        """LDI_SERVER=0, --no-server, under CI, in a container's build, for a link of no regular file."""
        without = {"XDG_RUNTIME_DIR": str(self.run_folder)}
        for words, env in ((WORDS, {**without, "LDI_SERVER": "0"}), ((*WORDS, "--no-server"), self.env()),
                           (WORDS, {**without, "LDI_SERVER": "", "CI": "true"}),
                           (WORDS, {**without, "LDI_SERVER": "", "container": "podman"}),
                           ((*WORDS, "-o", "/dev/null"), self.env())):
            done = self.ld(*words, env=env)
            self.assertEqual(done.returncode, 0, done.stderr)
            self.assertEqual(self.servers(), [], (words, env))
        self.start()
        self.assertEqual(self.call(*WORDS, "--no-server").returncode, 0)
        self.assertEqual(self.calls(), 0)

    def test_words_of_servers(self) -> None:
        """One dash, a shortened name and a response file do what the whole word does; a value is no option."""
        self.write("words", "--no-serv")
        for word in ("-no-server", "--no-serv", "@words"):
            done = self.ld(*WORDS, word, env=self.env())
            self.assertEqual((done.returncode, self.servers()), (0, []), f"{word}: {done.stderr}")
        pid = self.start(*WORDS, "-L", "--no-server")
        for words in (("-server-status",), ("--server-sta", "--outp=image"), ("@words",)):
            self.write("words", "--server-status -o image")
            self.assertIn(f"process {pid} in", self.run_program(LD_LDI, *words, env=self.env()).stdout, words)
        other = self.run_program(LD_LDI, "--server-status", "-oother", env=self.env()).stdout
        self.assertEqual(other, "")
        self.write("words", "--server-stop")
        self.assertIn("stopped", self.run_program(LD_LDI, "@words", env=self.env()).stdout)
        self.wait(lambda: not is_running(pid), "--server-stop of a file")

    def test_no_runtime_folder(self) -> None:
        """Without XDG_RUNTIME_DIR the folder is one of the user's own, as where that is not fit for sockets."""
        for env in ({"XDG_RUNTIME_DIR": ""}, {"XDG_RUNTIME_DIR": str(self.folder / "none")}):
            env = self.env(**env)
            self.assertEqual(self.ld(*WORDS, env=env).returncode, 0)
            said = self.run_program(LD_LDI, "--server-status", "-o", "image", env=env).stdout
            pids = [int(pid) for pid in re.findall(r": process (\d+) in", said)]
            self.assertEqual(len(pids), 1, said)
            self.started.update(pids)
            self.assertEqual(stat.S_IMODE(os.stat(f"/tmp/ldi-{os.getuid()}").st_mode), 0o700)
            self.assertIn("stopped", self.run_program(LD_LDI, "--server-stop", "-o", "image", env=env).stdout)
            self.wait(lambda: not is_running(pids[0]), "it does not end")
        self.run_folder.chmod(0o755)  # others could put sockets there
        self.assertEqual(self.ld(*WORDS, env=self.env()).returncode, 0)
        self.assertEqual(list(self.run_folder.iterdir()), [])
        self.run_program(LD_LDI, "--server-stop", "-o", "image", env=self.env())

    def test_ends(self) -> None:
        """By --server-stop, SIGTERM, after a time without a call, past its memory, and when the folder goes."""
        pid = self.start()
        self.assertIn(f"process {pid}", self.run_program(LD_LDI, "--server-stop", env=self.env()).stdout)
        self.wait(lambda: not is_running(pid), "--server-stop")
        pid = self.start()
        session = self.session()
        os.kill(pid, signal.SIGTERM)
        self.wait(lambda: not is_running(pid) and not is_running(session), "SIGTERM")
        pid = self.start(env=self.env(LDI_SERVER_IDLE="10"))
        self.wait(lambda: not is_running(pid), "LDI_SERVER_IDLE")
        pid = self.start(env=self.env(LDI_SERVER_MEMORY="1M"))
        self.call(env=self.env(LDI_SERVER_MEMORY="1M"))
        self.wait(lambda: not is_running(pid), "LDI_SERVER_MEMORY")
        self.assertEqual(self.servers(), [])
        (self.folder / "out").mkdir()
        pid = self.start("-T", "t.ld", "-o", "out/image", *WORDS[4:])
        shutil.rmtree(self.folder / "out")
        self.wait(lambda: not is_running(pid), "the folder that goes")
        self.assertEqual(list((self.run_folder / "ldi").iterdir()), [])

    def test_holds_nothing(self) -> None:
        """The server has no terminal, no file of the build, and no pipe or token of it; the session neither."""
        reading, writing = os.pipe()
        os.set_inheritable(writing, True)
        begun = time.monotonic()
        done = subprocess.run([LD_LDI, *WORDS], cwd=self.folder, env={**os.environ, **self.env()}, close_fds=False,
                              capture_output=True, timeout=LIMIT, check=False)
        self.assertEqual(done.returncode, 0, done.stderr)
        self.assertLess(time.monotonic() - begun, LIMIT / 2)
        os.close(writing)
        self.assertEqual(os.read(reading, 1), b"")  # nobody holds the other end
        os.close(reading)
        pid = self.server()
        self.started.add(pid)
        own = {os.readlink(f"/proc/{pid}/fd/{number}") for number in (0, 1, 2)}
        self.assertEqual(own, {"/dev/null"})
        for process in (pid, self.session()):
            links = [os.readlink(path) for path in Path(f"/proc/{process}/fd").iterdir()]
            self.assertFalse([link for link in links if link.startswith("/") and "memfd" not in link
                              and link != "/dev/null"], links)
        words = Path(f"/proc/{pid}/stat").read_text(encoding="utf-8").rpartition(")")[2].split()
        self.assertEqual(words[4], "0")  # tty_nr
        self.assertNotEqual(os.getsid(pid), os.getsid(0))

    def test_two_folders(self) -> None:
        """Two builds in two folders have servers of their own, and so have two outputs of one folder."""
        other = self.folder / "other"
        other.mkdir()
        for name in ("t.ld", "a.o", "b.o", "c.o"):
            shutil.copy(self.folder / name, other)
        self.call()
        self.call("-T", "t.ld", "-o", "second", *WORDS[4:])
        done = subprocess.run([LD_LDI, *WORDS], cwd=other, env={**os.environ, **self.env()}, capture_output=True,
                              check=False, timeout=LIMIT)
        self.assertEqual(done.returncode, 0, done.stderr)
        self.started.update(self.servers())
        self.assertEqual(len(self.servers()), 3)

    def test_make(self) -> None:
        """`make -j4` with five outputs, three times with a change before: it ends, and every image is right."""
        self.write("Makefile", MAKEFILE.format(ld=LD_LDI))
        for number in range(3):
            self.compile("b.c", f"int other = 5; int b(int x) {{ return x + {number}; }}")
            begun = time.monotonic()
            done = subprocess.run(["make", "-j4", "-B"], cwd=self.folder, env={**os.environ, **self.env()},
                                  capture_output=True, text=True, timeout=LIMIT, check=False)
            self.assertEqual(done.returncode, 0, done.stderr)
            self.assertNotIn("jobserver", done.stderr)
            self.assertLess(time.monotonic() - begun, LIMIT / 2)
            expected = self.expected()
            for name in ("one", "two", "three", "four", "five"):
                self.assertEqual(self.image(name), expected, name)
        self.started.update(self.servers())
        self.assertEqual(len(self.servers()), 5)
        self.assertEqual(self.calls(), 10)


class DiskTest(ServerTest):
    """A disk that is full."""

    @unittest.skipIf(os.getuid() != 0, "needs root")
    def test_full(self) -> None:
        """The status, the message and the old image are as without a server, and it links again when there is room."""
        room = self.folder / "room"
        room.mkdir()
        if subprocess.run(["mount", "-t", "tmpfs", "-o", "size=64k", "none", room], check=False).returncode:
            self.skipTest("no tmpfs can be mounted")
        self.addCleanup(lambda: subprocess.run(["umount", "-l", room], check=False))
        words = ("-T", "t.ld", "-o", "room/image", *WORDS[4:])
        self.start(*words)
        before = self.image("room/image")
        filler = os.open(room / "filler", os.O_WRONLY | os.O_CREAT)
        try:
            while os.write(filler, bytes(1024)):
                pass
        except OSError:
            pass
        finally:
            os.close(filler)
        self.compile("b.c", "int other = 5; int b(int x) { return x + 33; }")
        done = self.call(*words)
        self.assertEqual(done.returncode, 3, done.stderr)
        self.assertIn("room/image: No space left on device", done.stderr)
        self.assertEqual(self.image("room/image"), before)
        (room / "filler").unlink()
        self.served(*words)
        self.assertEqual(self.image("room/image"), self.expected())
        self.assertEqual([path.name for path in room.iterdir()], ["image"])
        for pid in self.servers():
            os.kill(pid, signal.SIGTERM)
            self.wait(lambda: not is_running(pid), "SIGTERM")
