"""srv6-pce where its client, its streams or memory fail: it ends with the status that its page names, and waits for nothing else."""

import contextlib
import os
import resource
import select
import signal
import subprocess
import sys
import threading
import time
from collections.abc import Iterator

from srv6tools.engine import Engine, EngineEnded, find_engine
from support import EXAMPLES, SECONDS, ToolCase, needs_engine, run_tool

ASK = b'{"do":"version"}'
SAID = b'{"id":null,"ok":{"program":"srv6-pce","protocol":1}}\n'
BAD_JSON = b'{"error":{"name":"BadJson"},"id":null}\n'
NO_MEMORY = b'{"error":{"name":"NoMemory"},"id":null}\n'
MANY = 4_000  # their replies are three times what a pipe holds
MIB = 1024 * 1024
DONE, USAGE, OUTSIDE_FAULT, NO_ROOM = 0, 2, 5, 6


def asked(given: bytes, *, words: tuple[str, ...] = (), **streams) -> tuple[int, bytes, bytes]:
    """The status of an engine that is given this input, and what it says on both streams."""
    pipes = {"stdout": subprocess.PIPE, "stderr": subprocess.PIPE} | streams
    done = subprocess.run([find_engine(), *words], input=given, timeout=SECONDS, **pipes)
    return done.returncode, done.stdout or b"", done.stderr or b""


def in_shell(redirections: str, given: bytes = b"", words: str = "") -> tuple[int, bytes, bytes]:
    """The same of an engine that a shell starts with these redirections."""
    line = ["sh", "-c", f'exec "$0" {words} {redirections}', find_engine()]
    done = subprocess.run(line, input=given, capture_output=True, timeout=SECONDS)
    return done.returncode, done.stdout, done.stderr


@contextlib.contextmanager
def started(**more) -> Iterator[subprocess.Popen]:
    """An engine over two pipes, of which nothing is left behind."""
    engine = subprocess.Popen([find_engine()], stdin=subprocess.PIPE, stdout=subprocess.PIPE, bufsize=0, **more)
    try:
        yield engine
    finally:
        engine.kill()
        engine.wait(SECONDS)
        for stream in (engine.stdin, engine.stdout):
            stream.close()


def said_within(engine: subprocess.Popen, seconds: float) -> bytes:
    """What it says next, nothing where it says nothing for so long."""
    asked = select.poll()
    asked.register(engine.stdout, select.POLLIN)
    return os.read(engine.stdout.fileno(), MIB) if asked.poll(1000 * seconds) else b""


class InTime(ToolCase):
    """A test that fails where it hangs."""

    def setUp(self) -> None:
        super().setUp()
        before = signal.signal(signal.SIGALRM, self.is_late)
        self.addCleanup(signal.signal, signal.SIGALRM, before)
        self.addCleanup(signal.alarm, 0)
        signal.alarm(2 * SECONDS)

    def is_late(self, *_: object) -> None:
        self.fail(f"not done in {2 * SECONDS} seconds")


@needs_engine
class Input(InTime):
    def test_a_cut_line_is_a_line(self):
        """At the end of the input its front is answered as any line is."""
        for count in range(len(ASK) + 1):
            with self.subTest(count):
                wanted = b"" if count == 0 else SAID if count == len(ASK) else BAD_JSON
                self.assertEqual(asked(ASK + b"\n" + ASK[:count]), (DONE, SAID + wanted, b""))

    def test_an_input_that_stops_in_mid_line_is_waited_for(self):
        """All lines that were given whole are answered; the rest of the line may come later, or never."""
        for rest, wanted in ((b"", BAD_JSON), (ASK[7:], SAID), (ASK[7:] + b"\n", SAID), (b"\n" + ASK, BAD_JSON + SAID)):
            with self.subTest(rest), started() as engine:
                engine.stdin.write(ASK + b"\n" + ASK[:7])
                self.assertEqual(said_within(engine, SECONDS), SAID)
                self.assertEqual(said_within(engine, 0.1), b"")
                self.assertIsNone(engine.poll())
                out, _ = engine.communicate(rest, timeout=SECONDS)
                self.assertEqual((out, engine.returncode), (wanted, DONE))

    def test_a_client_that_is_killed_ends_the_input(self):
        with started() as engine:
            script = "import os, sys; os.write(int(sys.argv[1]), sys.argv[2].encode()); os.kill(os.getpid(), 9)"
            into = engine.stdin.fileno()
            writer = subprocess.Popen([sys.executable, "-c", script, str(into), ASK[:7]], pass_fds=[into])
            engine.stdin.close()
            self.assertEqual(writer.wait(SECONDS), -signal.SIGKILL)
            self.assertEqual(engine.stdout.read(), BAD_JSON)
            self.assertEqual(engine.wait(SECONDS), DONE)

    def test_an_input_that_cannot_be_read(self):
        for redirections in ("<&-", "</", "<&- 0>/dev/null"):
            with self.subTest(redirections):
                self.assertEqual(in_shell(redirections), (OUTSIDE_FAULT, b"", b""))


@needs_engine
class Output(InTime):
    def test_a_full_device(self):
        for given, status in ((b"", DONE), (ASK, OUTSIDE_FAULT), (ASK + b"\n", OUTSIDE_FAULT), (ASK[:7], OUTSIDE_FAULT), (b"\n", OUTSIDE_FAULT)):
            with self.subTest(given), open("/dev/full", "wb") as full:
                self.assertEqual(asked(given, stdout=full), (status, b"", b""))

    def test_a_full_device_ends_it_before_its_input_ends(self):
        with open("/dev/full", "wb") as full:
            engine = subprocess.Popen([find_engine()], stdin=subprocess.PIPE, stdout=full)
        with engine:
            engine.stdin.write(ASK + b"\n")
            engine.stdin.flush()
            self.assertEqual(engine.wait(SECONDS), OUTSIDE_FAULT)

    def test_a_closed_output(self):
        self.assertEqual(in_shell(">&-", ASK), (OUTSIDE_FAULT, b"", b""))
        self.assertEqual(in_shell(">&-"), (DONE, b"", b""))
        self.assertEqual(in_shell("1</dev/null", ASK), (OUTSIDE_FAULT, b"", b""))

    def test_a_reader_that_goes_away(self):
        """Whatever was read, a write that fails ends it, whether the signal of a broken pipe kills or is passed over."""
        for read, restores in ((read, restores) for read in (0, 1, len(SAID), len(SAID) + 1, 3 * 4096) for restores in (True, False)):
            with self.subTest(read, restores=restores), started(restore_signals=restores) as engine:
                writer = threading.Thread(target=self.given, args=(engine, (ASK + b"\n") * MANY))
                writer.start()
                taken = b""
                while len(taken) < read:
                    taken += os.read(engine.stdout.fileno(), read - len(taken))
                engine.stdout.close()
                self.assertEqual(engine.wait(SECONDS), OUTSIDE_FAULT)
                writer.join(SECONDS)
                self.assertFalse(writer.is_alive())
                self.assertTrue((SAID * MANY).startswith(taken))

    def test_a_reader_that_waits_loses_nothing(self):
        """The engine waits where its output is full, and goes on once there is room."""
        with started() as engine:
            writer = threading.Thread(target=self.given, args=(engine, (ASK + b"\n") * MANY))
            writer.start()
            time.sleep(0.2)
            self.assertIsNone(engine.poll())
            out = b"".join(iter(lambda: os.read(engine.stdout.fileno(), 4096), b""))
            self.assertEqual((out, engine.wait(SECONDS)), (SAID * MANY, DONE))
            writer.join(SECONDS)

    @staticmethod
    def given(engine: subprocess.Popen, lines: bytes) -> None:
        with contextlib.suppress(OSError):  # the engine may end before it has read all
            view = memoryview(lines)
            while view:
                view = view[os.write(engine.stdin.fileno(), view) :]
        with contextlib.suppress(OSError):
            engine.stdin.close()

    def test_words_and_a_full_device_for_errors(self):
        usage = b"usage: srv6-pce\n"
        self.assertEqual(asked(ASK, words=("x",)), (USAGE, b"", usage))
        with open("/dev/full", "wb") as full:
            self.assertEqual(asked(ASK, words=("x",), stderr=full), (OUTSIDE_FAULT, b"", b""))
            self.assertEqual(asked(ASK, stderr=full), (DONE, SAID, b""))
        self.assertEqual(in_shell("2>&-", ASK, "x"), (OUTSIDE_FAULT, b"", b""))


@needs_engine
class Killed(InTime):
    """What a client and the tools over it are told of an engine that is killed."""

    def test_between_requests(self):
        # a shell's work in the background ignores SIGINT, and so does what it starts
        ends = [end for end in (signal.SIGKILL, signal.SIGTERM, signal.SIGINT) if signal.getsignal(end) is not signal.SIG_IGN]
        for end in ends:
            with self.subTest(end), Engine() as engine:
                engine.version()
                os.kill(engine._process.pid, end)
                with self.assertRaises(EngineEnded) as raised:
                    engine.version()
                self.assertEqual(str(raised.exception), f"the engine ended with status {-end}")
                with self.assertRaises(EngineEnded):
                    engine.version()
                self.assertEqual(engine.close(), -end)

    def test_while_its_reply_is_waited_for(self):
        with Engine() as engine:
            engine.version()
            os.kill(engine._process.pid, signal.SIGSTOP)
            late = threading.Timer(0.2, os.kill, (engine._process.pid, signal.SIGKILL))
            late.start()
            with self.assertRaises(EngineEnded) as raised:
                engine.version()
            self.assertEqual(str(raised.exception), f"the engine ended with status {-signal.SIGKILL}")

    def test_a_tool_says_so(self):
        """An engine that answers one request and then is killed: a line, and status 5."""
        killed = self.file("killed-engine", f"#!/bin/sh\nread -r line\nprintf '%s\\n' \"$line\" | '{find_engine()}'\nkill -9 $$\n")
        killed.chmod(0o755)
        domain = EXAMPLES / "domain"
        base, plan, intent = domain / "base.toml", domain / "plan.toml", domain / "red.toml"
        for tool, *words in (
            ("mesh", domain / "net.toml", "--to-title", "red-*"),
            ("what-if", base, plan, intent),
            ("judge", EXAMPLES / "m2.toml", EXAMPLES / "intent.toml", "fcbb:bb00:2::"),
        ):
            with self.subTest(tool):
                ran = run_tool(tool, *words, SRV6_PCE=str(killed))
                self.named_answer(ran, (OUTSIDE_FAULT,))
                self.assertIn("-9", ran.err)


@needs_engine
class Memory(InTime):
    def limited(self, limit: int, given: bytes) -> tuple[int, bytes]:
        """The status and the replies of an engine with so many bytes of memory."""
        limits = (resource.RLIMIT_AS, (limit, limit))
        return asked(given, preexec_fn=lambda: resource.setrlimit(*limits))[:2]

    def test_a_long_line_beside_little_memory(self):
        """Where it can't be held the program ends; where it can, and its reading can't, it has its error and what follows its reply."""
        lines = b"\n".join([ASK, ASK + b" " * 32 * MIB, ASK])
        ends = {(NO_ROOM, SAID), (DONE, SAID + NO_MEMORY + SAID), (DONE, 3 * SAID)}
        seen = [self.limited(limit * MIB, lines) for limit in (8, 32, 48, 64, 80, 96, 200)]
        self.assertLessEqual(set(seen), ends)
        self.assertEqual((seen[0], seen[-1]), ((NO_ROOM, SAID), (DONE, 3 * SAID)))

