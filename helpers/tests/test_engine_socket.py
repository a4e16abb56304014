"""srv6-pce on a socket: as docs/MODELLING.md says by socat, and by the units of systemd."""

import json
import os
import re
import socket
import subprocess
import time
from collections.abc import Iterator
from contextlib import contextmanager
from pathlib import Path

from srv6tools.engine import find_engine
from support import EXAMPLES, SECONDS, ToolCase, needs_engine, needs_tool

DOCUMENT = EXAMPLES.parent / "docs" / "MODELLING.md"
UNITS = EXAMPLES / "systemd"
SAID = b'{"id":null,"ok":{"program":"srv6-pce","protocol":1}}\n'
ASK = b'{"do":"version"}\n'


def children(pid: int) -> list[int]:
    """The processes that one started and that didn't end."""
    try:
        return [int(word) for word in Path(f"/proc/{pid}/task/{pid}/children").read_text().split()]
    except OSError:
        return []


class OnASocket(ToolCase):
    """Clients of a program that offers the engine on a socket."""

    def setUp(self) -> None:
        super().setUp()
        self.path = self.folder / "srv6-pce.sock"
        (self.folder / "srv6-pce").symlink_to(Path(find_engine()).resolve())
        self.settings = os.environ | {"PATH": f"{self.folder}:{os.environ['PATH']}"}

    @contextmanager
    def offered(self, *words: str) -> Iterator[subprocess.Popen]:
        """A program that listens; it is ended, and what it said is in `self.folder`/err."""
        with open(self.folder / "err", "wb") as err:
            listening = subprocess.Popen(words, cwd=self.folder, env=self.settings, stderr=err)
        try:
            self.until(self.path.is_socket, "nothing listens")
            yield listening
        finally:
            listening.terminate()
            listening.wait(SECONDS)

    def until(self, is_so, otherwise: str) -> None:
        late = time.monotonic() + SECONDS
        while not is_so():
            self.assertLess(time.monotonic(), late, otherwise)
            time.sleep(0.01)

    @contextmanager
    def client(self) -> Iterator[socket.socket]:
        with socket.socket(socket.AF_UNIX) as client:
            client.settimeout(SECONDS)
            client.connect(str(self.path))
            yield client

    def ask(self, client: socket.socket, **request: object) -> dict:
        client.sendall(json.dumps(request).encode() + b"\n")
        with client.makefile("rb") as replies:
            return json.loads(replies.readline())

    def each_holds_its_own(self) -> None:
        text = (EXAMPLES / "m2.toml").read_text()
        drop = {"do": "drop", "as": "n"}
        with self.client() as one, self.client() as other:
            self.assertIn("ok", self.ask(one, **{"do": "load", "as": "n", "network": text}))
            self.assertEqual(self.ask(other, **drop)["error"]["name"], "UnknownName")
            self.assertIn("ok", self.ask(one, **drop))

    def a_cut_line_is_answered(self) -> None:
        with self.client() as client:
            client.sendall(ASK + ASK[:7])
            client.shutdown(socket.SHUT_WR)
            with client.makefile("rb") as replies:
                self.assertEqual(replies.read(), SAID + b'{"error":{"name":"BadJson"},"id":null}\n')

    def one_goes_away(self) -> None:
        with self.client() as client:
            client.sendall(ASK * 1000)


@needs_engine
@needs_tool("socat")
class BySocat(OnASocket):
    def test_as_the_document_says(self):
        section = DOCUMENT.read_text().split("## An engine on a socket\n")[1].split("\n## ")[0]
        listen, ask = re.findall(r"```sh\n(.*?)```", section, re.S)[0].splitlines()
        with self.offered("sh", "-c", f"exec {listen.removesuffix('&')}") as listening:
            done = subprocess.run(["sh", "-c", ask], cwd=self.folder, capture_output=True, timeout=SECONDS)
            self.assertEqual((done.returncode, done.stdout, done.stderr), (0, SAID, b""))
            self.assertEqual(self.path.stat().st_mode & 0o777, 0o600)
            self.each_holds_its_own()
            self.a_cut_line_is_answered()
            self.one_goes_away()
            self.until(lambda: not children(listening.pid), "an engine is left behind")


@needs_engine
class BySystemd(OnASocket):
    def started(self) -> str:
        """The program that the unit starts."""
        return re.findall(r"^ExecStart=(\S+)$", (UNITS / "srv6-pce@.service").read_text(), re.M)[0]

    @needs_tool("systemd-socket-activate")
    def test_one_engine_for_each_connection(self):
        """As `Accept=yes` and `StandardInput=socket` of the units do."""
        program = str(self.folder / Path(self.started()).name)
        with self.offered("systemd-socket-activate", "--inetd", "--accept", f"--listen={self.path}", program) as listening:
            self.each_holds_its_own()
            self.a_cut_line_is_answered()
            self.until(lambda: not children(listening.pid), "an engine is left behind")
            self.assertNotIn("died with code 5", (self.folder / "err").read_text())
            self.one_goes_away()
            self.until(lambda: "died with code 5" in (self.folder / "err").read_text(), "no engine ended with status 5")

    @needs_tool("systemd-analyze")
    def test_the_units_are_right(self):
        for name in ("srv6-pce.socket", "srv6-pce@.service"):
            self.file(name, (UNITS / name).read_text().replace(self.started(), str(self.folder / "srv6-pce")))
        for name in ("srv6-pce.socket", "srv6-pce@.service"):
            done = subprocess.run(
                ["systemd-analyze", "verify", "--man=no", f"./{name}"], cwd=self.folder, capture_output=True, text=True, timeout=SECONDS
            )
            self.assertEqual((done.returncode, done.stdout + done.stderr), (0, ""), name)
