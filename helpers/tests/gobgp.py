"""GoBGP for tests: daemons on addresses of this machine alone, and the Python that speaks to them."""

import importlib.util
import shutil
import socket
import subprocess
import sys
import time
from pathlib import Path

from srv6tools.frr_lab import until
from support import needs_package, needs_tool

PYTHON = sys.executable if importlib.util.find_spec("grpc") else "/usr/bin/python3"
SECONDS = 120.0
needs_grpc = needs_package("grpc")
needs_gobgp = needs_tool("gobgpd")


def free_port(address: str) -> int:
    """A port that nothing has."""
    with socket.socket() as one:
        one.bind((address, 0))
        return one.getsockname()[1]


class Daemon:
    """A GoBGP on an address of its own, and its API there."""

    def __init__(self, folder: Path, number: int) -> None:
        self.folder, self.number = folder, number
        self.address = f"127.0.0.{number}"
        self.router_id = f"192.0.2.{number}"
        self.place = f"{self.address}:{free_port(self.address)}"
        self.process: subprocess.Popen | None = None

    def start(self, port: int = -1, neighbours: str = "") -> None:
        """Starts it, with neighbours as its configuration has them."""
        path = self.folder / f"gobgp{self.number}.toml"
        path.write_text(
            f'[global.config]\nas = 64512\nrouter-id = "{self.router_id}"\nport = {port}\n'
            f'local-address-list = ["{self.address}"]\n{neighbours}'
        )
        words = [shutil.which("gobgpd") or "gobgpd", "-f", str(path), f"--api-hosts={self.place}", "--pprof-disable"]
        self.process = subprocess.Popen(words, stdin=subprocess.DEVNULL, stdout=subprocess.DEVNULL, stderr=subprocess.DEVNULL)
        until(self._answers, "gobgpd doesn't start", SECONDS)

    def _answers(self) -> bool:
        host, _, port = self.place.rpartition(":")
        try:
            socket.create_connection((host, int(port)), 1).close()
        except OSError:
            return False
        return True

    def command(self, *words: str) -> str:
        """What the command gobgp writes; nothing where it ends before the daemon answers, as on a busy machine."""
        host, _, port = self.place.rpartition(":")
        done = subprocess.run(["gobgp", "-u", host, "-p", port, *words], capture_output=True, text=True, timeout=60)
        return "" if done.returncode else done.stdout

    def stop(self) -> None:
        """Ends it."""
        if self.process:
            self.process.terminate()
            self.process.wait(20)


def neighbour(one: Daemon, other: Daemon, port: int, family: str) -> str:
    """The configuration of a neighbour."""
    return (
        f'[[neighbors]]\n[neighbors.config]\nneighbor-address = "{other.address}"\npeer-as = 64512\n'
        "[neighbors.timers.config]\nconnect-retry = 1\nidle-hold-time-after-reset = 1\n"
        f'[neighbors.transport.config]\nremote-port = {port}\nlocal-address = "{one.address}"\n'
        f'[[neighbors.afi-safis]]\n[neighbors.afi-safis.config]\nafi-safi-name = "{family}"\n'
    )


def pair(folder: Path, family: str) -> tuple[Daemon, Daemon]:
    """Two that are neighbours."""
    one, other = Daemon(folder, 1), Daemon(folder, 2)
    port = free_port("127.0.0.1")
    for own, far in ((one, other), (other, one)):
        own.start(port, neighbour(own, far, port, family))
    until(lambda: "Establ" in one.command("neighbor"), "the neighbours don't meet", SECONDS)
    time.sleep(0.5)
    return one, other
