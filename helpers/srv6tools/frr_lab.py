"""Routers of FRR, each in a network namespace and with files of its own, so that several run side by side.

FRR is that of this machine, or of another root such as debootstrap makes of another version of Debian: the variable FRR_ROOT names
the folder.
"""

from __future__ import annotations

import os
import re
import subprocess
import time
from collections.abc import Callable, Sequence
from pathlib import Path

from .command import Fault, Status

DAEMONS = "usr/lib/frr"
SECONDS = 60.0
"""How long something may take that a router does by itself."""


def frr_root() -> Path:
    """The root below which FRR is installed."""
    return Path(os.environ.get("FRR_ROOT") or "/")


def inside(root: Path, words: Sequence[str]) -> list[str]:
    """The words of a command that runs below a root."""
    return [*words] if root == Path("/") else ["chroot", str(root), *words]


def frr_version(root: Path) -> tuple[int, int] | None:
    """The version of FRR below a root, by its first two numbers; None where it isn't there."""
    try:
        shown = subprocess.run(inside(root, ["/usr/lib/frr/zebra", "--version"]), capture_output=True, text=True, timeout=60)
    except (OSError, subprocess.TimeoutExpired):
        return None
    match = re.search(r"version ([0-9]+)\.([0-9]+)", shown.stdout)
    return (int(match[1]), int(match[2])) if match else None


def missing_for_frr(least: tuple[int, int] = (0, 0)) -> str | None:
    """What this machine lacks for routers of FRR of a version; None where nothing is missing."""
    if os.geteuid() != 0:
        return "routers of FRR need the rights of root"
    version = frr_version(frr_root())
    if version is None:
        return "FRR is missing (the Debian package frr)"
    if version < least:
        wanted, there = (".".join(map(str, one)) for one in (least, version))
        return f"FRR {wanted} is missing, and {there} is there (FRR_ROOT names the root of another Debian)"
    try:
        Router("probe", ()).stop()
    except Fault as why:
        return str(why)
    return None


class Router:
    """A router: a process that holds its namespaces, and the daemons in them."""

    def __init__(self, name: str, daemons: Sequence[str]) -> None:
        self.name, self.root, self.daemons = name, frr_root(), tuple(daemons)
        self.running: list[subprocess.Popen] = []
        for folder in ("run/frr", "etc/frr", "var/lib/frr"):
            (self.root / folder).mkdir(parents=True, exist_ok=True)
        try:
            self.holder = subprocess.Popen(["unshare", "--net", "--mount", "--uts", "sleep", "infinity"], stdin=subprocess.DEVNULL)
        except OSError as fault:
            raise Fault(f"unshare: {fault.strerror}", Status.OUTSIDE_FAULT) from None
        self.running.append(self.holder)
        try:
            until(self._is_apart, f"{name} has no namespace")
            self.run("hostname", name)
            for folder in ("run/frr", "etc/frr"):
                self.run("mount", "-t", "tmpfs", "own", str(self.root / folder))
                self.below("chown", "frr:frr", f"/{folder}")
            self.below("touch", "/etc/frr/vtysh.conf")
            self.run("ip", "link", "set", "dev", "lo", "up")
            self.run("sysctl", "-qw", "net.ipv6.conf.all.forwarding=1", "net.ipv6.conf.default.forwarding=1")
            self.start(daemons)
        except BaseException:
            self.stop()
            raise

    def _is_apart(self) -> bool:
        """Whether the holder has left this process's namespaces."""
        try:
            return all(
                os.readlink(f"/proc/{self.holder.pid}/ns/{kind}") != os.readlink(f"/proc/self/ns/{kind}")
                for kind in ("net", "mnt", "uts")
            )
        except OSError:
            return False

    def entered(self, *words: str) -> list[str]:
        """The words of a command that runs in the router's namespaces."""
        return ["nsenter", "--target", str(self.holder.pid), "--net", "--mount", "--uts", *words]

    def run(self, *words: str) -> str:
        """What a command in the router's namespaces writes."""
        done = subprocess.run(self.entered(*words), capture_output=True, text=True, timeout=SECONDS)
        if done.returncode:
            said = " ".join((done.stderr or done.stdout).split())
            raise Fault(f"{self.name}: {' '.join(words)[:80]}: {said[:200]}", Status.OUTSIDE_FAULT)
        return done.stdout

    def below(self, *words: str) -> str:
        """The same of a command of the router's root."""
        return self.run(*inside(self.root, words))

    def start(self, daemons: Sequence[str]) -> None:
        """Starts daemons; mgmtd is left out where this version has none."""
        for daemon in daemons:
            if daemon == "mgmtd" and not (self.root / DAEMONS / daemon).exists():
                continue
            words = self.entered(*inside(self.root, [f"/{DAEMONS}/{daemon}", "--log", "file:/run/frr/log"]))
            self.running.append(subprocess.Popen(words, stdin=subprocess.DEVNULL, stdout=subprocess.DEVNULL, stderr=subprocess.DEVNULL))
            until(lambda daemon=daemon: self._listens(daemon), f"{self.name}: {daemon} doesn't start")

    def _listens(self, daemon: str) -> bool:
        return Path(f"/proc/{self.holder.pid}/root{self.root / 'run/frr' / daemon}.vty").exists()

    def vtysh(self, *commands: str) -> str:
        """What commands write."""
        words = [word for command in commands for word in ("-c", command)]
        return self.below("vtysh", *words)

    def load(self, text: str) -> str:
        """What vtysh says of lines of configuration."""
        path = Path(f"/proc/{self.holder.pid}/root{self.root / 'etc/frr/given.conf'}")
        path.write_text(text)
        return self.below("vtysh", "-f", "/etc/frr/given.conf")

    def stop(self) -> None:
        """Ends the daemons, and with the holder the namespaces."""
        for process in reversed(self.running):
            process.terminate()
        for process in reversed(self.running):
            try:
                process.wait(10)
            except subprocess.TimeoutExpired:
                process.kill()
                process.wait()


def cable(one: Router, other: Router, ends: tuple[str, str]) -> None:
    """A pair of interfaces, one at each router."""
    words = ["ip", "link", "add", ends[0], "type", "veth", "peer", "name", ends[1], "netns", str(other.holder.pid)]
    one.run(*words)
    for router, interface in zip((one, other), ends):
        router.run("ip", "link", "set", "dev", interface, "up")


def until(holds: Callable[[], bool], fault: str, seconds: float = SECONDS) -> None:
    """Waits until something holds; a fault where it takes too long."""
    end = time.monotonic() + seconds
    while not holds():
        if time.monotonic() > end:
            raise Fault(fault, Status.OUTSIDE_FAULT)
        time.sleep(0.1)
