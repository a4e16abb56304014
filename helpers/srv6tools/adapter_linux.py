"""The adapter `linux`: the node as Linux in a namespace of its own, set up by what `to-linux` writes."""

from __future__ import annotations

import json
import os
import subprocess
import sys
from collections.abc import Sequence
from dataclasses import dataclass, field
from ipaddress import IPv6Address

from .command import Fault, Status
from .description import Network, read_network
from .linux import Kernel, kernel_of
from .linux_lab import ENTRY, Lab, in_namespace, missing_for_a_lab
from .packet_parts import SOURCE
from .places import Place, Tables
from .tagging import Tagger
from .to_linux import Script, script_for
from .verdicts import Answer

LARGEST = 1_440
"""Bytes; an interface without an MTU of its own has 1,500, and a header may be put in front."""


@dataclass
class OfLinux:
    """The kernel that runs here."""

    net: Network
    node: str
    largest: int = LARGEST
    left_out: dict[str, str] = field(default_factory=dict)

    def __post_init__(self) -> None:
        if not sys.platform.startswith("linux"):
            raise Fault("--dut linux: this is no Linux", Status.NO_MEMORY)
        if reason := missing_for_a_lab():
            raise Fault(f"--dut linux: {reason}", Status.NO_MEMORY)
        if Tagger(self.net, self.node).routed(0) is None:
            raise Fault(f"{self.net.path}: node {self.node}: --dut linux needs an IPv6 route in table 0, by which it knows that a"
                        " packet is done")  # fmt: skip
        mtus = [link.mtu for link in self.net.links.values() if link.start == self.node and link.mtu < LARGEST]
        self.largest = max([LARGEST, *(mtu + 1 for mtu in mtus)])
        self.left_out = sids_left_out(self.script)

    @property
    def script(self) -> Script:
        """The commands that make Linux the node, as far as it can."""
        return without_what_isnt_here(script_for(self.net, self.node, self.kernel))

    @property
    def kernel(self) -> Kernel:
        """The kernel."""
        return kernel_of(os.uname().release)

    def answers(self, packets: Sequence[tuple[int, bytes]]) -> list[Answer]:
        """What Linux sends, found by a process of its own in the namespace."""
        given = json.dumps([self.net.path, self.node, [[number, packet.hex()] for number, packet in packets]])
        words = [sys.executable, "-c", "from srv6tools.adapter_linux import inside; inside()"]
        place = os.environ | {"PYTHONPATH": os.path.dirname(os.path.dirname(os.path.abspath(__file__)))}
        done = subprocess.run(in_namespace(words), input=given, capture_output=True, text=True, env=place)
        if done.returncode:
            raise Fault(f"--dut linux: {' '.join(done.stderr.split())[-200:]}", Status.OUTSIDE_FAULT)
        return [Answer(link, bytes.fromhex(content), number) for number, link, content in json.loads(done.stdout)]


def inside() -> None:
    """Reads packets as JSON, gives them to Linux in the namespace of this process, and writes what it sends."""
    path, node, packets = json.load(sys.stdin)
    try:
        net = read_network(path)
        adapter = OfLinux.__new__(OfLinux)
        adapter.net, adapter.node = net, node
        lab = Lab(net, node, adapter.script)
        let_errors_go_back(net, node)
        mark = Tagger(net, node).routed(0) or ""
        found = [
            (number, sent.link, sent.content.hex())
            for number, packet in packets
            for sent in lab.give(bytes.fromhex(packet), mark)
        ]
    except Fault as fault:
        sys.exit(str(fault))
    json.dump(found, sys.stdout)


def let_errors_go_back(net: Network, node: str) -> None:
    """A way to the packets' source where the description has none, since Linux sends its errors as packets."""
    place = Place(node, 0, None, True)
    if Tables(net).found_at(place, int(IPv6Address(SOURCE))) is None:
        subprocess.run(["ip", "-6", "route", "add", f"{SOURCE}/128", "dev", ENTRY], check=True)


def sids_left_out(script: Script) -> dict[str, str]:
    """The SIDs that a script leaves out, each with the reason."""
    found = {}
    for line in script.cannot:
        what, _, why = line.partition("): ")
        if what.startswith("SID "):
            found[what.split(" ")[1]] = why
    return found


def without_what_isnt_here(script: Script) -> Script:
    """The script without the SIDs that need a VRF, where this kernel has none."""
    has_vrf = any(" type vrf " in line for line in script.lines)
    if not has_vrf or _has_vrf():
        return script
    for line in [line for line in script.lines if "vrf" in line]:
        script.lines.remove(line)
        if "seg6local" in line:
            prefix = line.split(" route add ")[1].split(" ")[0]
            script.cannot.append(f"SID {prefix} (it needs a VRF): this kernel has no VRF devices")
    return script


def _has_vrf() -> bool:
    """Whether a VRF device can be made here."""
    words = in_namespace(["ip", "link", "add", "name", "probe", "type", "vrf", "table", "7"])
    return subprocess.run(words, capture_output=True).returncode == 0
