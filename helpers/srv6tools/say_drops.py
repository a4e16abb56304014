"""Of packets that are dropped: where they were to go, what was found for that, and what a table has
that is nearest to it.

The program is asked once more, with the same input, for the walks.
"""

import os
import stat
from collections import Counter
from collections.abc import Iterator, Sequence
from dataclasses import dataclass
from ipaddress import IPv4Address, IPv6Address

from .captures import in_captures, sent_in
from .decisions import EntryTables, entry_words
from .description import Network, read_network
from .items import Prefix
from .places import Place, Via
from .program import judge_answer, run_program
from .trace import Walk, trace_of

MOST_INPUT = 8_388_608  # bytes of an input that is read once more
MOST_DESTINATIONS, MOST_NEAREST = 3, 3


@dataclass(frozen=True, slots=True)
class Drop:
    """Where a packet was dropped, and where it was to go."""

    reason: str
    place: Place
    destination: IPv6Address | IPv4Address


def given_input() -> bytes | None:
    """The input, where it is a file that can be read once more."""
    try:
        status = os.fstat(0)
        if not stat.S_ISREG(status.st_mode) or status.st_size > MOST_INPUT:
            return None
        return os.pread(0, MOST_INPUT, 0)
    except OSError:
        return None


def explain_drops(command: str, words: Sequence[str], given: bytes) -> dict[tuple[str, str], list[str]]:
    """For the reasons and nodes of the drops of `run` or `walk` what is to be said beside."""
    net = read_network(words[0])
    walks = (_walked if command == "walk" else _run)(net, words, given)
    counts: dict[tuple[str, str], Counter[Drop]] = {}
    for walk in walks:
        if drop := drop_of(net, walk):
            counts.setdefault((drop.reason, drop.place.node), Counter())[drop] += 1
    entries = EntryTables(net)
    return {key: list(_lines(net, entries, drops)) for key, drops in counts.items()}


def _run(net: Network, words: Sequence[str], given: bytes) -> Iterator[Walk]:
    """The walks of the packets of `run NET NODE [CHOICES ..]`."""
    yield from _traced(net, words[1], (words[2:] or ["0"])[0], given)


def _walked(net: Network, words: Sequence[str], given: bytes) -> Iterator[Walk]:
    """The last part of the walks of `walk NET INTENT [CHOICES ..]`, from the last link on."""
    asked = ["walk", *words]
    answer = run_program(asked, given)
    judge_answer(asked, answer)
    links, last = list(net.links.values()), {}
    for sent in sent_in(answer.out, "srv6 walk"):
        if sent.link:
            last[sent.packet] = links[sent.link - 1].end, sent.content
    by_node: dict[str, list[bytes]] = {}
    for node, packet in last.values():
        if node is not None:
            by_node.setdefault(node, []).append(packet)
    for node, packets in by_node.items():
        for _, capture in in_captures(packets):
            yield from _traced(net, node, "0", capture)


def _traced(net: Network, node: str, choices: str, given: bytes) -> list[Walk]:
    asked = ["trace", net.path, node, choices]
    answer = run_program(asked, given)
    judge_answer(asked, answer)
    return trace_of(answer.out.decode("latin-1").splitlines(), "srv6 trace").walks


def drop_of(net: Network, walk: Walk) -> Drop | None:
    """Where a walk ends by a drop; None where it ends otherwise, or no destination is there."""
    place, packet, family = Place(walk.node, 0, None, True), walk.packet, walk.family
    sids = {(sid.node, str(sid.prefix)): sid for sid in net.sids}
    for stage in walk.stages:
        if stage.kind == "drop":
            size, at = (16, 24) if family == 6 else (4, 16)
            address = packet[at : at + size]
            if len(address) < size:
                return None
            kind = IPv6Address if family == 6 else IPv4Address
            return Drop(stage.reason or "", place, kind(address))
        if stage.kind == "send":
            place = Place(net.links[stage.link].end or "", 0, None, True)
        elif stage.kind in ("again", "hand"):
            sid = sids[place.node, stage.sid]
            via = Via(sid.links, None) if stage.table is None and sid.links else None
            place = Place(sid.node, stage.table or 0, via, stage.kind == "hand")
        family = stage.family or family
        packet = stage.packet or packet
    return None


def _lines(net: Network, entries: EntryTables, drops: Counter[Drop]) -> Iterator[str]:
    """The destinations of drops of one reason at one node, those of most packets first."""
    for drop, count in drops.most_common(MOST_DESTINATIONS):
        found = entries.look_up(drop.place, drop.destination)
        packets = "" if sum(drops.values()) == count else f" ({count})"
        line = f"  to {drop.destination}{packets}: {entry_words(drop.place, found)}"
        yield line if found else f"{line}; {nearest_words(net, drop)}"
    if (more := len(drops) - MOST_DESTINATIONS) > 0:
        yield f"  and to {more} more"


def nearest_words(net: Network, drop: Drop) -> str:
    """The entries of a table that have most bits of a destination in common with it."""
    version = drop.destination.version
    rows = [row for row in entries_of(net, drop.place) if row[0].version == version]
    if not rows:
        return f"it has no entry of IPv{version}"
    rows.sort(key=lambda row: (-common_bits(row[0], drop.destination), row[0].prefixlen))
    said = [f"{prefix} ({what})" for prefix, what in rows[:MOST_NEAREST]]
    more = f", of {len(rows)}" if len(rows) > MOST_NEAREST else ""
    return f"nearest: {', '.join(said)}{more}"


def entries_of(net: Network, place: Place) -> Iterator[tuple[Prefix, str]]:
    """The entries of the table that a place looks up in, each in words."""
    if place.table == 0:
        for sid in net.sids:
            if sid.node == place.node:
                yield sid.prefix, f"SID, {sid.what}"
        yield net.nodes[place.node].prefix, "its address"
    for route in net.routes:
        if (route.node, route.table) == (place.node, place.table):
            yield route.prefix, f"route over {', '.join(route.via)}"


def common_bits(prefix: Prefix, address: IPv6Address | IPv4Address) -> int:
    """How many of the first bits of a prefix an address has."""
    differs = int(prefix.network_address) ^ int(address)
    return min(prefix.prefixlen, prefix.max_prefixlen - differs.bit_length())
