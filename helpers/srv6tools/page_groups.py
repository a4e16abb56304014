"""Packets of captures as they enter a network, asked of the program, for the page of `view`."""

from dataclasses import dataclass, field
from pathlib import Path
from typing import Any

from .captures import raw_capture, sent_in
from .description import Network
from .err_lines import PacketLine, err_line_of
from .fans import is_known
from .files import INPUT_LIMIT, read_bytes
from .intent import read_intent
from .page_packets import Entered, Pages
from .program import judge_answer, run_program
from .trace import Stage, Trace, Walk, trace_of
from .walks import Walks

VISITS = 200_000  # of packets at nodes, beyond which walks over all choices aren't looked for
ENTRIES = 4_000_000  # that the program may read for them, a description for each call
ENTRIES_OF_A_START = 300  # which take as long to read as a call takes beside
LEAST_CALLS = 20


def asked(*words: Any, given: bytes = b"") -> tuple[bytes, str]:
    """What the program writes on `out` and on `err`."""
    answer = run_program([str(word) for word in words], given)
    judge_answer(words, answer)
    return answer.out, answer.err


def packet_lines(err: str) -> dict[int, tuple[PacketLine, str]]:
    """The lines of packets on `err`, with their words, by number."""
    found = {}
    for line in err.splitlines():
        said = err_line_of(line)
        if isinstance(said, PacketLine):
            found[said.number] = said, line.partition(": ")[2]
    return found


def unread_of(lines: dict[int, tuple[PacketLine, str]]) -> list[tuple[int, str]]:
    """The frames that aren't read, with the cause."""
    rows = ((number, said) for number, (said, _) in sorted(lines.items()))
    return [(number, said.reason or "") for number, said in rows if said.outcome == "not read"]


def traced(net: Network, node: str, choices: str, given: bytes) -> Trace:
    """The walks of packets that arrive at a node."""
    out, _ = asked("trace", net.path, node, choices, given=given)
    return trace_of(out.decode("latin-1").splitlines(), "srv6 trace")


@dataclass(slots=True)
class Group:
    """Packets of one capture that enter in one way."""

    label: str
    packets: list[Entered]
    unread: list[tuple[int, str]]
    left_out: int = 0  # packets beyond the most that are shown
    fans: dict[int, int] = field(default_factory=dict)  # by packet
    uncounted: int = 0  # packets whose walks over all choices aren't counted


def arriving(net: Network, node: str, choices: str, path: str, most: int) -> Group:
    """The packets of a capture that arrive at a node."""
    given = read_bytes(path, INPUT_LIMIT)
    _, err = asked("run", net.path, node, choices, given=given)
    lines = packet_lines(err)
    walks = traced(net, node, choices, given).walks
    packets = [Entered(walk, lines[walk.number][1]) for walk in walks[:most]]
    label = f"{Path(path).name} arriving at {node}"
    return Group(label, packets, unread_of(lines), len(walks) - len(packets))


def along(net: Network, intent: str, choices: str, given: bytes, label: str, most: int) -> Group:
    """The inner packets of an input along an intent's list."""
    out, err = asked("walk", net.path, intent, choices, given=given)
    lines, links = packet_lines(err), list(net.links.values())
    headend = read_intent(intent).headend
    inner = {walk.number: walk for walk in traced(net, headend, "0", given).walks}
    firsts, errors = {}, {}
    for sent in sent_in(out, "srv6 walk"):
        if sent.link == 0:
            errors[sent.packet] = sent.content
        elif sent.packet not in firsts:
            firsts[sent.packet] = links[sent.link - 1], sent.content
    numbers = [n for n in sorted(lines) if lines[n][0].outcome != "not read"][:most]
    shown = len([one for one, _ in lines.values() if one.outcome != "not read"])
    onward = _onward(net, {n: firsts[n] for n in numbers if n in firsts}, _behind_first(choices))
    packets = []
    for number in numbers:
        said, words = lines[number]
        own = inner[number].packet
        if number in onward:
            name = firsts[number][0].name
            packets.append(Entered(onward[number], words, own, name, headend))
        else:
            drop = Stage(0, "drop", reason=said.reason, packet=errors.get(number))
            walk = Walk(0, number, inner[number].family, headend, own, [drop])
            packets.append(Entered(walk, words, looks_up=False))
    return Group(label, packets, unread_of(lines), shown - len(packets))


def _behind_first(choices: str) -> str:
    """The choices of a packet behind its first send."""
    first, *rest = choices.split(",")
    return ",".join([*rest, first])


def _onward(net: Network, firsts: dict[int, Any], choices: str) -> dict[int, Walk]:
    """The walks of packets from the end of the first link on."""
    found, by_node = {}, {}
    for number, (link, content) in firsts.items():
        if link.end is None:
            found[number] = Walk(0, number, 6, link.start, content)
        else:
            by_node.setdefault(link.end, []).append((number, content))
    for node, rows in by_node.items():
        given = b"".join(raw_capture((0, 0, content) for _, content in rows))
        for (number, _), walk in zip(rows, traced(net, node, choices, given).walks):
            walk.number = number
            found[number] = walk
    return found


def most_calls(entries: int) -> int:
    """How often the program may be asked that reads so many entries each time."""
    return max(LEAST_CALLS, ENTRIES // (entries + ENTRIES_OF_A_START))


def count_fans(pages: Pages, group: Group, node: str | None, intent: str | None) -> None:
    """All walks of a group's packets, over all choices; of those alone whose walks are found
    before the program was asked too often.
    """
    walks = Walks(pages.net, VISITS)
    walks.calls = most_calls(walks.entries_a_call)
    shown = [one for one in group.packets if intent is None or one.first]
    if not shown:
        return
    contents = (one.walk.packet if one.inner is None else one.inner for one in shown)
    given = b"".join(raw_capture((0, 0, content) for content in contents))
    if intent is None:
        starts = walks.from_node(node or "", given)
    else:
        starts = walks.from_intent(intent, given)
    for start in starts:
        if is_known(walks, start):
            group.fans[shown[start.number - 1].walk.number] = pages.fan(walks, start)
        else:
            group.uncounted += 1


def enter_group(pages: Pages, group: Group) -> dict[str, Any]:
    """Adds the packets of a group to what the page has; gives what it says of the group."""
    contents = []
    for one in group.packets:
        contents += [one.inner or b"", one.walk.packet, *(s.packet or b"" for s in one.walk.stages)]
    pages.read(contents)
    walks = [
        pages.add(one, group.label, group.fans.get(one.walk.number, -1)) for one in group.packets
    ]
    return {
        "label": group.label, "walks": walks, "unread": group.unread, "left_out": group.left_out,
        "uncounted": group.uncounted,
    }  # fmt: skip
