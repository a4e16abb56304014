"""What other refusals and answers mean: of the input, of traces and certificates, of networks
that aren't flat.
"""

import contextlib
import errno
import os
import select
from collections.abc import Iterator, Sequence

from .captures import GZIP
from .command import Fault, tool_name
from .description import TABLES
from .files import read_lines
from .items import prefix_of
from .report import FORMS, HEADS, PATH, POTENTIALS
from .say_items import OF_THIS_KIND, TomlFile, near, quoted
from .trace import HEAD as TRACE_HEAD
from .trace import stage_of

LINK_TYPES = {
    0: "BSD loopback", 9: "PPP", 12: "raw IP of OpenBSD", 104: "Cisco HDLC", 105: "802.11",
    108: "loopback of OpenBSD", 113: "Linux cooked v1, as of `tcpdump -i any`",
    127: "802.11 with radiotap", 228: "raw IPv4", 276: "Linux cooked v2, as of `tcpdump -i any`",
}  # fmt: skip
TO_RAW, WHY, DIFF = map(tool_name, ("to-raw", "why-no-list", "srv6-diff"))
CONVERT = (
    f"`{TO_RAW} IN > OUT` makes a capture of it that srv6 takes; `editcap -F pcap IN OUT` does"
    " where the link type is Ethernet or raw IP"
)
REASONS = {
    "ShortFrame": "the capture has fewer bytes of the frame than there were; capture with `-s 0`",
    "NotIp": f"no IP packet stands right behind the link's header; `{TO_RAW}` takes VLAN tags off",
    "WrongVersion": "the packet is of another family than the intent's `inner`",
    "Truncated": "there are fewer bytes than the packet's length says",
    "BadVersion": "the IP version isn't that of the packet's family",
    "Multicast": "the destination is multicast, which isn't forwarded",
    "NoRoute": "no entry of the node's table holds the destination",
    "HopLimit": "the hop limit was at most 1 where it had to be lowered",
    "Ttl": "the TTL was at most 1 where it had to be lowered",
    "BadChain": "an extension header is cut, or an option passes its end",
    "LateHopByHop": "Hop-by-Hop Options stand behind another header",
    "OptionDiscard": "an unknown option whose type says: drop",
    "OptionUnknown": "an unknown option whose type says: drop and send an error",
    "UnknownRouting": "a routing header with segments left that the node doesn't process there",
    "Fragment": "the packet is a fragment, and fragments aren't put together",
    "BadSegments": "Segments Left or Last Entry is out of range, or segments are left at a SID that"
    " decapsulates",
    "HmacTlv": "the segment routing header has an HMAC, which isn't verified",
    "BadTlv": "an item behind the segment list passes the header's end",
    "UpperLayer": "the SID doesn't take this upper layer; a node takes those of its key `allow`",
    "TooBig": "with the header in front the packet would be longer than 65,535 bytes",
    "InnerHop": "the inner packet's hop limit or TTL is at most 1, so the headend can't lower it",
    "MtuExceeded": "the packet is longer than the `mtu` of the link that was taken",
}
STOPPED = (
    "it used 10,000 stages without an end, as where a policy's header is pushed again and again"
)


# Where the prefixes of a refusal are looked for, up to the first table that has one; else SIDs.
_FIRST_OF = {"MixedBlock": ("sid", "block")}
NG_BLOCKS = {
    49: "has lengths that don't fit",
    50: "is a section of neither byte order",
    51: "is a section of another major version than 1",
    52: "is a packet of an interface that isn't described",
    54: "is an obsolete packet block",
}


def explain_input(number: int, fields: Sequence[str]) -> Iterator[str]:
    """What a refusal of the input means."""
    name = _name_of_input()
    start = _start_of_input()
    match number:
        case 2:
            yield f"{name} has more than {fields[0]} bytes; part it by `editcap -c 65536 IN OUT`"
        case 11:
            yield f"{name} begins with {_looks_like(start)}"
            takes = "srv6 takes a capture, classic or pcapng, or one bare IPv6 packet"
            yield CONVERT if start and start[:2] == GZIP else takes
        case 13:
            yield f"{name} is a capture of another version than 2.4"
            yield CONVERT
        case 14:
            kind = LINK_TYPES.get(int(fields[0]), "another link")
            yield f"{name} has link type {fields[0]} ({kind});"
            yield "srv6 takes 1 (Ethernet), 101 (raw IP) and 229 (IPv6)"
            yield CONVERT
        case 15:
            is_empty = start == b""
            what = "is empty: is a `< FILE` missing?" if is_empty else "ends within its head"
            yield f"{name} {what}"
        case 16:
            yield f"{name} ends within frame {fields[0]}; the frames before it are done"
            yield "a capture that is still being written is cut so;"
            yield f"`{TO_RAW} IN > OUT` leaves that frame out"
        case 17:
            yield f"{name} has more than 65536 frames; part it by `editcap -c 65536 IN OUT`"
        case 53:
            yield f"{name} ends within block {fields[0]}; the packets before it are done"
            yield "a capture that is still being written is cut so"
        case 49 | 50 | 51 | 52 | 54:
            yield f"{name} is a pcapng file whose block {fields[0]} {NG_BLOCKS[number]}"
            yield "`editcap IN OUT` writes it anew, where it can be read"


def _name_of_input() -> str:
    with contextlib.suppress(OSError):
        target = os.readlink("/proc/self/fd/0")
        if target.startswith("/") and not target.startswith("/dev/"):
            return target
    return "the input"


def _start_of_input() -> bytes | None:
    """The first bytes of the input, where it is a file that can be read once more; else None."""
    with contextlib.suppress(OSError):
        return os.pread(0, 16, 0)
    return None


def _looks_like(start: bytes | None) -> str:
    if start is None:
        return "no magic of a capture"
    if start[:2] == GZIP:
        return "a gzip head: it is compressed"
    if start[:4] in (b"\xa1\xb2\xcd\x34", b"\x34\xcd\xb2\xa1"):
        return "the magic of a modified capture"
    if start[:1] and start[0] >> 4 == 4:
        make = "`od -A x -t x1 -v IN | text2pcap -l 101 - OUT` makes a capture of it"
        return f"{start[:4].hex()}, as a bare IPv4 packet: {make}"
    if start.isascii() and start.decode("ascii").isprintable():
        return f"the text {start.decode('ascii')!r}"
    return f"{start[:4].hex()}, which is no magic of a capture"


def explain_node(net: TomlFile, word: str) -> Iterator[str]:
    """What BadNode means."""
    names = [node["name"] for node in net.items("node")]
    yield f'{net.path} has no node "{word}"; {near(word, names, "nodes", most=256)}'


def explain_trace(path: str, number: int, net: TomlFile) -> Iterator[str]:
    """What BadTrace means."""
    lines = read_lines(path)
    if number > len(lines):
        yield f"{path} ends behind line {len(lines)}: the line `end` is missing"
        return
    line = lines[number - 1]
    yield f"{path}:{number}: {_why_bad_trace(line, number, lines, net)}"
    yield quoted(number, line)


def _why_bad_trace(line: str, number: int, lines: Sequence[str], net: TomlFile) -> str:
    if number == 1:
        return f"the first line isn't `{TRACE_HEAD}`"
    if "end" in lines[: number - 1]:
        return "it stands behind `end`"
    words = line.split(" ")
    if words[0] == "packet" and len(words) == 5:
        names = [node["name"] for node in net.items("node")]
        if words[3] not in names:
            return f'there is no node "{words[3]}"; {near(words[3], names, "nodes")}'
        return "no line of a packet: NUMBER, FAMILY 6 or 4, NODE, HEX up to the packet's own end"
    if stage_of(line) and not any(one.startswith("packet ") for one in lines[: number - 1]):
        return "a stage stands before the first packet"
    if line.endswith("\r"):
        return "it ends with a carriage return; lines end with a line feed alone"
    kinds = "packet, again, hand, send, local, drop, stages and end"
    return f"no line of a trace, which are {kinds}, by docs/FORMATS.md"


def explain_certificate(intent: str, path: str, number: int) -> Iterator[str]:
    """What BadCert means."""
    lines = read_lines(path)
    prefer = TomlFile(intent).root.get("prefer", "need")
    form = FORMS[prefer]
    heads = [one for one in lines[:number] if one in HEADS.values()]
    if number > len(lines):
        yield f"{path} ends behind line {len(lines)}: the line `end` is missing"
        return
    line = lines[number - 1]
    if not heads:
        why = f"only lines that begin with # stand before `{HEADS[form]}`"
    elif heads[0] != HEADS[form]:
        why = f"an intent that prefers `{prefer}` has certificates that begin `{HEADS[form]}`"
    elif POTENTIALS[form].fullmatch(line):
        why = (
            "it names no state of this network and intent, or doesn't come behind the state"
            " before it (position, prefix, length, node, room); is it of another intent?"
        )
    elif PATH.fullmatch(line):
        why = "a path's line can't stand here, or has no prefix"
    elif line.endswith("\r"):
        why = "it ends with a carriage return; lines end with a line feed alone"
    else:
        why = "it is no line that a certificate has here, by docs/FORMATS.md"
    yield f"{path}:{number}: {why}"
    yield quoted(number, line)


def explain_verdict(net: str, path: str, line: str, command: str) -> Iterator[str]:
    """What a verdict `no ..` of `check` or `replay` means."""
    words = line.split(" ")
    number = int(words[1])
    lines = read_lines(path)
    if command == "replay":
        other = "the node doesn't do this; what it does stands behind the number"
        why = {
            "ended": "the packet has ended before this line",
            "stages": "the packet has used 10,000 stages; only the line `stages` follows",
        }.get(words[2], f"{other}; `{DIFF} --replay {net} {path}` compares them")
    else:
        why = {
            "edge": "the potential falls by more than an edge from this state costs",
            "unlisted": f"the state {' '.join(words[3:])} isn't listed, and an edge leads from it"
            " to a listed one or to the end",
            "path": "no edge leads along this line of the path, or `none` stands where the start is"
            " listed",
            "tight": "the path costs another sum than the start's potential",
        }[words[2]]
    yield f"{path}:{number}: {why}"
    yield quoted(number, lines[number - 1])


def explain_flatness(net: TomlFile, name: str, fields: Sequence[str]) -> Iterator[str]:
    """What 41 to 44 mean: the entries of the prefixes, with their lines."""
    tables: dict[str, tuple[str, ...]] = {}  # of a prefix that may stand in several, all of them
    match name, fields:
        case "Nested", (outer, inner):
            yield f"{inner} lies inside the SID {outer}, so packets to it don't come to that SID;"
            yield "compile, check, walk and update take only a SID of the same node there, with 16"
            yield "bits more (FORMATS.md, 'Networks that aren't flat'), no route and no address"
            tables = {inner: ("sid", "route", "node")}
        case "ZeroCsid", (sid,):
            yield f"the SID {sid} has only zeros behind its block:"
            yield "its CSID is 0, which ends a container"
        case "MixedBlock", (block, sid):
            yield f"the SID {sid} isn't one that the block {block} may have:"
            yield "strictly inside it, with its `csid`, and of a length that its SIDs have"
        case "Clash", (sid, *nodes):
            yield f"two SIDs have the prefix {sid}, at {' and '.join(nodes)}, and differ in `csid`"
    for text in dict.fromkeys(field for field in fields if "/" in field):
        for table in tables.get(text, _FIRST_OF.get(name, ("sid",))):
            key = "address" if table == "node" else "prefix"
            found = _entries_of(net, table, key, text)
            for number in found:
                yield f"{net.path}: {net.where(table, number)}:"
                yield from net.quote(table, number, key)
            if found and text not in tables:
                break


def _entries_of(net: TomlFile, table: str, key: str, text: str) -> list[int]:
    """The numbers of the items of a table that have a prefix, three at most."""
    prefix = prefix_of(text)
    found = []
    for number, item in enumerate(net.items(table), 1):
        with contextlib.suppress(*OF_THIS_KIND):
            own = item[key] + "/128" if table == "node" else item[key]
            if prefix_of(own) == prefix:
                found.append(number)
    return found[:3]


def explain_fault(files: Sequence[str], has_input: bool) -> Iterator[str]:
    """What failed with status 5: the first file that can't be read, else a stream."""
    for path in files:
        try:
            with open(path, "rb") as file:
                file.read(1)
        except (OSError, ValueError) as fault:
            yield f"{path}: {getattr(fault, 'strerror', None) or fault}"
            return
    if has_input and (why := _why_no_input()):
        yield f"standard input: {why}"
        return
    for number, name in ((1, "standard output"), (2, "standard error")):
        if why := _why_no_output(number):
            yield f"{name}: {why}"
            return
    yield "a read of the input or a write failed; which one can't be seen now (`strace -f` tells)"


def _why_no_input() -> str:
    try:
        os.fstat(0)
        os.pread(0, 1, 0)
    except OSError as fault:
        return "" if fault.errno == errno.ESPIPE else os.strerror(fault.errno or 0)
    return ""


def _why_no_output(number: int) -> str:
    try:
        os.fstat(number)
        poll = select.poll()
        poll.register(number, select.POLLOUT)
        if any(event & select.POLLERR for _, event in poll.poll(0)):
            return os.strerror(errno.EPIPE)
        os.write(number, b"")
        if os.fstatvfs(number).f_bavail == 0:
            return os.strerror(errno.ENOSPC)
    except OSError as fault:
        return os.strerror(fault.errno or 0)
    return ""


def explain_no_answer(why: str, number: int | None, net: str, intent: str) -> Iterator[str]:
    """What `no answer ..` means."""
    if why == "NoList":
        yield "no legal list of the network's SIDs realizes the intent;"
        yield f"`{WHY} {net} {intent}` says how far lists come, and why they don't go on"
        return
    key, default = ("max_containers", 10) if why == "TooLong" else ("hop_limit", 64)
    file = TomlFile(intent)
    has = file.root.get(key, default)
    own = "" if key in file.root else ", its default"
    if why == "TooLong":
        yield f"the least list has {number} containers; {intent} allows {has} (`{key}`{own})"
    else:
        yield f"the least list lowers the hop limit {number} times;"
        yield f"{intent} has {has} (`{key}`{own}), which has to be above {number}"
    yield from file.quote_root(key)
    if why == "HopLimit" and file.root.get("prefer") == "sids":
        yield 'it prefers few SIDs (`prefer = "sids"`): another list of as many containers may need less;'
        yield 'with `prefer = "need"` srv6 finds the one that needs least'
        yield from file.quote_root("prefer")


def is_swapped(net: str, intent: str) -> bool:
    """Whether a description and an intent stand in each other's place."""
    try:
        return bool({"headend", "step"} & set(TomlFile(net).root)) and bool(
            set(TABLES) & set(TomlFile(intent).root)
        )
    except Fault:
        return False
