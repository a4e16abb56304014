"""What `srv6 compile` prints: the report and the certificate behind it."""

import re
from collections.abc import Sequence
from dataclasses import dataclass, field
from ipaddress import IPv6Address, IPv6Network

from .command import Fault
from .items import address_of, prefix_of

NUMBER = "(0|[1-9][0-9]{0,9})"
STATE = rf"potential {NUMBER} ([^ ]+) {NUMBER}"
# A line `potential` by the form of the certificate: containers, with form 2 SIDs, and hops.
POTENTIALS = {
    1: re.compile(rf"{STATE} {NUMBER} {NUMBER}"),
    2: re.compile(rf"{STATE} {NUMBER} {NUMBER} {NUMBER}"),
}
PATH = re.compile(r"path (new|stay) ([^ ]+)")
HEADS = {1: "srv6 certificate 1", 2: "srv6 certificate 2"}
FORMS = {"need": 1, "sids": 2}  # by the intent's preference
NO_LIST = "# none"


@dataclass(slots=True)
class Report:
    """The list that was found: its containers in the order of execution; none where there is no
    list.
    """

    containers: list[IPv6Address] = field(default_factory=list)
    sids: int | None = None  # how many there are, where the intent prefers few
    header: int = 0  # bytes in front of the inner packet
    need: int = 0  # lowerings of the outer hop limit

    @property
    def has_list(self) -> bool:
        """Whether there is a list."""
        return bool(self.containers)


@dataclass(frozen=True, slots=True)
class Potential:
    """A line `potential`: a state, and what is still to pay from it."""

    line: int
    position: int
    prefix: IPv6Network | None  # None at the start
    node: str | None  # where the prefix has two SIDs
    room: int
    containers: int
    sids: int  # 0 with form 1
    hops: int


@dataclass(frozen=True, slots=True)
class PathStep:
    """A line `path`: the next SID, and whether it stays in the container of the one before."""

    line: int
    stays: bool
    prefix: IPv6Network


@dataclass(slots=True)
class Certificate:
    """A certificate; one without a path says that there is no list."""

    head: int = 0  # its line, from 1
    form: int = 1  # by its head
    potentials: list[Potential] = field(default_factory=list)
    path: list[PathStep] = field(default_factory=list)
    none: int | None = None  # the line `none`
    end: int = 0
    bad: int = 0  # the first line that is outside the grammar; 0 where there is none


def report_of(lines: Sequence[str], name: str) -> Report:
    """The report in front of a certificate."""
    report, counted = Report(), None
    for number, line in enumerate(lines, 1):
        words = line.split()
        if words[:1] != ["#"]:
            break
        try:
            match words[1:]:
                case ["none"]:
                    return Report()
                case ["container", address]:
                    report.containers.append(address_of(address))
                case ["containers", count]:
                    counted = int(count)
                case ["sids", count]:
                    report.sids = int(count)
                case ["header", size]:
                    report.header = int(size)
                case ["need", need]:
                    report.need = int(need)
                case _:
                    raise ValueError(line)
        except ValueError:
            raise Fault(f"{name}: line {number}: no line of a report: {line[:60]!r}") from None
    if counted is None or counted != len(report.containers):
        raise Fault(f"{name}: no whole report of srv6 compile")
    return report


def certificate_of(lines: Sequence[str], name: str) -> Certificate:
    """The certificate of a text's lines, where they keep the grammar."""
    found = certificate_in("\n".join([*lines, ""]))
    if found.bad > len(lines):
        raise Fault(f"{name}: line {found.bad}: the certificate ends too early")
    if found.bad:
        line = lines[found.bad - 1]
        raise Fault(f"{name}: line {found.bad}: no line of a certificate here: {line[:60]!r}")
    return found


def certificate_in(text: str) -> Certificate:
    """What a text has of a certificate, up to the first line that is outside the grammar, if
    there is one.
    """
    *lines, rest = text.split("\n")
    found = Certificate()
    for number, line in enumerate(lines, 1):
        if not found.head:
            form = next((form for form, head in HEADS.items() if line == head), 0)
            if form:
                found.head, found.form = number, form
            elif not line.startswith("#"):
                found.bad = number
                return found
        elif found.end or not _takes(found, number, line):
            found.bad = number
            return found
    if not found.end or rest:
        found.bad = len(lines) + 1
    return found


def _takes(found: Certificate, number: int, line: str) -> bool:
    """Takes a line behind the head into the certificate, where it fits there."""
    try:
        if match := POTENTIALS[found.form].fullmatch(line):
            if found.path or found.none:
                return False
            found.potentials.append(_potential(number, match))
        elif match := PATH.fullmatch(line):
            if found.none:
                return False
            found.path.append(PathStep(number, match[1] == "stay", _prefix6(match[2])))
        elif line == "none" and not found.path and not found.none:
            found.none = number
        elif line == "end" and (found.path or found.none):
            found.end = number
        else:
            return False
    except ValueError:
        return False
    return True


def _potential(line: int, match: re.Match[str]) -> Potential:
    position, name, *numbers = match.groups()
    prefix, _, node = name.partition("@")
    at = None if name == "-" else _prefix6(prefix)
    room, containers, *sids, hops = map(int, numbers)
    cost = containers, sids[0] if sids else 0, hops
    if max(int(position), room, *cost) >= 2**32:
        raise ValueError(line)
    return Potential(line, int(position), at, node or None, room, *cost)


def _prefix6(text: str) -> IPv6Network:
    prefix = prefix_of(text)
    if prefix.version != 6:
        raise ValueError(text)
    return prefix
