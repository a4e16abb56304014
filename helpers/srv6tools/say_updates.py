"""What the edits of an update mean, and what its refusals do: of which of its two descriptions
they are, and what stands in the way of the way from one to the other.
"""

from collections.abc import Iterator, Mapping, Sequence

from .command import Status
from .items import Prefix, address_of, prefix_of
from .program import run_program
from .say_items import TomlFile

KEPT = "an update changes routes and SIDs alone; blocks, nodes, links and policies stay as they are"
ORDER = "an update adds all that is new before it removes what is old, so both would stand there"
EDITS = {
    "add": "the entry is there from now on; its number is behind those of OLD, in the order of NEW",
    "switch": "packets that enter from now on have the list of NEW",
    "busy": "that packet entered before the switch and hasn't ended, so nothing is removed yet",
    "remove": "the entry of OLD with this number is no longer there",
}


def explain_edits(edits: Mapping[str, int]) -> Iterator[str]:
    """What each kind of line `edit ..` means that there was, with how often it came."""
    for kind, why in EDITS.items():
        if count := edits.get(kind, 0):
            yield f"edit {kind} ({'once' if count == 1 else f'{count} times'}): {why}"


def net_at_fault(old: str, new: str, intent: str, line: str) -> str:
    """The description that a refusal is of; none where it is of both joined."""
    for net in (old, new):
        said = run_program(["check", net, intent, "/dev/null"]).err.splitlines()
        if line in said:
            return net
    return ""


def net_without_answer(old: str, new: str, intent: str) -> str:
    """The description in which the intent has no list, or none within its limits."""
    answer = run_program(["compile", old, intent])
    return old if answer.status == Status.NO_ANSWER else new


def explain_update(
    old: TomlFile, new: TomlFile, name: str, fields: Sequence[str]
) -> Iterator[str]:
    """What 47, 48, and 32 of both descriptions joined, mean."""
    match name, fields:
        case "Conflict", (table, item, other, number):
            yield from _conflict(old, new, (table, int(item)), (other, int(number)))
        case "Differs", (table, item):
            yield from _differs(old, new, table, int(item))
        case "Limit", (table, _):
            yield f"{old.path} with what {new.path} adds has more {table}s than a description may"


def _conflict(
    old: TomlFile, new: TomlFile, before: tuple[str, int], after: tuple[str, int]
) -> Iterator[str]:
    entries = old.item(*before), new.item(*after)
    yield f"{old.path}: {old.where(*before)}, and {new.path}: {new.where(*after)}:"
    yield _why_in_conflict(before[0], entries[0], after[0], entries[1])
    yield from old.quote(*before, _key(before[0]))
    yield from new.quote(*after, _key(after[0]))
    yield ORDER
    yield "what changes has to have a prefix of its own that lies apart, and a title of its own"


def _key(table: str) -> str:
    return "address" if table == "node" else "prefix"


def _prefix(table: str, entry: dict) -> Prefix:
    """The prefix of an entry: an address is one of 128 bits."""
    return prefix_of(f"{address_of(entry['address'])}/128" if table == "node" else entry["prefix"])


def _why_in_conflict(table: str, before: dict, other: str, after: dict) -> str:
    own, their = _prefix(table, before), _prefix(other, after)
    title = before.get("title") if table == other == "sid" else None
    if title is not None and title == after.get("title"):
        return f'they are two SIDs with the title "{title}"'
    if own == their:
        return f"they have the prefix {own}, and aren't equal in all else"
    outer, inner = (own, their) if own.prefixlen < their.prefixlen else (their, own)
    return f"{outer} holds {inner}, and not both of them stay"


def _differs(old: TomlFile, new: TomlFile, table: str, number: int) -> Iterator[str]:
    count = len(old.items(table)), len(new.items(table))
    if number > min(count):
        short, other = (old, new) if count[0] < count[1] else (new, old)
        yield f"{short.path} has no {table} {number}, and {other.path} has one:"
        yield from other.quote(table, number)
    else:
        yield f"{table} {number} isn't the same in {old.path} and in {new.path}:"
        yield from old.quote(table, number)
        yield from new.quote(table, number)
    yield KEPT
