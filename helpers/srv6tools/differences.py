"""What differs between two packets, in words."""

from __future__ import annotations

import difflib
from collections.abc import Iterator, Sequence

from .fields import Field, Part, dissected

SHOWN_BYTES = 8


def packet_differences(pairs: Sequence[tuple[bytes, bytes]]) -> list[list[str]]:
    """Of each pair of packets the lines that say what differs; none where they are the same."""
    unequal = [place for place, (one, other) in enumerate(pairs) if one != other]
    parts = dissected([packet for place in unequal for packet in pairs[place]])
    lines: list[list[str]] = [[] for _ in pairs]
    for at, place in enumerate(unequal):
        lines[place] = list(part_differences(parts[2 * at], parts[2 * at + 1]))
    return lines


def part_differences(one: Sequence[Part], other: Sequence[Part]) -> Iterator[str]:
    """What differs between the headers of two packets."""
    labels = [[part.label for part in parts] for parts in (one, other)]
    matcher = difflib.SequenceMatcher(None, *labels, autojunk=False)
    for kind, start, end, from_, to in matcher.get_opcodes():
        if kind == "equal":
            for left, right in zip(one[start:end], other[from_:to]):
                yield from field_differences(left, right)
            continue
        yield from (f"{part.label}: in A alone{_described(part)}" for part in one[start:end])
        yield from (f"{part.label}: in B alone{_described(part)}" for part in other[from_:to])


def _described(part: Part) -> str:
    """The fields of a part that tell it apart."""
    told = [f"{one.name} {_text(one)}" for one in part.fields if one.name in _TELLING]
    return f" ({', '.join(told)})" if told else ""


_TELLING = ("destination", "hop limit", "Segments Left", "type", "code", "bytes")


def field_differences(one: Part, other: Part) -> Iterator[str]:
    """What differs between two headers of one kind."""
    fields = [{field.name: field for field in part.fields} for part in (one, other)]
    for name in dict.fromkeys([*fields[0], *fields[1]]):
        left, right = fields[0].get(name), fields[1].get(name)
        if left == right:
            continue
        if left is None or right is None:
            where, found = ("A", left) if left else ("B", right)
            yield f"{one.label}: {name} {_text(found)} in {where} alone"
        elif left.content is None or right.content is None:
            yield f"{one.label}: {name} {left.text} in A, {right.text} in B"
        else:
            yield f"{one.label}: {byte_difference(name, left.content, right.content)}"


def _text(found: Field | None) -> str:
    if found is None or found.content is None:
        return found.text if found else ""
    shown = found.content[:SHOWN_BYTES].hex(" ")
    return f"{found.text} ({shown}{' ..' if len(found.content) > SHOWN_BYTES else ''})"


def byte_difference(name: str, left: bytes, right: bytes) -> str:
    """Where bytes differ, and in how many places."""
    places = [at for at, (one, other) in enumerate(zip(left, right)) if one != other]
    said = []
    if places:
        at = places[0]
        more = f" and {len(places) - 1} more" if len(places) > 1 else ""
        said.append(f"byte {at} is {left[at]:02x} in A, {right[at]:02x} in B{more}")
    if len(left) != len(right):
        said.append(f"{len(left)} bytes in A, {len(right)} in B")
    return f"{name}: {'; '.join(said)}"
