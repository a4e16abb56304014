"""The legal list that segments spell: which SIDs stand in their containers, by `docs/FORMATS.md`
('States, edges and rooms'). In a flat network there is at most one.
"""

from collections.abc import Iterator, Sequence
from dataclasses import dataclass
from ipaddress import IPv6Address

from .description import Network, Sid
from .items import Prefix
from .legs import Rooms

Path = list[tuple[bool, Prefix]]  # of each SID whether it stays in the container of the one before it


@dataclass(frozen=True, slots=True)
class _Place:
    """Behind a SID: the value of its container so far, where the next SID goes, and the room left."""

    value: int
    bit: int
    sid: Sid
    room: int


class Speller:
    """Reads segments in a network."""

    def __init__(self, net: Network) -> None:
        self.rooms = Rooms(net)
        # by the bits behind the prefix, and by block and width, then by the front or own bits; of SIDs
        # that are alike on one prefix one
        self._full: dict[int, dict[int, dict[str, Sid]]] = {}
        self._own: dict[tuple[Prefix, int], dict[int, dict[str, Sid]]] = {}
        for sid in net.sids:
            behind = 128 - sid.prefix.prefixlen
            front = int(sid.prefix.network_address) >> behind
            self._full.setdefault(behind, {}).setdefault(front, {}).setdefault(sid.csid, sid)
            if block := self.rooms.block(sid):
                width = sid.prefix.prefixlen - block.prefixlen
                own = front & (1 << width) - 1
                self._own.setdefault((block, width), {}).setdefault(own, {}).setdefault(sid.csid, sid)

    def path(self, segments: Sequence[IPv6Address]) -> Path | None:
        """The list, or None where no legal list is spelled so."""
        values = [int(segment) for segment in segments]
        todo: list[tuple[int, _Place | None, Path]] = [(0, None, [])]
        while todo:
            at, place, path = todo.pop()
            if place and place.value == values[at]:
                if at + 1 == len(values):
                    return path
                todo += [(at + 1, then, [*path, (False, then.sid.prefix)]) for then in self._new(values[at + 1], place)]
            if place:
                todo += [(at, then, [*path, (True, then.sid.prefix)]) for then in self._staying(values[at], place)]
            elif values:
                todo += [(0, then, [(False, then.sid.prefix)]) for then in self._new(values[0], None)]
        return None

    def _new(self, value: int, before: _Place | None) -> Iterator[_Place]:
        """The first SIDs of a container."""
        sid, room = (before.sid, before.room) if before else (None, 0)
        if sid and sid.csid == "replace" and room == 0:
            block = self.rooms.block(sid)
            for (other, width), sids in self._own.items():
                own = value & (1 << width) - 1
                then = sids.get(own, {}).get("replace") if other == block else None
                if then:
                    yield from self._entered(False, before, then, own, width)
            return
        for behind, sids in self._full.items():
            for then in sids.get(value >> behind, {}).values():
                yield from self._entered(False, before, then, int(then.prefix.network_address), 128 - behind)

    def _staying(self, value: int, before: _Place) -> Iterator[_Place]:
        """The SIDs that may come next in a container."""
        block, is_packed = self.rooms.block(before.sid), before.sid.csid == "replace"
        for (other, width), sids in self._own.items():
            if other != block or before.bit + width > 128:
                continue
            shift = before.bit if is_packed else 128 - before.bit - width
            own = value >> shift & (1 << width) - 1
            for then in sids.get(own, {}).values():
                yield from self._entered(True, before, then, before.value | own << shift, before.bit + width)

    def _entered(self, stays: bool, before: _Place | None, sid: Sid, value: int, bit: int) -> Iterator[_Place]:
        left = self.rooms.behind(stays, before.sid if before else None, before.room if before else 0, sid)
        if left is not None:
            yield _Place(value, bit, sid, left)
