"""The smallest packet that shows a difference: parts are taken out as long as it stays."""

from __future__ import annotations

from collections.abc import Callable, Sequence
from dataclasses import dataclass, replace

from .chains import retagged, smaller_than
from .coverage import Doing
from .node_cases import Case
from .verdicts import Got, Verdict

ROUNDS = 24
FIRST_TAG = 500_000
"""Above the numbers of a set, of which a capture has 65,536 at most."""


@dataclass(frozen=True)
class Shown:
    """A packet that shows a difference: what it is for, what the node does, what the device does."""

    case: Case
    doings: tuple[Doing, ...]
    got: Got
    verdict: Verdict

    @property
    def fault(self) -> tuple[str, str, str]:
        """What is one and the same fault: what is met, what comes of it, and how the device differs."""
        last = self.doings[0].pairs[-1] if self.doings[0].pairs else None
        return (last.met if last else "", last.outcome if last else "", self.verdict.difference)


Tried = Callable[[Sequence[Case]], list[Shown]]


def shrunk(shown: Sequence[Shown], tried: Tried) -> list[Shown]:
    """Of each shown difference the smallest packet that was found; each round asks the device once."""
    best, open_ones, tag = list(shown), set(range(len(shown))), FIRST_TAG
    for _ in range(ROUNDS):
        cases, owners = [], []
        for place in sorted(open_ones):
            for content in _candidates(best[place].case.packet):
                cases.append(replace(best[place].case, number=tag, packet=retagged(content, best[place].case.number, tag)))
                owners.append(place)
                tag += 1
        if not cases or tag > 1_000_000:
            break
        went: set[int] = set()
        for place, found in zip(owners, tried(cases)):
            if found.verdict.said == "differs" and found.fault == shown[place].fault:
                if len(found.case.packet) < len(best[place].case.packet):
                    best[place] = found
                    went.add(place)
        open_ones = went
    return best


def _candidates(packet: bytes) -> list[bytes]:
    """Smaller packets, the smallest last, each once."""
    found = dict.fromkeys(one for one in smaller_than(packet) if len(one) < len(packet))
    return sorted(found, key=len, reverse=True)
