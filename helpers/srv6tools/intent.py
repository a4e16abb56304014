"""A path intent, as `docs/FORMATS.md` has it."""

from dataclasses import dataclass
from ipaddress import IPv6Address
from pathlib import Path
from typing import Any

from .files import read_toml
from .items import Item, items_of
from .toml_writer import item_lines, value_text

PREFERENCES = ("need", "sids")  # the first one where an intent says none


@dataclass(frozen=True, slots=True)
class Step:
    """A step: links, the title of a function, or a node that is reached over any links."""

    number: int  # from 1
    links: tuple[str, ...] = ()
    function: str | None = None
    reach: str | None = None

    def __str__(self) -> str:
        if self.reach:
            return f"reach {self.reach}"
        return f"function {self.function}" if self.function else f"links {', '.join(self.links)}"


@dataclass(frozen=True, slots=True)
class Intent:
    """An intent: where packets enter, the header that is put in front, and the steps."""

    path: str
    headend: str
    source: IPv6Address
    inner: str  # ipv6 or ipv4
    mode: str  # full or reduced
    hop_limit: int
    max_containers: int
    traffic_class: int
    flow_label: int
    prefer: str  # need or sids
    steps: tuple[Step, ...]

    @property
    def family(self) -> int:
        """The family of the inner packets, 6 or 4."""
        return 6 if self.inner == "ipv6" else 4

    @property
    def is_loose(self) -> bool:
        """Whether some step is loose."""
        return any(step.reach for step in self.steps)

    def executes(self, title: str | None, position: int) -> int | None:
        """The steps done once a SID with this title, or none, is executed behind so many; None
        where the title isn't the next step's.
        """
        if title is None:
            return position
        fits = position < len(self.steps) and self.steps[position].function == title
        return position + 1 if fits else None


def read_intent(path: str | Path) -> Intent:
    """The intent of a file."""
    return intent_of(read_toml(path), str(path))


def intent_of(root: dict[str, Any], path: str) -> Intent:
    """The intent of a TOML root."""
    item = Item(path, "intent", 0, root)
    return Intent(
        path,
        item.text("headend"),
        item.address("source"),
        item.word("inner", ("ipv6", "ipv4")),
        item.word("mode", ("full", "reduced")),
        item.integer("hop_limit", 64, 1, 255),
        item.integer("max_containers", 10, 1, 127),
        item.integer("traffic_class", 0, 0, 255),
        item.integer("flow_label", 0, 0, 1_048_575),
        item.word("prefer", PREFERENCES, PREFERENCES[0]),
        tuple(_step(step) for step in items_of(root, "step", path)),
    )


def preferring(root: dict[str, Any], preference: str) -> str:
    """The text of an intent with another preference, and with the same keys else."""
    keys = {key: value for key, value in root.items() if key != "step"} | {"prefer": preference}
    lines = [f"{key} = {value_text(value)}\n" for key, value in keys.items()]
    return "".join([*lines, *(item_lines("step", step) for step in root.get("step", []))])


def _step(item: Item) -> Step:
    if [item.has(key) for key in ("links", "function", "reach")].count(True) != 1:
        raise item.fault("a step has exactly one of `links`, `function` and `reach`")
    if item.has("function"):
        return Step(item.number, function=item.text("function"))
    if item.has("reach"):
        return Step(item.number, reach=item.text("reach"))
    links = tuple(item.texts("links"))
    if not links:
        raise item.fault("`links` has no links")
    return Step(item.number, links)
