"""Profiles: what a device is declared to do otherwise than `docs/BEHAVIOUR.md` says, and isn't held against it."""

from __future__ import annotations

import fnmatch
from collections.abc import Mapping, Sequence
from dataclasses import dataclass, field
from pathlib import Path
from typing import Any

from .command import Fault
from .files import parse_toml, read_text

RULES = {
    "error": ("optional",),
    "tlv": ("ignore",),
    "hmac": ("ignore",),
    "option": ("ignore",),
    "fragment": ("ignore",),
    "late hop-by-hop": ("ignore",),
    "hop-limit": ("once per node",),
    "psp": ("keep beside next-csid",),
    "encap.hop-limit": ("copy",),
    "encap.flow-label": ("copy",),
    "encap.traffic-class": ("copy",),
}
"""The rules of a profile, each with the words that it takes."""

KEYS = ("name", "rule", "deviation")
DEVIATION_KEYS = ("name", "difference", "met", "outcome", "to", "exercises")
SHIPPED = ("linux", "none")


@dataclass(frozen=True)
class Deviation:
    """Differences that are declared: a name, and what each has to be, as patterns with `*`; none allows anything."""

    name: str
    difference: tuple[str, ...] = ()
    met: tuple[str, ...] = ()
    outcome: tuple[str, ...] = ()
    to: tuple[str, ...] = ()
    exercises: tuple[str, ...] = ()

    def takes(self, facts: Mapping[str, str]) -> bool:
        """Whether a difference is one of these, by its facts."""
        return all(
            not patterns or any(fnmatch.fnmatchcase(facts[key], pattern) for pattern in patterns)
            for key, patterns in ((key, getattr(self, key)) for key in DEVIATION_KEYS[1:])
        )


@dataclass
class Profile:
    """Rules by word, and further deviations in order."""

    name: str = "none"
    rules: dict[str, str] = field(default_factory=dict)
    deviations: list[Deviation] = field(default_factory=list)

    def has(self, rule: str) -> bool:
        """Whether a rule holds."""
        return rule in self.rules

    def called(self, rule: str) -> str:
        """A rule as the report names it."""
        return f"{rule} = {self.rules[rule]}"

    @property
    def ignored(self) -> tuple[str, ...]:
        """What the device ignores in packets."""
        return tuple(rule for rule, word in self.rules.items() if word == "ignore")


def read_profile(word: str) -> Profile:
    """The profile of a name that is shipped, else of a file."""
    if word == "none":
        return Profile()
    path = Path(__file__).resolve().parent / "profiles" / f"{word}.toml" if word in SHIPPED else Path(word)
    return profile_of(parse_toml(read_text(path), str(path)), str(path))


def profile_of(root: dict[str, Any], path: str) -> Profile:
    """The profile of a TOML root."""
    name = _named(root, KEYS, path, "a profile")
    rules = root.get("rule", {})
    if not isinstance(rules, dict):
        raise Fault(f"{path}: `rule` is a table")
    items = root.get("deviation", [])
    if not isinstance(items, list) or not all(isinstance(item, dict) for item in items):
        raise Fault(f"{path}: `deviation` is an array of tables")
    return Profile(name, _rules(rules, path), [_deviation(item, at, path) for at, item in enumerate(items, 1)])


def _rules(table: dict[str, Any], path: str, front: str = "") -> dict[str, str]:
    """The rules of a table; `encap.hop-limit` is a key of the table `encap`, or one in quotes."""
    found: dict[str, str] = {}
    for key, value in table.items():
        word = front + key
        if isinstance(value, dict) and not front:
            found |= _rules(value, path, f"{key}.")
            continue
        if word not in RULES:
            raise Fault(f"{path}: no rule is called {word!r}; there are {', '.join(RULES)}")
        if value not in RULES[word]:
            raise Fault(f"{path}: rule {word}: {value!r} is none of {', '.join(map(repr, RULES[word]))}")
        found[word] = value
    return found


def _deviation(item: dict[str, Any], number: int, path: str) -> Deviation:
    where = f"{path}: deviation {number}"
    name = _named(item, DEVIATION_KEYS, where, "a deviation")
    return Deviation(name, **{key: _patterns(item, key, where) for key in DEVIATION_KEYS[1:]})


def _named(table: dict[str, Any], keys: Sequence[str], where: str, what: str) -> str:
    """The name of a table, which has no other keys than these."""
    for key in table:
        if key not in keys:
            raise Fault(f"{where}: no key of {what} is called {key!r}; there are {', '.join(keys)}")
    name = table.get("name")
    if not isinstance(name, str) or not name:
        raise Fault(f"{where}: {what} has a `name`, which is a text")
    return name


def _patterns(item: dict[str, Any], key: str, where: str) -> tuple[str, ...]:
    value = item.get(key, [])
    words: Sequence[Any] = [value] if isinstance(value, str) else value
    if not isinstance(words, list) or not all(isinstance(word, str) for word in words):
        raise Fault(f"{where}: `{key}` is a text or a list of texts")
    return tuple(words)
