"""The keys that the tables of a description and of an intent may have, with what each takes.

It says what `docs/FORMATS.md` says, for messages; what is refused `srv6` alone decides.
"""

import enum
import re
from collections.abc import Iterator
from dataclasses import dataclass
from ipaddress import ip_network
from typing import Any

from .description import BEHAVIOURS
from .items import address_of, prefix_of

NAME = re.compile(r"[A-Za-z0-9_.-]{1,32}")


class Form(enum.Enum):
    """What a value, or a member of a list, is."""

    NAME = "a name (1 to 32 letters, digits, `_`, `.` and `-`)"
    ADDRESS = "an IPv6 address"
    PREFIX = "an IPv6 or IPv4 prefix"
    PREFIX6 = "an IPv6 prefix"
    WORD = "a word"
    NUMBER = "an integer"


@dataclass(frozen=True, slots=True)
class Key:
    """A key of a table."""

    name: str
    form: Form
    needed: bool = True
    default: str = ""  # of a key that may be absent
    words: tuple[str, ...] = ()  # of a word
    low: int = 0  # of a number; of a list the fewest members
    high: int = 0  # of a number; of a list the most members
    is_list: bool = False
    top: int = 0  # of a list of numbers the greatest one

    @property
    def takes(self) -> str:
        """What the key takes, in words."""
        one = self.form.value
        if self.form is Form.WORD:
            one = "one of " + ", ".join(f'"{word}"' for word in self.words)
        if self.form is Form.NUMBER:
            one = f"an integer from {self.low} to {self.high}"
        if self.name == "csid" and self.form is Form.NUMBER:
            one = "16 or 32"
        if not self.is_list:
            return one
        members = {
            Form.NAME: "names",
            Form.ADDRESS: "IPv6 addresses",
            Form.WORD: "of " + ", ".join(f'"{word}"' for word in self.words),
            Form.NUMBER: f"integers from 0 to {self.top}",
        }[self.form]
        return f"a list of {self.low} to {self.high} {members}"


def _name(key: str, needed: bool = True) -> Key:
    return Key(key, Form.NAME, needed)


def _number(key: str, low: int, high: int, default: str | None = None) -> Key:
    return Key(key, Form.NUMBER, default is None, default or "", low=low, high=high)


def _names(key: str, needed: bool = True) -> Key:
    return Key(key, Form.NAME, needed, low=1, high=64, is_list=True)


def _word(key: str, *words: str, default: str | None = None) -> Key:
    return Key(key, Form.WORD, default is None, default or "", words=words)


_FLAVOURS = Key(
    "flavours", Form.WORD, False, "none", ("psp", "usp", "usd"), high=3, is_list=True
)
_ALLOW = Key("allow", Form.NUMBER, False, "none", high=16, is_list=True, top=255)

KEYS = {
    "block": (
        Key("prefix", Form.PREFIX6), _word("kind", "next", "replace"), _number("csid", 16, 32),
    ),
    "node": (_name("name"), Key("address", Form.ADDRESS), _ALLOW),
    "link": (
        _name("name"), _name("from"), _name("to", False), _number("mtu", 1280, 65575, "65575"),
    ),
    "route": (
        _name("node"), _number("table", 0, 65535, "0"), Key("prefix", Form.PREFIX), _names("via"),
    ),
    "policy": (
        _name("name"), Key("source", Form.ADDRESS),
        Key("segments", Form.ADDRESS, low=1, high=127, is_list=True),
        _number("traffic_class", 0, 255, "0"), _number("flow_label", 0, 1_048_575, "0"),
        _number("hop_limit", 1, 255, "64"),
    ),
    "sid": (
        _name("node"), Key("prefix", Form.PREFIX6, low=1), _word("behaviour", *BEHAVIOURS),
        _word("csid", "plain", "next", "replace", default="plain"), _FLAVOURS,
        _name("title", False), _names("links", False), _number("table", 0, 65535, ""),
        _name("policy", False),
    ),
    "intent": (
        _name("headend"), Key("source", Form.ADDRESS), _word("inner", "ipv6", "ipv4"),
        _word("mode", "full", "reduced"), _number("hop_limit", 1, 255, "64"),
        _number("max_containers", 1, 127, "10"), _number("traffic_class", 0, 255, "0"),
        _number("flow_label", 0, 1_048_575, "0"), _word("prefer", "need", "sids", default="need"),
    ),
    "step": (_names("links", False), _name("function", False), _name("reach", False)),
}  # fmt: skip

MOST = {
    "block": 64, "node": 256, "link": 4096, "route": 65536, "policy": 256, "sid": 4096, "step": 48,
}  # fmt: skip

# The key of its own that each behaviour has.
KEY_OF = {
    "End.X": "links", "End.DX6": "links", "End.DX4": "links",
    "End.T": "table", "End.DT6": "table", "End.DT4": "table", "End.DT46": "table",
    "End.B6.Encaps": "policy", "End.B6.Encaps.Red": "policy",
}  # fmt: skip


def keys_in_words(table: str) -> str:
    """The keys that an item of a table may have; those in brackets may be absent."""
    names = (key.name if key.needed else f"[{key.name}]" for key in KEYS[table])
    return ", ".join(names) + (", [step]" if table == "intent" else "")


_KINDS = {bool: "true or false", int: "an integer", float: "a number with a point", str: "a text",
          list: "a list", dict: "a table"}  # fmt: skip


def kind_of(value: Any) -> str:
    """The kind of a value of TOML, in words."""
    return _KINDS.get(type(value), "a date or a time")


def faults_of(key: Key, value: Any) -> Iterator[tuple[str, str]]:
    """The faults of a value: the name that a refusal has for it, and what it is, in words."""
    if not key.is_list:
        yield from _faults_of_one(key, value, key.low, key.high)
        return
    if type(value) is not list:
        yield "WrongKind", f"`{key.name}` is {kind_of(value)}, and takes {key.takes}"
        return
    if not key.low <= len(value) <= key.high:
        yield "Limit", f"`{key.name}` has {len(value)} members, and takes {key.takes}"
    for member in value:
        yield from _faults_of_one(key, member, 0, key.top)


def _faults_of_one(key: Key, value: Any, low: int, high: int) -> Iterator[tuple[str, str]]:
    has = f"`{key.name}` has {shown(value)}" if key.is_list else f"`{key.name}` is {shown(value)}"
    if type(value) is not (int if key.form is Form.NUMBER else str):
        yield "WrongKind", f"{has}, which is {kind_of(value)}, and takes {key.takes}"
        return
    match key.form:
        case Form.NUMBER if key.name == "csid":
            if value not in (16, 32):
                yield "BadFlavour", f"{has}, and takes {key.takes}"
        case Form.NUMBER if not low <= value <= high:
            yield "Limit", f"{has}, and takes {key.takes}"
        case Form.WORD if value not in key.words:
            yield "BadFlavour", f"{has}, and takes {key.takes}"
        case Form.NAME if not NAME.fullmatch(value):
            yield "BadName", f"{has}, which is no name (1 to 32 letters, digits, `_`, `.` and `-`)"
        case Form.ADDRESS:
            if why := _no_address(value):
                yield "BadAddress", f"{has}, which is no IPv6 address: {why}"
        case Form.PREFIX | Form.PREFIX6:
            if why := _no_prefix(value, key.form):
                yield "BadAddress", f"{has}, which is no {key.form.value.split(' ', 1)[1]}: {why}"
            elif key.low and value.endswith("/0"):
                yield "Limit", f"{has}, and a SID's prefix has 1 to 128 bits"


def _no_address(text: str) -> str:
    try:
        address_of(text)
    except ValueError as fault:
        if "/" in text:
            return "it has a length"
        return "a dotted tail and a zone aren't taken" if str(fault) == text else str(fault)
    return ""


def _no_prefix(text: str, form: Form) -> str:
    try:
        prefix = prefix_of(text)
    except ValueError as fault:
        return _why_no_prefix(text, str(fault))
    return "it is one of IPv4" if prefix.version == 4 and form is Form.PREFIX6 else ""


def _why_no_prefix(text: str, fault: str) -> str:
    if "/" not in text:
        return "its length, as /48, is missing"
    if "has host bits set" in fault:
        return f"a bit is set behind its length; without it it is {ip_network(text, strict=False)}"
    return fault if fault != text else "an address, `/` and a length without leading zeros"


def shown(value: Any) -> str:
    """A value as a message shows it."""
    text = f'"{value}"' if isinstance(value, str) else repr(value)
    return text if len(text) <= 60 else text[:57] + "..."
