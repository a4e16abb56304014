"""The values of a TOML table, each read with its kind; a fault names the file, the table and the
item.
"""

import functools
import re
from collections.abc import Iterator
from ipaddress import IPv4Address, IPv4Network, IPv6Address, IPv6Network
from typing import Any, NamedTuple

from .command import Fault
from .toml_places import Lines

Prefix = IPv6Network | IPv4Network
_PREFIX = re.compile(r"(.*)/(0|[1-9][0-9]{0,2})")
NEEDED = object()


@functools.lru_cache(4096)
def address_of(text: str) -> IPv6Address:
    """An IPv6 address, without a dotted tail or a zone; a ValueError where it is none."""
    if "." in text or "%" in text:
        raise ValueError(text)
    return IPv6Address(text)


@functools.lru_cache(4096)
def prefix_of(text: str) -> Prefix:
    """A prefix of either family; a ValueError where it is none."""
    match = _PREFIX.fullmatch(text)
    if not match:
        raise ValueError(text)
    if ":" in match[1]:
        return IPv6Network((address_of(match[1]), int(match[2])))
    return IPv4Network((IPv4Address(match[1]), int(match[2])))


class Item(NamedTuple):
    """An item of a table, with its place: the file, the table, its number from 1, and the lines of
    the file where faults are to name them.
    """

    path: str
    table: str
    number: int
    values: dict[str, Any]
    lines: Lines | None = None

    def fault(self, what: str, key: str | None = None) -> Fault:
        """A fault at this item, or at a key of it."""
        number = f" {self.number}" if self.number else ""
        line = self.lines.line_of(self.table, self.number, key) if self.lines else None
        at = f":{line}" if line else ""
        return Fault(f"{self.path}{at}: {self.table}{number}: {what}")

    def only(self, keys: tuple[str, ...]) -> None:
        """A fault where the item has another key than these."""
        for key in self.values:
            if key not in keys:
                raise self.fault(f"no key is called {key!r}; there are {', '.join(keys)}", key)

    def has(self, key: str) -> bool:
        """Whether the key stands there."""
        return key in self.values

    def _value(self, key: str, kind: type, called: str, default: Any) -> Any:
        value = self.values.get(key, default)
        if value is NEEDED:
            raise self.fault(f"no key `{key}`")
        if value is not default and type(value) is not kind:
            raise self.fault(f"`{key}` is no {called}", key)
        return value

    def text(self, key: str, default: Any = NEEDED) -> Any:
        """A text."""
        return self._value(key, str, "text", default)

    def integer(self, key: str, default: Any = NEEDED, low: int = 0, high: int = 2**63 - 1) -> Any:
        """An integer from `low` to `high`."""
        value = self._value(key, int, "integer", default)
        if value is not default and not low <= value <= high:
            raise self.fault(f"`{key}` is {value}, and goes from {low} to {high}", key)
        return value

    def flag(self, key: str, default: Any = NEEDED) -> Any:
        """`true` or `false`."""
        return self._value(key, bool, "true or false", default)

    def texts(self, key: str, default: Any = NEEDED) -> Any:
        """A list of texts."""
        return self._list(key, str, "list of texts", default)

    def integers(self, key: str, default: Any = NEEDED) -> Any:
        """A list of integers."""
        return self._list(key, int, "list of integers", default)

    def _list(self, key: str, kind: type, called: str, default: Any) -> Any:
        value = self._value(key, list, called, default)
        if value is not default:
            for one in value:
                if type(one) is not kind:
                    raise self.fault(f"`{key}` is no {called}", key)
        return value

    def word(self, key: str, words: tuple[str, ...], default: Any = NEEDED) -> Any:
        """One of some words."""
        value = self.text(key, default)
        if value is not default and value not in words:
            raise self.fault(f"`{key}` is {value!r}, and may be {' or '.join(words)}", key)
        return value

    def address(self, key: str) -> IPv6Address:
        """An IPv6 address."""
        return self.as_address(key, self.text(key))

    def as_address(self, key: str, text: str) -> IPv6Address:
        """A text of this item as an IPv6 address."""
        try:
            return address_of(text)
        except ValueError:
            raise self.fault(f"`{key}` has no IPv6 address: {text!r}", key) from None

    def prefix(self, key: str) -> Prefix:
        """A prefix of either family."""
        return self.as_prefix(key, self.text(key))

    def as_prefix(self, key: str, text: str) -> Prefix:
        """A text of this item as a prefix of either family."""
        try:
            return prefix_of(text)
        except ValueError:
            raise self.fault(f"`{key}` is no prefix: {text!r}", key) from None

    def prefix6(self, key: str) -> IPv6Network:
        """An IPv6 prefix."""
        prefix = self.prefix(key)
        if prefix.version != 6:
            raise self.fault(f"`{key}` is no IPv6 prefix: {prefix}", key)
        return prefix


def items_of(
    root: dict[str, Any], table: str, path: str, lines: Lines | None = None
) -> Iterator[Item]:
    """The items of an array of tables of the root, none where it is absent."""
    items = root.get(table, [])
    if type(items) is not list or any(type(item) is not dict for item in items):
        raise Item(path, table, 0, root, lines).fault("no array of tables")
    for number, values in enumerate(items, 1):
        yield Item(path, table, number, values, lines)
