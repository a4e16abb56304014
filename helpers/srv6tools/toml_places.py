"""Where the tables, items and keys of a TOML text stand, for messages that name a line."""

import bisect
import functools
import re
from collections.abc import Iterator
from dataclasses import dataclass

from .toml_text import Token, token_at

_END = r"[ \t\r]*(?:\#[^\n]*)?(?:\n|\Z)"
_BLANK_LINE = re.compile(_END)
_ITEM_LINE = re.compile(rf"[ \t]*\[\[[ \t]*([A-Za-z0-9_-]+)[ \t]*\]\]{_END}")
_PLAIN = r"""[^]["'\#{}\n]"""
_SIMPLE_TEXT = r'"[^"\\\n]*"'
_SIMPLE_LINE = re.compile(
    rf"[ \t]*[A-Za-z0-9_.-]+[ \t]*=[ \t]*"
    rf"(?:{_PLAIN}*|{_SIMPLE_TEXT}|\[(?:{_PLAIN}|{_SIMPLE_TEXT})*\]){_END}"
)
_SIMPLE_TABLE = re.compile(r"""\{(?:[^{}"'\#\n]|"[^"\\\n]*"|'[^'\n]*')*\}""")


@dataclass(slots=True)
class Place:
    """A piece of a text, from its first character to behind its last."""

    start: int
    end: int


class Places:
    """The places of a TOML text: its root keys, and the items of its arrays of tables."""

    def __init__(self, text: str):
        self.text = text
        self.root: dict[str, int] = {}  # where the keys and tables of the root stand
        self.items: dict[str, list[Place]] = {}
        self._ends = [match.start() for match in re.finditer("\n", text)]
        _Scan(self).scan()

    def line_of(self, at: int) -> int:
        """The line of a character, from 1."""
        return bisect.bisect_left(self._ends, at) + 1

    def item(self, table: str, number: int) -> Place | None:
        """The place of an item, from 1; where the number is 0, where the table begins."""
        items = self.items.get(table, [])
        if number == 0:
            start = self.root.get(table, items[0].start if items else None)
            return None if start is None else Place(start, start)
        return items[number - 1] if 1 <= number <= len(items) else None

    def keys_of(self, place: Place) -> dict[str, int]:
        """Where the keys of an item stand."""
        return _keys_of(self.text, place)

    def lines_of(self, place: Place, most: int = 12) -> Iterator[tuple[int, str]]:
        """The lines of a place with their numbers, at most so many."""
        first = self.line_of(place.start)
        last = max(first, self.line_of(max(place.start, place.end - 1)))
        for number in range(first, min(last, first + most - 1) + 1):
            yield number, self.line(number)

    def line(self, number: int) -> str:
        """The text of a line."""
        start = self._ends[number - 2] + 1 if number > 1 else 0
        end = self._ends[number - 1] if number <= len(self._ends) else len(self.text)
        return self.text[start:end].rstrip("\r")


class Lines:
    """The lines of a text's items and keys; the text is looked through once one is asked for."""

    def __init__(self, text: str):
        self._text = text

    @functools.cached_property
    def _places(self) -> Places:
        return Places(self._text)

    def line_of(self, table: str, number: int, key: str | None) -> int | None:
        """The line of an item's key, else that of the item; of number 0 it is a key of the root."""
        places = self._places
        if number == 0:
            at = places.root.get(key or table)
        elif place := places.item(table, number):
            at = places.keys_of(place).get(key or "", place.start)
        else:
            at = None
        return None if at is None else places.line_of(at)


class _Scan:
    """Goes through a text once, by whole lines and tables where these are simple, else by tokens.
    """

    def __init__(self, places: Places, start: int = 0):
        self.places = places
        self.text = places.text
        self.at = start
        self.item: Place | None = None  # the item that the keys belong to

    def peek(self) -> Token | None:
        """The next token that is no blank and no comment."""
        while token := token_at(self.text, self.at):
            if token.kind not in ("blank", "comment"):
                return token
            self.at = token.end
        return None

    def scan(self) -> None:
        """Line by line."""
        in_root = True
        while self.at < len(self.text):
            if match := _ITEM_LINE.match(self.text, self.at):
                self.begin(match[1], match.start() + match[0].index("["), match.end(1) + 2)
                self.at, in_root = match.end(), False
            elif match := _BLANK_LINE.match(self.text, self.at):
                self.at = max(match.end(), self.at + 1)
            elif not in_root and (match := _SIMPLE_LINE.match(self.text, self.at)):
                self.grow(match.start() + len(match[0].rstrip()))
                self.at = match.end()
            elif token := self.peek():
                if token.text == "[":
                    self.header(token)
                    in_root = False
                elif token.kind == "line":
                    self.at = token.end
                else:
                    self.statement(token, in_root)

    def begin(self, table: str, start: int, end: int) -> None:
        """An item of an array of tables begins."""
        self.item = Place(start, end)
        self.places.items.setdefault(table, []).append(self.item)

    def grow(self, end: int) -> None:
        """The item that the keys belong to goes on."""
        if self.item:
            self.item.end = max(self.item.end, end)

    def header(self, first: Token) -> None:
        """A line `[name]` or `[[name]]`."""
        names, marks, end = [], 0, first.end
        while (token := self.peek()) and token.kind != "line":
            if token.kind in ("word", "text"):
                names.append(token.text.strip("\"'"))
            marks += token.text == "["
            end = self.at = token.end
        name = "".join(names)
        if marks > 1:
            self.begin(name, first.start, end)
        elif "." in name:
            self.grow(end)  # a table inside the item
        else:
            self.item = None
            self.places.root.setdefault(name, first.start)

    def statement(self, first: Token, in_root: bool) -> None:
        """A line `key = value`, to its end."""
        key = _key(self)
        if in_root:
            self.places.root.setdefault(key, first.start)
            token = self.peek()
            if token and token.text == "[":
                self.at = token.end
                self.members(key)
        depth, end = 0, self.at
        while (token := self.peek()) and not (token.kind == "line" and depth <= 0):
            depth += _deeper(token)
            self.at = token.end
            end = end if token.kind == "line" else token.end
        self.grow(end)

    def members(self, table: str) -> None:
        """The members of a list of the root, behind its `[`; those that are tables are items."""
        depth = 1
        while (token := self.peek()) and depth > 0:
            if token.text == "{" and depth == 1:
                match = _SIMPLE_TABLE.match(self.text, token.start)
                end = match.end() if match else self.behind(token)
                self.places.items.setdefault(table, []).append(Place(token.start, end))
                self.at = end
            else:
                depth += _deeper(token)
                self.at = token.end

    def behind(self, first: Token) -> int:
        """Where the table ends that begins with a token `{`."""
        depth, self.at = 1, first.end
        while depth > 0 and (token := self.peek()):
            depth += _deeper(token)
            self.at = token.end
        return self.at


def _deeper(token: Token) -> int:
    if token.kind != "mark":
        return 0
    return (token.text in "[{") - (token.text in "]}")


def _key(scan: _Scan) -> str:
    """The key in front of a `=`, which is passed over."""
    names = []
    while (token := scan.peek()) and token.kind != "line":
        scan.at = token.end
        if token.text == "=":
            break
        names.append(token.text.strip("\"'") if token.kind != "mark" else token.text)
    return "".join(names)


def _keys_of(text: str, place: Place) -> dict[str, int]:
    """Where the keys of an item stand, be it a table between braces or one of lines."""
    keys: dict[str, int] = {}
    inline = text.startswith("{", place.start)
    depth, is_key, at = 0, False, place.start
    while at < place.end and (token := token_at(text, at)):
        at = token.end
        if is_key and token.kind in ("word", "text"):
            keys.setdefault(token.text.strip("\"'"), token.start)
            is_key = False
        depth += _deeper(token)
        if inline:
            is_key |= depth == 1 and token.text in ("{", ",")
        elif token.kind == "line":
            is_key = depth == 0
    return keys
