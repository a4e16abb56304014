"""A description written as TOML: tables of lines, or as few bytes as it takes."""

import functools
import json
from collections.abc import Iterable, Mapping, Sequence
from typing import Any


@functools.lru_cache(65_536)
def quoted(text: str) -> str:
    """A text between quotes."""
    return json.dumps(text, ensure_ascii=False).replace("\x7f", "\\u007f")


def value_text(value: Any, comma: str = ", ") -> str:
    """A text, an integer or a list of them, as TOML."""
    if type(value) is str:
        return quoted(value)
    if type(value) is list:
        return "[" + comma.join([value_text(one, comma) for one in value]) + "]"
    return str(value)


def item_lines(table: str, item: Mapping[str, Any]) -> str:
    """An item as a table of its own: a head, a line for each key, and an empty line."""
    lines = [f"[[{table}]]", *(f"{key} = {value_text(value)}" for key, value in item.items())]
    return "\n".join(lines) + "\n\n"


def item_inline(item: Mapping[str, Any], blank: str = "") -> str:
    """An item as an inline table, with a blank where people like one or without."""
    comma, equals = f",{blank}", f"{blank}={blank}"
    pairs = [key + equals + value_text(value, comma) for key, value in item.items()]
    return "{" + blank + comma.join(pairs) + blank + "}"


def list_text(table: str, items: Iterable[Mapping[str, Any]]) -> str:
    """Items as a list, a line each."""
    lines = "".join(f"    {item_inline(item, ' ')},\n" for item in items)
    return f"{table} = [\n{lines}]\n"


def compact_text(tree: Mapping[str, Sequence[Mapping[str, Any]]]) -> str:
    """A whole description in few bytes, a line for each item."""
    return "".join(
        f"{table}=[\n" + ",\n".join(map(item_inline, items)) + "\n]\n"
        for table, items in tree.items()
        if items
    )


def lined_text(tree: Mapping[str, Iterable[Mapping[str, Any]]]) -> str:
    """A whole description with a table of lines for each item."""
    return "".join(item_lines(table, item) for table, items in tree.items() for item in items)
