"""Messages of Protocol Buffers, as few as the API of GoBGP needs: JSON of a message to bytes, and the fields of bytes."""

from __future__ import annotations

import base64
from collections.abc import Iterator, Mapping
from typing import Any

Schema = Mapping[str, Mapping[str, tuple[int, str]]]
"""By message and key of JSON: the field's number, and its kind: `int`, `text`, `bytes`, `any`, or the name of a message or an enum."""
ANY = "type.googleapis.com/"


def encoded(schema: Schema, enums: Mapping[str, Mapping[str, int]], message: str, tree: Mapping[str, Any]) -> bytes:
    """The bytes of a message."""

    def value(kind: str, one: Any) -> bytes | int:
        if kind == "int":
            return int(one)
        if kind == "text":
            return one.encode()
        if kind == "bytes":
            return base64.b64decode(one)
        if kind in enums:
            return enums[kind][one]
        if kind != "any":
            return encoded(schema, enums, kind, one)
        name = one["@type"]
        inner = {key: inner for key, inner in one.items() if key != "@type"}
        content = encoded(schema, enums, name.removeprefix(ANY).rpartition(".")[2], inner)
        return _field(1, name.encode()) + _field(2, content)

    found = b""
    for key, given in tree.items():
        number, kind = schema[message][key]
        for one in given if isinstance(given, list) else [given]:
            found += _field(number, value(kind, one))
    return found


def _field(number: int, value: bytes | int) -> bytes:
    if isinstance(value, int):
        return _varint(number << 3) + _varint(value)
    return _varint(number << 3 | 2) + _varint(len(value)) + value


def _varint(number: int) -> bytes:
    found = bytearray()
    while number > 127:
        found.append(number & 127 | 128)
        number >>= 7
    return bytes([*found, number])


def fields_of(content: bytes) -> Iterator[tuple[int, bytes | int]]:
    """The fields of a message, each with its number; a ValueError where the bytes are none."""
    at = 0
    while at < len(content):
        key, at = _read_varint(content, at)
        number, wire = key >> 3, key & 7
        if wire == 0:
            value, at = _read_varint(content, at)
            yield number, value
            continue
        size = {1: 8, 5: 4}.get(wire)
        if wire == 2:
            size, at = _read_varint(content, at)
        if size is None or at + size > len(content):
            raise ValueError("no message")
        yield number, content[at : at + size]
        at += size


def _read_varint(content: bytes, at: int) -> tuple[int, int]:
    number = 0
    for place in range(at, min(at + 10, len(content))):
        number |= (content[place] & 127) << 7 * (place - at)
        if content[place] < 128:
            return number, place + 1
    raise ValueError("no number")
