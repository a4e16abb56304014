"""Reading of files and of the input, with the limits of `srv6`; a fault is one line that names
the file.
"""

import contextlib
import sys
import tomllib
from collections.abc import Iterator
from pathlib import Path
from typing import Any, BinaryIO

from .command import Fault, Status
from .toml_text import as_toml_1_0

FILE_LIMIT = 4_194_304  # bytes of a file
INPUT_LIMIT = 67_108_864  # bytes of the input
INTEGERS = range(-(2**63), 2**63)
STDIN = "standard input"


@contextlib.contextmanager
def opened(path: str | Path) -> Iterator[BinaryIO]:
    """A file while it is read; a fault where it can't be."""
    try:
        file = open(path, "rb")
    except OSError as fault:
        raise Fault(f"{path}: {fault.strerror or fault}", Status.OUTSIDE_FAULT) from None
    except ValueError as fault:  # a zero byte in the name
        raise Fault(f"{path!r}: {fault}", Status.OUTSIDE_FAULT) from None
    with file:
        try:
            yield file
        except OSError as fault:
            raise Fault(f"{path}: {fault.strerror or fault}", Status.OUTSIDE_FAULT) from None


def read_bytes(path: str | Path, limit: int = FILE_LIMIT) -> bytes:
    """The bytes of a file."""
    with opened(path) as file:
        return _at_most(file, str(path), limit)


def read_input(limit: int = INPUT_LIMIT) -> bytes:
    """The bytes of standard input."""
    try:
        return _at_most(sys.stdin.buffer, STDIN, limit)
    except OSError as fault:
        raise Fault(f"{STDIN}: {fault.strerror or fault}", Status.OUTSIDE_FAULT) from None


def _at_most(file: BinaryIO, name: str, limit: int) -> bytes:
    pieces, left = [], limit + 1
    while left and (piece := file.read(left)):
        pieces.append(piece)
        left -= len(piece)
    if not left:
        raise Fault(f"{name}: more than {limit} bytes")
    return b"".join(pieces)


def read_lines(path: str | Path) -> list[str]:
    """The lines of a text of ASCII, without their ends; other bytes stand for themselves."""
    lines = read_bytes(path).decode("latin-1").split("\n")
    return lines[:-1] if lines[-1] == "" else lines


def read_text(path: str | Path) -> str:
    """The text of a file in UTF-8, without a byte-order mark in front of it."""
    return decoded(read_bytes(path), str(path))


def decoded(content: bytes, name: str) -> str:
    """Bytes in UTF-8 as text, without a byte-order mark in front of it."""
    try:
        return content.removeprefix(b"\xef\xbb\xbf").decode()
    except UnicodeDecodeError as fault:
        line = content.count(b"\n", 0, fault.start) + 1
        raise Fault(f"{name}: line {line}: not UTF-8") from None


def read_toml(path: str | Path) -> dict[str, Any]:
    """The root of a TOML file, read as `srv6` does: TOML 1.1, a byte-order mark, 64 bits for
    integers.
    """
    return parse_toml(read_text(path), str(path))


def parse_toml(text: str, name: str) -> dict[str, Any]:
    """The root of a TOML text."""
    try:
        return _checked(tomllib.loads(text), name)
    except tomllib.TOMLDecodeError as fault:
        first = fault
    except RecursionError:
        raise Fault(f"{name}: not TOML: too deeply nested") from None
    try:
        return _checked(tomllib.loads(as_toml_1_0(text)), name)
    except (tomllib.TOMLDecodeError, RecursionError):
        raise Fault(f"{name}: not TOML: {first}") from None


def _checked(value: Any, name: str) -> Any:
    """The value, where its integers have 64 bits."""
    todo = [value]
    while todo:
        one = todo.pop()
        if type(one) is str:  # most are
            continue
        if isinstance(one, dict):
            todo.extend(one.values())
        elif isinstance(one, list):
            todo.extend(one)
        elif isinstance(one, int) and one not in INTEGERS:
            raise Fault(f"{name}: not TOML: the integer {one} has more than 64 bits")
    return value
