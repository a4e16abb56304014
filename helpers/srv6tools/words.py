"""The words of commands that several tools take: numbers, addresses, names, and places on the net."""

from __future__ import annotations

import argparse
import re
from collections.abc import Container
from ipaddress import IPv6Address, IPv6Network

from .items import address_of, prefix_of

BLOCK_LENGTHS = (16, 32, 48, 64)
_NAME = re.compile(r"[A-Za-z][A-Za-z0-9_.-]{0,58}")


def number_word(text: str) -> int:
    """A number of 32 bits."""
    if not text.isascii() or not text.isdecimal() or int(text) >= 2**32:
        raise argparse.ArgumentTypeError(f"{text!r} is no number below 2^32")
    return int(text)


def address_word(text: str) -> IPv6Address:
    """An IPv6 address."""
    try:
        return address_of(text)
    except ValueError:
        raise argparse.ArgumentTypeError(f"{text!r} is no IPv6 address") from None


def name_word(text: str) -> str:
    """A name that a configuration may have."""
    if not _NAME.fullmatch(text):
        raise argparse.ArgumentTypeError(f"{text!r} is no name: a letter, and letters, digits, `_`, `.` and `-`, 59 in all")
    return text


def place_word(text: str) -> str:
    """The place of an API."""
    host, colon, port = text.rpartition(":")
    if not host or not port.isascii() or not port.isdecimal():
        raise argparse.ArgumentTypeError(f"{text!r} is no HOST:PORT")
    return text


def substitutes_word(text: str) -> IPv6Network:
    """The prefix of the addresses that stand in for others."""
    return _prefix_word(text, range(113), "IPv6 prefix of at most 112 bits")


def block_word(text: str) -> IPv6Network:
    """A block."""
    return _prefix_word(text, BLOCK_LENGTHS, f"block of {', '.join(map(str, BLOCK_LENGTHS))} bits")


def _prefix_word(text: str, lengths: Container[int], what: str) -> IPv6Network:
    """A prefix of IPv6 that has one of these lengths."""
    try:
        prefix = prefix_of(text)
    except ValueError:
        raise argparse.ArgumentTypeError(f"{text!r} is no prefix") from None
    if prefix.version != 6 or prefix.prefixlen not in lengths:
        raise argparse.ArgumentTypeError(f"{text!r} is no {what}")
    return prefix
