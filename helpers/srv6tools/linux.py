"""What is known of Linux: what its kernels can do, and how a node's parts are called there.

Two kernels are known. What is said of 6.18 was seen on 6.18.44; what is said of 6.1 stands in
ip-route(8) and ip-sr(8) of iproute2 6.1 and in Documentation/networking/seg6-sysctl.rst and
net/ipv6/seg6_iptunnel.c of Linux 6.1. A kernel between them is taken to do what 6.1 does, but for PSP at
End, which users found in 6.12.
"""

import functools
import os
import re
from dataclasses import dataclass
from ipaddress import IPv4Address, IPv6Network

from .command import Fault, Status

KERNEL_HELP = "6.1 or later; without it the running one"
MAIN_TABLE, LOCAL_TABLE = 254, 255
OWN_TABLES = {253: "default", MAIN_TABLE: "main", LOCAL_TABLE: "local"}
INTERFACE_NAME_LIMIT = 15  # bytes
NEXT_HOPS_6 = IPv6Network("fdff:ffff:ffff:ffff::/64")
NEXT_HOPS_4 = IPv4Address("169.254.0.0")


@dataclass(frozen=True, order=True)
class Kernel:
    """A version of Linux, by its first two numbers."""

    major: int
    minor: int

    def __str__(self) -> str:
        return f"{self.major}.{self.minor}"

    @property
    def psp_at_end(self) -> bool:
        """Whether End has the flavour PSP."""
        return self >= PSP_FROM

    @property
    def next_at_end_x(self) -> bool:
        """Whether End.X runs NEXT-CSIDs; End does in both."""
        return self >= LATE

    @property
    def known_as(self) -> "Kernel":
        """The kernel whose facts are taken for it."""
        return LATE if self >= LATE else EARLY


EARLY, LATE = Kernel(6, 1), Kernel(6, 18)
PSP_FROM = Kernel(6, 12)
"""Where PSP at End was reported to work; kernels between it and 6.1 may have it."""


def kernel_of(text: str) -> Kernel:
    """The kernel of a text such as 6.18 or 6.1.0-28-amd64; a ValueError where it is none."""
    match = re.match(r"([0-9]{1,3})\.([0-9]{1,3})(?![0-9])", text)
    if not match:
        raise ValueError(text)
    return Kernel(int(match[1]), int(match[2]))


def wanted_kernel(word: str | None) -> Kernel:
    """The kernel that a word names, or without one the kernel that runs here."""
    try:
        kernel = kernel_of(word if word is not None else os.uname().release)
    except ValueError:
        raise Fault(f"no version of Linux such as 6.18: {word!r}", Status.USAGE) from None
    if kernel < EARLY:
        raise Fault(
            f"of Linux {kernel} nothing is known here; --kernel takes {EARLY} and later",
            Status.USAGE,
        )
    return kernel


def interface_name(link: str, number: int) -> str:
    """The interface of a link: its name, where Linux takes one of that length, else its number."""
    if len(link) <= INTERFACE_NAME_LIMIT and link not in (".", "..", "all", "default", "lo"):
        return link
    return f"link{number}"


@functools.cache
def next_hop_6(number: int) -> str:
    """The address that stands for the next hop over a link."""
    return str(NEXT_HOPS_6[number])


@functools.cache
def next_hop_4(number: int) -> str:
    """The IPv4 address that stands for the next hop over a link."""
    return str(NEXT_HOPS_4 + number)


def table_number(table: int) -> int:
    """The number that Linux has for a table of a description; table 0 is the main one."""
    return table or MAIN_TABLE
