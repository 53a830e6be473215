"""Addresses, headers of packets and boxes of them, in numbers."""

from __future__ import annotations

import functools
import re
from typing import NamedTuple, Optional

from scripts.words import PROTOCOLS

Range = tuple[int, int]
# One range a side, in the order of a header.
Box = tuple[Range, Range, Range, Range, Range]
LAST = (255, 0xFFFFFFFF, 0xFFFFFFFF, 65535, 65535)
# Of ICMP: type 8, code 0.
ECHO_REQUEST = 8 * 256


@functools.lru_cache(100_000)
def address(text: str) -> int:
    """The number of an address."""
    parts = text.split(".")
    if len(parts) != 4 or not all(it.isdecimal() and int(it) < 256 for it in parts):
        raise ValueError(f"{text} is no address")
    return int.from_bytes(bytes(map(int, parts)), "big")


def dotted(number: int) -> str:
    return ".".join(map(str, number.to_bytes(4, "big")))


class Header(NamedTuple):
    proto: int
    src: int
    dst: int
    p: int
    q: int

    def words(self) -> list[str]:
        """The five words of a header, as texts have them."""
        proto = PROTOCOLS.get(self.proto, str(self.proto))
        return [proto, dotted(self.src), dotted(self.dst), str(self.p), str(self.q)]

    def __str__(self) -> str:
        return " ".join(self.words())


def reply_of(header: Header) -> Optional[Header]:
    """The reply of a header; None where it has none."""
    proto, src, dst, p, q = header
    if proto != 1:
        return Header(proto, dst, src, q, p)
    return Header(1, dst, src, p, 0) if q == ECHO_REQUEST else None


def low_corner(box: Box) -> Header:
    """The first header of a box."""
    return Header(*(first for first, _ in box))


def is_within(box: Box, whole: Box) -> bool:
    for (first, last), (low, high) in zip(box, whole):
        if first < low or high < last:
            return False
    return True


def with_side(box: Box, side: int, ends: Range) -> Box:
    """A box with other ends of one side."""
    sides = list(box)
    sides[side] = ends
    proto, src, dst, p, q = sides
    return proto, src, dst, p, q


class Block(NamedTuple):
    """The addresses that begin with some bits of one."""

    first: int
    length: int

    def holds(self, number: int) -> bool:
        return number >> 32 - self.length == self.first >> 32 - self.length

    def __str__(self) -> str:
        return f"{dotted(self.first)}/{self.length}"


def block_of(text: str) -> Block:
    own, _, length = text.partition("/")
    if not re.fullmatch("[0-9]{1,2}", length) or int(length) > 32:
        raise ValueError(f"{text} is no block")
    size = 1 << 32 - int(length)
    return Block(address(own) // size * size, int(length))
