"""What rows of reach and of diff let through, in few chips: a chip for the ports of a protocol that
share their addresses, however rows cut these."""

from __future__ import annotations

import collections
import contextlib
import functools
from collections.abc import Iterable, Iterator, Sequence
from typing import NamedTuple, Optional

from scripts.bundles import Names
from scripts.headers import ECHO_REQUEST, LAST, Box, Range, block_of, dotted
from scripts.picture_canvas import grouped, width_of
from scripts.words import PROTOCOLS, counted

# Of a row the protocols, destination ports, source ports, sources and destinations; None stands for
# the own addresses of an end.
Part = tuple[Range, Range, Range, Optional[Range], Optional[Range]]
Sides = tuple[Range, Optional[Range], Optional[Range]]
PING = ((ECHO_REQUEST, ECHO_REQUEST),)
PRIME = (1 << 61) - 1
CHIP_SIZE = 11
SEPARATOR = " \u00b7 "


class Chip(NamedTuple):
    """What the protocols are called, their ports, and which addresses and source ports they have:
    the same number for the same ones."""

    name: str
    ports: tuple[Range, ...]
    region: int


class Asked(NamedTuple):
    """What a query asked about: the sides that rows don't tell again."""

    sport: Range
    src: Range
    dst: Range


def asked_of(query: str) -> Asked:
    words = query.split(" ")[1:]
    pairs = dict(zip(words[::2], words[1::2]))
    src, dst = (addresses_of(pairs.get(it, "0.0.0.0/0")) for it in ("src", "dst"))
    first, _, last = pairs.get("sport", "0-65535").partition("-")
    return Asked((int(first), int(last)), src, dst)


def addresses_of(prefix: str) -> Range:
    block = block_of(prefix)
    return block.first, block.first + (1 << 32 - block.length) - 1


def ranges_of(prefixes: Iterable[str]) -> Iterator[Range]:
    """The addresses of each prefix. What is none has none."""
    for it in prefixes:
        with contextlib.suppress(ValueError):
            yield addresses_of(it)


def merged(ranges: Iterable[Range]) -> tuple[Range, ...]:
    """Ranges in order, those that touch or overlap as one."""
    found: list[Range] = []
    for first, last in sorted(ranges):
        if found and first <= found[-1][1] + 1:
            found[-1] = (found[-1][0], max(found[-1][1], last))
        else:
            found.append((first, last))
    return tuple(found)


# ---- the same addresses, however rows cut them


def mark(side: int, value: int) -> int:
    """A number by chance, the same each time."""
    return pow(hash((side, value, 19)), 3, PRIME)


@functools.lru_cache(100_000)
def measure(side: int, ends: Optional[Range]) -> int:
    """A number of a range. Those of two that touch make up that of both, so what adds up to the
    same holds the same, but for chance."""
    return 1 if ends is None else (mark(side, ends[1] + 1) - mark(side, ends[0])) % PRIME


def weight(sides: Sides) -> int:
    sport, src, dst = sides
    return measure(0, sport) * measure(1, src) % PRIME * measure(2, dst) % PRIME


def port_runs(rows: Sequence[Part]) -> list[tuple[Range, int]]:
    """Ranges of destination ports, each with the region whose packets to it are in a row; in order,
    and such as touch have other regions."""
    events: dict[int, list[tuple[Sides, int]]] = {}
    for _, (first, last), sport, src, dst in rows:
        events.setdefault(first, []).append(((sport, src, dst), 1))
        events.setdefault(last + 1, []).append(((sport, src, dst), -1))
    open_now: collections.Counter[Sides] = collections.Counter()
    runs, begun, region = list[tuple[Range, int]](), 0, 0
    for at in sorted(events):
        before = region
        for sides, change in events[at]:
            # (what several rows have alike counts once)
            was, open_now[sides] = open_now[sides], open_now[sides] + change
            region += weight(sides) * ((was + change > 0) - (was > 0))
        region %= PRIME
        if region != before:
            if before:
                runs.append(((begun, at - 1), before))
            begun = at
    return runs


def protocol_cuts(rows: Sequence[Part]) -> list[tuple[Range, list[Part]]]:
    """Ranges of protocols into which rows cut them, each with the rows that hold it."""
    firsts = sorted({it for (first, last), *_ in rows for it in (first, last + 1)})
    pairs = [(first, behind - 1) for first, behind in zip(firsts, firsts[1:])]
    found = [(it, [row for row in rows if row[0][0] <= it[0] <= row[0][1]]) for it in pairs]
    return [(it, held) for it, held in found if held]


class Told(NamedTuple):
    """The chips of some rows, and of each region a packet that has it: its protocol and port."""

    chips: tuple[Chip, ...]
    samples: dict[int, tuple[int, int]]


def chips_of(rows: Sequence[Part]) -> Told:
    """The chips of the rows from one end to another."""
    ports_of: dict[int, dict[Range, list[Range]]] = {}
    samples: dict[int, tuple[int, int]] = {}
    for protocols, held in protocol_cuts(rows):
        for ports, region in port_runs(held):
            ports_of.setdefault(region, {}).setdefault(protocols, []).append(ports)
            samples.setdefault(region, (protocols[0], ports[0]))
    found = []
    for region, of in ports_of.items():
        protocols_of: dict[tuple[Range, ...], list[Range]] = {}
        for it, ports_told in of.items():
            protocols_of.setdefault(tuple(ports_told), []).append(it)
        told = {ports: merged(it) for ports, it in protocols_of.items()}
        found += [Chip(name, ports, region) for name, ports in named(told)]
    return Told(tuple(sorted(found, key=chip_order)), samples)


def chip_order(chip: Chip) -> tuple[bool, bool, str, tuple[Range, ...], int]:
    return "protocol" not in chip.name, chip.name == "ping", chip.name, chip.ports, chip.region


# ---- words

ALL_PORTS = ((0, LAST[4]),)
# The protocols that have no ports, and all but ICMP.
BARE, BUT_ICMP = ((0, 0), (2, 5), (7, 16), (18, 255)), ((0, 0), (2, 255))


def named(told: dict[tuple[Range, ...], tuple[Range, ...]]) -> list[tuple[str, tuple[Range, ...]]]:
    """Protocols by the ports that they share, in words, with the ports that have to be told."""
    found: list[tuple[str, tuple[Range, ...]]] = []
    whole = told.get(ALL_PORTS, ())
    if whole in (BUT_ICMP, ((0, 255),)):
        pings = told.get(PING) == ((1, 1),) or whole == ((0, 255),)
        found.append(("all protocols" if pings else "all protocols but ping", ()))
        told = {k: it for k, it in told.items() if k != ALL_PORTS and not (pings and k == PING)}
    for ports, protocols in told.items():
        if protocols == ((1, 1),) and ports == PING:
            found.append(("ping", ()))
        elif ports == ALL_PORTS and any(is_bare(it) for it in protocols):
            found.append((protocol_words(protocols), ()))
        else:
            found.append((protocol_words(protocols), ports))
    return found


def is_bare(protocols: Range) -> bool:
    return protocols != (1, 1) and protocols != (6, 6) and protocols != (17, 17)


def protocol_words(protocols: tuple[Range, ...]) -> str:
    if protocols == BARE:
        return "other protocols"
    known = [PROTOCOLS.get(first) for first, last in protocols if first == last]
    if len(known) == len(protocols) and all(known):
        return " and ".join(filter(None, known))
    told = [str(first) if first == last else f"{first}-{last}" for first, last in protocols]
    are_many = len(told) > 1 or "-" in told[0]
    return f"protocol{'s' * are_many} {', '.join(told)}"


def ports_words(ports: Sequence[Range], most: int) -> str:
    """Ports, those that are too many counted."""
    told = [str(first) if first == last else f"{first}-{last}" for first, last in ports]
    return ", ".join(told[:most]) + f" and {len(told) - most} more" * (len(told) > most)


def address_words(ends: Range) -> str:
    """A range of addresses, as a block where it is one."""
    first, last = ends
    size = last - first + 1
    if size == 1:
        return dotted(first)
    if size & size - 1 == 0 and first % size == 0:
        return f"{dotted(first)}/{33 - size.bit_length()}"
    return f"{dotted(first)}-{dotted(last)}"


class Region(NamedTuple):
    """Which addresses and source ports packets have, but for those that were asked about."""

    sports: tuple[Range, ...]
    sources: tuple[Range, ...]
    destinations: tuple[Range, ...]

    def words(self) -> str:
        """Each side that isn't all that was asked about, with a sign before it."""
        told = [ports_words([it], 1) for it in self.sports[:1]]
        words = [f"sport {told[0]}"] if len(self.sports) == 1 else []
        words += [counted(len(self.sports), "range") + " of sport"] * (len(self.sports) > 1)
        for side, name, ranges in (
            ("src", "source", self.sources), ("dst", "destination", self.destinations)
        ):
            if len(ranges) == 1:
                words.append(f"{side} {address_words(ranges[0])}")
            elif ranges:
                words.append(f"{grouped(len(ranges))} {name} ranges")
        return "".join(SEPARATOR + it for it in words)

    def details(self) -> list[tuple[str, list[str]]]:
        """Of each side that has several ranges how many addresses they hold, and the ranges."""
        return [
            (counted(sum(last - first + 1 for first, last in it), "address", "addresses"),
             [address_words(ends) for ends in it])
            for it in (self.sources, self.destinations) if len(it) > 1
        ]


class Teller:
    """Chips of rows, each set of rows told once, and the regions that they have."""

    def __init__(self, query: str, names: Optional[Names] = None) -> None:
        self.asked, self.names = asked_of(query), names or Names()
        self.delegated: dict[str, set[Range]] = {}
        self.known: dict[frozenset[Part], tuple[Chip, ...]] = {}
        # (of each region rows that have it, to be looked at where it is drawn)
        self.rows_of: dict[int, tuple[frozenset[Part], int, int]] = {}

    def part_of(self, box: Box, start: str, end: str) -> Part:
        """A row without what needs not be told."""
        protocols, src, dst, sports, ports = box
        own_src, own_dst = self.is_own(start, src), self.is_own(end, dst)
        return protocols, ports, sports, None if own_src else src, None if own_dst else dst

    def is_own(self, end: str, ends: Range) -> bool:
        """Whether a range is one address of an interface, or a prefix of it, or several prefixes
        that touch."""
        if end == "internet" or self.names.is_outside(end):
            return False
        if ends[0] == ends[1]:
            return True
        if end not in self.delegated:
            ranges = list(ranges_of(self.names.prefixes.get(end, ())))
            self.delegated[end] = {*ranges, *merged(ranges)}
        return ends in self.delegated[end]

    def chips(self, rows: frozenset[Part]) -> tuple[Chip, ...]:
        if rows not in self.known:
            told = chips_of(sorted(rows, key=repr))
            self.known[rows] = told.chips
            for region, sample in told.samples.items():
                self.rows_of.setdefault(region, (rows, *sample))
        return self.known[rows]

    @functools.lru_cache(1000)
    def region(self, number: int) -> Region:
        rows, proto, port = self.rows_of[number]
        sides = [
            it[2:] for it in rows
            if it[0][0] <= proto <= it[0][1] and it[1][0] <= port <= it[1][1]
        ]
        found = []
        for side, asked in zip(zip(*sides), self.asked):
            ranges = () if None in side else merged(it for it in side if it is not None)
            found.append(() if ranges == (asked,) else ranges)
        return Region(*found)

    def head(self, chip: Chip, most: int) -> str:
        """A chip's protocols and ports, those that are too many counted."""
        if not chip.ports:
            return chip.name
        ports = ports_words(chip.ports, most)
        return f"{chip.name}, all ports" if chip.ports == ALL_PORTS else f"{chip.name} {ports}"

    def words(self, chip: Chip, more: str, room: float) -> str:
        """A chip in words that are no wider, with more behind it: as many ports as there is room
        for."""
        behind = self.region(chip.region).words() + more
        counts = range(min(len(chip.ports), 12) or 1, 0, -1)
        tries = [self.head(chip, most) + behind for most in counts]
        fitting = (it for it in tries if width_of(it, CHIP_SIZE, True) + 16 <= room)
        return next(fitting, tries[-1])
