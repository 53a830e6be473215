"""Classes of interfaces that fare alike, and how they are called."""

from __future__ import annotations

import collections
import operator
import random
import re
from collections.abc import Hashable, Iterable, Mapping, Sequence
from typing import Generic, NamedTuple, Optional, TypeVar

from scripts.bundles import Names
from scripts.picture_canvas import Drawing, Run, flowed, grouped, width_of_runs, wrapped
from scripts.words import counted

Key = TypeVar("Key", bound=Hashable)
# Numbers above 0, by row and then column.
Cells = Mapping[Key, Mapping[Key, int]]
MOST_IDS = 12


class Class(Generic[Key]):
    """Ids that may change places; the class of all others has no number."""

    def __init__(self, number: Optional[int], ids: list[Key]) -> None:
        self.number, self.ids = number, ids


def fold(ids: Sequence[Key], cells: Cells[Key]) -> list[Class[Key]]:
    """Classes of ids that may change places with nothing changed.

    Two ids are of one class where all others see them alike, and they see each other alike. With
    that last number on the diagonal their rows are equal, and their columns, so ids are sorted by
    sums of both, once for each number that may stand there; what falls together is then compared
    whole."""
    columns: dict[Key, dict[Key, int]] = {it: {} for it in ids}
    for row, told in cells.items():
        for column, value in told.items():
            columns[column][row] = value
    lead_of: dict[Key, Key] = {}
    for value, members in fallen_together(ids, cells, columns):
        lead = members[0]
        for it in members[1:]:
            if it not in lead_of and all(
                alike(side.get(lead, {}), side.get(it, {}), lead, it, value)
                for side in (cells, columns)
            ):
                lead_of[it] = lead
    classes: dict[Key, list[Key]] = {}
    for it in ids:
        classes.setdefault(root(lead_of, it), []).append(it)
    return [Class(number, members) for number, members in enumerate(classes.values(), 1)]


def fallen_together(
    ids: Sequence[Key], cells: Cells[Key], columns: Cells[Key]
) -> Iterable[tuple[int, list[Key]]]:
    """Ids whose sums are equal, with the number that stands on the diagonal then."""
    seed = random.Random(19)
    across, down = ({it: seed.getrandbits(62) for it in ids} for _ in range(2))
    together: dict[tuple[int, int], list[Key]] = {}
    for it in ids:
        row, column = cells.get(it, {}), columns[it]
        total = sum(
            sum(map(operator.mul, map(weights.__getitem__, told), told.values()))
            for weights, told in ((across, row), (down, column))
        )
        for value in {0} | {value for _, value in row.items() & column.items()}:
            key = value, total + (across[it] + down[it]) * value
            together.setdefault(key, []).append(it)
    return [(value, members) for (value, _), members in together.items()]


def root(lead_of: Mapping[Key, Key], it: Key) -> Key:
    while it in lead_of:
        it = lead_of[it]
    return it


def alike(one: Mapping[Key, int], other: Mapping[Key, int], lead: Key, it: Key, value: int) -> bool:
    """Whether two rows are equal with a number on the diagonal."""
    one, other = {**one, lead: value}, {**other, it: value}
    if value:
        return one == other
    return {k: v for k, v in one.items() if v} == {k: v for k, v in other.items() if v}


# ---- names


def tokens_of(text: str) -> list[str]:
    """The words of a name, and what stands between them."""
    return re.findall(r"[^\W_]+|[\W_]+", text)


# What is but a number or a zone at the end of a name, and an id that tells nothing.
COUNTER = re.compile(r"[0-9]*[A-Za-z]?|[A-Za-z][0-9]+|az[0-9]")
RANDOM_ID = re.compile(r"[a-z]+-[0-9a-f]{8,17}")


def stem_of(text: str) -> str:
    """What a name has in common with those of its kind: it without its numbers at the end; empty
    where that is all of it."""
    if RANDOM_ID.fullmatch(text):
        return ""
    tokens = tokens_of(text)
    while len(tokens) > 1 and (COUNTER.fullmatch(tokens[-1]) or not tokens[-1][-1].isalnum()):
        tokens.pop()
    found = "".join(tokens).rstrip("0123456789")
    return found if any(it.isalpha() for it in found) else ""


def natural(text: str) -> list[tuple[int, str]]:
    """How names are sorted: numbers in them by their size."""
    parts = re.findall(r"[0-9]+|[^0-9]+", text)
    return [(int(it), "") if it.isdecimal() and len(it) < 18 else (-1, it) for it in parts]


def listed(words: Sequence[str], count: int) -> str:
    """The first of several names, and how many more there are."""
    if count > len(words):
        return f"{', '.join(words)} and {grouped(count - len(words))} more"
    *rest, last = words
    return f"{', '.join(rest)} and {last}" if rest else last


class Namer:
    """What classes of the interfaces of a text are called."""

    def __init__(self, names: Names, ids: Iterable[str]) -> None:
        self.names = names
        self.stems: dict[str, str] = {}
        self.members: dict[tuple[str, str], set[str]] = {}
        for it in ids:
            self.stems[it] = stem_of(names.called(it))
            for key in self.keys(it):
                self.members.setdefault(key, set()).add(it)

    def keys(self, it: str) -> list[tuple[str, str]]:
        """What may name all of a class: what names begin with, or where those without a name
        are."""
        found = [("", self.stems[it])]
        home = self.names.homes.get(it)
        if home and not self.names.of(it):
            found += [("", home.description), *(("group", group) for group in home.groups)]
            found += [("subnet", home.subnet), ("VPC", home.vpc)]
        return [key for key in found if key[1]]

    def name(self, ids: Sequence[str]) -> Optional[str]:
        """What all of these and no others of the text have in common; else two of them by name, of
        two kinds where there are, and how many more there are."""
        if len(ids) == 1:
            return self.names.of(ids[0])
        own = set(ids)
        for kind, what in self.keys(ids[0]):
            if self.members[kind, what] == own:
                return f"{kind} {self.names.called(what)}".strip()
        named = sorted((it for it in ids if self.names.of(it)), key=self.order)
        if not named:
            return None
        firsts: dict[str, str] = {}
        for it in named:
            firsts.setdefault(self.stems[it], it)
        kinds = list(firsts.values())[:3]
        shown = [*kinds, *(it for it in named[:6] if it not in kinds)]
        most = 3 if len(ids) == 3 else 2
        return listed([self.names.called(it) for it in shown[:most]], len(ids))

    def order(self, it: str) -> list[tuple[int, str]]:
        return natural(self.names.called(it))


# ---- parts of a network

BY = ("host", "group", "subnet", "vpc")
KINDS = {"group": ("group", "groups"), "subnet": ("subnet", "subnets"), "vpc": ("VPC", "VPCs")}


def part_key(names: Names, by: str, it: str) -> str:
    """The part of a network that an end is in; its id where that isn't known."""
    home = names.homes.get(it)
    if not home or by == "host":
        return it
    told = {"group": " + ".join(home.groups), "subnet": home.subnet, "vpc": home.vpc}
    return told[by] or it


def part_name(names: Names, key: str) -> str:
    """What a part is called, by the names of its groups."""
    return " + ".join(map(names.called, key.split(" + ")))


class Unit(NamedTuple):
    """An end, or the ends of a part of a network, as it is called."""

    name: str
    ids: tuple[str, ...]


def units_of(names: Names, by: str, ids: Iterable[str]) -> list[Unit]:
    """The ends of a text by the parts that they are in, in order."""
    found: dict[str, list[str]] = {}
    for it in ids:
        found.setdefault(part_key(names, by, it), []).append(it)
    units = [Unit(part_name(names, key), tuple(of)) for key, of in found.items()]
    return sorted(units, key=lambda it: (it.name != "internet", natural(it.name)))


# ---- labels


class Label:
    """A class as it is drawn: what it is called, how many there are, and ids; those that are too
    many are counted."""

    def __init__(self, name: Optional[str], count: str, ids: Sequence[str], width: float) -> None:
        self.name, self.count, self.words = name, count, list(ids)
        self.is_outside = False
        self.is_one = not name and not count
        self.runs: list[list[Run]] = [
            [Run(it, 12.5, "ink", False, True)] for it in wrapped(name, width, 12.5)
        ] if name else []
        last = Run(count, 11, "soft" if name else "ink", False, not name)
        if count and len(self.runs) == 1 and width_of_runs([*self.runs[0], last]) <= width:
            self.runs[0].append(last)
        elif count:
            self.runs.append([last])
        self.ids = flowed(self.words, width, 10.5) if self.words else []
        if self.is_one:
            self.ids = wrapped(self.words[0], width, 12, True)
        self.height = 17 * len(self.runs) + (16 if self.is_one else 14) * len(self.ids)

    def draw(self, drawing: Drawing, x: float, top: float) -> None:
        for it in self.runs:
            drawing.runs(x, top + 12.5, it)
            top += 17
        if self.is_one:
            drawing.lines(x, top + 0.5, self.ids, 12, "ink", True, True, leading=16 / 12)
        else:
            drawing.lines(x, top + 0.5, self.ids, 10.5, "soft", True, False, leading=14 / 10.5)

    def told(self) -> str:
        return ", ".join(filter(None, [self.name, self.count, " ".join(self.words)]))

    def short(self) -> str:
        """What it is called in one line."""
        return self.name or (self.words[0] if self.is_one else self.count)


def counted_ends(names: Names, ids: Sequence[str]) -> str:
    """How many interfaces, and how many networks that aren't described."""
    outside = sum(map(names.is_outside, ids))
    both = [counted(len(ids) - outside, "interface"), counted(outside, "network")]
    return " and ".join(it for it in both if not it.startswith("0 ")) or both[0]


def label_of_ids(namer: Namer, ids: Sequence[str], width: float, most: int = MOST_IDS) -> Label:
    """A class by what it has in common, with its first ids."""
    name, count = namer.name(ids), counted_ends(namer.names, ids) * (len(ids) > 1)
    most = most if name else max(most, 1)
    shown = [*ids] if len(ids) <= most + 1 else [*ids[:most], f"and {len(ids) - most:,} more"]
    label = Label(name, count, shown if most or len(ids) == 1 else [], width)
    label.is_outside = all(map(namer.names.is_outside, ids))
    return label


def names_of_units(units: Sequence[Unit], among: Sequence[Unit]) -> dict[str, int]:
    """What parts are called, and how many of them each word stands for: all parts whose names are
    alike but for a number or a zone have one."""
    whole = collections.Counter(stem_of(it.name) for it in among)
    here = collections.Counter(stem_of(it.name) for it in units)
    found: dict[str, int] = {}
    for it in units:
        stem = stem_of(it.name)
        name = stem if stem and here[stem] == whole[stem] else it.name
        found[name] = found.get(name, 0) + 1
    return found


def label_of_units(
    names: Names, by: str, units: Sequence[Unit], among: Sequence[Unit], width: float
) -> Label:
    """Some of the parts of a network by their names, with how many there are."""
    if units[0].name == "internet":
        return Label(None, "", ["internet"], width)
    ids = [it for unit in units for it in unit.ids]
    count, is_outside = counted_ends(names, ids), all(map(names.is_outside, ids))
    if len(units) > 1:
        found = names_of_units(units, among)
        shown = [*found][: 3 if len(found) == 3 else 2]
        name = listed(shown, len(shown) + len(units) - sum(found[it] for it in shown))
        parts = "" if is_outside else f"{counted(len(units), *KINDS[by])}, "
        label = Label(name, parts + count, [], width)
    elif is_outside:
        label = Label(names.of(ids[0]), "", ids, width)
    else:
        label = Label(units[0].name, count, [], width)
    label.is_outside = is_outside
    return label
