"""Pictures of reach and diff: the ways from starts to ends, those that are alike as one."""

from __future__ import annotations

import itertools
from collections.abc import Hashable, Iterable, Iterator, Mapping, Sequence
from typing import NamedTuple, Optional, Union

from scripts.bundles import Names
from scripts.headers import Range
from scripts.picture_canvas import (
    GAP, MARGIN, Drawing, Run, first_of, grouped, number, shortened, width_of, wrapped,
)
from scripts.picture_chips import (
    ALL_PORTS, SEPARATOR, Chip, Part, Teller, address_words, chip_order, mark, merged,
)
from scripts.picture_classes import (
    BY, KINDS, Label, Namer, Unit, counted_ends, fold, label_of_ids, label_of_units, natural,
    units_of,
)
from scripts.picture_walks import OUTSIDE_WORDS, is_unknown
from scripts.texts import Diff, DiffRow, Reach, ReachRow
from scripts.words import SIDES, counted

# How a way is drawn: its color, the dashes of its line, and its chips.
WAYS = {
    "reached": ("blue", "", "blue-tint", "blue-ink"),
    "opened": ("red", "", "red-tint", "red-ink"),
    "moved": ("purple", "2 3", "purple-tint", "purple-ink"),
    "closed": ("green", "7 4", "green-tint", "green-ink"),
    "not known": ("grey", "1 4", "grey-tint", "soft"),
}
MOST_PATHS = 60
MOST_CHIPS = 9
WIDTH, NODE = 1120, 288
# The dashes of the edge of a network that isn't described.
NOT_DESCRIBED = "5 3"
# How high a picture is that is seen at once.
SCREEN = 1040
BETWEEN, APART = 8, 10
# What lists of ports are numbered by, which sides aren't.
LISTS = -1
# What stops a packet in one of two networks, or where it comes in the other; empty of reach.
Note = tuple[str, ...]
# What is told of two ends: chips with their notes.
Sign = frozenset[tuple[Chip, Note]]
# The ends that a way joins, by their numbers.
Ends = tuple[list[int], list[int]]
Signs = dict[int, dict[int, Hashable]]


class Path(NamedTuple):
    """A way: chips, each with words that tell how many pairs of its ends have it where that isn't
    all, and `rows` how many rows it is."""

    word: str
    starts: list[Unit]
    ends: list[Unit]
    chips: list[tuple[Chip, str]]
    notes: list[str]
    own: list[str]
    rows: int


# ---- rows


def word_of(row: Union[ReachRow, DiffRow]) -> str:
    """What is told of a row. What closes as it isn't followed any more is not known."""
    if isinstance(row, ReachRow):
        return "reached"
    stop = row.fare.stop.name if row.fare.stop else ""
    return "not known" if row.word == "closed" and is_unknown(stop) else row.word


def note_of(row: Union[ReachRow, DiffRow]) -> Note:
    """What stops it in one of the networks; where that is an end it is told so, since each has its
    own."""
    if isinstance(row, ReachRow):
        return ()
    fare = row.fare
    if not fare.stop:
        return ("to", fare.after)
    at = {row.start: "\0start", row.end: "\0end"}.get(fare.stop.id, fare.stop.id)
    when = "before" if fare.word == "opened" else "now"
    return (when, fare.phase, fare.stop.name, at, fare.stop.rule)


def note_words(note: Note, start: str, end: str) -> str:
    if note[0] == "to":
        return f"to {note[1]}"
    when, phase, name, at, rule = note
    of = {"\0end": end, "\0start": start}.get(at, at)
    words = " ".join(filter(None, [phase, name, of, "" if rule == "-" else rule]))
    return f"{when}: {words}{', not known' * is_unknown(name)}"


class Pairs:
    """What rows tell of each start and end, by their words."""

    def __init__(self, found: Union[Reach, Diff], names: Names) -> None:
        self.teller, self.is_cut = Teller(found.query, names), bool(found.next)
        self.rows: dict[tuple[str, str, str], list[Union[ReachRow, DiffRow]]] = {}
        for it in found.rows:
            self.rows.setdefault((word_of(it), it.start, it.end), []).append(it)
        self.ids = list(dict.fromkeys(it for _, *ends in self.rows for it in ends))
        self.signs = {key: self.sign_of(rows) for key, rows in self.rows.items()}

    def sign_of(self, rows: Sequence[Union[ReachRow, DiffRow]]) -> Sign:
        """What two pairs of ends have to share to be alike."""
        parts: dict[Note, set[Part]] = {}
        for it in rows:
            part = self.teller.part_of(it.box, it.start, it.end)
            parts.setdefault(note_of(it), set()).add(part)
        return frozenset(
            (chip, note) for note, of in parts.items() for chip in self.teller.chips(frozenset(of))
        )

    def own_words(self, key: tuple[str, str, str]) -> list[str]:
        """The addresses from a start to an end that chips don't tell: those that are an end's own,
        and all that it has beside them."""
        words = []
        for side, end in ((1, key[1]), (2, key[2])):
            ranges = list(dict.fromkeys(it.box[side] for it in self.rows[key]))
            if any(self.teller.is_own(end, it) for it in ranges):
                words += [f"{SIDES[side]} {address_words(it)}" for it in ranges]
        return words

    def count(self, ends: Iterable[tuple[str, str, str]]) -> int:
        return sum(len(self.rows[it]) for it in ends)


def pooled(signs: Iterable[Sign]) -> dict[tuple[Chip, Note], int]:
    """What is told of several pairs of ends, each with how many of them it is told of: ports are
    together that the same pairs have. Pairs that have all ports are told apart."""
    of: dict[tuple[str, int, Note], dict[tuple[Range, ...], int]] = {}
    found: dict[tuple[Chip, Note], int] = {}
    for chip, note in itertools.chain.from_iterable(signs):
        if chip.ports in ((), ALL_PORTS):
            found[chip, note] = found.get((chip, note), 0) + 1
        else:
            counts = of.setdefault((chip.name, chip.region, note), {})
            counts[chip.ports] = counts.get(chip.ports, 0) + 1
    for (name, region, note), counts in of.items():
        for ports, count in shared_ports(counts):
            found[Chip(name, ports, region), note] = count
    return found


def shared_ports(counts: Mapping[tuple[Range, ...], int]) -> list[tuple[tuple[Range, ...], int]]:
    """Ports by which of several lists of ports they are in, with the sum of the lists' counts."""
    if len(counts) == 1:
        return list(counts.items())
    changes: dict[int, list[tuple[int, int]]] = {}
    for k, (ports, count) in enumerate(counts.items()):
        for first, last in ports:
            changes.setdefault(first, []).append((mark(LISTS, k), count))
            changes.setdefault(last + 1, []).append((mark(LISTS, k), -count))
    parts: dict[int, tuple[int, list[Range]]] = {}
    lists, count, begun = 0, 0, 0
    for at in sorted(changes):
        if count:
            parts.setdefault(lists, (count, []))[1].append((begun, at - 1))
        for number_of_list, change in changes[at]:
            lists, count, begun = lists ^ number_of_list, count + change, at
    return [(merged(ranges), count) for count, ranges in parts.values()]


# ---- what is alike


def transposed(of: Mapping[int, Mapping[int, Hashable]]) -> Signs:
    found: Signs = {}
    for start, ends in of.items():
        for end, sign in ends.items():
            found.setdefault(end, {})[start] = sign
    return found


def bundles_of(of: Mapping[int, Mapping[int, Hashable]]) -> list[Ends]:
    """Each start with all ends that it reaches alike; starts that reach the same ends alike are
    one."""
    found: dict[Hashable, Ends] = {}
    for start, ends in of.items():
        alike_ends: dict[Hashable, list[int]] = {}
        for end, sign in ends.items():
            alike_ends.setdefault(sign, []).append(end)
        for sign, reached in alike_ends.items():
            found.setdefault((sign, tuple(sorted(reached))), ([], reached))[0].append(start)
    return list(found.values())


def classes_of(of: Mapping[int, Mapping[int, Hashable]], is_apart: bool) -> list[Ends]:
    """Classes of starts and of ends; an end is in one class alone, or as a start in another."""
    numbers: dict[Hashable, int] = {}
    cells: dict[tuple[bool, int], dict[tuple[bool, int], int]] = {}
    for start, ends in of.items():
        cells[False, start] = {
            (is_apart, end): numbers.setdefault(sign, len(numbers) + 1)
            for end, sign in ends.items()
        }
    ids = list(dict.fromkeys(itertools.chain(cells, *cells.values())))
    at = {it: row for row in fold(ids, cells) for it in row.ids}
    found: dict[Hashable, Ends] = {}
    for one, told in cells.items():
        row = at[one]
        for other, value in told.items():
            key = (row.number, at[other].number, value)
            found.setdefault(key, ([k for _, k in row.ids], [k for _, k in at[other].ids]))
    return list(found.values())


class Folded:
    """The ways of a text whose ends are folded by host, group, subnet or VPC."""

    def __init__(self, pairs: Pairs, names: Names, by: str) -> None:
        self.pairs, self.by = pairs, by
        self.units = units_of(names, by, pairs.ids)
        at = {it: k for k, unit in enumerate(self.units) for it in unit.ids}
        self.between: dict[str, dict[int, dict[int, list[tuple[str, str, str]]]]] = {}
        for key in pairs.rows:
            word, start, end = key
            of = self.between.setdefault(word, {}).setdefault(at[start], {})
            of.setdefault(at[end], []).append(key)
        self.paths = [
            self.path_of(word, *it) for word in WAYS if word in self.between
            for it in self.fewest(self.between[word])
        ]

    def fewest(self, between: Mapping[int, Mapping[int, list[tuple[str, str, str]]]]) -> list[Ends]:
        """The ends of ways, by whatever gives fewest: starts that reach the same ends alike, ends
        that the same starts reach alike, or, of hosts, classes of ends, or of starts and of
        ends."""
        of = {
            start: {end: self.sign(start, end, keys) for end, keys in ends.items()}
            for start, ends in between.items()
        }
        turned = [(starts, ends) for ends, starts in bundles_of(transposed(of))]
        found = [bundles_of(of), turned]
        if self.by == "host":
            found = [classes_of(of, False), classes_of(of, True), *found]
        return min(found, key=len)

    def size(self, start: int, end: int) -> int:
        """How many pairs of ends there are from one part to another."""
        starts, ends = self.units[start].ids, self.units[end].ids
        return max(1, len(starts) * len(ends) - len(starts) * (start == end))

    def sign(self, start: int, end: int, keys: Sequence[tuple[str, str, str]]) -> Hashable:
        """What two pairs of parts have to share to be alike."""
        if self.by == "host":
            return self.pairs.signs[keys[0]]
        counts = pooled(self.pairs.signs[it] for it in keys)
        if self.pairs.is_cut:
            return frozenset(counts)
        size = self.size(start, end)
        return frozenset((it, count == size) for it, count in counts.items())

    def path_of(self, word: str, starts: list[int], ends: list[int]) -> Path:
        of = self.between[word]
        joined = [
            (start, end) for start in starts for end in ends if end in of.get(start, {})
        ]
        keys = [key for start, end in joined for key in of[start][end]]
        counts = pooled(self.pairs.signs[it] for it in keys)
        chips: dict[Chip, int] = {}
        for chip, note in sorted(counts, key=lambda it: (chip_order(it[0]), it[1])):
            chips[chip] = chips.get(chip, 0) + counts[chip, note]
        size = sum(self.size(start, end) for start, end in joined)
        _, start, end = keys[0] if len(keys) == 1 else ("", "", "")
        notes = dict.fromkeys(
            note_words(it, start, end) for it in sorted({it for _, it in counts}) if it
        )
        own = self.pairs.own_words(keys[0]) if len(keys) == 1 else []
        from_units, to_units = ([self.units[it] for it in sorted(of)] for of in (starts, ends))
        # (from or to one end its pairs are the others)
        is_one = any(sum(len(it.ids) for it in of) == 1 for of in (from_units, to_units))
        what = "interface" if is_one else "pair"
        whole = size * (not self.pairs.is_cut)
        told = [
            (it, "" if count >= size else told_pairs(count, whole, what))
            for it, count in chips.items()
        ]
        rows = self.pairs.count(keys)
        return Path(word, from_units, to_units, told, list(notes), own, rows)


def told_pairs(count: int, size: int, what: str) -> str:
    """How many pairs of ends have what a chip tells, of how many there are; 0 where that isn't
    known."""
    if not size:
        return f"{SEPARATOR}{counted(count, what)}"
    return f"{SEPARATOR}{grouped(count)} of {counted(size, what)}"


# ---- drawing


class Way:
    """A path as it is drawn: chips on its line, what is told beside them below it, and its end."""

    def __init__(self, path: Path, teller: Teller, label: Label, middle: float) -> None:
        self.path, self.label = path, label
        self.chips = [teller.words(*it, middle) for it in path.chips[:MOST_CHIPS]]
        self.chips += [f"and {len(path.chips) - MOST_CHIPS} more"] * (len(path.chips) > MOST_CHIPS)
        room = middle - self.beside()
        told = first_of(path.notes, 4)
        self.notes = [it for one in told for it in wrapped(one, room, 10.5, True)]
        shown = [it for it, _ in path.chips[:MOST_CHIPS]]
        self.details = list(details_of(shown, teller, middle))[:3]
        own = " ".join(first_of(path.own, 6))
        self.details += wrapped(own, middle, 10, True) if own else []
        scratch = Drawing(0)
        scratch.bottom = 0
        scratch.chips(self.chips, 0, middle)
        self.above = scratch.bottom / 2
        below = self.above + 14 * max(len(self.notes), bool(self.beside()))
        below += 13 * len(self.details) + 4 * bool(self.details or self.beside())
        box = box_height(self.label) / 2
        self.up, self.down = max(self.above, box), max(below, box)

    def beside(self) -> float:
        """How much room the word takes that tells of a change."""
        return width_of(self.path.word, 11) + GAP if self.path.word != "reached" else 0

    def draw(self, drawing: Drawing, left: float, middle: float, line: float) -> None:
        color, dashes, tint, ink = WAYS[self.path.word]
        right = left + middle + 48
        more = f' stroke-width="3"{dashed(dashes)}'
        way = f"M{number(left + 2)} {number(line)}H{number(right - 10)}"
        drawing.path(way, f"{color}-line", more)
        drawing.path(f"M{number(right - 13)} {number(line - 7)}l12 7l-12 7z", color)
        drawing.bottom = line - self.above
        drawing.chips(self.chips, left + 24, middle, tint, ink)
        top = drawing.bottom + 2
        if self.beside():
            drawing.text(left + 24, top + 10.5, self.path.word, 11, ink, False, True)
        x = left + 24 + self.beside()
        bottom = drawing.lines(x, top, self.notes, 10.5, "soft", True, leading=14 / 10.5)
        bottom = max(bottom, top + 14 * bool(self.beside()))
        drawing.lines(left + 24, bottom, self.details, 10, "soft", True, leading=1.3)
        height = box_height(self.label)
        draw_node(drawing, self.label, right, line - height / 2, height)


def details_of(chips: Sequence[Chip], teller: Teller, room: float) -> Iterator[str]:
    """How many addresses the regions of chips hold that have several ranges, each after a chip that
    has it where there are more regions."""
    regions: dict[int, Chip] = {}
    for it in chips:
        regions.setdefault(it.region, it)
    for region, chip in regions.items():
        head = f"{teller.head(chip, 2)}: " if len(regions) > 1 else ""
        for count, ranges in teller.region(region).details():
            yield detail_line(head + count, ranges, room)


def detail_line(count: str, ranges: list[str], room: float) -> str:
    """How many addresses ranges hold, and the first of them in one line."""
    for most in range(min(len(ranges), 12), 0, -1):
        told = f"{count}: {', '.join(ranges[:most])}"
        told += f" and {grouped(len(ranges) - most)} more" * (most < len(ranges))
        if width_of(told, 10, True) <= room:
            return told
    return count


def dashed(dashes: str) -> str:
    return f' stroke-dasharray="{dashes}"' if dashes else ""


def box_height(label: Label) -> float:
    return label.height + (14 if label.words else 10)


def draw_node(drawing: Drawing, label: Label, x: float, top: float, height: float) -> None:
    """An end, or several; the edge of those that aren't described is dashed."""
    drawing.rect(x, top, NODE, height, "panel", 8)
    drawing.rect(x, top, NODE, height, "edge", 8, dashed(NOT_DESCRIBED * label.is_outside))
    label.draw(drawing, x + 14, top + (box_height(label) - label.height) / 2)


class Ways:
    """Paths with their labels, in the order in which they are drawn: those from one start
    together."""

    def __init__(self, folded: Folded, names: Names) -> None:
        self.teller, self.by, self.units = folded.pairs.teller, folded.by, folded.units
        self.namer = Namer(names, folded.pairs.ids)
        self.middle = WIDTH - 2 * MARGIN - 2 * NODE - 48
        self.labels = {
            id(units): self.label(units) for it in folded.paths for units in (it.starts, it.ends)
        }
        paths = sorted(folded.paths, key=self.order)
        self.paths, self.left_out = paths[:MOST_PATHS], paths[MOST_PATHS:]

    def label(self, units: list[Unit]) -> Label:
        if self.by != "host":
            return label_of_units(self.namer.names, self.by, units, self.units, NODE - 28)
        ids = sorted((it for of in units for it in of.ids), key=self.namer.order)
        return label_of_ids(self.namer, ids, NODE - 28, 2)

    def order(self, path: Path) -> tuple[object, ...]:
        words, starts, ends = list(WAYS), *map(self.place, (path.starts, path.ends))
        to_internet = path.ends[0].name == "internet"
        return words.index(path.word), starts, to_internet, ends

    def place(self, units: list[Unit]) -> tuple[bool, list[tuple[int, str]], list[str]]:
        name = self.labels[id(units)].short()
        return name != "internet", natural(name), [it.name for it in units]

    def draw(self, drawing: Drawing) -> None:
        """The paths from each start beside it, a line each."""
        for _, found in itertools.groupby(self.paths, key=lambda it: (it.word, it.starts)):
            paths = list(found)
            ways = [
                Way(it, self.teller, self.labels[id(it.ends)], self.middle) for it in paths
            ]
            draw_start(drawing, ways, self.labels[id(paths[0].starts)], self.middle)
        if self.left_out:
            lines = wrapped(self.more_words(), WIDTH - 2 * MARGIN, 13)
            drawing.bottom = drawing.lines(MARGIN, drawing.bottom, lines, 13, "ink") + 18
        ends = [units for it in self.paths for units in (it.starts, it.ends)]
        if any(self.labels[id(it)].is_outside for it in ends):
            top = drawing.bottom - APART + 14
            drawing.rect(MARGIN, top, 26, 14, "edge", 3, dashed(NOT_DESCRIBED))
            drawing.text(MARGIN + 34, top + 11.5, OUTSIDE_WORDS, 11.5, "soft")
            drawing.bottom = top + 14 + APART

    def more_words(self) -> str:
        """What isn't drawn."""
        rows = counted(sum(it.rows for it in self.left_out), "row")
        units = [unit for path in self.left_out for unit in path.starts + path.ends]
        ids = list({it for unit in units for it in unit.ids})
        ends = counted_ends(self.namer.names, ids)
        return f"and {grouped(len(self.left_out))} more, not drawn: {rows} of {ends}"

    def words(self) -> list[str]:
        """What is drawn, in words."""
        return [
            f"{it.word} from {self.labels[id(it.starts)].told()} to "
            f"{self.labels[id(it.ends)].told()}: {', '.join([*self.chips(it), *it.notes])}"
            for it in self.paths
        ] + ([self.more_words()] if self.left_out else [])

    def chips(self, path: Path) -> list[str]:
        return [self.teller.words(*it, 9999) for it in path.chips[:MOST_CHIPS]]


def draw_start(drawing: Drawing, ways: list[Way], label: Label, middle: float) -> None:
    """The box of a start, as tall as what begins there. A tall one repeats its name."""
    top = drawing.bottom
    tall = sum(it.up + it.down for it in ways) + BETWEEN * (len(ways) - 1)
    own = box_height(label)
    height = max(tall, own)
    line, lines = top + (height - tall) / 2, list[float]()
    for it in ways:
        lines.append(line + it.up)
        it.draw(drawing, MARGIN + NODE, middle, lines[-1])
        line += it.up + it.down + BETWEEN
    begin = max(top, lines[0] - own / 2)
    end = max(begin + own, lines[-1] + 13)
    draw_node(drawing, label, MARGIN, begin, end - begin)
    told = begin + own - 5
    for y in lines[1:]:
        if y - 5.5 - told > 12:
            name = shortened(label.short(), NODE - 28, 11)
            drawing.text(MARGIN + 14, y + 4, name, 11, "soft", False, True)
            told = y + 4
    drawing.bottom = max(top + height, end) + APART


# ---- pictures


def query_words(query: str) -> list[str]:
    """The words of a query as chips."""
    words = query.split(" ")[1:]
    return [" ".join(words[k : k + 2]) for k in range(0, len(words), 2)]


def title_of(found: Union[Reach, Diff]) -> str:
    """What a text tells, in words."""
    if isinstance(found, Reach):
        title = "What gets through" if found.rows else "Nothing is known to get through"
    else:
        words = {word_of(it) for it in found.rows}
        verbs = {"opened": "opens", "closed": "closes", "moved": "moves"}
        told = [verbs.get(it, "isn't known any more") for it in WAYS if it in words]
        *rest, last = told or ["Nothing opens, closes or moves"]
        title = f"What {', '.join(rest)} and {last}" if rest else f"What {last}"
        title = title if told else last
    return title + ", in part" * bool(found.next)


def summary_of(found: Union[Reach, Diff], folded: Folded, names: Names) -> str:
    """How many ends there are, what they are folded by, and of reach the rows."""
    units = [it for it in folded.units if it.name != "internet"]
    told = counted_ends(names, [it for unit in units for it in unit.ids])
    if folded.by != "host":
        told += f" by {KINDS[folded.by][0]}"
    return told + f", {counted(len(found.rows), 'row')}" * isinstance(found, Reach)


def draw_head(
    drawing: Drawing, found: Union[Reach, Diff], folded: Folded, names: Names
) -> None:
    """The title, the words of the ways, and the query."""
    title = [Run(title_of(found), 18, "ink", False, True)]
    title += [Run(summary_of(found, folded, names), 13, "soft")] * bool(found.rows)
    drawing.runs(MARGIN, drawing.bottom + 16, title)
    drawing.bottom += 34
    if isinstance(found, Diff) and found.rows:
        draw_words(drawing, folded)
    chips = query_words(found.query)
    if found.next:
        chips.append(f"not told from {found.next[0]} {found.next[1]}")
    if chips:
        drawing.chips(chips, MARGIN, drawing.width - 2 * MARGIN)
        drawing.bottom += 18


def draw_words(drawing: Drawing, folded: Folded) -> None:
    """What changes, each with its line and how many rows there are."""
    x = float(MARGIN)
    for word, (color, dashes, _, ink) in WAYS.items():
        rows = sum(it.rows for it in folded.paths if it.word == word)
        if rows:
            more = f' stroke-width="3"{dashed(dashes)}'
            line = f"M{number(x)} {number(drawing.bottom + 7)}h26"
            drawing.path(line, f"{color}-line", more)
            told = f"{word} {counted(rows, 'row')}"
            drawing.text(x + 34, drawing.bottom + 12, told, 13, ink, False, True)
            x += 34 + width_of(told, 13) + 22
    drawing.bottom += 30


def draw_folded(
    found: Union[Reach, Diff], names: Names, drawing_name: str, folded: Folded
) -> tuple[Drawing, str, str]:
    """A picture of ways, folded in one way."""
    drawing, ways = Drawing(WIDTH, drawing_name), Ways(folded, names)
    draw_head(drawing, found, folded, names)
    ways.draw(drawing)
    drawing.bottom -= APART
    title = title_of(found)
    query = found.query.partition(" ")[2]
    words = "; ".join(ways.words() or [title]) + "."
    rows = counted(len(found.rows), "row")
    return drawing, f"{title}: {f'{query}, ' * bool(query)}{rows}", words


def draw_ways(
    found: Union[Reach, Diff], names: Names, drawing_name: str
) -> tuple[Drawing, str, str]:
    """The ways of a text: of each host, where that is seen at once, else by group, subnet or VPC,
    the first that is; or by what was asked for."""
    pairs = Pairs(found, names)
    kinds: Sequence[str] = [names.by] if names.by else BY if names.homes else BY[:1]
    best: Optional[tuple[Drawing, str, str]] = None
    for by in kinds:
        drawn = draw_folded(found, names, drawing_name, Folded(pairs, names, by))
        if best is None or drawn[0].bottom < best[0].bottom:
            best = drawn
        if best[0].bottom <= SCREEN:
            break
    assert best
    return best


def draw_reach(found: Reach, names: Names, drawing_name: str) -> tuple[Drawing, str, str]:
    return draw_ways(found, names, drawing_name)


def draw_diff(found: Diff, names: Names, drawing_name: str) -> tuple[Drawing, str, str]:
    return draw_ways(found, names, drawing_name)
