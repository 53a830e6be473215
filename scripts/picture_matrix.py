"""Pictures of matrices, folded into classes of interfaces that reach and are reached alike."""

from __future__ import annotations

import collections
import functools
import itertools
import math
from collections.abc import Sequence
from typing import Union

from scripts.bundles import Names
from scripts.headers import Range
from scripts.picture_canvas import (
    MARGIN, Drawing, Run, flowed, grouped, number, shortened, width_of,
)
from scripts.picture_classes import (
    BY, KINDS, Class, Label, Namer, Unit, fold, label_of_ids, label_of_units, natural, units_of,
)
from scripts.texts import Matrix
from scripts.words import counted

TITLE = "Who reaches whom"
MOST_CLASSES, SEEN_AT_ONCE = 30, 20
# How far the names of classes reach.
LABEL = 280
LABELS = 34 + LABEL + 20
Value = Union[str, list[Range]]
Counts = collections.Counter[int]


def open_words(ranges: Sequence[Range]) -> list[str]:
    return [str(first) if first == last else f"{first}-{last}" for first, last in ranges]


def shade(value: Value) -> float:
    """How dark a cell is: by the logarithm of how many ports are open."""
    ranges = value if isinstance(value, list) else []
    ports = sum(last - first + 1 for first, last in ranges)
    return 0 if not ports else 0.25 + 0.75 * math.log2(ports) / 16


class Folded:
    """A matrix by classes: exact where these are few, else without its ports, and what is still too
    much is one class of others. By parts of the network each of these is a class."""

    def __init__(
        self, matrix: Matrix, classes: Sequence[Class[str]], parts: Sequence[Sequence[str]] = ()
    ) -> None:
        self.matrix, self.exact = matrix, len(classes)
        self.classes = [Class(number, [*ids]) for number, ids in enumerate(parts, 1)] or [*classes]
        if len(self.classes) > MOST_CLASSES and not parts:
            self.classes = fold(matrix.ids, self.without_ports())
        if len(self.classes) > MOST_CLASSES:
            most = sorted(self.classes, key=lambda it: -len(it.ids))[: MOST_CLASSES - 1]
            kept = sorted(most, key=lambda it: it.number or 0)
            numbers = {it.number for it in kept}
            others = [it for of in self.classes if of.number not in numbers for it in of.ids]
            self.classes = [*kept, Class(None, others)]

    def order(self, namer: Namer) -> None:
        """Orders the classes by what they are called, that of others last."""
        self.classes.sort(key=lambda it: (
            it.number is None, natural(namer.name(it.ids) or namer.names.called(it.ids[0]))
        ))

    @functools.cached_property
    def cells(self) -> list[list[Counts]]:
        return self.counts()

    def without_ports(self) -> dict[str, dict[str, int]]:
        """The pairs by whether anything is open."""
        values = self.matrix.values.items()
        words = {it: 3 if value == "no-address" else 2 for it, value in values}
        words.update((it, 1) for it, value in values if isinstance(value, list))
        return {
            own: dict(zip(row, map(words.__getitem__, row.values())))
            for own, row in self.matrix.pairs.items()
        }

    def counts(self) -> list[list[Counts]]:
        """From each class to each, how many pairs have which value."""
        at = {it: k for k, row in enumerate(self.classes) for it in row.ids}
        cells: list[list[Counts]] = [[Counts() for _ in self.classes] for _ in self.classes]
        for own, row in self.matrix.pairs.items():
            of = cells[at[own]]
            found = collections.Counter(zip(map(at.__getitem__, row), row.values()))
            for (column, value), count in found.items():
                of[column][value] += count
        return cells

    def totals(self) -> dict[str, int]:
        """How many pairs are open, blocked, or of an interface without an address."""
        totals = {"open": 0, "blocked": 0, "no-address": 0}
        for value, pairs in sum(itertools.chain(*self.cells), Counts()).items():
            word = self.matrix.values[value]
            totals[word if isinstance(word, str) else "open"] += pairs
        return totals


def opened(values: dict[int, Value], counts: Counts) -> int:
    """How many pairs of a cell something is open for."""
    return sum(count for it, count in counts.items() if isinstance(values[it], list))


def cell_words(values: dict[int, Value], counts: Counts, most: int) -> list[str]:
    """What a cell says: the ports that are open, and in how many of its pairs, where that isn't all
    of them."""
    told = [value for it in counts if isinstance(value := values[it], list)]
    words = open_words(told[0]) if len(told) == 1 else []
    if len(words) > most:
        words = [*words[: most - 1], f"and {len(words) - most + 1} more"]
    if len(counts) > 1 and told:
        words += [f"{grouped(opened(values, counts))} of", grouped(sum(counts.values()))]
    return words


def parts_of(matrix: Matrix, names: Names, classes: int) -> tuple[str, list[Unit]]:
    """What the interfaces are folded by, and the parts: what was asked for, or whatever has few
    parts where there are too many classes."""
    if names.by:
        return names.by, units_of(names, names.by, matrix.ids) if names.by != "host" else []
    if not names.homes or classes <= SEEN_AT_ONCE:
        return "host", []
    found = ((by, units_of(names, by, matrix.ids)) for by in BY[1:])
    return next((it for it in found if len(it[1]) <= SEEN_AT_ONCE), ("host", []))


def labels_of(folded: Folded, by: str, units: list[Unit], namer: Namer) -> list[Label]:
    """How the classes are told: the more there are, the shorter."""
    if units:
        numbered = {it.number for it in folded.classes}
        others = [it for number, it in enumerate(units, 1) if number not in numbered]
        shown = [[units[it.number - 1]] if it.number else others for it in folded.classes]
        return [label_of_units(namer.names, by, it, units, LABEL) for it in shown]
    count = len(folded.classes)
    most = 6 if count <= 6 else 2 if count <= 10 else 0
    ordered = [sorted(it.ids, key=namer.order) for it in folded.classes]
    return [label_of_ids(namer, it, LABEL, most) for it in ordered]


def draw_matrix(matrix: Matrix, names: Names, drawing_name: str) -> tuple[Drawing, str, str]:
    namer, classes = Namer(names, matrix.ids), fold(matrix.ids, matrix.pairs)
    by, units = parts_of(matrix, names, len(classes))
    folded = Folded(matrix, classes, [it.ids for it in units])
    if not units:
        folded.order(namer)
    count = len(folded.classes)
    grid = Grid(folded, labels_of(folded, by, units, namer))
    width = 2 * MARGIN + LABELS + grid.size * count
    drawing = Drawing(max(width, 700), drawing_name)
    summary = counted(len(matrix.ids), "interface")
    told = counted(len(units), *KINDS[by]) if units else counted(folded.exact, "class", "classes")
    summary += f" in {told}" + f", {count} drawn" * (count != (len(units) or folded.exact))
    title = [Run(TITLE, 18, "ink", False, True), Run(summary, 13, "soft")]
    drawing.runs(MARGIN, drawing.bottom + 16, title)
    drawing.bottom += 34
    totals = folded.totals()
    draw_shades(drawing, totals)
    grid.draw(drawing)
    return drawing, f"{TITLE}: {summary}", matrix_words(grid, totals)


def draw_shades(drawing: Drawing, totals: dict[str, int]) -> None:
    """What the shades mean, with how many pairs there are of each."""
    x, top = float(MARGIN), drawing.bottom
    for word, count in totals.items():
        if not count:
            continue
        if word == "open":
            for k, value in enumerate((0.25, 0.6, 1)):
                draw_open(drawing, x + 12 * k, top, 12, 16, value)
        else:
            drawing.rect(x, top, 36, 16, "panel" if word == "blocked" else "grey")
            drawing.rect(x, top, 36, 16, "edge")
        told = f"{word} {counted(count, 'pair')}"
        drawing.text(x + 44, top + 12.5, told, 12, "ink")
        x += 44 + width_of(told, 12) + 22
    drawing.bottom = top + 16


def draw_open(
    drawing: Drawing, x: float, y: float, width: float, height: float, value: float
) -> None:
    drawing.rect(x, y, width, height, "blue", 0, f' fill-opacity="{value:.2f}"')


class Grid:
    """A folded matrix as it is drawn: the words of its cells, and how wide these are."""

    def __init__(self, folded: Folded, labels: list[Label]) -> None:
        self.values, self.cells, self.labels = folded.matrix.values, folded.cells, labels
        most = 4 if len(labels) <= 12 else 3
        self.words = [[cell_words(self.values, it, most) for it in row] for row in self.cells]
        widths = [width_of(it, 10, True) + 12 for row in self.words for of in row for it in of]
        self.size = max([34 if len(labels) > 18 else 48, *widths])
        self.lines = [
            [flowed(it, self.size - 6, 10) if it else [] for it in row] for row in self.words
        ]

    def draw(self, drawing: Drawing) -> None:
        count, left, size = len(self.labels), MARGIN + LABELS, self.size
        top = self.draw_heads(drawing)
        line = f"H{number(left + size * count)}"
        for row, label in enumerate(self.labels):
            lengths = [13 * len(it) + 12 for it in self.lines[row]]
            height = max([label.height + 14, 30, *lengths])
            drawing.path(f"M{MARGIN} {number(top)}{line}", "edge")
            drawing.key(MARGIN + 12, top + 16, str(row + 1))
            label.draw(drawing, MARGIN + 34, top + 6)
            for column in range(count):
                self.draw_cell(drawing, (row, column), left + size * column, top, height)
            top += height
        drawing.path(f"M{MARGIN} {number(top)}{line}", "edge")
        drawing.bottom = top

    def draw_heads(self, drawing: Drawing) -> float:
        """What the columns are called, each with its number; their bottom."""
        shorts = [shortened(it.short(), 165, 11) for it in self.labels]
        over = max([width_of(it, 11) for it in shorts], default=0)
        top = drawing.bottom + 14 + over
        for column, it in enumerate(shorts):
            x = MARGIN + LABELS + self.size * (column + 0.5)
            drawing.text(x + 4, top, it, 11, "ink", turned=True)
            drawing.key(x, top + 15, str(column + 1))
        return top + 30

    def draw_cell(
        self, drawing: Drawing, at: tuple[int, int], x: float, top: float, height: float
    ) -> None:
        (row, column), values, width = at, self.values, self.size
        counts, lines = self.cells[row][column], self.lines[row][column]
        if not counts:
            drawing.path(f"M{number(x + width / 2 - 5)} {number(top + height / 2)}h10", "mark")
            return
        darkest = max(shade(values[it]) for it in counts)
        is_grey = all(values[it] == "no-address" for it in counts)
        style = "grey" if is_grey else "panel"
        drawing.rect(x + 1, top + 1, width - 2, height - 2, style, 3)
        if darkest:
            # (as high as the part of its pairs that is open)
            part = opened(values, counts) / sum(counts.values())
            darkest = darkest if part == 1 else 0.35
            begin = top + 1 + (height - 2) * (1 - part)
            draw_open(drawing, x + 1, begin, width - 2, (height - 2) * part, darkest)
        is_dark = darkest > 0.6
        base, ink = top + height / 2 - 6.5 * len(lines) + 9.5, "white" if is_dark else "ink"
        for line in lines:
            drawing.text(x + width / 2, base, line, 10, ink, True, is_dark, "middle")
            base += 13


def matrix_words(grid: Grid, totals: dict[str, int]) -> str:
    """The classes, and what is open between them."""
    told = [f"{counted(it, 'pair')} {word}" for word, it in totals.items() if it]
    told += [f"class {k}: {it.told()}" for k, it in enumerate(grid.labels, 1)]
    for row, columns in enumerate(grid.words, 1):
        opened = [f"{column} {' '.join(it)}" for column, it in enumerate(columns, 1) if it]
        told += [f"class {row} to {', '.join(opened)}"] * bool(opened)
    return "; ".join(told) + "."
