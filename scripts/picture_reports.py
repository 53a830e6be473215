"""Pictures of reports: a plane of two sides of the box, and the reasons of its rows."""

from __future__ import annotations

import bisect
import itertools
import math
from collections.abc import Callable, Iterator, Sequence
from typing import Optional, TypeVar

from scripts.bundles import Names
from scripts.headers import Box, Range, dotted
from scripts.picture_canvas import (
    MARGIN, PALETTE, UNKNOWN, Drawing, Run, beside_or_below, flowed, grouped, number,
    width_of, width_of_runs, wrapped,
)
from scripts.picture_classes import part_key, part_name
from scripts.picture_walks import draw_ends, is_unknown
from scripts.texts import Report, ReportRow
from scripts.words import PROTOCOLS, SIDES, counted

# How many pieces of a side stand in their order, how many are drawn at all, and how many are told
# apart before.
MOST_IN_ORDER, MOST_PIECES, MOST_CUTS = 26, 44, 600
MOST_COMPONENTS = 16
# The marks of a place of the plane: the numbers of the reasons that stand there.
Marks = tuple[int, ...]
Reason = tuple[str, str]
Component = tuple[str, str]
Line = TypeVar("Line")


def range_words(side: int, first: int, last: int) -> str:
    """A range of a side as a text tells it; a number alone where it is one."""
    low, high = (dotted(it) if side in (1, 2) else str(it) for it in (first, last))
    if first == last:
        return f"{first} {PROTOCOLS[first]}" if side == 0 and first in PROTOCOLS else low
    return f"{low}-{high}"


def box_words(box: Box) -> list[str]:
    return [f"{SIDES[side]} {range_words(side, *ends)}" for side, ends in enumerate(box)]


# ---- the plane


def cuts_of(side: int, report: Report) -> list[int]:
    """The first numbers of the pieces into which rows cut a side."""
    low, high = report.box[side]
    firsts = {it for row in report.rows for it in (row.box[side][0], row.box[side][1] + 1)}
    return sorted(it for it in firsts | {low} if it <= high)


class Axis:
    """A side and its pieces, in order; more than one may be drawn as one."""

    def __init__(self, side: int, ends: Range, firsts: list[int]) -> None:
        self.side, self.cut = side, len(firsts)
        # (neighbours are one before anything is drawn where there are very many)
        self.firsts = firsts[:: -(-len(firsts) // MOST_CUTS)]
        behind = [*self.firsts[1:], ends[1] + 1]
        self.pieces = [[(first, last - 1)] for first, last in zip(self.firsts, behind)]

    def at(self, value: int) -> int:
        """The piece of a number, before any were joined."""
        return bisect.bisect_right(self.firsts, value) - 1

    def now_at(self, value: int) -> int:
        for k, it in enumerate(self.pieces):
            if any(first <= value <= last for first, last in it):
                return k
        raise ValueError(value)

    def join(self, groups: Sequence[Sequence[int]]) -> None:
        """Draws the pieces of each group as one."""
        self.pieces = [merged([it for k in group for it in self.pieces[k]]) for group in groups]

    def sizes(self, total: float, least: float) -> list[float]:
        """How wide each piece is drawn: by the logarithm of how many numbers it holds."""
        counts = [sum(last - first + 1 for first, last in it) for it in self.pieces]
        weights = [2 + math.log2(it) / 4 for it in counts]
        spare = max(0, total - least * len(weights))
        return [least + spare * it / sum(weights) for it in weights]

    def words(self) -> list[str]:
        return [
            range_words(self.side, *it[0]) + f" and {len(it) - 1} more" * (len(it) > 1)
            for it in self.pieces
        ]

    def title(self) -> str:
        word, drawn = SIDES[self.side], len(self.pieces)
        return word if self.cut == drawn else f"{word}, {grouped(self.cut)} pieces in {drawn}"


def merged(ranges: Sequence[Range]) -> list[Range]:
    """Ranges in order, those that touch as one."""
    found: list[Range] = []
    for first, last in sorted(ranges):
        if found and found[-1][1] + 1 == first:
            found[-1] = (found[-1][0], last)
        else:
            found.append((first, last))
    return found


def axes_of(report: Report) -> tuple[Axis, Axis]:
    """The sides with most pieces, and of those the widest: the one across, and the one down, whose
    words are longer."""
    cuts = [cuts_of(it, report) for it in range(5)]

    def rank(side: int) -> tuple[int, int, int]:
        return -len(cuts[side]), report.box[side][0] - report.box[side][1], -side

    chosen = sorted(sorted(range(5), key=rank)[:2], key=lambda it: (it in (1, 2), -it))
    across, down = (Axis(it, report.box[it], cuts[it]) for it in chosen)
    return across, down


def alike_groups(lines: Sequence[Line], most: int) -> list[list[int]]:
    """Which lines of cells are drawn as one: neighbours that are equal; where there are too many,
    all that are."""
    groups: list[list[int]] = []
    for k, it in enumerate(lines):
        if groups and lines[groups[-1][0]] == it:
            groups[-1].append(k)
        else:
            groups.append([k])
    if len(groups) <= most:
        return groups
    at: dict[Line, list[int]] = {}
    for k, it in enumerate(lines):
        at.setdefault(it, []).append(k)
    return list(at.values())


def cells_of(report: Report, marks: Sequence[int], across: Axis, down: Axis) -> list[list[Marks]]:
    """The marks of each cell, line by line. Lines and columns that are alike are joined, and the
    axes know."""
    bits_of: list[dict[int, int]] = [{} for _ in down.pieces]
    for row, mark in zip(report.rows, marks):
        left, right = map(across.at, row.box[across.side])
        top, bottom = map(down.at, row.box[down.side])
        bits = (1 << right + 1) - (1 << left)
        for line in bits_of[top : bottom + 1]:
            line[mark] = line.get(mark, 0) | bits
    lines = [frozenset(it.items()) for it in bits_of]
    groups = alike_groups(lines, MOST_IN_ORDER)
    down.join(groups)
    columns = list(zip(*(marks_of(lines[it[0]], len(across.pieces)) for it in groups)))
    groups = alike_groups(columns, MOST_IN_ORDER)
    across.join(groups)
    cells = [list(it) for it in zip(*(columns[it[0]] for it in groups))]
    return joined(joined(cells, down, False), across, True)


def marks_of(line: frozenset[tuple[int, int]], count: int) -> list[Marks]:
    """The marks of each cell of a line, whose marks have a bit for each."""
    cells: list[list[int]] = [[] for _ in range(count)]
    for mark, bits in sorted(line):
        while bits:
            low = bits & -bits
            cells[low.bit_length() - 1].append(mark)
            bits ^= low
    return [tuple(it) for it in cells]


def joined(cells: list[list[Marks]], axis: Axis, is_across: bool) -> list[list[Marks]]:
    """Cells whose neighbours are joined until they can be drawn; these hold the marks of all."""
    count = len(axis.pieces)
    if count <= MOST_PIECES:
        return cells
    step = -(-count // MOST_PIECES)
    groups = [range(k, min(k + step, count)) for k in range(0, count, step)]
    axis.join(groups)

    def union(parts: Sequence[Marks]) -> Marks:
        return tuple(sorted(set[int]().union(*parts)))

    if is_across:
        return [[union([line[k] for k in it]) for it in groups] for line in cells]
    return [[union(column) for column in zip(*(cells[k] for k in it))] for it in groups]


def rectangles(cells: Sequence[Sequence[Marks]]) -> Iterator[tuple[int, int, int, int, Marks]]:
    """Equal cells in rectangles: left, top, right and bottom, which are behind the last, and the
    marks."""
    taken: set[tuple[int, int]] = set()
    for top, line in enumerate(cells):
        for left, marks in enumerate(line):
            if (left, top) in taken:
                continue
            right, bottom = left + 1, top + 1
            while right < len(line) and line[right] == marks and (right, top) not in taken:
                right += 1
            while bottom < len(cells) and all(
                cells[bottom][k] == marks and (k, bottom) not in taken for k in range(left, right)
            ):
                bottom += 1
            taken.update(itertools.product(range(left, right), range(top, bottom)))
            yield left, top, right, bottom, marks


# ---- reasons


class Reasons:
    """The reasons of a report, each with its color, and its components, each with its number; where
    those are many, each reason has one."""

    def __init__(self, report: Report) -> None:
        self.rows: dict[Reason, int] = {}
        self.components: dict[Reason, dict[Component, int]] = {}
        for it in report.rows:
            reason, component = (it.phase, it.stop.name), (it.stop.id, it.stop.rule)
            self.rows[reason] = self.rows.get(reason, 0) + 1
            of = self.components.setdefault(reason, {})
            of[component] = of.get(component, 0) + 1
        names = [it for it in dict.fromkeys(name for _, name in self.rows) if not is_unknown(it)]
        self.colors = {name: k for k, name in enumerate(names)}
        self.each = sum(map(len, self.components.values())) <= 24
        keys: list[tuple[Reason, Optional[Component]]] = [
            (reason, it) for reason in self.rows
            for it in (self.components[reason] if self.each else [None])
        ]
        self.numbers = {it: k for k, it in enumerate(keys, 1)}
        self.reason_of = {k: reason for (reason, _), k in self.numbers.items()}

    def mark(self, row: ReportRow) -> int:
        component = (row.stop.id, row.stop.rule) if self.each else None
        return self.numbers[(row.phase, row.stop.name), component]

    def fill(self, drawing: Drawing, reason: Reason) -> str:
        phase, name = reason
        if is_unknown(name):
            return drawing.pattern(UNKNOWN, "unknown")
        color = self.colors[name]
        plain = "plain" if color < len(PALETTE) else "dots"
        kind = "stripes" if phase == "reply" else plain
        return drawing.pattern(PALETTE[color % len(PALETTE)], kind)


def reason_words(reasons: Reasons) -> str:
    told = []
    for (phase, name), of in reasons.components.items():
        shown = [
            f"{it} {rule}: {counted(count, 'row')}"
            for (it, rule), count in list(of.items())[:MOST_COMPONENTS]
        ]
        left_out = len(of) - MOST_COMPONENTS
        shown += [f"and {grouped(left_out)} more"] * (left_out > 0)
        rows = counted(reasons.rows[phase, name], "row")
        known = ", not known" * is_unknown(name)
        told.append(f"{phase} {name}{known}, {rows} ({', '.join(shown)})")
    return "; ".join(told)


# ---- drawing


class Plane:
    """The plane of a report, and where its lines and columns begin."""

    def __init__(self, drawing: Drawing, report: Report, reasons: Reasons, width: float) -> None:
        self.drawing, self.report, self.reasons = drawing, report, reasons
        self.across, self.down = axes_of(report)
        marks = [reasons.mark(it) for it in report.rows]
        self.cells = cells_of(report, marks, self.across, self.down)
        self.words, self.sides = self.across.words(), self.down.words()
        widest = max([width_of(it, 10, True) for it in self.sides])
        gutter = max(widest, width_of(self.down.title(), 11)) + 12
        left, room, count = MARGIN + gutter, width - gutter, len(self.sides)
        widths = self.across.sizes(room, min(room / len(self.words), 15))
        total = max(130, 30 * count) if count < 14 else 17.5 * count
        heights = self.down.sizes(total, 16)
        lengths = [width_of(it, 10, True) for it in self.words]
        self.turned = any(it + 6 > size for it, size in zip(lengths, widths))
        top = drawing.bottom + 20 + (max(lengths) if self.turned else 12) + 6
        self.xs = list(itertools.accumulate(widths, initial=left))
        self.ys = list(itertools.accumulate(heights, initial=top))

    def draw(self) -> None:
        drawing, (left, right), (top, bottom) = self.drawing, self.ends(self.xs), self.ends(self.ys)
        self.draw_words(left, top)
        drawing.rect(left, top, right - left, bottom - top, "grey-tint")
        for it in rectangles(self.cells):
            self.draw_cells(*it)
        drawing.rect(left, top, right - left, bottom - top, "mark")
        if self.report.next:
            column = self.across.now_at(self.report.next[self.across.side])
            line = self.down.now_at(self.report.next[self.down.side])
            x, y = self.xs[column] + self.xs[column + 1], self.ys[line] + self.ys[line + 1]
            draw_ring(drawing, x / 2, y / 2)
        drawing.bottom = bottom

    @staticmethod
    def ends(places: Sequence[float]) -> tuple[float, float]:
        return places[0], places[-1]

    def draw_words(self, left: float, top: float) -> None:
        """The names of the sides, and the pieces of each."""
        drawing = self.drawing
        title = drawing.bottom + 12
        drawing.text(left, title, self.across.title(), 11, "soft", False, True)
        drawing.text(left - 10, top - 6, self.down.title(), 11, "soft", False, True, "end")
        for it, first, last in zip(self.words, self.xs, self.xs[1:]):
            middle = (first + last) / 2
            if self.turned:
                drawing.text(middle + 3.5, top - 6, it, 10, "ink", True, turned=True)
            else:
                drawing.text(middle, top - 6, it, 10, "ink", True, anchor="middle")
        for it, first, last in zip(self.sides, self.ys, self.ys[1:]):
            drawing.text(left - 10, (first + last) / 2 + 3.5, it, 10, "ink", True, anchor="end")

    def draw_cells(self, left: int, top: int, right: int, bottom: int, marks: Marks) -> None:
        if not marks:
            return
        drawing, reasons = self.drawing, self.reasons
        x, y = self.xs[left], self.ys[top]
        width, height = self.xs[right] - x, self.ys[bottom] - y
        fills = list(dict.fromkeys(reasons.fill(drawing, reasons.reason_of[it]) for it in marks))
        fill = fills[0] if len(fills) == 1 else drawing.several(fills[:6])
        drawing.rect(x, y, width, height, "gap", 0, f' style="fill:{fill}"')
        told = " ".join(map(str, marks[:3])) + " .." * (len(marks) > 3)
        name = reasons.reason_of[marks[0]][1]
        shown = f"{name}, not known" if is_unknown(name) else name
        runs = [Run(told, 10, "keyed", False, True), Run(shown, 11, "keyed")]
        if len(marks) == 1 and width_of_runs(runs) + 28 < width and height >= 24:
            full = width_of_runs(runs) + 16
            begin = x + (width - full) / 2
            drawing.rect(begin, y + height / 2 - 10, full, 20, "key", 10)
            drawing.runs(begin + 8, y + height / 2 + 4, runs)
        elif width_of(told, 10) + 12 < width and height >= 16:
            drawing.key(x + width / 2, y + height / 2, told)

    def is_open(self) -> bool:
        """Whether some of it is in no row."""
        return not all(it for line in self.cells for it in line)

    def is_mixed(self) -> bool:
        """Whether a place of it is in several."""
        return any(len(it) > 1 for line in self.cells for it in line)


def draw_ring(drawing: Drawing, x: float, y: float) -> None:
    ring = f"M{number(x - 6)} {number(y)}a6 6 0 1 0 12 0a6 6 0 1 0-12 0z"
    drawing.path(ring, "red-line", ' stroke-width="2.4"')


class Legend:
    """What places mean that are no reason, and then the reasons with their components, in two
    columns."""

    def __init__(self, drawing: Drawing, reasons: Reasons, names: Names, width: float) -> None:
        self.drawing, self.reasons, self.names = drawing, reasons, names
        self.width = (width - 32) / 2
        self.tops = [drawing.bottom + 18] * 2

    def column(self) -> tuple[int, float]:
        """The shorter column, and where it is."""
        at = self.tops.index(min(self.tops))
        return at, MARGIN + at * (self.width + 32)

    def draw(self, report: Report, plane: Plane) -> None:
        drawing = self.drawing
        if report.next:
            words = f"next {report.next}, cells {report.cells}"
            self.draw_other(lambda x, y: draw_ring(drawing, x + 8, y + 8), words)
        if plane.is_open():
            self.draw_other(lambda x, y: drawing.rect(x, y, 16, 16, "grey-tint", 3), "in no row")
        if plane.is_mixed():
            fill = f' style="fill:{drawing.several(PALETTE[:2])}"'
            words = "several rows in one place"
            self.draw_other(lambda x, y: drawing.rect(x, y, 16, 16, "gap", 3, fill), words)
        for it in self.reasons.rows:
            at, x = self.column()
            self.tops[at] = self.draw_reason(it, x, self.tops[at]) + 16
        drawing.bottom = max(self.tops) - 16

    def draw_other(self, act: Callable[[float, float], None], words: str) -> None:
        at, x = self.column()
        top = self.tops[at]
        act(x, top)
        lines = wrapped(words, self.width - 26, 12)
        self.tops[at] = max(self.drawing.lines(x + 26, top + 1, lines, 12), top + 16) + 10

    def draw_reason(self, reason: Reason, x: float, top: float) -> float:
        """A reason, and below it its components; the bottom of it."""
        (phase, name), drawing, reasons = reason, self.drawing, self.reasons
        fill = f' style="fill:{reasons.fill(drawing, reason)}"'
        drawing.rect(x, top, 16, 16, "gap", 3, fill)
        left = x + 26
        if not reasons.each:
            left += drawing.key(left + 9, top + 8, str(reasons.numbers[reason, None])) + 6
        runs = [Run(name, 13, "ink", False, True), Run(phase, 12, "soft")]
        runs += [Run("not known", 12, "soft")] * is_unknown(name)
        drawing.runs(left, top + 12.5, runs)
        rows = counted(reasons.rows[reason], "row")
        drawing.text(x + self.width, top + 12.5, rows, 12, "soft", anchor="end")
        draw = self.draw_each if reasons.each else self.draw_together
        return draw(reason, x, top + 22)

    def draw_each(self, reason: Reason, x: float, top: float) -> float:
        """The components of a reason, a line each."""
        drawing = self.drawing
        for (component, rule), count in self.reasons.components[reason].items():
            room = self.width - 62 - width_of(grouped(count), 11)
            words = component if rule == "-" else f"{component} {rule}"
            shown = wrapped(words, room, 11.5, True)
            last = [Run(shown[-1], 11.5, "ink", True)]
            line, below = beside_or_below(last, self.names.of(component), room, 11)
            key = str(self.reasons.numbers[reason, (component, rule)])
            drawing.key(x + 34, top + 7, key, 9)
            right = x + self.width
            drawing.text(right, top + 11, grouped(count), 11, "soft", anchor="end")
            top = drawing.lines(x + 52, top - 0.5, shown[:-1], 11.5, "ink", True)
            drawing.runs(x + 52, top + 11, line)
            top = drawing.lines(x + 52, top + 15.5, below, 11, "soft") + 4
        return top

    def draw_together(self, reason: Reason, x: float, top: float) -> float:
        """The components of a reason behind each other, each with how many rows it has."""
        told = self.together(reason)
        most = sorted(told, key=lambda it: -it[1])[:MOST_COMPONENTS]
        words = [f"{it[0]} \u00d7{grouped(it[1])}" for it in told if it in most]
        if len(told) > len(most):
            rows = sum(count for _, count in told) - sum(count for _, count in most)
            words.append(f"and {grouped(len(told) - len(most))} more, {counted(rows, 'row')}")
        lines = flowed(words, self.width - 26, 10.5, ",")
        return self.drawing.lines(x + 26, top, lines, 10.5, "ink", True, leading=1.4)

    def together(self, reason: Reason) -> list[tuple[str, int]]:
        """The components of a reason, each with its rows. Where they are very many, interfaces of
        one group are told together, or of what was asked for."""
        of, by = self.reasons.components[reason], self.names.by or "group"
        if len(of) <= MOST_COMPONENTS:
            by = "host"
        parts: dict[Component, list[Component]] = {}
        for it, rule in of:
            parts.setdefault((part_key(self.names, by, it), rule), []).append((it, rule))
        found = []
        for (key, rule), held in parts.items():
            words = [*component_words(self.names, *held[0])]
            if len(held) > 1:
                name = part_name(self.names, key)
                words = [name, counted(len(held), "interface"), "" if rule == "-" else rule]
            found.append((" ".join(filter(None, words)), sum(of[it] for it in held)))
        return found


def component_words(names: Names, component: str, rule: str) -> list[str]:
    """A component, its name and its rule."""
    return [component, names.of(component) or "", "" if rule == "-" else rule]


def verdict_of(report: Report) -> tuple[str, str]:
    """What a report says, in words, and the color of these."""
    unknown = sum(is_unknown(it.stop.name) for it in report.rows)
    if unknown and unknown == len(report.rows) and not report.next:
        return "not known", "grey"
    told = " or ".join(["known"] * (unknown > 0) + ["told"] * bool(report.next))
    return (f"blocked, in part not {told}", "grey") if told else ("blocked", "red")


def draw_report(report: Report, names: Names, drawing_name: str) -> tuple[Drawing, str, str]:
    drawing = Drawing(900, drawing_name)
    width = drawing.width - 2 * MARGIN
    verdict, style = verdict_of(report)
    draw_ends(drawing, [report.start, report.goal], names, verdict, style)
    drawing.bottom += 12
    drawing.chips(box_words(report.box), MARGIN, width)
    drawing.bottom += 20
    reasons = Reasons(report)
    plane = Plane(drawing, report, reasons, width)
    plane.draw()
    Legend(drawing, reasons, names, width).draw(report, plane)
    rows = counted(len(report.rows), "row")
    title = f"{verdict}: from {report.start} to {report.goal}, {rows}"
    more = f" next {report.next}, cells {report.cells}." if report.next else ""
    told = f"box {', '.join(box_words(report.box))}. {reason_words(reasons)}.{more}"
    return drawing, title, told
