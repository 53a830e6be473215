"""Pictures of walks: one alone, or a request with its reply beside it."""

from __future__ import annotations

import itertools
from collections.abc import Sequence
from typing import Optional

from scripts.bundles import Names
from scripts.headers import Header
from scripts.picture_canvas import (
    GAP, MARGIN, Drawing, Run, beside_or_below, chip_height, number, width_of, wrapped,
)
from scripts.texts import Arrived, End, Hop, Reachable, Stopped, Walk, Why
from scripts.words import SIDES

ICONS = {
    "host": "M2.5 3.5h13v11h-13zM5.5 11.5h4M12.5 11.5h.1",
    "router": "M9 2.5a6.5 6.5 0 1 0 .01 0zM5.5 9h7M9 5.5v7",
    "vpc": "M3 5.5V3h2.5M12.5 3H15v2.5M15 12.5V15h-2.5M5.5 15H3v-2.5M7 9h4",
    "internet": "M9 2.5a6.5 6.5 0 1 0 .01 0zM2.5 9h13M9 2.5c-4 4-4 9 0 13M9 2.5c4 4 4 9 0 13",
    "gate": "M3 15.5V9a6 6 0 0 1 12 0v6.5M1.5 15.5h15M9 15V9",
    "nat": "M3 6h11l-3-3M15 12H4l3 3",
    "peer": "M6.5 4.5a4.5 4.5 0 1 0 .01 0zM11.5 4.5a4.5 4.5 0 1 0 .01 0z",
    "transit": "M9 6.5a2.5 2.5 0 1 0 .01 0zM9 6.5V2.5M9 11.5v4M6.5 9h-4M11.5 9h4",
    "outside": "M5.2 14a3.2 3.2 0 0 1-.2-6.4a4.2 4.2 0 0 1 8-.6a3.6 3.6 0 0 1 0 7z",
    "wall": "M2.5 3.5h13v11h-13zM2.5 7.2h13M2.5 10.8h13M7 3.5v3.7M11.5 7.2v3.6M7 10.8v3.7",
}
# What a place is drawn as, and in which color.
KINDS = {
    "out": ("host", "blue"),
    "in": ("host", "blue"),
    "router": ("router", "grey"),
    "enter": ("vpc", "grey"),
    "igw-out": ("gate", "sky"),
    "igw-in": ("gate", "sky"),
    "internet": ("internet", "sky"),
    "nat-out": ("nat", "orange"),
    "nat-in": ("nat", "orange"),
    "peer": ("peer", "purple"),
    "tgw": ("transit", "purple"),
    "tgw-leave": ("transit", "purple"),
    "far-out": ("outside", "purple"),
    "far-in": ("outside", "purple"),
    "inspect": ("wall", "orange"),
}
OUTSIDE_WORDS = "network that isn't described"
QUESTION = "a4 4 0 1 1 6 3.4c-1.4.8-2 1.6-2 3.2m0 3.8v.1"
LANE = 424
STEP = 18
ROUND = ' stroke-linecap="round" stroke-linejoin="round"'


def side_words(header: Header) -> list[str]:
    return [f"{side} {word}" for side, word in zip(SIDES, header.words())]


def draw_ends(
    drawing: Drawing, ends: Sequence[str], names: Names, verdict: str, style: str,
) -> None:
    """The ends and how it went, over the whole width."""
    badge = width_of(verdict, 13) + 26
    right, top, x = drawing.width - MARGIN - badge, drawing.bottom, float(MARGIN)
    room = right - MARGIN - 16 - 46 * (len(ends) - 1) - 12 * len(ends)
    whole = [max(width_of(it, 17, True), width_of(names.of(it) or "", 13)) for it in ends]
    if sum(whole) > room:
        whole = [room / len(ends)] * len(ends)
    bottoms = [top + 28]
    for it, room in zip(ends, whole):
        if x > MARGIN:
            drawing.path(f"M{number(x)} {number(top + 12)}h24", "way")
            drawing.path(f"M{number(x + 24)} {number(top + 7)}l8 5l-8 5z", "tip")
            x += 46
        shown, name = wrapped(it, room, 17, True), wrapped(names.of(it) or "", room, 13)
        bottom = drawing.lines(x, top, shown, 17, "ink", True, True, leading=1.25)
        bottoms.append(drawing.lines(x, bottom, name, 13, "soft") if name != [""] else bottom)
        widths = [width_of(line, 17, True) for line in shown]
        x += max(widths + [width_of(line, 13) for line in name]) + 12
    drawing.rect(right, top - 3, badge, 28, style, 14)
    ink = "white" if style in ("red", "green", "blue") else "keyed"
    drawing.text(right + badge / 2, top + 15.5, verdict, 13, ink, False, True, "middle")
    drawing.bottom = max(bottoms)


class Card:
    """A hop as it is drawn, and how high it is."""

    def __init__(
        self, hop: Hop, before: Optional[Header], names: Names, stop: str, width: float
    ) -> None:
        # (the color of what stopped it here)
        self.hop, self.stop, self.width = hop, stop, width
        room = width - 60
        own = wrapped(hop.id, room - width_of(hop.place, 11) - GAP, 12.5, True)
        first = [Run(hop.place, 11, "soft"), Run(own[0], 12.5, "ink", True, True)]
        self.title, self.below = first, list[str]()
        if len(own) == 1:
            self.title, self.below = beside_or_below(first, names.of(hop.id), room, 12)
        self.more_id = own[1:]
        if self.more_id and names.of(hop.id):
            self.below = wrapped(names.of(hop.id) or "", room, 12)
        # (source and its port stand side by side)
        words, old = hop.header.words(), (before or hop.header).words()
        self.header = [(words[it], words[it] != old[it]) for it in (0, 1, 3, 2, 4)]
        self.is_first = before is None
        self.lay_by(names, room)
        self.height: float = 33 + 17 * len(self.more_id) + 16 * len(self.below) + 19
        self.height += (chip_height(self.chips) + 4) * bool(self.chips)
        self.height += 15 * len(self.group_lines)

    def lay_by(self, names: Names, room: float) -> None:
        """The chip of what let the packet pass, and the name of its group beside or below it."""
        by = self.hop.by
        self.chips = wrapped(f"by {by}", room - 20, 11, True) if by else []
        name = names.of(by.split(" ")[0]) if by and " " in by else None
        widths = width_of(self.chips[0], 11, True) + 24 + width_of(name, 11) if name else 0
        fits = len(self.chips) == 1 and widths <= room
        self.group = name if fits else None
        self.group_lines = wrapped(name, room, 11) if name and not fits else []

    def draw(self, drawing: Drawing, x: float, y: float) -> None:
        self.draw_frame(drawing, x, y)
        left, top = x + 46, y + 9
        drawing.runs(left, top + 12, self.title)
        top = drawing.lines(
            left, top + 17, self.more_id, 12.5, "ink", True, True, leading=17 / 12.5
        )
        top = drawing.lines(left, top, self.below, 12, "soft", leading=16 / 12)
        self.draw_header(drawing, left, top + 13)
        top += 21
        is_rule = bool(self.hop.by and " " in self.hop.by)
        style, ink = ("green-tint", "green-ink") if is_rule else ("grey-tint", "soft")
        if self.chips:
            width = drawing.chip(left, top, self.chips, style, ink)
            top += chip_height(self.chips) + 4
            drawing.text(left + width + GAP, top - 10, self.group or "", 11, "soft")
        drawing.lines(left, top, self.group_lines, 11, "soft", leading=15 / 11)

    def draw_frame(self, drawing: Drawing, x: float, y: float) -> None:
        """The card and what kind of place it is; where a packet was stopped it stands out."""
        icon, color = KINDS[self.hop.place]
        drawing.rect(x, y, self.width, self.height, "panel", 8)
        style, more = (f"{self.stop}-line", ' stroke-width="1.6"') if self.stop else ("edge", "")
        drawing.rect(x, y, self.width, self.height, style, 8, more)
        side = f"a8 8 0 0 0-8 8v{number(self.height - 16)}a8 8 0 0 0 8 8z"
        drawing.path(f"M{number(x + 8)} {number(y)}{side}", color)
        at = f' transform="translate({number(x + 17)} {number(y + 8)})" stroke-width="1.3"'
        drawing.path(ICONS[icon], "mark", f"{at}{ROUND}")

    def draw_header(self, drawing: Drawing, x: float, base: float) -> None:
        """Protocol, source and its port, destination and its port; what was rewritten on the way
        there is marked."""
        plain = "ink" if self.is_first else "soft"
        for at, (word, is_new) in enumerate(self.header):
            width = width_of(word, 11.5, True)
            if is_new:
                for style in ("orange-tint", "orange-line"):
                    drawing.rect(x - 2.5, base - 11.5, width + 5, 15.5, style, 3)
            ink = "orange-ink" if is_new else plain if at else "soft"
            drawing.text(x, base, word, 11.5, ink, True, is_new)
            x += width + 9
            if at == 2:
                drawing.path(f"M{number(x - 2)} {number(base - 4)}h9", "way")
                drawing.path(f"M{number(x + 7)} {number(base - 7.5)}l5 3.5l-5 3.5z", "tip")
                x += 19


def cards_of(walk: Walk, names: Names, width: float = LANE) -> list[Card]:
    befores = [None, *(it.header for it in walk.hops)]
    last = len(walk.hops) if isinstance(walk.end, Stopped) else 0
    pairs = enumerate(zip(walk.hops, befores), 1)
    stop = verdict_of(walk.end)[1]
    return [Card(it, before, names, stop * (k == last), width) for k, (it, before) in pairs]


def beside_each_other(
    request: list[Card], reply: list[Card]
) -> list[tuple[Optional[Card], Optional[Card]]]:
    """The two walks as rows, the reply from its end to its start: hops of one component stand in
    one row where that can be."""
    back = reply[::-1]

    def worth(i: int, j: int) -> int:
        return 10 if request[i - 1].hop.id == back[j - 1].hop.id else 1

    best = [[0] * (len(back) + 1) for _ in range(len(request) + 1)]
    for i, j in itertools.product(range(1, len(request) + 1), range(1, len(back) + 1)):
        both = best[i - 1][j - 1] + worth(i, j)
        best[i][j] = max(both, best[i - 1][j], best[i][j - 1])
    i, j, rows = len(request), len(back), list[tuple[Optional[Card], Optional[Card]]]()
    while i or j:
        if i and j and best[i][j] == best[i - 1][j - 1] + worth(i, j):
            i, j = i - 1, j - 1
            rows.append((request[i], back[j]))
        elif i and best[i][j] == best[i - 1][j]:
            i -= 1
            rows.append((request[i], None))
        else:
            j -= 1
            rows.append((None, back[j]))
    return rows[::-1]


# ---- where a walk ends


def is_unknown(stop: str) -> bool:
    """Whether it isn't known what becomes of a packet that this stops."""
    return stop == "Unmodelled"


def verdict_of(end: End) -> tuple[str, str]:
    """How a walk ends, in words, and the color of these."""
    if isinstance(end, Arrived):
        return "arrived", "green"
    return ("not known", "grey") if is_unknown(end.name) else ("stopped", "red")


def end_words(end: End) -> str:
    """The line of an end; of one that isn't known it says so."""
    known = ", not known" * (isinstance(end, Stopped) and is_unknown(end.name))
    return str(end).removesuffix(" -") + known


def end_lines(end: End, names: Names, width: float) -> tuple[list[str], list[str]]:
    """The lines of an end, and those of a name below it."""
    name = names.of(end.id)
    lines = wrapped(end_words(end), width - 56, 13, True)
    return lines, wrapped(name, width - 56, 12) if name else []


def end_height(end: End, names: Names, width: float = LANE) -> float:
    lines, below = end_lines(end, names, width)
    return 16 + 17 * len(lines) + 16 * len(below)


def draw_end(
    drawing: Drawing, x: float, y: float, end: End, names: Names, width: float = LANE
) -> float:
    """Where a walk ended; its bottom."""
    verdict, color = verdict_of(end)
    height = end_height(end, names, width)
    lines, below = end_lines(end, names, width)
    drawing.rect(x, y, width, height, f"{color}-tint", 8)
    drawing.rect(x, y, width, height, f"{color}-line", 8)
    middle = y + height / 2
    if isinstance(end, Arrived):
        mark = f"M{number(x + 17)} {number(middle)}l5 5l9-10"
    elif verdict == "not known":
        mark = f"M{number(x + 19)} {number(middle - 3)}{QUESTION}"
    else:
        mark = f"M{number(x + 19)} {number(middle - 5)}l10 10m0-10l-10 10"
    drawing.path(mark, f"{color}-line", f' stroke-width="2.4"{ROUND}')
    ink = "ink" if color == "grey" else f"{color}-ink"
    bottom = drawing.lines(x + 46, y + 8, lines, 13, ink, True, True, leading=17 / 13)
    drawing.lines(x + 46, bottom, below, 12, "soft", leading=16 / 12)
    return y + height


# ---- pictures


def arrow(drawing: Drawing, x: float, top: float, bottom: float, up: bool = False) -> None:
    if up:
        drawing.path(f"M{number(x)} {number(bottom)}V{number(top + 7)}", "way")
        drawing.path(f"M{number(x - 4.5)} {number(top + 8)}l4.5-8l4.5 8z", "tip")
    else:
        drawing.path(f"M{number(x)} {number(top)}V{number(bottom - 7)}", "way")
        drawing.path(f"M{number(x - 4.5)} {number(bottom - 8)}l4.5 8l4.5-8z", "tip")


def draw_walk(drawing: Drawing, walk: Walk, names: Names, width: float) -> None:
    """One walk from above to below."""
    top = drawing.bottom
    for it in cards_of(walk, names, width):
        it.draw(drawing, MARGIN, top)
        arrow(drawing, MARGIN + 26, top + it.height, top + it.height + STEP)
        top += it.height + STEP
    drawing.bottom = draw_end(drawing, MARGIN, top, walk.end, names, width)


def draw_both(drawing: Drawing, request: Walk, reply: Walk, names: Names) -> None:
    """A request from above to below, and its reply from below to above beside it."""
    left, right = MARGIN, MARGIN + LANE + 32
    for x, word in ((left, "request"), (right, "reply")):
        drawing.text(x + 2, drawing.bottom + 12, word, 12, "soft", False, True)
    top = drawing.bottom + 20
    # (where each lane was drawn to)
    bottoms = {left: 0.0, right: draw_end(drawing, right, top, reply.end, names)}
    top = bottoms[right] + STEP
    for row in beside_each_other(cards_of(request, names), cards_of(reply, names)):
        for x, card in zip((left, right), row):
            if card:
                if bottoms[x]:
                    arrow(drawing, x + 26, bottoms[x], top, x == right)
                card.draw(drawing, x, top)
                bottoms[x] = top + card.height
        top += max(it.height for it in row if it) + STEP
    arrow(drawing, left + 26, bottoms[left], top)
    drawing.bottom = draw_end(drawing, left, top, request.end, names)
    draw_turn(drawing, right + 26, top + end_height(request.end, names) / 2, bottoms[right])


def draw_turn(drawing: Drawing, x: float, turn: float, top: float) -> None:
    """From where the request arrived to where the reply is sent."""
    corner = f"Q{number(x)} {number(turn)} {number(x)} {number(turn - 10)}V{number(top + 7)}"
    start = f"M{number(MARGIN + LANE)} {number(turn)}H{number(x - 10)}"
    drawing.path(f"{start}{corner}", "way")
    drawing.path(f"M{number(x - 4.5)} {number(top + 8)}l4.5-8l4.5 8z", "tip")


def draw_walk_legend(drawing: Drawing, *walks: Walk) -> None:
    """What marks mean that stand in the walks."""
    neighbours = (pair for it in walks for pair in zip(it.hops, it.hops[1:]))
    kinds = {KINDS[hop.place][0] for it in walks for hop in it.hops}
    x, top = float(MARGIN), drawing.bottom + 14
    if any(one.header != other.header for one, other in neighbours):
        for style in ("orange-tint", "orange-line"):
            drawing.rect(x, top, 26, 14, style, 3)
        drawing.text(x + 34, top + 11.5, "rewritten", 11.5, "soft")
        x += 34 + width_of("rewritten", 11.5) + 22
    if "outside" in kinds:
        drawing.rect(x, top - 2, 26, 18, KINDS["far-out"][1], 4)
        at = f' transform="translate({number(x + 4)} {number(top - 2)})" stroke-width="1.3"'
        drawing.path(ICONS["outside"], "mark", f"{at}{ROUND}")
        drawing.text(x + 34, top + 11.5, OUTSIDE_WORDS, 11.5, "soft")
        x += 34
    if x > MARGIN:
        drawing.bottom = top + 14


def walk_words(walk: Walk) -> str:
    return "; ".join([*walk.lines[:-1], end_words(walk.end)])


def draw_trace(walk: Walk, names: Names, drawing_name: str) -> tuple[Drawing, str, str]:
    start, arrived = walk.hops[0].id, isinstance(walk.end, Arrived)
    ends = [start, walk.end.id] if arrived else [start]
    drawing = Drawing(2 * MARGIN + 500, drawing_name)
    verdict, style = verdict_of(walk.end)
    draw_ends(drawing, ends, names, verdict, style)
    drawing.bottom += 12
    drawing.chips(side_words(walk.hops[0].header), MARGIN, 500)
    drawing.bottom += 16
    draw_walk(drawing, walk, names, 500)
    draw_walk_legend(drawing, walk)
    return drawing, f"{start} {end_words(walk.end)}", walk_words(walk)


def draw_why(answer: Why, names: Names, drawing_name: str) -> tuple[Drawing, str, str]:
    return draw_trace(answer.walk, names, drawing_name)


def draw_reachable(answer: Reachable, names: Names, drawing_name: str) -> tuple[Drawing, str, str]:
    drawing = Drawing(2 * LANE + 32 + 2 * MARGIN, drawing_name)
    request, reply = answer.request, answer.reply
    goal = request.end.id if isinstance(request.end, Arrived) else request.end.rule
    ends = [request.hops[0].id, goal]
    draw_ends(drawing, ends, names, "reachable", "green")
    drawing.bottom += 12
    drawing.chips(side_words(answer.packet), MARGIN, drawing.width - 2 * MARGIN)
    drawing.bottom += 18
    draw_both(drawing, request, reply, names)
    draw_walk_legend(drawing, request, reply)
    title = f"reachable from {ends[0]} to {goal}, packet {answer.packet}"
    return drawing, title, f"request: {walk_words(request)}. reply: {walk_words(reply)}."
