"""What pictures are drawn with: texts as wide as they are measured, shapes, chips and fills."""

from __future__ import annotations

import html
import unicodedata
from collections.abc import Iterable, Sequence
from typing import NamedTuple, Optional

from scripts.bundles import printable

# The width of a character by twentieths of the size of its letters: those of a broad bold face,
# which others don't pass.
WIDTHS = {
    it: width / 20
    for width, characters in (
        (7, " 'ijl"),
        (8, ",./:;IJ\\|\u00b7"),
        (9, "-f"),
        (10, "!()[]_`rt"),
        (11, '"*'),
        (12, "?csz"),
        (13, "Lx"),
        (14, "$0123456789EFTaekovy"),
        (15, "CPSYZbdghnpqu{}"),
        (16, "ABKRVX"),
        (17, "#+<=>DGHNOQU^~\u2192\u00d7"),
        (18, "&"),
        (19, "w"),
        (21, "@%mM\u2026"),
        (23, "W"),
    )
    for it in characters
}
FIXED = 0.615
MARGIN = 24
GAP = 8


def character_width(it: str) -> float:
    if it in WIDTHS:
        return WIDTHS[it]
    if unicodedata.category(it) in ("Mn", "Me"):
        return 0
    return 1.4 if unicodedata.east_asian_width(it) in "WF" else 1.15


def is_plain(text: str) -> bool:
    return text.isascii() or all(it in WIDTHS for it in text)


def width_of(text: str, size: float, fixed: bool = False) -> float:
    """How wide a text is at most."""
    if fixed and is_plain(text):
        return len(text) * FIXED * size
    return sum(map(character_width, text)) * size


def wrapped(text: str, width: float, size: float, fixed: bool = False) -> list[str]:
    """The lines of a text that is no wider; a word that doesn't fit is broken, after a sign where
    there is one."""
    lines, line = [], ""
    for word in text.split(" "):
        joined = f"{line} {word}" if line else word
        if width_of(joined, size, fixed) <= width:
            line = joined
            continue
        if line:
            lines.append(line)
        while width_of(word, size, fixed) > width:
            fits = fitting(word, width, size, fixed)
            lines.append(word[:fits])
            word = word[fits:]
        line = word
    return lines + [line]


def fitting(word: str, width: float, size: float, fixed: bool) -> int:
    """How many characters of a word fit, at least one; those behind the last sign go on."""
    lengths = range(len(word), -1, -1)
    fits = max(1, next(n for n in lengths if width_of(word[:n], size, fixed) <= width))
    sign = max(word[:fits].rfind(it) for it in "-./:_") + 1
    return sign if sign > fits // 2 else fits


def flowed(words: Sequence[str], width: float, size: float, sign: str = "") -> list[str]:
    """Texts behind each other in lines, with a sign between them; none is broken that fits."""
    lines, line = [], ""
    for count, word in enumerate(words, 1):
        word += sign * (count < len(words))
        joint = f"{line} {word}" if line else word
        if width_of(joint, size, True) <= width:
            line = joint
            continue
        if line:
            lines.append(line)
        *broken, line = wrapped(word, width, size, True)
        lines += broken
    return lines + [line]


def shortened(text: str, width: float, size: float, fixed: bool = False) -> str:
    """As much of a text as is no wider, with a sign where there is more."""
    if width_of(text, size, fixed) <= width:
        return text
    room, fits = width - 1.05 * size, range(len(text), 0, -1)
    kept = next((it for it in fits if width_of(text[:it], size, fixed) <= room), 1)
    return text[:kept].rstrip() + "\u2026"


def number(value: float) -> str:
    return f"{value:.1f}".removesuffix(".0")


def grouped(count: int) -> str:
    return f"{count:,}"


def first_of(words: Sequence[str], most: int) -> list[str]:
    """The first of several words, and how many more there are."""
    return [*words[:most], *[f"and {len(words) - most} more"] * (len(words) > most)]


def chip_height(lines: Sequence[str]) -> float:
    return 20 + 14 * (len(lines) - 1)


def kind_of(fixed: bool, bold: bool) -> str:
    return f"{'m' if fixed else 's'}{' b' if bold else ''}"


class Run(NamedTuple):
    """A text that stands behind others in one line."""

    words: str
    size: float
    style: str
    fixed: bool = False
    bold: bool = False


def width_of_runs(told: Sequence[Run]) -> float:
    """How wide texts behind each other are at most."""
    return sum(width_of(it.words, it.size, it.fixed) for it in told) + GAP * (len(told) - 1)


def beside_or_below(
    first: list[Run], name: Optional[str], width: float, size: float
) -> tuple[list[Run], list[str]]:
    """A line of runs with a name at its end where there is room, and the lines of the name where
    there isn't."""
    if not name:
        return first, []
    both = [*first, Run(name, size, "soft")]
    return (both, []) if width_of_runs(both) <= width else (first, wrapped(name, width, size))


PALETTE = ("#0072b2", "#e69f00", "#009e73", "#cc79a7", "#56b4e9", "#d55e00", "#f0e442")
UNKNOWN = "#8b949e"
# (a line that ends with \ goes on in the next)
STYLE = """
.paper{fill:#ffffff}.panel{fill:#f6f8fa}.ink{fill:#1f2328}.soft{fill:#59636e}\
.edge{fill:none;stroke:#d1d9e0}.mark{fill:none;stroke:#59636e}
.way{fill:none;stroke:#818b98;stroke-width:1.6}.tip{fill:#818b98}\
.key{fill:#ffffff;stroke:#1f2328}.keyed{fill:#1f2328}.white{fill:#ffffff}
.blue{fill:#0072b2}.sky{fill:#56b4e9}.green{fill:#009e73}.red{fill:#d55e00}\
.orange{fill:#e69f00}.purple{fill:#cc79a7}.grey{fill:#8b949e}
.green-ink{fill:#00694d}.red-ink{fill:#b04a00}.orange-ink{fill:#7d5600}\
.purple-ink{fill:#8f3f6c}.blue-ink{fill:#005b8e}
.green-line{fill:none;stroke:#009e73}.red-line{fill:none;stroke:#d55e00}\
.orange-line{fill:none;stroke:#e69f00}.purple-line{fill:none;stroke:#cc79a7}
.blue-line{fill:none;stroke:#0072b2}.grey-line{fill:none;stroke:#8b949e}\
.gap{fill:none;stroke:#ffffff}
.green-tint{fill:#d9f1e9}.red-tint{fill:#fae3d3}.orange-tint{fill:#fdf0d2}\
.purple-tint{fill:#f7e6ef}.blue-tint{fill:#d9eaf5}.grey-tint{fill:#eaeef2}
.s{font-family:system-ui,-apple-system,"Segoe UI",Roboto,"Helvetica Neue",Arial,"DejaVu Sans",\
sans-serif}
.m{font-family:ui-monospace,SFMono-Regular,Menlo,Consolas,"Liberation Mono","DejaVu Sans Mono",\
monospace}
.b{font-weight:bold}
@media (prefers-color-scheme:dark){
.paper{fill:#0d1117}.panel{fill:#161c24}.ink{fill:#f0f6fc}.soft{fill:#9da7b3}\
.edge{stroke:#3d444d}.mark{stroke:#9da7b3}
.way{stroke:#7d8590}.tip{fill:#7d8590}.gap{stroke:#0d1117}
.green-ink{fill:#4fd1ab}.red-ink{fill:#ff9e64}.orange-ink{fill:#f5c04a}\
.purple-ink{fill:#eaa5cb}.blue-ink{fill:#79c0f0}
.green-tint{fill:#0b3b2e}.red-tint{fill:#4a2408}.orange-tint{fill:#402e06}\
.purple-tint{fill:#43263a}.blue-tint{fill:#0c3350}.grey-tint{fill:#2a313a}
}
"""
# What lies on a colored fill, in a square of 8 by 8.
MARKS = {
    "stripes": '<path d="M-2 2L2 -2M0 8L8 0M6 10L10 6" stroke="#ffffff" stroke-width="2.2"/>',
    "dots": '<circle cx="4" cy="4" r="1.8" fill="#ffffff"/>',
    "unknown": '<path d="M0 4H8M4 0V8" stroke="#ffffff" stroke-width="1.6"/>',
}


def escaped(text: str) -> str:
    return html.escape(printable(text), quote=True)


def place(x: float, y: float) -> str:
    """A point as attributes."""
    return f'x="{number(x)}" y="{number(y)}"'


def extent(width: float, height: float) -> str:
    return f'width="{number(width)}" height="{number(height)}"'


class Drawing:
    """The elements of one picture."""

    def __init__(self, width: float, name: str = "") -> None:
        self.width, self.name = width, name
        self.bottom: float = MARGIN
        self.parts: list[str] = []
        # (by what they are: their names, and how they are defined)
        self.patterns: dict[tuple[str, ...], tuple[str, str]] = {}

    def rect(
        self, x: float, y: float, width: float, height: float, style: str, corner: float = 0,
        more: str = "",
    ) -> None:
        corners = f' rx="{number(corner)}"' if corner else ""
        shape = f"{place(x, y)} {extent(width, height)}"
        self.parts.append(f'<rect class="{style}" {shape}{corners}{more}/>')

    def path(self, shape: str, style: str, more: str = "") -> None:
        self.parts.append(f'<path class="{style}" d="{shape}"{more}/>')

    def text(
        self, x: float, y: float, told: str, size: float, style: str = "ink", fixed: bool = False,
        bold: bool = False, anchor: str = "", turned: bool = False,
    ) -> None:
        """A line of text by its base line. Its width is as measured, whatever the letters of the
        reader's machine are."""
        if not told:
            return
        more = f' text-anchor="{anchor}"' if anchor else ""
        if turned:
            more += f' transform="rotate(-90 {number(x)} {number(y)})"'
        if not is_plain(told):
            width = number(width_of(told, size, fixed))
            more += f' textLength="{width}" lengthAdjust="spacingAndGlyphs"'
        kind = f'class="{kind_of(fixed, bold)} {style}" {place(x, y)} font-size="{number(size)}"'
        self.parts.append(f"<text {kind}{more}>{escaped(told)}</text>")

    def runs(self, x: float, y: float, told: Iterable[Run]) -> None:
        """Texts behind each other in one line; the gaps are the same by all letters."""
        spans: list[str] = []
        for it in told:
            gap = f' dx="{GAP}"' if spans else ""
            kind = f'class="{kind_of(it.fixed, it.bold)} {it.style}" font-size="{number(it.size)}"'
            spans.append(f"<tspan {kind}{gap}>{escaped(it.words)}</tspan>")
        self.parts.append(f"<text {place(x, y)}>{''.join(spans)}</text>")

    def lines(
        self, x: float, y: float, told: Iterable[str], size: float, style: str = "ink",
        fixed: bool = False, bold: bool = False, leading: float = 1.35,
    ) -> float:
        """Lines below each other from a top; where they end."""
        for it in told:
            self.text(x, y + size, it, size, style, fixed, bold)
            y += size * leading
        return y

    def chip(
        self, x: float, y: float, told: Sequence[str], style: str = "grey-tint", ink: str = "ink",
    ) -> float:
        """A text in a rounded box, of several lines where it doesn't fit in one; how wide it is."""
        width = max(width_of(it, 11, True) for it in told) + 14.3
        self.rect(x, y, width, chip_height(told), style, 10)
        self.lines(x + 7.15, y + 3, told, 11, ink, True, leading=14 / 11)
        return width

    def chips(
        self, told: Iterable[str], x: float, width: float, style: str = "grey-tint",
        ink: str = "ink",
    ) -> None:
        """Chips beside and below each other; none is broken in two."""
        at, top, below = x, self.bottom, self.bottom
        for word in told:
            lines = wrapped(word, width - 16, 11, True)
            needed = max(width_of(it, 11, True) for it in lines) + 14.3
            if at > x and at + needed > x + width:
                at, top = x, below + 5
            at += self.chip(at, top, lines, style, ink) + 6
            below = max(below, top + chip_height(lines))
        self.bottom = max(below, top + 20)

    def key(self, x: float, y: float, told: str, size: float = 10) -> float:
        """A number on whatever is below it, around a point."""
        width = max(width_of(told, size) + 8, size + 6)
        top = y - size / 2 - 3
        self.rect(x - width / 2, top, width, size + 6, "key", (size + 6) / 2)
        self.text(x, y + size * 0.36, told, size, "keyed", False, True, "middle")
        return width

    # -- fills

    def defined(self, key: tuple[str, ...], size: int, shape: str, more: str = "") -> str:
        """A pattern that is defined once."""
        if key not in self.patterns:
            name = f"fill{self.name}-{len(self.patterns)}"
            square = f'width="{size}" height="{size}" patternUnits="userSpaceOnUse"{more}'
            self.patterns[key] = (name, f'<pattern id="{name}" {square}>{shape}</pattern>')
        return f"url(#{self.patterns[key][0]})"

    def pattern(self, color: str, kind: str) -> str:
        """How something is filled: with a color, or with stripes or dots on it."""
        if kind == "plain":
            return color
        ground = f'<rect width="8" height="8" fill="{color}"/>'
        return self.defined((color, kind), 8, f"{ground}{MARKS[kind]}")

    def several(self, fills: Sequence[str]) -> str:
        """Stripes of several fills."""
        size = 8 * len(fills)
        bands = "".join(
            f'<rect x="{8 * k}" width="8" height="{size}" fill="{it}"/>'
            for k, it in enumerate(fills)
        )
        return self.defined(("", *fills), size, bands, ' patternTransform="rotate(45)"')

    def svg(self, title: str, told: str, style: str = STYLE, heading: str = "") -> str:
        """The picture, whose words tell it to those who don't see it, below a heading."""
        lines = wrapped(printable(heading), self.width - 2 * MARGIN, 20) if heading else []
        above = 27 * len(lines) + 8 * bool(lines)
        self.lines(MARGIN, MARGIN - 6 - above, lines, 20, "ink", False, True)
        width, height = number(self.width), number(self.bottom + MARGIN + above)
        definitions = "".join(it for _, it in self.patterns.values())
        name, size = self.name, f'width="{width}" height="{height}"'
        title = f"{printable(heading)}: {title}" if heading else title
        words = f'<title id="title{name}">{escaped(title)}</title>'
        words += f'<desc id="told{name}">{escaped(told)}</desc>'
        inner = f"<style>{style}</style>" if style else ""
        inner += f"<defs>{definitions}</defs>" if definitions else ""
        labels = f'role="img" aria-labelledby="title{name} told{name}"'
        box = f'viewBox="0 {-above or 0} {width} {height}" {size}'
        top = f' y="{-above}"' if above else ""
        return (
            f'<svg xmlns="http://www.w3.org/2000/svg" {labels} {box}>{words}{inner}'
            f'<rect class="paper"{top} {size} rx="10"/>\n' + "\n".join(self.parts) + "\n</svg>\n"
        )
