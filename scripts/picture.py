"""Draws a text of vpc: picture [WORD..] [TEXT], picture --html [WORD..] TEXT..

One SVG on standard output, of a text of trace, why, ask, matrix, reach or diff that stands in the
file TEXT or comes on standard input:

    ./vpc ask shop.json from eni-web to eni-db port 5432-5432 | ./picture > answer.svg

  --names BUNDLE   labels components by their Name tags, an interface also by that of its instance,
                   a group by its name; folds what is large by groups, subnets or VPCs; prefixes
                   that are delegated to an interface are addresses of it like others
  --by PART        folds the ends of matrix, reach and diff by group, subnet or vpc of BUNDLE; with
                   host only those that are alike are one
  --title WORDS    a title above the picture, or above the page
  --html           one page of several texts, each with what it was drawn from; it needs no script
                   and no other file. With BUNDLE it has its checksum, when and of which account it
                   was collected, where it tells that, and what explain tells of each text

A walk has its reply coming back beside it; that of why is drawn as trace tells it. What leads to a
network that isn't described has a mark of its own, or a dashed edge, with a legend. A report is a
plane of the two sides of its box that its rows cut into most pieces. A matrix is folded into
classes of interfaces that reach and are reached alike, and so are the ends of reach and of diff;
where that is more than is seen at once, by groups, else by subnets, else by VPCs, with how many
pairs of hosts have each. Ports have one chip with however many ranges of addresses share them. What
opens stands in red, what isn't known in grey. Whatever is too much to be drawn is counted. Each
word of a picture stands in the text or in BUNDLE, but for those of OWN_WORDS in scripts/picture.py.
The colours are ones that colour-blind readers can tell, with a word beside each; the reader's light
or dark scheme decides the rest. Pictures prove nothing: what they show is what the text says.

Status 0; 2: TEXT is no text that can be drawn, or something can't be read, as one line on standard
error says. It needs Python 3.9 or later alone.
"""

from __future__ import annotations

import sys
from collections.abc import Sequence
from typing import Any, Callable, NamedTuple, Optional

from scripts import texts
from scripts.bundles import Names
from scripts.commands import Refused, read, read_objects, refuse
from scripts.picture_canvas import Drawing
from scripts.picture_classes import BY
from scripts.picture_matrix import draw_matrix
from scripts.picture_page import Bundle, Picture, page
from scripts.picture_reports import draw_report
from scripts.picture_walks import draw_reachable, draw_trace, draw_why
from scripts.picture_ways import draw_diff, draw_reach
from scripts.texts import NoText

# The words of pictures that stand in no text, but for numbers.
OWN_WORDS = (
    "proto src dst sport port ports icmp tcp udp ping all other but protocol protocols request "
    "reply rewritten row rows range ranges source destination address addresses in no several one "
    "place part not told known any more is isn't drawn and of by pieces class classes group groups "
    "subnet subnets VPC VPCs interface interfaces network networks that described pair pairs open "
    "blocked opened closed moved "
    "reachable reached before now from to packet hop box next cells What Who reaches whom Nothing "
    "gets get through opens closes moves or +"
).split()
DRAWN = ("trace", "why", "ask", "matrix", "reach", "diff")
DRAWERS: dict[Any, Callable[[Any, Names, str], tuple[Drawing, str, str]]] = {
    texts.Walk: draw_trace, texts.Why: draw_why, texts.Reachable: draw_reachable,
    texts.Report: draw_report, texts.Matrix: draw_matrix, texts.Reach: draw_reach,
    texts.Diff: draw_diff,
}


def read_text(data: bytes) -> texts.Record:
    """What a text says."""
    meant = "text of trace, why, ask, matrix, reach or diff"
    return texts.read_record(data, DRAWN, "text", meant, "..")


def draw(path: Optional[str], data: bytes, names: Names, name: str) -> Picture:
    """The drawing of what a text says, its title, and its words."""
    try:
        found = read_text(data)
    except NoText as why:
        raise Refused(f"{path or 'the text'} can't be drawn: {why}") from None
    return Picture(*DRAWERS[type(found)](found, names, name), path, data)


# ---- words


class Words(NamedTuple):
    """What was asked for: one page or one picture, of these texts."""

    is_page: bool
    names: Optional[str]
    by: str
    title: str
    paths: list[str]


def told_words(words: Sequence[str]) -> Words:
    """What words ask for."""
    is_page, options, paths, left = False, dict[str, str](), list[str](), list(words)
    while left:
        word = left.pop(0)
        if word == "--html" and not is_page:
            is_page = True
        elif word in ("--names", "--by", "--title") and left and word not in options:
            options[word] = left.pop(0)
        elif word.startswith("-") or (paths and not is_page and "--html" not in left):
            raise Refused(f"{word} is not one of its words; --help says more")
        else:
            paths.append(word)
    names, by = options.get("--names"), options.get("--by", "")
    if by and by not in BY:
        raise Refused(f"--by takes {', '.join(BY[:-1])} or {BY[-1]}")
    if by not in ("", BY[0]) and not names:
        raise Refused(f"--by {by} takes --names BUNDLE, which tells the {by} of each interface")
    return Words(is_page, names, by, options.get("--title", ""), paths)


def picture(words: Sequence[str]) -> str:
    """What is printed."""
    asked = told_words(words)
    bundle = Bundle(asked.names, read_objects(asked.names)) if asked.names else None
    names = Names(bundle.objects if bundle else (), asked.by)
    paths: list[Optional[str]] = [*asked.paths] or [None]
    if asked.is_page:
        found = [draw(it, read(it), names, f"-{count}") for count, it in enumerate(paths, 1)]
        return page(asked.title, found, bundle)
    drawn = draw(paths[0], read(paths[0]), names, "")
    return drawn.drawing.svg(drawn.title, drawn.words, heading=asked.title)


def main(words: Sequence[str]) -> int:
    if words in (["--help"], ["-h"]):
        print(__doc__, end="")
        return 0
    try:
        text = picture(words)
    except Refused as why:
        return refuse("picture", why)
    sys.stdout.write(text)
    return 0
