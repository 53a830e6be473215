"""One page of several pictures: which bundle they are of, and below each its sentences and its
text."""

from __future__ import annotations

import hashlib
import html
import os
from collections.abc import Iterator, Sequence
from typing import NamedTuple, Optional

from scripts import explain, texts
from scripts.bundles import Row, rows, word_of
from scripts.commands import Refused, read
from scripts.picture_canvas import STYLE, Drawing, escaped, grouped

# (a line that ends with \ goes on in the next)
PAGE_STYLE = """
:root{color-scheme:light dark}
body{margin:2rem auto;max-width:72rem;padding:0 1rem;font-family:system-ui,-apple-system,\
"Segoe UI",Roboto,"Helvetica Neue",Arial,sans-serif;line-height:1.45;background:#fff;color:#1f2328}
h1{font-size:1.6rem;margin:0 0 .4rem;overflow-wrap:anywhere}header{margin-bottom:2.4rem}\
dl{display:grid;grid-template-columns:max-content 1fr;gap:.15rem 1rem;margin:0;font-size:.9rem}\
dt{color:#59636e}dd{margin:0;overflow-wrap:anywhere}
code{font-family:ui-monospace,SFMono-Regular,Menlo,Consolas,"Liberation Mono","DejaVu Sans Mono",\
monospace}
figure{margin:0 0 3rem}\
figcaption{font-size:1.1rem;font-weight:600;margin-bottom:.6rem;overflow-wrap:anywhere}
.picture{overflow-x:auto}.picture svg{max-width:100%;height:auto}
pre{overflow-x:auto;background:#f6f8fa;padding:.8rem;border-radius:8px;font-size:.8rem}\
.told{white-space:pre-wrap;overflow-wrap:anywhere;font:inherit;font-size:.9rem;background:none;\
padding:0;margin:.6rem 0}
.untold,summary{color:#59636e}summary{cursor:pointer}
@media (prefers-color-scheme:dark){body{background:#0d1117;color:#f0f6fc}pre{background:#161c24}\
.told{background:none}.untold,summary,dt{color:#9da7b3}}
@media print{.text{display:none}}
"""
MOST_TEXT, MOST_TOLD = 400, 24


class Picture(NamedTuple):
    """A drawing with its title and its words, and the text that it was drawn from."""

    drawing: Drawing
    title: str
    words: str
    path: Optional[str]
    data: bytes


class Bundle(NamedTuple):
    path: str
    objects: list[Row]


# ---- the bundle


def facts_of(bundle: Bundle) -> Iterator[tuple[str, str]]:
    """What is told of a bundle: its file, its checksum, and when and of which account it was
    collected, where it tells that."""
    yield "bundle", escaped(os.path.basename(bundle.path))
    yield "SHA-256", f"<code>{hashlib.sha256(read(bundle.path)).hexdigest()}</code>"
    collected = [it["Collected"] for it in bundle.objects if isinstance(it.get("Collected"), dict)]
    for word, many, name in (
        ("account", "accounts", "Account"), ("region", "regions", "Region"),
        ("collected", "collected", "Time"),
    ):
        told = [word_of(it, name) for it in collected]
        if name == "Account":
            told += [word_of(it, "OwnerId") for of in bundle.objects for it in rows(of, "Vpcs")]
        told = list(dict.fromkeys(filter(None, told)))
        if told:
            yield (word if len(told) == 1 else many), escaped(", ".join(told))


def header(title: str, bundle: Optional[Bundle], count: int) -> str:
    """The heading of a page, and what is told of the bundle."""
    fallback = os.path.basename(bundle.path) if bundle else heading_of(count)
    facts = facts_of(bundle) if bundle else ()
    told = "".join(f"<dt>{name}</dt><dd>{value}</dd>" for name, value in facts)
    shown = f"<dl>{told}</dl>" if told else ""
    return f"<header><h1>{escaped(title or fallback)}</h1>{shown}</header>\n"


def heading_of(count: int) -> str:
    return f"{grouped(count)} picture{'s' * (count != 1)}"


# ---- sentences


def sentences(picture: Picture, bundle: Optional[Bundle]) -> str:
    """What explain tells of a text, where it tells anything of such a text."""
    first = picture.data.decode("ascii").split("\n")
    if not bundle or texts.name_of(first) not in explain.TOLD:
        return ""
    try:
        told = explain.explained(bundle.path, picture.path, picture.data)
    except Refused as why:
        return f'<p class="untold">{escaped(f"No sentences: {why}.")}</p>'
    lines = shown_lines(told)
    count = told.count("\n")
    body = f'<pre class="told">{lines}</pre>'
    if count <= MOST_TOLD:
        return body
    return f"<details><summary>{grouped(count)} lines of sentences</summary>{body}</details>"


def shown_lines(text: str) -> str:
    """The first lines of a text, and how many more there are."""
    lines = text.splitlines()
    left = len(lines) - MOST_TEXT
    more = [f"and {grouped(left)} more lines"] * (left > 0)
    return html.escape("\n".join([*lines[:MOST_TEXT], *more]))


# ---- the page


def figure(count: int, picture: Picture, bundle: Optional[Bundle]) -> str:
    """A picture with its sentences and its text."""
    svg = picture.drawing.svg(picture.title, picture.words, "")
    text = shown_lines(picture.data.decode("ascii"))
    return (
        f'<figure id="picture-{count}"><figcaption>{escaped(picture.title)}</figcaption>'
        f'<div class="picture">{svg}</div>{sentences(picture, bundle)}'
        f'<details class="text"><summary>text</summary><pre>{text}</pre></details></figure>\n'
    )


def page(title: str, found: Sequence[Picture], bundle: Optional[Bundle]) -> str:
    figures = "".join(figure(count, it, bundle) for count, it in enumerate(found, 1))
    view = '<meta name="viewport" content="width=device-width, initial-scale=1">'
    name = escaped(title or heading_of(len(found)))
    head = f'<meta charset="utf-8">{view}<title>{name}</title>'
    head += f"<style>{PAGE_STYLE}{STYLE}</style>"
    body = f"<body><main>\n{header(title, bundle, len(found))}{figures}</main></body>"
    return f'<!doctype html>\n<html lang="en"><head>{head}</head>\n{body}</html>\n'
