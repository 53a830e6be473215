"""Texts of vpc as JSON lines, and back: lines < TEXT, lines --back < JSON-LINES

Each line of a text becomes one JSON object, and --back makes the text of these lines again, byte
for byte.

    hop 3 in eni-b tcp 10.0.1.10 10.0.1.20 5000 443 by sg-b in 1

    {"text":"trace","line":"hop","n":3,"place":"in","id":"eni-b","proto":"tcp","src":"10.0.1.10",
     "dst":"10.0.1.20","p":5000,"q":443,"by":"rule","group":"sg-b","direction":"in","rule":"1"}
     (in one line)

`text` is the command that answered, or `refusal`, and `line` how the line begins. The other members
are what docs/JSON.md and docs/WALK.md name so, as it is printed, but for these: a range is an array
of its first and its last; a rule that is `-` is null; `by` is `rule`, `tracked` or `none`, and left
out where nothing let the packet pass; what belongs to a walk of `ask` has the `phase` above it;
`cells` is a text, since it may have more digits than jq keeps.

Every text of every command is read, and every refusal, whole or not at all: of what is none, or a
part of one, nothing is printed but a line on standard error, with status 2. So --back does with
what is not the lines of a text. An empty text is that of a replay without events. Status 1: the
output could not be written. It needs Python 3.9 or later alone.
"""

from __future__ import annotations

import json
import sys

from scripts.grammar import Members, forms_of
from scripts.texts import NoText, name_of, read_lines

AS_JSON = json.JSONEncoder(separators=(",", ":")).encode


def told_by(lines: list[str]) -> list[Members]:
    """What the lines of a text tell."""
    name = name_of(lines)
    if not name:
        raise NoText("no text begins as line 1 does")
    return read_lines(name, lines, True)[1]


def json_of(data: bytes) -> bytes:
    """The JSON lines of a text."""
    if data and not data.endswith(b"\n"):
        raise NoText("its last line has no end")
    # (what isn't ASCII is in no text)
    lines = data.decode("ascii", "replace").split("\n")[:-1]
    return "".join(AS_JSON(it) + "\n" for it in told_by(lines)).encode()


def object_in(number: int, line: bytes) -> Members:
    try:
        told = json.loads(line.decode())
    except (ValueError, RecursionError):
        told = None
    if not isinstance(told, dict):
        raise NoText(f"line {number} is not one JSON object (jq prints one a line with -c)")
    return told


def line_told(number: int, told: Members) -> str:
    """The line of a text that an object tells."""
    try:
        for form in forms_of(told["text"])[told["line"]]:
            if form.has_fields(told):
                line = form.write(told)
                if form.pattern.fullmatch(line):
                    return line
    # (no such text or line, or a value of another kind)
    except (KeyError, TypeError, ValueError):
        pass
    raise NoText(f"line {number} tells no line of a text")


def text_of(data: bytes) -> bytes:
    """The text of JSON lines."""
    parts = data.removesuffix(b"\n").split(b"\n") if data else []
    objects = [object_in(number, it) for number, it in enumerate(parts, 1)]
    lines = [line_told(number, it) for number, it in enumerate(objects, 1)]
    for number, (one, other) in enumerate(zip(objects, told_by(lines)), 1):
        if one != other:
            what = "otherwise what it has from the lines around it"
            raise NoText(f"line {number} tells {what}")
    return "".join(it + "\n" for it in lines).encode()


def why_not(error: Exception) -> str:
    """Why a stream can't be used."""
    return getattr(error, "strerror", None) or "it is closed"


def main(words: list[str]) -> int:
    if words in (["--help"], ["-h"]):
        print(__doc__, end="")
        return 0
    if words not in ([], ["--back"]):
        return refused("it reads standard input, and has no words but --back; --help says more")
    try:
        data = sys.stdin.buffer.read()
    except (OSError, AttributeError) as error:
        return refused(f"standard input can't be read: {why_not(error)}")
    try:
        out = text_of(data) if words else json_of(data)
    except NoText as why:
        return refused(f"standard input is no {'lines' if words else 'text'} of vpc: {why}")
    try:
        sys.stdout.buffer.write(out)
        sys.stdout.buffer.flush()
    except (OSError, AttributeError) as error:
        return refused(f"standard output can't be written: {why_not(error)}", 1)
    return 0


def refused(why: str, status: int = 2) -> int:
    print(f"lines: {why}", file=sys.stderr)
    return status
