#!/usr/bin/env python3
"""What `check` says of what `reach` and `diff` print, judged by an independent model: tests/listing_model.py PROGRAM [--seed S] [--cases N]

A case is a question of few cells about random networks, and a text about it: the rows as the model makes them of all cells
(rows_model.py), cut anew and in another order; or with rows lost, told otherwise, of other boxes, twice, of another start; or with a line
that is in no grammar. The model tells what is due: the line that is refused, the first two rows of one start that share a header, the first
header of a row of which something else is told, the first one that is left out, or yes. Each answer must be that, byte for byte.
The last line is 'N passed, M failed'.

    tests/listing_model.py --tell FILE [AFTER] TEXT    the answer as the model makes it, and its status
"""

import argparse
import itertools
import os
import random
import re
import subprocess
import sys
import tempfile

import model
import rows_model
from answers import BOX
from diff_model import Diff
from reach_model import Reach

MOST_ROWS = rows_model.MOST_ROWS
REFUSED, YES, NO = 4, 0, 1


# ---- what is due

def outcome(question, start, header):
    """What is told of a header that a row isn't true of, or that is in none."""
    told, answers = question.is_told(start, header)
    return str(answers[0]) if len(answers) == 1 else told or "same"


def box_of(text):
    """A box by its text, or None."""
    if not re.fullmatch(BOX, text):
        return None
    box = rows_model.read_box(text.split(" "))
    return box if all(low <= high <= last for (low, high), last in zip(box, model.LAST)) else None


def row_of(question, start, number, line):
    """A row of the start with that number, or None."""
    words = line.split(" ")
    if len(words) < 9 or words[:3] != ["row", str(number), model.name_of(start)]:
        return None
    box = box_of(" ".join(words[-5:]))
    asked = box and any(all(a <= c and d <= b for (a, b), (c, d) in zip(it, box)) for it in question.boxes(start))
    return rows_model.Row(start, " ".join(words[3:-5]), box, number) if asked else None


def question_of(kind, about, line):
    """The question of the second line, or None."""
    word, *words = line.split(" ")
    if word != "query" or len(words) % 2:
        return None
    try:
        return kind(about, words)
    except rows_model.Refused:
        return None


def due(kind, about, text):
    """The answer to a text about networks, and its status."""
    *lines, last = text.split("\n")
    refused = lambda number: (f"refused report {number}", REFUSED)  # noqa: E731
    if not lines or lines[0] != f"vpc-{kind.command} 1":
        return refused(1)
    question = question_of(kind, about, lines[1]) if len(lines) > 1 else None
    if question is None:
        return refused(2)
    rows, rest = [], lines[2:]
    for start in question.starts:
        while rest and (row := row_of(question, start, len(rows) + 1, rest[0])):
            rows.append(row)
            rest = rest[1:]
    if len(rows) > MOST_ROWS:
        return f"refused report TooManyBoxes {MOST_ROWS + 3}", REFUSED
    if not rest or rest[0] != f"end {len(rows)}":
        return refused(len(rows) + 3)
    if len(rest) > 1 or last:
        return refused(len(rows) + 4)
    return found(question, rows)


def found(question, rows):
    for one, other in itertools.combinations(rows, 2):
        if one.start == other.start and one.meets(other):
            return f"no overlap {one.number} {other.number}", NO
    cuts = question.cuts()
    for row in rows:
        others = [it for it in map(model.low_corner, model.cells(cuts, row.box)) if question.is_told(row.start, it)[0] != row.told]
        if others:
            return f"no untrue {row.number} {min(others)} {outcome(question, row.start, min(others))}", NO
    for start in question.starts:
        own = [row for row in rows if row.start == start]
        edges = [sorted({*told, *(it.box[side][0] for it in own), *(it.box[side][1] + 1 for it in own)}) for side, told in enumerate(cuts)]
        headers = (model.low_corner(cell) for box in question.boxes(start) for cell in model.cells(edges, box))
        left = [it for it in headers if not any(row.holds(it) for row in own) and question.is_told(start, it)[0] is not None]
        if left:
            return f"no unlisted {model.name_of(start)} {min(left)} {outcome(question, start, min(left))}", NO
    return "yes", YES


# ---- texts

def recut(rng, row):
    """The row in two, where it can be cut."""
    sides = [side for side, (low, high) in enumerate(row.box) if low < high]
    if not sides:
        return [row]
    side = rng.choice(sides)
    low, high = row.box[side]
    at = rng.choice((low + 1, high, rng.randint(low + 1, high)))
    halves = [list(row.box), list(row.box)]
    halves[0][side], halves[1][side] = (low, at - 1), (at, high)
    return [rows_model.Row(row.start, row.told, box) for box in halves]


def cut_anew(rng, rows):
    """True rows, cut anew and in another order within each start."""
    rows = [it for row in rows for it in (recut(rng, row) if rng.random() < 0.5 else [row])]
    groups = [list(group) for _, group in itertools.groupby(rows, key=lambda row: row.start)]
    for group in groups:
        rng.shuffle(group)
    return [row for group in groups for row in group]


def spoiled(rng, lines):
    """Lines of which one is in no grammar, or may be."""
    lines, k = list(lines), rng.randrange(len(lines))
    words = lines[k].split(" ")
    at = rng.randrange(len(words))
    way = rng.randrange(8)
    if way == 0:
        lines[k] = " ".join(words[:at] + words[at + 1:])
    elif way == 1:
        lines[k] = " ".join(words[:at] + [rng.choice(("0", "1", "x", "", "internet", "0-0", "9-8", "eni-0-0-0"))] + words[at:])
    elif way == 2:
        words[at] = rng.choice(("0", "1", "2", "x", "", "internet", "0-65535", "256-256", "9-8", "00-1", "max", "query", "row", "end"))
        lines[k] = " ".join(words)
    elif way == 3:
        lines[k:k] = [rng.choice(lines)]
    elif way == 4:
        del lines[k]
    elif way == 5:
        lines[k] = lines[k] + rng.choice((" ", "\r", " x"))
    elif way == 6:
        lines.append(rng.choice(("", "end 0", "row 1")))
    else:
        other = rng.randrange(len(lines))
        lines[k], lines[other] = lines[other], lines[k]
    return lines


def damaged(kind, rng, question, rows):
    """Rows that aren't all that is to be told, or aren't true; or may be."""
    rows, k = list(rows), rng.randrange(len(rows))
    row = rows[k]
    way = rng.choice(("lost", "told", "low", "high", "widened", "twice", "start", "none"))
    if way == "lost":
        del rows[k]
    elif way == "twice":
        rows.insert(k, recut(rng, row)[0])
    elif way == "start":
        rows[k] = rows_model.Row(model.name_of(rng.choice(question.starts)), row.told, row.box)
    elif way == "none":
        rows = [it for it in rows if it.start != row.start]
    else:
        rows[k] = rows_model.Row(row.start, row.told, row.box)
        rows_model.otherwise(kind, rows[k], way)
    return rows


def texts(kind, rng, question):
    """Texts about a question."""
    telling = rows_model.Telling(question)
    head = [question.first, " ".join(["query", *question.given])]

    def text(rows):
        copies = [rows_model.Row(row.start, row.told, row.box, number) for number, row in enumerate(rows, 1)]
        return [*head, *map(str, copies), f"end {len(copies)}"]

    told = telling.rows
    yield text(told)
    yield text(cut_anew(rng, told))
    for _ in range(3 if told else 0):
        yield text(damaged(kind, rng, question, cut_anew(rng, told) if rng.random() < 0.5 else told))
    yield spoiled(rng, text(told))
    yield spoiled(rng, text(cut_anew(rng, told)))


def ended(rng, lines):
    """The lines as a text, seldom without its last newline."""
    return "\n".join(lines) + ("" if rng.random() < 0.03 else "\n")


# ---- cases

def cases(kind, rng, folder, count):
    """Networks' files, with texts about them."""
    for question, words in rows_model.small_questions(kind, rng, folder, count):
        if len(question.starts) > rows_model.MOST_HOSTS:
            continue
        for lines in texts(kind, rng, question):
            yield question.networks, words[: kind.files], ended(rng, lines)


def run(program, seed, count):
    passed = failed = 0
    seen = {}
    with tempfile.TemporaryDirectory() as folder:
        path = os.path.join(folder, "listing.txt")
        for kind in (Reach, Diff):
            rng = random.Random(seed * 1_000_003 + kind.files)
            for about, files, text in cases(kind, rng, folder, count):
                with open(path, "w", encoding="utf-8", newline="") as file:
                    file.write(text)
                line, status = due(kind, about, text)
                done = subprocess.run([program, "check", *files, path], capture_output=True, check=False)
                sort = " ".join(line.split(" ")[:2])
                seen[sort] = seen.get(sort, 0) + 1
                if (done.stdout.decode(), done.returncode) == (line + "\n", status):
                    passed += 1
                else:
                    failed += 1
                    print(f"{kind.command}: {done.returncode} {done.stdout[:200]!r} in place of {line!r}, of", text, sep="\n", flush=True)
    print(*(f"{sort} {number}" for sort, number in sorted(seen.items())), sep=", ")
    print(f"{passed} passed, {failed} failed")
    return 1 if failed else 0


def main():
    words = argparse.ArgumentParser(description=__doc__.splitlines()[0])
    words.add_argument("program", nargs="?")
    words.add_argument("--seed", type=int, default=1)
    words.add_argument("--cases", type=int, default=40)
    words.add_argument("--tell", action="store_true")
    words.add_argument("about", nargs="*")
    words = words.parse_intermixed_args()
    if words.tell:
        *files, listing = [words.program, *words.about]
        with open(listing, encoding="utf-8", newline="") as file:
            line, status = due(Reach if len(files) == 1 else Diff, [rows_model.described(it, k) for k, it in enumerate(files, 1)], file.read())
        print(line)
        return status
    return run(words.program, words.seed, words.cases)


if __name__ == "__main__":
    sys.exit(main())
