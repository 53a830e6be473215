#!/usr/bin/env python3
"""Reports as trees of cuts, against an independent model: tests/tree_model.py PROGRAM [--seed S] [--cases N]

A case is a network made at random (networks.py), and some queries of it with `max` above 20,000. Where `ask`
prints a tree, its text has to be that which the model makes of its leaves: a box is cut down to the leaf that begins where it begins,
side after side, and what is cut off comes next, the last first. Leaves that follow each other by their low corners with one word are one
leaf where they differ along q alone; and those that are one row where they differ along p or q alone are the rows that the same query has
as a list. Each leaf has to be true of all headers by model.py, where the query has few cells, else of some, and no leaf is cut but where
something may change; and `check` says yes. Any other answer is that of the query without `max`.

Then `check` is asked about other trees of the same box: such as the model makes itself, cut in any order and anywhere, which are true,
and damaged ones. The model tells what is due: the line that is refused, the first header of the first leaf of which something else is
told, or yes. Each answer must be that, byte for byte. The last line is 'N passed, M failed'.

    tests/tree_model.py --tell FILE REPORT    the answer as the model makes it, and its status
"""

import argparse
import json
import os
import random
import re
import subprocess
import sys
import tempfile

import model
import networks
import rows_model
from answers import ADDRESS, NUMBER, STOP

SIDES = ("proto", "src", "dst", "p", "q")
P, Q = 3, 4
MOST_LEAVES, FEW_CELLS = 100_000, 2_000
REFUSED, YES, NO = 4, 0, 1


def replaced(box, side, ends):
    return (*box[:side], ends, *box[side + 1:])


def halves(box, side, number):
    """The parts of a box that a cut makes, the lower one last."""
    return [replaced(box, side, (number, box[side][1])), replaced(box, side, (box[side][0], number - 1))]


def told_number(side, number):
    return model.dotted(number) if side in (1, 2) else str(number)


def cut_line(side, number):
    return f"cut {SIDES[side]} {told_number(side, number)}"


def tree_text(head, nodes):
    count = sum(it.startswith("leaf ") for it in nodes)
    return "\n".join(["vpc-report 2", *head, *nodes, f"end {count}", ""])


# ---- trees

def leaves_of(box, nodes):
    """The leaves of a tree, as rows by their low corners; None where the nodes are no tree of the box."""
    leaves, left = [], [box]
    for node in nodes:
        box = left.pop() if left else None
        cut = box and cut_of(node, box)
        if cut:
            left += halves(box, *cut)
        elif box and node.startswith("leaf "):
            leaves.append(rows_model.Row("", node[len("leaf "):], box))
        else:
            return None
    return None if left else sorted(leaves, key=lambda it: [low for low, _ in it.box])


def goes_on(row, other, along):
    """Whether a row has the word and the sides of another, but that it begins one past the end of one of these sides."""
    ways = [side for side in along if other.box[side][1] + 1 == row.box[side][0]]
    return row.told == other.told and any(all(row.box[it] == other.box[it] for it in range(5) if it != side) for side in ways)


def joined(rows, along):
    """The rows, as few as those that follow each other make along these sides."""
    told = []
    for row in rows:
        while told and goes_on(row, told[-1], along):
            row = rows_model.Row("", row.told, [(low, high) for (low, _), (_, high) in zip(told.pop().box, row.box)])
        told.append(row)
    return told


def of_rows(box, rows):
    """The nodes of the tree that rows make, as far as each row begins where a box of the tree begins."""
    nodes, left, begun = [], [box], {tuple(low for low, _ in row.box): row for row in rows}
    while left:
        box = left.pop()
        row = begun.pop(tuple(low for low, _ in box), None)
        if row is None:
            break
        for side, (_, last) in enumerate(row.box):
            if last < box[side][1]:
                nodes.append(cut_line(side, last + 1))
                left.append(replaced(box, side, (last + 1, box[side][1])))
            box = replaced(box, side, (box[side][0], last))
        nodes.append(f"leaf {row.told}")
    return nodes


class Any:
    """True trees of a query, cut in any order and anywhere."""

    def __init__(self, rng, query):
        self.rng, self.query = rng, query

    def nodes(self):
        nodes, left = [], [self.query.box]
        while left:
            box = left.pop()
            told = self.query.told(box)
            sides = [side for side, (low, high) in enumerate(box) if low < high]
            if len(told) == 1 and (not sides or self.rng.random() < 0.7):
                nodes.append(f"leaf {told.pop()}")
                continue
            side, number = self.cut(box, sides, len(told) > 1)
            nodes.append(cut_line(side, number))
            left += halves(box, side, number)
        return nodes

    def cut(self, box, sides, is_due):
        """A side and a number on it: where something may change, or anywhere."""
        own = [(side, it) for side in sides for it in self.query.cuts[side] if box[side][0] < it <= box[side][1]]
        if is_due or (own and self.rng.random() < 0.7):
            return self.rng.choice(own)
        side = self.rng.choice(sides)
        return side, self.rng.randint(box[side][0] + 1, box[side][1])


class Query:
    """A network and the box of a query, between two ends."""

    def __init__(self, network, start, goal, box):
        self.network, self.start, self.goal, self.box = network, start, goal, tuple(box)
        self.cuts, self.known = model.cuts(network), {}

    def count(self):
        """How many cells it has."""
        count = 1
        for told, (low, high) in zip(self.cuts, self.box):
            count *= 1 + sum(low < it <= high for it in told)
        return count

    def verdict(self, header):
        """What becomes of a header, as a leaf has it; None where it gets through."""
        if header not in self.known:
            answer = model.verdict(self.network, self.start, self.goal, header)
            self.known[header] = str(answer) if answer.stop else None
        return self.known[header]

    def corners(self, box):
        """The low corners of the cells of a part."""
        return map(model.low_corner, model.cells(self.cuts, box))

    def told(self, box):
        return {self.verdict(self.cell(it)) for it in self.corners(box)}

    def cell(self, header):
        """The low corner of the cell that has a header: so that each cell is asked once."""
        return model.Header(*(max([low, *(it for it in told if low < it <= number)]) for told, (low, _), number in zip(self.cuts, self.box, header)))


# ---- what is due

def refused(number):
    return f"refused report {number}", REFUSED


def query_of(network, lines):
    """The query of the second and the third line, or the number of the first that is none."""
    ends = re.fullmatch(r"query from (\S+) to (\S+)", lines[0]) if lines else None
    found = [model.INTERNET if it == "internet" else it for it in ends.groups()] if ends else []
    if not found or not all(map(network.is_end, found)) or not model.may_start(network.end(found[0])) or found == [model.INTERNET] * 2:
        return 2
    sides = lines[1].split(" ")[1:] if len(lines) > 1 and lines[1].startswith("box ") else []
    kinds = [ADDRESS if side in (1, 2) else NUMBER for side in range(5)]
    if len(sides) != 5 or not all(re.fullmatch(f"{kind}-{kind}", it) for kind, it in zip(kinds, sides)):
        return 3
    box = rows_model.read_box(sides)
    is_box = all(low <= high <= last for (low, high), last in zip(box, model.LAST))
    return Query(network, *found, box) if is_box else 3


def cut_of(line, box):
    """The side and the number by which a line cuts a box, or None."""
    words = line.split(" ")
    if len(words) != 3 or words[0] != "cut" or words[1] not in SIDES:
        return None
    side = SIDES.index(words[1])
    if not re.fullmatch(ADDRESS if side in (1, 2) else NUMBER, words[2]):
        return None
    number = model.address(words[2]) if side in (1, 2) else int(words[2])
    return (side, number) if box[side][0] < number <= box[side][1] else None


def due(network, text):
    """The answer to a text of version 2 about a network, and its status."""
    *lines, last = text.split("\n")
    if not lines or lines[0] != "vpc-report 2":
        return refused(1)
    query = query_of(network, lines[1:3])
    if not isinstance(query, Query):
        return refused(query)
    leaves, left, number = [], [query.box], 3
    while left:
        number += 1
        line, box = lines[number - 1] if number <= len(lines) else "", left.pop()
        if re.fullmatch(f"leaf (?:request|reply) {STOP}", line):
            leaves.append((line[5:], box))
            if len(leaves) > MOST_LEAVES:
                return f"refused report TooManyBoxes {number}", REFUSED
            continue
        cut = cut_of(line, box)
        if not cut:
            return refused(number)
        left += halves(box, *cut)
    if lines[number:number + 1] != [f"end {len(leaves)}"]:
        return refused(number + 1)
    return refused(number + 2) if len(lines) > number + 1 or last else found(query, leaves)


def found(query, leaves):
    for number, (told, box) in enumerate(leaves, 1):
        others = [it for it in query.corners(box) if query.verdict(query.cell(it)) != told]
        if others:
            return f"no untrue {number} {min(others)} {query.verdict(query.cell(min(others))) or 'through'}", NO
    return "yes", YES


# ---- damage

def damaged(rng, nodes):
    """Nodes of which something is otherwise."""
    nodes, k = list(nodes), rng.randrange(len(nodes))
    cuts = [at for at, it in enumerate(nodes) if it.startswith("cut ")]
    way = rng.choice(("lost", "twice", "exchanged", "stop", "number", "side", "words") if cuts else ("lost", "twice", "stop", "words"))
    if way == "lost":
        del nodes[k]
    elif way == "twice":
        nodes.insert(k, rng.choice(nodes))
    elif way == "exchanged":
        other = rng.randrange(len(nodes))
        nodes[k], nodes[other] = nodes[other], nodes[k]
    elif way == "stop":
        leaf = rng.choice([at for at, it in enumerate(nodes) if it.startswith("leaf ")])
        words = nodes[leaf].split(" ")
        at = rng.randrange(1, 5)
        words[at] = rng.choice((("request", "reply"), ("GroupsIn", "NoRoute", "BlockPublicAccess", "Detached"), ("eni-0-0-0", "rtb-0", "subnet-0-0"), ("-", "1", "block-ingress"))[at - 1])
        nodes[leaf] = " ".join(words)
    elif way == "words":
        words = nodes[k].split(" ")
        at = rng.randrange(len(words))
        nodes[k] = " ".join(rng.choice((words[:at] + words[at + 1:], words[:at] + [words[at]] + words[at:], [*words[:at], rng.choice(("cut", "leaf", "q", "0", "00", "70000", "10.0.0.0", "end")), *words[at + 1:]])))
    else:
        at = rng.choice(cuts)
        _, side, number = nodes[at].split(" ")
        side = SIDES.index(side)
        number = model.address(number) if side in (1, 2) else int(number)
        if way == "side":
            side = rng.randrange(5)
        nodes[at] = cut_line(side, max(0, min(model.LAST[1], number + rng.choice((-1, 1, 1, 256)))))
    return nodes


def other_texts(rng, query, head, nodes):
    """Trees of the same box, true ones and such as may not be."""
    own = Any(rng, query)
    for _ in range(2):
        told = own.nodes()
        yield tree_text(head, told)
        yield tree_text(head, damaged(rng, told))
    for _ in range(3):
        yield tree_text(head, damaged(rng, nodes))
    lines = tree_text(head, nodes).split("\n")
    at = rng.randrange(3)
    lines[at] = rng.choice((lines[at] + " ", lines[at].replace("-", "--", 1), lines[at].replace("2", "3"), "", lines[(at + 1) % 3]))
    yield "\n".join(lines)
    yield tree_text(head, nodes).replace("\nend ", rng.choice(("\nend 1", "\nleaf request GroupsIn eni-0-0-0 -\nend ", "\nend 0\nend ")))


# ---- cases

class Asked:
    """The program, over files in a folder."""

    def __init__(self, program, folder):
        self.program, self.path, self.second = program, os.path.join(folder, "network.json"), os.path.join(folder, "report.txt")

    def ran(self, *words):
        done = subprocess.run([self.program, *words], capture_output=True, check=False)
        return done.stdout.decode(), done.returncode

    def ask(self, words):
        return self.ran("ask", self.path, *words)

    def check(self, text):
        with open(self.second, "w", encoding="utf-8", newline="") as file:
            file.write(text)
        return self.ran("check", self.path, self.second)


def told_wrong(rng, query, text, listed):
    """What is wrong with a tree that `ask` printed, where the query has the rows of a list."""
    lines = text.split("\n")
    rows = leaves_of(query.box, lines[3:-2])
    if rows is None:
        yield "no tree"
        return
    if text != tree_text(lines[1:3], of_rows(query.box, rows)):
        yield "another tree than its leaves make"
    if joined(rows, [Q]) != rows:
        yield "leaves that could be one"
    if [f"row {number} {row.told} {model.told_box(row.box)}" for number, row in enumerate(joined(rows, [P, Q]), 1)] != listed.split("\n")[3:-2]:
        yield "leaves that make other rows than the list has"
    for row in rows:
        ends = [it for side, (low, high) in enumerate(row.box) for it in ((side, low), (side, high + 1))]
        if any(it not in (query.box[side][0], query.box[side][1] + 1) and it not in query.cuts[side] for side, it in ends):
            yield f"a leaf that is cut where nothing changes: {row}"
    few = query.count() <= FEW_CELLS
    for row in rows if few else rng.sample(rows, min(20, len(rows))):
        asked = query.corners(row.box) if few else [model.low_corner(row.box), model.Header(*(rng.choice(it) for it in row.box))]
        if any(query.verdict(query.cell(it)) != row.told for it in asked):
            yield f"a leaf that isn't true: {row}"


def run_case(rng, asked, network, words):
    """What was tried, as pairs of a name and whether it is as it has to be, or how it isn't."""
    most = rng.choice((20_001, 30_000, 100_000))
    listed, status = asked.ask(words)
    text, its_status = asked.ask([*words, "max", str(most)])
    if status != 1:
        # (what is cut short at 20,000 rows may be whole)
        if status != 5:
            yield f"ask {status}", (text, its_status) == (listed, status) or (words, text[:300], its_status)
        return
    query = query_of(network, listed.split("\n")[1:3])
    wrong = list(told_wrong(rng, query, text, listed))
    yield "ask 1", (its_status == 1 and not wrong) or (words, most, its_status, wrong[:3], text[:600])
    yield "check yes", asked.check(text) == ("yes\n", YES) or (words, text[:600])
    if query.count() > FEW_CELLS:
        return
    lines = text.split("\n")
    for other in other_texts(rng, query, lines[1:3], lines[3:-2]):
        line, its_status = due(network, other)
        done = asked.check(other)
        yield f"check {' '.join(line.split(' ')[:2])}", done == (f"{line}\n", its_status) or (done, line, other[:900])


def drawn_words(rng, text):
    words = [it.decode() for it in networks.Ends(text).query(rng)]
    return words[:-2] if "max" in words else words


def run(program, seed, cases):
    passed = failed = 0
    seen = {}
    with tempfile.TemporaryDirectory() as folder:
        asked = Asked(program, folder)
        for case in range(cases):
            rng = random.Random(seed * 1_000_003 + case)
            text = networks.network(rng)
            with open(asked.path, "wb") as file:
                file.write(text)
            network = model.Network(json.loads(text))
            for _ in range(3):
                for name, is_right in run_case(rng, asked, network, drawn_words(rng, text)):
                    seen[name] = seen.get(name, 0) + 1
                    passed, failed = passed + (is_right is True), failed + (is_right is not True)
                    if is_right is not True:
                        print(f"case {case}, {name}:", *is_right, sep="\n", flush=True)
    print(*(f"{name} {count}" for name, count in sorted(seen.items())), sep=", ")
    print(f"{passed} passed, {failed} failed")
    return 1 if failed else 0


def main():
    words = argparse.ArgumentParser(description=__doc__.splitlines()[0])
    words.add_argument("program", nargs="?")
    words.add_argument("--seed", type=int, default=1)
    words.add_argument("--cases", type=int, default=60)
    words.add_argument("--tell", nargs=2, metavar=("FILE", "REPORT"))
    words = words.parse_args()
    if words.tell:
        with open(words.tell[0], "rb") as file, open(words.tell[1], encoding="utf-8", newline="") as report:
            line, status = due(model.Network(json.load(file)), report.read())
        print(line)
        return status
    if not words.program:
        sys.exit(__doc__)
    return run(words.program, words.seed, words.cases)


if __name__ == "__main__":
    sys.exit(main())
