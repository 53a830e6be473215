#!/usr/bin/env python3
"""What `unused` tells, judged by an independent model: tests/unused_model.py PROGRAM [--seed S] [--cases N] [--most M] [FILE WORD ..]

A case is a network made at random (networks.py) and words of `unused` about it; or FILE with the words after it. Each line must name its
rule in the order of the bundle's groups and then its ACLs. By model.py, which was written from docs/WALK.md: a rule is needed by the first
header of the query whose verdict is another value in the network without it, and unused where there is none. A rule that is taken out takes
only cuts away, so all headers of a cell of the network's cuts have one verdict with it and one without it: a needed header is the low corner
of its cell. All cells before it, of an unused rule all, are asked where they are M at most; else M that are drawn, mostly such as the rule
speaks of. The last line is 'N passed, M failed'.

    tests/unused_model.py --tell FILE WORD ..   the answer as the model makes it of all cells
    tests/unused_model.py --itself              whether true texts of the model are taken, and damaged ones are not
"""

import argparse
import itertools
import json
import os
import random
import re
import subprocess
import sys
import tempfile

import model
import networks
from answers import HEADER, NUMBER
from rows_model import Question, Refused, read_header, refuse

MOST_RULES = 2000
LINE = re.compile(rf"rule (?P<name>[!-~]+ (?:in|out) [!-~]+) (?:unused|needed (?P<header>{HEADER}))")


class Query(Question):
    """Words of `ask` but for `max`."""

    pairs = ("from", "to", "proto", "src", "dst", "sport", "port")

    def read(self, number, name, value):
        if (number == 3) != (name == "from") or (number == 5) != (name == "to"):
            refuse(f"BadWord {number}")
        super().read(number, name, value)

    def settle_starts(self):
        (self.network,) = self.networks
        self.settle_ports(model.TCP)
        row, other = (self.network.interfaces.get(it) for it in (self.start, self.goal))
        for it, name in ((row, "src"), (other if row else None, "dst")):
            if it and name not in self.told and it.primary is None:
                refuse(f"NoAddress {it.id}")
        every = (0, model.LAST[1])
        src = self.told.get("src") or ((row.primary,) * 2 if row else every)
        dst = self.told.get("dst") or ((other.primary,) * 2 if row and other else every)
        self.box = (self.proto, src, dst, self.p, self.q)
        if len(model.rules(self.network)) > MOST_RULES:
            refuse("TooManyRules", "unused")

    def value(self, network, header):
        return model.verdict(network, self.start, self.goal, header).value()


def asked(path, words):
    """The query of a file and words, or the line that refuses it with its status."""
    if len(words) % 2 or not 4 <= len(words) <= 14:
        return f"refused words {min(max(len(words) + 3, 3), 17)}", 2
    with open(path, encoding="utf-8") as file:
        network = model.Network(json.load(file))
    try:
        return Query([network], words), None
    except Refused as it:
        return it.line, it.status


class Judge:
    """An answer about a query, and what is wrong with it."""

    def __init__(self, query, rng, most):
        self.query, self.rng, self.most, self.with_it, self.faults, self.asked = query, rng, most, {}, [], 0
        self.sides = [model.pieces(side_cuts, *side) for side_cuts, side in zip(model.cuts(query.network), query.box)]
        self.size = 1
        for side in self.sides:
            self.size *= len(side)

    def judge(self, told, status):
        lines, rules = told.split("\n"), model.rules(self.query.network)
        if status != 0 or lines[0] != f"rules {len(rules)}" or lines[-1] != "" or len(lines) != len(rules) + 2:
            return [f"status {status}, {lines[0]!r}, {len(lines) - 2} lines for {len(rules)} rules"]
        for line, (name, where) in zip(lines[1:], rules):
            match = LINE.fullmatch(line)
            if not match or match["name"] != name:
                self.faults.append(f"{line!r} in the place of {name}")
            else:
                self.rule(name, where, read_header(match["header"]) if match["header"] else None)
        return self.faults

    def differs(self, other, header):
        self.asked += 1
        if header not in self.with_it:
            self.with_it[header] = self.query.value(self.query.network, header)
        return self.with_it[header] != self.query.value(other, header)

    def rule(self, name, where, needed):
        other = model.without(self.query.network, where)
        if needed:
            if not all(low <= it <= high for it, (low, high) in zip(needed, self.query.box)):
                self.faults.append(f"{name}: {needed} is not asked for")
            elif not self.differs(other, needed):
                self.faults.append(f"{name}: {needed} has one verdict")
        for header in self.headers(where):
            if (needed is None or header < needed) and self.differs(other, header):
                self.faults.append(f"{name}: {header} has two verdicts")
                return

    def headers(self, where):
        """Headers that might need the rule."""
        if self.size <= self.most:
            return (model.Header(*(low for low, _ in cell)) for cell in itertools.product(*self.sides))
        return (self.drawn(getattr(self.query.network, where[0])[where[1]][where[2]][where[3]]) for _ in range(self.most))

    def drawn(self, row):
        cell = [self.rng.choice(side) for side in self.sides]
        if self.rng.random() < 0.8:
            spoken = [[it for it in side if first <= it[0] <= last] for side, (first, last) in ((self.sides[0], (row.proto or 0, 255 if row.proto is None else row.proto)), (self.sides[4], row.ports))]
            cell[0], cell[4] = self.rng.choice(spoken[0] or self.sides[0]), self.rng.choice(spoken[1] or self.sides[4])
            if self.rng.random() < 0.5:
                cell[3] = self.rng.choice([it for it in self.sides[3] if row.ports[0] <= it[0] <= row.ports[1]] or self.sides[3])
        return model.Header(*(low if self.rng.random() < 0.8 else self.rng.randint(low, high) for low, high in cell))


def telling(query):
    """The answer of all cells."""
    judge, rules = Judge(query, random.Random(0), 10**9), model.rules(query.network)
    lines = [f"rules {len(rules)}"]
    for name, where in rules:
        other = model.without(query.network, where)
        needed = next((it for it in judge.headers(where) if judge.differs(other, it)), None)
        lines.append(f"rule {name} needed {needed}" if needed else f"rule {name} unused")
    return lines


# ---- cases

def drawn_words(rng, text):
    """Words about the network of a text; seldom some that are refused."""
    words = [it.decode() for it in networks.Ends(text).query(rng)]
    words = words[:-2] if "max" in words and rng.random() < 0.95 else words
    return words if rng.random() < 0.97 else rng.choice([[*words, "port"], words[2:], [*words[:2], *words], [*words, "to", "internet"]])


def judged(path, words, told, status, rng, most):
    """What is wrong with an answer, and how many headers were asked."""
    query, refused = asked(path, words)
    if refused:
        return ([] if (told, status) == (query + "\n", refused) else [f"status {status}, {told[:200]!r} in place of {query}"]), 0
    judge = Judge(query, rng, most)
    return judge.judge(told, status), judge.asked


def damaged(rng, lines, query):
    """A text that isn't true any more, and what was done to it."""
    k = rng.randrange(1, len(lines))
    name, needed = re.sub(r" (needed .*|unused)$", "", lines[k]), re.search(r" needed (.*)$", lines[k])
    lines = list(lines)
    if not needed:
        lines[k] = f"{name} needed {model.low_corner(query.box)}"
        return "needed", lines
    header, how = read_header(needed[1]), rng.choice(("unused", "later", "lost"))
    if how == "lost":
        return how, lines[:k] + lines[k + 1:]
    later = header._replace(q=header.q + 1) if header.q < query.box[4][1] else None
    lines[k] = f"{name} needed {later}" if how == "later" and later else f"{name} unused"
    return how, lines


def itself(seed, cases):
    """Whether true texts of small queries are taken, and damaged ones are not."""
    rng, done, wrong = random.Random(seed), {}, 0
    with tempfile.TemporaryDirectory() as folder:
        path = os.path.join(folder, "network.json")
        for _ in range(cases):
            text = networks.network(rng)
            with open(path, "wb") as file:
                file.write(text)
            words = drawn_words(rng, text)
            query, refused = asked(path, words)
            if refused or Judge(query, rng, 0).size > 600 or not model.rules(query.network):
                continue
            lines = telling(query)
            for how, tried in [("true", lines), *(damaged(rng, lines, query) for _ in range(3))]:
                done[how] = done.get(how, 0) + 1
                faults, _ = judged(path, words, "\n".join(tried) + "\n", 0, rng, 600)
                if bool(faults) == (how == "true"):
                    wrong += 1
                    print(f"{' '.join(words)}: {how}", *(faults or tried)[:9], sep="\n")
    print(*(f"{how} {count}" for how, count in sorted(done.items())), sep=", ")
    print(f"{sum(done.values()) - wrong} passed, {wrong} failed")
    return 1 if wrong else 0


def answer(program, path, words):
    done = subprocess.run([program, "unused", path, *words], capture_output=True, check=False)
    return done.stdout.decode(), done.returncode


def run(words):
    passed = failed = headers = 0
    with tempfile.TemporaryDirectory() as folder:
        path = os.path.join(folder, "network.json")
        for case in range(words.cases):
            rng = random.Random(words.seed * 1_000_003 + case)
            text = networks.network(rng)
            with open(path, "wb") as file:
                file.write(text)
            about = drawn_words(rng, text)
            faults, number = judged(path, about, *answer(words.program, path, about), rng, words.most)
            headers += number
            passed, failed = passed + (not faults), failed + bool(faults)
            for it in faults[:3]:
                print(f"case {case} unused network.json {' '.join(about)}: {it}", flush=True)
    print(f"{headers} headers asked")
    print(f"{passed} passed, {failed} failed")
    return 1 if failed else 0


def main():
    words = argparse.ArgumentParser(description=__doc__.splitlines()[0])
    words.add_argument("program", nargs="?")
    words.add_argument("--seed", type=int, default=1)
    words.add_argument("--cases", type=int, default=200)
    words.add_argument("--most", type=int, default=500)
    words.add_argument("--itself", action="store_true")
    words.add_argument("--tell", action="store_true")
    words.add_argument("about", nargs="*")
    words = words.parse_intermixed_args()
    if words.itself:
        return itself(words.seed, words.cases)
    if words.tell:
        query, refused = asked(words.program, words.about)
        print(*([query] if refused else telling(query)), sep="\n")
        return refused or 0
    if not words.about:
        return run(words)
    faults, _ = judged(words.about[0], words.about[1:], *answer(words.program, words.about[0], words.about[1:]), random.Random(words.seed), words.most)
    for it in faults:
        print(it)
    print(f"{int(not faults)} passed, {int(bool(faults))} failed")
    return 1 if faults else 0


if __name__ == "__main__":
    sys.exit(main())
