"""What `expect` tells of policies about networks made at random, byte for byte as the model makes it of all cells (model.py).

    python3 tests/expect_model.py PROGRAM [--seed S] [--cases N]
    python3 tests/expect_model.py --tell FILE RULES     what is due, where no rule asks about more than FEW cells

A rule of the random policies asks about few cells: what the model tells of each one's low corner is what becomes of all of its packets.
"""

import argparse
import itertools
import json
import math
import os
import random
import subprocess
import sys
import tempfile

import model
import networks

FEW = 3000
PAIRS = ("proto", "src", "dst", "sport", "port")
WORDS = ("reachable", "blocked", "open")


class Rule:
    """A line with its number, from 1: what it wants, its ends, and the box that it asks about."""

    def __init__(self, network, number, line):
        self.network, self.number = network, number
        self.wanted, _, start, _, goal, *words = line.split(" ")
        self.start, self.goal = (model.INTERNET if it == "internet" else it for it in (start, goal))
        told = dict(zip(words[::2], words[1::2]))
        proto = told.get("proto", "tcp")
        proto = model.NUMBERS[proto] if proto in model.NUMBERS else int(proto)
        p, q = (self.ports(proto, told.get(it)) for it in ("sport", "port"))
        self.box = ((proto, proto), self.addresses(told.get("src"), self.start), self.addresses(told.get("dst"), self.goal, self.start not in network.interfaces), p, q)

    def addresses(self, prefix, end, every=False):
        """A prefix, or the addresses that are meant at an end where none is told."""
        if prefix:
            told = model.block(prefix)
            return told.first, told.last
        if every or end not in self.network.interfaces:
            return 0, model.LAST[1]
        return (self.network.interfaces[end].primary,) * 2

    @staticmethod
    def ports(proto, told):
        if told:
            return tuple(map(int, told.split("-")))
        return (0, 65535) if proto in (model.ICMP, model.TCP, model.UDP) else (0, 0)

    def cells(self, cuts):
        return math.prod(len(model.pieces(side, low, high)) for side, (low, high) in zip(cuts, self.box))

    def found(self, cuts):
        """Whether the rule holds, fails or isn't known, with its line unless it holds."""
        first = {}
        for cell in model.cells(cuts, self.box):
            header = model.low_corner(cell)
            answer = model.verdict(self.network, self.start, self.goal, header)
            fate = "through" if not answer.stop else "unknown" if str(answer.stop).startswith("Unmodelled ") else "stopped"
            first.setdefault(fate, f"{answer} {header}" if answer.stop else f"reachable {header}")
        if self.wanted == "open":
            failure = first.get("stopped")
        elif self.wanted == "blocked":
            failure = first.get("through")
        else:
            failure = None if first.keys() & {"through", "unknown"} else "blocked"
        is_known = "unknown" not in first or (self.wanted == "reachable" and "through" in first)
        if failure:
            return "fail", f"line {self.number} {failure}"
        return ("ok", None) if is_known else ("unknown", f"line {self.number} unknown {first['unknown']}")


def due(network, text):
    """The text and the status that are due to a policy."""
    cuts, found = model.cuts(network), []
    for number, line in enumerate(text.split("\n"), 1):
        if line and not line.startswith("#"):
            found.append(Rule(network, number, line).found(cuts))
    counts = [sum(1 for kind, _ in found if kind == it) for it in ("ok", "fail", "unknown")]
    lines = [line for _, line in found if line] + ["ok {} fail {} unknown {}".format(*counts)]
    return "".join(f"{it}\n" for it in lines), 1 if counts[1] else 9 if counts[2] else 0


def drawn_rule(rng, network, text):
    """The words of a rule, whose ends have addresses where they are interfaces."""
    hosts = [name for name, row in network.interfaces.items() if not row.gateway and row.primary is not None]
    start, goal = (model.INTERNET if rng.random() < 0.35 else rng.choice(hosts) for _ in range(2))
    if start is goal is model.INTERNET:
        goal = rng.choice(hosts)
    fars = [row for name, row in network.fars.items() if network.is_far_end(row) and name not in network.interfaces]
    if fars:
        # (some about far ends)
        start, goal = rng.choice(([start, goal], [rng.choice([it.id for it in fars if model.may_start(it)] or [start]), rng.choice(hosts)], [start, rng.choice(fars).id]))
    addresses = networks.Ends(text).addresses
    words = [rng.choice(WORDS), "from", model.name_of(start), "to", model.name_of(goal)]
    if rng.random() < 0.3:
        words += ["proto", rng.choice(("tcp", "udp", "icmp", "50"))]
    for name, end in (("src", start), ("dst", goal)):
        if rng.random() < (0.95 if {start, end} - network.interfaces.keys() else 0.2):
            words += [name, f"{rng.choice((rng.choice(addresses).decode(), '198.51.100.7', '172.16.3.9'))}/{rng.choice((0, 8, 16, 24, 31, 32, 32))}"]
    for name in ("sport", "port"):
        if "50" not in words and rng.random() < 0.6:
            words += [name, "%d-%d" % tuple(networks.ports(rng))]
    return " ".join(words)


def policy(rng, network, text, count):
    """So many rules of few cells each, with lines between them that are passed over."""
    cuts, lines = model.cuts(network), []
    for _ in range(20 * count):
        line = drawn_rule(rng, network, text)
        if Rule(network, 0, line).cells(cuts) <= FEW:
            lines += [line, *rng.choice(([], [], [], [""], ["# a comment"]))]
        if len(lines) >= count:
            break
    return "".join(f"{it}\n" for it in lines)


def run(program, seed, cases):
    passed, failed, kinds = 0, 0, {}
    with tempfile.TemporaryDirectory() as folder:
        paths = [os.path.join(folder, it) for it in ("network.json", "policy.rules")]
        for case in range(cases):
            rng = random.Random(seed * 1_000_003 + case)
            text = networks.network(rng)
            network = model.Network(json.loads(text))
            if not any(not row.gateway and row.primary is not None for row in network.interfaces.values()):
                continue
            rules = policy(rng, network, text, rng.choice((1, 1, 2, 8)))
            with open(paths[0], "wb") as file:
                file.write(text)
            with open(paths[1], "w", encoding="utf-8") as file:
                file.write(rules)
            done = subprocess.run([program, "expect", *paths], capture_output=True, check=False)
            if done.returncode == 3:
                continue
            wanted = due(network, rules)
            kinds[wanted[1]] = kinds.get(wanted[1], 0) + 1
            told = (done.stdout.decode(), done.returncode)
            passed, failed = passed + (told == wanted), failed + (told != wanted)
            if told != wanted:
                print(f"case {case}:", rules, *told, "in place of", *wanted, sep="\n", flush=True)
    print(*(f"status {status}: {count}" for status, count in sorted(kinds.items())), sep=", ")
    print(f"{passed} passed, {failed} failed")
    return 1 if failed else 0


def main():
    words = argparse.ArgumentParser(description=__doc__.splitlines()[0])
    words.add_argument("about", nargs="+")
    words.add_argument("--seed", type=int, default=1)
    words.add_argument("--cases", type=int, default=100)
    words.add_argument("--tell", action="store_true")
    words = words.parse_args()
    if not words.tell:
        return run(words.about[0], words.seed, words.cases)
    with open(words.about[0], encoding="utf-8") as bundle, open(words.about[1], encoding="utf-8") as rules:
        text, status = due(model.Network(json.load(bundle)), rules.read())
    print(text, end="")
    return status


if __name__ == "__main__":
    sys.exit(main())
