#!/usr/bin/env python3
"""Counts the instructions of long answers by valgrind, so that two programs can be compared on a busy machine.

Usage: python3 bench/instructions.py [PROGRAM [OTHER]]     (default: the program that ./vpc builds)

The networks are those of ask.py, the reports those that PROGRAM prints about them, the events those of replay.py. 'Reading' is a query of the same
file that has a few parts, or the events with a bad line put first. With OTHER its counts stand beside, and the ratio of those of PROGRAM to them.
"""

import os
import re
import subprocess
import sys

from ask import BETWEEN, odd_ports, ranges_and_sources, rules_and_rows
from measuring import OUT, TOP, program, written
from replay import collides, fills

BEHIND = os.path.join(TOP, "bench", "behind-nat.json")
FEW = "proto 50 dst 203.0.113.1/32"
SOURCES = f"{BETWEEN} src 198.51.0.0/16"


def counted(tool, words):
    """The instructions of a run, in millions."""
    told = ["valgrind", "--tool=callgrind", "--callgrind-out-file=/dev/null", tool, *words]
    ran = subprocess.run(told, stdout=subprocess.DEVNULL, stderr=subprocess.PIPE, check=False)
    found = re.search(rb"Collected : (\d+)", ran.stderr)
    if not found:
        sys.exit(f"valgrind counts nothing of {' '.join(words)}")
    return int(found[1]) / 1e6


def told(name, lines):
    path = os.path.join(OUT, name)
    with open(path, "w", encoding="utf-8") as file:
        file.write(lines if isinstance(lines, str) else "\n".join(lines) + "\n")
    return path


def asked(name, make, count, query):
    """A query, and its report where it has one, as words; and the words that only read the bundle."""
    path = written(f"instructions-{make.__name__}.json", make, count)
    words = ["ask", path, *query.split()]
    yield f"`ask`, {name}", words, ["ask", path, *BETWEEN.split(), *FEW.split()]
    printed = subprocess.run([program(), *words], stdout=subprocess.PIPE, check=False).stdout.decode()
    if printed.startswith("vpc-report 1"):
        report = told(f"instructions-{make.__name__}.txt", printed)
        yield f"`check`, {name}", ["check", path, report], ["check", path, told("instructions-bad.txt", "vpc-report 3\n")]


def replayed(name, make):
    lines = make(55_000)
    whole, bad = told(f"instructions-{make.__name__}.txt", lines), told("instructions-bad.txt", ["bad", *lines])
    yield f"`replay`, {name}", ["replay", BEHIND, whole], ["replay", BEHIND, bad]


def cases():
    yield from asked("rules for odd ports, even ones asked: 20,000 rows", odd_ports, 9_999, BETWEEN)
    yield from asked("rules crossed by ACL rows: 70 by 70", rules_and_rows, 70, SOURCES)
    yield from asked("port ranges by sources: 300 by 300", ranges_and_sources, 300, SOURCES)
    yield from replayed("one host fills a gateway: 55,003", fills)
    yield from replayed("two hosts on the same ports: 55,000", collides)


def main():
    tools = [program(), *sys.argv[2:3]]
    os.makedirs(OUT, exist_ok=True)
    print(f"| answer | {' | '.join('millions | of that reading' for _ in tools)} |{' ratio |' if len(tools) > 1 else ''}")
    print(f"|---|{'---:|---:|' * len(tools)}{'---:|' if len(tools) > 1 else ''}")
    for name, words, reading in cases():
        found = [(counted(tool, words), counted(tool, reading)) for tool in tools]
        ratio = f" {found[0][0] / found[1][0]:.2f} |" if len(tools) > 1 else ""
        print(f"| {name} | {' | '.join(f'{whole:,.0f} | {less:,.0f}' for whole, less in found)} |{ratio}", flush=True)


if __name__ == "__main__":
    main()
