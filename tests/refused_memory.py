#!/usr/bin/env python3
"""Each allocation refused in turn: tests/refused_memory.py [PROGRAM] [--every N]

One command line of each kind is run again and again, by PROGRAM (without it out/vpc): first with ample memory, then with its
first allocation refused, its second, and so on to its last; and once more with all from that one on refused. Each run is to
end with the answer that ample memory gives, or with status 8 and `want of memory`. Nothing may stand on standard error. Prints
a table. With --every N only the first allocation is refused so, and each Nth after it.

`malloc` and `realloc` are the only calls by which the program gets memory. A library of a few lines that counts and refuses
them is compiled by `cc` and loaded before the C library, so PROGRAM must be linked to that at its start, as out/vpc is.
"""

import argparse
import json
import os
import random
import subprocess
import sys
import tempfile

import networks

TOP = os.path.dirname(os.path.dirname(os.path.abspath(__file__)))
WANT = (8, b"want of memory\n")
EVER = 2**62

LIBRARY = r"""
#include <errno.h>
#include <stdio.h>
#include <stdlib.h>

void *__libc_malloc(size_t);
void *__libc_realloc(void *, size_t);

static long long count, first, last;

__attribute__((constructor)) static void begin(void) {
    const char *from = getenv("REFUSED_FROM"), *to = getenv("REFUSED_TO");
    first = from ? atoll(from) : 0;
    last = to ? atoll(to) : 0;
    count = 0;
}

static int is_refused(void) {
    count++;
    if (count < first || last < count)
        return 0;
    errno = ENOMEM;
    return 1;
}

void *malloc(size_t size) { return is_refused() ? NULL : __libc_malloc(size); }

void *realloc(void *old, size_t size) { return is_refused() ? NULL : __libc_realloc(old, size); }

__attribute__((destructor)) static void end(void) { dprintf(3, "%lld", count); }
"""

HOSTS = "from eni-a to eni-b"
EVENTS = """\
open from eni-a tcp 10.0.1.10 198.51.100.7 5000 443
open from eni-b tcp 10.0.2.20 198.51.100.7 5000 443
answer from internet tcp 198.51.100.7 203.0.113.5 443 5001
answer from internet tcp 198.51.100.7 203.0.113.5 443 5000
answer from internet tcp 198.51.100.7 203.0.113.5 443 5002
open from eni-a tcp 10.0.1.10 10.0.2.20 5000 443
answer from eni-b tcp 10.0.2.20 10.0.1.10 443 5000
"""
REPORT = """\
vpc-report 1
query from eni-a to eni-b
box 6-6 10.0.1.10-10.0.1.10 10.0.2.20-10.0.2.20 0-65535 80-90
row 1 request GroupsIn eni-b - 6-6 10.0.1.10-10.0.1.10 10.0.2.20-10.0.2.20 0-65535 84-90
row 2 request GroupsIn eni-b - 6-6 10.0.1.10-10.0.1.10 10.0.2.20-10.0.2.20 0-65535 80-83
end 2
"""
ROWS = [
    ("trace", "trace behind.json open from eni-a tcp 10.0.1.10 198.51.100.7 5000 443", 0),
    ("trace, every kind of row", "trace every.json open from eni-0-0-0 tcp 10.0.0.4 10.1.0.4 5000 443", None),
    ("ask, reachable", f"ask behind.json {HOSTS}", 0),
    ("ask, a report", f"ask behind.json {HOSTS} src 10.0.0.0/16 port 80-442", 1),
    ("ask, cut short", f"ask behind.json {HOSTS} src 10.0.0.0/16 port 80-90 max 1", 5),
    ("check, yes", "check behind.json report.txt", 0),
    ("check, no", "check behind.json untrue.txt", 1),
    ("replay, with a NAT gateway", "replay behind.json events.txt", 0),
    ("make 3", "make 3", 0),
    ("a description refused", "trace broken.json open from eni-a tcp 10.0.1.10 10.0.2.20 5000 443", 3),
    ("a query refused", "ask behind.json from eni-n to eni-b", 4),
    ("events refused", "replay behind.json report.txt", 4),
    ("a report refused", "check behind.json cut.txt", 4),
]


def every():
    """A small network with each kind of row: the first that the source of random numbers makes."""
    number = 0
    while True:
        text = networks.network(random.Random(number))
        whole = json.loads(text)
        if set(networks.LISTS) <= set(whole) and len(whole["Vpcs"]) > 1:
            return text
        number += 1


def files():
    with open(os.path.join(TOP, "bench", "behind-nat.json"), "rb") as file:
        behind = file.read()
    texts = {
        "behind.json": behind, "every.json": every(), "broken.json": behind.replace(b"203.0.113.5", b"203.0.113.256"), "events.txt": EVENTS.encode(), "report.txt": REPORT.encode(),
        "untrue.txt": REPORT.replace("84-90", "84-89").encode(), "cut.txt": REPORT[:-6].encode(),
    }
    for name, text in texts.items():
        with open(name, "wb") as file:
            file.write(text)


def ran(words, first, last):
    """The ending and the standard error of a run, and how many allocations it asked for (0 where it was killed)."""
    opened = [(os.POSIX_SPAWN_OPEN, n, name, os.O_WRONLY | os.O_CREAT | os.O_TRUNC, 0o600) for n, name in ((1, "out"), (2, "err"), (3, "count"))]
    told = {"LD_PRELOAD": os.path.abspath("refuse.so"), "REFUSED_FROM": str(first), "REFUSED_TO": str(last)}
    child = os.posix_spawn(PROGRAM, [PROGRAM, *words], told, file_actions=opened)
    status = os.waitstatus_to_exitcode(os.waitpid(child, 0)[1])
    texts = []
    for name in ("out", "err", "count"):
        with open(name, "rb") as file:
            texts.append(file.read())
    return (status, texts[0]), texts[1], int(texts[2] or 0)


def swept(words, due, count, ever):
    """What came of refusing each allocation in turn, and what is wrong."""
    came, wrong = [], []
    for number in range(1, count + 1, EVERY):
        ending, errors, _ = ran(words, number, EVER if ever else number)
        came.append(ending)
        if errors or ending not in (due, WANT):
            wrong.append(f"allocation {number}{' and all later ones' if ever else ''} refused: status {ending[0]}, {ending[1][:60]!r}, {errors[:60]!r}")
    return came, wrong


def row(name, line, status):
    words = line.split()
    due, errors, count = ran(words, 0, 0)
    if errors or not count or status not in (None, due[0]):
        return [f"{name}: status {due[0]} with ample memory, {count} allocations"]
    alone, wrong = swept(words, due, count, False)
    ever, others = swept(words, due, count, True)
    print(f"| {name} | {count:,} | {alone.count(WANT):,} | {alone.count(due)} | {ever.count(due)} |", flush=True)
    return [f"{name}: {why}" for why in (*wrong, *others)]


def main():
    with tempfile.TemporaryDirectory() as folder:
        os.chdir(folder)
        files()
        subprocess.run(["cc", "-O2", "-shared", "-fPIC", "-x", "c", "-", "-o", "refuse.so"], input=LIBRARY.encode(), check=True)
        print("| command | allocations | `want of memory` | the answer all the same | the same with all later ones |\n|---|---:|---:|---:|---:|")
        wrong = [why for case in ROWS for why in row(*case)]
    print("\n".join([*wrong, f"{len(ROWS) - len({why.split(':')[0] for why in wrong})} passed, {len({why.split(':')[0] for why in wrong})} failed"]))
    sys.exit(1 if wrong else 0)


if __name__ == "__main__":
    parser = argparse.ArgumentParser(description=__doc__.splitlines()[0])
    parser.add_argument("program", nargs="?", default=os.path.join(TOP, "out/vpc"))
    parser.add_argument("--every", type=int, default=1)
    told = parser.parse_args()
    PROGRAM, EVERY = os.path.abspath(told.program), told.every
    main()
