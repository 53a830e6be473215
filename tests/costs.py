#!/usr/bin/env python3
"""Costs that no proof speaks of, as ratios: tests/costs.py [PROGRAM]

Each case is a job in two sizes, of which one is four times the other, and a bound for the ratio of the processor times that PROGRAM
(without it out/vpc) takes for them. What a job takes is the difference to a run that reads the same bundle and has nothing to do. Of
a report that is checked it is the whole run: beyond reading, a check takes so little that the difference would be chance.
Where each step finds its rows by a search, four times as many steps take some four times as long, and as many steps among four times
as many rows no longer; where each step looks at every row, they take 16 times and four times as long. The bounds lie between, so that
a machine with other work passes. Answers may be right and proved all the same: nothing else tells of such a program.

A time is the least of three runs, or of nine where the ratio is over its bound.
"""

import json
import os
import subprocess
import sys
import tempfile

TOP = os.path.dirname(os.path.dirname(os.path.abspath(__file__)))
sys.path.insert(0, os.path.join(TOP, "bench"))

from ask import odd_ports, ranges_and_sources, subnets, tcp  # noqa: E402 # (it stands in bench)

BEHIND = os.path.join(TOP, "bench", "behind-nat.json")
BETWEEN = "from eni-a to eni-b"
FEW, MOST_RUNS = 3, 9


# ---- files

def written(name, text):
    with open(name, "w", encoding="utf-8") as file:
        file.write(text)
    return name


def bundle(name, value):
    return written(name, json.dumps(value))


def opens(host, address, to, ports, port=443):
    return [f"open from {host} tcp {address} {to} {k} {port}" for k in ports]


def events(name, lines):
    return written(name, "".join(f"{line}\n" for line in lines))


# ---- jobs: the words that do one, its status, and the words that only read its bundle, where that isn't part of the job

def idle(path):
    return f"trace {path} open from eni-a tcp 10.0.1.10 10.0.2.20 65000 65000".split()


def connections(count):
    """Connections within a VPC, and then their answers."""
    ports = range(1024, 1024 + count)
    back = [f"answer from eni-b tcp 10.0.2.20 10.0.1.10 443 {k}" for k in ports]
    return ["replay", BEHIND, events("e.txt", [*opens("eni-a", "10.0.1.10", "10.0.2.20", ports), *back])], 0, idle(BEHIND)


def translations(count):
    """Two hosts that send from the same ports to one server: each port of the second one is taken."""
    ports = range(1024, 1024 + count // 2)
    lines = [*opens("eni-a", "10.0.1.10", "198.51.100.7", ports), *opens("eni-b", "10.0.2.20", "198.51.100.7", ports)]
    return ["replay", BEHIND, events("e.txt", lines)], 0, idle(BEHIND)


def rules_that_end_before(count):
    """Packets to a port above all rules of their target, each for a port of its own."""
    path = bundle("n.json", subnets([tcp(6 * k, 6 * k) for k in range(count)]))
    lines = opens("eni-a", "10.0.1.10", "10.0.2.20", range(1024, 21_024), 65_000)
    return ["replay", path, events("e.txt", lines)], 0, idle(path)


def ports_asked(count):
    """A report with a row for each port: half of them leave one host, and the other half may come to the other."""
    path = bundle("n.json", odd_ports(count))
    return ["ask", path, *BETWEEN.split()], 1, idle(path)


def rows_checked(count):
    """That report, checked."""
    words = ports_asked(count)[0]
    printed = subprocess.run([PROGRAM, *words], stdout=subprocess.PIPE, check=False).stdout.decode()
    return ["check", words[1], written("r.txt", printed)], 0, None


def leaves_asked(count):
    """A tree with some two leaves for each port range of a source."""
    path = bundle("n.json", ranges_and_sources(round(count ** 0.5)))
    return ["ask", path, *f"{BETWEEN} src 198.51.0.0/16 max 100000".split()], 1, idle(path)


def leaves_checked(count):
    """That tree, checked."""
    words = leaves_asked(count)[0]
    printed = subprocess.run([PROGRAM, *words], stdout=subprocess.PIPE, check=False).stdout.decode()
    return ["check", words[1], written("r.txt", printed)], 0, None


CASES = [
    ("connections and their answers", connections, 12_500, 8),
    ("hosts on the same ports", translations, 13_750, 8),
    ("20,000 packets, and rules for other ports", rules_that_end_before, 2_500, 2),
    ("rules for a port each, asked", ports_asked, 2_499, 8),
    ("rows of a report, checked", rows_checked, 2_499, 8),
    ("leaves of a tree, asked", leaves_asked, 12_100, 8),
    ("leaves of a tree, checked", leaves_checked, 12_100, 8),
]


# ---- times

def took(words, status):
    """The processor time of a run that ends with this status."""
    nothing = [(os.POSIX_SPAWN_OPEN, n, os.devnull, os.O_RDWR, 0) for n in (0, 1, 2)]
    child = os.posix_spawn(PROGRAM, [PROGRAM, *words], os.environ, file_actions=nothing)
    _, ended, used = os.wait4(child, 0)
    if os.waitstatus_to_exitcode(ended) != status:
        sys.exit(f"costs.py: status {os.waitstatus_to_exitcode(ended)} of {' '.join(words)}")
    return used.ru_utime + used.ru_stime


def cost(job, count, runs):
    words, status, less = job(count)
    reading = min(took(less, 1) for _ in range(runs)) if less else 0
    return min(took(words, status) for _ in range(runs)) - reading


def ratio(job, count, runs):
    return cost(job, 4 * count, runs) / max(cost(job, count, runs), 1e-4)


def main():
    passed, failed = 0, 0
    with tempfile.TemporaryDirectory() as folder:
        os.chdir(folder)
        for name, job, count, bound in CASES:
            found = ratio(job, count, FEW)
            if found > bound:
                found = min(found, ratio(job, count, MOST_RUNS))
            passed, failed = (passed + 1, failed) if found <= bound else (passed, failed + 1)
            print(f"{'' if found <= bound else 'FAILED: '}{name}, {4 * count:,} beside {count:,}: {found:.1f} times, {bound} at most")
    print(f"{passed} passed, {failed} failed")
    return 1 if failed else 0


if __name__ == "__main__":
    PROGRAM = os.path.abspath(sys.argv[1] if len(sys.argv) > 1 else os.path.join(TOP, "out", "vpc"))
    sys.exit(main())
