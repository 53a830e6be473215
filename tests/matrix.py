"""Compares `matrix` with `ask`, port by port, on networks that are made at random.

    python3 tests/matrix.py PROGRAM [--seed N] [--cases N] [--asks N] [FILE ..]

Of each network (networks.py, and each FILE) the pairs must be those of its hosts, in the order of their ids, and each line must
be `no-address` where one of the two has none. Of the others, some by chance where there are many: the first and the last port
of each range gets through to `ask`, the port before it and the port after it doesn't; a blocked pair has no port that gets
through; and the ranges of a part of the ports are those of all ports, cut off at its ends. A line for each answer that differs.
"""

import argparse
import glob
import json
import os
import random
import subprocess
import sys
import tempfile

import networks

TOP = os.path.dirname(os.path.dirname(os.path.abspath(__file__)))
LAST = 65535
MOST = 500


class Run:
    """A program, what it was asked, and what differed."""

    def __init__(self, program):
        self.program, self.asked, self.wrong, self.seen = program, 0, [], {"open": 0, "blocked": 0, "no-address": 0, "refused": 0}

    def answer(self, *words):
        self.asked += 1
        got = subprocess.run([self.program, *words], stdout=subprocess.PIPE, stderr=subprocess.PIPE, check=False)
        if got.stderr:
            self.note(words, "an error: " + got.stderr.decode()[:200])
        return got.returncode, got.stdout.decode()

    def note(self, words, what):
        self.wrong.append(f"{' '.join(words)}: {what}")
        print(self.wrong[-1], flush=True)

    def expect(self, words, codes):
        """That `ask` ends with one of these."""
        code, text = self.answer("ask", *words)
        if code not in codes:
            self.note(("ask", *words), f"status {code} in place of {sorted(codes)}: {text[:200]!r}")


def told(text):
    """The pairs of a matrix, each with its word and its ranges."""
    lines = text.split("\n")
    if lines[0] != "matrix" or lines[-1] != "":
        raise ValueError("no matrix")
    rows = []
    for line in lines[1:-1]:
        name, one, other, word, *ranges = line.split(" ")
        if name != "pair" or word not in ("open", "blocked", "no-address") or bool(ranges) != (word == "open"):
            raise ValueError(f"no pair: {line}")
        parted = [tuple(int(end) for end in it.split("-")) for it in ranges]
        if [f"{a}-{b}" for a, b in parted] != ranges:
            raise ValueError(f"no ranges: {line}")
        rows.append((one, other, word, parted))
    return rows


def is_host(row):
    kind = row.get("InterfaceType", "interface").lower().replace("_", "").replace("-", "")
    return kind not in ("natgateway", "transitgateway")


def hosts_of(whole):
    """The hosts of a bundle by the bytes of their ids, each with whether it has a primary address."""
    bundles = whole if isinstance(whole, list) else [whole]
    rows = [row for it in bundles for row in it.get("NetworkInterfaces") or []]
    kept = {row["NetworkInterfaceId"]: row.get("PrivateIpAddress") is not None for row in rows if is_host(row)}
    return sorted(kept.items(), key=lambda it: it[0].encode())


def are_apart(ranges):
    """Whether they ascend, and no two of them touch."""
    return all(a <= b <= LAST for a, b in ranges) and all(one[1] + 1 < two[0] for one, two in zip(ranges, ranges[1:]))


def within(ranges, first, last):
    return [(max(a, first), min(b, last)) for a, b in ranges if a <= last and first <= b]


def check_pair(run, path, row, rng):
    one, other, word, ranges = row
    words = [path, "from", one, "to", other]
    run.seen[word] += 1
    if word == "no-address":
        run.expect(words, {4})
    elif word == "blocked":
        run.expect(words, {1, 5})
        port = rng.randrange(LAST + 1)
        run.expect([*words, "port", f"{port}-{port}"], {1, 5})
    else:
        if not are_apart(ranges):
            run.note(words, f"ranges that touch: {ranges}")
        for a, b in rng.sample(ranges, min(4, len(ranges))):
            for port in {a, b, rng.randint(a, b)}:
                run.expect([*words, "port", f"{port}-{port}"], {0})
            for port in {a - 1, b + 1} & set(range(LAST + 1)):
                run.expect([*words, "port", f"{port}-{port}"], {1, 5})


def check_part(run, path, rows, rng):
    """The ranges of a part of the ports."""
    edges = sorted({0, LAST, *(end for _, _, _, ranges in rows for it in ranges for end in it)})
    ends = [min(LAST, max(0, rng.choice(edges) + rng.choice((-1, 0, 0, 1)))) for _ in range(2)]
    first, last = sorted(ends)
    words = ["matrix", path, "port", f"{first}-{last}"]
    code, text = run.answer(*words)
    if code != 0:
        run.note(words, f"status {code}")
        return
    for row, part in zip(rows, told(text)):
        clipped = within(row[3], first, last)
        if part[:2] != row[:2] or part[3] != clipped or (row[2] == "no-address") != (part[2] == "no-address"):
            run.note(words, f"{part} in place of {row[0]} {row[1]} {clipped}")


def check(run, path, rng, most):
    code, text = run.answer("matrix", path)
    if code == 3:
        run.seen["refused"] += 1
        return
    if code not in (0, 4):
        run.note(("matrix", path), f"status {code}: {text[:200]!r}")
        return
    with open(path, "rb") as file:
        hosts = hosts_of(json.load(file))
    if code == 4 or len(hosts) > MOST:
        if (code, text) != (4, "refused matrix TooManyInterfaces\n") or len(hosts) <= MOST:
            run.note(("matrix", path), f"status {code} for {len(hosts)} hosts")
        run.seen["refused"] += 1
        return
    rows = told(text)
    wanted = [(one, other, not (has and had)) for one, has in hosts for other, had in hosts if one != other]
    if [(one, other, word == "no-address") for one, other, word, _ in rows] != wanted:
        run.note(("matrix", path), "other pairs than those of its hosts")
        return
    for row in rng.sample(rows, min(most, len(rows))):
        if "internet" not in row[:2]:
            check_pair(run, path, row, rng)
    check_part(run, path, rows, rng)


def main():
    words = argparse.ArgumentParser()
    words.add_argument("program")
    words.add_argument("files", nargs="*", metavar="FILE")
    words.add_argument("--seed", type=int, default=1)
    words.add_argument("--cases", type=int, default=40, help="how many networks are made")
    words.add_argument("--asks", type=int, default=12, help="how many pairs of a network are asked about")
    given = words.parse_args()
    run, rng = Run(os.path.abspath(given.program)), random.Random(given.seed)
    for path in given.files or sorted(glob.glob(os.path.join(TOP, "examples", "*.json"))):
        check(run, path, rng, given.asks)
    with tempfile.TemporaryDirectory() as folder:
        for number in range(given.cases):
            path = os.path.join(folder, f"{number}.json")
            with open(path, "wb") as file:
                file.write(networks.network(random.Random(given.seed * 1_000_003 + number)))
            check(run, path, rng, given.asks)
    kinds = ", ".join(f"{count} {name}" for name, count in run.seen.items())
    print(f"{kinds}\n{run.asked - len(run.wrong)} passed, {len(run.wrong)} failed")
    sys.exit(1 if run.wrong else 0)


if __name__ == "__main__":
    main()
