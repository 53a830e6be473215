"""Times `ask` with `max` above 20,000, whose report is a tree of cuts, and `check` of such reports, true and false.

Usage: python3 bench/trees.py [PROGRAM]     (default: the program that ./vpc builds)

The networks are those of ask.py. False are reports of which a leaf in the middle names another rule, or its last line another number.
Times are of the processor, the least of some runs, of whole processes; reading is `ask` about one packet of the same file.
"""

import os
import subprocess
import sys

from ask import BETWEEN, odd_ports, ranges_and_sources
from measuring import OUT, RUNS, program, written

MOST = "max 100000"
NETWORKS = [
    ("port ranges by sources: 111 by 111", ranges_and_sources, 111, f"{BETWEEN} src 198.51.0.0/16 {MOST}"),
    ("port ranges by sources: 223 by 223", ranges_and_sources, 223, f"{BETWEEN} src 198.51.0.0/16 {MOST}"),
    ("rules for odd ports, even ones asked: 32,700", odd_ports, 32_700, f"{BETWEEN} {MOST}"),
]


def as_it_is(lines):
    return lines


def with_a_wrong_rule(lines):
    """The leaf in the middle names another rule."""
    at = next(k for k in range(len(lines) // 2, len(lines)) if lines[k].startswith("leaf "))
    return [*lines[:at], " ".join([*lines[at].split(" ")[:-1], "77"]), *lines[at + 1:]]


def of_another_number(lines):
    return [*lines[:-1], "end 7"]


FORMS = [("yes", as_it_is, 0), ("no untrue", with_a_wrong_rule, 1), ("refused report", of_another_number, 4)]


def spent(words, code):
    """The least processor time in milliseconds of some runs that end with this code, and the greatest peak memory in MiB."""
    times, peaks = [], []
    for _ in range(RUNS):
        child = os.posix_spawn(words[0], words, os.environ, file_actions=[(os.POSIX_SPAWN_OPEN, 1, os.devnull, os.O_WRONLY, 0)])
        _, status, usage = os.wait4(child, 0)
        if os.waitstatus_to_exitcode(status) != code:
            sys.exit(f"failed: {' '.join(words)}")
        times.append((usage.ru_utime + usage.ru_stime) * 1e3)
        peaks.append(usage.ru_maxrss / 1024)
    return min(times), max(peaks)


def main():
    print("| network | leaves | file | reading | ask | check | a wrong rule | a wrong count | peak of ask | of check |")
    print("|---|---:|---:|---:|---:|---:|---:|---:|---:|---:|")
    for name, made, count, query in NETWORKS:
        path, text = written(f"trees-{made.__name__}-{count}.json", made, count), os.path.join(OUT, "trees.txt")
        words = [program(), "ask", path, *query.split()]
        found = [spent([program(), "ask", path, *BETWEEN.split(), *"proto 50 dst 203.0.113.1/32".split()], 1), spent(words, 1)]
        lines = subprocess.run(words, stdout=subprocess.PIPE, check=False).stdout.decode().splitlines()
        for answer, change, status in FORMS:
            with open(text, "w") as file:
                file.write("\n".join([*change(lines), ""]))
            words = [program(), "check", path, text]
            told = subprocess.run(words, stdout=subprocess.PIPE, check=False).stdout.decode()
            if not told.startswith(answer):
                sys.exit(f"{name}: {told}")
            found.append(spent(words, status))
        times, peaks = [f"{took:,.0f} ms" for took, _ in found], [f"{found[k][1]:.0f} MiB" for k in (1, 2)]
        print("|", " | ".join([name, f"{int(lines[-1].split(' ')[1]):,}", f"{os.path.getsize(path) / 2**20:.1f} MiB", *times, *peaks]), "|", flush=True)


if __name__ == "__main__":
    main()
