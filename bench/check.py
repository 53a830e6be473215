"""Times `check` on long reports, true and false, beside python3's json.load of the same network.

Usage: python3 bench/check.py [PROGRAM]     (default: the program that ./vpc builds)

The true reports are those that `ask` prints about networks of ask.py. The false ones are made of them: the last row's box is
widened over the row before it, a row in the middle is left out, or a row in the middle names another rule than the one that
stops its packets. What a row takes is the difference to `check` of a report that is refused in its first line.
"""

import os
import subprocess
import sys

from ask import BETWEEN, odd_ports, rules_and_rows
from measuring import OUT, loaded, measured, program, written

NETWORKS = [
    ("rules for odd ports, even ones asked", odd_ports, 9_999, BETWEEN),
    ("rules crossed by ACL rows", rules_and_rows, 68, f"{BETWEEN} src 198.51.0.0/16"),
]


def numbered(lines):
    """A report of these lines before its rows and these rows, with their numbers and the end."""
    head, rows = lines
    fresh = [" ".join(["row", str(k + 1), *row.split()[2:]]) for k, row in enumerate(rows)]
    return "\n".join([*head, *fresh, f"end {len(rows)}", ""])


def overlapping(rows):
    """The last row begins where the one before it does."""
    before, last = rows[-2].split(), rows[-1].split()
    for k in range(6, 11):
        last[k] = before[k].split("-")[0] + "-" + max(before[k], last[k], key=lambda side: [int(n) for n in side.split("-")[1].split(".")]).split("-")[1]
    return [*rows[:-1], " ".join(last)]


def with_a_hole(rows):
    """The row in the middle is left out."""
    return rows[: len(rows) // 2] + rows[len(rows) // 2 + 1 :]


def with_a_wrong_rule(rows):
    """The row in the middle names another rule."""
    words = rows[len(rows) // 2].split()
    words[5] = "77" if words[5] != "77" else "78"
    return [*rows[: len(rows) // 2], " ".join(words), *rows[len(rows) // 2 + 1 :]]


def as_it_is(rows):
    return rows


FORMS = [
    ("true", as_it_is, "yes"),
    ("rows that overlap", overlapping, "no overlap"),
    ("a hole", with_a_hole, "no uncovered"),
    ("a wrong rule", with_a_wrong_rule, "no untrue"),
]


def reported(path, query):
    """The lines before the rows of the report that `ask` prints, and its rows."""
    text = subprocess.run([program(), "ask", path, *query.split()], stdout=subprocess.PIPE, check=False).stdout.decode()
    lines = text.splitlines()
    if lines[0] != "vpc-report 1":
        sys.exit(f"no report about {path}")
    return lines[:3], [line for line in lines if line.startswith("row ")]


def main():
    print("| report | rows | of | check | json.load of the network | ask | a row | peak |")
    print("|---|---:|---|---:|---:|---:|---:|---:|")
    for name, made, count, query in NETWORKS:
        path = written(f"check-{made.__name__}-{count}.json", made, count)
        theirs, _ = loaded(path)
        asked, _ = measured([program(), "ask", path, *query.split()], 1)
        head, rows = reported(path, query)
        refused = os.path.join(OUT, "check-refused.txt")
        with open(refused, "w") as file:
            file.write("vpc-report 3\n")
        once, _ = measured([program(), "check", path, refused], 4)
        for form, change, answer in FORMS:
            text = os.path.join(OUT, f"check-{made.__name__}-{count}.txt")
            with open(text, "w") as file:
                file.write(numbered((head, change(rows))))
            words = [program(), "check", path, text]
            told = subprocess.run(words, stdout=subprocess.PIPE, check=False).stdout.decode()
            if not told.startswith(answer):
                sys.exit(f"{form}: {told}")
            ours, peak = measured(words, 0 if answer == "yes" else 1)
            each = (ours - once) / len(rows) * 1e6
            # What python3 takes to start is left out of its time, and is more than a small file takes.
            beside = f"{theirs * 1e3:.0f} ms" if os.path.getsize(path) > 100_000 else "-"
            print(f"| {form} | {len(change(rows)):,} | {name}: {count:,} | {ours * 1e3:.0f} ms | {beside} | {asked * 1e3:.0f} ms | {each:.1f} µs | {peak:.0f} MiB |")


if __name__ == "__main__":
    main()
