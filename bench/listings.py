#!/usr/bin/env python3
"""Times `check` of what `reach` and `diff` print on large accounts, beside these commands themselves.

Usage: python3 bench/listings.py [PROGRAM]     (default: the program that ./vpc builds)

The accounts and questions are those of reach.py and diff.py, as far as the answer leaves no row out. Each text is checked as it was printed;
without its middle row, where it has one; and with that row's ports one less.
"""

import os
import subprocess

import diff
import reach
import wide
from measuring import OUT, measured, program, written


def asked(command):
    """The lines that a command prints, or None where they are not all, or not there within two minutes."""
    try:
        done = subprocess.run(command, capture_output=True, check=False, timeout=120)
    except subprocess.TimeoutExpired:
        return None
    return done.stdout.decode().splitlines() if done.returncode in (0, 1) else None


def numbered(lines):
    rows = [line.split(" ", 2)[2] for line in lines if line.startswith("row ")]
    return [*lines[:2], *(f"row {k} {row}" for k, row in enumerate(rows, 1)), f"end {len(rows)}"]


def without_one(lines):
    """The text without its middle row."""
    middle = 2 + (len(lines) - 3) // 2
    return numbered(lines[:middle] + lines[middle + 1:])


def with_ports_less(lines):
    """The text whose middle row has one port less."""
    middle = 2 + (len(lines) - 3) // 2
    *words, ports = lines[middle].split(" ")
    low, high = map(int, ports.split("-"))
    return [*lines[:middle], " ".join([*words, f"{low + (low < high)}-{high}"]), *lines[middle + 1:]]


def as_it_is(lines):
    return lines


FORMS = [("as printed", as_it_is, "yes"), ("a row less", without_one, "no unlisted"), ("a port less", with_ports_less, None)]


def told(name, files, questions):
    command = "reach" if len(files) == 1 else "diff"
    print(f"{name}\n\n| {command} | rows | {command} | check | | peak |\n|---|---:|---:|---:|---|---:|")
    for words in questions:
        ask = [program(), command, *files, *words.split()]
        lines = asked(ask)
        if lines is None:
            continue
        took, _, _ = wide.once(ask)
        for form, change, answer in FORMS if len(lines) > 3 else FORMS[:1]:
            path = os.path.join(OUT, "listing.txt")
            with open(path, "w", encoding="utf-8") as file:
                file.write("\n".join(change(lines)) + "\n")
            check = [program(), "check", *files, path]
            done = subprocess.run(check, capture_output=True, check=False)
            first = done.stdout.decode().splitlines()[0]
            if answer and not first.startswith(answer):
                raise SystemExit(f"{words}, {form}: {first}")
            time, peak = measured(check, done.returncode)
            print(f"| {words} | {len(lines) - 3:,} | {took:.2f} s | {time:.2f} s | {form}: {' '.join(first.split(' ')[:2])} | {peak:.0f} MiB |", flush=True)
    print()


def main():
    one = written(f"wide-{wide.VPCS}.json", wide.account, wide.VPCS)
    more = written(f"wide-{wide.VPCS}-ssh.json", diff.one_rule_more(wide.account, "sg-3-8", 22), wide.VPCS)
    told("20,000 interfaces", [one], reach.WIDE)
    told("20,000 interfaces, a rule more", [one, more], diff.WIDE[1:])
    one = written("all-to-all.json", reach.all_to_all, reach.HOSTS)
    more = written("all-to-all-8080.json", diff.one_rule_more(reach.all_to_all, "sg-0-0", 8080), reach.HOSTS)
    told("480 interfaces", [one], reach.SMALL)
    told("480 interfaces, a rule more", [one, more], diff.SMALL)


if __name__ == "__main__":
    main()
