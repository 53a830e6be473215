#!/usr/bin/env python3
"""Times `expect`: policies of many rules, as ratios to one `ask` of the same file.

Usage: python3 bench/expect.py [PROGRAM]     (default: the program that ./vpc builds)

The large account is that of wide.py, 20,000 interfaces in 40 VPCs over a transit gateway; the small one has two hosts behind a
NAT gateway (behind-nat.json). A third of the rules each is `reachable`, `blocked` and `open`; what a rule takes is the difference to
a policy without rules, which reads the bundle alone.
"""

import os
import subprocess

import wide
from measuring import OUT, TOP, measured, program, written

LARGE = 1_000
SMALL = 10_000


def rules(count, ends, blocked):
    """So many rules, in turn of one pair of ends and another, each about a port of its own."""
    told = []
    for k in range(count):
        start, goal = ends[k // 3 % len(ends)]
        word = ("reachable", "blocked", "open")[k % 3]
        port = blocked if word == "blocked" else 1024 + k % 60000
        told.append(f"{word} from {start} to {goal} sport 1024-65535 port {port}-{port}\n")
    return told


def policy(name, lines):
    os.makedirs(OUT, exist_ok=True)
    path = os.path.join(OUT, name)
    with open(path, "w") as file:
        file.writelines(lines)
    return path


def answer(words):
    """The last line of an answer, and its status."""
    done = subprocess.run(words, capture_output=True, text=True)
    return done.stdout.rstrip("\n").split("\n")[-1], done.returncode


def row(title, bundle, lines, question):
    name = title.replace(" ", "-")
    full, none = policy(f"{name}.rules", lines), policy(f"{name}-none.rules", [])
    vpc = program()
    tally, status = answer([vpc, "expect", bundle, full])
    took, peak = measured([vpc, "expect", bundle, full], status)
    reading, _ = measured([vpc, "expect", bundle, none])
    code = subprocess.run([vpc, "ask", bundle, *question], capture_output=True).returncode
    asked, _ = measured([vpc, "ask", bundle, *question], code)
    each = (took - reading) / len(lines) * 1e6
    print(f"| {title} | {len(lines):,} | {tally} | {took * 1e3:.1f} ms | {asked * 1e3:.1f} ms | {took / asked:.2f} | {each:.2f} µs | {peak:.0f} MiB |")


def main():
    print("| network | rules | answer | expect | one ask | ratio | a rule | peak |")
    print("|---|---:|---|---:|---:|---:|---:|---:|")
    account = written("wide.json", wide.account, wide.VPCS)
    hosts = [(f"eni-{k % 40}-{9 + k}", f"eni-{(k * 7 + 1) % 40}-{10 + k}") for k in range(100)]
    row("a large account", account, rules(LARGE, hosts, 9), "from eni-3-9 to eni-20-9".split())
    small = os.path.join(TOP, "bench", "behind-nat.json")
    row("two hosts", small, rules(SMALL, [("eni-a", "eni-b")], 80), "from eni-a to eni-b".split())


if __name__ == "__main__":
    main()
