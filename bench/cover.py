#!/usr/bin/env python3
"""Counts what the search over boxes costs in the program, and prints a table in Markdown.

Usage: python3 bench/cover.py [PROGRAM]     (default: the program that ./vpc builds)

The networks are made so that a query falls into parts of a known shape: a line, a grid, stairs. `ask` makes a row of each
part, `check` asks each row of that report again, `expect` only searches for what gets through, and `reach` gathers what does.
Instructions are counted by valgrind, times are the least processor times of some runs. What a part takes is what the run takes beyond
the same command about one part of the same bundle, by the number of the other parts; of one answer for all, beyond a
query that is refused once the bundle is accepted.
"""

import itertools
import os
import subprocess

import accounts
from ask import ALL, BETWEEN, odd_ports, subnets, tcp
from instructions import counted, told
from measuring import OUT, program, written
from trace import used

BITS = 24
PORTS = 65536


def uniform(rules):
    return lambda _: subnets(rules)


def line(parts):
    """Ports that the receiver and the sender let pass in turn."""
    return odd_ports(parts // 2)


def from_any(whole):
    """The first host may send from any address."""
    whole["NetworkInterfaces"][0]["SourceDestCheck"] = False
    return whole


def grid(side):
    """Blocks of sources that the receiver lets in, each with one that it doesn't, crossed by ranges of ports that the sender lets out."""
    wide, half = PORTS // side, range(0, side, 2)
    return from_any(subnets([tcp(0, PORTS - 1, *(f"198.51.{k}.0/24" for k in half))], [tcp(k * wide, (k + 1) * wide - 1) for k in half]))


def block_list(count):
    """The blocks of so many addresses, from 11.0.0.0 on."""
    sizes = [1 << bit for bit in reversed(range(BITS)) if count >> bit & 1]
    return [f"{accounts.dotted((11 << 24) + sum(sizes[:k]))}/{33 - size.bit_length()}" for k, size in enumerate(sizes)]


def stairs(steps):
    """For each port from 0 on fewer sources than for the one before, each number of which is made of few blocks. What they send is answered.
    There is one step more than are asked for."""
    numbers = (sum(bits) for few in range(1, BITS) for bits in itertools.combinations([1 << bit for bit in range(BITS)], few))
    widths = sorted(itertools.islice(numbers, steps + 1), reverse=True)
    whole = from_any(subnets([tcp(port, port, *block_list(width)) for port, width in enumerate(widths)]))
    whole["RouteTables"][1]["Routes"].append({"DestinationCidrBlock": "11.0.0.0/8", "NetworkInterfaceId": "eni-a", "State": "active"})
    return whole


def printed(words):
    return subprocess.run([program(), *words], stdout=subprocess.PIPE, check=False).stdout.decode()


def rows_of(text):
    return sum(row.startswith("row ") for row in text.splitlines())


def ruled(name, query):
    return told(f"cover-{name}.rules", [f"blocked {query}"])


def commands(path, name, queries, one):
    """Each command about the queries of a bundle: its name, the words of its runs and those of the run about one part, and how many parts are asked."""
    texts = [printed(["ask", path, *query.split()]) for query in queries]
    reports = [told(f"cover-{name}-{k}.txt", text) for k, text in enumerate(texts)]
    alone = told(f"cover-{name}-one.txt", printed(["ask", path, *one.split()]))
    parts = sum(map(rows_of, texts))
    yield "ask", [["ask", path, *query.split()] for query in queries], ["ask", path, *one.split()], parts
    yield "check", [["check", path, report] for report in reports], ["check", path, alone], parts
    whole = [["expect", path, ruled(f"{name}-{k}", query)] for k, query in enumerate(queries)]
    yield "expect", whole, ["expect", path, ruled(f"{name}-one", one)], parts


def gathered(path, steps):
    words = ["reach", path, *f"{BETWEEN} src 11.0.0.0/8 max {steps}".split()]
    yield "reach", [words], ["reach", path, *f"{BETWEEN} src 11.0.0.0/32 port 0-0".split()], rows_of(printed(words))


def cases():
    for parts in (1_000, 4_000, 16_000):
        path = written(f"cover-line-{parts}.json", line, parts)
        yield f"line of {parts:,} parts", commands(path, f"line-{parts}", [BETWEEN], f"{BETWEEN} port 0-0")
    path, side = written("cover-grid.json", grid, 200), f"{BETWEEN} src 198.51.0.0/16"
    middle = PORTS // 200 * 100
    halves = [f"{side} port 0-{middle - 1}", f"{side} port {middle}-{PORTS - 1}"]
    yield "grid of 200 by 200, in two halves", commands(path, "grid", halves, f"{BETWEEN} src 198.51.0.0/32 port 0-0")
    for steps in (1_000, 4_000, 16_000):
        path = written(f"cover-stairs-{steps}.json", stairs, steps)
        yield f"stairs of {steps:,} steps", gathered(path, steps)


def uniform_row(name, rules):
    path = written(f"cover-{name.split()[-1]}.json", uniform(rules), 1)
    words, nowhere = ["ask", path, *BETWEEN.split()], ["ask", path, *"from eni-nowhere to eni-b".split()]
    whole, refused = counted(program(), words), counted(program(), nowhere)
    print(f"| {name} | `ask` | 1 | {whole:.1f} M | {(whole - refused) * 1e3:.0f} k | - |", flush=True)


def row(name, command, runs, one, parts):
    whole, base = sum(counted(program(), words) for words in runs), counted(program(), one) * len(runs)
    took = sum(used([program(), *words]) for words in runs) - used([program(), *one]) * len(runs)
    others = parts - len(runs)
    print(f"| {name} | `{command}` | {parts:,} | {whole:,.0f} M | {(whole - base) / others * 1e3:.1f} k | {took / others * 1e6:.1f} µs |", flush=True)


def main():
    os.makedirs(OUT, exist_ok=True)
    print("| Case | Command | Parts | Instructions | of a part | time of a part |\n|---|---|---:|---:|---:|---:|")
    uniform_row("one answer for all, open", [ALL])
    uniform_row("one answer for all, blocked", [])
    for name, told_commands in cases():
        for command in told_commands:
            row(name, *command)


if __name__ == "__main__":
    main()
