"""What `replay` costs: a NAT gateway that fills up, two hosts on the same ports, and connections with their answers.

Usage: python3 bench/replay.py [PROGRAM]     (default: the program that ./vpc builds)

Processor times (user and system) of whole processes, each the least of some runs. Beside each stands the time for reading the two
files: PROGRAM on the same files with a bad line put before the first, which reads, accepts and then refuses at once; and what a line
costs beyond that. Each shape stands there at a quarter, a half and the whole of its size, so that growth shows.
"""

import os
import sys

from measuring import OUT, TOP, program
from trace import used

FAR = "198.51.100.7"


def opens(host, address, ports):
    return [f"open from {host} tcp {address} {FAR} {port} 443" for port in ports]


def fills(count):
    """Opens of one host to one server, and one that no longer fits where they are 55,000."""
    return [*opens("eni-a", "10.0.1.10", range(1024, 1024 + count)),
            f"open from eni-a tcp 10.0.1.10 {FAR} {1024 + count} 443",
            f"answer from internet tcp {FAR} 203.0.113.5 443 1024",
            f"open from eni-a tcp 10.0.1.10 {FAR} 1024 443"]


def collides(count):
    """Two hosts on the same ports: each port of the second one is taken."""
    half = range(1024, 1024 + count // 2)
    return [*opens("eni-a", "10.0.1.10", half), *opens("eni-b", "10.0.2.20", half)]


def answered(count):
    """Connections within the VPC, and their answers."""
    half = range(1024, 1024 + count)
    return [*(f"open from eni-a tcp 10.0.1.10 10.0.2.20 {port} 443" for port in half),
            *(f"answer from eni-b tcp 10.0.2.20 10.0.1.10 443 {port}" for port in half)]


def row(name, make, count, bundle):
    lines = make(count)
    path = os.path.join(OUT, f"{make.__name__}-{count}.txt")
    bad = os.path.join(OUT, f"{make.__name__}-{count}-bad.txt")
    for where, text in ((path, lines), (bad, ["bad", *lines])):
        with open(where, "w") as file:
            file.write("\n".join(text) + "\n")
    whole, reading = used([program(), "replay", bundle, path]), used([program(), "replay", bundle, bad])
    print(f"| {name} | {len(lines):,} | {os.path.getsize(path) / 2**20:.1f} MiB | {whole * 1e3:.0f} ms | {reading * 1e3:.0f} ms"
          f" | {(whole - reading) / len(lines) * 1e6:.1f} µs |", flush=True)


def main():
    os.makedirs(OUT, exist_ok=True)
    bundle = os.path.join(TOP, "bench", "behind-nat.json")
    print("| events | lines | file | replay | reading alone | a line beyond that |\n|---|---:|---:|---:|---:|---:|")
    for name, make, count in (("one host fills a gateway", fills, 55_000), ("two hosts on the same ports", collides, 55_000),
                              ("connections and their answers", answered, 50_000)):
        for part in (4, 2, 1):
            row(name, make, count // part, bundle)


if __name__ == "__main__":
    main()
