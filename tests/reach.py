#!/usr/bin/env python3
"""What `reach` tells of networks made at random, held against `ask`: tests/reach.py PROGRAM [--ask OTHER] [--seed S] [--cases N]

A case is a network (networks.py) and the words of `reach` about it. Of the answer are judged: the text by its grammar, the words that it
repeats, its numbers, the order and the disjointness of the rows and that they lie within what was asked for. By `ask` about one header,
of PROGRAM or OTHER: the low and the high corner of every row gets through from its start to its end, and headers that were drawn at random
outside the rows, within what was asked for, to no end at all; where rows were left out, the header that is named next does, and those drawn
are the ones before it. With no `from`, what leads outside and may open connections are links to one network: where the reply returns by
another than the request, which `ask` tells as `WrongReturn`, `replay` tells whether it is the request's. A header of a protocol without
ports is asked for only where both its numbers are 0, since no packet has others. The last line is 'N passed, M failed'.
"""

import argparse
import itertools
import json
import os
import random
import re
import socket
import struct
import subprocess
import sys
import tempfile

import model
import networks
from answers import BOX, COUNT, HEADER, ID, NUMBER

PORTS = (0, 1, 22, 80, 443, 1023, 1024, 2048, 5000, 8080, 32768, 65534, 65535)
NAMES = {"icmp": 1, "tcp": 6, "udp": 17}
ALL = (0, 2**32 - 1)
WITH_PORTS = (1, 6, 17)
TEXT = re.compile(
    rf"(?:(?P<whole>vpc-reach 1)|more reach)\n(?P<query>query[^\n]*)\n(?P<rows>(?:row {COUNT} {ID} {ID} {BOX}\n)*)(?:end (?P<count>{NUMBER})|next (?P<start>{ID}) (?P<next>{HEADER}))\n"
)


def number(text):
    return struct.unpack(">I", socket.inet_aton(text))[0]


def dotted(n):
    return socket.inet_ntoa(struct.pack(">I", n))


def header(text):
    proto, src, dst, p, q = text.split()
    return (NAMES.get(proto) or int(proto), number(src), number(dst), int(p), int(q))


class Row:
    def __init__(self, line):
        _, number_, self.start, self.end, *box = line.split(" ")
        self.number = int(number_)
        sides = [side.split("-") for side in box]
        self.box = [tuple(map(number if k in (1, 2) else int, side)) for k, side in enumerate(sides)]
        self.low, self.high = (tuple(side[k] for side in self.box) for k in (0, 1))

    def holds(self, h):
        return all(a <= x <= b for (a, b), x in zip(self.box, h))

    def meets(self, other):
        return all(a <= d and c <= b for (a, b), (c, d) in zip(self.box, other.box))


class Network:
    """The ends of a bundle, as `reach` takes them."""

    def __init__(self, text):
        rows = json.loads(text).get("NetworkInterfaces", [])
        self.hosts = {row["NetworkInterfaceId"]: row for row in rows if row.get("InterfaceType") != "nat_gateway"}
        self.primary = {name: number(row["PrivateIpAddress"]) for name, row in self.hosts.items()}
        self.ends = ["internet", *sorted(self.hosts, key=str.encode)]
        network = model.Network(json.loads(text))
        self.fars = {name: model.may_start(it) for name, it in network.fars.items() if network.is_end(name) and name not in network.interfaces}
        self.ends += sorted(self.fars, key=str.encode)
        told = rb'(?:Ip(?:Address)?|Ipv4Prefix|DestinationCidrBlock)": ?"([0-9.]+)["/]' if self.fars else rb'(?:Ip(?:Address)?|Ipv4Prefix)": ?"([0-9.]+)["/]'
        self.addresses = sorted({number(a.decode()) for a in re.findall(told, text)})

    def own(self, name):
        """The addresses that no prefix of the interface holds, and the runs of its prefixes."""
        told, runs = set(), []
        for row in self.hosts[name]["PrivateIpAddresses"]:
            told |= {number(a) for a in (row["PrivateIpAddress"], row.get("Association", {}).get("PublicIp")) if a}
        for row in sorted(self.hosts[name].get("Ipv4Prefixes", []), key=lambda it: number(it["Ipv4Prefix"].split("/")[0])):
            first, length = row["Ipv4Prefix"].split("/")
            low, high = number(first), number(first) + 2 ** (32 - int(length)) - 1
            if runs and low <= runs[-1][1] + 1:
                low, last = runs.pop()
                high = max(high, last)
            runs.append((low, high))
        return sorted(runs + [(it, it) for it in told if not any(a <= it <= b for a, b in runs)])


class Query:
    """Words, and what they ask for."""

    def __init__(self, rng, network):
        self.network, self.words = network, []
        from_one = 0.2 if sum(network.fars.values()) > 1 else 0.5
        self.start, self.goal = (rng.choice(network.ends) if rng.random() < chance else None for chance in (from_one, 0.4))
        if self.start == self.goal == "internet":
            self.goal = None
        if not network.fars.get(self.start, True):
            self.start = None
        self.protos, self.p, self.q = (0, 255), (0, 65535), (0, 65535)
        self.src = self.dst = None
        self.max = 20000
        self.take("from", self.start)
        self.take("to", self.goal)
        proto = rng.choice(("tcp", "udp", "icmp", "50", "6")) if rng.random() < 0.6 else None
        if proto:
            self.take("proto", proto)
            self.protos = (NAMES.get(proto) or int(proto),) * 2
        self.src, self.dst = (self.block(rng, name, chance) for name, chance in (("src", 0.2), ("dst", 0.3)))
        if proto == "50":
            self.p = self.q = (0, 0)
        else:
            self.p, self.q = (self.ports(rng, name, chance, proto) for name, chance in (("sport", 0.15), ("port", 0.3)))
        self.given = list(self.words)
        if rng.random() < 0.2:
            self.max = rng.choice((1, 2, 3, 5, 20))
            self.take("max", str(self.max))

    def take(self, name, value):
        if value:
            self.words += [name, value]

    def block(self, rng, name, chance):
        if rng.random() >= chance:
            return None
        length = rng.choice((0, 1, 8, 16, 24, 31, 32))
        size = 2 ** (32 - length)
        first = rng.choice(self.network.addresses) // size * size
        self.take(name, f"{dotted(first)}/{length}")
        return (first, first + size - 1)

    def ports(self, rng, name, chance, proto):
        if rng.random() >= chance:
            return (0, 65535)
        a, b = sorted((rng.choice(PORTS), rng.choice(PORTS)))
        self.take(name, f"{a}-{b}")
        if not proto:
            self.protos = (6, 6)
        return (a, b)

    def starts(self):
        return [self.start] if self.start else [end for end in self.network.ends if end != self.goal and self.network.fars.get(end, True)]

    def links(self, start):
        """The far ends that are asked about together with a far end: a reply may take another of them than the request."""
        links = [it for it in self.starts() if it in self.network.fars]
        return links if start in links else []

    def sources(self, start):
        return self.src or (ALL if start == "internet" or start in self.network.fars else (self.network.primary[start],) * 2)

    def targets(self):
        if self.dst or self.goal in (None, "internet", *self.network.fars):
            return [self.dst or ALL]
        return self.network.own(self.goal)

    def asks_for(self, row):
        """Whether the row lies in one of the boxes that are asked for."""
        sides = [[self.protos], [self.sources(row.start)], self.targets(), [self.p], [self.q]]
        return row.start in self.starts() and all(any(a <= c and d <= b for a, b in told) for told, (c, d) in zip(sides, row.box))

    def drawn(self, rng, start):
        """A header that is asked for from the start."""

        def within(side, likely):
            likely = [x for x in likely if side[0] <= x <= side[1]]
            return rng.choice(likely) if likely and rng.random() < 0.9 else rng.randint(*side)

        near = [x + k for x in self.network.addresses for k in (-1, 0, 0, 0, 1)]
        proto = within(self.protos, (1, 6, 6, 6, 17, 50, 255))
        p, q = (within(side, (*PORTS, *(x + 1 for x in PORTS))) for side in (self.p, self.q))
        if proto == 1 and self.q[0] <= 2048 <= self.q[1] and rng.random() < 0.8:
            q = 2048
        if proto not in WITH_PORTS:
            if self.p[0] or self.q[0]:
                return None
            p = q = 0
        return (proto, within(self.sources(start), near), within(rng.choice(self.targets()), near), p, q)


class Asking:
    """`ask` about one header in a file."""

    def __init__(self, program, path):
        self.program, self.path = program, path

    def gets_through(self, start, end, h, links=()):
        """Whether it does, also where its reply returns by another of these links; None where it can't be asked."""
        proto, src, dst, p, q = h
        if start == end == "internet" or (proto not in WITH_PORTS and (p or q)):
            return None
        words = ["from", start, "to", end, "proto", str(proto), "src", f"{dotted(src)}/32", "dst", f"{dotted(dst)}/32"]
        if proto in WITH_PORTS:
            words += ["sport", f"{p}-{p}", "port", f"{q}-{q}"]
        done = subprocess.run([self.program, "ask", self.path, *words], capture_output=True)
        if done.returncode not in (0, 1):
            raise RuntimeError(f"ask {' '.join(words)}: status {done.returncode} {done.stdout!r}")
        elsewhere = re.search(rb"^row 1 reply WrongReturn (\S+) ", done.stdout, re.MULTILINE)
        return self.returns(start, end, model.Header(*h)) if elsewhere and elsewhere[1].decode() in links else done.returncode == 0

    def returns(self, start, end, request):
        """Whether what arrives somewhere as its reply is the reply of the request."""
        opened = f"open from {start} {request}"
        answer = self.replayed(opened).reply()
        return self.replayed(opened, f"answer from {end} {answer}") == request.reply()

    def replayed(self, *events):
        """The header by which the last of these events arrives."""
        path = f"{self.path}.events"
        with open(path, "w", encoding="utf-8") as file:
            file.write("".join(f"{it}\n" for it in events))
        done = subprocess.run([self.program, "replay", self.path, path], capture_output=True)
        arrived = re.search(r"^event \d+ arrived \S+ (.+)\n\Z", done.stdout.decode(), re.MULTILINE)
        if not arrived:
            raise RuntimeError(f"replay of {', '.join(events)}: status {done.returncode} {done.stdout!r}")
        return model.Header(*header(arrived[1]))


def faults_of_text(query, told, status):
    """What is wrong with the answer by itself, and its rows."""
    match = TEXT.fullmatch(told)
    if not match:
        return ["no text of the grammar"], []
    rows = [Row(line) for line in match["rows"].splitlines()]
    faults = []
    if match["query"] != " ".join(["query", *query.given]):
        faults.append(f"repeats {match['query']!r}")
    if [row.number for row in rows] != list(range(1, len(rows) + 1)):
        faults.append("numbers")
    wanted = (1 if not rows else 0) if match["whole"] else 5
    if status != wanted or (match["whole"] and int(match["count"]) != len(rows)) or bool(match["whole"]) != bool(match["count"]):
        faults.append(f"status {status}, {len(rows)} rows")
    if len(rows) > query.max or (not match["whole"] and len(rows) != query.max):
        faults.append(f"{len(rows)} rows of {query.max}")
    order = query.starts()
    places = [(order.index(row.start) if row.start in order else -1, row.low) for row in rows]
    if places != sorted(places) or len(set(places)) != len(places):
        faults.append("order")
    faults += [f"row {row.number} is not asked for" for row in rows if not query.asks_for(row)]
    faults += [f"row {row.number} has no such end" for row in rows if row.end not in query.network.ends or row.end != (query.goal or row.end) or (row.end == row.start and not query.goal)]
    for one, other in itertools.combinations(rows, 2):
        if one.start == other.start and one.meets(other):
            faults.append(f"rows {one.number} and {other.number} meet")
    return faults, rows


def judged(rng, query, told, status, asking, draws):
    faults, rows = faults_of_text(query, told, status)
    if faults:
        return faults
    for row in rows:
        for h in (row.low, row.high):
            if asking.gets_through(row.start, row.end, h, query.links(row.start)) is False:
                faults.append(f"row {row.number} is untrue of {h}")
    starts, last = query.starts(), None
    match = TEXT.fullmatch(told)
    if match["next"]:
        last = (match["start"], header(match["next"]))
        starts = starts[: starts.index(last[0]) + 1]
        ends = [query.goal] if query.goal else query.network.ends
        tried = [asking.gets_through(last[0], end, last[1], query.links(last[0])) for end in ends if query.goal or end != last[0]]
        if any(row.start == last[0] and row.holds(last[1]) for row in rows):
            faults.append("the next header is in a row")
        if None not in tried and True not in tried:
            faults.append("the next header reaches no end")
    for _ in range(draws):
        start = rng.choice(starts)
        h = query.drawn(rng, start)
        if h is None or any(row.start == start and row.holds(h) for row in rows) or (last and start == last[0] and h >= last[1]):
            continue
        for end in [query.goal] if query.goal else [end for end in query.network.ends if end != start]:
            if asking.gets_through(start, end, h, query.links(start)):
                faults.append(f"{h} from {start} reaches {end} and is in no row")
    return faults


def main():
    words = argparse.ArgumentParser(description=__doc__.splitlines()[0])
    words.add_argument("program")
    words.add_argument("--ask")
    words.add_argument("--seed", type=int, default=1)
    words.add_argument("--cases", type=int, default=200)
    words.add_argument("--draws", type=int, default=20)
    words = words.parse_args()
    passed = failed = refused = rows = 0
    with tempfile.TemporaryDirectory() as folder:
        path = os.path.join(folder, "network.json")
        for case in range(words.cases):
            rng = random.Random(words.seed * 1_000_003 + case)
            text = networks.network(rng)
            with open(path, "wb") as file:
                file.write(text)
            query = Query(rng, Network(text))
            done = subprocess.run([words.program, "reach", path, *query.words], capture_output=True)
            if done.returncode == 3:
                refused += 1
                continue
            told = done.stdout.decode()
            faults = judged(rng, query, told, done.returncode, Asking(words.ask or words.program, path), words.draws)
            rows += told.count("\nrow ")
            passed, failed = passed + (not faults), failed + bool(faults)
            for fault in faults:
                print(f"case {case}: reach {' '.join(query.words)}: {fault}")
    print(f"{rows} rows, {refused} networks refused")
    print(f"{passed} passed, {failed} failed")
    sys.exit(failed > 0)


if __name__ == "__main__":
    main()
