#!/usr/bin/env python3
"""What the program tells of single packets, against an independent model: tests/walk_model.py PROGRAM [--seed S] [--cases N] [--packets N] [FILE ..]

A case is a network made at random (networks.py), or each FILE. Of its packets, drawn at the edges of what its rows name, the texts must be
those of model.py byte for byte: of `trace`, with its hops; of `why`, with what decided at each; of `ask` about the one header, with the
hops of both walks or the report of one row; and of `replay` of all of them in turn, each with the answer to it from where it arrived. A
FILE that is refused is passed over. The last line is 'N passed, M failed'.
"""

import argparse
import json
import os
import random
import subprocess
import sys
import tempfile

import model
import networks

PROTOCOLS = (model.TCP, model.TCP, model.TCP, model.UDP, model.ICMP, 50)


class Packets:
    """Packets in the network of a file, drawn at random."""

    def __init__(self, rng, text):
        self.rng, self.network = rng, model.Network(json.loads(text))
        self.cuts, self.own = model.cuts(self.network), [model.address(it.decode()) for it in networks.Ends(text).addresses]
        self.ends = [model.INTERNET, *(name for name, row in self.network.interfaces.items() if not row.gateway and name != "internet" and name[0] != "-")]
        self.ends += [name for name, row in self.network.fars.items() if self.network.is_end(name) and name not in self.network.interfaces and name != "internet" and name[0] != "-"] * 2

    def near(self, side, other):
        told = self.rng.choice(self.cuts[side]) if self.cuts[side] and self.rng.random() < 0.7 else other
        return max(0, min(model.LAST[side], told + self.rng.choice((-1, 0, 0, 0, 1))))

    def address(self, end):
        if end in self.network.interfaces and self.rng.random() < 0.75:
            row = self.network.interfaces[end]
            told = [it for pair in row.addresses for it in pair if it is not None] + [it for told in row.blocks for it in (told.first, told.last)]
            if told:
                return self.rng.choice(told)
        return self.near(1, self.rng.choice(self.own))

    def packet(self):
        """A start, a goal and a header."""
        start, goal = self.rng.choice(self.ends), self.rng.choice(self.ends)
        proto = self.rng.choice((*PROTOCOLS, self.near(0, 0)))
        p, q = (self.near(3, 0), self.near(4, 443)) if proto in model.NAMES else (0, 0)
        if proto == model.ICMP and self.rng.random() < 0.8:
            q = model.ECHO_REQUEST
        return start, goal, model.Header(proto, self.address(start), self.address(goal), p, q)


def asked(network, start, goal, header):
    """The words of `ask` about one header, and its text."""
    words = ["from", model.name_of(start), "to", model.name_of(goal), "proto", str(header.proto), "src", f"{model.dotted(header.src)}/32", "dst", f"{model.dotted(header.dst)}/32"]
    if header.proto in model.NAMES:
        words += ["sport", f"{header.p}-{header.p}", "port", f"{header.q}-{header.q}"]
    answer, box = model.verdict(network, start, goal, header), model.told_box([(it, it) for it in header])
    if answer.stop:
        return words, ["vpc-report 1", f"query from {words[1]} to {words[3]}", f"box {box}", f"row 1 {answer} {box}", "end 1"]
    there, back = map(model.told_walk, answer.walks)
    return words, ["reachable", f"packet {header}", "request", *there, f"arrived {words[3]}", "reply", *back, f"arrived {words[1]}"]


def replayed(network, packets):
    """Events, each with the answer to it, and the text of `replay`."""
    connections, translations, events, told = [], [], [], []

    def event(label, start, header):
        walk = model.Walk(network, label, connections, translations)
        end, arrived = walk.follow(model.first_place(network.end(start)), header)
        stopped = isinstance(end, model.Stop)
        events.append(f"{label} from {model.name_of(start)} {header}")
        told.append(f"event {len(events)} stopped {end}" if stopped else f"event {len(events)} arrived {model.name_of(end)} {arrived}")
        return None if stopped or not arrived.reply() else (end, arrived.reply())

    for start, _, header in packets:
        answer = event("open", start, header)
        if answer:
            event("answer", *answer)
    return events, told


def differences(program, path, events_path, packets, count):
    """What differs in the network of a file, as words and both texts."""

    def differs(words, lines):
        told = subprocess.run([program, *words], capture_output=True, check=False).stdout.decode()
        return [] if told == "".join(f"{it}\n" for it in lines) else [(words, told.split("\n"), lines)]

    found, drawn = [], [packets.packet() for _ in range(count)]
    for start, goal, header in drawn:
        label = packets.rng.choice(("open", "answer"))
        packet = [path, label, "from", model.name_of(start), *str(header).split()]
        found += differs(["trace", *packet], model.traced(packets.network, label, start, header))
        found += differs(["why", *packet], model.explained(packets.network, label, start, header))
        if model.may_start(packets.network.end(start)) and (start is not model.INTERNET or goal is not model.INTERNET):
            words, lines = asked(packets.network, start, goal, header)
            found += differs(["ask", path, *words], lines)
    events, lines = replayed(packets.network, drawn)
    with open(events_path, "w", encoding="utf-8") as file:
        file.writelines(f"{it}\n" for it in events)
    return found + differs(["replay", path, events_path], lines)


def main():
    words = argparse.ArgumentParser(description=__doc__.splitlines()[0])
    words.add_argument("program")
    words.add_argument("files", nargs="*")
    words.add_argument("--seed", type=int, default=1)
    words.add_argument("--cases", type=int, default=100)
    words.add_argument("--packets", type=int, default=20)
    words = words.parse_intermixed_args()
    passed = failed = 0
    with tempfile.TemporaryDirectory() as folder:
        path, events = os.path.join(folder, "network.json"), os.path.join(folder, "events.txt")
        for case in words.files or range(words.cases):
            rng = random.Random(words.seed * 1_000_003 + case) if not words.files else random.Random(f"{words.seed} {case}")
            if words.files:
                with open(case, "rb") as file:
                    text = file.read()
            else:
                text = networks.network(rng)
            with open(path, "wb") as file:
                file.write(text)
            if subprocess.run([words.program, "trace", path, *"open from internet tcp 1.1.1.1 2.2.2.2 1 2".split()], capture_output=True, check=False).returncode == 3:
                continue
            found = differences(words.program, path, events, Packets(rng, text), words.packets)
            passed, failed = passed + (not found), failed + bool(found)
            for asked_words, told, lines in found[:2]:
                print(f"{case}: {' '.join(asked_words)}", *told, "in place of", *lines, sep="\n", flush=True)
    print(f"{passed} passed, {failed} failed")
    return 1 if failed else 0


if __name__ == "__main__":
    sys.exit(main())
