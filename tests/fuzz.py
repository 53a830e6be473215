#!/usr/bin/env python3
"""Broken and odd input, at random: tests/fuzz.py [PROGRAM] [--seed S] [--cases N] [--only K] [--damage]

Each case is one run of PROGRAM (without it out/vpc): a command, a bundle, and a report or events where the command reads them.
Bundles are made at random (networks.py) or come from examples/ and bench/; they, the second files and the words are mostly
damaged (damage.py): bits, parts, tokens exchanged or copied, members and rows repeated, deep nesting, numbers and texts that
don't fit. Reports are also rewritten so that they stay true: rows in another order, or in pieces, leaves of a tree cut, and a tree
told as rows.

Of each case it wants: an end within 20 seconds, by no signal; nothing on standard error; a status of docs/ANSWERS.md, which is
6 for a missing file alone and neither 7 nor 8; one of the texts of answers.py; and that the text is true as far as other runs tell.
The word that is refused is the first wrong one. The rows of a report are disjoint and make up its box, and `replay` stops some
packets of some rows where the rows say; it brings the packet of `reachable` there and back. `trace` and `replay` end alike, and
`why` has the lines of `trace`. A yes of `check` is true in the same ways, and so is a no.

--damage runs other cases: each byte of three reports, of which one is a tree, removed, doubled or replaced by each of some others.

A case is told by the seed and its number alone: `--seed S --only K` runs it again, shows it and keeps its files.
"""

import argparse
import collections
import concurrent.futures
import functools
import os
import random
import shutil
import signal
import sys
import tempfile
import time

import answers
import damage
import networks

TOP = os.path.dirname(os.path.dirname(os.path.abspath(__file__)))
SECONDS = 20
PROCESSES = 2
CHUNK = 250


# ---- runs

class TooLong(Exception):
    pass


def too_long(*_):
    raise TooLong


class Machine:
    """Runs of the program in a folder of their own. Files are written by their names there."""

    def __init__(self, program, folder):
        self.program, self.slowest = program, 0.0
        os.makedirs(folder, exist_ok=True)
        os.chdir(folder)
        signal.signal(signal.SIGALRM, too_long)

    def write(self, name, data):
        with open(name, "wb") as file:
            file.write(data)

    def run(self, words):
        """The status (negative for a signal, None where it did not end), the standard output and the standard error."""
        opened = [(os.POSIX_SPAWN_OPEN, 0, os.devnull, os.O_RDONLY, 0), *((os.POSIX_SPAWN_OPEN, n, name, os.O_WRONLY | os.O_CREAT | os.O_TRUNC, 0o600) for n, name in ((1, "out"), (2, "err")))]
        start = time.perf_counter()
        child = os.posix_spawn(self.program, [self.program, *words], {}, file_actions=opened)
        signal.alarm(SECONDS)
        try:
            status = os.waitstatus_to_exitcode(os.waitpid(child, 0)[1])
        except TooLong:
            os.kill(child, signal.SIGKILL)
            os.waitpid(child, 0)
            status = None
        signal.alarm(0)
        self.slowest = max(self.slowest, time.perf_counter() - start)
        with open("out", "rb") as out, open("err", "rb") as err:
            return status, out.read(), err.read()

    def replay(self, events):
        """How the packets of these lines end in the bundle of the case, each as the words after its number."""
        self.write("other.txt", events.encode())
        status, text, errors = self.run([b"replay", b"b.json", b"other.txt"])
        if status != 0 or errors:
            raise Untrue(f"status {status} of the replay of {events!r}")
        return [line.split(b" ")[2:] for line in text.splitlines()]


# ---- cases

def compact(path):
    with open(os.path.join(TOP, path), "rb") as file:
        return b"".join(token for token in damage.TOKEN.findall(file.read()) if not token.isspace())


SMALL = ("examples/one-subnet.json", "bench/behind-nat.json")
LARGE = ("examples/three-tiers.json", "examples/two-accounts.json", "examples/hub.json")


@functools.lru_cache(maxsize=16)
def base(seed, number):
    """A bundle that is mostly accepted, with its ends."""
    rng = random.Random(f"{seed} bundle {number}")
    what = rng.random()
    text = networks.network(rng) if what < 0.84 else compact(rng.choice(SMALL if what < 0.96 else LARGE))
    return text, networks.Ends(text)


COMMANDS = (b"trace", b"why", b"ask", b"check", b"replay", b"make")


class Case:
    """Words, and the files that they name: the bundle and the second file."""

    def __init__(self, machine, seed, number):
        rng = self.rng = random.Random(f"{seed} case {number}")
        self.second = None
        text, ends = base(seed, number // 10)
        command = rng.choices(COMMANDS, (16, 8, 24, 32, 18, 2))[0]
        broken = 0.15 if command == b"check" else 0.4 if command == b"replay" else 0.65
        self.bundle = damage.json_text(rng, text) if rng.random() < broken else text
        self.words = getattr(self, command.decode())(machine, rng, text, ends)
        if rng.random() < (0.1 if command in (b"check", b"replay") else 0.3):
            self.words = [word.replace(b"\0", b"0") for word in damage.words_of(rng, self.words)]

    def trace(self, _machine, rng, _text, ends):
        return [b"trace", b"b.json", *ends.packet(rng)]

    def why(self, _machine, rng, _text, ends):
        return [b"why", b"b.json", *ends.packet(rng)]

    def ask(self, _machine, rng, _text, ends):
        return [b"ask", b"b.json", *ends.query(rng)]

    def make(self, _machine, rng, _text, _ends):
        return [b"make", rng.choice((b"1", b"2", b"7", b"50", b"51", b"0", b"00", b"+1", b"1.0", b"-1", b"99999999999999999999", b""))]

    def replay(self, _machine, rng, _text, ends):
        lines = [b" ".join(ends.packet(rng)) for _ in range(rng.choice((0, 1, 2, 5, 20)))]
        lines += [rng.choice(lines) for _ in range(rng.choice((0, 3)) if lines else 0)]
        text = b"".join(line + b"\n" for line in lines)
        self.second = damage.line_text(rng, text) if rng.random() < 0.5 else text
        return [b"replay", b"b.json", b"s.txt"]

    def check(self, machine, rng, text, ends):
        machine.write("b.json", text)
        status, printed, _ = machine.run([b"ask", b"b.json", *ends.query(rng)])
        report = answers.report_of(printed) if status in (1, 5) else made_report(rng, ends)
        is_tree = bool(report.nodes) and rng.random() < 0.7
        for _ in range(rng.choice((0, 1, 1, 2, 3)) if len(report.rows) < 1000 else 0):
            if not is_tree or any(map(is_leaf, report.nodes)):
                rng.choice(TREE_REWRITES if is_tree else REWRITES)(rng, report)
        text = report.tree_text() if is_tree else report.text()
        self.second = text if rng.random() < 0.65 else damage.line_text(rng, text)
        return [b"check", b"b.json", b"s.txt"]


def made_report(rng, ends):
    """A report that nobody printed, mostly untrue."""
    box = ((6, 6), *((answers.address(a),) * 2 for a in (ends.address(rng), ends.address(rng))), (0, 65535), tuple(networks.ports(rng)))
    start, goal = rng.choice(ends.ids), rng.choice(ends.ids)
    return answers.Report(start, goal, box, [((rng.choice((b"request", b"reply")), rng.choice((b"GroupsIn", b"NoRoute", b"AclIn")), goal, b"-"), box)])


# ---- reports that are rewritten: some stay true

def in_pieces(rng, report):
    k = damage.at(rng, report.rows)
    if report.rows:
        what, box = report.rows[k]
        side = rng.choice([n for n in range(5) if box[n][0] < box[n][1]] or [None])
        if side is not None:
            low, high = box[side]
            middle = rng.randrange(low, high)
            parts = [(*box[:side], part, *box[side + 1 :]) for part in ((low, middle), (middle + 1, high))]
            report.rows[k : k + 1] = [(what, part) for part in parts]


def in_another_order(rng, report):
    rng.shuffle(report.rows)


def left_out(rng, report):
    if report.rows:
        del report.rows[damage.at(rng, report.rows)]


def repeated(rng, report):
    if report.rows:
        report.rows.insert(damage.at(rng, report.rows), rng.choice(report.rows))


def moved(rng, box):
    side = rng.randrange(5)
    low, high = box[side]
    low, high = rng.choice(((low, high + 1), (low, high - 1), (low - 1, high), (low + 1, high), (low, low), (high, high)))
    most = (255, 2**32 - 1, 2**32 - 1, 65535, 65535)[side]
    return (*box[:side], (min(max(low, 0), most), min(max(high, 0), most)), *box[side + 1 :])


def row_moved(rng, report):
    if report.rows:
        k = damage.at(rng, report.rows)
        report.rows[k] = (report.rows[k][0], moved(rng, report.rows[k][1]))


def box_moved(rng, report):
    report.box = moved(rng, report.box)


def stops_exchanged(rng, report):
    if report.rows:
        k, n = damage.at(rng, report.rows), damage.at(rng, report.rows)
        (a, x), (b, y) = report.rows[k], report.rows[n]
        report.rows[k], report.rows[n] = (b, x), (a, y)


def another_stop(rng, report):
    if report.rows:
        k, part = damage.at(rng, report.rows), rng.randrange(4)
        what, box = report.rows[k]
        word = (rng.choice((b"request", b"reply")), rng.choice((b"GroupsIn", b"GroupsOut", b"AclIn", b"AclOut", b"NoRoute", b"WrongPlace")), rng.choice(report.rows)[0][2], rng.choice((b"-", b"100", b"32767", b"1")))[part]
        report.rows[k] = ((*what[:part], word, *what[part + 1 :]), box)


def ends_exchanged(_rng, report):
    report.start, report.goal = report.goal, report.start


REWRITES = (in_pieces, in_pieces, in_pieces, in_another_order, in_another_order, left_out, repeated, row_moved, row_moved, box_moved, stops_exchanged, another_stop, another_stop, ends_exchanged)

# ---- and trees

def is_leaf(node):
    return node.startswith(b"leaf ")


def some_node(rng, report, kind):
    found = [k for k, node in enumerate(report.nodes) if is_leaf(node) == kind]
    return rng.choice(found) if found else None


def cut_text(side, number):
    return b"cut " + answers.SIDES[side] + b" " + (answers.dotted(number) if side in (1, 2) else str(number)).encode()


def leaf_cut(rng, report):
    """A leaf in two, at any number."""
    k = some_node(rng, report, True)
    rows = answers.leaves_of(report.nodes, report.box)
    if rows is None:
        return
    box = rows[sum(map(is_leaf, report.nodes[:k]))][1]
    side = rng.choice([n for n in range(5) if box[n][0] < box[n][1]] or [None])
    if side is not None:
        report.nodes[k:k] = [cut_text(side, rng.randint(box[side][0] + 1, box[side][1])), report.nodes[k]]


def cut_moved(rng, report):
    k = some_node(rng, report, False)
    if k is not None:
        _, side, number = report.nodes[k].split(b" ")
        side = answers.SIDES.index(side)
        number = answers.address(number) if side in (1, 2) else int(number)
        report.nodes[k] = cut_text(rng.choice((side, side, rng.randrange(5))), max(0, number + rng.choice((-1, 1, 256))))


def nodes_exchanged(rng, report):
    k, n = damage.at(rng, report.nodes), damage.at(rng, report.nodes)
    report.nodes[k], report.nodes[n] = report.nodes[n], report.nodes[k]


def node_lost(rng, report):
    del report.nodes[damage.at(rng, report.nodes)]


def node_repeated(rng, report):
    report.nodes.insert(damage.at(rng, report.nodes), rng.choice(report.nodes))


def another_leaf(rng, report):
    k = some_node(rng, report, True)
    words = report.nodes[k].split(b" ")
    at = rng.randrange(1, 5)
    words[at] = rng.choice(((b"request", b"reply"), (b"GroupsIn", b"GroupsOut", b"AclIn", b"NoRoute", b"BlockPublicAccess", b"WrongPlace"), (report.start, report.goal), (b"-", b"100", b"1", b"block-ingress"))[at - 1])
    report.nodes[k] = b" ".join(words)


TREE_REWRITES = (leaf_cut, leaf_cut, leaf_cut, cut_moved, cut_moved, nodes_exchanged, node_lost, node_repeated, another_leaf, ends_exchanged)

TWO_ROWS = b"""vpc-report 1
query from eni-a to eni-b
box 6-6 10.0.1.10-10.0.1.10 10.0.2.20-10.0.2.20 0-32767 443-443
row 1 reply AclOut acl-b 32767 6-6 10.0.1.10-10.0.1.10 10.0.2.20-10.0.2.20 0-1023 443-443
row 2 reply AclOut acl-b 32767 6-6 10.0.1.10-10.0.1.10 10.0.2.20-10.0.2.20 1024-32767 443-443
end 2
"""
ASKED = b"""vpc-report 1
query from eni-a to internet
box 6-6 10.0.1.10-10.0.1.10 10.9.0.0-10.9.255.255 0-65535 443-443
row 1 request PrivateAddress internet - 6-6 10.0.1.10-10.0.1.10 10.9.0.0-10.9.255.255 0-1023 443-443
row 2 request PrivateAddress internet - 6-6 10.0.1.10-10.0.1.10 10.9.0.0-10.9.255.255 1024-65535 443-443
end 2
"""
# (no cut of it may stand elsewhere: what is stopped below it is stopped otherwise)
TREE = b"""vpc-report 2
query from eni-a to eni-b
box 6-6 10.0.1.8-10.0.1.11 10.0.2.20-10.0.2.20 5000-5000 440-446
cut src 10.0.1.10
leaf request SourceCheck eni-a -
cut src 10.0.1.11
cut q 443
leaf request GroupsIn eni-b -
cut q 444
leaf reply AclOut acl-b 32767
leaf request GroupsIn eni-b -
leaf request SourceCheck eni-a -
end 5
"""
# The second subnet of bench/behind-nat.json gets an ACL of its own, which lets out what goes to high ports alone.
OWN_ACL = (b'{"NetworkAclId":"acl-b","Associations":[{"SubnetId":"subnet-b"}],"Entries":[{"RuleNumber":100,"Egress":false,"Protocol":"-1","RuleAction":"allow","CidrBlock":"0.0.0.0/0"},'
           b'{"RuleNumber":100,"Egress":true,"Protocol":"6","PortRange":{"From":32768,"To":65535},"RuleAction":"allow","CidrBlock":"0.0.0.0/0"}]},')
REPLACEMENTS = (*b"0123456789 -.\n\r\0az\xff",)
BITS = tuple(1 << k for k in range(8))


@functools.lru_cache(maxsize=1)
def three_reports():
    """Three true reports, each with its bundle: the second and the third one are as `ask` prints them."""
    behind = compact("bench/behind-nat.json")
    own = behind.replace(b',{"SubnetId":"subnet-b"}],"Entries"', b'],"Entries"').replace(b'"NetworkAcls":[', b'"NetworkAcls":[' + OWN_ACL)
    return (own, TWO_ROWS), (behind, ASKED), (own, TREE)


@functools.lru_cache(maxsize=1)
def damaged():
    """The bundles with each text of their reports in which one byte is removed, doubled or another one."""
    found = []
    for bundle, text in three_reports():
        texts = {}
        for k, old in enumerate(text):
            for new in (b"", bytes([old] * 2), *(bytes([old ^ bit]) for bit in BITS), *(bytes([n]) for n in REPLACEMENTS)):
                texts[text[:k] + new + text[k + 1 :]] = None
        del texts[text]
        found += [(bundle, other) for other in texts]
    return found


class Damaged:
    """A check of a damaged report."""

    def __init__(self, _machine, _seed, number):
        self.rng, self.words = random.Random(number), [b"check", b"b.json", b"s.txt"]
        self.bundle, self.second = damaged()[number]


# ---- what must hold

class Untrue(Exception):
    pass


def want(holds, why):
    if not holds:
        raise Untrue(why)


LEAST_AND_MOST = {b"trace": (10, 10), b"why": (10, 10), b"ask": (6, 18), b"check": (3, 4), b"replay": (3, 3), b"make": (2, 2)}


def wrong_word(words):
    """The number of the first word that is no word of a command, 0 where there is none."""
    for k, word in enumerate(words):
        if word[:1] in (b"", b"-") or not is_text(word):
            return k + 1
    if not words or words[0] not in LEAST_AND_MOST:
        return 1
    least, most = LEAST_AND_MOST[words[0]]
    if len(words) > most:
        return most + 1
    return len(words) + 1 if len(words) < least or words[0] == b"ask" and len(words) % 2 else 0


def is_text(word):
    try:
        return bool(word.decode() or True)
    except UnicodeDecodeError:
        return False


def judge(machine, case):
    """Runs the case and gives its status and text; Untrue where something doesn't hold."""
    machine.write("b.json", case.bundle)
    if case.second is not None:
        machine.write("s.txt", case.second)
    status, text, errors = machine.run(case.words)
    want(status is not None, f"no end after {SECONDS} seconds")
    want(status >= 0, f"signal {-status}")
    want(not errors, f"on standard error: {errors[:200]!r}")
    number = wrong_word(case.words)
    if number or status == 2:
        want(status == 2 and text == b"refused words %d\n" % number, f"word {number} is wrong: status {status}, {text[:80]!r}")
        return status, text
    # The words may name no file that is there.
    named = case.words[1:2] if case.words[0] != b"make" else []
    named += case.words[2:4] if case.words[0] in (b"check", b"replay") else []
    missing = [k + 1 for k, name in enumerate(named) if not os.path.isfile(name)]
    want(status != 6 or missing and text == b"read fault %d\n" % missing[0], f"{text!r}")
    want(status not in (7, 8), f"status {status}")
    want(answers.is_defined(case.words[0].decode(), status, text), f"an undefined text with status {status}: {text[:300]!r}")
    if named in ([b"b.json"], [b"b.json", b"s.txt"]):
        TRUE[case.words[0]](machine, case, status, text)
    return status, text


def some_packet(rng, box):
    return tuple(rng.randint(low, high) for low, high in box)


def row_holds(machine, report, row, h):
    """Whether the packet is stopped as the row says, where it is one that `trace` takes."""
    what, box = row
    if answers.is_packet(h):
        found = answers.fate(machine.replay, report.start, report.goal, h)
        want(found == what, f"{answers.header_text(h)} of a row of {b' '.join(what)!r}: {b' '.join(found)!r}")


FEW = 120


def rows_hold(machine, rng, report, is_whole, samples):
    """Rows are disjoint, lie in the box and make it up, and some packets are stopped as their rows say."""
    want(all(answers.is_inside(box, report.box) for _, box in report.rows), "a row beyond the box")
    if len(report.rows) <= FEW:
        want(answers.first_overlap(report.rows) is None, "rows that overlap")
    want(not is_whole or answers.leaves_out(report) == 0, "packets in no row")
    for row in rng.sample(report.rows, min(samples, len(report.rows))):
        for h in (answers.corner(row[1]), some_packet(rng, row[1])):
            row_holds(machine, report, row, h)


def trace_is_true(machine, case, status, text):
    if status in (0, 1) and case.rng.random() < 0.5:
        end = machine.replay(b" ".join(case.words[2:]).decode() + "\n")[0]
        last = text.splitlines()[-1].split(b" ")
        want(end[: len(last)] == last, f"`replay` ends otherwise: {end}")


def why_is_true(machine, case, status, text):
    if status in (0, 1):
        kept = b"".join(line for line in text.splitlines(True) if line.split(b" ", 1)[0] in (b"hop", b"arrived", b"stopped"))
        want(machine.run([b"trace", *case.words[1:]])[:2] == (status, kept), "`trace` has other lines")


def asked_box(words):
    """The sides of the box that the words of a query tell: None where an address is left to the ends."""
    told = dict(zip(words[6::2], words[7::2]))
    proto = told.get(b"proto", b"tcp")
    proto = answers.PROTOS.get(proto) or int(proto)
    addresses = [answers.block(told[name]) if name in told else None for name in (b"src", b"dst")]
    every = b"0-65535" if proto in (1, 6, 17) else b"0-0"
    return ((proto, proto), *addresses, *(tuple(map(int, told.get(name, every).split(b"-"))) for name in (b"sport", b"port")))


def ask_is_true(machine, case, status, text):
    rng = case.rng
    if status == 0:
        h = answers.header_of(text.split(b"\n", 2)[1].split(b" ")[1:])
        want(all(side is None or side[0] <= n <= side[1] for side, n in zip(asked_box(case.words), h)), "the packet isn't asked about")
        want(answers.fate(machine.replay, case.words[3], case.words[5], h) == (b"through",), "the packet doesn't get through")
    if status in (1, 5):
        report = answers.report_of(text)
        want(report is not None, "no tree of its box")
        told = dict(zip(case.words[6::2], case.words[7::2]))
        want(bool(report.nodes) == (status == 1 and int(told.get(b"max", 20000)) > 20000), "a report in the other form")
        want((report.start, report.goal) == (case.words[3], case.words[5]), "other ends")
        want(all(asked in (None, told) for asked, told in zip(asked_box(case.words), report.box)), "another box")
        rows_hold(machine, rng, report, status == 1, 2)
        corners = [answers.corner(box) for _, box in report.rows]
        want(report.nodes or corners == sorted(corners), "rows in another order")
        # (leaves are joined along q alone)
        along = (4,) if int(told.get(b"max", 20000)) > 20000 else (3, 4)
        want(report.nodes or not any(answers.could_be_one(*two, along) for two in zip(report.rows, report.rows[1:])), "two rows that could be one")
        if status == 5:
            h = answers.header_of(text.splitlines()[-2].split(b" ")[1:])
            want(answers.holds(report.box, h) and not any(answers.holds(box, h) for _, box in report.rows), "`next` is in a row")


def check_is_true(machine, case, status, text):
    rng, words = case.rng, text.split()
    if status not in (0, 1):
        return
    report = answers.report_of(case.second)
    want(report is not None and case.second.startswith((b"vpc-report 1\n", b"vpc-report 2\n")), "a report in another form was read")
    if status == 0:
        rows_hold(machine, rng, report, True, 4)
        return
    if len(report.rows) > FEW:
        return
    shared = answers.first_overlap(report.rows)
    if words[1] == b"overlap":
        want((int(words[2]), int(words[3])) == shared, f"the first overlap is {shared}")
        return
    want(shared is None, f"the overlap {shared} isn't told")
    if words[1] == b"uncovered":
        h = answers.header_of(words[2:])
        want(answers.holds(report.box, h) and not any(answers.holds(box, h) for _, box in report.rows), "the packet is in a row")
        return
    want(answers.leaves_out(report) == 0, "packets in no row aren't told")
    row, h, found = report.rows[int(words[2]) - 1], answers.header_of(words[3:8]), tuple(words[8:])
    want(answers.holds(row[1], h) and found != row[0], "the row is true of the packet")
    want(not answers.is_packet(h) or answers.fate(machine.replay, report.start, report.goal, h) == found, "another thing becomes of the packet")
    before = some_packet(rng, row[1])
    if before < h:
        row_holds(machine, report, row, before)


def replay_is_true(machine, case, status, text):
    if status == 0:
        due = len(case.second.split(b"\n")) - (case.second.endswith(b"\n")) if case.second else 0
        want(text.count(b"\n") == due, f"{text.count(10)} endings for {due} packets")


def make_is_true(_machine, case, status, text):
    want(status == 4 or text.count(b"\n") == 1 + int(case.words[1]), "another number of pairs")


TRUE = {b"trace": trace_is_true, b"why": why_is_true, b"ask": ask_is_true, b"check": check_is_true, b"replay": replay_is_true, b"make": make_is_true}


# ---- many cases

MACHINE = []


def start(program, folder):
    MACHINE.append(Machine(program, os.path.join(folder, str(os.getpid()))))


def first_words(text):
    """The words of an answer's first line that say of which kind it is."""
    words = text.split(b"\n", 1)[0].split(b" ")
    return " ".join(word.decode() for word in (words[:3] if words[0] == b"refused" else words[:2] if words[0] in (b"no", b"more") else words[:1]) if not word.isdigit())


def chunk(kind, seed, first, last):
    """Counts of what came, and what is wrong."""
    counts, wrong = collections.Counter(), []
    for number in range(first, last):
        try:
            case = kind(MACHINE[0], seed, number)
            status, text = judge(MACHINE[0], case)
            counts[case.words[0].decode("latin-1") if case.words and case.words[0] in COMMANDS else "other", status, first_words(text)] += 1
        except Untrue as why:
            wrong.append((number, str(why)))
        except Exception as error:  # pylint: disable=broad-except
            wrong.append((number, f"this script failed: {error!r}"))
    return counts, wrong, MACHINE[0].slowest


def run_all(kind, program, seed, cases):
    counts, wrong, slowest, began = collections.Counter(), 0, 0.0, time.time()
    shared = "/dev/shm" if os.path.isdir("/dev/shm") else None
    with tempfile.TemporaryDirectory(dir=shared) as folder, concurrent.futures.ProcessPoolExecutor(PROCESSES, initializer=start, initargs=(program, folder)) as pool:
        parts = [pool.submit(chunk, kind, seed, first, min(first + CHUNK, cases)) for first in range(0, cases, CHUNK)]
        for part in concurrent.futures.as_completed(parts):
            more, faults, slow = part.result()
            counts, wrong, slowest = counts + more, wrong + len(faults), max(slowest, slow)
            for number, why in faults:
                print(f"case {number}: {why}\n    tests/fuzz.py PROGRAM --seed {seed} --only {number}{' --damage' if kind is Damaged else ''}", flush=True)
    for (command, status, what), count in sorted(counts.items()):
        print(f"{command} {status} {what}: {count}")
    print(f"seed {seed}: {cases} cases in {time.time() - began:.0f} seconds, the slowest run {slowest:.2f} seconds")
    print(f"{cases - wrong} passed, {wrong} failed")
    return wrong


def run_one(kind, program, seed, number):
    folder = tempfile.mkdtemp(prefix=f"fuzz-{number}-")
    machine = Machine(program, folder)
    case = kind(machine, seed, number)
    print(f"in {folder}: {' '.join(map(repr, case.words))}")
    try:
        status, text = judge(machine, case)
    except Untrue as why:
        print(f"failed: {why}")
        machine.write("b.json", case.bundle)
        print(machine.run(case.words))
        return 1
    print(f"status {status}\n{text.decode('latin-1')}")
    return 0


def main():
    parser = argparse.ArgumentParser(description=__doc__.splitlines()[0])
    parser.add_argument("program", nargs="?", default=os.path.join(TOP, "out/vpc"))
    parser.add_argument("--seed", type=int, default=1)
    parser.add_argument("--cases", type=int)
    parser.add_argument("--only", type=int)
    parser.add_argument("--damage", action="store_true")
    told = parser.parse_args()
    kind, program = (Damaged if told.damage else Case), os.path.abspath(told.program)
    if told.only is not None:
        sys.exit(run_one(kind, program, told.seed, told.only))
    cases = told.cases or (len(damaged()) if told.damage else 10_000)
    sys.exit(1 if run_all(kind, program, told.seed, cases) else 0)


if __name__ == "__main__":
    main()
