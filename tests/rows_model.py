"""What words of `reach` and `diff` ask for, the answer as the model makes it, and the judge of any other.

Both commands tell rows: a start, what is told of some packets from there, and a box of them. A kind of question (reach_model.py,
diff_model.py) says which words it takes, what its text looks like and what is told of one header, by model.py. Here is the rest: reading
the words, and refusing them; reading rows; judging them; making them of all cells; and trying the judge itself on damaged texts.
"""

import argparse
import json
import os
import random
import re
import subprocess
import tempfile

import model
import networks
from answers import BOX, COUNT, HEADER, ID, NUMBER

WITH_PORTS = (model.ICMP, model.TCP, model.UDP)
MOST_ROWS, MOST_HOSTS = 20000, 500
FEW_CELLS = 6000  # of a question by which the judge is tried


def text_of(first, more, told):
    """The grammar of a text whose rows tell that of a start."""
    rows = rf"(?P<rows>(?:row {COUNT} {ID} {told} {BOX}\n)*)"
    return re.compile(rf"(?:(?P<whole>{first})|{more})\n(?P<query>query[^\n]*)\n{rows}(?:end (?P<count>{NUMBER})|next (?P<start>{ID}) (?P<next>{HEADER}))\n")


# ---- words

class Refused(Exception):
    """With the line, and its status."""

    def __init__(self, line, status=4):
        super().__init__(line)
        self.line, self.status = line, status


def refuse(text, what="query"):
    raise Refused(f"refused {what} {text}")


def number_of(text, most):
    """A decimal number without leading zeros, or None."""
    return int(text) if re.fullmatch(NUMBER, text) and len(text) <= 10 and int(text) <= most else None


class Question:
    """What words after the files ask for; the words are as many as they may be."""

    command, files = None, 1
    pairs = ("from", "to", "proto", "src", "dst", "sport", "port", "max")

    def __init__(self, described, words):
        self.networks, self.told = described, {}
        for place in range(0, len(words), 2):
            self.read(place + self.files + 2, *words[place:place + 2])
        self.start, self.goal, self.max = self.told.get("from", model.ANY), self.told.get("to", model.ANY), self.told.get("max", MOST_ROWS)
        self.given = words[: len(words) - 2 * ("max" in self.told)]
        self.settle_ports(None)
        self.settle_starts()

    def settle_ports(self, default):
        """The sides of protocols and ports; with ports it is TCP where no protocol is told."""
        proto = self.told.get("proto", model.TCP if "sport" in self.told or "port" in self.told else default)
        ports = (0, 65535) if proto in (None, *WITH_PORTS) else (0, 0)
        self.proto, self.p, self.q = ((0, 255) if proto is None else (proto, proto)), self.told.get("sport", ports), self.told.get("port", ports)

    def settle_starts(self):
        hosts = {it.id for network in self.networks for it in network.interfaces.values() if not it.gateway}
        fars = {it.id for network in self.networks for it in network.fars.values() if network.is_far_end(it) and model.may_start(it)}
        if self.start not in (model.ANY, model.INTERNET) and "src" not in self.told and self.described(self.start) and not self.primaries(self.start):
            refuse(f"NoAddress {self.start}")
        if self.start is self.goal is model.ANY and len(hosts) > MOST_HOSTS:
            refuse("TooManyInterfaces", self.command)
        senders = sorted((it for it in hosts if "src" in self.told or self.primaries(it)), key=str.encode)
        # (the word means the internet alone, also where something else has the name)
        every = [model.INTERNET, *senders, *sorted(fars - hosts - {"internet"}, key=str.encode)]
        self.starts = [it for it in every if it != self.goal] if self.start is model.ANY else [self.start]

    def described(self, name):
        """The interfaces of that id, one of each network that has it."""
        return [it.interfaces[name] for it in self.networks if name in it.interfaces]

    def beyond(self, name):
        """What leads by that id to networks that aren't described, one of each network that has it and no interface of that id."""
        return [it.fars[name] for it in self.networks if name in it.fars and name not in it.interfaces]

    def is_none(self, name):
        """Whether packets don't start or arrive at what has the name in one of the networks."""
        return any(not it.is_end(name) for it in self.networks if name in it.interfaces or name in it.fars)

    def primaries(self, name):
        """The primary addresses that a host has in any of the networks."""
        return sorted({it.primary for it in self.described(name) if not it.gateway and it.primary is not None})

    def read(self, number, name, value):
        """A pair, whose name is the word of that number."""
        follows = name in self.pairs and all(self.pairs.index(name) > self.pairs.index(it) for it in self.told)
        if not follows or (name in ("sport", "port") and self.told.get("proto", model.TCP) not in WITH_PORTS):
            refuse(f"BadWord {number}")
        reader = {"from": self.first_end, "to": self.end, "proto": self.protocol, "src": self.prefix, "dst": self.prefix, "max": self.limit}.get(name, self.range)
        self.told[name] = reader(number + 1, value)

    def end(self, number, value):
        if value == "internet":
            if self.told.get("from", model.ANY) is model.INTERNET:
                refuse("BothInternet")
            return model.INTERNET
        if not self.described(value) and not self.beyond(value):
            refuse(f"UnknownId {number}")
        return refuse(f"NotAnEnd {value}") if self.is_none(value) else value

    def first_end(self, number, value):
        """An end that may be asked about as a start."""
        told = self.end(number, value)
        return refuse(f"NotAStart {number}") if not all(map(model.may_start, self.beyond(told))) else told

    def protocol(self, number, value):
        told = model.NUMBERS.get(value, number_of(value, 255))
        return refuse(f"BadWord {number}") if told is None else told

    def prefix(self, number, value):
        parts = re.fullmatch(r"(\d+)\.(\d+)\.(\d+)\.(\d+)/(\d+)", value)
        if not parts or None in [number_of(it, 32 if k == 4 else 255) for k, it in enumerate(parts.groups())]:
            refuse(f"BadWord {number}")
        told = model.block(value)
        return (told.first, told.last)

    def range(self, number, value):
        told = [number_of(it, 65535) for it in value.split("-")]
        if len(told) != 2 or None in told:
            refuse(f"BadWord {number}")
        return tuple(told) if told[0] <= told[1] else refuse(f"EmptyRange {number}")

    def limit(self, number, value):
        told = number_of(value, 10**10)
        if told is None:
            refuse(f"BadWord {number}")
        return told if 1 <= told <= MOST_ROWS else refuse("MaxOutOfRange")

    def boxes(self, start):
        """What is asked for from a start, by low corners."""
        every = (0, model.LAST[1])
        if "src" in self.told:
            sources = [self.told["src"]]
        else:
            sources = [every] if start is model.INTERNET or self.beyond(start) else [(it, it) for it in self.primaries(start)]
        if "dst" in self.told or self.goal in (model.ANY, model.INTERNET) or self.beyond(self.goal):
            targets = [self.told.get("dst") or every]
        else:
            told = [(it, it) for row in self.described(self.goal) for pair in row.addresses for it in pair if it is not None]
            told += [(it.first, it.last) for row in self.described(self.goal) for it in row.blocks]
            # (those that lie in no other)
            targets = [it for it in sorted(set(told)) if not any(other != it and other[0] <= it[0] and it[1] <= other[1] for other in told)]
        return [(self.proto, src, dst, self.p, self.q) for src in sources for dst in targets]

    def back_at(self, network, start):
        """The ends at which the reply to a request of a start may arrive: of what leads outside, with no `from`, all that are starts."""
        # (an id that an interface has in either network is that of a host)
        return model.homes(network, start, [it for it in self.starts if not self.described(it)])

    def cuts(self):
        """Those of all networks."""
        return [sorted(set().union(*sides)) for sides in zip(*map(model.cuts, self.networks))]

    def named(self, name):
        """The start of a row; where an interface is named `internet`, it comes after the internet itself."""
        return model.INTERNET if name == "internet" and model.INTERNET in self.starts else name

    # -- what a kind of question says of itself

    text, more = None, None  # its grammar, and the first line where rows are left out
    narrow = 1  # how much the words of random cases leave out of everything

    @property
    def first(self):
        """The first line of a whole text."""
        return f"vpc-{self.command} 1"

    @staticmethod
    def status(rows):
        """That of a whole text."""
        raise NotImplementedError

    def is_told(self, start, header):
        """What a row with the header tells, or None, where it is to be in no row; and in which answers of the model that lies."""
        raise NotImplementedError

    @staticmethod
    def untold(told, start):
        """Another thing than a row tells."""
        raise NotImplementedError

    @staticmethod
    def texts(rng):
        """The files of a case; None: there is none."""
        raise NotImplementedError


# Bundles that are refused, with what is wrong with them: what they are otherwise the model doesn't tell.
SPOILED = {
    b"": "NotJson",
    b'{"Vpcs":[}': "NotJson",
    b"[1]": "WrongShape $",
    b'{"Subnets":7}': "WrongShape Subnets",
    b'{"Vpcs":[{"VpcId":"vpc-0","CidrBlock":"10.0.0.0"}]}': "BadText Vpcs[0].CidrBlock",
    b'{"Subnets":[{"SubnetId":"subnet-0","VpcId":"vpc-0","AvailabilityZone":"z"}]}': "MissingReference subnet-0 vpc-0",
}


def described(path, number):
    """The network of a file, the first or the second."""
    try:
        with open(path, "rb") as file:
            text = file.read()
    except OSError:
        raise Refused(f"read fault {number}", 6) from None
    spoiled = SPOILED.get(text.strip())
    if spoiled:
        raise Refused(f"refused description {'after ' if number == 2 else ''}{spoiled}", 3)
    return model.Network(json.loads(text))


def asked(kind, words):
    """The question of words, files first, or the line that refuses them with its status."""
    marked = next((k for k, word in enumerate(words, 2) if word == "" or word.startswith("-")), None)
    least, most = 1 + kind.files, 1 + kind.files + 2 * len(kind.pairs)
    count = 1 + len(words)
    try:
        if marked or not least <= count <= most or (count - least) % 2:
            raise Refused(f"refused words {marked or min(count, most) + 1}", 2)
        about = [described(path, number) for number, path in enumerate(words[: kind.files], 1)]
        return kind(about, words[kind.files:]), None
    except Refused as it:
        return it.line, it.status


# ---- rows

class Row:
    def __init__(self, start, told, box, number=0):
        self.start, self.told, self.box, self.number = start, told, tuple(box), number

    def holds(self, header):
        return all(low <= it <= high for (low, high), it in zip(self.box, header))

    def meets(self, other):
        return all(a <= d and c <= b for (a, b), (c, d) in zip(self.box, other.box))

    def __str__(self):
        return f"row {self.number} {self.start} {self.told} {model.told_box(self.box)}"


def read_box(words):
    sides = [it.split("-") for it in words]
    return [tuple(map(model.address if k in (1, 2) else int, side)) for k, side in enumerate(sides)]


def read_header(text):
    proto, src, dst, p, q = text.split()
    return model.Header(model.NUMBERS.get(proto) or int(proto), model.address(src), model.address(dst), int(p), int(q))


def read_row(line):
    words = line.split(" ")
    return Row(words[2], " ".join(words[3:-5]), read_box(words[-5:]), int(words[1]))


# ---- the judge

class Judge:
    """An answer about a question, and what is wrong with it."""

    def __init__(self, question, told, status, rng, most):
        self.question, self.status, self.rng, self.most = question, status, rng, most
        self.cuts, self.faults, self.rows, self.asked = question.cuts(), [], [], 0
        self.match = question.text.fullmatch(told)
        if not self.match:
            self.faults.append("no text of the grammar")
            return
        self.rows = [read_row(line) for line in self.match["rows"].splitlines()]
        self.next = (self.match["start"], read_header(self.match["next"])) if self.match["next"] else None
        self.frame()
        self.placed()
        if not self.faults:
            self.cells()

    def note(self, text):
        self.faults.append(text)

    def frame(self):
        """The lines about the rows, and the status."""
        rows, question, whole = len(self.rows), self.question, self.match["whole"]
        if self.match["query"] != " ".join(["query", *question.given]):
            self.note(f"repeats {self.match['query']!r}")
        if [row.number for row in self.rows] != list(range(1, rows + 1)):
            self.note("numbers")
        if bool(whole) != (self.next is None) or (whole and int(self.match["count"]) != rows):
            self.note("first and last line")
        if self.status != (question.status(rows) if whole else 5):
            self.note(f"status {self.status}")
        if rows > question.max or (not whole and rows != question.max):
            self.note(f"{rows} rows of {question.max}")
        if not whole and self.count() <= question.max:
            self.note("no more cells than rows may be")

    def count(self):
        """How many cells are asked for."""
        total = 0
        for box in [it for start in self.question.starts for it in self.question.boxes(start)]:
            sizes = 1
            for side_cuts, side in zip(self.cuts, box):
                sizes *= len(model.pieces(side_cuts, *side))
            total += sizes
        return total

    def placed(self):
        """The places of the rows: among each other, among the cuts and in what is asked for."""
        order = [model.name_of(it) for it in self.question.starts]
        places = [(order.index(row.start) if row.start in order else -1, model.low_corner(row.box)) for row in self.rows]
        if sorted(set(places)) != places and len(set(order)) == len(order):
            self.note("order")
        if self.next and (self.next[0] not in order or any(it >= (order.index(self.next[0]), self.next[1]) for it in places)):
            self.note("the next header before a row")
        for row in self.rows:
            wholes = [] if row.start not in order else [it for it in self.question.boxes(self.question.named(row.start)) if all(a <= c and d <= b for (a, b), (c, d) in zip(it, row.box))]
            if not wholes or any(low > high for low, high in row.box):
                self.note(f"row {row.number} is not asked for")
            elif not all((c == a or c in cuts) and (d == b or d + 1 in cuts) for (a, b), (c, d), cuts in zip(wholes[0], row.box, self.cuts)):
                self.note(f"row {row.number} is cut where no cut is")
        last = []
        for row in self.rows:
            last = [it for it in last if it.start == row.start and it.box[0][1] >= row.box[0][0]]
            self.faults += [f"rows {it.number} and {row.number} meet" for it in last if it.meets(row)]
            last.append(row)

    def cells(self):
        """What is told of headers."""
        for start in self.question.starts:
            name = model.name_of(start)
            rows = [row for row in self.rows if self.question.named(row.start) == start]
            for box in self.question.boxes(start):
                sides = [model.pieces(side_cuts, *side) for side_cuts, side in zip(self.cuts, box)]
                size = 1
                for it in sides:
                    size *= len(it)
                for header in (self.every(box) if size * len(self.question.starts) <= self.most else self.drawn(sides, rows, box)):
                    self.judge(start, name, rows, header)
            if self.next and self.next[0] == name:
                if self.question.is_told(start, self.next[1])[0] is None or any(row.holds(self.next[1]) for row in rows):
                    self.note("of the next header nothing is to be told, or it is in a row")
                if not any(Row("", "", it).holds(self.next[1]) for it in self.question.boxes(start)):
                    self.note("the next header is not asked for")
                return

    def every(self, box):
        return (model.low_corner(cell) for cell in model.cells(self.cuts, box))

    def drawn(self, sides, rows, box):
        """Headers of some cells: of rows, around rows, and anywhere."""
        whole = Row("", "", box)
        for row in rows:
            corners = [model.Header(*(self.rng.choice(side) for side in row.box)) for _ in range(4)] + [model.low_corner(row.box), model.Header(*(high for _, high in row.box))]
            yield from (it for it in corners if whole.holds(it))
            for side in range(5):
                for beyond in (row.box[side][0] - 1, row.box[side][1] + 1):
                    header = list(self.rng.choice(corners))
                    header[side] = beyond
                    if whole.holds(header):
                        yield model.Header(*header)
        single = [[it for it in side if it[0] == it[1]] or side for side in sides]  # such as the addresses of interfaces
        for _ in range(self.most // (2 * len(self.question.starts)) + 1):
            cell = [self.rng.choice(some if self.rng.random() < 0.6 and side in (1, 2) else every) for side, (some, every) in enumerate(zip(single, sides))]
            yield model.Header(*(low if self.rng.random() < 0.7 else self.rng.randint(low, high) for low, high in cell))

    def judge(self, start, name, rows, header):
        self.asked += 1
        held = [row for row in rows if row.holds(header)]
        if self.next and self.next[0] == name and header >= self.next[1] and not held:
            return
        told, answers = self.question.is_told(start, header)
        if held and told != held[0].told:
            self.note(f"row {held[0].number} is untrue of {header}: {', '.join(map(str, answers))}")
        if not held and told is not None:
            self.note(f"{header} from {name} is in no row: {told}")


# ---- the answer as the model makes it

class Telling:
    """The rows of a question: of all cells, joined where the walks don't tell them apart."""

    def __init__(self, question):
        self.question, self.cuts, self.rows = question, question.cuts(), []
        for start in question.starts:
            rows = [row for box in question.boxes(start) for row in self.told(start, box)]
            self.rows += sorted(rows, key=lambda row: model.low_corner(row.box))
        for number, row in enumerate(self.rows, 1):
            row.number = number

    def lines(self):
        """The text, and its status."""
        query, most = " ".join(["query", *self.question.given]), self.question.max
        if len(self.rows) > most:
            left = self.rows[most]
            return [self.question.more, query, *map(str, self.rows[:most]), f"next {left.start} {model.low_corner(left.box)}"], 5
        return [self.question.first, query, *map(str, self.rows), f"end {len(self.rows)}"], self.question.status(len(self.rows))

    def told(self, start, box):
        protos, srcs, dsts, ps, qs = (model.pieces(side_cuts, *side) for side_cuts, side in zip(self.cuts, box))

        def plane(proto, src, dst):
            """What becomes of each piece of p and q, by what is told of it and by the walks."""
            return tuple(tuple(self.one(start, model.Header(proto[0], src[0], dst[0], p[0], q[0])) for q in qs) for p in ps)

        whole = self.joined([(proto, self.joined([(src, self.joined([(dst, plane(proto, src, dst)) for dst in dsts])) for src in srcs])) for proto in protos])
        for proto, over_src in whole:
            for src, over_dst in over_src:
                for dst, over_ports in over_dst:
                    for told, p, q in self.in_plane(over_ports, ps, qs):
                        yield Row(model.name_of(start), told, (proto, src, dst, p, q))

    def one(self, start, header):
        told, answers = self.question.is_told(start, header)
        walked = tuple((it.value(), tuple((tuple(place for place, _, _ in walk.hops), tuple(walk.chosen)) for walk in it.walks)) for it in answers)
        return (told, walked)

    @staticmethod
    def joined(parts):
        """Neighbours of which the same is told, as one."""
        runs = []
        for side, told in parts:
            if runs and runs[-1][1] == told:
                runs[-1] = ((runs[-1][0][0], side[1]), told)
            else:
                runs.append((side, told))
        return runs

    def in_plane(self, over_ports, ps, qs):
        """Boxes of p and q: grown along q, then along p."""
        boxes = []
        for p, line in zip(ps, over_ports):
            for q, told in self.joined([(q, it[0]) for q, it in zip(qs, line)]):
                if told is None:
                    continue
                near = next((it for it in boxes if it[0] == told and it[2] == q and it[1][1] + 1 == p[0]), None)
                if near:
                    boxes.remove(near)
                boxes.append((told, (near[1][0] if near else p[0], p[1]), q))
        return boxes


# ---- cases

def ends_outside(about):
    """The far ends, each more than once; where there are some, also what leads to none."""
    fars = [(network.is_far_end(it), it.id) for network in about for it in network.fars.values()]
    ends = [name for is_end, name in fars if is_end]
    return 3 * ends + [name for is_end, name in fars if not is_end] if ends else []


def drawn_words(rng, about, narrow=1):
    """Words about networks; seldom some that are refused."""
    interfaces = {name: row for network in about for name, row in network.interfaces.items()}
    rows = [row for network in about for row in network.interfaces.values()]
    addresses = [it for row in rows for pair in row.addresses for it in pair if it is not None] + [it.last for row in rows for it in row.blocks] or [0]
    words = []
    # (with no `from`, what leads outside are links to one network)
    from_one = 0.2 if len(set(ends_outside(about))) > 1 else 0.6
    for name, chance in (("from", from_one), ("to", 0.4)):
        if rng.random() < chance * narrow:
            words += [name, rng.choice(["internet", *interfaces, *ends_outside(about)])]
    if rng.random() < 0.5:
        words += ["proto", rng.choice(("tcp", "tcp", "udp", "icmp", "6", "50"))]
    for name, chance in (("src", 0.2), ("dst", 0.4)):
        if rng.random() < chance * narrow:
            words += [name, f"{model.dotted(rng.choice(addresses))}/{rng.choice((0, 1, 8, 16, 24, 31, 32))}"]
    for name in ("sport", "port"):
        if rng.random() < 0.25 * narrow and "50" not in words:
            words += [name, "%d-%d" % tuple(networks.ports(rng))]
    if rng.random() < 0.2:
        words += ["max", str(rng.choice((1, 2, 3, 5, 20)))]
    if rng.random() < 0.97:
        return words
    return rng.choice([[*words, "port", "9-8"], ["port", "9-8", *words], [*words, "from", "x"], ["to", "none", *words], [*words, "max", "0"], [*words, "max"], [*words, "-x", "y"], [*words, "max", ""]])


def judged(kind, words, told, status, rng, most):
    """What is wrong with an answer to words, files first, and how many headers were asked."""
    question, refused = asked(kind, words)
    if refused:
        return ([] if (told, status) == (question + "\n", refused) else [f"status {status}, {told[:200]!r} in place of {question}"]), 0
    judge = Judge(question, told, status, rng, most)
    return judge.faults, judge.asked


def written(folder, texts):
    """The paths of the files of a case."""
    paths = [os.path.join(folder, f"network-{number}.json") for number in range(1, len(texts) + 1)]
    for path, text in zip(paths, texts):
        if os.path.exists(path):
            os.remove(path)
        if text is not None:
            with open(path, "wb") as file:
                file.write(text)
    return paths


def networks_of(texts):
    """The networks of the files that are told."""
    return [model.Network(json.loads(it)) for it in texts if it is not None and it not in SPOILED]


def numbered(lines):
    """The lines with the numbers and the count of the rows put right."""
    rows = [k for k, line in enumerate(lines) if line.startswith("row")]
    lines = [re.sub(r"^row \d+", f"row {rows.index(k) + 1}", line) if k in rows else line for k, line in enumerate(lines)]
    return [*lines[:-1], re.sub(r"^end \d+", f"end {len(rows)}", lines[-1])]


def otherwise(kind, row, how):
    """A row that tells another thing, or of another box."""
    if how == "told":
        row.told = kind.untold(row.told, row.start)
        return str(row)
    box = list(row.box)
    side = 4 if box[4] != (0, 65535) else 3
    low, high = box[side]
    box[side] = (low + 1, high) if how == "low" else (low, high - 1) if how == "high" or (low, high) == (0, 65535) else (0, 65535)
    row.box = box
    return str(row)


def damaged(kind, rng, lines, status):
    """What was done to a text, so that it isn't true any more, and the text."""
    rows = [k for k, line in enumerate(lines) if line.startswith("row")]
    ways = ["lost", "told", "low", "high", "twice", "status", "widened"] + ["order"] * (len(rows) > 1) + ["next"] * (status == 5)
    k, how, lines = rng.choice(rows), rng.choice(ways), list(lines)
    if how == "lost":
        lines, status = numbered(lines[:k] + lines[k + 1:]), kind.status(len(rows) - 1) if status != 5 else 5
    elif how == "twice":
        lines = numbered([*lines[:k], lines[k], *lines[k:]])
    elif how == "order":
        other = rng.choice([it for it in rows if it != k])
        lines[k], lines[other] = lines[other], lines[k]
        lines = numbered(lines)
    elif how == "next":
        *words, last = lines[-1].split(" ")
        lines[-1] = " ".join([*words, str(int(last) + (1 if int(last) < 65535 else -1))])
    elif how == "status":
        status = (status + 1) % 2
    else:
        lines[k] = otherwise(kind, read_row(lines[k]), how)
    return how, lines, status


def small_questions(kind, rng, folder, cases):
    """Questions of few cells about random networks, with their words; the networks of each are in the files."""
    for _ in range(cases):
        texts = kind.texts(rng)
        paths = written(folder, texts)
        for _ in range(6 if networks_of(texts) else 0):
            words = [*paths, *drawn_words(rng, networks_of(texts))]
            question, refused = asked(kind, words)
            if not refused and Judge(question, "", 0, rng, 0).count() <= FEW_CELLS:
                yield question, words


def itself(kind, seed, cases):
    """Whether true texts of small questions are taken, and damaged ones are not."""
    rng, done, wrong, drawn = random.Random(seed), {}, 0, [0, 0]
    with tempfile.TemporaryDirectory() as folder:
        for question, words in small_questions(kind, rng, folder, cases):
            lines, status = Telling(question).lines()
            tried = [("true", lines, status)]
            if any(line.startswith("row") for line in lines):
                tried += [damaged(kind, rng, lines, status) for _ in range(4)]
            for how, text, its_status in tried:
                done[how] = done.get(how, 0) + 1
                faults, _ = judged(kind, words, "\n".join(text) + "\n", its_status, rng, FEW_CELLS)
                by_few = judged(kind, words, "\n".join(text) + "\n", its_status, rng, 0)[0]
                drawn = [drawn[0] + (how != "true"), drawn[1] + (how != "true" and bool(by_few))]
                if bool(faults) == (how == "true") or (by_few and how == "true"):
                    wrong += 1
                    print(f"{' '.join(words)}: {how}", *(faults or by_few or text)[:9], sep="\n")
    print(*(f"{how} {count}" for how, count in sorted(done.items())), sep=", ")
    print(f"by few headers {drawn[1]} of {drawn[0]} damaged texts are found")
    print(f"{sum(done.values()) - wrong} passed, {wrong} failed")
    return 1 if wrong else 0


def answer(kind, program, words):
    done = subprocess.run([program, kind.command, *words], capture_output=True, check=False)
    return done.stdout.decode(), done.returncode


def run(kind, words):
    passed = failed = headers = 0
    with tempfile.TemporaryDirectory() as folder:
        for case in range(words.cases):
            rng = random.Random(words.seed * 1_000_003 + case)
            texts = kind.texts(rng)
            about = [*written(folder, texts), *drawn_words(rng, networks_of(texts) or networks_of([b"{}"]), kind.narrow)]
            faults, number = judged(kind, about, *answer(kind, words.program, about), rng, words.most)
            headers += number
            passed, failed = passed + (not faults), failed + bool(faults)
            for it in faults[:3]:
                print(f"case {case} {kind.command} {' '.join(about).replace(folder + os.sep, '')}: {it}", flush=True)
    print(f"{headers} headers asked")
    print(f"{passed} passed, {failed} failed")
    return 1 if failed else 0


def main(kind, doc):
    words = argparse.ArgumentParser(description=doc.splitlines()[0])
    words.add_argument("program", nargs="?")
    words.add_argument("--seed", type=int, default=1)
    words.add_argument("--cases", type=int, default=200)
    words.add_argument("--most", type=int, default=4000)
    words.add_argument("--itself", action="store_true")
    words.add_argument("--tell", action="store_true")
    words.add_argument("about", nargs="*")
    words = words.parse_intermixed_args()
    if words.itself:
        return itself(kind, words.seed, words.cases)
    if words.tell:
        question, refused = asked(kind, [it for it in (words.program, *words.about) if it is not None])
        lines, status = ([question], refused) if refused else Telling(question).lines()
        print(*lines, sep="\n")
        return status
    if not words.about:
        return run(kind, words)
    faults, _ = judged(kind, words.about, *answer(kind, words.program, words.about), random.Random(words.seed), words.most)
    for it in faults:
        print(it)
    print(f"{int(not faults)} passed, {int(bool(faults))} failed")
    return 1 if faults else 0
