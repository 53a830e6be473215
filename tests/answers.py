"""The texts that the program may print, by command and exit status, and what can be told of their truth in another way."""

import re
import socket
import struct

NUMBER = r"(?:0|[1-9][0-9]*)"
COUNT = r"[1-9][0-9]*"
ID = r"[!-~]{1,256}"
OCTET = r"(?:25[0-5]|2[0-4][0-9]|1[0-9][0-9]|[1-9]?[0-9])"
ADDRESS = rf"{OCTET}(?:\.{OCTET}){{3}}"
HEADER = rf"(?:tcp|udp|icmp|{OCTET}) {ADDRESS} {ADDRESS} {NUMBER} {NUMBER}"
BOX = rf"{OCTET}-{OCTET} {ADDRESS}-{ADDRESS} {ADDRESS}-{ADDRESS} {NUMBER}-{NUMBER} {NUMBER}-{NUMBER}"
PLACE = "(?:out|router|enter|in|igw-out|internet|igw-in|nat-out|nat-in|peer|tgw|tgw-leave|far-out|far-in|inspect)"
NAME = (
    "(?:Detached|SourceCheck|DestCheck|GroupsOut|GroupsIn|NotAHost|ApplianceDrop|NoRoute|Blackhole|AclOut|AclIn|NoHost|NoGateway|GatewayDetached|NoPublic"
    "|BlockPublicAccess|PrivateAddress|NatNotAvailable|NatAnswer|NatProtocol|NatFull|NatUnsolicited|PeerNotActive|PeerSource|PeerDestination|TgwNoAttachment|TgwNoZone|TgwNoTable"
    "|TgwNoRoute|TgwBlackhole|FarDetached|FarNoTable|FarSource|FarOpens|InspectDrop|Unmodelled|Loop|TooFar|WrongPlace|WrongReturn|NoReply)"
)
LIST = (
    "(?:Vpcs|Subnets|NetworkInterfaces|RouteTables|PrefixLists|NetworkAcls|SecurityGroups|InternetGateways|NatGateways|VpcPeeringConnections"
    "|TransitGatewayVpcAttachments|TransitGatewayAttachments|TransitGatewayRoutes|Appliances|VpnGateways|VpcEndpoints)"
)
MEMBER = r"[A-Z][A-Za-z0-9]*(?:\[[0-9]+\])?"
PATH = rf"(?:\$|{MEMBER}(?:\.{MEMBER})*)"
STOP = rf"{NAME} {ID} {ID}"
HOP = rf"hop {COUNT} {PLACE} {ID} {HEADER}(?: by (?:none|tracked|{ID} (?:in|out) {ID}))?\n"
HOPS = rf"(?:{HOP}){{1,64}}"
VERDICT = rf"acl {ID} (?:in|out) {NUMBER} (?:allow|deny)\n"
REASONS = rf"(?:group {ID} (?:in|out) {ID}\n|(?:route {ID} {ID} {ID}\n)?(?:{VERDICT}){{0,2}})(?:becomes {HEADER}\n)?"
EXPLAINED = rf"(?:{HOP}{REASONS}){{1,64}}"
ROWS = rf"(?:row {COUNT} (?:request|reply) {STOP} {BOX}\n)*"
ASKED = rf"query from {ID} to {ID}\nbox {BOX}\n"
QUERY = rf"{ASKED}{ROWS}"
NODES = rf"(?:cut (?:(?:src|dst) {ADDRESS}|(?:proto|p|q) {NUMBER})\n|leaf (?:request|reply) {STOP}\n)+"
CAUSE = (
    rf"(?:TooBig|NotJson|WrongShape {PATH}|BadText {PATH}|DuplicateId {ID}|MissingReference {ID} {ID}|DuplicateAddress {ID} {ADDRESS}|DuplicatePublic {ADDRESS}"
    rf"|NoRouteTable {ID}|NoAcl {ID}|TwoInternetGateways {ID}|TwoTables {ID}|TwoAcls {ID}|TooManyRows {LIST})"
)
BARRIER = rf"(?:request|reply) (?:{STOP}|Absent {ID} -)"
FARE = rf"(?:reached {ID}|(?:opened|closed) {ID} {BARRIER}|moved {ID} {ID}|{BARRIER})"
WORD = rf"(?:BadWord {COUNT}|UnknownId {COUNT}|NotAnEnd {ID}"

FOR_ALL = {2: rf"refused words {COUNT}\n", 6: r"read fault [12]\n", 8: r"(?:want of memory\n)?"}
WITH_FILE = {**FOR_ALL, 3: rf"refused description {CAUSE}\n"}
TEXTS = {
    "trace": {**WITH_FILE, 0: rf"{HOPS}arrived {ID}\n", 1: rf"{HOPS}stopped {STOP}\n", 4: rf"refused packet {WORD})\n"},
    "why": {**WITH_FILE, 0: rf"{EXPLAINED}arrived {ID}\n", 1: rf"{EXPLAINED}stopped {STOP}\n", 4: rf"refused packet {WORD})\n"},
    "ask": {
        **WITH_FILE,
        0: rf"reachable\npacket {HEADER}\nrequest\n{HOPS}arrived {ID}\nreply\n{HOPS}arrived {ID}\n",
        1: rf"(?:vpc-report 1\n{QUERY}|vpc-report 2\n{ASKED}{NODES})end {NUMBER}\n",
        4: rf"refused query {WORD}|NotAStart {COUNT}|BothInternet|EmptyRange {COUNT}|MaxOutOfRange|NoAddress {ID})\n",
        5: rf"more boxes\n{QUERY}next {HEADER}\ncells {COUNT}\n",
    },
    "check": {
        **FOR_ALL, 0: "yes\n",
        1: rf"no (?:overlap {COUNT} {COUNT}|uncovered {HEADER}|untrue {COUNT} {HEADER} (?:through|same|{FARE})|unlisted {ID} {HEADER} {FARE})\n",
        3: rf"refused description (?:after )?{CAUSE}\n",
        6: r"read fault [123]\n",
        4: rf"refused report (?:{COUNT}|TooManyBoxes {COUNT}|TooBig)\n",
    },
    "replay": {**WITH_FILE, 0: rf"(?:event {COUNT} (?:arrived {ID} {HEADER}|stopped {STOP})\n)*", 4: rf"refused events (?:{COUNT}|TooBig)\n"},
    "make": {**FOR_ALL, 0: rf"make {COUNT}\n(?:pair eni-1 {ID} (?:blocked|reachable {HEADER})\n)+", 4: r"refused number 2\n"},
}
TEXTS = {command: {status: re.compile(text.encode()) for status, text in texts.items()} for command, texts in TEXTS.items()}
NO_COMMAND = {status: re.compile(text.encode()) for status, text in FOR_ALL.items()}


def is_defined(command, status, text):
    """Whether the command may end with this status and this text."""
    pattern = TEXTS.get(command, NO_COMMAND).get(status)
    return bool(pattern and pattern.fullmatch(text)) and are_numbered(text)


def are_numbered(text):
    """Whether hops, rows and events are numbered from 1."""
    for kind in (b"hop", b"row", b"event"):
        due = 0
        for line in text.split(b"\n"):
            if line.startswith(kind + b" "):
                number = int(line.split(b" ", 2)[1])
                if number not in ((1, due + 1) if kind == b"hop" else (due + 1,)):
                    return False
                due = number
    return True


# ---- headers and boxes, as tuples in the order of their sides

PROTOS = {b"icmp": 1, b"tcp": 6, b"udp": 17}
SPELLED = {number: name.decode() for name, number in PROTOS.items()}


def address(text):
    return struct.unpack("!I", socket.inet_aton(text.decode()))[0]


def block(text):
    """The first and the last address of a block, whose own address may be any of its addresses."""
    own, length = text.split(b"/")
    size = 2 ** (32 - int(length))
    first = address(own) // size * size
    return first, first + size - 1


def dotted(n):
    return ".".join(str(n >> k & 255) for k in (24, 16, 8, 0))


def header_of(words):
    return (PROTOS.get(words[0]) or int(words[0]), address(words[1]), address(words[2]), int(words[3]), int(words[4]))


def header_text(h):
    return f"{SPELLED.get(h[0], h[0])} {dotted(h[1])} {dotted(h[2])} {h[3]} {h[4]}"


def box_of(words):
    ends = [word.split(b"-") for word in words]
    return tuple(tuple(address(e) if k in (1, 2) else int(e) for e in side) for k, side in enumerate(ends))


def box_text(box):
    return " ".join("-".join(dotted(e) if k in (1, 2) else str(e) for e in side) for k, side in enumerate(box))


def holds(box, header):
    return all(low <= n <= high for (low, high), n in zip(box, header))


def meet(a, b):
    return all(max(x[0], y[0]) <= min(x[1], y[1]) for x, y in zip(a, b))


def is_inside(part, whole):
    return all(y[0] <= x[0] <= x[1] <= y[1] for x, y in zip(part, whole))


def volume(box):
    product = 1
    for low, high in box:
        product *= high - low + 1
    return product


def corner(box):
    return tuple(low for low, _ in box)


# ---- reports

class Report:
    """A report: its ends, its box, and rows of a phase, a stop's three words and a box. Of a tree they are its leaves, and `nodes` its
    lines, of cuts and of leaves."""

    def __init__(self, start, goal, box, rows, nodes=None):
        self.start, self.goal, self.box, self.rows, self.nodes = start, goal, box, rows, nodes

    def text(self):
        """As a list of rows."""
        return self.lines(1, [f"row {k + 1} ".encode() + b" ".join(what) + b" " + box_text(box).encode() for k, (what, box) in enumerate(self.rows)], len(self.rows))

    def tree_text(self):
        """As the tree of its nodes."""
        return self.lines(2, self.nodes, sum(it.startswith(b"leaf ") for it in self.nodes))

    def lines(self, version, lines, count):
        head = [b"vpc-report %d" % version, b"query from " + self.start + b" to " + self.goal, b"box " + box_text(self.box).encode()]
        return b"\n".join([*head, *lines, b"end %d" % count]) + b"\n"


SIDES = (b"proto", b"src", b"dst", b"p", b"q")


def replaced(box, side, ends):
    return (*box[:side], ends, *box[side + 1 :])


def leaves_of(nodes, box):
    """The leaves of a tree of the box, each with its box; None where the lines are none."""
    rows, left = [], [box]
    for line in nodes:
        if not left:
            return None
        word, *words = line.split(b" ")
        own = left.pop()
        if word == b"leaf":
            rows.append((tuple(words), own))
            continue
        side = SIDES.index(words[0])
        at, (low, high) = address(words[1]) if side in (1, 2) else int(words[1]), own[side]
        if not low < at <= high:
            return None
        # (what is below the cut comes first)
        left += [replaced(own, side, (at, high)), replaced(own, side, (low, at - 1))]
    return None if left else rows


def report_of(text):
    """The report of a text in the form that `ask` prints, with its rows in any order; None where it has another form."""
    if not TEXTS["ask"][1].fullmatch(text) and not TEXTS["ask"][5].fullmatch(text):
        return None
    lines = text.split(b"\n")
    words = [line.split(b" ") for line in lines]
    box = box_of(words[2][1:])
    if text.startswith(b"vpc-report 2\n"):
        nodes = lines[3:-2]
        rows = leaves_of(nodes, box)
        return None if rows is None else Report(words[1][2], words[1][4], box, rows, nodes)
    rows = [(tuple(w[2:6]), box_of(w[6:])) for w in words if w[0] == b"row"]
    return Report(words[1][2], words[1][4], box, rows)


def first_overlap(rows):
    """The numbers of the first two rows that share a packet, from 1."""
    for i, (_, a) in enumerate(rows):
        for j in range(i + 1, len(rows)):
            if meet(a, rows[j][1]):
                return i + 1, j + 1
    return None


def could_be_one(row, other, along):
    """Whether the other row has the words and the sides of the first, but that it begins one past the end of one of these sides."""
    (what, box), (its, own) = row, other
    ways = [side for side in along if box[side][1] + 1 == own[side][0]]
    return what == its and any(replaced(box, side, own[side]) == own for side in ways)


def leaves_out(report):
    """How many packets of the box are in no row, where no two rows share one."""
    return volume(report.box) - sum(volume(box) for _, box in report.rows)


# ---- what becomes of a packet, by replays

def reply_of(h):
    proto, src, dst, p, q = h
    if proto != 1:
        return (proto, dst, src, q, p)
    return (proto, dst, src, p, 0) if q == 2048 else None


def is_packet(h):
    """Whether `trace` takes it: protocols without ports have 0 in their places."""
    return h[0] in (1, 6, 17) or h[3:] == (0, 0)


def fate(replay, start, goal, h):
    """What becomes of a request, as a row or `no untrue` tells it: its words, or just `through`.

    `replay` answers events, as the lines of the file, with the endings of the packets, as lists of words."""
    opened = f"open from {start.decode()} {header_text(h)}\n"
    end = replay(opened)[0]
    if end[0] == b"stopped":
        return (b"request", *end[1:])
    place, came = end[1], header_of(end[2:])
    if place != goal:
        return (b"request", b"WrongPlace", place, b"-")
    answer = reply_of(came)
    if answer is None:
        return (b"reply", b"NoReply", place, b"-")
    end = replay(f"{opened}answer from {goal.decode()} {header_text(answer)}\n")[1]
    if end[0] == b"stopped":
        return (b"reply", *end[1:])
    if end[1] == start and header_of(end[2:]) == reply_of(h):
        return (b"through",)
    return (b"reply", b"WrongReturn", end[1], b"-")
