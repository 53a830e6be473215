"""The texts of vpc, read by their grammar: what each line tells, and each text as a record."""

from __future__ import annotations

import itertools
from collections.abc import Callable, Iterator
from dataclasses import dataclass
from typing import NoReturn, Optional, Union

from scripts.grammar import Members, forms_of, is_id
from scripts.headers import Box, Header, Range, address, is_within, reply_of, with_side
from scripts.words import CUT_SIDES, ENDS, PROTOCOL_NUMBERS, STARTS


class NoText(Exception):
    """Why there is no text of vpc: the number of the line that no text has there, or words
    alone."""

    def __init__(self, why: str, number: Optional[int] = None) -> None:
        super().__init__(why)
        self.number = number


# ---- records

@dataclass
class Hop:
    """`by` is what let the packet pass, in the words behind `by`."""

    place: str
    id: str
    header: Header
    by: Optional[str]


@dataclass
class Arrived:
    id: str

    def __str__(self) -> str:
        return f"arrived {self.id}"


@dataclass
class Stopped:
    name: str
    id: str
    rule: str

    def __str__(self) -> str:
        return f"stopped {self.name} {self.id} {self.rule}"


End = Union[Arrived, Stopped]


@dataclass
class Walk:
    """Hops and an end; `first` is the number of the first line, and `lines` are those of it."""

    hops: list[Hop]
    end: End
    first: int
    lines: list[str]


@dataclass
class GroupRule:
    """The rule of a group that let a packet pass."""

    group: str
    direction: str
    rule: str

    def __str__(self) -> str:
        return f"{self.group} {self.direction} {self.rule}"


@dataclass
class ChosenRoute:
    """The row that a route table chose, or a transit gateway's: its block or prefix list, and
    `local` or the id of its target, which a row without one lacks."""

    table: str
    reach: str
    target: Optional[str]


@dataclass
class AclVerdict:
    """The row of a network ACL that judged a packet."""

    acl: str
    direction: str
    number: int
    allows: bool


@dataclass
class Rewritten:
    """The header that comes to the next hop, where it is another."""

    header: Header


Decision = Union[GroupRule, ChosenRoute, AclVerdict, Rewritten]


@dataclass
class Why:
    """A walk, whose lines are those of its hops and its end alone, and what decided at each
    hop."""

    walk: Walk
    decisions: list[list[Decision]]


@dataclass
class Reachable:
    packet: Header
    request: Walk
    reply: Walk


@dataclass
class ReportRow:
    phase: str
    stop: Stopped
    box: Box


@dataclass
class Report:
    """`next` and `cells` are None where the rows hold all. Of a tree of cuts the rows are its
    leaves, in their order."""

    start: str
    goal: str
    box: Box
    rows: list[ReportRow]
    next: Optional[Header]
    cells: Optional[str]


@dataclass
class Matrix:
    """Of each pair the number of what is said of it: a large matrix has few of those."""

    ids: list[str]
    pairs: dict[str, dict[str, int]]
    values: dict[int, Union[str, list[Range]]]


@dataclass
class ReachRow:
    start: str
    end: str
    box: Box


@dataclass
class Fare:
    """What becomes of a packet, or changes for it. `word` is through, same, reached, at, stopped,
    opened, closed or moved; `after` is another end where it is moved, and `stop` is what stops
    it."""

    word: str
    end: str = ""
    after: str = ""
    phase: str = ""
    stop: Optional[Stopped] = None


@dataclass
class DiffRow:
    start: str
    fare: Fare
    box: Box

    @property
    def word(self) -> str:
        return self.fare.word

    @property
    def end(self) -> str:
        return self.fare.end


@dataclass
class Reach:
    """`next` is the start and header of the first packet that the rows leave out."""

    query: str
    rows: list[ReachRow]
    next: Optional[tuple[str, Header]]


@dataclass
class Diff:
    query: str
    rows: list[DiffRow]
    next: Optional[tuple[str, Header]]


@dataclass
class Verdict:
    """What check says: `why` is yes, overlap, uncovered, untrue or unlisted."""

    why: str
    rows: list[int]
    start: str
    header: Optional[Header]
    fare: Optional[Fare]


@dataclass
class Event:
    end: End
    header: Optional[Header]


@dataclass
class Events:
    events: list[Event]


@dataclass
class Table:
    """A text that is told line by line: make, expect, flows, unused, a refusal."""

    name: str
    lines: list[Members]


Record = Union[Walk, Why, Reachable, Report, Matrix, Reach, Diff, Verdict, Events, Table]


def header_of(told: Members) -> Header:
    proto = told["proto"]
    number = PROTOCOL_NUMBERS[proto] if isinstance(proto, str) else proto
    return Header(number, address(told["src"]), address(told["dst"]), told["p"], told["q"])


def box_of(told: Members) -> Box:
    (first, last), (src, src_last), (dst, dst_last) = told["proto"], told["src"], told["dst"]
    addresses = (address(src), address(src_last)), (address(dst), address(dst_last))
    (p, p_last), (q, q_last) = told["p"], told["q"]
    return (first, last), *addresses, (p, p_last), (q, q_last)


def stop_of(told: Members) -> Stopped:
    return Stopped(told["name"], told["id"], "-" if told["rule"] is None else told["rule"])


def fare_of(told: Members) -> Fare:
    """Where the line has no word of its own the packet is stopped, or at an end."""
    word = told.get("word") or ("stopped" if "name" in told else "at")
    stop = stop_of(told) if "name" in told else None
    return Fare(word, told.get("end", ""), told.get("after", ""), told.get("phase", ""), stop)


def hop_of(told: Members) -> Hop:
    by = told.get("by")
    if by == "rule":
        by = f"{told['group']} {told['direction']} {'-' if told['rule'] is None else told['rule']}"
    return Hop(told["place"], told["id"], header_of(told), by)


def decision_of(told: Members) -> Decision:
    if told["line"] == "group":
        return GroupRule(told["group"], told["direction"], told["rule"] or "-")
    if told["line"] == "route":
        return ChosenRoute(told["table"], told["reach"], told["target"])
    if told["line"] == "acl":
        is_allow = told["verdict"] == "allow"
        return AclVerdict(told["id"], told["direction"], told["number"], is_allow)
    return Rewritten(header_of(told))


# ---- reading: which lines each text has, in order


class Text:
    """A text whose lines are taken one after another. Where it is read as a whole, what each tells
    is kept, and what lines say of each other is asked too."""

    def __init__(self, name: str, lines: list[str], is_whole: bool) -> None:
        self.name, self.lines, self.is_whole = name, lines, is_whole
        self.at, self.forms = 0, forms_of(name)
        self.told: list[Members] = []

    def refuse(self, number: int) -> NoReturn:
        if number > len(self.lines):
            raise NoText("it breaks off", number)
        raise NoText(f"line {number} is not what the text of {self.name} has there", number)

    def begins(self, word: str) -> bool:
        """Whether the next line begins with this word."""
        return self.at < len(self.lines) and self.lines[self.at].partition(" ")[0] == word

    def take(self, *tags: str, **around: str) -> Members:
        """What the next line tells, which begins in one of these ways."""
        line = self.lines[self.at] if self.at < len(self.lines) else ""
        forms = self.forms[tags[0]]
        for tag in tags[1:]:
            forms = forms + self.forms[tag]
        for form in forms:
            told = form.read(line, around)
            if told and (not self.is_whole or form.write(told) == line):
                self.at += 1
                if self.is_whole:
                    self.told.append(told)
                return told
        self.refuse(self.at + 1)

    def must(self, holds: object, why: str = "") -> None:
        """The line that was taken last is refused unless this holds."""
        if not holds and why and not self.is_whole:
            raise NoText(why)
        if not holds:
            self.refuse(self.at)

    def agrees(self, holds: object) -> None:
        """The same of what is asked only where the text is read as a whole."""
        self.must(holds or not self.is_whole)

    def numbered(self, tag: str, **around: str) -> Iterator[Members]:
        """What each of the next lines tells that begin in this way and are numbered from 1."""
        number = 0
        while self.begins(tag):
            number += 1
            told = self.take(tag, **around)
            self.must(told["n"] == number)
            yield told


def read_walk(text: Text, **around: str) -> Walk:
    """The hops of a walk, and how it ends: it begins where packets are sent, and arrives where its
    last hop is."""
    first = text.at
    hops = [hop_of(it) for it in text.numbered("hop", **around)]
    return ended_walk(text, first, hops, **around)


def ended_walk(text: Text, first: int, hops: list[Hop], **around: str) -> Walk:
    """The walk of these hops, whose end is the next line."""
    told = text.take("arrived", "stopped", **around)
    end: End = Arrived(told["id"]) if told["line"] == "arrived" else stop_of(told)
    text.must(hops, "it has a walk without hops")
    text.agrees(len(hops) <= 64 and hops[0].place in STARTS)
    judged = [it for it in hops if it.place in ("out", "in")]
    if isinstance(end, Arrived):
        text.agrees(hops[-1].place in ENDS and hops[-1].id == end.id)
    elif judged and judged[-1] is hops[-1]:
        judged.pop()
    text.agrees(all(it.by for it in judged))
    lines = [it for it in text.lines[first : text.at] if it.partition(" ")[0] not in DECIDED]
    return Walk(hops, end, first + 1, lines)


# How the lines begin that tell what decided, and which of them may stand at a place, in order: a
# gateway by which a packet enters may have a table.
DECIDED = ("group", "route", "acl", "becomes")
DECIDED_AT: dict[str, list[list[type]]] = {
    "out": [[GroupRule]],
    "in": [[GroupRule]],
    "router": [[ChosenRoute, AclVerdict, AclVerdict]],
    "enter": [[AclVerdict], [ChosenRoute, AclVerdict]],
    "tgw": [[ChosenRoute]],
    "far-in": [[ChosenRoute]],
    "igw-out": [[Rewritten]],
    "igw-in": [[Rewritten]],
    "nat-out": [[Rewritten]],
    "nat-in": [[Rewritten]],
}


def read_why(text: Text) -> Why:
    """A walk, with what decided below each hop."""
    first, hops, decisions = text.at, list[Hop](), list[list[Decision]]()
    for it in text.numbered("hop"):
        hops.append(hop_of(it))
        decisions.append(list(read_decisions(text)))
    walk = ended_walk(text, first, hops)
    following: list[Optional[Header]] = [*(it.header for it in hops[1:]), None]
    for hop, found, after in zip(hops, decisions, following):
        text.must(is_decided(hop, found, after))
    refusals = [it for found in decisions for it in found if is_refusal(it)]
    is_refused = isinstance(walk.end, Stopped) and walk.end.name in ("AclOut", "AclIn")
    last = decisions[-1][-1:]
    text.must(refusals == (last if is_refused else []) and (not is_refused or refuses(last, walk)))
    return Why(walk, decisions)


def read_decisions(text: Text) -> Iterator[Decision]:
    while any(text.begins(it) for it in DECIDED):
        yield decision_of(text.take(*DECIDED))


def is_refusal(it: Decision) -> bool:
    return isinstance(it, AclVerdict) and not it.allows


def refuses(last: list[Decision], walk: Walk) -> bool:
    """Whether a walk ends as the ACL refuses that judged last."""
    it = last[0] if last else None
    if not isinstance(it, AclVerdict):
        return False
    name = "AclOut" if it.direction == "out" else "AclIn"
    return walk.end == Stopped(name, it.acl, str(it.number))


def is_decided(hop: Hop, found: list[Decision], after: Optional[Header]) -> bool:
    """Whether this may be what decided at a hop, behind which the packet has this header."""
    kinds = [type(it) for it in found]
    if kinds not in [it[: len(found)] for it in DECIDED_AT.get(hop.place, [[]])]:
        return False
    ways = [it.direction for it in found if isinstance(it, AclVerdict)]
    if hop.place == "enter" and "out" in ways:
        return False
    rules = [str(it) for it in found if isinstance(it, GroupRule)]
    rewritten = [it.header for it in found if isinstance(it, Rewritten)]
    is_changed = after is not None and after != hop.header
    has_rule = hop.by is not None and " " in hop.by
    return rules == [hop.by] * has_rule and rewritten == [after] * is_changed


def read_reachable(text: Text) -> Reachable:
    """A packet, the walk of its request and that of its reply."""
    text.take("reachable")
    packet = header_of(text.take("packet"))
    text.take("request")
    request = read_walk(text, phase="request")
    text.agrees(isinstance(request.end, Arrived) and request.hops[0].header == packet)
    text.take("reply")
    reply = read_walk(text, phase="reply")
    text.agrees(reply.end == Arrived(request.hops[0].id) and reply.hops[0].id == request.end.id)
    text.agrees(reply.hops[0].header == reply_of(request.hops[-1].header))
    text.agrees(reply.hops[-1].header == reply_of(packet))
    return Reachable(packet, request, reply)


def count_of(text: Text, rows: int) -> None:
    """The last line tells how many rows there are."""
    is_count = text.take("end")["n"] == rows
    text.must(is_count, "its last line tells another number of rows than there are")


def read_report(text: Text) -> Report:
    """A report, or the rows of one that would be longer."""
    first, query = text.take("vpc-report", "more boxes"), text.take("query")
    text.agrees((query["from"], query["to"]) != ("internet", "internet"))
    whole = box_of(text.take("box"))
    rows = list(leaves(text, whole) if first.get("version") == 2 else report_rows(text, whole))
    if first["line"] == "vpc-report":
        count_of(text, len(rows))
        return Report(query["from"], query["to"], whole, rows, None, None)
    following = header_of(text.take("next"))
    text.must(all(low <= it <= high for it, (low, high) in zip(following, whole)))
    text.agrees(rows)
    cells = text.take("cells")["cells"]
    text.agrees(len(rows) < int(cells))
    return Report(query["from"], query["to"], whole, rows, following, cells)


def report_rows(text: Text, whole: Box) -> Iterator[ReportRow]:
    for it in text.numbered("row"):
        row = ReportRow(it["phase"], stop_of(it), box_of(it))
        text.must(is_within(row.box, whole), "a row lies beyond the box of the query")
        yield row


def leaves(text: Text, whole: Box) -> Iterator[ReportRow]:
    """The leaves of a tree of cuts, each with its box. Behind a cut stands what is below it, and
    then what begins there."""
    left = [whole]
    while left:
        told, box = text.take("cut", "leaf"), left.pop()
        if told["line"] == "leaf":
            yield ReportRow(told["phase"], stop_of(told), box)
            continue
        side, at = CUT_SIDES.index(told["side"]), told["at"]
        at = address(at) if isinstance(at, str) else at
        low, high = box[side]
        text.must(low < at <= high, "a cut lies beyond its side")
        left += [with_side(box, side, it) for it in ((at, high), (low, at - 1))]


def read_rows(text: Text, more: str) -> tuple[str, list[Members], Optional[tuple[str, Header]]]:
    """The query and the rows of reach or of diff, all of them or the first."""
    first = text.take(f"vpc-{text.name}", more)
    text.take("query")
    query = text.lines[text.at - 1]
    rows = list(text.numbered("row"))
    if first["line"] != more:
        count_of(text, len(rows))
        return query, rows, None
    text.agrees(rows)
    following = text.take("next")
    return query, rows, (following["start"], header_of(following))


def read_reach(text: Text) -> Reach:
    query, rows, following = read_rows(text, "more reach")
    return Reach(query, [ReachRow(it["start"], it["end"], box_of(it)) for it in rows], following)


def read_diff(text: Text) -> Diff:
    query, rows, following = read_rows(text, "more changes")
    return Diff(query, [DiffRow(it["start"], fare_of(it), box_of(it)) for it in rows], following)


def read_matrix(text: Text) -> Matrix:
    """A line for each two hosts, as vpc prints it by the order of their ids."""
    text.take("matrix")
    first, numbers = text.at, dict[str, int]()
    values: dict[int, Union[str, list[Range]]] = {}
    pairs: dict[str, dict[str, int]] = {}
    while text.at < len(text.lines) and (not text.is_whole or text.begins("pair")):
        told = text.take("pair")
        said = text.lines[text.at - 1].split(" ", 3)[3]
        number = numbers.setdefault(said, len(numbers) + 1)
        values[number] = meaning_of(told)
        pairs.setdefault(told["from"], {})[told["to"]] = number
        if not text.is_whole:
            take_known(text, pairs, numbers)
    ids, count = set(pairs), text.at - first
    is_all = count == len(ids) * (len(ids) - 1) and all(is_id(it) for it in ids)
    is_all = is_all and all(row.keys() | {own} == ids for own, row in pairs.items())
    is_all = is_all and not any(own in row for own, row in pairs.items())
    text.must(is_all, "it hasn't a line for each two interfaces, both ways")
    if text.is_whole:
        listed = [(it["from"], it["to"]) for it in text.told[1:]]
        text.must(listed == list(itertools.permutations(sorted(ids), 2)))
    return Matrix(list(pairs), pairs, values)


def take_known(text: Text, pairs: dict[str, dict[str, int]], numbers: dict[str, int]) -> None:
    """Takes the next lines that say of a pair what was said before: a large matrix has few
    others."""
    for at in range(text.at, len(text.lines)):
        words = text.lines[at].split(" ", 3)
        if len(words) != 4 or words[0] != "pair" or words[3] not in numbers:
            break
        pairs.setdefault(words[1], {})[words[2]] = numbers[words[3]]
        text.at += 1


def meaning_of(told: Members) -> Union[str, list[Range]]:
    """What is said of a pair: its open ranges, or the word."""
    if told["answer"] != "open":
        return str(told["answer"])
    return [(first, last) for first, last in told["ports"]]


def read_check(text: Text) -> Verdict:
    told = text.take("yes", "no")
    why = told.get("why", "yes")
    fare = fare_of(told) if why in ("untrue", "unlisted") else None
    header = header_of(told) if "proto" in told else None
    rows = [told[it] for it in ("i", "j") if it in told]
    return Verdict(why, rows, told.get("start", ""), header, fare)


def read_replay(text: Text) -> Events:
    events = []
    for it in text.numbered("event"):
        if it["outcome"] == "arrived":
            events.append(Event(Arrived(it["id"]), header_of(it)))
        else:
            events.append(Event(stop_of(it), None))
    return Events(events)


def read_make(text: Text) -> Table:
    count = text.take("make")["n"]
    text.must(1 <= count <= 50)
    for goal in [*(f"eni-{k}" for k in range(2, count + 1)), "internet"]:
        pair = text.take("pair")
        text.must((pair["from"], pair["to"]) == ("eni-1", goal))
    return Table(text.name, text.told)


def read_judged(text: Text, *counts: str) -> Table:
    """Lines with ascending numbers, and how many they are of each kind that has lines."""
    lines, last = 0, 0
    while text.begins("line"):
        lines, before, last = lines + 1, last, text.take("line")["n"]
        text.must(before < last)
    told = text.take("ok")
    text.must(sum(told[it] for it in counts) == lines)
    return Table(text.name, text.told)


def read_unused(text: Text) -> Table:
    for _ in range(text.take("rules")["n"]):
        text.take("rule")
    return Table(text.name, text.told)


def read_refusal(text: Text) -> Table:
    text.take("refused", "read fault", "want of memory")
    return Table(text.name, text.told)


def read_ask(text: Text) -> Union[Reachable, Report]:
    return read_reachable(text) if text.begins("reachable") else read_report(text)


READERS: dict[str, Callable[[Text], Record]] = {
    "trace": read_walk,
    "why": read_why,
    "ask": read_ask,
    "check": read_check,
    "replay": read_replay,
    "make": read_make,
    "matrix": read_matrix,
    "reach": read_reach,
    "diff": read_diff,
    "expect": lambda text: read_judged(text, "fail", "unknown"),
    "flows": lambda text: read_judged(text, "differ"),
    "unused": read_unused,
    "refusal": read_refusal,
}
# The texts whose records are their lines.
TABLES = ("make", "expect", "flows", "unused", "refusal")
LINES_OF_WHY = tuple(f"{it} " for it in DECIDED)
# Which text it is, by how its first line begins, or is.
BEGINNINGS = {
    **dict.fromkeys(["reachable", "vpc-report", "more boxes"], "ask"),
    **dict.fromkeys(["yes", "no"], "check"),
    **dict.fromkeys(["event"], "replay"),
    **dict.fromkeys(["make"], "make"),
    **dict.fromkeys(["matrix"], "matrix"),
    **dict.fromkeys(["vpc-reach", "more reach"], "reach"),
    **dict.fromkeys(["vpc-diff", "more changes"], "diff"),
    **dict.fromkeys(["rules"], "unused"),
    **dict.fromkeys(["refused", "read", "want"], "refusal"),
}


def name_of(lines: list[str]) -> str:
    """Which text these lines may be; none where no text begins so."""
    if not lines:
        return "replay"
    first = lines[0]
    if first.startswith(("line ", "ok ")):
        return "flows" if " differ " in lines[-1] else "expect"
    if first.startswith("hop "):
        # (of a walk of which nothing is told the two texts are one)
        return "why" if any(it.startswith(LINES_OF_WHY) for it in lines) else "trace"
    return BEGINNINGS.get(first) or BEGINNINGS.get(first.partition(" ")[0]) or ""


def read_lines(name: str, lines: list[str], is_whole: bool) -> tuple[Record, list[Members]]:
    """The record of a text of which these are the lines, and what each of them tells."""
    text = Text(name, lines, is_whole)
    found = READERS[name](text)
    if text.at < len(lines):
        text.refuse(text.at + 1)
    return found, text.told


def read_record(data: bytes, names: tuple[str, ...], what: str, meant: str, more: str) -> Record:
    """The record of a text that is one of these. Where it is none, that is told of `what` was
    `meant`, with `more` behind the beginning of a long line."""
    try:
        text = data.decode("ascii")
    except UnicodeDecodeError:
        raise NoText(f"it has a byte that no {what} of vpc has") from None
    if not text.endswith("\n"):
        raise NoText("its last line has no end" if text else "it is empty")
    lines = text[:-1].split("\n")
    name = name_of(lines)
    if name not in names:
        first = lines[0] if len(lines[0]) <= 60 else lines[0][:60] + more
        raise NoText(f"{first!r} begins no {meant}")
    try:
        # (of a table its lines are the record)
        return read_lines(name, lines, name in TABLES)[0]
    except NoText as why:
        if why.number is None:
            raise
        raise NoText(f"line {why.number} isn't what {article(what)} of vpc has there") from None


def article(what: str) -> str:
    return f"an {what}" if what[0] in "aeiou" else f"a {what}"
