"""Tells an answer of vpc in plain sentences: explain BUNDLE [TEXT]

The answer stands in the file TEXT or comes on standard input, and BUNDLE is the one that was asked:

    ./vpc why shop.json open from eni-web tcp 10.0.1.10 10.0.3.10 5000 5432 | ./explain shop.json
    ./vpc ask shop.json from eni-web to eni-db | ./explain shop.json

It is one of why, trace, ask, check, replay, reach, diff, expect, unused, flows or matrix. Of each
hop of a walk it tells what let the packet pass: the rule of a group, the route, the rows of network
ACLs, in words and with the names of components by their Name tags. Of what stopped a packet, it
tells why, and what would have to change at that component; whether the packet then gets further is
another question. What vpc doesn't follow (`Unmodelled`) is told as not known.

It follows no packet itself: what decided is what the text of why tells, and else what `vpc why`
tells, where vpc stands beside this script. A walk or a report of which that prints another is
refused; without vpc, of a packet that isn't told less is told. No text that names what BUNDLE
doesn't have is told of. That what it tells is true is tested, and not proved.

Status 0; 2: the text is no such answer, or not one about BUNDLE, or a file can't be read, as one
line on standard error says. It needs Python 3.9 or later alone.
"""

from __future__ import annotations

import itertools
import sys
from collections.abc import Callable, Iterator, Sequence
from typing import Any, Optional

from scripts import texts
from scripts.commands import ODD, Refused, read, refuse
from scripts.explain_listings import Listings
from scripts.explain_network import Network, read_network
from scripts.explain_program import Program
from scripts.explain_stops import ended, stop_lines
from scripts.explain_told import (
    Stop, Way, as_end, bare_stop, must_be_there, reply_stop, stops_first,
)
from scripts.explain_words import Teller, box_words, fare_words, packet_words
from scripts.headers import Header, low_corner, reply_of
from scripts.texts import NoText, Stopped, Walk, Why
from scripts.words import STARTS, counted

TOLD = (
    "why", "trace", "ask", "check", "replay", "reach", "diff", "expect", "unused", "flows",
    "matrix",
)
MEANT = "answer that is told in sentences"
UNDECIDED = (
    "Which routes and rows of network ACLs let it pass, this text doesn't tell: vpc why prints "
    "it, by the words of vpc trace."
)
UNTOLD_PACKETS = (
    "Of single packets vpc why tells more: it is asked where vpc stands beside this script, and "
    "BUNDLE is a file."
)


def unlike(walk: Walk, found: Sequence[Why]) -> None:
    """Refuses a walk where the program tells others of its packet."""
    others = [it.walk.lines for it in found]
    if walk.lines in others:
        raise NoText("what it says decided isn't true of the bundle")
    alike = max(sum(1 for _ in itertools.takewhile(is_same, zip(walk.lines, it))) for it in others)
    line = walk.lines[min(alike, len(walk.lines) - 1)]
    raise NoText(f"{line!r} isn't true of the bundle")


def is_same(pair: tuple[str, str]) -> bool:
    return pair[0] == pair[1]


class Answer:
    """An answer, read and told."""

    def __init__(self, network: Network, program: Program, first: str) -> None:
        self.network, self.program, self.first = network, program, first
        self.teller = Teller(network)
        self.out: list[str] = []

    def tell(self, *lines: str) -> None:
        self.out += lines

    def known(self, end: str) -> str:
        """Refuses an end that the bundle doesn't have."""
        is_end = end in self.network.interfaces or self.network.far_end(end)
        if end != "internet" and not is_end:
            raise NoText(f"{end} is no end of the bundle")
        return end

    def named(self, component: str) -> str:
        return self.teller.named(component)

    def stop_lines(self, stop: Stop) -> list[str]:
        return stop_lines(self.teller, stop)

    def ended(self, stop: Stop, are_many: bool = False) -> str:
        return ended(self.teller, stop, are_many)

    # -- walks

    def tell_walk(self, why: Why, label: Optional[str]) -> None:
        self.tell(*self.teller.hop_lines(why.walk, why.decisions))
        if isinstance(why.walk.end, Stopped):
            stop = Way(self.network, why, label).stop()
            self.tell(f"  It {self.ended(stop)}.", *self.stop_lines(stop))
        else:
            self.tell(f"  It arrives at {self.named(why.walk.end.id)}.")

    def trace(self, walk: Walk) -> None:
        self.why(Why(walk, []))

    def why(self, told: Why) -> None:
        """A walk, of which the decisions are told, or aren't: then they are asked for."""
        first, found = told.walk.hops[0], dict[str, Why]()
        if first.place not in STARTS:
            raise NoText("its first hop is no place where a packet starts")
        for label in ("open", "answer"):
            it = self.program.why(label, self.known(first.id), first.header)
            found.update({label: it} if it else {})
        fitting = [it for it in found if is_like(told, found[it])]
        if found and not fitting:
            unlike(told.walk, list(found.values()))
        # (a walk may be that of both)
        sure = fitting[0] if len(fitting) == 1 and len(found) == 2 else None
        kinds = {"open": ", the first packet of its connection", "answer": ", an answer"}
        self.tell(f"The packet is {packet_words(first.header)}{kinds.get(sure or '', '')}.")
        if not (fitting or told.decisions) and any(map(self.decides, told.walk.hops)):
            self.tell(UNDECIDED)
        best = found[fitting[0]] if fitting else told
        whole = best if best.decisions else Why(told.walk, [[] for _ in told.walk.hops])
        must_be_there(self.network, whole)
        self.tell_walk(whole, sure)

    def decides(self, hop: texts.Hop) -> bool:
        """Whether routes or rows of network ACLs decide at a hop."""
        is_led = hop.place == "far-in" and hop.id in self.network.associations
        return is_led or hop.place in DECIDING

    def reachable(self, answer: texts.Reachable) -> None:
        start, goal = answer.request.hops[0].id, answer.reply.hops[0].id
        asked = self.program.why("open", self.known(start), answer.packet)
        if asked and asked.walk.lines != answer.request.lines:
            unlike(answer.request, [asked])
        request = asked or Why(answer.request, [[] for _ in answer.request.hops])
        reply = Why(answer.reply, self.decided(answer.reply, self.known(goal)))
        for it in (request, reply):
            must_be_there(self.network, it)
        ends = as_end(answer.request.end), as_end(answer.reply.end)
        told = [it.hops[at].header for it in (answer.request, answer.reply) for at in (0, -1)]
        due = [answer.packet, told[1], reply_of(told[1]), reply_of(answer.packet)]
        if ends != (goal, start) or told != due:
            raise NoText("its reply isn't that of its packet")
        way = f"from {self.named(start)} to {self.named(goal)}, and its reply comes back"
        first = f"The first is {packet_words(answer.packet)}."
        self.tell(f"A packet gets through {way}. {first}", *[UNDECIDED] * (not asked))
        self.tell("The request:")
        self.tell_walk(request, "open")
        self.tell(f"The reply, {packet_words(answer.reply.hops[0].header)}:")
        self.tell_walk(reply, "answer")

    def decided(self, reply: Walk, goal: str) -> list[list[texts.Decision]]:
        """What decided at each hop of a reply, as far as an answer goes the same way that has no
        request before it: at each hop the routes and rows are those for its header."""
        asked = self.program.why("answer", goal, reply.hops[0].header)
        found = list[list[texts.Decision]]([[] for _ in reply.hops])
        pairs = zip(reply.hops, asked.walk.hops) if asked else ()
        for at, (one, other) in enumerate(pairs):
            if (one.place, one.id, one.header) != (other.place, other.id, other.header):
                break
            is_last = asked is not None and at == len(asked.decisions) - 1
            if asked and (not is_last or not isinstance(asked.walk.end, Stopped)):
                found[at] = asked.decisions[at]
        return found

    # -- reports

    def report(self, report: texts.Report) -> None:
        start, goal = self.known(report.start), self.known(report.goal)
        way = f"from {self.named(start)} to {self.named(goal)}: {box_words(report.box)}"
        unknown = sum(it.stop.name == "Unmodelled" for it in report.rows)
        self.tell(f"No packet {'is known to get' if unknown else 'gets'} through {way}.")
        for numbers in self.reasons(report):
            self.tell_rows(report, numbers)
        if not self.program.is_there:
            self.tell(UNTOLD_PACKETS)
        if unknown:
            what = f"what becomes of the packets of {counted(unknown, 'row')} is not known"
            self.tell(f"So this is no 'no': {what}.")
        if report.next:
            left_out = f"{packet_words(report.next)} is the first packet that it leaves out"
            why = "what stops it, or whether that is known, isn't told"
            cells = f"The question has {report.cells} cells."
            what = f"{left_out}: it doesn't get through either, and {why}. {cells}"
            self.tell(f"The report was cut short. {what}")

    def reasons(self, report: texts.Report) -> list[list[int]]:
        """The numbers of the rows that have one reason: those at the ends that were asked about
        come first, and of these the one where packets were to go."""
        groups: dict[tuple[str, str], list[int]] = {}
        for number, row in enumerate(report.rows, 1):
            groups.setdefault((row.phase, str(row.stop)), []).append(number)
        ends = [report.goal, report.start]

        def place(numbers: list[int]) -> int:
            stop = report.rows[numbers[0] - 1].stop
            at_end = stop.id in ends and stop.name not in ("WrongPlace", "WrongReturn")
            return ends.index(stop.id) if at_end else len(ends)

        return sorted(groups.values(), key=place)

    def tell_rows(self, report: texts.Report, numbers: list[int]) -> None:
        """What stops the packets of rows that have one reason, and why, of the first packet of the
        first such row."""
        row = report.rows[numbers[0] - 1]
        header = low_corner(row.box)
        found = self.fared(report, header, row.phase, row.stop)
        if not found:
            raise NoText(f"row {numbers[0]} isn't true of the bundle")
        more = f" and {len(numbers) - 1:,} more" * (len(numbers) > 1)
        what = f"{'its' if len(numbers) == 1 else 'their'} requests"
        if row.phase == "request":
            what += f" {self.ended(found, True)}"
        elif row.stop.name == "NoReply":
            what += " arrive, and have no reply (NoReply)"
        else:
            what += f" arrive, and the replies {self.ended(found, True)}"
        self.tell(f"Row {numbers[0]}{more}: {what}.")
        boxes = [f"  {box_words(report.rows[it - 1].box)}" for it in numbers[:MOST_BOXES]]
        left = len(numbers) - MOST_BOXES
        self.tell(*boxes, *[f"  and {counted(left, 'more box', 'more boxes')}"] * (left > 0))
        self.tell(*self.of_first(header, found), *self.stop_lines(found))

    def of_first(self, header: Header, stop: Stop) -> list[str]:
        """The packet that the sentences are about, where they are about one."""
        return [f"  Of the first, {packet_words(header)}:"] if stop.facts else []

    def fared(
        self, report: texts.Report, header: Header, phase: str, stop: Stopped
    ) -> Optional[Stop]:
        """What the bundle tells of a stop of a packet; None where the program tells another."""
        asked = self.program.why("open", report.start, header)
        if not asked:
            is_first = phase == "request" and stops_first(self.network, report.start, stop, header)
            facts = {"header": header, "label": "open"}
            bare = bare_stop(self.network, stop)
            return bare._replace(facts=facts) if is_first else bare
        must_be_there(self.network, asked)
        end = as_end(asked.walk.end)
        arrived = asked.walk.hops[-1].header
        facts = {"start": report.start, "goal": report.goal, "header": arrived}
        if phase == "request" and stop.name == "WrongPlace":
            is_it = end == stop.id != report.goal
            return Stop(stop.name, stop.id, stop.rule, facts) if is_it else None
        if phase == "request":
            return Way(self.network, asked, "open").stop() if end == as_end(stop) else None
        answer = reply_of(arrived)
        if end != report.goal or (stop.name == "NoReply") != (answer is None):
            return None
        if answer is None:
            return Stop(stop.name, stop.id, stop.rule, facts)
        wanted = {"start": report.start, "goal": report.goal, "wanted": reply_of(header)}
        return self.reply_stop(asked.walk, answer, report.goal, stop, wanted)

    # (of the request everything is told; of a reply, what is told of one without a request)
    def reply_stop(
        self, request: Walk, answer: Header, goal: str, stop: Stopped, wanted: dict[str, Any]
    ) -> Stop:
        """What stopped a reply: as the program tells it of an answer that has no request before
        it, where that ends so too; else what the bundle tells."""
        asked = self.program.why("answer", goal, answer)
        if asked:
            must_be_there(self.network, asked)
            end = as_end(asked.walk.end)
            if end == as_end(stop):
                return Way(self.network, asked, "answer").stop()
            if stop.name == "WrongReturn" and end == stop.id:
                facts = {**wanted, "header": asked.walk.hops[-1].header}
                return Stop(stop.name, stop.id, stop.rule, facts)
        if stop.name == "WrongReturn":
            return bare_stop(self.network, stop)._replace(facts=wanted)
        return reply_stop(self.network, stop, request)

    # -- check and replay

    def check(self, verdict: texts.Verdict) -> None:
        packet = packet_words(verdict.header) if verdict.header else ""
        fare, rows, untrue = verdict.fare, verdict.rows, "The report isn't true"
        if verdict.why == "yes":
            self.tell(*YES)
        elif verdict.why == "overlap":
            share = f"rows {rows[0]} and {rows[1]} share a packet"
            self.tell(f"{untrue}: {share}, and no two rows may.")
        elif verdict.why == "uncovered":
            self.tell(f"{untrue}: no row holds {packet}, which is in its box.")
        elif fare and fare.word in UNTOLD[verdict.why]:
            raise NoText(f"{self.first!r} begins no {MEANT}")
        elif fare and verdict.why == "unlisted":
            where = f"from {verdict.start}, which is in no row"
            self.tell(f"The text leaves out {packet} {where}: {fare_words(fare)}.")
        elif fare and fare.word == "through":
            through = f"{packet} gets through, and its reply comes back"
            self.tell(f"{untrue}: by row {rows[0]} it is stopped, but {through}.")
        elif fare and fare.stop and fare.word == "stopped" and verdict.header:
            self.untrue(rows[0], verdict.header, fare.phase, fare.stop)
        elif fare:
            held = f"which row {rows[0]} holds"
            self.tell(f"The text isn't true of {packet}, {held}: {fare_words(fare)}.")

    def untrue(self, row: int, h: Header, phase: str, stop: Stopped) -> None:
        found = self.found_stop(h, phase, stop)
        is_reply = phase == "reply" and found.name != "NoReply"
        what = f"{'it arrives, and its reply' if is_reply else 'it'} {self.ended(found)}"
        held = f"{packet_words(h)}, which row {row} holds"
        self.tell(f"The report isn't true of {held}: in this bundle {what}.")
        self.tell(*self.stop_lines(found))

    def found_stop(self, h: Header, phase: str, stop: Stopped) -> Stop:
        """The stop of a packet whose start isn't told: as it is from an end that may have sent it;
        else what the bundle tells of the component."""
        bare = bare_stop(self.network, stop)
        if stop.name in ("WrongPlace", "WrongReturn"):
            return bare
        for start in self.starts_of(h):
            asked = self.program.why("open", start, h)
            if asked and phase == "request" and as_end(asked.walk.end) == as_end(stop):
                must_be_there(self.network, asked)
                return Way(self.network, asked, "open").stop()
            answer = reply_of(asked.walk.hops[-1].header) if asked else None
            if asked and answer and phase == "reply" and asked.walk.end.id in self.ends():
                return self.reply_stop(asked.walk, answer, asked.walk.end.id, stop, {})
        return bare

    def ends(self) -> Sequence[str]:
        return ["internet", *self.network.interfaces, *self.network.fars]

    def starts_of(self, h: Header) -> Iterator[str]:
        """The ends that may have sent a packet."""
        interfaces = self.network.interfaces.values()
        yield from (it.id for it in interfaces if it.has(h.src) and not it.is_gateway)
        yield "internet"
        yield from filter(self.network.far_end, self.network.fars)

    def replay(self, answer: texts.Events) -> None:
        for number, it in enumerate(answer.events, 1):
            if isinstance(it.end, Stopped):
                stop = bare_stop(self.network, it.end)
                self.tell(f"Event {number} {self.ended(stop)}.", *self.stop_lines(stop))
            elif it.header:
                end = self.named(self.known(it.end.id))
                self.tell(f"Event {number} arrives at {end}, as {packet_words(it.header)}.")

    def listed(self, found: Any) -> None:
        self.tell(*Listings(self.teller, self.found_stop, self.stop_lines).lines(found))


# Where routes and rows of network ACLs decide.
DECIDING = ("router", "enter", "tgw")
# How many boxes are told of rows that have one reason.
MOST_BOXES = 3
# What becomes of packets that no check of a report, of reach or of diff says.
UNTOLD = {"untrue": ("at",), "unlisted": ("at", "through", "same", "stopped")}
YES = (
    "The report is true of this bundle: no packet of its box gets through, and each is stopped "
    "where its row says.",
    "What a row with Unmodelled holds is not known from there on.",
    "Of what reach or diff printed, a yes says that each row is true, and that nothing else of "
    "what was asked for is to be told.",
)


def is_like(told: Why, found: Why) -> bool:
    """Whether the program tells of a packet what a text does."""
    is_same = not told.decisions or told.decisions == found.decisions
    return told.walk.lines == found.walk.lines and is_same


def tell(network: Network, program: Program, data: bytes) -> str:
    """What is told of a text."""
    found: Any = texts.read_record(data, TOLD, "answer", MEANT, "")
    answer = Answer(network, program, data.split(b"\n")[0][:60].decode("ascii"))
    acts: dict[Any, Callable[[Any], None]] = {
        texts.Walk: answer.trace, texts.Why: answer.why, texts.Reachable: answer.reachable,
        texts.Report: answer.report, texts.Verdict: answer.check, texts.Events: answer.replay,
    }
    acts.get(type(found), answer.listed)(found)
    return "\n".join(answer.out) + "\n"


def explained(bundle: str, path: Optional[str], text: Optional[bytes] = None) -> str:
    network, data = read_network(bundle), read(path) if text is None else text
    try:
        return tell(network, Program(bundle), data)
    except NoText as why:
        raise Refused(f"{path or 'the text'} can't be told of: {why}") from None
    except ODD:
        raise Refused(f"{bundle} is no bundle that vpc accepts") from None


def main(words: Sequence[str]) -> int:
    if words in (["--help"], ["-h"]):
        print(__doc__, end="")
        return 0
    try:
        if not 1 <= len(words) <= 2 or any(it.startswith("-") for it in words):
            meant = "BUNDLE is meant, and a TEXT that isn't standard input"
            raise Refused(f"{meant}; --help says more")
        text = explained(words[0], words[1] if len(words) == 2 else None)
    except Refused as why:
        return refuse("explain", why)
    sys.stdout.write(text)
    return 0
