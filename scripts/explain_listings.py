"""Tells listings of vpc in sentences: those of reach, diff, matrix, expect, unused and flows."""

from __future__ import annotations

import itertools
from collections.abc import Callable, Iterator
from typing import Optional, Union

from scripts import texts
from scripts.bundles import harmless
from scripts.explain_network import Network
from scripts.explain_told import Stop, home_of, known
from scripts.explain_words import (
    Teller, box_words, direction, fare_words, packet_words, ports_words, some,
)
from scripts.grammar import Members
from scripts.headers import Header
from scripts.texts import NoText, Stopped, header_of, stop_of
from scripts.words import counted

# What the bundle tells of the stop of a packet, of a request or of its reply.
Found = Callable[[Header, str, Stopped], Stop]
# The sentences of a stop, and how a packet ended by it.
Told = Callable[[Stop], list[str]]
NOTHING = (
    "No packet is known to get through. What vpc doesn't follow counts as stopped here: ask tells "
    "of it as Unmodelled."
)
LINKED = (
    "What leads outside is taken to lead to one network, since no start was named: a reply may "
    "come back by another link than its request."
)


class Listings:
    """Texts with a line for each thing that they tell."""

    def __init__(self, teller: Teller, found: Found, stop_lines: Told) -> None:
        self.teller, self.found, self.stop_lines = teller, found, stop_lines
        self.network: Network = teller.network

    def lines(self, text: texts.Record) -> Iterator[str]:
        if isinstance(text, texts.Reach):
            return self.reach(text)
        if isinstance(text, texts.Diff):
            return self.diff(text)
        if isinstance(text, texts.Matrix):
            return self.matrix(text)
        assert isinstance(text, texts.Table)
        acts = {"expect": self.expect, "unused": self.unused, "flows": self.flows}
        return acts[text.name](text)

    def named(self, end: str) -> str:
        """An end, which the bundle has to have."""
        is_outside = end == "internet" or self.network.far_end(end)
        known(self.network, None if is_outside else "interfaces", end)
        return self.teller.named(end)

    def more(self, following: Optional[tuple[str, Header]], what: str) -> Iterator[str]:
        if following:
            start, header = following
            first = f"{packet_words(header)} from {self.teller.named(start)}"
            yield f"The text was cut short: {first} is the first packet that it leaves out{what}."

    # -- what gets through, and what changes

    def reach(self, text: texts.Reach) -> Iterator[str]:
        if not text.rows:
            yield NOTHING
        else:
            found = counted(len(text.rows), "box", "boxes")
            yield f"In {found} all packets get through, and their replies come back."
        numbered = enumerate(text.rows, 1)
        for (start, end), rows in itertools.groupby(numbered, lambda it: (it[1].start, it[1].end)):
            yield f"From {self.named(start)} to {self.named(end)}:"
            yield from (f"  Row {number}: {box_words(row.box)}." for number, row in rows)
        yield from self.linked(text)
        yield from self.more(text.next, ", and it gets through too")

    def diff(self, text: texts.Diff) -> Iterator[str]:
        words = {"opened": "opens", "closed": "closes", "moved": "leads elsewhere"}
        kinds = {word: sum(it.word == word for it in text.rows) for word in words}
        told = [f"{words[it]} {counted(kinds[it], 'box', 'boxes')}" for it in words if kinds[it]]
        yield f"The change {' and '.join(told) or 'is not known to open or close anything'}."
        for number, row in enumerate(text.rows, 1):
            start = self.teller.named(row.start)
            yield f"Row {number}: from {start}, {box_words(row.box)}."
            yield f"  Of each packet: {fare_words(row.fare, self.teller.named)}."
        yield from self.linked(text)
        yield from self.more(text.next, ", and something changes for it too")

    def linked(self, text: Union[texts.Reach, texts.Diff]) -> Iterator[str]:
        """That replies may take another link, where rows tell of one of several."""
        words = text.query.split(" ")[1:]
        told = dict(zip(words[::2], words[1::2]))
        found = [it for it in map(self.network.far_end, self.network.fars) if it]
        ids = [it.id for it in found if it.kind != "endpoint" and it.id != told.get("to")]
        if "from" not in told and len(ids) > 1 and any(it.start in ids for it in text.rows):
            yield LINKED

    def matrix(self, text: texts.Matrix) -> Iterator[str]:
        sources: dict[tuple[str, str], list[str]] = {}
        pairs = [(one, *it) for one, row in text.pairs.items() for it in row.items()]
        found = [(one, other, text.values[number]) for one, other, number in pairs]
        for one, other, value in found:
            if isinstance(value, list):
                ports = some(ports_words(6, *it) for it in value)
                sources.setdefault((other, ports), []).append(one)
        words = ("blocked", "no-address")
        blocked, lacking = (sum(it[2] == word for it in found) for word in words)
        is_open = len(found) - blocked - lacking
        hosts, of = counted(len(text.ids), "interface"), counted(len(found), "pair")
        told = f"{is_open:,} open something, {blocked:,} open nothing that is known"
        yield f"Of {hosts}, {of}: {told}, and {lacking:,} have no address."
        for (end, ports), starts in sorted(sources.items()):
            yield f"{self.named(end)} is reached on {ports} from {some(map(self.named, starts))}."

    # -- rules of a policy, of groups and of ACLs, and lines of a log

    def expect(self, text: texts.Table) -> Iterator[str]:
        last = text.lines[-1]
        holds, fails, unknown = last["ok"], last["fail"], last["unknown"]
        one = f"{counted(holds, 'rule holds', 'rules hold')}, {fails:,} fail{'s' * (fails == 1)}"
        yield f"{one}, and of {unknown:,} it is not known."
        for it in text.lines[:-1]:
            line = f"Line {it['n']}"
            if it["answer"] == "blocked":
                yield f"{line} fails: no packet gets through, and one has to."
            elif it["answer"] == "reachable":
                yield f"{line} fails: {packet_words(header_of(it))} gets through, and none may."
            else:
                yield from self.expected(line, it)

    def expected(self, line: str, told: Members) -> Iterator[str]:
        """A rule by the stop of a packet."""
        header, stop = header_of(told), stop_of(told)
        found = self.found(header, told["phase"], stop)
        who = "it" if told["phase"] == "request" else "its reply"
        packet, end = packet_words(header), self.teller.named(stop.id)
        if told["answer"] == "unknown":
            yield f"{line} is not known: of {packet} {who} comes to {end} (Unmodelled)."
        else:
            how = f"{who} is stopped by {stop.name} of {end}"
            yield f"{line} fails: all have to get through, and of {packet} {how}."
        yield from self.stop_lines(found)

    def unused(self, text: texts.Table) -> Iterator[str]:
        rules = text.lines[1:]
        spare = [it for it in rules if it["answer"] == "unused"]
        yield f"Of {counted(len(rules), 'rule')} {len(spare):,} decide nothing of this query."
        for it in rules:
            name = self.rule_words(it["id"], it["direction"] == "out", it["rule"] or "-")
            if it["answer"] == "unused":
                yield f"Without {name}, nothing would be otherwise."
            else:
                packet = packet_words(header_of(it))
                yield f"Without {name}, it would be otherwise of {packet}."

    def rule_words(self, owner: str, outward: bool, rule: str) -> str:
        """A rule of a group, or a row of a network ACL, and what it allows or denies."""
        network, teller = self.network, self.teller
        known(network, "acls" if owner in network.acls else "groups", owner)
        row = network.row_numbered(owner, outward, rule)
        its_rule = network.rule_named(owner, outward, rule)
        kind = "row" if owner in network.acls else "rule"
        name = f"{direction(outward)} {kind} {harmless(rule)} of {teller.named(owner)}"
        if row:
            return f"{name}, which {teller.row_words(row)}"
        if its_rule:
            return f"{name}, which allows {teller.rule_words(its_rule, outward)}"
        raise NoText(f"{name} isn't in the bundle")

    def flows(self, text: texts.Table) -> Iterator[str]:
        last = text.lines[-1]
        agree, differ = counted(last["ok"], "line agrees", "lines agree"), last["differ"]
        yield f"{agree} with the rules, and {differ:,} {'is' if differ == 1 else 'are'} otherwise."
        for it in text.lines[:-1]:
            yield f"Line {it['n']} was {self.flow_words(it)}."
        silent = last["nodata"] + last["skipdata"] + last["unknown"] + last["skipped"]
        if silent:
            yield f"Of {counted(silent, 'line')} nothing is said."

    def flow_words(self, told: Members) -> str:
        if told["action"] == "ACCEPT":
            stop = stop_of(told)
            known(self.network, home_of(stop.name), stop.id)
            rule = "" if stop.rule == "-" else f", row {harmless(stop.rule)}"
            stopped = f"stopped by {stop.name} of {self.teller.named(stop.id)}{rule}"
            return f"accepted, and by the rules it is {stopped}"
        if told["by"] == "none":
            return "rejected, and by the rules it passes an interface without security groups"
        outward = told["direction"] == "out"
        rule = self.rule_words(told["group"], outward, told["rule"] or "-")
        return f"rejected, and by the rules it passes: by {rule}"
