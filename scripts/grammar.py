"""The forms that lines of vpc's texts have, each once: what a line tells, and the line that tells
it."""

from __future__ import annotations

import functools
import re
from collections.abc import Callable, Mapping
from typing import Any, NamedTuple, Optional

from scripts.headers import address
from scripts.words import COUNTED_LISTS, PLACES, STOPS

# What a line tells, by the names of its members.
Members = dict[str, Any]


class NoForm(Exception):
    """A word isn't of the kind that was tried."""


# ---- words: of each kind the pattern, the value of a word, and the word of a value

BYTE = "(?:25[0-5]|2[0-4][0-9]|1[0-9][0-9]|[1-9]?[0-9])"
ADDRESS = rf"{BYTE}(?:\.{BYTE}){{3}}"
PORT = (
    "(?:6553[0-5]|655[0-2][0-9]|65[0-4][0-9]{2}|6[0-4][0-9]{3}|[1-5][0-9]{4}|[1-9][0-9]{0,3}|0)"
)
PATH = r"\$|[A-Za-z]+(?:\[[0-9]+\])?(?:\.[A-Za-z0-9]+(?:\[[0-9]+\])?)*"


class Kind(NamedTuple):
    """What words of a field are. Where `read` and `write` are None the value is the word."""

    pattern: str
    read: Optional[Callable[[str], Any]] = None
    write: Optional[Callable[[Any], Any]] = None


@functools.lru_cache(10_000)
def numbers_in(word: str) -> tuple[int, int]:
    first, last = word.split("-")
    if int(first) > int(last):
        raise NoForm
    return int(first), int(last)


def read_numbers(word: str) -> list[int]:
    return [*numbers_in(word)]


def read_addresses(word: str) -> list[str]:
    first, last = word.split("-")
    if address(first) > address(last):
        raise NoForm
    return [first, last]


def write_range(value: Any) -> str:
    first, last = value
    return f"{first}-{last}"


def read_ranges(words: str) -> list[list[int]]:
    """Ranges that ascend and don't touch."""
    ranges = [read_numbers(it) for it in words.split(" ")]
    if any(one[1] + 1 >= other[0] for one, other in zip(ranges, ranges[1:])):
        raise NoForm
    return ranges


def write_ranges(value: Any) -> str:
    return " ".join(map(write_range, value))


def read_rule(word: str) -> Optional[str]:
    return None if word == "-" else word


def write_rule(value: Any) -> Any:
    return "-" if value is None else value


def read_protocol(word: str) -> Any:
    return int(word) if word.isdigit() else word


KINDS = {
    # (a number that every reader of JSON keeps)
    "NUMBER": Kind("0|[1-9][0-9]{0,14}", int),
    "VERSION": Kind("1", int),
    "REPORT": Kind("1|2", int),
    "CELLS": Kind("[1-9][0-9]{0,38}"),
    "ID": Kind("[!-~]{1,256}"),
    "RULE": Kind("[!-~]{1,256}", read_rule, write_rule),
    "NAME": Kind("|".join(STOPS)),
    "LIST": Kind("|".join(COUNTED_LISTS)),
    "PATH": Kind(PATH),
    "PHASE": Kind("request|reply"),
    "DIRECTION": Kind("in|out"),
    "PROTO": Kind(f"icmp|tcp|udp|(?!(?:1|6|17) ){BYTE}", read_protocol),
    "ADDRESS": Kind(ADDRESS),
    "PORT": Kind(PORT, int),
    "PROTOS": Kind(f"{BYTE}-{BYTE}", read_numbers, write_range),
    "ADDRESSES": Kind(f"{ADDRESS}-{ADDRESS}", read_addresses, write_range),
    "PORTS": Kind(f"{PORT}-{PORT}", read_numbers, write_range),
    "RANGES": Kind(f"{PORT}-{PORT}(?: {PORT}-{PORT})*", read_ranges, write_ranges),
    # (words of a query stand as they were given)
    "PROTOCOL": Kind(f"icmp|tcp|udp|{BYTE}"),
    "PREFIX": Kind(f"{ADDRESS}/(?:3[0-2]|[12]?[0-9])"),
}


def is_id(word: str) -> bool:
    return bool(re.fullmatch(KINDS["ID"].pattern, word))


# ---- lines: the forms that those of each text may have

# Words in capitals are fields, and others stand for themselves, with ~ for a blank inside what
# `line` or a field tells. `field:KIND` is a field whose name isn't its kind, `field=one|other` one
# that is one of these words, `(field)` and `(field=word)` one that isn't printed, and
# `[word field:KIND]` may be left out.
SHORT = {
    "N": "n:NUMBER",
    "HEADER": "PROTO src:ADDRESS dst:ADDRESS p:PORT q:PORT",
    "BOX": "proto:PROTOS src:ADDRESSES dst:ADDRESSES p:PORTS q:PORTS",
    "STOP": "NAME ID RULE",
    "PAIRS": "[from from:ID] [to to:ID] [proto proto:PROTOCOL] [src src:PREFIX] [dst dst:PREFIX] "
    "[sport sport:PORTS] [port port:PORTS]",
    "GROUP-RULE": "(by=rule) group:ID DIRECTION RULE",
    "INNER-PLACE": "place=" + "|".join(it for it in PLACES if it != "internet"),
    "BUNDLE": "of=description|description~after",
}
WALK = [
    "hop N place=internet id=internet HEADER",
    "hop N INNER-PLACE ID HEADER",
    "hop N place=out|in ID HEADER by by=tracked|none",
    "hop N place=out|in ID HEADER by GROUP-RULE",
    "arrived ID",
    "stopped STOP",
]
CHANGES = [
    "word=opened|closed end:ID PHASE STOP",
    "word=opened|closed end:ID phase=request name=Absent ID RULE",
    "word=moved end:ID after:ID",
]
FARES = ["word=through|same", *CHANGES, "word=reached end:ID", "PHASE STOP", "end:ID"]
# What decided at a place, below its hop.
DECISIONS = [
    "group group:ID DIRECTION RULE",
    "route table:ID reach:ID target:RULE",
    "acl ID DIRECTION NUMBER verdict=allow|deny",
    "becomes HEADER",
]
FORMS = {
    "trace": WALK,
    "why": WALK + DECISIONS,
    "ask": [
        *(f"(phase) {it}" for it in WALK),
        "reachable",
        "packet HEADER",
        "request",
        "reply",
        "vpc-report version:REPORT",
        "more~boxes",
        "query from from:ID to to:ID",
        "box BOX",
        "row N PHASE STOP BOX",
        "cut side=src|dst at:ADDRESS",
        "cut side=proto|p|q at:PORT",
        "leaf PHASE STOP",
        "end N",
        "next HEADER",
        "cells CELLS",
    ],
    "check": [
        "yes",
        "no why=overlap i:NUMBER j:NUMBER",
        "no why=uncovered HEADER",
        *(f"no why=untrue i:NUMBER HEADER {it}" for it in FARES),
        *(f"no why=unlisted start:ID HEADER {it}" for it in FARES),
    ],
    "replay": ["event N outcome=arrived ID HEADER", "event N outcome=stopped STOP"],
    "make": [
        "make N",
        "pair from:ID to:ID answer=reachable HEADER",
        "pair from:ID to:ID answer=blocked",
    ],
    "matrix": [
        "matrix",
        "pair from:ID to:ID answer=blocked|no-address",
        "pair from:ID to:ID answer=open ports:RANGES",
    ],
    "reach": [
        "vpc-reach VERSION",
        "more~reach",
        "query PAIRS",
        "row N start:ID end:ID BOX",
        "end N",
        "next start:ID HEADER",
    ],
    "diff": [
        "vpc-diff VERSION",
        "more~changes",
        "query PAIRS",
        *(f"row N start:ID {it} BOX" for it in CHANGES),
        "end N",
        "next start:ID HEADER",
    ],
    "expect": [
        "line N answer=blocked",
        "line N answer=reachable HEADER",
        "line N (answer=stopped) PHASE STOP HEADER",
        "line N answer=unknown PHASE STOP HEADER",
        "ok ok:NUMBER fail fail:NUMBER unknown unknown:NUMBER",
    ],
    "flows": [
        "line N action=ACCEPT STOP",
        "line N action=REJECT by by=none",
        "line N action=REJECT by GROUP-RULE",
        "ok ok:NUMBER differ differ:NUMBER nodata nodata:NUMBER skipdata skipdata:NUMBER "
        "unknown unknown:NUMBER skipped skipped:NUMBER",
    ],
    "unused": [
        "rules N",
        "rule ID DIRECTION RULE answer=needed HEADER",
        "rule ID DIRECTION RULE answer=unused",
    ],
    "refusal": [
        "refused of=words|events|report|reach|diff|rules|log|number N",
        "refused of=events|report|reach|diff|rules|log why=TooBig",
        "refused of=report|reach|diff why=TooManyBoxes N",
        "refused of=matrix|reach|diff why=TooManyInterfaces",
        "refused of=unused why=TooManyRules",
        "refused of=packet|query why=BadWord|UnknownId N",
        "refused of=packet|query why=NotAnEnd ID",
        "refused of=query why=EmptyRange|NotAStart N",
        "refused of=query why=NoAddress ID",
        "refused of=query why=BothInternet|MaxOutOfRange",
        "refused BUNDLE why=TooBig|NotJson",
        "refused BUNDLE why=WrongShape|BadText PATH",
        "refused BUNDLE why=DuplicateId|TwoTables ID",
        "refused BUNDLE why=MissingReference from:ID to:ID",
        "refused BUNDLE why=DuplicateAddress vpc:ID ADDRESS",
        "refused BUNDLE why=DuplicatePublic ADDRESS",
        "refused BUNDLE why=NoRouteTable|NoAcl|TwoAcls subnet:ID",
        "refused BUNDLE why=TwoInternetGateways vpc:ID",
        "refused BUNDLE why=TooManyRows LIST",
        "read~fault N",
        "want~of~memory",
    ],
}


class Part:
    """A word of a form, or two. `before` is what stands there as it is, and `field` what is told,
    if anything; `kind` is None where it isn't printed, and `value` then what it is, unless that is
    told by what stands around."""

    def __init__(self, words: str) -> None:
        self.before, self.field, self.needed = "", "", True
        self.kind: Optional[Kind] = None
        self.value: Optional[str] = None
        if words[0] == "[":
            self.needed = False
            self.before, _, words = words[1:-1].partition(" ")
        if words[0] == "(":
            self.field, _, value = words[1:-1].partition("=")
            self.value = value or None
        elif "=" in words:
            self.field, _, values = words.partition("=")
            self.kind = Kind("|".join(map(re.escape, values.replace("~", " ").split("|"))))
        elif ":" in words or words.isupper():
            field, _, kind = words.partition(":")
            self.field, self.kind = field.lower(), KINDS[kind or field]
        else:
            self.before = words.replace("~", " ")

    def pattern(self) -> str:
        """The pattern of what is printed, with a blank before it."""
        text = f" {re.escape(self.before)}" if self.before else ""
        if self.kind:
            text += f" ({self.kind.pattern})"
        return text if self.needed else f"(?:{text})?"

    def printed(self) -> str:
        """The same with %s for the field."""
        return f" {self.before}" * bool(self.before) + " %s" * bool(self.kind)


class Form:
    """A form that a line of a text may have."""

    def __init__(self, text: str, words: str) -> None:
        for short, long in SHORT.items():
            words = re.sub(rf"(?<![\w-]){short}(?![\w-])", long, words)
        self.parts = [Part(it) for it in re.findall(r"\[[^]]*\]|\S+", words)]
        self.tag = next(it.before for it in self.parts if it.before)
        # what is told, in order: where it isn't printed its value, if that is known
        fields = {it.field: it.value for it in self.parts if it.field}
        self.told: Members = {"text": text, "line": self.tag, **fields}
        self.printed = [(it.field, it.kind) for it in self.parts if it.kind]
        self.fields = [field for field, _ in self.printed]
        self.readers = [(field, kind.read) for field, kind in self.printed if kind.read]
        self.spare = {it.field for it in self.parts if it.kind and not it.needed}
        self.needed = self.told.keys() - self.spare

    @functools.cached_property
    def pattern(self) -> re.Pattern[str]:
        return re.compile("".join(it.pattern() for it in self.parts)[1:])

    def read(self, line: str, around: Mapping[str, Any]) -> Optional[Members]:
        """What a line tells, beside what is told by what stands around it; None where it hasn't
        this form."""
        found = self.pattern.fullmatch(line)
        if not found:
            return None
        told = {**self.told, **around}
        told.update(zip(self.fields, found.groups()))
        try:
            for field, read in self.readers:
                if told[field] is not None:
                    told[field] = read(told[field])
        except NoForm:
            return None
        for field in self.spare:
            if found[1 + self.fields.index(field)] is None:
                del told[field]
        return told

    def has_fields(self, told: Members) -> bool:
        """Whether these are the fields of such a line, with the values that aren't printed."""
        are_its = self.needed <= told.keys() <= self.told.keys()
        return are_its and all(it in (None, told.get(field)) for field, it in self.told.items())

    @functools.cached_property
    def whole(self) -> str:
        """The line where nothing is left out, with %s for each field."""
        return "".join(it.printed() for it in self.parts)[1:]

    def write(self, told: Members) -> str:
        """The line that tells this."""
        there = [(told[field], kind.write) for field, kind in self.printed if field in told]
        words = [write(value) if write else value for value, write in there]
        if len(words) == len(self.printed):
            return self.whole % tuple(words)
        kept = [it for it in self.parts if it.needed or it.field in told]
        return "".join(it.printed() for it in kept)[1:] % tuple(words)


@functools.lru_cache(None)
def forms_of(name: str) -> dict[str, list[Form]]:
    """The forms of the lines of a text, by how they begin. A text that isn't there is a
    KeyError."""
    forms: dict[str, list[Form]] = {}
    for words in FORMS[name]:
        form = Form(name, words)
        forms.setdefault(form.tag, []).append(form)
    return forms
