#!/usr/bin/env python3
"""Whether `picture` draws what a text says, and nothing else: tests/picture.py [PROGRAM]

Each text of TEXTS, and each of the large ones that are made here, becomes one picture that parses as XML, tells itself to those who
don't see it, has no two texts over each other and none outside, and no word but those of the text, of the bundle of names and of
OWN_WORDS; each id of the text stands in it or is counted. What is folded (classes of a matrix, places of a plane, ways of reach and
diff) is compared with the text anew. Texts that end early or are damaged are refused. Large ones take 2 s of the processor at most.
With PROGRAM its answers about the bundles of examples/ are drawn too. The last line is 'N passed, M failed'.
"""

import contextlib
import hashlib
import html
import html.parser
import io
import itertools
import json
import os
import random
import re
import resource
import subprocess
import sys
import tempfile
import xml.etree.ElementTree as xml

import answers

TOP = os.path.dirname(os.path.dirname(os.path.abspath(__file__)))
sys.path.insert(0, TOP)

from scripts import picture as script, picture_chips, picture_classes, picture_matrix, picture_reports, picture_ways
from scripts.bundles import Names, printable

SVG = "{http://www.w3.org/2000/svg}"
AWS = "eni-0123456789abcdef0"

NAT = """reachable
packet tcp 10.0.1.10 198.51.100.7 0 443
request
hop 1 out eni-a tcp 10.0.1.10 198.51.100.7 0 443 by sg-a out 1
hop 2 router subnet-a tcp 10.0.1.10 198.51.100.7 0 443
hop 3 nat-out nat-1 tcp 10.0.1.10 198.51.100.7 0 443
hop 4 router subnet-n tcp 10.0.3.5 198.51.100.7 1024 443
hop 5 igw-out igw-1 tcp 10.0.3.5 198.51.100.7 1024 443
hop 6 internet internet tcp 203.0.113.5 198.51.100.7 1024 443
arrived internet
reply
hop 1 internet internet tcp 198.51.100.7 203.0.113.5 443 1024
hop 2 igw-in igw-1 tcp 198.51.100.7 203.0.113.5 443 1024
hop 3 enter vpc-1 tcp 198.51.100.7 10.0.3.5 443 1024
hop 4 nat-in nat-1 tcp 198.51.100.7 10.0.3.5 443 1024
hop 5 router subnet-n tcp 198.51.100.7 10.0.1.10 443 0
hop 6 in eni-a tcp 198.51.100.7 10.0.1.10 443 0 by tracked
arrived eni-a
"""
STOPPED = """hop 1 out eni-a tcp 10.0.1.10 10.0.1.20 5000 80 by none
hop 2 router subnet-a tcp 10.0.1.10 10.0.1.20 5000 80
stopped AclIn acl-1 90
"""
# A walk with what decided, which is drawn as it is without.
WHY = """hop 1 out eni-a tcp 10.0.1.10 198.51.100.7 0 443 by sg-a out 1
group sg-a out 1
hop 2 router subnet-a tcp 10.0.1.10 198.51.100.7 0 443
route rtb-a 0.0.0.0/0 nat-1
acl acl-1 out 100 allow
acl acl-1 in 100 allow
hop 3 nat-out nat-1 tcp 10.0.1.10 198.51.100.7 0 443
becomes tcp 10.0.3.5 198.51.100.7 1024 443
hop 4 router subnet-n tcp 10.0.3.5 198.51.100.7 1024 443
route rtb-n 0.0.0.0/0 igw-1
acl acl-1 out 90 deny
stopped AclOut acl-1 90
"""
# Through a firewall to a network that isn't described, and back.
FAR = """reachable
packet tcp 10.0.1.10 172.20.0.0 0 443
request
hop 1 out eni-a tcp 10.0.1.10 172.20.0.0 0 443 by sg-a out 1
hop 2 router subnet-a tcp 10.0.1.10 172.20.0.0 0 443
hop 3 inspect vpce-fw tcp 10.0.1.10 172.20.0.0 0 443
hop 4 router subnet-f tcp 10.0.1.10 172.20.0.0 0 443
hop 5 far-out vgw-1 tcp 10.0.1.10 172.20.0.0 0 443
arrived vgw-1
reply
hop 1 far-in vgw-1 tcp 172.20.0.0 10.0.1.10 443 0
hop 2 enter vpc-1 tcp 172.20.0.0 10.0.1.10 443 0
hop 3 in eni-a tcp 172.20.0.0 10.0.1.10 443 0 by tracked
arrived eni-a
"""
FAR_STOPPED = """hop 1 far-in vpce-s3 tcp 52.216.0.1 10.0.1.10 443 5000
stopped FarOpens vpce-s3 -
"""
FAR_WHY = """hop 1 far-in vgw-1 tcp 172.20.0.1 10.0.1.10 5000 443
hop 2 enter vpc-1 tcp 172.20.0.1 10.0.1.10 5000 443
route rtb-edge 10.0.1.0/24 vpce-fw
acl acl-1 in 100 allow
hop 3 inspect vpce-fw tcp 172.20.0.1 10.0.1.10 5000 443
stopped InspectDrop vpce-fw -
"""
REPORT = """vpc-report 1
query from eni-a to eni-b
box 6-6 10.0.1.10-10.0.1.10 10.0.2.20-10.0.2.20 0-32767 443-443
row 1 reply AclOut acl-b 32767 6-6 10.0.1.10-10.0.1.10 10.0.2.20-10.0.2.20 0-1023 443-443
row 2 request Unmodelled vpce-1 - 6-6 10.0.1.10-10.0.1.10 10.0.2.20-10.0.2.20 1024-32767 443-443
end 2
"""
TREE = """vpc-report 2
query from eni-a to eni-b
box 6-6 10.0.1.8-10.0.1.11 10.0.2.20-10.0.2.20 0-32767 443-443
cut src 10.0.1.10
leaf request SourceCheck eni-a -
cut src 10.0.1.11
cut p 1024
leaf reply AclOut acl-b 32767
leaf request Unmodelled vpce-1 -
leaf request BlockPublicAccess subnet-a block-ingress
end 4
"""
MORE = """more boxes
query from eni-a to eni-b
box 6-6 10.0.1.10-10.0.1.10 10.0.2.20-10.0.2.20 5000-5000 0-65535
row 1 request GroupsIn eni-b - 6-6 10.0.1.10-10.0.1.10 10.0.2.20-10.0.2.20 5000-5000 0-21
row 2 request AclIn acl-1 80 6-6 10.0.1.10-10.0.1.10 10.0.2.20-10.0.2.20 5000-5000 22-22
row 3 request GroupsIn eni-b - 6-6 10.0.1.10-10.0.1.10 10.0.2.20-10.0.2.20 5000-5000 23-442
next tcp 10.0.1.10 10.0.2.20 5000 443
cells 7
"""
MATRIX = """matrix
pair eni-a eni-b open 0-65535
pair eni-a eni-b9 blocked
pair eni-b eni-a open 0-65535
pair eni-b eni-b9 open 22-22 443-443
pair eni-b9 eni-a blocked
pair eni-b9 eni-b no-address
"""
REACH = """vpc-reach 1
query to eni-b9
row 1 eni-b eni-b9 0-0 10.2.1.10-10.2.1.10 10.2.9.10-10.2.9.10 0-65535 0-65535
row 2 eni-b eni-b9 1-1 10.2.1.10-10.2.1.10 10.2.9.10-10.2.9.10 0-65535 2048-2048
row 3 eni-b eni-b9 2-255 10.2.1.10-10.2.1.10 10.2.9.10-10.2.9.10 0-65535 0-65535
end 3
"""
MORE_REACH = """more reach
query from internet sport 1024-65535
row 1 internet eni-a 6-6 1.0.0.0-9.255.255.255 203.0.113.10-203.0.113.10 1024-65535 22-22
next internet tcp 11.0.0.0 203.0.113.10 1024 22
"""
DIFF = """vpc-diff 1
query
row 1 eni-a closed eni-b reply AclOut acl-b 32767 6-6 10.0.1.10-10.0.1.10 10.0.2.20-10.0.2.20 0-32767 443-443
row 2 eni-a opened eni-b request GroupsIn eni-b - 6-6 10.0.1.10-10.0.1.10 10.0.2.20-10.0.2.20 0-65535 80-80
row 3 eni-a moved eni-b eni-b2 6-6 10.0.1.10-10.0.1.10 10.0.2.20-10.0.2.20 0-65535 22-22
row 4 internet opened eni-c request WrongPlace internet - 6-6 198.51.100.0-198.51.100.255 203.0.113.10-203.0.113.10 0-65535 22-22
row 5 eni-d closed eni-b request Absent eni-d - 6-6 10.0.1.12-10.0.1.12 10.0.2.20-10.0.2.20 0-65535 443-443
end 5
"""
FAR_REACH = """vpc-reach 1
query port 22-443
row 1 eni-a vgw-1 6-6 10.0.1.10-10.0.1.10 172.20.0.0-172.20.255.255 0-65535 443-443
row 2 vgw-1 eni-a 6-6 172.20.0.0-172.20.255.255 10.0.1.10-10.0.1.10 0-65535 22-22
row 3 vgw-2 eni-a 6-6 172.20.0.0-172.20.255.255 10.0.1.10-10.0.1.10 0-65535 22-22
end 3
"""
TEXTS = [
    ("to a network outside and back", FAR), ("from there, stopped", FAR_STOPPED), ("reach of networks outside", FAR_REACH),
    ("a change of networks outside", "vpc-diff 1\nquery\nrow 1 eni-a opened vgw-1 request Unmodelled vgw-1 - 6-6 10.0.1.10-10.0.1.10 172.20.0.0-172.20.255.255 0-65535 443-443\nend 1\n"),
    ("a walk and its reply", NAT), ("a walk that is stopped", STOPPED), ("a report", REPORT), ("a tree", TREE), ("more boxes", MORE), ("a matrix", MATRIX),
    ("an empty matrix", "matrix\n"), ("reach", REACH), ("more reach", MORE_REACH), ("nothing reached", "vpc-reach 1\nquery\nend 0\n"), ("a change", DIFF),
    ("no change", "vpc-diff 1\nquery from eni-a\nend 0\n"),
    ("more changes", "more changes\n" + "\n".join(DIFF.splitlines()[1:-1]) + "\nnext eni-x tcp 10.0.0.1 10.0.0.2 0 1\n"),
    ("a box of one packet", "vpc-report 1\nquery from internet to eni-b\nbox 1-1 0.0.0.0-0.0.0.0 1.0.0.0-1.0.0.0 0-0 8-8\n"
     "row 1 request PrivateAddress internet - 1-1 0.0.0.0-0.0.0.0 1.0.0.0-1.0.0.0 0-0 8-8\nend 1\n"),
    ("no row", "vpc-report 1\nquery from eni-a to eni-b\nbox 0-255 0.0.0.0-255.255.255.255 0.0.0.0-255.255.255.255 0-65535 0-65535\nend 0\n"),
]

# What is no text, or one that can't be drawn.
REFUSED = [
    ("nothing", ""), ("a newline", "\n"), ("words", "refused words 1\n"), ("a file", "read fault 1\n"), ("memory", "want of memory\n"), ("yes", "yes\n"),
    ("an untrue report", "no untrue 1 tcp 10.0.1.10 10.0.2.20 0 80 through\n"), ("events", "event 1 arrived eni-b tcp 10.0.1.10 10.0.1.20 5000 443\n"),
    ("make", "make 1\npair eni-1 internet blocked\n"), ("a refused bundle", "refused description NoAcl subnet-a\n"), ("bytes", b"\xff\xfe\x00"),
    ("a null", "matrix\0\n"), ("another version", REPORT.replace("vpc-report 1", "vpc-report 3")), ("a list as a tree", REPORT.replace("vpc-report 1", "vpc-report 2")),
    ("a tree as a list", TREE.replace("vpc-report 2", "vpc-report 1")), ("a cut beyond its side", TREE.replace("cut p 1024", "cut p 32768")), ("a leaf less", TREE.replace("leaf reply AclOut acl-b 32767\n", "")),
    ("a tree of a wrong count", TREE.replace("end 4", "end 5")), ("two texts", STOPPED + STOPPED), ("a line more", MATRIX + "\n"),
    ("lines that end with two bytes", NAT.replace("\n", "\r\n")), ("a number twice", REPORT.replace("row 2", "row 1")), ("a wrong count", REPORT.replace("end 2", "end 3")),
    ("an address beyond", STOPPED.replace("10.0.1.10", "10.0.1.256")), ("a range backwards", REPORT.replace("0-1023", "1023-0")),
    ("a port beyond", REPORT.replace("1024-32767", "1024-65536")), ("a row beyond the box", REPORT.replace("1024-32767", "1024-32768")),
    ("a port of 5,000 digits", REPORT.replace("1024-32767", "1024-" + "1" * 5000)), ("as many rows", REPORT.replace("end 2", "end " + "1" * 5000)),
    ("another stop", REPORT.replace("AclOut", "AclOver")), ("another phase", REPORT.replace(" reply ", " answer ")), ("two blanks", REPORT.replace(" to ", "  to ")),
    ("a pair twice", MATRIX + "pair eni-a eni-b blocked\n"), ("a pair of one", MATRIX.replace("pair eni-b9 eni-b ", "pair eni-b9 eni-b9 ")),
    ("another word of a pair", MATRIX.replace("no-address", "closed")), ("a range of a pair backwards", MATRIX.replace("22-22", "23-22")),
    ("a stop of two words", STOPPED.replace(" 90", "")), ("an id with a blank", STOPPED.replace("acl-1", "acl 1")), ("a walk without hops", "arrived eni-a\n"),
    ("an id of 257 bytes", STOPPED.replace("acl-1", "a" * 257)), ("a hop's number", STOPPED.replace("hop 2", "hop 3")), ("another place", STOPPED.replace("router", "bridge")),
    ("pairs in another order", REACH.replace("query to eni-b9", "query to eni-b9 from eni-b")), ("a missing id", MATRIX.replace("pair eni-b9 eni-b no-address\n", "")),
]

NAMES = json.dumps({
    "NetworkInterfaces": [
        {"NetworkInterfaceId": "eni-a", "TagSet": [{"Key": "Name", "Value": "web <1> & \"co\""}], "Groups": [{"GroupId": "sg-a"}]},
        {"NetworkInterfaceId": "eni-b", "Attachment": {"InstanceId": "i-b"}, "Groups": [{"GroupId": "sg-b"}]},
        {"NetworkInterfaceId": "eni-b9", "TagSet": [{"Key": "Name", "Value": " "}], "SubnetId": "subnet-b"},
        {"NetworkInterfaceId": "eni-c", "TagSet": [{"Key": "Name", "Value": "\u202e\u0007\ud800 \u6771\u4eac \U0001f600" + " long" * 30}]}, 7],
    "SecurityGroups": [{"GroupId": "sg-a", "GroupName": "a group with a rather long name that goes on and on, beyond its card's width"}],
    "Subnets": [{"SubnetId": "subnet-a", "Tags": [{"Key": "Name", "Value": "alpha"}, {"Key": 7}, None]}],
    "Reservations": [{"Instances": [{"InstanceId": "i-b", "Tags": [{"Key": "Name", "Value": "db host"}]}]}],
})


# ---- measuring

# The widths of letters from the blank to the tilde, in thousandths of their size: broad faces that machines have.
FACES = {
    "DejaVu Sans Bold": "348 456 521 838 696 1002 872 306 457 457 523 838 380 415 380 365 696 696 696 696 696 696 696 696 696 696 400 400 838 838 838 580 1000 774 762 734 830 683 683 "
    "821 837 372 372 775 637 995 837 850 733 850 770 720 682 812 774 1103 771 724 725 457 365 457 838 500 500 675 716 593 716 678 435 716 712 343 343 665 343 1042 712 687 716 716 493 "
    "595 478 712 652 924 645 652 582 712 365 712 838",
    "Liberation Sans Bold": "278 333 474 556 556 889 722 238 333 333 389 584 278 333 278 278 556 556 556 556 556 556 556 556 556 556 333 333 584 584 584 611 975 722 722 722 722 667 611 "
    "778 722 278 556 722 611 833 722 778 667 778 722 667 611 722 667 944 667 667 611 333 278 333 584 556 333 556 611 556 611 556 333 611 611 278 278 556 278 889 611 611 611 611 389 "
    "556 333 611 556 778 556 556 500 389 280 389 584",
}
FACES = {name: dict(zip(map(chr, range(32, 127)), map(int, text.split()))) for name, text in FACES.items()}
# (those of one width are 0.602 of their size at most)
BROADEST = {it: max(face[it] for face in FACES.values()) / 1000 for it in map(chr, range(32, 127))}


def measured(text, size, is_fixed):
    """How wide a text is in the broadest face."""
    if is_fixed and text.isascii():
        return 0.602 * size * len(text)
    return sum(BROADEST.get(it, 0.85 if ord(it) < 0x3000 else 1) for it in text) * size


def text_boxes(svg):
    """The texts of a picture, each with its left, top, right and bottom."""
    for it in svg.iter(SVG + "text"):
        x, y = float(it.get("x")), float(it.get("y"))
        spans = list(it.iter(SVG + "tspan")) or [it]
        width = sum(measured(span.text or "", float(span.get("font-size")), span.get("class").startswith("m")) + float(span.get("dx", 0)) for span in spans)
        size = max(float(span.get("font-size")) for span in spans)
        told = " ".join("".join(span.itertext()) for span in spans)
        left = x - width * {"middle": 0.5, "end": 1}.get(it.get("text-anchor"), 0)
        # (letters stand a little less than three quarters of their size above the base line, and a quarter below it)
        if "rotate(-90" in it.get("transform", ""):
            assert not it.get("text-anchor")
            yield told, x - 0.74 * size, y - width, x + 0.22 * size, y
        else:
            yield told, left, y - 0.74 * size, left + width, y + 0.22 * size


def collisions(svg):
    """Texts that lie over each other, or outside the picture."""
    _, above, width, height = map(float, svg.get("viewBox").split())
    boxes = sorted(text_boxes(svg), key=lambda it: it[2])
    found = [it[0] for it in boxes if it[1] < 0 or it[2] < above or it[3] > width or it[4] > height + above]
    for number, one in enumerate(boxes):
        for other in itertools.islice(boxes, number + 1, None):
            if other[2] >= one[4]:
                break
            if other[1] < one[3] and one[1] < other[3]:
                found.append((one[0], other[0]))
    return found


# ---- results

class Results:
    def __init__(self):
        self.passed = self.failed = 0

    def add(self, name, found, wanted):
        if found == wanted:
            self.passed += 1
            return
        self.failed += 1
        print(f"FAILED: {name}\n  wanted: {shown(wanted)}\n  found:  {shown(found)}")


def shown(value):
    return str(value)[:600]


class Input:
    """Standard input, for a call within this process."""

    def __init__(self, data):
        self.buffer = io.BytesIO(data)


def picture(data, *words):
    """The status of picture, called within this process, and what it prints."""
    out, err = io.StringIO(), io.StringIO()
    before, sys.stdin = sys.stdin, Input(data.encode() if isinstance(data, str) else data)
    try:
        with contextlib.redirect_stdout(out), contextlib.redirect_stderr(err):
            status = script.main(list(words))
    finally:
        sys.stdin = before
    return status, out.getvalue(), err.getvalue()


def words_of(svg):
    """The words that a picture shows."""
    texts = [" ".join(it.itertext()) if it.tag != SVG + "text" else " ".join(part for part in it.itertext()) for it in svg.iter() if it.tag in (SVG + "text", SVG + "title", SVG + "desc")]
    return [word for text in texts for word in re.split(r"[\s,;:.\u00d7\u00b7\u2192\u2026()]+", text.replace(". ", " ")) if word]


def strange_words(svg, text, names):
    """Words of a picture that stand neither in the text, nor in the names, nor among its own; numbers aside."""
    # (the boxes of leaves stand in no line)
    text += answers.report_of(text.encode()).text().decode() if text.startswith("vpc-report 2") else ""
    told = set(re.split(r"[\s:]+", text)) | {part for it in text.split() for part in it.split("-")} | set(script.OWN_WORDS)
    told |= {word for it in re.findall(r'"((?:[^"\\]|\\.)*)"', names) for word in re.split(r"[\s,;:.()]+", printable(json.loads(f'"{it}"')))}
    parts = {word for it in told for word in re.split(r"[,;:.()]+", it)}
    return sorted({it for it in words_of(svg) if it not in told and it not in parts and not re.fullmatch(r"[0-9/-]+", it)})


def check_picture(results, name, text, *words, names="", is_wrapped=False):
    """All that holds of each picture."""
    status, out, err = picture(text, *words)
    results.add(f"{name}: drawn", (status, err), (0, ""))
    if status:
        return None
    svg = xml.fromstring(out)
    ids = [it.get("id") for it in svg.iter() if it.get("id")]
    about = [svg.find(SVG + it) for it in ("title", "desc")]
    results.add(f"{name}: tells itself", (svg.tag, svg.get("role"), svg.get("aria-labelledby").split(), all(it.text for it in about)), (SVG + "svg", "img", [it.get("id") for it in about], True))
    results.add(f"{name}: ids", len(ids), len(set(ids)))
    results.add(f"{name}: collisions", collisions(svg), [])
    if not is_wrapped:
        results.add(f"{name}: words", strange_words(svg, text, names), [])
    return svg


# ---- what is told of each

def run_texts(results, path):
    with open(path, "w", encoding="utf-8") as file:
        file.write(NAMES)
    for name, text in TEXTS:
        check_picture(results, name, text)
        svg = check_picture(results, f"{name}, with names", text, "--names", path, names=NAMES)
        shown_words = " ".join(words_of(svg))
        results.add(f"{name}: ids", [it for it in re.findall(r"\b(?:eni|sg|acl|subnet|vpc|nat|igw|vpce)-[a-z0-9]+\b", text) if it not in ("vpc-reach", "vpc-diff", "vpc-report", "nat-out", "nat-in", "igw-out", "igw-in") and it not in shown_words], [])
        named = text.replace("eni-a ", f"{AWS} ").replace("eni-b ", "eni-fedcba98765432100 ").replace("acl-1", "acl-0123456789abcdef0").replace("subnet-a", "subnet-0123456789abcdef0")
        named = named.replace("nat-1", "nat-0123456789abcdef0").replace("sg-a", "sg-0123456789abcdef0").replace("eni-a\n", f"{AWS}\n")
        check_picture(results, f"{name}, ids of AWS", named, "--names", path, names=NAMES)
        long = text.replace("eni-a", "a" * 256).replace("eni-b", "b-" * 127).replace("acl-1", '<&>"\'' * 50).replace("subnet-a", "\\" * 256).replace("sg-a", "]]>" * 80).replace("nat-1", "m" * 250)
        check_picture(results, f"{name}, long ids", long, is_wrapped=True)
        odd = text.replace("eni-a", "<eni&a>").replace("eni-b", "\"b'--").replace("acl-1", "<!--").replace("acl-b", "]]>").replace("vpce-1", "&#0;")
        check_picture(results, f"{name}, ids of signs", odd, is_wrapped=True)


def run_trees(results):
    """A tree is drawn as the list of its leaves is."""
    for name, text in (("a tree", TREE), ("a tree of many leaves", large_tree(300)), ("a tree of one leaf", "\n".join([*TREE.splitlines()[:3], "leaf request GroupsIn eni-b -", "end 1", ""]))):
        alike = [picture(it)[1] for it in (text, answers.report_of(text.encode()).text().decode())]
        results.add(f"{name}: as its rows", alike[0] == alike[1], True)


def run_why(results, path):
    for text, more in itertools.product((WHY, FAR_WHY), ([], ["--names", path])):
        alone = "".join(f"{it}\n" for it in text.splitlines() if it.split(" ")[0] in ("hop", "stopped"))
        results.add(f"what decided {more}", picture(text, *more)[:2], picture(alone, *more)[:2])
    for name, old, new in (("another rule", "group sg-a out 1", "group sg-a out 2"), ("another header", "becomes tcp 10.0.3.5", "becomes tcp 10.0.3.6"), ("no route", "route rtb-a 0.0.0.0/0 nat-1\n", ""),
                           ("another row", "90 deny", "91 deny"), ("a row that allows", "90 deny", "90 allow"), ("another place", "hop 4 router", "hop 4 enter")):
        assert old in WHY
        status, out, err = picture(WHY.replace(old, new))
        results.add(f"what decided: {name}", (status, out, err.count("\n")), (2, "", 1))


def run_refused(results):
    for name, text in REFUSED:
        status, out, err = picture(text)
        results.add(f"refused: {name}", (status, out, err.startswith("picture: the text can't be drawn: "), err.count("\n")), (2, "", True, 1))
    for name, text in TEXTS:
        for end in range(len(text)):
            # (a matrix may end behind a line of itself; where it does, it lacks pairs)
            status, out, err = picture(text[:end])
            is_whole = text[:end] in ("matrix\n",)
            if (status, out == "", err.count("\n")) != ((0, False, 0) if is_whole else (2, True, 1)):
                results.add(f"{name}, {end} bytes of it", (status, out, err), "refused")
                break
        else:
            results.add(f"{name}, parts of it", True, True)


def run_words(results, folder):
    text, other, bundle = (os.path.join(folder, it) for it in ("text", "other", "bundle"))
    for path, data in ((text, NAT), (other, "yes\n"), (bundle, NAMES)):
        with open(path, "w", encoding="utf-8") as file:
            file.write(data)
    whole = picture(NAT)
    results.add("a file", picture("", text), whole)
    results.add("names before", picture("", "--names", bundle, text), picture("", text, "--names", bundle))
    for words, why in (
        ([other], f"{other} can't be drawn: 'yes' begins no text of trace, why, ask, matrix, reach or diff"), (["none"], "none can't be read: No such file or directory"),
        (["--names", "none"], "none can't be read: No such file or directory"), (["--names", text], f"{text} is no bundle: it is not one JSON value in UTF-8"),
        (["--by", "zone"], "--by takes host, group, subnet or vpc"), (["--by", "group"], "--by group takes --names BUNDLE, which tells the group of each interface"),
        (["--by"], "--by is not one of its words; --help says more"), (["--title", "a", "--title", "b"], "--title is not one of its words; --help says more"),
        ([text, text], f"{text} is not one of its words; --help says more"), (["--name"], "--name is not one of its words; --help says more"),
        (["--names"], "--names is not one of its words; --help says more"), (["--html", text, other], f"{other} can't be drawn: 'yes' begins no text of trace, why, ask, matrix, reach or diff"),
    ):
        results.add(f"words {words}", picture(NAT, *words), (2, "", f"picture: {why}\n"))
    with open(other, "w", encoding="utf-8") as file:
        file.write("[1]")
    results.add("a bundle of numbers", picture(NAT, "--names", other), (2, "", f"picture: {other} is no bundle: it is neither an object nor an array of objects\n"))
    results.add("--help", picture("", "--help")[0::2], (0, ""))
    ran = subprocess.run([os.path.join(TOP, "picture")], input=NAT.encode(), capture_output=True, check=False)
    results.add("as a process", (ran.returncode, ran.stdout.decode(), ran.stderr), (0, whole[1], b""))
    ran = subprocess.run([os.path.join(TOP, "picture")], input=b"yes\n", capture_output=True, check=False)
    results.add("as a process, refused", (ran.returncode, ran.stdout, ran.stderr.count(b"\n")), (2, b"", 1))


class Page(html.parser.HTMLParser):
    """What a page has."""

    def __init__(self):
        super().__init__()
        self.tags, self.ids, self.links = [], [], []

    def handle_starttag(self, tag, attrs):
        told = dict(attrs)
        self.tags.append(tag)
        self.ids += [told["id"]] if "id" in told else []
        self.links += [told[it] for it in ("src", "href", "xlink:href") if it in told]


SHOP = os.path.join(TOP, "examples", "shop.json")
# (of that bundle)
UNSENT = "hop 1 out eni-web tcp 10.0.1.99 10.0.3.10 1 5432\nstopped SourceCheck eni-web -\n"


def run_page(results, folder):
    paths = []
    for number, (_, text) in enumerate(TEXTS):
        paths.append(os.path.join(folder, f"{number}.txt"))
        with open(paths[-1], "w", encoding="utf-8") as file:
            file.write(text)
    status, out, err = picture("", "--html", *paths)
    page = Page()
    page.feed(out)
    results.add("a page", (status, err, page.tags.count("svg"), "script" in page.tags, page.links, len(page.ids) == len(set(page.ids))), (0, "", len(TEXTS), False, [], True))
    results.add("what a page takes from elsewhere", [it for it in re.findall(r"(?:https?:)?//[^\s\"<]+|url\([^#]", out) if it != "http://www.w3.org/2000/svg"], [])
    named = set(re.findall(r"url\(#([^)]+)\)", out)) | {it for told in re.findall(r'aria-labelledby="([^"]+)"', out) for it in told.split()}
    results.add("what a page names", named - set(page.ids), set())
    results.add("the heading of a page", re.findall(r"<h1>(.*?)</h1>", out), [f"{len(TEXTS)} pictures"])
    run_facts(results, folder)


def facts_in(page):
    return dict(re.findall(r"<dt>(.*?)</dt><dd>(.*?)</dd>", page))


def run_facts(results, folder):
    """The heading of a page, what is told of the bundle, and the sentences."""
    with open(SHOP, "rb") as file:
        data = file.read()
    bundle = os.path.join(folder, "of <two>.json")
    vpc = {"VpcId": "vpc-1", "OwnerId": "111122223333"}
    for name, objects, more in (
        ("no account", [{"Vpcs": []}], {}), ("the owner", [{"Vpcs": [vpc]}], {"account": "111122223333"}),
        ("how it was collected", [{"Vpcs": [vpc], "Collected": {"Account": "111122223333", "Region": "eu-west-1", "Time": "2026-11-30T08:00:00Z"}}],
         {"account": "111122223333", "region": "eu-west-1", "collected": "2026-11-30T08:00:00Z"}),
        ("two accounts", [{"Vpcs": [], "Collected": {"Account": it, "Region": "eu-west-1", "Time": 7}} for it in ("1", "2")], {"accounts": "1, 2", "region": "eu-west-1"}),
        ("what is no account", [{"Vpcs": [], "Collected": {"Account": "<b>\u202e", "Time": None}}, {"Vpcs": [], "Collected": "x"}], {"account": "&lt;b&gt;\ufffd"}),
    ):
        with open(bundle, "w", encoding="utf-8") as file:
            json.dump(objects, file)
        with open(bundle, "rb") as file:
            checksum = hashlib.sha256(file.read()).hexdigest()
        status, out, err = picture(REPORT, "--html", "--names", bundle)
        results.add(f"a page of {name}", (status, err, facts_in(out)), (0, "", {"bundle": "of &lt;two&gt;.json", "SHA-256": f"<code>{checksum}</code>", **more}))
    status, out, err = picture(UNSENT, "--html", "--names", SHOP, "--title", "Why <not>?")
    results.add("the title of a page", (status, re.findall("<h1>(.*?)</h1>", out), re.findall("<title>(.*?)</title>", out)), (0, ["Why &lt;not&gt;?"], ["Why &lt;not&gt;?"]))
    results.add("its checksum", facts_in(out).get("SHA-256"), f"<code>{hashlib.sha256(data).hexdigest()}</code>")
    told = subprocess.run([os.path.join(TOP, "explain"), SHOP], input=UNSENT.encode(), capture_output=True, check=True).stdout.decode()
    results.add("its sentences", re.findall('<pre class="told">(.*?)</pre>', out, re.S), [html.escape(told.rstrip("\n"))])
    status, out, err = picture(UNSENT.replace("eni-web", "eni-none"), "--html", "--names", SHOP)
    results.add("no sentences of another bundle's text", (status, "No sentences: the text can't be told of: eni-none is no end of the bundle." in html.unescape(out)), (0, True))
    status, out, err = picture(UNSENT, "--html")
    results.add("no sentences without a bundle", (status, 'class="told"' in out or "No sentences" in out), (0, False))


# ---- what is folded, compared with the text

def exchanged(ids, cells, one, other):
    """Whether two ids may change places."""
    def swapped(it):
        return other if it == one else one if it == other else it
    return all(cells.get(a, {}).get(b, 0) == cells.get(swapped(a), {}).get(swapped(b), 0) for a in ids for b in ids if a != b)


def run_classes(results):
    rng = random.Random(7)
    for case in range(300):
        ids = [f"i{k}" for k in range(rng.randint(1, 8))]
        kinds = {it: rng.randrange(3) for it in ids}
        told = {(a, b): rng.randrange(3) for a in range(3) for b in range(3)}
        cells = {}
        for a, b in itertools.permutations(ids, 2):
            value = told[kinds[a], kinds[b]] if rng.random() < 0.93 else rng.randrange(3)
            if value:
                cells.setdefault(a, {})[b] = value
        found = {frozenset(it.ids) for it in picture_classes.fold(ids, cells)}
        wanted = {frozenset(it for it in ids if it == own or exchanged(ids, cells, own, it)) for own in ids}
        if found != wanted:
            results.add(f"classes, case {case}", (found, cells), wanted)
            return
    results.add("classes", True, True)


def run_matrix(results, seed, hosts, kinds):
    """Each pair stands in the cell of its classes, with what the text says of it."""
    text = matrix_text(seed, hosts, kinds)
    told = script.read_text(text.encode())
    folded = picture_matrix.Folded(told, picture_classes.fold(told.ids, told.pairs))
    at = {it: k for k, row in enumerate(folded.classes) for it in row.ids}
    pairs = {}
    for line in text.splitlines()[1:]:
        _, one, other, value = line.split(" ", 3)
        pairs.setdefault((at[one], at[other]), {}).setdefault(value, []).append(1)
    wanted = {place: {value: len(it) for value, it in of.items()} for place, of in pairs.items()}
    words = {number: "open " + " ".join(f"{a}-{b}" for a, b in it) if isinstance(it, list) else it for number, it in told.values.items()}
    found = {(r, c): {words[value]: count for value, count in of.items()} for r, row in enumerate(folded.cells) for c, of in enumerate(row) if of}
    results.add(f"cells of a matrix of {hosts}", found, wanted)
    results.add(f"few classes of a matrix of {hosts}", len(folded.classes) <= picture_matrix.MOST_CLASSES, True)
    counts = [len(it.ids) for it in folded.classes]
    svg = check_picture(results, f"a matrix of {hosts}, {kinds} kinds", text)
    shown_counts = [int(it.replace(",", "")) for it in re.findall(r"class \d+: (?:[^;]*?, )?([\d,]+) interfaces", svg.find(SVG + "desc").text)]
    results.add(f"counts of a matrix of {hosts}", (sum(shown_counts) + counts.count(1), sum(counts)), (hosts, hosts) if hosts > 1 else (0, 0))


def matrix_text(seed, hosts, kinds):
    rng = random.Random(seed)
    ids = sorted(f"eni-{rng.getrandbits(68):017x}" for _ in range(hosts))
    kind = {it: rng.randrange(kinds) for it in ids}
    told = {(a, b): rng.choice(["blocked"] * 5 + ["no-address", "open 443-443", "open 22-22 443-443", "open 0-65535", "open 1-2 4-4 6-6 8-8 10-12"]) for a in range(kinds) for b in range(kinds)}
    lines = [f"pair {a} {b} {told[kind[a], kind[b]]}" for a in ids for b in ids if a != b]
    return "\n".join(["matrix", *lines, ""])


def dotted(number):
    return ".".join(str(number >> shift & 255) for shift in (24, 16, 8, 0))


def box_text(box):
    return " ".join("-".join(dotted(it) if side in (1, 2) else str(it) for it in ends) for side, ends in enumerate(box))


def cut_box(rng, box, most):
    """Boxes that a box was cut into, in the order of their low corners."""
    boxes = [box]
    while len(boxes) < most:
        at = rng.randrange(len(boxes))
        side = rng.choice([0, 1, 2, 2, 3, 4, 4])
        low, high = boxes[at][side]
        if low < high:
            cut = rng.randint(low + 1, high)
            whole = boxes.pop(at)
            boxes += [(*whole[:side], ends, *whole[side + 1 :]) for ends in ((low, cut - 1), (cut, high))]
        elif rng.random() < 0.1:
            break
    return sorted(boxes, key=lambda it: [low for low, _ in it])


def report_text(seed, rows, is_part=False):
    rng = random.Random(seed)
    box = ((0, 255), (0, 2**32 - 1), (10 << 24, (10 << 24) + 5000), (0, 65535), (0, 65535))
    boxes = cut_box(rng, box, rows)
    stops = [f"{phase} {it}" for phase in ("request", "reply") for it in ("GroupsIn eni-b -", "GroupsIn eni-c -", "AclIn acl-1 80", "NoRoute rtb-1 -", "Unmodelled vpce-1 -", "Blackhole rtb-1 10.0.0.0/8")]
    lines = [f"row {k} {rng.choice(stops)} {box_text(it)}" for k, it in enumerate(boxes[: len(boxes) - is_part], 1)]
    head = [f"query from internet to {AWS}", f"box {box_text(box)}"]
    if is_part:
        first = [low for low, _ in boxes[-1]]
        return "\n".join(["more boxes", *head, *lines, f"next {first[0] if first[0] not in (1, 6, 17) else {1: 'icmp', 6: 'tcp', 17: 'udp'}[first[0]]} {dotted(first[1])} {dotted(first[2])} {first[3]} {first[4]}", "cells 99", ""])
    return "\n".join(["vpc-report 1", *head, *lines, f"end {len(lines)}", ""])


def run_planes(results):
    """A place of the plane has the mark of a row exactly where the row holds a header there."""
    for seed in range(30):
        rows = (1, 2, 5, 20, 60, 200)[seed % 6]
        text = report_text(seed, rows, seed % 3 == 2)
        told = script.read_text(text.encode())
        reasons = picture_reports.Reasons(told)
        across, down = picture_reports.axes_of(told)
        cells = picture_reports.cells_of(told, [reasons.mark(it) for it in told.rows], across, down)
        wrong = []
        for axis in (across, down):
            held = sorted(it for piece in axis.pieces for it in piece)
            wrong += [axis.side] * (held[0][0] != told.box[axis.side][0] or held[-1][1] != told.box[axis.side][1] or any(one[1] + 1 != other[0] for one, other in zip(held, held[1:])))
        for (line, lines), (column, columns) in itertools.product(enumerate(down.pieces), enumerate(across.pieces)):
            wanted = {
                reasons.mark(it) for it in told.rows
                if all(any(low <= it.box[axis.side][1] and it.box[axis.side][0] <= high for low, high in held) for axis, held in ((across, columns), (down, lines)))
            }
            if set(cells[line][column]) != wanted:
                wrong.append((line, column))
        results.add(f"a plane of {len(told.rows)} rows", wrong, [])
        drawn = sum((right - left) * (bottom - top) for left, top, right, bottom, _ in picture_reports.rectangles(cells))
        results.add(f"its rectangles, {len(told.rows)} rows", drawn, len(across.pieces) * len(down.pieces))
        check_picture(results, f"a report of {len(told.rows)} rows, {seed}", text)


def diff_text(seed, rows):
    """Rows of four groups of interfaces, which fare alike but for some."""
    rng = random.Random(seed)
    groups = [[f"eni-{group}{k:016x}" for k in range(rng.randint(1, 9))] for group in range(4)]
    own = {it: f"10.0.{k >> 8}.{k & 255}" for k, it in enumerate(itertools.chain(*groups))}
    lines = []
    for one, other in itertools.product(range(4), repeat=2):
        word = rng.choice(["opened", "closed", "moved", None])
        port = rng.choice([22, 80, 443, 5432])
        for start, end in itertools.product(groups[one], groups[other]):
            if word and start != end and rng.random() < 0.97:
                box = f"6-6 {own[start]}-{own[start]} {own[end]}-{own[end]} 0-65535 {port}-{port}"
                told = f"{end} {groups[0][0]}" if word == "moved" else f"{end} request {rng.choice(['GroupsIn ' + end, 'GroupsIn ' + end, 'GroupsOut ' + start])} -"
                lines.append(f"{start} {word} {told} {box}")
    lines = lines[:rows]
    return "\n".join(["vpc-diff 1", "query", *(f"row {k} {it}" for k, it in enumerate(lines, 1)), f"end {len(lines)}", ""])


def parts_bundle(text, size):
    """A bundle of the ends of a text: groups of so many of them, of which two are in each subnet, and two subnets in each VPC."""
    ids = sorted(set(re.findall(r"\beni-[0-9a-f]+", text)))
    rows = [{
        "NetworkInterfaceId": it, "Description": "Primary network interface", "Groups": [{"GroupId": f"sg-{k // size:017x}"}],
        "SubnetId": f"subnet-{k // size // 2}", "VpcId": f"vpc-{k // size // 4}",
    } for k, it in enumerate(ids)]
    groups = sorted({it["Groups"][0]["GroupId"] for it in rows})
    return {"NetworkInterfaces": rows, "SecurityGroups": [{"GroupId": it, "GroupName": f"tier {k}"} for k, it in enumerate(groups)]}


def held_in(chip, box):
    """Whether a chip holds all of a row of TCP."""
    return chip.name == "tcp" and any(first <= box[4][0] and box[4][1] <= last for first, last in chip.ports)


def wrong_of(told, by, names):
    """What ways of TCP tell that isn't so of the rows: a row in none or in two, or of a port another number of pairs."""
    pairs = picture_ways.Pairs(told, names)
    folded = picture_ways.Folded(pairs, names, by)
    rows, wrong = {}, []
    for it in told.rows:
        rows.setdefault(picture_ways.word_of(it), {}).setdefault((it.start, it.end), []).append(it)
    held = {key: 0 for word, of in rows.items() for key in ((word, *ends) for ends in of)}
    for path in folded.paths:
        of = {ends: found for ends, found in rows[path.word].items() if any(ends[0] in it.ids for it in path.starts) and any(ends[1] in it.ids for it in path.ends)}
        for ends in of:
            held[path.word, *ends] += 1
        if sum(map(len, of.values())) != path.rows:
            wrong.append(("rows", path))
        sizes = [len(one.ids) * len(other.ids) - len(set(one.ids) & set(other.ids)) for one in path.starts for other in path.ends]
        for chip, words in path.chips:
            for port in {it for ends in chip.ports for it in ends}:
                count = sum(any(it.box[4][0] <= port <= it.box[4][1] for it in found) for found in of.values())
                said = re.match(r" \u00b7 ([\d,]+) (?:of ([\d,]+) )?(?:pair|interface)s?$", words)
                numbers = [int(it.replace(",", "")) for it in said.groups() if it] if said else [sum(sizes)]
                if numbers[0] != count or numbers[1:] not in ([], [sum(sizes)]):
                    wrong.append((chip, words, count))
        wrong += [("in no chip", it.box) for found in of.values() for it in found if not any(held_in(chip, it.box) for chip, _ in path.chips)]
    return wrong + [it for it in held.items() if it[1] != 1]


def run_ways(results, folder):
    """Each row is in one way, with its start and end, and each chip tells of how many pairs of ends it is true, however they are folded."""
    path = os.path.join(folder, "parts.json")
    for seed in range(40):
        text = diff_text(seed, 200)
        told = script.read_text(text.encode())
        bundle = parts_bundle(text, 1 + seed % 5)
        with open(path, "w", encoding="utf-8") as file:
            json.dump(bundle, file)
        for by in picture_classes.BY:
            results.add(f"ways of {len(told.rows)} rows by {by}", wrong_of(told, by, Names([bundle]))[:1], [])
        check_picture(results, f"a change of {len(told.rows)} rows", text)
        by = picture_classes.BY[seed % 4]
        check_picture(results, f"a change of {len(told.rows)} rows by {by}", text, "--names", path, "--by", by, names=json.dumps(bundle))


# ---- chips

PROTOCOLS = [(0, 0), (1, 1), (2, 5), (6, 6), (7, 16), (17, 17), (18, 255)]


def name_holds(name, proto):
    """Whether the name of a chip holds a protocol."""
    if name.startswith("all protocols"):
        return proto != 1 or name == "all protocols"
    if name == "other protocols":
        return proto not in (1, 6, 17)
    if name.startswith("protocol"):
        return any(int(it.split("-")[0]) <= proto <= int(it.split("-")[-1]) for it in re.findall(r"[\d-]+", name))
    return {1: "icmp", 6: "tcp", 17: "udp"}.get(proto) in name.split(" ") or (name == "ping" and proto == 1)


def run_chips(results):
    """A packet is in a chip where it is in a row, and in one alone, whatever boxes the rows cut it into."""
    rng = random.Random(11)
    for case in range(400):
        rows = []
        for src, low in itertools.product(range(0, rng.choice([2, 6]), 2), range(0, 60, 20)):
            for protocols in rng.sample(PROTOCOLS, rng.randint(1, 7)):
                ports = (2048, 2048) if protocols == (1, 1) else rng.choice([(0, 65535), (low, low + rng.choice([4, 19]))])
                rows.append((protocols, ports, (0, 65535), (src, src + 1), None))
        # (rows of one port twice would not be disjoint)
        rows = [it for k, it in enumerate(rows) if not any(it[0] == of[0] and it[3] == of[3] and it[1][0] <= of[1][1] and of[1][0] <= it[1][1] for of in rows[:k])]
        teller, cut = picture_chips.Teller("query"), []
        for protocols, (first, last), sports, src, dst in rows:
            at, sport = rng.randint(first, last), rng.randint(0, 65534)
            cut += [(protocols, (first, at), it, src, dst) for it in ((0, sport), (sport + 1, 65535))]
            cut += [(protocols, (at + 1, last), sports, src, dst)] * (at < last)
        chips = teller.chips(frozenset(rows))
        results.add(f"chips of rows that are cut, {case}", picture_chips.Teller("query").chips(frozenset(cut)), chips)
        wrong = []
        for (proto, _), port, src in itertools.product(PROTOCOLS, (0, 3, 10, 20, 25, 41, 59, 2048, 65535), range(6)):
            in_rows = sum(a <= proto <= b and c <= port <= d and e <= src <= f for (a, b), (c, d), _, (e, f), _ in rows)
            in_chips = sum(
                name_holds(it.name, proto) and any(a <= src <= b for a, b in teller.region(it.region).sources)
                and (any(a <= port <= b for a, b in it.ports) if it.ports else proto != 1 or port == 2048) for it in chips
            )
            wrong += [(proto, port, src)] * (in_rows != in_chips)
        if wrong:
            results.add(f"chips, case {case}", (wrong[:3], rows, chips), "as the rows")
            return
    results.add("chips", True, True)


def row_text(start, end, proto, src, dst, port):
    return f"{start} {end} {proto} {src} {dst} 0-65535 {port}"


def reach_of(rows, query="query"):
    lines = [f"row {k} {it}" for k, it in enumerate(rows, 1)]
    return "\n".join(["vpc-reach 1", query, *lines, f"end {len(rows)}", ""])


OFFICES = [f"198.51.100.{32 * k}-198.51.100.{32 * k + 15}" for k in range(7)] + ["192.0.2.0-192.0.2.127", "192.0.2.192-192.0.2.255", "203.0.113.64-203.0.113.95"]
OWN, OTHER = "10.0.1.10-10.0.1.10", "10.0.2.20-10.0.2.20"
CHIPS = [
    ("source ranges", [row_text("internet", "eni-a", "6-6", it, OWN, "443-443") for it in OFFICES], ["tcp 443 \u00b7 10 source ranges"]),
    ("ranges that ports share", [row_text("internet", "eni-a", "6-6", it, OWN, port) for it in OFFICES for port in ("443-443", "22-22")], ["tcp 22, 443 \u00b7 10 source ranges"]),
    ("ranges of each port", [row_text("internet", "eni-a", "6-6", it, OWN, "443-443") for it in OFFICES] + [row_text("internet", "eni-a", "6-6", OFFICES[0], OWN, "22-22")],
     ["tcp 22 \u00b7 src 198.51.100.0/28", "tcp 443 \u00b7 10 source ranges"]),
    ("source ports that make up all", [f"eni-a eni-b 6-6 {OWN} {OTHER} {it} 80-80" for it in ("0-1023", "1024-65535")], ["tcp 80"]),
    ("ports that touch", [row_text("eni-a", "eni-b", "6-6", OWN, OTHER, it) for it in ("8000-8010", "8011-8020", "22-22")], ["tcp 22, 8000-8020"]),
    ("all protocols", [row_text("eni-a", "eni-b", it, OWN, OTHER, port) for it, port in (("0-0", "0-65535"), ("1-1", "2048-2048"), ("2-255", "0-65535"))], ["all protocols"]),
    ("ping", [row_text("eni-a", "eni-b", "1-1", OWN, OTHER, "2048-2048")], ["ping"]),
    ("two protocols", [row_text("eni-a", "eni-b", it, OWN, OTHER, "53-53") for it in ("6-6", "17-17")], ["tcp and udp 53"]),
    ("all ports", [row_text("eni-a", "eni-b", "6-6", OWN, OTHER, "0-65535")], ["tcp, all ports"]),
    ("others", [row_text("eni-a", "eni-b", it, OWN, OTHER, "0-65535") for it in ("0-0", "2-5", "7-16", "18-255")], ["other protocols"]),
    ("one protocol", [row_text("eni-a", "eni-b", "50-50", OWN, OTHER, "0-65535")], ["protocol 50"]),
]


def chips_in(svg, tint="blue-tint"):
    """The texts that stand in the boxes of one color, a list for each."""
    texts = [(float(it.get("x")), float(it.get("y")), it.text) for it in svg.iter(SVG + "text") if it.text]
    boxes = [[float(it.get(side)) for side in ("x", "y", "width", "height")] for it in svg.iter(SVG + "rect") if it.get("class") == tint]
    return [" ".join(told for a, b, told in texts if x < a < x + width and y < b < y + height) for x, y, width, height in boxes]


def run_told(results, folder):
    """What chips, titles, names and colors tell."""
    for name, rows, wanted in CHIPS:
        svg = check_picture(results, name, reach_of(rows))
        results.add(f"the chips of {name}", chips_in(svg), wanted)
    many = [row_text("internet", "eni-a", "6-6", it, OWN, f"{port}-{port}") for it in OFFICES for port in range(20, 60, 2)]
    told = chips_in(check_picture(results, "many ports", reach_of(many)))
    results.add("a chip of many ports", (len(told), bool(re.fullmatch(r"tcp 20, .* and \d+ more \u00b7 10 source ranges", told[0]))), (1, True))
    for name, text, tint in (("a walk", NAT.replace("sg-a", "sg-" + "a" * 90), "green-tint"), ("a query", REACH.replace("to eni-b9", f"to eni-{'b' * 200}"), "grey-tint")):
        told = [it for it in chips_in(check_picture(results, f"{name} with a long id", text, is_wrapped=True), tint) if "aaa" in it or "bbb" in it]
        results.add(f"a chip of {name} that is long", (len(told), told[0].replace(" ", "").count("a" if tint == "green-tint" else "b") >= 90), (1, True))
    for name, text, wanted in (
        ("a report", REPORT.replace("Unmodelled vpce-1", "GroupsIn eni-b"), "blocked: from eni-a to eni-b, 2 rows"), ("a report that isn't known", REPORT, "blocked, in part not known: from eni-a to eni-b, 2 rows"),
        ("a report of nothing known", REPORT.replace("AclOut acl-b 32767", "Unmodelled vpce-1 -"), "not known: from eni-a to eni-b, 2 rows"), ("more boxes", MORE, "blocked, in part not told: from eni-a to eni-b, 3 rows"),
        ("reach", REACH, "What gets through: to eni-b9, 3 rows"), ("more reach", MORE_REACH, "What gets through, in part: from internet sport 1024-65535, 1 row"),
        ("nothing reached", "vpc-reach 1\nquery\nend 0\n", "Nothing is known to get through: 0 rows"), ("a change", DIFF, "What opens, moves and closes: 5 rows"),
        ("no change", "vpc-diff 1\nquery\nend 0\n", "Nothing opens, closes or moves: 0 rows"), ("a matrix", MATRIX, "Who reaches whom: 3 interfaces in 3 classes"),
        ("a walk that isn't known", STOPPED.replace("AclIn acl-1 90", "Unmodelled vpce-1 -"), "eni-a stopped Unmodelled vpce-1, not known"),
    ):
        svg = check_picture(results, f"the title of {name}", text)
        results.add(f"the title of {name}", svg.find(SVG + "title").text, wanted)
        shown_words = " ".join(words_of(svg))
        if "not known" in wanted:
            classes = {it.get("class") for it in svg.iter()}
            results.add(f"{name}: is grey, and says so", ("grey" in classes or "grey-line" in classes, "red" in classes, "not known" in shown_words), (True, False, True))
        results.add(f"{name}: no first line", re.findall(r"vpc-(?:reach|diff|report)|more (?:boxes|reach|changes)", shown_words), [])
    svg = check_picture(results, "what closes and isn't known", DIFF.replace("AclOut acl-b 32767", "Unmodelled vpce-1 -").replace("opened eni-b request GroupsIn eni-b", "opened eni-b request Unmodelled vpce-2"))
    told = " ".join(words_of(svg))
    results.add("what closes and isn't known", ([it for it in chips_in(svg, "grey-tint")], "now reply Unmodelled vpce-1 not known" in told, "before request Unmodelled vpce-2 not known" in told), (["tcp 443 \u00b7 sport 0-32767"], True, True))
    run_names(results, folder)
    run_outside(results, folder)
    run_prefixes(results, folder)
    run_parts(results)
    run_title(results, folder)


def run_outside(results, folder):
    """Networks that aren't described have a mark or a dashed edge, and a legend; they are no interfaces."""
    legend, path = "network that isn't described", os.path.join(folder, "outside.json")
    bundle = {"NetworkInterfaces": [{"NetworkInterfaceId": "eni-a", "SubnetId": "subnet-1", "VpcId": "vpc-1"}], "VpnGateways": [{"VpnGatewayId": it, "Tags": [{"Key": "Name", "Value": name}]} for it, name in (("vgw-1", "office"), ("vgw-2", "plant"))],
              "TransitGatewayAttachments": [{"TransitGatewayAttachmentId": "odd-1"}]}
    with open(path, "w", encoding="utf-8") as file:
        json.dump(bundle, file)
    for name, text, is_there in (("there and back", FAR, True), ("stopped", FAR_STOPPED, True), ("none", NAT, False), ("reach", FAR_REACH, True), ("reach of none", REACH, False)):
        told = [it.text for it in check_picture(results, f"outside, {name}", text).iter(SVG + "text")]
        results.add(f"outside, {name}: the legend", told.count(legend), int(is_there))
    for more, names in ((["--names", path], json.dumps(bundle)), (["--names", path, "--by", "subnet"], json.dumps(bundle)), ([], "")):
        svg = check_picture(results, f"reach outside {more[2:]}", FAR_REACH, *more, names=names)
        runs, told = [it.text for it in svg.iter(SVG + "tspan")], svg.find(SVG + "desc").text
        results.add(f"reach outside {more}: counts", ("1 interface and 2 networks" in " ".join(runs), "2 networks" in told, "3 interfaces" in " ".join(runs)), (True, True, False))
        edges = [it for it in svg.iter(SVG + "rect") if it.get("class") == "edge"]
        results.add(f"reach outside {more}: edges", (any(it.get("stroke-dasharray") for it in edges), all(it.get("stroke-dasharray") for it in edges)), (True, False))
        results.add(f"reach outside {more}: names", all(it in told for it in ("office", "plant")), bool(more))
    # (by the bundle, whatever the id is; and an interface stays one)
    odd = FAR_REACH.replace("vgw-1", "odd-1").replace("vgw-2", "eni-b")
    for more, is_there in ((["--names", path], True), ([], False)):
        told = [it.text for it in check_picture(results, f"an odd id {more}", odd, *more, names=json.dumps(bundle)).iter(SVG + "text")]
        results.add(f"an odd id {more}", legend in told, is_there)
    with open(path, "w", encoding="utf-8") as file:
        json.dump({**bundle, "NetworkInterfaces": [{"NetworkInterfaceId": it} for it in ("eni-a", "vgw-1", "vgw-2")]}, file)
    told = [it.text for it in check_picture(results, "interfaces by such ids", FAR_REACH, "--names", path, names=json.dumps(bundle)).iter(SVG + "text")]
    results.add("interfaces by such ids", legend in told, False)


def named_bundle(names, **more):
    return {"NetworkInterfaces": [
        {"NetworkInterfaceId": f"eni-{k:017x}", "Description": "Primary network interface", "Groups": [{"GroupId": "sg-a"}], "SubnetId": "subnet-1", "VpcId": "vpc-1",
         "TagSet": [{"Key": "Name", "Value": it}] if it else [], **more} for k, it in enumerate(names)
    ]}


def run_names(results, folder):
    """What classes are called: by what they have in common alone, else by their members, and never by a default description."""
    for names, count, wanted in (
        (["web-a", "app-a", "db-a", "cache-a", "lb-a"], 5, "app-a, cache-a and 3 more"), (["web-1", "web-2", "web-10"], 3, "web"), (["web-1", "web-2", "web-3"], 2, "web-1 and web-2"),
        (["web-1", "web-2", "app-1", "db"], 3, "app-1, web-1 and web-2"), (["web-1", "web-2", "web-3", "app-1", "db"], 4, "app-1, web-1 and 2 more"), (["", "", "x"], 2, None), (["web-a", "", ""], 3, "web-a and 2 more"),
        (["web eu-west-1a", "web eu-west-1b"], 2, "web eu-west"), (["10", "11"], 2, "10 and 11"),
    ):
        bundle = named_bundle(names)
        bundle["NetworkInterfaces"].append({"NetworkInterfaceId": "eni-other", "Groups": [{"GroupId": "sg-a"}], "SubnetId": "subnet-1", "VpcId": "vpc-1"})
        ids = [it["NetworkInterfaceId"] for it in bundle["NetworkInterfaces"]]
        results.add(f"the name of {count} of {names}", picture_classes.Namer(Names([bundle]), ids).name(ids[:count]), wanted)
    alone = named_bundle(["", ""], Description="ELB app/shop/50dc6c495c0c9188")
    ids = [it["NetworkInterfaceId"] for it in alone["NetworkInterfaces"]]
    results.add("the name of a load balancer's", picture_classes.Namer(Names([alone]), ids).name(ids), "ELB app/shop/50dc6c495c0c9188")
    path = os.path.join(folder, "mixed.json")
    bundle = named_bundle(["web-a", "app-a", "db-a", "cache-a", "lb-a"])
    with open(path, "w", encoding="utf-8") as file:
        json.dump(bundle, file)
    ids = [it["NetworkInterfaceId"] for it in bundle["NetworkInterfaces"]]
    rows = [row_text(it, "eni-z", "6-6", f"10.0.1.{k}-10.0.1.{k}", OTHER, "443-443") for k, it in enumerate(ids)]
    svg = check_picture(results, "mixed hosts", reach_of(rows), "--names", path, names=json.dumps(bundle))
    runs = [it.text for it in svg.iter(SVG + "tspan")]
    results.add("mixed hosts", ("app-a, cache-a and 3 more" in runs, "5 interfaces" in runs, "Primary" in " ".join(words_of(svg))), (True, True, False))


def run_prefixes(results, folder):
    """Prefixes that a bundle tells are addresses of their interfaces, which are alike with others; of one end they are told with its address."""
    path, bundle = os.path.join(folder, "nodes.json"), named_bundle(["", "", ""])
    for k, it in enumerate(bundle["NetworkInterfaces"]):
        it["Ipv4Prefixes"] = [{"Ipv4Prefix": f"10.0.1.{64 + 32 * k}/28"}, {"Ipv4Prefix": f"10.0.1.{80 + 32 * k}/28"}, {"Ipv4Prefix": "x"}, {"Ipv4Prefix": 7}]
    with open(path, "w", encoding="utf-8") as file:
        json.dump(bundle, file)
    ids = [it["NetworkInterfaceId"] for it in bundle["NetworkInterfaces"]]

    def ways(rows, *words):
        names = {"names": json.dumps(bundle)} if words else {}
        svg = check_picture(results, f"prefixes, {len(rows)} rows", reach_of(rows), *words, **names)
        return chips_in(svg), [it.text for it in svg.iter(SVG + "text") if it.text and it.text.startswith(("src 10", "dst 10"))]

    def to(k, first, last):
        return row_text("eni-z", ids[k], "6-6", OWN, f"10.0.1.{first}-10.0.1.{last}", "443-443")

    single = [to(0, 10, 10), to(0, 64, 95)]
    told = ["src 10.0.1.10 dst 10.0.1.10 dst 10.0.1.64/27"]
    results.add("the prefixes of one end", ways(single, "--names", path), (["tcp 443"], told))
    results.add("that no bundle tells", ways(single), (["tcp 443"], told))
    all_of = [to(k, *it) for k in range(3) for it in ((10 + k, 10 + k), (64 + 32 * k, 79 + 32 * k), (80 + 32 * k, 95 + 32 * k))]
    results.add("the prefixes of three that are alike", ways(all_of, "--names", path), (["tcp 443"], []))
    results.add("of which no bundle tells", ways(all_of)[0], ["tcp 443"] * 3)
    part = [to(k, 64 + 32 * k, 66 + 32 * k) for k in range(2)]
    results.add("a part of a prefix", ways(part, "--names", path)[0], ["tcp 443 \u00b7 dst 10.0.1.64-10.0.1.66", "tcp 443 \u00b7 dst 10.0.1.96-10.0.1.98"])
    results.add("another's prefix", ways([to(0, 96, 111)], "--names", path)[0], ["tcp 443 \u00b7 dst 10.0.1.96/28"])


def run_parts(results):
    """What parts are called: those that are alike but for a zone by one word, where they are all of them."""
    among = [picture_classes.Unit(it, (it,)) for it in ("prod-data-a", "prod-data-b", "prod-web-a", "prod-web-b", "prod-web-c", "tools-1", "web", "internet")]
    for chosen, name, count in (
        ("prod-data-a", "prod-data-a", "1 interface"), ("prod-data-a prod-data-b", "prod-data", "2 subnets, 2 interfaces"), ("prod-web-a prod-web-b", "prod-web-a and prod-web-b", "2 subnets, 2 interfaces"),
        ("prod-data-a prod-data-b prod-web-a prod-web-b prod-web-c", "prod-data and prod-web", "5 subnets, 5 interfaces"), ("prod-data-a prod-web-a tools-1 web", "prod-data-a, prod-web-a and 2 more", "4 subnets, 4 interfaces"),
        ("prod-data-a prod-data-b prod-web-a prod-web-b", "prod-data, prod-web-a and prod-web-b", "4 subnets, 4 interfaces"), ("prod-data-a prod-data-b web", "prod-data and web", "3 subnets, 3 interfaces"),
    ):
        label = picture_classes.label_of_units(Names(), "subnet", [it for it in among if it.name in chosen.split()], among, 200)
        results.add(f"the name of {chosen}", (label.name, label.count), (name, count))


def run_title(results, folder):
    title = "Before the move <1> & after it, " * 4
    for name, text in TEXTS:
        svg = check_picture(results, f"{name}, with a title", text, "--title", title, names=json.dumps(title))
        told = svg.find(SVG + "title").text
        plain = xml.fromstring(picture(text)[1])
        above = [it for it in text_boxes(svg) if it[4] <= 24]
        results.add(f"{name}, with a title", (told, " ".join(it[0] for it in above)), (f"{title.strip()}: {plain.find(SVG + 'title').text}", title.strip()))


# ---- many hosts

def tiers_text(hosts, is_change):
    """Ten tiers of hosts, each of which reaches the next two by a port of its own; in each the first has one port more."""
    ids = [f"eni-{k:017x}" for k in range(hosts)]
    tiers = [ids[k * hosts // 10 : (k + 1) * hosts // 10] for k in range(10)]
    own = {it: f"10.0.{k >> 8}.{k & 255}-10.0.{k >> 8}.{k & 255}" for k, it in enumerate(ids)}
    told = "{} opened {} request GroupsIn {} - " if is_change else "{} {} "
    lines = [told.format("internet", tiers[0][0], tiers[0][0]) + f"6-6 {it} {own[tiers[0][0]]} 0-65535 443-443" for it in OFFICES]
    for k, step in itertools.product(range(10), (1, 2)):
        for one, other in itertools.product(tiers[k], tiers[(k + step) % 10]):
            for port in (5000 + k, *([22] if one == tiers[k][0] else [])):
                lines.append(told.format(one, other, other) + f"6-6 {own[one]} {own[other]} 0-65535 {port}-{port}")
    lines = lines[:20_000]
    kind = "vpc-diff 1" if is_change else "vpc-reach 1"
    return "\n".join([kind, "query", *(f"row {k} {it}" for k, it in enumerate(lines, 1)), f"end {len(lines)}", ""])


def run_many(results, folder):
    """300 and 500 hosts are seen at once where a bundle tells their parts; whatever they are folded by, each is counted. Tall boxes repeat their names."""
    path = os.path.join(folder, "many.json")
    for hosts, is_change in itertools.product((300, 500), (False, True)):
        text = tiers_text(hosts, is_change)
        bundle = parts_bundle(text, hosts // 10)
        with open(path, "w", encoding="utf-8") as file:
            json.dump(bundle, file)
        name = f"{hosts} hosts of {'diff' if is_change else 'reach'}"
        for words in ([], ["--by", "group"], ["--by", "subnet"], ["--by", "vpc"]):
            svg = check_picture(results, f"{name} {words}", text, "--names", path, *words, names=json.dumps(bundle))
            results.add(f"{name} {words}: at once", words == ["--by", "group"] or float(svg.get("height")) <= picture_ways.SCREEN + 24, True)
            shown_words = [it.text for it in svg.iter(SVG + "tspan")]
            count = len(set(re.findall(r"\beni-[0-9a-f]+", text)))
            by = f" by {words[1].replace('vpc', 'VPC')}" if words else ""
            results.add(f"{name} {words}: by", any(it.startswith(f"{count} interfaces{by}") for it in shown_words), True)
        if not is_change:
            svg = check_picture(results, f"{name} by host", text, "--names", path, "--by", "host", names=json.dumps(bundle))
            results.add(f"{name} by host: no part", [it.text for it in svg.iter(SVG + "tspan") if " interfaces by " in it.text], [])
    rows = [row_text("eni-a", f"eni-b{k}", "6-6", OWN, OTHER, f"{k}-{k}") for k in range(4)]
    svg = check_picture(results, "a tall box", reach_of(rows))
    results.add("a tall box repeats its name", [it.text for it in svg.iter(SVG + "text") if float(it.get("x")) < 200].count("eni-a"), 4)
    boxes = [f"10.0.{k >> 8}.{k & 255}-10.0.{k >> 8}.{k & 255}" for k in range(300)]
    lines = [f"row {k} request GroupsIn eni-{k:017x} - 6-6 {OWN} {it} 0-65535 443-443" for k, it in enumerate(boxes, 1)]
    report = "\n".join(["vpc-report 1", "query from eni-a to internet", f"box 6-6 {OWN} 10.0.0.0-10.0.1.43 0-65535 443-443", *lines, "end 300", ""])
    bundle = parts_bundle(report.replace("from eni-a", ""), 100)
    with open(path, "w", encoding="utf-8") as file:
        json.dump(bundle, file)
    svg = check_picture(results, "a report about 300 hosts", report, "--names", path, names=json.dumps(bundle))
    told = " ".join(it.text for it in svg.iter(SVG + "text") if it.text)
    results.add("a report about 300 hosts", re.findall(r"tier \d \d+ interfaces \u00d7\d+", told), [f"tier {k} 100 interfaces \u00d7100" for k in range(3)])
    matrix = matrix_text(9, 300, 90)
    bundle = parts_bundle(matrix, 26)
    with open(path, "w", encoding="utf-8") as file:
        json.dump(bundle, file)
    small = parts_bundle(matrix, 5)
    with open(path, "w", encoding="utf-8") as file:
        json.dump(small, file)
    svg = check_picture(results, "a matrix of 60 groups", matrix, "--names", path, "--by", "group", names=json.dumps(small))
    told = svg.find(SVG + "desc").text
    counts = [int(it) for it in re.findall(r"class \d+: [^;]*?(\d+) interfaces", told)]
    results.add("a matrix of 60 groups", (svg.find(SVG + "title").text, len(counts), sum(counts)), ("Who reaches whom: 300 interfaces in 60 groups, 30 drawn", 30, 300))
    with open(path, "w", encoding="utf-8") as file:
        json.dump(bundle, file)
    for words, wanted in (([], "12 groups"), (["--by", "subnet"], "6 subnets"), (["--by", "vpc"], "3 VPCs"), (["--by", "host"], "classes")):
        svg = check_picture(results, f"a matrix of 300 {words}", matrix, "--names", path, *words, names=json.dumps(bundle))
        results.add(f"a matrix of 300 {words}", wanted in svg.find(SVG + "title").text, True)
        if wanted != "classes":
            results.add(f"a matrix of 300 {words}: at once", float(svg.get("height")) <= 1.1 * picture_ways.SCREEN, True)


# ---- large ones

def large_report(ports):
    """20,000 rows: addresses by ranges of ports."""
    rng = random.Random(ports)
    cuts = sorted(rng.sample(range(1, 65536), ports - 1))
    ranges = list(zip([0, *cuts], [*(it - 1 for it in cuts), 65535]))
    first, count, lines = 10 << 24, 20_000 // ports, []
    for k, (low, high) in itertools.product(range(count), ranges):
        stop = rng.choice([f"GroupsIn eni-{k:017x} -", f"AclIn acl-0123456789abcdef{k % 3} {100 + k % 50}", "NoHost vpc-0123456789abcdef0 -", f"WrongPlace eni-{k:017x} -"])
        lines.append(f"row {len(lines) + 1} request {stop} 6-6 10.9.9.9-10.9.9.9 {dotted(first + k)}-{dotted(first + k)} 0-65535 {low}-{high}")
    box = f"6-6 10.9.9.9-10.9.9.9 {dotted(first)}-{dotted(first + count - 1)} 0-65535 0-65535"
    return "\n".join(["vpc-report 1", f"query from internet to {AWS}", f"box {box}", *lines, f"end {len(lines)}", ""])


def large_tree(count):
    """A tree of so many leaves, cut in the middle by ports in turn."""
    rng, nodes, left = random.Random(count), [], [((0, 65535), (0, 65535), count)]
    while left:
        p, q, leaves = left.pop()
        if leaves == 1:
            nodes.append(f"leaf request AclIn acl-{rng.randrange(20)} {rng.randrange(1, 40)}")
            continue
        side = 0 if p[1] - p[0] > q[1] - q[0] else 1
        low, high = (p, q)[side]
        at = (low + high) // 2 + 1
        nodes.append(f"cut {'pq'[side]} {at}")
        parts = [((it, q) if side == 0 else (p, it)) for it in ((low, at - 1), (at, high))]
        left += [(*parts[1], leaves - leaves // 2), (*parts[0], leaves // 2)]
    return "\n".join(["vpc-report 2", f"query from internet to {AWS}", "box 6-6 10.9.9.9-10.9.9.9 10.0.0.1-10.0.0.1 0-65535 0-65535", *nodes, f"end {count}", ""])


def large_reach():
    rng, lines = random.Random(3), []
    for s, e in itertools.product(range(100), range(200)):
        port = rng.choice([80, 443])
        lines.append(f"row {len(lines) + 1} eni-{s:017x} eni-{1000 + e:017x} 6-6 10.0.0.{s}-10.0.0.{s} 10.0.1.{e}-10.0.1.{e} 0-65535 {port}-{port}")
    return "\n".join(["vpc-reach 1", "query", *lines, f"end {len(lines)}", ""])


def own_rows():
    """20,000 rows of one way, each by addresses and a port of its own."""
    first = 11 << 24
    return reach_of([row_text("internet", "eni-a", "6-6", f"{dotted(first + 9 * k)}-{dotted(first + 9 * k + k % 5)}", OWN, f"{k}-{k}") for k in range(20_000)])


def run_large(results):
    for name, text in (
        ("a report of 20,000 rows, 5 ports", large_report(5)), ("a report of 20,000 rows, 400 ports", large_report(400)), ("a matrix of 500 hosts", matrix_text(1, 500, 14)),
        ("a matrix of 500 hosts of 90 kinds", matrix_text(2, 500, 90)), ("20,000 rows of reach", large_reach()), ("a change of 200 rows", diff_text(5, 200)), ("20,000 rows of one way", own_rows()), ("a tree of 100,000 leaves", large_tree(100_000)),
    ):
        before = resource.getrusage(resource.RUSAGE_CHILDREN)
        ran = subprocess.run([os.path.join(TOP, "picture")], input=text.encode(), capture_output=True, check=False)
        after = resource.getrusage(resource.RUSAGE_CHILDREN)
        took = after.ru_utime + after.ru_stime - before.ru_utime - before.ru_stime
        results.add(f"{name}: took {took:.1f} s", (ran.returncode, ran.stderr, took < (5 if "one way" in name or "tree" in name else 2)), (0, b"", True))
        svg = check_picture(results, name, text)
        results.add(f"{name}: size", len(ran.stdout) < 700_000, True)
        if "report" in name:
            report = script.read_text(text.encode())
            parts = picture_reports.Reasons(report).components.values()
            told = svg.find(SVG + "desc").text
            results.add(f"{name}: components", sum(map(len, parts)), sum(int(it.replace(",", "")) for it in re.findall(r"and ([\d,]+) more", told)) + sum(min(len(it), picture_reports.MOST_COMPONENTS) for it in parts))


# ---- answers of the program

QUESTIONS = [
    ("one-subnet", "ask", "from eni-a to eni-b"), ("one-subnet", "ask", "from eni-a to eni-b port 80-80"), ("one-subnet", "ask", "from eni-b to eni-a"),
    ("one-subnet", "trace", "open from eni-a tcp 10.0.1.10 10.0.1.20 5000 80"), ("shop", "ask", "from eni-app to internet dst 198.51.100.7/32"),
    ("shop", "trace", "open from eni-app tcp 10.0.2.10 198.51.100.7 40000 443"), ("shop", "ask", "from internet to eni-web"), ("shop", "ask", "from eni-web to eni-db dst 0.0.0.0/0 max 20"),
    ("three-tiers", "ask", "from internet to eni-lb-a sport 1024-65535"), ("three-tiers", "ask", "from internet to eni-db-a"), ("three-tiers", "ask", "from internet to eni-db-a max 100"),
    ("three-tiers", "ask", "from eni-lb-a to eni-db-a dst 0.0.0.0/0"), ("three-tiers", "ask", "from eni-app-a-1 to eni-db-a port 0-5431"),
    ("three-tiers", "ask", "from eni-bastion to eni-app-a-1 proto icmp"), ("two-accounts", "ask", "from eni-web-1 to eni-build-1"),
    ("two-accounts", "ask", "from eni-build-1 to eni-shop-1 dst 0.0.0.0/0 port 23-65535"), ("two-accounts", "ask", "from eni-build-1 to eni-shop-1"),
    ("hub", "ask", "from eni-dev-1 to eni-prod-1"), ("hub", "ask", "from eni-dev-1 to eni-prod-1 port 0-442"), ("hub", "ask", "from eni-sandbox-1 to eni-shared-1 sport 1024-65535"),
    ("hub", "ask", "from eni-sandbox-1 to internet sport 1024-65535"), ("hub", "trace", "open from internet tcp 198.51.100.7 203.0.113.9 1 2"),
]


def run_answers(results, program):
    for bundle, command, words in QUESTIONS:
        path = os.path.join(TOP, "examples", f"{bundle}.json")
        ran = subprocess.run([program, command, path, *words.split()], capture_output=True, check=False)
        with open(path, encoding="utf-8") as file:
            names = file.read()
        text = ran.stdout.decode()
        results.add(f"{bundle} {command} {words}", ran.returncode in (0, 1, 5), True)
        check_picture(results, f"{bundle} {words}", text)
        check_picture(results, f"{bundle} {words}, with names", text, "--names", path, names=names)


def main(words):
    if len(words) > 1:
        sys.exit(__doc__)
    results = Results()
    with tempfile.TemporaryDirectory() as folder:
        run_texts(results, os.path.join(folder, "names.json"))
        run_why(results, os.path.join(folder, "names.json"))
        run_refused(results)
        run_words(results, folder)
        run_page(results, folder)
        run_told(results, folder)
        run_many(results, folder)
        run_ways(results, folder)
    run_classes(results)
    run_chips(results)
    for seed, hosts, kinds in ((1, 1, 1), (2, 2, 2), (3, 12, 4), (4, 40, 40), (5, 80, 70), (6, 120, 8)):
        run_matrix(results, seed, hosts, kinds)
    run_planes(results)
    run_trees(results)
    run_large(results)
    if words:
        run_answers(results, os.path.abspath(words[0]))
    print(f"{results.passed} passed, {results.failed} failed")
    return 1 if results.failed else 0


if __name__ == "__main__":
    sys.exit(main(sys.argv[1:]))
