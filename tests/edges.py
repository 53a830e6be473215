#!/usr/bin/env python3
"""The edge of the program, where no proof reaches: tests/edges.py [PROGRAM]

PROGRAM (without it out/vpc) is run as a whole process once for each exit status from 0 to 9; with each number of words from
0 to 20, and words that are empty, begin with a dash, are long or aren't UTF-8; with files of 2 MiB, of the limit of 64 MiB
and of one byte more, in either place; with files that are missing, are folders, pipes or have no end; with an output that
takes nothing, a part, or a byte at a time; and with little memory. The status and the standard output are compared with what
docs/ANSWERS.md and docs/FAQ.md say, and standard error is to be empty. Prints each difference.

Status 8 is reached by a limit on memory. That memory is refused while the words are read is not reached here, since the
program is too small then to be started at all: refused_memory.py does it.
"""

import json
import os
import re
import resource
import signal
import subprocess
import sys
import tempfile

TOP = os.path.dirname(os.path.dirname(os.path.abspath(__file__)))
LIMIT = 67_108_864
TWO = 2 * 1024 * 1024
SECONDS = 120

BUNDLE = open(os.path.join(TOP, "examples", "one-subnet.json"), "rb").read()
PACKET = "open from eni-a tcp 10.0.1.10 10.0.1.20 5000"
HOPS = """\
hop 1 out eni-a tcp 10.0.1.10 10.0.1.20 5000 443 by sg-a out 1
hop 2 router subnet-a tcp 10.0.1.10 10.0.1.20 5000 443
hop 3 in eni-b tcp 10.0.1.10 10.0.1.20 5000 443 by sg-b in 1
arrived eni-b
"""
STOPPED = """\
hop 1 out eni-a tcp 10.0.1.10 10.0.1.20 5000 80 by sg-a out 1
hop 2 router subnet-a tcp 10.0.1.10 10.0.1.20 5000 80
hop 3 in eni-b tcp 10.0.1.10 10.0.1.20 5000 80
stopped GroupsIn eni-b -
"""
QUERY = "from eni-a to eni-b"
REACHABLE = """\
reachable
packet tcp 10.0.1.10 10.0.1.20 0 443
request
hop 1 out eni-a tcp 10.0.1.10 10.0.1.20 0 443 by sg-a out 1
hop 2 router subnet-a tcp 10.0.1.10 10.0.1.20 0 443
hop 3 in eni-b tcp 10.0.1.10 10.0.1.20 0 443 by sg-b in 1
arrived eni-b
reply
hop 1 out eni-b tcp 10.0.1.20 10.0.1.10 443 0 by tracked
hop 2 router subnet-a tcp 10.0.1.20 10.0.1.10 443 0
hop 3 in eni-a tcp 10.0.1.20 10.0.1.10 443 0 by tracked
arrived eni-a
"""
REPORT = """\
vpc-report 1
query from eni-a to eni-b
box 6-6 10.0.1.10-10.0.1.10 10.0.1.20-10.0.1.20 0-65535 80-80
row 1 request GroupsIn eni-b - 6-6 10.0.1.10-10.0.1.10 10.0.1.20-10.0.1.20 0-65535 80-80
end 1
"""
MORE = re.compile(rb"""more boxes
query from eni-a to eni-b
box 6-6 10\.0\.1\.0-10\.0\.1\.255 10\.0\.1\.20-10\.0\.1\.20 0-65535 80-80
row 1 request SourceCheck eni-a - 6-6 10\.0\.1\.0-10\.0\.1\.9 10\.0\.1\.20-10\.0\.1\.20 0-65535 80-80
next tcp 10\.0\.1\.10 10\.0\.1\.20 0 80
cells [1-9][0-9]*
""")
MADE = """\
make 3
pair eni-1 eni-2 reachable tcp 10.1.1.10 10.2.1.10 0 2
pair eni-1 eni-3 reachable tcp 10.1.1.10 10.3.1.10 0 3
pair eni-1 internet blocked
"""
# To a gateway that isn't followed.
RULE = "blocked from eni-a to internet dst 198.51.100.7/32 port 443-443\n"
UNKNOWN = "line 1 unknown request Unmodelled vgw-1 - tcp 10.0.1.10 198.51.100.7 0 443\nok 0 fail 0 unknown 1\n"
EVENTS = f"{PACKET} 443\n{PACKET} 80\n"
PLAYED = "event 1 arrived eni-b tcp 10.0.1.10 10.0.1.20 5000 443\nevent 2 stopped GroupsIn eni-b -\n"


def file_of(name, data):
    """A file in the folder of this run."""
    with open(name, "wb") as file:
        file.write(data.encode() if isinstance(data, str) else data)
    return name


def with_route():
    """The bundle with a route of all packets to a gateway that isn't followed."""
    bundle = json.loads(BUNDLE)
    bundle["RouteTables"][0]["Routes"].append({"DestinationCidrBlock": "0.0.0.0/0", "GatewayId": "vgw-1", "State": "active"})
    return json.dumps(bundle)


def padded(size):
    """The bundle with blanks before, within and after it."""
    blanks = size - len(BUNDLE)
    at = BUNDLE.index(b"{") + 1
    return b" " * (blanks // 3) + BUNDLE[:at] + b"\n" * (blanks // 3) + BUNDLE[at:] + b" " * (blanks - 2 * (blanks // 3))


# ---- cases: a name, the words, the status, the text (or a pattern), and how the process is started

def statuses():
    rows = [
        ("trace o.json " + PACKET + " 443", 0, HOPS), ("ask o.json " + QUERY, 0, REACHABLE), ("check o.json r.txt", 0, "yes\n"),
        ("replay o.json e.txt", 0, PLAYED), ("make 3", 0, MADE),
        ("trace o.json " + PACKET + " 80", 1, STOPPED), ("ask o.json " + QUERY + " port 80-80", 1, REPORT),
        ("check o.json wide.txt", 1, "no uncovered tcp 10.0.1.10 10.0.1.20 0 81\n"),
        ("check o.json untrue.txt", 1, "no untrue 1 tcp 10.0.1.10 10.0.1.20 0 443 through\n"),
        ("trace o.json", 2, "refused words 3\n"), ("--help", 2, "refused words 1\n"),
        ("trace no.json " + PACKET + " 443", 3, "refused description NotJson\n"),
        ("ask empty.txt " + QUERY, 3, "refused description NotJson\n"),
        ("trace o.json " + PACKET + " 65536", 4, "refused packet BadWord 10\n"),
        ("ask o.json from eni-a to eni-z", 4, "refused query UnknownId 6\n"),
        ("replay o.json r.txt", 4, "refused events 1\n"), ("check o.json e.txt", 4, "refused report 1\n"),
        ("make 51", 4, "refused number 2\n"),
        ("ask o.json " + QUERY + " src 10.0.1.0/24 port 80-80 max 1", 5, MORE),
        ("expect o.json rules.txt", 0, "ok 1 fail 0 unknown 0\n"), ("expect far.json rules.txt", 9, UNKNOWN),
    ]
    return [(words, words.split(), status, text, {}) for words, status, text in rows]


def refusals():
    """Refusals of packets, queries and reports, each whole, with its argument. A missing address comes last of a query's."""
    bundle = json.loads(BUNDLE)
    bundle["NetworkInterfaces"] += [
        {"NetworkInterfaceId": "eni-none", "SubnetId": "subnet-a"},
        {"NetworkInterfaceId": "eni-nat", "SubnetId": "subnet-a", "PrivateIpAddress": "10.0.1.9", "InterfaceType": "nat_gateway"},
    ]
    file_of("c.json", json.dumps(bundle))
    row = REPORT.splitlines()[3].split(" ", 2)[2]
    for name, count in (("full.txt", 20_000), ("over.txt", 20_001)):
        file_of(name, "\n".join([*REPORT.splitlines()[:3], *(f"row {k + 1} {row}" for k in range(count)), f"end {count}", ""]))
    rows = [
        ("trace c.json " + PACKET.replace("eni-a", "eni-nat") + " 443", "packet NotAnEnd eni-nat"),
        ("trace c.json " + PACKET.replace("eni-a", "eni-z") + " 443", "packet UnknownId 5"),
        ("ask c.json from eni-nat to eni-b", "query NotAnEnd eni-nat"), ("ask c.json from internet to internet", "query BothInternet"),
        ("ask c.json " + QUERY + " port 80", "query BadWord 8"), ("ask c.json " + QUERY + " port 80-79", "query EmptyRange 8"),
        ("ask c.json " + QUERY + " max 100001", "query MaxOutOfRange"),
        ("ask c.json from eni-none to eni-b", "query NoAddress eni-none"), ("ask c.json from eni-a to eni-none", "query NoAddress eni-none"),
        ("ask c.json from eni-a to eni-none port 80-79", "query EmptyRange 8"), ("ask c.json from eni-none to eni-b max 0", "query MaxOutOfRange"),
        ("check c.json over.txt", "report TooManyBoxes 20004"),
    ]
    yield from ((words, words.split(), 4, f"refused {text}\n", {}) for words, text in rows)
    yield ("as many rows as are read", "check c.json full.txt".split(), 1, "no overlap 1 2\n", {})


def expected(words):
    """The number of the first wrong word, by the commands of docs/COMMANDS.md; 0 where the count is right."""
    count = len(words)
    least, most = {"trace": (10, 10), "ask": (6, 18), "check": (3, 4), "replay": (3, 3), "make": (2, 2)}.get(words[0] if words else "", (0, 0))
    if not most:
        return 1
    if count > most:
        return most + 1
    return count + 1 if count < least or words[0] == "ask" and count % 2 else 0


WHOLE = {
    "trace": ("trace o.json " + PACKET + " 443").split(),
    "ask": ("ask o.json " + QUERY + " proto tcp src 10.0.1.10/32 dst 10.0.1.20/32 sport 0-65535 port 80-443 max 20000").split(),
    "check": "check o.json r.txt".split(), "replay": "replay o.json e.txt".split(), "make": "make 3".split(), "walk": ["walk"],
}
ANSWER = {"trace": HOPS, "ask": REACHABLE, "check": "yes\n", "replay": PLAYED, "make": MADE}
# With a third file the second is a bundle.
OTHERWISE = {("check", 4): (3, "refused description after NotJson\n")}


def counts():
    """Each command with its first words, and with words after its last."""
    for name, whole in WHOLE.items():
        for count in range(0 if name == "trace" else 1, 21):
            words = (whole + ["443"] * 20)[:count]
            number = expected(words)
            status, text = (2, f"refused words {number}\n") if number else OTHERWISE.get((name, count), (0, ANSWER.get(name)))
            yield (f"{name} with {count} words", words, status, text, {})


def bad_words():
    """Each word of each command in turn is empty or begins with a dash, also where there are too many words."""
    for name in ANSWER:
        for extra in (0, 3):
            words = WHOLE[name] + ["x"] * extra
            for k in range(len(words)):
                for bad in ("", "-", "--help", "-1"):
                    yield (f"{name} with {bad!r} as word {k + 1} of {len(words)}", [*words[:k], bad, *words[k + 1:]], 2, f"refused words {k + 1}\n", {})
    yield ("the first of two", ["trace", "", "-"], 2, "refused words 2\n", {})


def odd_words():
    trace, long = WHOLE["trace"], "x" * 100_000
    for name in ANSWER:
        for k in (0, 1, len(WHOLE[name]) - 1):
            yield (f"{name} with a byte 255 as word {k + 1}", [*WHOLE[name][:k], b"\xff", *WHOLE[name][k + 1:]], 2, f"refused words {k + 1}\n", {})
    yield ("half of a letter", [*trace[:4], b"eni-\xc3", *trace[5:]], 2, "refused words 5\n", {})
    yield ("the first of two that aren't UTF-8", [trace[0], b"\xff", b"\xff"], 2, "refused words 2\n", {})
    yield ("a program's name that isn't UTF-8", trace, 0, HOPS, {"name": b"\xff"})
    yield ("a word that isn't ASCII", [*trace[:4], "eni-\u00e4", *trace[5:]], 4, "refused packet UnknownId 5\n", {})
    yield ("a long word", [*trace[:4], long, *trace[5:]], 4, "refused packet UnknownId 5\n", {})
    yield ("a long command", [long], 2, "refused words 1\n", {})
    yield ("a long name of a file", [trace[0], long, *trace[2:]], 6, "read fault 1\n", {})
    yield ("50,000 words", trace + ["x"] * 50_000, 2, "refused words 11\n", {})
    yield ("a blank in a word", [*trace[:9], "443 "], 4, "refused packet BadWord 10\n", {})
    yield ("a newline in a word", [*trace[:4], "eni-a\n", *trace[5:]], 4, "refused packet UnknownId 5\n", {})


def unread():
    rows = [
        ("a missing file", "trace none.json " + PACKET + " 443", 1), ("a folder", "trace folder " + PACKET + " 443", 1),
        ("a file as a folder", "trace o.json/ " + PACKET + " 443", 1), ("a missing file", "ask none.json " + QUERY, 1),
        ("a missing first file", "check none.json r.txt", 1), ("a missing first file", "replay none.json e.txt", 1),
        ("both missing", "check none.json none.txt", 1), ("both missing", "replay none.json none.txt", 1),
        ("a missing second file", "check o.json none.txt", 2), ("a missing second file", "replay o.json none.txt", 2),
        ("a folder as the second", "check o.json folder", 2), ("a folder as the second", "replay o.json folder", 2),
    ]
    for name, words, place in rows:
        yield (f"{name}: {words}", words.split(), 6, f"read fault {place}\n", {})
    yield ("the bundle comes before the second file", "check no.json none.txt".split(), 3, "refused description NotJson\n", {})
    yield ("one file as both", "check o.json o.json".split(), 4, "refused report 1\n", {})
    yield ("one file as both", "replay o.json o.json".split(), 4, "refused events 1\n", {})


def piped():
    """Files that come through a pipe, in pieces."""
    for name in ("trace", "ask", "check", "replay"):
        words = [WHOLE[name][0], "/dev/stdin", *WHOLE[name][2:]]
        yield (f"{name} of a pipe", words, 0, ANSWER[name], {"given": BUNDLE})
        yield (f"{name} of a long pipe", words, 0, ANSWER[name], {"given": padded(TWO)})
    yield ("a report of a pipe", "check o.json /dev/stdin".split(), 0, "yes\n", {"given": REPORT.encode()})
    yield ("events of a pipe", "replay o.json /dev/stdin".split(), 0, PLAYED, {"given": EVENTS.encode()})
    yield ("a pipe as both files", "check /dev/stdin /dev/stdin".split(), 4, "refused report 1\n", {"given": BUNDLE})
    yield ("a file with no end", ["trace", "/dev/zero", *WHOLE["trace"][2:]], 3, "refused description TooBig\n", {})
    yield ("events with no end", "replay o.json /dev/zero".split(), 4, "refused events TooBig\n", {})
    yield ("a report with no end", "check o.json /dev/zero".split(), 4, "refused report TooBig\n", {})


def long_files():
    """Files beyond a megabyte, of the limit and of one byte more, in either place."""
    for size, name in ((TWO, "two.json"), (LIMIT, "most.json"), (LIMIT + 1, "more.json")):
        file_of(name, padded(size))
    for name in ("trace", "ask", "check", "replay"):
        for file, status, text in (("two.json", 0, ANSWER[name]), ("most.json", 0, ANSWER[name]), ("more.json", 3, "refused description TooBig\n")):
            yield (f"{name} of {file}", [name, file, *WHOLE[name][2:]], status, text, {})
    for size, name in ((LIMIT, "most.txt"), (LIMIT + 1, "more.txt")):
        file_of(name, b"x" * size)
    for name, what in (("replay", "events"), ("check", "report")):
        yield (f"{what} of the limit", [name, "o.json", "most.txt"], 4, f"refused {what} 1\n", {})
        yield (f"{what} of a byte more", [name, "o.json", "more.txt"], 4, f"refused {what} TooBig\n", {})
    yield ("the bundle comes before a second file that is too long", "check no.json more.txt".split(), 3, "refused description NotJson\n", {})


def long_texts():
    """Events and a report of more than 2 MiB, which are read and written whole."""
    count = TWO // len(EVENTS) + 1
    file_of("two.txt", EVENTS * count)
    endings = [line.split(" ", 2)[2] for line in PLAYED.splitlines()]
    played = "".join(f"event {k + 1} {endings[k % 2]}\n" for k in range(2 * count))
    yield ("events of 2 MiB", "replay o.json two.txt".split(), 0, played, {})
    yield ("a long answer that is read slowly", "replay o.json two.txt".split(), 0, played, {"read_slowly": True})
    report = many_rows()
    file_of("long.txt", report)
    file_of("cut.txt", report[: report.rindex("end")])
    words = f"ask many.json from {LONG_ID} to eni-b".split()
    yield ("a report of 2 MiB is printed", words, 1, report, {})
    yield ("a report of 2 MiB is true", "check many.json long.txt".split(), 0, "yes\n", {})
    yield ("a report of 2 MiB without its end", "check many.json cut.txt".split(), 4, f"refused report {len(report.splitlines())}\n", {})


LONG_ID = "eni-a" + "a" * 40
PORTS = range(1, 19_999, 2)


def many_rows():
    """The report about two hosts of which one may send to even ports alone, and the other takes odd ones alone."""
    bundle = json.loads(BUNDLE.replace(b"eni-a", LONG_ID.encode()))
    rule = {"IpProtocol": "tcp", "IpRanges": [{"CidrIp": "0.0.0.0/0"}]}
    bundle["SecurityGroups"][0]["IpPermissionsEgress"] = [dict(rule, FromPort=p - 1, ToPort=p - 1) for p in PORTS]
    bundle["SecurityGroups"][1]["IpPermissions"] = [dict(rule, FromPort=p, ToPort=p) for p in PORTS]
    file_of("many.json", json.dumps(bundle))
    box = "6-6 10.0.1.10-10.0.1.10 10.0.1.20-10.0.1.20 0-65535"
    # An even port leaves the first host, and isn't let in; an odd one doesn't leave it, nor does any after the last.
    parts = [*((p, p) for p in range(PORTS[-1])), (PORTS[-1], 65535)]
    rows = [f"row {k + 1} request {f'GroupsOut {LONG_ID}' if a % 2 else 'GroupsIn eni-b'} - {box} {a}-{b}" for k, (a, b) in enumerate(parts)]
    return "\n".join(["vpc-report 1", f"query from {LONG_ID} to eni-b", f"box {box} 0-65535", *rows, f"end {len(rows)}", ""])


def most_rows():
    """Without `max` a listing has at most 20,000 rows: one host takes 20,001 odd ports."""
    bundle, ports = json.loads(BUNDLE), range(1, 40_002, 2)
    bundle["SecurityGroups"][1]["IpPermissions"] = [{"IpProtocol": "tcp", "FromPort": p, "ToPort": p, "IpRanges": [{"CidrIp": "0.0.0.0/0"}]} for p in ports]
    file_of("odd.json", json.dumps(bundle))
    sides = "10.0.1.10-10.0.1.10 10.0.1.20-10.0.1.20 0-65535"
    rows = [f"row {k + 1} eni-a eni-b 6-6 {sides} {p}-{p}" for k, p in enumerate(ports)]
    query = "query from eni-a to eni-b proto tcp"
    some = "\n".join(["more reach", query, *rows[:20_000], "next eni-a tcp 10.0.1.10 10.0.1.20 0 40001", ""])
    words = "reach odd.json from eni-a to eni-b proto tcp".split()
    yield ("20,001 rows of a listing", words, 5, some, {})
    yield ("20,001 rows of a listing, of which 20,000 are asked for", [*words, "max", "20000"], 5, some, {})
    bundle["SecurityGroups"][1]["IpPermissions"].pop()
    file_of("odd.json", json.dumps(bundle))
    yield ("20,000 rows of a listing", words, 0, "\n".join(["vpc-reach 1", query, *rows[:20_000], "end 20000", ""]), {})


def tree(depths, one_more=False):
    """A true tree about what o.json refuses: so many cuts by source ports below each other, for each destination port from 80 on. Every
    other one is cut from above: what is cut first comes last."""
    nodes, leaf = [], "leaf request GroupsIn eni-b -"
    for k, depth in enumerate(depths):
        nodes += [f"cut q {81 + k}"] if k + 1 < len(depths) else []
        if k % 2:
            nodes += [*(f"cut p {at}" for at in range(depth, 0, -1)), *[leaf] * (depth + 1)]
        else:
            nodes += [it for at in range(1, depth + 1) for it in (f"cut p {at}", leaf)] + [leaf]
    count = sum(depths) + len(depths)
    box = f"6-6 10.0.1.10-10.0.1.10 10.0.1.20-10.0.1.20 0-65535 80-{79 + len(depths)}"
    return "\n".join(["vpc-report 2", "query from eni-a to eni-b", f"box {box}", *nodes, *[leaf] * one_more, f"end {count}", ""])


def trees():
    """Trees of 100,000 leaves, whose cuts lie as deep, with a small stack; of one leaf more; and cuts alone."""
    small = {"prepare": lambda: resource.setrlimit(resource.RLIMIT_STACK, (SMALL_STACK, SMALL_STACK))}
    words = "check o.json tree.txt".split()
    for depths in ((65_535, 34_463), (49_999, 49_999), (33_000, 33_000, 33_997)):
        file_of("tree.txt", tree(depths))
        yield (f"a tree of 100,000 leaves: {depths}", words, 0, "yes\n", small)
    whole = tree((49_999, 49_999))
    file_of("tree.txt", tree((49_999, 49_999), True))
    yield ("a leaf after a whole tree of 100,000", words, 4, f"refused report {len(whole.splitlines())}\n", small)
    file_of("tree.txt", tree((50_000, 49_999)))
    nodes = tree((50_000, 49_999)).splitlines()
    yield ("a tree of 100,001 leaves", words, 4, f"refused report TooManyBoxes {len(nodes) - 1}\n", small)
    file_of("tree.txt", whole.replace("leaf request GroupsIn eni-b -\nend", "leaf reply GroupsIn eni-b -\nend"))
    yield ("a tree of 100,000 leaves, of which the last isn't true", words, 1, "no untrue 100000 tcp 10.0.1.10 10.0.1.20 49999 81 request GroupsIn eni-b -\n", small)
    cuts = ["vpc-report 2", "query from eni-a to eni-b", "box 6-6 0.0.0.0-255.255.255.255 10.0.1.20-10.0.1.20 0-65535 80-80"]
    cuts += [f"cut src 255.{k >> 16 & 255}.{k >> 8 & 255}.{k & 255}" for k in range(2_700_000, 0, -1)]
    file_of("tree.txt", "\n".join([*cuts, ""]))
    yield ("cuts alone, in 56 MiB", words, 4, f"refused report {len(cuts) + 1}\n", small)


SMALL_STACK = 512 * 1024


def outputs():
    """Outputs that take nothing, or a part."""
    texts = [*WHOLE.values(), "trace none.json".split(), WHOLE["trace"][:1] + ["none.json"] + WHOLE["trace"][2:], "check o.json none.txt".split()]
    for words in texts:
        name = " ".join(words)
        yield (f"{name}: to a full device", words, 7, None, {"out": "/dev/full"})
        yield (f"{name}: to a pipe that nobody reads", words, 7, None, {"unread": signal.SIG_IGN})
        yield (f"{name}: to such a pipe, where the signal isn't ignored", words, 7, None, {"unread": signal.SIG_DFL})
        yield (f"{name}: to a file that isn't open", words, 7, None, {"prepare": lambda: os.close(1)})
    file_of("none.events", "")
    yield ("nothing, to a full device", "replay o.json none.events".split(), 0, None, {"out": "/dev/full"})
    for name, words in WHOLE.items():
        text = ANSWER.get(name, "refused words 1\n")
        for size in (1, 3, len(text) - 1):
            yield (f"{name}: to a file of {size} bytes", words, 7, text[:size], {"out": "part.txt", "prepare": shortened(size)})
    yield ("want of memory, to a full device", ["trace", "most.json", *WHOLE["trace"][2:]], 7, None, {"out": "/dev/full", "prepare": limited(LITTLE)})


LITTLE = 64 * 1024 * 1024


def memory():
    """Files that are longer than the memory that the program may have."""
    for name in ("trace", "ask", "check", "replay"):
        words = [name, "most.json", *WHOLE[name][2:]]
        yield (f"{name} of 64 MiB with 64 MiB", words, 8, "want of memory\n", {"prepare": limited(LITTLE)})
    yield ("events of 64 MiB with 64 MiB", "replay o.json most.txt".split(), 8, "want of memory\n", {"prepare": limited(LITTLE)})
    yield ("a report of 64 MiB with 64 MiB", "check o.json most.txt".split(), 8, "want of memory\n", {"prepare": limited(LITTLE)})


def limited(size):
    return lambda: resource.setrlimit(resource.RLIMIT_AS, (size, size))


def shortened(size):
    def prepare():
        signal.signal(signal.SIGXFSZ, signal.SIG_IGN)
        resource.setrlimit(resource.RLIMIT_FSIZE, (size, size))

    return prepare


# ---- runs

def slowly(end):
    """What comes through a pipe that is read in small pieces."""
    pieces = []
    while piece := os.read(end, 1021):
        pieces.append(piece)
    os.close(end)
    return b"".join(pieces)


def ran(words, out=None, prepare=None, given=None, unread=None, read_slowly=False, name=None):
    """The status, the standard output (None where it is read by nobody) and the standard error of a run."""
    to, end = subprocess.PIPE, None
    if out:
        to = os.open(out, os.O_WRONLY | os.O_CREAT | os.O_TRUNC)
    if unread is not None or read_slowly:
        end, to = os.pipe()
    if unread is not None:
        os.close(end)
        prepare = lambda: signal.signal(signal.SIGPIPE, unread)
    child = subprocess.Popen([name or PROGRAM, *words], executable=PROGRAM, stdin=subprocess.PIPE if given else subprocess.DEVNULL, stdout=to, stderr=subprocess.PIPE,
                             preexec_fn=prepare)
    if to != subprocess.PIPE:
        os.close(to)
    text = slowly(end) if read_slowly else None
    try:
        printed, errors = child.communicate(given, timeout=SECONDS)
    except subprocess.TimeoutExpired:
        child.kill()
        return "no end", b"", b""
    if out and os.path.isfile(out):
        with open(out, "rb") as file:
            printed = file.read()
    return child.returncode, text if read_slowly else printed, errors


def is_as(printed, text):
    if text is None:
        return not printed
    if isinstance(text, re.Pattern):
        return bool(text.fullmatch(printed))
    return printed == text.encode()


def difference(case):
    """What is wrong with a case, if anything."""
    name, words, status, text, how = case
    ended, printed, errors = ran(words, **how)
    if ended == status and is_as(printed, text) and not errors:
        return None
    return f"{name}: status {status} and {short(text)} expected, {ended} and {short(printed)} came, and {short(errors)} on standard error"


def short(text):
    text = text.pattern if isinstance(text, re.Pattern) else text
    return repr(text if text is None or len(text) <= 80 else text[:80])


def main():
    with tempfile.TemporaryDirectory() as folder:
        os.chdir(folder)
        os.mkdir("folder")
        for name, data in (("o.json", BUNDLE), ("no.json", BUNDLE[:-2]), ("empty.txt", ""), ("r.txt", REPORT), ("e.txt", EVENTS),
                           ("wide.txt", REPORT.replace("80-80\nrow", "80-443\nrow")), ("untrue.txt", REPORT.replace("80-80", "443-443")),
                           ("far.json", with_route()), ("rules.txt", RULE)):
            file_of(name, data)
        passed, failed = 0, 0
        for group in (statuses, refusals, counts, bad_words, odd_words, unread, piped, long_files, long_texts, most_rows, trees, outputs, memory):
            for case in group():
                wrong = difference(case)
                passed, failed = (passed, failed + 1) if wrong else (passed + 1, failed)
                if wrong:
                    print(wrong)
        print(f"{passed} passed, {failed} failed")
    sys.exit(1 if failed else 0)


if __name__ == "__main__":
    PROGRAM = os.path.abspath(sys.argv[1] if len(sys.argv) > 1 else os.path.join(TOP, "out/vpc"))
    main()
