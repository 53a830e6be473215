#!/usr/bin/env python3
"""What launcher/refusals.sh says of what the program refuses: tests/refusals.py [PROGRAM]

By PROGRAM, or out/vpc. Sentences that belong to words and files, each of which is written here; then every refusal in
crates/cli_rows/stdout and of tests/bundles/rows.json has one sentence; and what is put into words, names of files and bundles to
deceive whoever reads it comes out as visible letters of one line. The last line is 'N passed, M failed'.
"""

import concurrent.futures
import gzip
import json
import os
import re
import subprocess
import sys
import tempfile

HERE = os.path.dirname(os.path.abspath(__file__))
TOP = os.path.dirname(HERE)
ROWS = os.path.join(TOP, "crates", "cli_rows")
REFUSED = (2, 3, 4, 6)
ONE = "one-subnet.json"
ASK = f"ask {ONE} from eni-a to eni-b"
FORMS = {
    "ask": "FILE from END to END [proto PROTO] [src PREFIX] [dst PREFIX] [sport A-B] [port A-B] [max N]",
    "diff": "BEFORE AFTER [from END] [to END] [proto PROTO] [src PREFIX] [dst PREFIX] [sport A-B] [port A-B] [max N]",
    "trace": "FILE LABEL from END PROTO SRC DST P Q",
}
PAIRS = "proto, src, dst, sport, port, max"
PORTS = "is no range of ports: write two numbers from 0 to 65535, as in 1024-65535"

# The words of a command, and what is said of them. A word that is None is empty.
SENTENCES = [
    # words
    ("ask", f"word 2 is missing: ./vpc ask {FORMS['ask']}"),
    (f"ask {ONE} from eni-a to", f"word 6 is missing: ./vpc ask {FORMS['ask']}"),
    (f"{ASK} port", f"word 8 is missing: ./vpc ask {FORMS['ask']}"),
    (f"{ASK} max 1" + " max 1" * 6, f'word 19, "max", is one too many: ./vpc ask {FORMS["ask"]}'),
    (f"ask {ONE} from -a to eni-b", 'word 4, "-a", begins with a dash, as no word does: ./vpc ask --help tells of the words'),
    (["ask", ONE, "from", "", "to", "eni-b"], "word 4 is empty"),
    (["ask", ONE, "from", b"\xff", "to", "eni-b"], 'word 4, "?", isn\'t text in UTF-8'),
    ("make 1 2", 'word 3, "2", is one too many: ./vpc make N'),
    (f"check {ONE}", "word 3 is missing: ./vpc check FILE REPORT"),
    ("check a b c d", 'word 5, "d", is one too many: ./vpc check BEFORE AFTER DIFF'),
    (f"matrix {ONE} port", "word 4 is missing: ./vpc matrix FILE [port A-B]"),
    (f"diff {ONE}", f"word 3 is missing: ./vpc diff {FORMS['diff']}"),
    ("tarce", None),
    ([], None),
    # queries
    (f"ask {ONE} form eni-a to eni-b", f'word 3, "form", has to be from: ./vpc ask {FORMS["ask"]}'),
    (f"ask {ONE} from eni-a ot eni-b", f'word 5, "ot", has to be to: ./vpc ask {FORMS["ask"]}'),
    (f"ask {ONE} from i-0123 to eni-b", f'word 4, "i-0123", is neither internet nor the id of an interface of {ONE}: name the interface of that instance'),
    (f"ask {ONE} from eni-a to eni-c", f'word 6, "eni-c", is neither internet nor the id of an interface of {ONE}'),
    (f"ask {ONE} from internet to internet", "both ends are the internet: one has to be an interface"),
    ("ask shop.json from eni-nat to eni-db", "eni-nat belongs to a gateway, which sends no packets of its own: ask about the host behind it"),
    ("ask shop.json from tgw-attach-shop to eni-db", "tgw-attach-shop doesn't lead from VPCs that are described to a network that isn't: ask about the hosts there"),
    ("ask shop.json from vpce-s3 to eni-db", 'word 4, "vpce-s3", is a gateway endpoint, whose service opens no connection: ask to it'),
    ("ask shop.json from vgw-1 to eni-db", 'word 4, "vgw-1", is neither internet nor the id of an interface of shop.json, nor of what is told to lead outside: docs/REACH.md has what a bundle tells of it'),
    (f"{ASK} port 443", 'word 8, "443", is no range: write 443-443'),
    (f"{ASK} port 0443", f'word 8, "0443", {PORTS}'),
    (f"{ASK} port 443:444", f'word 8, "443:444", {PORTS}'),
    (f"{ASK} port 1-65536", f'word 8, "1-65536", {PORTS}'),
    (f"{ASK} port 65536", f'word 8, "65536", {PORTS}'),
    (f"{ASK} sport 90-80", 'word 8, "90-80", is backwards: write 80-90'),
    (f"{ASK} src 10.0.1.10", 'word 8, "10.0.1.10", is no block: write 10.0.1.10/32'),
    (f"{ASK} src 10.0.01.10", 'word 8, "10.0.01.10", is no block of IPv4 addresses, such as 10.0.1.0/24'),
    (f"{ASK} dst ::/0", 'word 8, "::/0", is no block of IPv4 addresses, such as 10.0.1.0/24'),
    (f"{ASK} dst 10.0.0.0/33", 'word 8, "10.0.0.0/33", is no block of IPv4 addresses, such as 10.0.1.0/24'),
    (f"{ASK} proto TCP", 'word 8, "TCP", is no protocol: write tcp, udp, icmp or a number from 0 to 255'),
    (f"{ASK} proto 256", 'word 8, "256", is no protocol: write tcp, udp, icmp or a number from 0 to 255'),
    (f"{ASK} prot tcp", f'word 7, "prot", is none of the words that may stand there: {PAIRS}'),
    (f"{ASK} port 1-2 src 10.0.0.0/8", f'word 9, "src", stands too late: the order is {PAIRS}'),
    (f"{ASK} src 10.0.0.0/8 src 10.0.0.0/8", 'word 9, "src", stands there twice'),
    (f"{ASK} proto 47 port 1-2", 'word 9, "port", asks for ports, and this protocol has none: leave them out'),
    (f"{ASK} proto 47 src 10.0.0.0/8 sport 1-2", 'word 11, "sport", asks for ports, and this protocol has none: leave them out'),
    (f"{ASK} proto icmp port 2-1", 'word 10, "2-1", is backwards: write 1-2'),
    (f"{ASK} max 0", 'word 8, "0", is no number from 1 to 100000'),
    (f"{ASK} max 100001", 'word 8, "100001", is no number from 1 to 100000'),
    (f"{ASK} max many", 'word 8, "many", is no number from 1 to 100000'),
    (f"reach {ONE} max 20001", 'word 4, "20001", is no number from 1 to 20000'),
    (f"diff {ONE} shop.json max some", 'word 5, "some", is no number from 1 to 20000'),
    (f"reach {ONE} to eni-b from eni-a", f'word 5, "from", stands too late: the order is from, to, {PAIRS}'),
    (f"reach {ONE} to eni-x", f'word 4, "eni-x", is neither internet nor the id of an interface of {ONE}'),
    (f"reach {ONE} port 443", 'word 4, "443", is no range: write 443-443'),
    (f"unused {ONE} from eni-a to eni-b max 5", 'word 7, "max", is none of the words that may stand there: proto, src, dst, sport, port'),
    (f"diff {ONE} shop.json to eni-x", f'word 5, "eni-x", is neither internet nor the id of an interface of {ONE} or shop.json'),
    (f"diff {ONE} shop.json proto 47 sport 1-1", 'word 6, "sport", asks for ports, and this protocol has none: leave them out'),
    (f"matrix {ONE} ports 1-2", 'word 3, "ports", is none of the words that may stand there: port'),
    (f"matrix {ONE} port 22", 'word 4, "22", is no range: write 22-22'),
    (f"matrix {ONE} port 3-2", 'word 4, "3-2", is backwards: write 2-3'),
    ("make 51", 'word 2, "51", is no number from 1 to 50'),
    ("ask bare.json from eni-a to eni-b", "eni-a has no primary address, which is meant where src or dst is left out: say which"),
    # packets
    (f"trace {ONE} opens from eni-a tcp 10.0.1.10 10.0.1.20 1 2", 'word 3, "opens", is neither open nor answer'),
    (f"trace {ONE} open form eni-a tcp 10.0.1.10 10.0.1.20 1 2", f'word 4, "form", has to be from: ./vpc trace {FORMS["trace"]}'),
    (f"trace {ONE} open from eni-x tcp 10.0.1.10 10.0.1.20 1 2", f'word 5, "eni-x", is neither internet nor the id of an interface of {ONE}'),
    (f"trace {ONE} open from eni-a 300 10.0.1.10 10.0.1.20 1 2", 'word 6, "300", is no protocol: write tcp, udp, icmp or a number from 0 to 255'),
    (f"trace {ONE} open from eni-a tcp 10.0.1.10/32 10.0.1.20 1 2", 'word 7, "10.0.1.10/32", is no address: write 10.0.1.10'),
    (f"trace {ONE} open from eni-a tcp 10.0.1.10 10.0.1.020 1 2", 'word 8, "10.0.1.020", is no IPv4 address, such as 10.0.1.10'),
    (f"trace {ONE} open from eni-a tcp 10.0.1.10 10.0.1.20 http 2", 'word 9, "http", is no port: write a number from 0 to 65535'),
    (f"trace {ONE} open from eni-a 47 10.0.1.10 10.0.1.20 0 2", 'word 10, "2", is no port, and this protocol has none: write 0'),
    # files
    ("matrix none.json", "there is no file none.json"),
    ("matrix folder", "folder is a folder"),
    (f"diff {ONE} none.json", "there is no file none.json"),
    (f"check {ONE} {ONE} none.txt", "there is no file none.txt"),
    ("matrix packed.json.gz", "packed.json.gz is compressed by gzip: gzip -dc unpacks it"),
    (f"diff {ONE} packed.json.gz", "packed.json.gz is compressed by gzip: gzip -dc unpacks it"),
    (f"check {ONE} packed.json.gz", "packed.json.gz is compressed by gzip: gzip -dc unpacks it"),
    ("matrix utf-16.json", "utf-16.json is text in UTF-16: save it as UTF-8"),
    ("matrix marked.json", "marked.json begins with a mark of its encoding: save it as UTF-8 without a mark"),
    ("matrix empty.json", "empty.json is empty"),
    ("matrix blank.json", "blank.json is empty"),
    ("matrix table.txt", 'table.txt is no JSON: it begins with "VPCS  10.0.0.0/16", and a bundle with { or ['),
    ("matrix broken.json", "broken.json breaks off: its last letter isn't the end of a JSON object or array"),
    ("matrix two.json", "two.json is not one JSON value: jq . shows where it isn't, and jq -s length how many values there are"),
    ("matrix word.json", "word.json is neither an object nor an array of objects: a bundle is one object with all lists, or an array of such"),
    ("matrix lists.json", "Vpcs of lists.json is missing, or of another kind than the EC2 API prints"),
    (f"diff {ONE} lists.json", "Vpcs of lists.json is missing, or of another kind than the EC2 API prints"),
    ("matrix block.json", "Vpcs[0].CidrBlock of block.json is a text or a number that may not stand there"),
    ("matrix twice.json", "twice.json has two rows of one list with the id vpc-a: it may have an account twice, or answers of two moments"),
    ("matrix lacking.json", "lacking.json has no row vpc-x, which subnet-a names, or not where it has to be: it may have changed while it was collected"),
    # lines
    (f"replay {ONE} lines.txt", f'line 2 of lines.txt, "open eni-a", is no packet of {ONE}: a line is LABEL from END PROTO SRC DST P Q'),
    (f"expect {ONE} rules.txt", f'line 3 of rules.txt, "closed from eni-a to eni-b", is no rule about {ONE}: a line is reachable, blocked or open, and the words of ask behind FILE, without max'),
    (f"expect {ONE} ports.txt", 'line 2 of ports.txt: word 7, "443", is no range: write 443-443'),
    (f"expect {ONE} ends.txt", f'line 1 of ends.txt: word 5, "eni-x", is neither internet nor the id of an interface of {ONE}'),
    (f"expect {ONE} most.txt", f'line 1 of most.txt, "reachable from eni-a to eni-b max 5", is no rule about {ONE}: a line is reachable, blocked or open, and the words of ask behind FILE, without max'),
    (f"replay {ONE} address.txt", 'line 2 of address.txt: word 5, "10.0.1.010", is no IPv4 address, such as 10.0.1.10'),
    (f"flows {ONE} lines.txt", 'line 1 of lines.txt, "open from eni-a tcp 10.0.1.10 10.0.1.20 1 2", is no line of a flow log of version 2 in the default format'),
    (f"check {ONE} lines.txt", 'line 1 of lines.txt, "open from eni-a tcp 10.0.1.10 10.0.1.20 1 2", is not what a report about this has there'),
    (f"check {ONE} {ONE} lines.txt", 'line 1 of lines.txt, "open from eni-a tcp 10.0.1.10 10.0.1.20 1 2", is not what a report about this has there'),
    (f"replay {ONE} windows.txt", r"line 1 of windows.txt ends with a carriage return: tr -d '\r' takes these out"),
    (f"replay {ONE} gap.txt", f"line 1 of gap.txt, which is empty or missing, is no packet of {ONE}: a line is LABEL from END PROTO SRC DST P Q"),
    (f"check {ONE} empty.json", "empty.json is empty"),
    (f"check {ONE} rows.txt", "line 20004 of rows.txt is a row past the 20,000 that are read: ask about a part"),
    (f"check {ONE} tree.txt", "line 200005 of tree.txt is a leaf past the 100,000 that are read: ask about a part"),
    (f"replay {ONE} large.txt", "large.txt is longer than 64 MiB"),
    ("matrix large.txt", "large.txt is longer than 64 MiB: jq -c . takes the blanks out"),
]


def long_report(version):
    """A report of more rows or leaves than are read: by ports, those of sources first."""
    ends = "6-6 10.0.1.10-10.0.1.10 10.0.1.20-10.0.1.20"
    lines, stop = [f"vpc-report {version}", "query from eni-a to eni-b", f"box {ends} 0-65535 0-65535"], "request GroupsIn eni-b -"
    if version == 1:
        lines += [f"row {k} {stop} {ends} {k}-{k} 0-65535" for k in range(1, 20_002)]
    else:
        for side, count in (("p", 65_535), ("q", 34_466)):
            for k in range(1, count + 1):
                lines += [f"cut {side} {k}", f"leaf {stop}"]
    return "\n".join([*lines, ""]).encode()


def write_files(room):
    """The files that the sentences above are about."""
    with open(os.path.join(TOP, "examples", ONE), "rb") as file:
        one = file.read()
    bundle = json.loads(one)
    event = b"open from eni-a tcp 10.0.1.10 10.0.1.20 1 2\n"
    bare = {**bundle, "NetworkInterfaces": [
        {name: value for name, value in it.items() if not name.startswith("PrivateIp")}
        | ({"PrivateIpAddresses": []} if it["NetworkInterfaceId"] == "eni-a" else {"PrivateIpAddress": it["PrivateIpAddress"]})
        for it in bundle["NetworkInterfaces"]
    ]}
    vpc = {"VpcId": "vpc-a", "CidrBlock": "10.0.0.0/16"}
    none = {name: [] for name in bundle}
    files = {
        ONE: one,
        "bare.json": json.dumps(bare).encode(),
        "packed.json.gz": gzip.compress(one),
        "utf-16.json": one.decode().encode("utf-16"),
        "marked.json": b"\xef\xbb\xbf" + one,
        "empty.json": b"",
        "blank.json": b" \n\n",
        "table.txt": b"\nVPCS\t10.0.0.0/16\nSUBNETS\n".replace(b"\t", b"  "),
        "broken.json": one[: len(one) // 2].rstrip(b" \n]}"),
        "two.json": one + one,
        "word.json": b'"all"',
        "lists.json": b'{"Vpcs": "all"}',
        "block.json": json.dumps({**bundle, "Vpcs": [{**bundle["Vpcs"][0], "CidrBlock": "10.0.0.0/33"}]}).encode(),
        "twice.json": json.dumps({**none, "Vpcs": [vpc, vpc]}).encode(),
        "lacking.json": json.dumps({**bundle, "Subnets": [{**bundle["Subnets"][0], "SubnetId": "subnet-a", "VpcId": "vpc-x"}]}).encode(),
        "lines.txt": event + b"open eni-a\n",
        "rules.txt": b"# hosts\n\nclosed from eni-a to eni-b\n",
        "windows.txt": event.replace(b"\n", b"\r\n"),
        "gap.txt": b"\n" + event,
        "ports.txt": b"# web\nreachable from eni-a to eni-b port 443\n",
        "ends.txt": b"open from eni-a to eni-x\n",
        "most.txt": b"reachable from eni-a to eni-b max 5\n",
        "rows.txt": long_report(1),
        "tree.txt": long_report(2),
        "address.txt": event + event.replace(b"10.0.1.10", b"10.0.1.010"),
    }
    with open(os.path.join(TOP, "examples", "shop.json"), "rb") as file:
        files["shop.json"] = file.read()
    for name, text in files.items():
        with open(os.path.join(room, name), "wb") as file:
            file.write(text)
    with open(os.path.join(room, "large.txt"), "wb") as file:
        file.truncate((64 << 20) + 1)
    os.mkdir(os.path.join(room, "folder"))


def checkout(room, program):
    """A folder that has the launcher's list, and the program."""
    top = os.path.join(room, "checkout")
    os.makedirs(os.path.join(top, "out"))
    os.symlink(program, os.path.join(top, "out", "vpc"))
    os.symlink(os.path.join(TOP, "vpc"), os.path.join(top, "vpc"))
    return top


def told(top, folder, words):
    """What the program prints, its status, and what is said of it."""
    ran = subprocess.run([os.path.join(top, "out", "vpc"), *words], cwd=folder, capture_output=True, check=False)
    script = ["sh", os.path.join(TOP, "launcher", "refusals.sh"), str(ran.returncode), top, *words]
    said = subprocess.run(script, cwd=folder, capture_output=True, stdin=subprocess.DEVNULL, check=False)
    return ran.stdout, ran.returncode, said.stdout + said.stderr


def knows(program, command):
    """Whether a command is one of the program's."""
    return subprocess.run([program, command], capture_output=True, check=False).stdout != b"refused words 1\n"


def of_why():
    """What is said of words of `why`: the same as of those of `trace`."""
    rows = [it for it in SENTENCES if isinstance(it[0], str) and it[0].startswith("trace ")]
    return [(f"why {line[6:]}", said.replace("./vpc trace ", "./vpc why ")) for line, said in rows]


class Counts:
    """How many passed and failed."""

    def __init__(self):
        self.passed, self.failed = 0, 0

    def expect(self, what, found, wanted):
        if found == wanted:
            self.passed += 1
        else:
            self.failed += 1
            print(f"FAILED: {what}", f"  wanted: {wanted!r}", f"  found:  {found!r}", sep="\n")


def one_sentence(text):
    """Whether this is one line of visible letters."""
    return re.fullmatch(rb"vpc: [ -~]+\n", text) is not None


def commands():
    """The first words in the launcher's list."""
    with open(os.path.join(TOP, "vpc"), encoding="utf-8") as file:
        return re.findall(r"^([a-z]+) ", file.read().split("\ncommands='\n")[1].split("\n'\n")[0], re.MULTILINE)


def stored_refusals():
    """The command lines of crates/cli_rows that end with a refusal."""
    with open(os.path.join(ROWS, "stdout"), encoding="utf-8") as file:
        lines = file.read().splitlines()
    words = None
    for line in lines:
        if line.startswith("$ ") or line == "$":
            words = line[2:].split(" ") if line[2:] else []
        elif line.startswith("status ") and words is not None:
            if int(line[7:]) in REFUSED:
                yield words
            words = None


def refused_bundles(room):
    """Of tests/bundles/rows.json, some bundles of each refusal."""
    with open(os.path.join(HERE, "bundles", "rows.json"), encoding="utf-8") as file:
        rows = json.load(file)
    kept = {}
    for number, (_, bundle, line) in enumerate(rows):
        if line == "accepted" or not isinstance(bundle, str):
            continue
        of_cause = kept.setdefault(line.split(" ")[2], [])
        if len(of_cause) == 12:
            continue
        of_cause.append(f"row{number}.json")
        with open(os.path.join(room, of_cause[-1]), "wb") as file:
            file.write(bundle.encode("utf-8", "surrogatepass"))
    return [["matrix", it] for of_cause in kept.values() for it in of_cause]


def hostile(room):
    """Words and files that were written to deceive."""
    bad = "x\x1b[31m\r\nvpc: all is well\x07\u009b2J\u202e$(touch ran)`touch ran`'\"*"
    yield ["ask", ONE, "from", bad, "to", "eni-b"]
    yield ["ask", ONE, bad, "eni-a", "to", "eni-b"]
    yield ["ask", ONE, "from", "eni-a", "to", "eni-b", "port", bad]
    yield ["ask", ONE, "from", "eni-a", "to", "eni-b", bad, "1-2"]
    yield ["ask", ONE, "from", "eni-a", "to", "eni-b", "port", "-" + bad]
    yield ["make", bad]
    yield ["make", "1", bad]
    yield ["ask", ONE, "from", "x" * 100000, "to", "eni-b"]
    yield ["ask", ONE, "from", "*", "to", "eni-b"]
    yield ["ask", ONE, "*", "eni-a", "to", "eni-b"]
    yield ["matrix", bad]
    yield ["matrix", "%s%n\\n\\033"]
    name = "y\x1b[31m\nvpc: $(touch ran)'"
    for text in (b"\x1b[31m\r\n`touch ran`\0\xc2\x9b", b"{", b"\x1f\x8b", b'{"Vpcs": "\x1b[2J"}'):
        path = f"{name}{len(text)}"
        with open(os.path.join(room, path), "wb") as file:
            file.write(text)
        yield ["matrix", path]
        yield ["replay", ONE, path]
        yield ["expect", ONE, path]
        yield ["check", ONE, path]
    with open(os.path.join(room, "long"), "wb") as file:
        file.write(b"\x1b[31m" * 100000)
    yield ["replay", ONE, "long"]
    yield ["matrix", "long"]


def main(words):
    program = os.path.abspath(words[0]) if words else os.path.join(TOP, "out", "vpc")
    counts = Counts()
    with tempfile.TemporaryDirectory() as room, concurrent.futures.ThreadPoolExecutor(4) as lanes:
        write_files(room)
        top = checkout(room, program)
        sentences = SENTENCES + (of_why() if knows(program, "why") else [])
        lists = [it.split() if isinstance(it, str) else it for it, _ in sentences]
        for (line, wanted), (text, status, said) in zip(sentences, lanes.map(lambda it: told(top, room, it), lists)):
            counts.expect(f"{line} is refused: {text[:80]!r}", status in REFUSED, True)
            counts.expect(line, said.decode("ascii", "replace"), f"vpc: {wanted}\n" if wanted else "")
        stored = list(stored_refusals())
        counts.expect("there are stored refusals", len(stored) > 300, True)
        for line, (text, _, said) in zip(stored, lanes.map(lambda it: told(top, ROWS, it), stored)):
            # (the launcher itself tells which first words there are)
            wanted = line and line[0] in commands()
            counts.expect(f"one sentence: {line} {text!r} {said!r}", one_sentence(said) if wanted else said == b"", True)
        bundles = refused_bundles(room)
        counts.expect("there are bundles of many refusals", len(bundles) > 80, True)
        for line, (text, status, said) in zip(bundles, lanes.map(lambda it: told(top, room, it), bundles)):
            counts.expect(f"one sentence: {line} {text!r} {said!r}", (status, one_sentence(said)), (3, True))
        deceiving = list(hostile(room))
        for line, (text, status, said) in zip(deceiving, lanes.map(lambda it: told(top, room, it), deceiving)):
            counts.expect(f"hostile: {line!r:.100} {text[:80]!r} {said!r:.300}", (status in REFUSED, one_sentence(said)), (True, True))
            counts.expect(f"hostile: {line!r:.100}: short", len(said) < 400, True)
        counts.expect("nothing was called", os.path.exists(os.path.join(room, "ran")), False)
    print(f"{counts.passed} passed, {counts.failed} failed")
    return 1 if counts.failed else 0


if __name__ == "__main__":
    sys.exit(main(sys.argv[1:]))
