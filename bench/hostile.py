"""What shapes cost that somebody chose to be costly: files, reports and events, as whole processes.

Usage: python3 bench/hostile.py [PROGRAM] [PART..]     (without PROGRAM, or with -: the program that ./vpc builds)

The parts are ids, groups, addresses, blocks, lists, ports, sides, reports, events and texts; without them all are run. Each time is a
processor time (user and system), the least of up to three runs, beside that of python3's json.load of the same bundle where that is
long enough to tell. No run may take more than 6 GiB, or it fails.
"""

import json
import os
import resource
import sys

import accounts
from ask import ALL, BETWEEN, row as acl_row, subnets, tcp
from measuring import OUT, TOP, program, written

MANY = 100_000
WALK = "open from eni-0 tcp 10.0.0.0 10.0.0.1 5000 443"
TWO = "open from eni-a tcp 10.0.1.10 10.0.2.20 5000 443"
BEHIND = os.path.join(TOP, "bench", "behind-nat.json")
FAR = "198.51.100.7"


# ---- ids, groups and addresses

def opened(make):
    """What is made, where hosts may send anything."""
    def made(count, *given):
        whole = make(count, *given)
        for group in whole["SecurityGroups"]:
            group["IpPermissionsEgress"] = [ALL]
        return whole

    made.__name__ = make.__name__
    return made


def named(count, spelled):
    """So many interfaces, each with the id that its number is spelled as."""
    whole = accounts.one_vpc(count)
    for k, interface in enumerate(whole["NetworkInterfaces"][2:]):
        interface["NetworkInterfaceId"] = spelled(k)
    return whole


def two_letters(count):
    return named(count, lambda k: "eni-" + "".join("ab"[k >> n & 1] for n in range(17)))


def long_and_alike(count):
    return named(count, lambda k: f"{k:06d}".ljust(256, "x"))


def permuted(count):
    """Ids of the same characters in other orders."""
    def spelled(k):
        left, text = list("0123456789"), ""
        for n in range(10, 0, -1):
            k, at = divmod(k, n)
            text += left.pop(at)
        return "eni-" + text

    return named(count, spelled)


def one_address(count):
    """Interfaces with one address, each in a VPC of its own."""
    whole = {name: [] for name in ("Vpcs", "Subnets", "NetworkInterfaces", "RouteTables", "NetworkAcls", "SecurityGroups")}
    for k in range(count):
        plain = accounts.one_vpc(1)
        for name, rows in whole.items():
            rows += json.loads(json.dumps(plain[name]).replace("vpc-1", f"vpc-{k}").replace("subnet-0", f"subnet-{k}").replace("eni-0", f"eni-{k}")
                               .replace("rtb-1", f"rtb-{k}").replace("acl-1", f"acl-{k}").replace("sg-1", f"sg-{k}"))
    return whole


def same_address(count):
    """Interfaces of one VPC that all have one address: refused at the second."""
    whole = accounts.one_vpc(count)
    for interface in whole["NetworkInterfaces"]:
        interface["PrivateIpAddress"] = "10.0.0.0"
    return whole


def spread(count, stride):
    """Interfaces whose addresses are multiples of one number."""
    whole = accounts.one_vpc(count)
    for k, interface in enumerate(whole["NetworkInterfaces"][2:]):
        interface["PrivateIpAddress"] = accounts.dotted((10 << 24) + (k + 1) * stride)
    return whole


# ---- blocks under each other

def nested(count):
    """Blocks of each length from 1 to 32, each under the one before it, about addresses that are far from one another."""
    chains = -(-count // 32)
    blocks = []
    for c in range(chains):
        address = (c * (2**32 // chains)) | 0x00C0FFEE & (2**32 // chains - 1)
        blocks += [f"{accounts.dotted(address >> 32 - n << 32 - n)}/{n}" for n in range(1, 33)]
    return blocks[:count]


def nested_routes(count):
    return subnets([tcp(443, 443)], routes=[{"DestinationCidrBlock": b, "NetworkInterfaceId": "eni-b", "State": "active"} for b in nested(count)])


def nested_rules(count):
    return subnets([tcp(443, 443, *nested(count))])


def nested_rows(count):
    """Rows of an ACL for nested blocks, the longest first, which refuse and let through in turn; no group lets anything in."""
    blocks = sorted(nested(count), key=lambda b: -int(b.split("/")[1]))
    whole = subnets(acl=[acl_row(k + 1, False, "deny" if int(b.split("/")[1]) % 2 else "allow", block=b) for k, b in enumerate(blocks)])
    whole["NetworkAcls"][1]["Entries"] = [e for e in whole["NetworkAcls"][1]["Entries"] if e["RuleNumber"] < 32_000 or e["Egress"]]
    whole["NetworkInterfaces"][0]["SourceDestCheck"] = False
    return whole


def a_rule_a_source(count):
    """Rules for all ports, each for one source."""
    whole = subnets([{"IpProtocol": "-1", "IpRanges": [{"CidrIp": f"{accounts.dotted((11 << 24) + 1000 * k)}/32"}]} for k in range(count)])
    whole["NetworkInterfaces"][0]["SourceDestCheck"] = False
    return whole


# ---- prefix lists

def routes_to_one_list(count):
    """Routes of one table that all lead to one list, which has as many entries."""
    route = {"DestinationPrefixListId": "pl-1", "NetworkInterfaceId": "eni-b", "State": "active"}
    whole = subnets([tcp(443, 443)], routes=[route] * count)
    whole["PrefixLists"] = [{"PrefixListId": "pl-1", "Cidrs": [f"{accounts.dotted((52 << 24) + 512 * k)}/24" for k in range(count)]}]
    return whole


def tables_to_one_list(count):
    """Tables with a route each to one list, which has as many entries."""
    whole = routes_to_one_list(count)
    first = whole["RouteTables"][0]
    first["Routes"] = first["Routes"][:2]
    whole["RouteTables"] += [dict(first, RouteTableId=f"rtb-x{k}", Associations=[]) for k in range(count)]
    return whole


# ---- ports

def a_rule_a_port(count):
    return subnets([tcp(port, port) for port in range(count)])


def unanswered(count):
    """A rule for each port, and no reply comes back."""
    whole = a_rule_a_port(count)
    whole["NetworkAcls"][1]["Entries"].append(acl_row(1, True, "deny", (0, 65535)))
    return whole


# ---- numbers on several sides, each of which is a piece of its own

def numbers_on(*sides):
    """Rows of ACLs that each refuse one number of a side (src, p or q), or an address more of the receiver (dst), so many on
    each of these sides; no reply comes back."""
    def made(count):
        refused = {
            "src": lambda k: acl_row(k + 1, False, "deny", block=f"{accounts.dotted((11 << 24) + 2 * k)}/32"),
            "q": lambda k: acl_row(10_001 + k, False, "deny", (2 * k, 2 * k)),
            "p": lambda k: acl_row(20_001 + k, True, "deny", (2 * k, 2 * k)),
        }
        whole = subnets([ALL], acl=[refused[side](k) for side in sides if side in refused for k in range(count)])
        whole["NetworkAcls"][1]["Entries"].append(acl_row(31_000, True, "deny"))
        # (replies to other sources go back to the first host)
        whole["NetworkInterfaces"][0]["SourceDestCheck"] = "src" not in sides
        whole["RouteTables"][1]["Routes"].append({"DestinationCidrBlock": "11.0.0.0/8", "NetworkInterfaceId": "eni-a", "State": "active"})
        own = [accounts.dotted((10 << 24) + (2 << 8) + 20 + 2 * k) for k in range(count if "dst" in sides else 1)]
        whole["NetworkInterfaces"][1]["PrivateIpAddresses"] = [{"PrivateIpAddress": a, "Primary": a == own[0]} for a in own]
        return whole

    made.__name__ = "sides-" + "-".join(sides)
    return made


# ---- reports, about bench/behind-nat.json

WHOLE = [(0, 255), (0, 2**32 - 1), (0, 2**32 - 1), (0, 65535), (0, 65535)]


def told(box):
    return " ".join("-".join(accounts.dotted(e) if n in (1, 2) else str(e) for e in side) for n, side in enumerate(box))


def report(boxes):
    rows = [f"row {k + 1} request GroupsIn eni-b - {told(box)}" for k, box in enumerate(boxes)]
    return "\n".join(["vpc-report 1", "query from eni-a to eni-b", f"box {told(WHOLE)}", *rows, f"end {len(rows)}", ""])


def flats(count, kinds):
    """Disjoint boxes, in equal numbers of each kind. A kind is the sides on which its boxes are one number wide; on all others
    they are as long as they can be. Any two kinds have such a side in common, and no number there."""
    boxes, each = [], count // len(kinds)
    for t, thin in enumerate(kinds):
        across = next(m for m in range(1, each + 2) if m ** len(thin) >= each)
        for k in range(each):
            box = list(WHOLE)
            for side in thin:
                k, at = divmod(k, across)
                number = at * len(kinds) + t
                step = max(1, (WHOLE[side][1] + 1) // (across * len(kinds)))
                box[side] = (number * step,) * 2
            boxes.append(box)
    return boxes


STICKS = [(1, 2), (1, 3), (2, 3)]
CUTS = 2_700_000  # in 60 MiB
PLATES = [(a, b, c) for a in range(5) for b in range(a + 1, 5) for c in range(b + 1, 5)]


def same_box(count):
    return report([WHOLE] * count)


def one_overlap(count):
    """Slices of the box side by side, of which the last two share a packet."""
    wide = 2**32 // count
    ends = [(k * wide, k * wide + wide - 1) for k in range(count)]
    ends[-1] = (ends[-1][0] - 1, 2**32 - 1)
    return report([[WHOLE[0], side, *WHOLE[2:]] for side in ends])


def concentric(count):
    """Each box within the one before it."""
    return report([[WHOLE[0], (k, 2**32 - 1 - k), (k, 2**32 - 1 - k), (k, 65535 - k), (k, 65535 - k)] for k in range(count)])


def cuts_alone(count):
    """A tree that is nothing but cuts, each below the one before it."""
    cuts = [f"cut src {accounts.dotted(2**32 - 1 - k)}" for k in range(count)]
    return "\n".join(["vpc-report 2", "query from eni-a to eni-b", f"box {told(WHOLE)}", *cuts, ""])


# ---- events

def one_packet(count):
    return f"open from eni-a tcp 10.0.1.10 {FAR} 5000 443\n" * count


def one_port(count):
    """One host and port, and a destination of its own for each packet."""
    return "".join(f"open from eni-a tcp 10.0.1.10 {accounts.dotted((52 << 24) + k)} 5000 443\n" for k in range(count))


def answers(count):
    """Answers that no open went before, to one port."""
    return f"answer from internet tcp {FAR} 203.0.113.5 443 5000\n" * count


HOSTS = 55_000


def many_hosts(count):
    """So many hosts behind one NAT gateway."""
    with open(BEHIND) as file:
        whole = json.load(file)
    whole["NetworkInterfaces"] += [
        {"NetworkInterfaceId": f"eni-{k}", "SubnetId": "subnet-a", "PrivateIpAddress": accounts.dotted((10 << 24) + (1 << 16) + k), "Groups": [{"GroupId": "sg-a"}]} for k in range(count)
    ]
    whole["Vpcs"][0]["CidrBlock"] = "10.0.0.0/8"
    return whole


def all_on_one_port(count):
    """Each host to one destination from the same port, so that each has to be given another one."""
    return "".join(f"open from eni-{k} tcp {accounts.dotted((10 << 24) + (1 << 16) + k)} {FAR} 1024 443\n" for k in range(count))


APPLIANCES = 20


def long_walk(count):
    """A packet's way through 20 appliances, each in a subnet of its own, with an ACL that has so many other rows each way."""
    whole = subnets([ALL])
    local = {"DestinationCidrBlock": "10.0.0.0/16", "GatewayId": "local", "State": "active"}
    names = [f"subnet-{s}" for s in range(APPLIANCES + 2)]
    whole["Subnets"] = [{"SubnetId": name, "VpcId": "vpc-1", "AvailabilityZone": "z"} for name in names]
    whole["NetworkInterfaces"] = [
        {"NetworkInterfaceId": f"eni-{s}", "SubnetId": name, "PrivateIpAddress": f"10.0.{s}.10", "Groups": [{"GroupId": "sg-b"}, {"GroupId": "sg-a"}], "SourceDestCheck": s in (0, APPLIANCES + 1)}
        for s, name in enumerate(names)
    ]
    whole["RouteTables"] = [{"RouteTableId": "rtb-1", "VpcId": "vpc-1", "Associations": [{"Main": True}], "Routes": [local]}]
    for s, name in enumerate(names[:APPLIANCES]):
        further = {"DestinationCidrBlock": f"10.0.{APPLIANCES + 1}.0/24", "NetworkInterfaceId": f"eni-{s + 1}", "State": "active"}
        whole["RouteTables"].append({"RouteTableId": f"rtb-{s + 2}", "VpcId": "vpc-1", "Associations": [{"Main": False, "SubnetId": name}], "Routes": [local, further]})
    whole["Appliances"] = [{"NetworkInterfaceId": f"eni-{s + 1}", "Kind": "service", "Ports": "443-443"} for s in range(APPLIANCES)]
    others = [acl_row(k + 1, egress, "deny", block=f"11.{k // 256}.{k % 256}.0/24") for egress in (False, True) for k in range(count)]
    whole["NetworkAcls"] = [{"NetworkAclId": "acl-1", "Associations": [{"SubnetId": name} for name in names], "Entries": [*others, acl_row(32000, False), acl_row(32000, True)]}]
    return whole


def through_all(count):
    return "".join(f"open from eni-0 tcp 10.0.0.10 10.0.{APPLIANCES + 1}.10 {1024 + k} 443\n" for k in range(count))


# ---- texts

LIMIT = accounts.LIMIT
TEXTS = [
    ("64 MiB of blanks", lambda: " " * LIMIT, "refused"), ("64 MiB of `[`", lambda: "[" * LIMIT, "refused"), ("one string", lambda: '"' + "x" * (LIMIT - 2) + '"', "refused"),
    ("one number", lambda: "1" * LIMIT, "refused"), ("one fraction", lambda: "[0." + "3" * (LIMIT - 4) + "]", "refused"),
    ("a string of escapes", accounts.TEXTS["escapes"], "accepted"), ("a string of escaped quotes", lambda: '{"Note":"' + '\\"' * ((LIMIT - 11) // 2) + '"}', "accepted"),
    ("JSON nested 122 deep", accounts.TEXTS["deep"], "accepted"), ("JSON nested 127 deep", lambda: accounts.filled('{"Note":[', "[" * 125 + "]" * 125, "]}"), "accepted"),
    ("one member again and again", lambda: accounts.filled("{", '"Note":1', "}"), "accepted"),
    ("members of one object", lambda: "{" + ",".join(f'"{k}":1' for k in range(5_000_000)) + "}", "accepted"),
]


def text_file(name, make, *given):
    """What is made, in a file. A child makes it, as in measuring.written."""
    os.makedirs(OUT, exist_ok=True)
    path = os.path.join(OUT, name)
    child = os.fork()
    if child == 0:
        with open(path, "w", encoding="utf-8") as file:
            file.write(make(*given))
        os._exit(0)
    os.waitpid(child, 0)
    return path


RUNS = 3
LONG = 2.0


def spent(words, codes):
    """The least processor time in seconds of some runs that end with one of these codes, and the greatest peak memory in MiB."""
    times, peaks = [], []
    for _ in range(RUNS):
        child = os.posix_spawn(words[0], words, os.environ, file_actions=[(os.POSIX_SPAWN_OPEN, n, os.devnull, os.O_WRONLY, 0) for n in (1, 2)])
        _, status, usage = os.wait4(child, 0)
        if os.waitstatus_to_exitcode(status) not in codes:
            sys.exit(f"failed with status {os.waitstatus_to_exitcode(status)}: {' '.join(words)}")
        times.append(usage.ru_utime + usage.ru_stime)
        peaks.append(usage.ru_maxrss / 1024)
        if times[0] > LONG:
            break
    return min(times), max(peaks)


def loaded(path):
    """What json.load takes, also where it refuses, less the start of python3."""
    empty, _ = spent([sys.executable, "-c", "import json"], [0])
    took, _ = spent([sys.executable, "-c", f"import json; json.load(open({path!r}))"], [0, 1])
    return took - empty


def line(shape, path, words, code, beside=True):
    took, peak = spent([PROGRAM, *words], [code])
    size = os.path.getsize(path) / 2**20
    theirs = f"{loaded(path) * 1e3:,.0f} ms" if beside and size > 1 else "-"
    print(f"| {shape} | {words[0]} | {size:.1f} MiB | {took * 1e3:,.0f} ms | {theirs} | {peak:,.0f} MiB |", flush=True)


def bundle(shape, make, count, words, code, *given):
    path = written(f"hostile-{make.__name__.strip('<>')}-{'-'.join(map(str, (count, *given)))}.json", lambda n: make(n, *given), count, separators=(",", ":"))
    line(f"{shape}: {count:,}", path, [words.split()[0], path, *words.split()[1:]], code)


def ids():
    for shape, make in (("ids in sequence", accounts.one_vpc), ("ids of 256 characters that differ in the last", accounts.long_ids), ("ids of 256 characters that differ in the first", long_and_alike),
                        ("ids of two letters", two_letters), ("ids of the same characters", permuted)):
        bundle(shape, opened(make), MANY, f"trace {WALK}" if make is not accounts.long_ids else f"trace {WALK}".replace("eni-0", "eni-" + f"{0:0252x}"), 0)


def groups():
    bundle("a rule that names one group so often", opened(accounts.named_by_rule), MANY, f"trace {WALK}", 0)
    bundle("the same, asked", opened(accounts.named_by_rule), MANY, "ask from eni-0 to eni-1", 0)
    bundle("an interface with one group so often", opened(accounts.named_by_one), MANY, f"trace {WALK}", 1)
    bundle("interfaces with one group", opened(accounts.one_vpc), MANY, "ask from eni-0 to eni-1", 0)
    bundle("two groups of so many VPCs each, all at one transit gateway", opened(accounts.associated), MANY // 2, f"trace {WALK}", 0)


def addresses():
    bundle("addresses of one interface", opened(accounts.one_interface), MANY, f"trace {WALK}", 0)
    bundle("interfaces with one address, refused", same_address, MANY, f"trace {WALK}", 3)
    bundle("the same, each in a VPC of its own", one_address, 20_000, f"trace {WALK}", 1)
    for stride in (64, 128):
        bundle(f"addresses that are multiples of {stride}", opened(spread), MANY, f"trace {WALK}", 0, stride)


def blocks():
    bundle("nested routes", nested_routes, MANY - 1, f"trace {TWO}", 0)
    bundle("the same, asked for all destinations", nested_routes, MANY - 1, f"ask {BETWEEN} dst 0.0.0.0/0", 0)
    bundle("nested blocks in a rule", nested_rules, MANY, f"trace {TWO}", 0)
    bundle("nested rows of an ACL", nested_rows, 31_000, f"trace {TWO}", 1)
    for count in (1_000, 2_000, 4_000):
        bundle("nested rows of an ACL, asked for all sources", nested_rows, count, f"ask {BETWEEN} src 0.0.0.0/0 sport 5000-5000 port 443-443", 1)
    for count in (1_000, 2_000, 4_000):
        bundle("a rule for each source, asked for all", a_rule_a_source, count, f"ask {BETWEEN} src 0.0.0.0/0 sport 5000-5000 port 443-443", 1)


def lists():
    for count in (8_000, MANY - 1):
        bundle("routes of one table to one list of as many entries", routes_to_one_list, count, f"trace {TWO}", 0)
    for count in (1_000, 2_000, 4_000):
        bundle("tables with a route to one list of as many entries", tables_to_one_list, count, f"trace {TWO}", 0)


def ports():
    bundle("a rule for each port", a_rule_a_port, 65_536, f"trace {TWO}", 0)
    bundle("the same, asked", a_rule_a_port, 65_536, f"ask {BETWEEN}", 0)
    bundle("a rule for each port and no reply, asked", unanswered, 65_536, f"ask {BETWEEN}", 1)


def sides():
    for named, on, counts in (
        ("q", ("q",), (400, 1_600)), ("q and p", ("q", "p"), (200, 400, 800)), ("src, q and p", ("src", "q", "p"), (16, 32, 64)),
        ("src, dst, q and p", ("src", "dst", "q", "p"), (8, 16, 32)),
    ):
        asked = f"ask {BETWEEN}{' src 11.0.0.0/8' if 'src' in on else ''}{' dst 10.0.2.0/24' if 'dst' in on else ''}"
        for count in counts:
            # (what lies between the numbers of the other sides goes on, to be cut by those of the last)
            parts = (count + 1) ** (len(on) - 1) * (2 * count + 1)
            bundle(f"numbers on {named}, so many on each", numbers_on(*on), count, asked, 1 if parts < 15_000 else 5)
    for count in (200, 400, 800):
        bundle("numbers on q and p, so many on each", numbers_on("q", "p"), count, "matrix", 0)


def reports():
    for shape, make, count, code in (("one box again and again", same_box, 20_000, 1), ("slices, of which the last two overlap", one_overlap, 20_000, 1), ("each within the one before", concentric, 20_000, 1)):
        path = text_file(f"hostile-{make.__name__}.txt", make, count)
        line(f"{shape}: {count:,}", path, ["check", BEHIND, path], code, False)
    for shape, kinds, counts in (("sticks in three directions", STICKS, (2_000, 5_000, 20_000)), ("plates in ten directions", PLATES, (2_000, 5_000, 20_000))):
        for count in counts:
            path = text_file(f"hostile-flats-{count}.txt", lambda n, kinds=kinds: report(flats(n, kinds)), count)
            line(f"{shape}: {count:,}", path, ["check", BEHIND, path], 1, False)
    path = text_file("hostile-cuts.txt", cuts_alone, CUTS)
    line(f"cuts alone: {CUTS:,}", path, ["check", BEHIND, path], 4, False)


def events():
    for shape, make in (("one packet again and again", one_packet), ("one port to as many destinations", one_port), ("answers to nothing", answers)):
        path = text_file(f"hostile-{make.__name__}.txt", make, MANY)
        line(f"{shape}: {MANY:,}", path, ["replay", BEHIND, path], 0, False)
    for count in (HOSTS // 4, HOSTS // 2, HOSTS):
        hosts = written(f"hostile-hosts-{count}.json", many_hosts, count, separators=(",", ":"))
        path = text_file(f"hostile-hosts-{count}.txt", all_on_one_port, count)
        line(f"hosts that all send from one port: {count:,}", path, ["replay", hosts, path], 0, False)
    for count in (0, 16_000):
        way = written(f"hostile-way-{count}.json", long_walk, count, separators=(",", ":"))
        for packets in (1, 1_000):
            path = text_file(f"hostile-way-{packets}.txt", through_all, packets)
            line(f"packets through 20 appliances, {count:,} rows of an ACL each way: {packets:,}", path, ["replay", way, path], 0, False)


def texts():
    for shape, make, answer in TEXTS:
        path = text_file("hostile-text.json", make)
        line(f"{shape}, {answer}", path, ["trace", path, *WALK.split()], 3 if answer == "refused" else 4)


PARTS = (ids, groups, addresses, blocks, lists, ports, sides, reports, events, texts)


def main():
    resource.setrlimit(resource.RLIMIT_AS, (6 * 2**30,) * 2)
    chosen = [part for part in PARTS if part.__name__ in sys.argv[2:] or len(sys.argv) < 3]
    print("| shape | command | file | time | json.load | peak |\n|---|---|---:|---:|---:|---:|")
    for part in chosen:
        part()


if __name__ == "__main__":
    PROGRAM = program() if sys.argv[1:2] != ["-"] else os.path.join(TOP, "out/vpc")
    main()
