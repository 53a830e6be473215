#!/usr/bin/env python3
"""Counts what the look-ups of a network cost in the program, and prints tables in Markdown.

Usage: python3 bench/lookups.py [PROGRAM]     (default: the program that ./vpc builds)

Instructions, counted by valgrind. A look-up is made by every command that walks: what its making takes is `replay` of one
packet, less `trace` from an END that is no interface, which reads and accepts alone; and less the same of a bundle with a few rows.
What asking takes is `replay` of many packets less that of one, by their number, and less the same on the few rows. Both
print the same, else it ends: so the walks are the same, and what is left is the look-up among so many rows.

A session's packets are compared with one of them that is sent as often.
"""

import subprocess
import sys
from functools import cache

import accounts
from ask import ANYWHERE, row, subnets, tcp
from instructions import BEHIND, counted, told
from measuring import measured, program, written

SIZES = [1_000, 10_000, 99_990]  # a list may have 100,000 rows, and some have others besides
FEW = 10
TIMES = 10_000
TRIED = 10_000_000  # at most so many rows are tried by a run, where each packet tries all
ASKED = range(0, 100_000, 10_000)  # of the hosts: each bundle has them
OWN, OTHER, FAR = "10.0.1.10", "10.0.2.20", "198.51.100.7"
TO_OTHER = {"NetworkInterfaceId": "eni-b", "State": "active"}


class Numbers:
    """Numbers that look random and are the same in each run."""

    def __init__(self):
        self.state = 7

    def next(self, below):
        self.state = (self.state * 6364136223846793005 + 1442695040888963407) % 2**64
        return (self.state >> 33) % below


def blocks(n, lengths):
    """n different blocks of 11.0.0.0/8."""
    numbers, seen = Numbers(), {}
    while len(seen) < n:
        length = lengths[numbers.next(len(lengths))]
        first = (11 << 24) + (numbers.next(1 << (length - 8)) << (32 - length))
        seen[f"{accounts.dotted(first)}/{length}"] = True
    return list(seen)


FLAT, NESTED = [26], list(range(9, 31))


def address(first, k):
    """An address of number k, as long a text as every other one."""
    return f"{first}.{100 + k // 22500}.{100 + k // 150 % 150}.{100 + k % 150}"


# ---- bundles of n rows; in each of them every packet ends alike, whatever row it meets

def routes(n, lengths):
    reaches = [*blocks(n, lengths), ANYWHERE]
    return subnets(routes=[{"DestinationCidrBlock": b, **TO_OTHER} for b in reaches])


def flat_routes(n):
    return routes(n, FLAT)


def nested_routes(n):
    return routes(n, NESTED)


def listed(whole, n):
    """The same with a prefix list of n blocks."""
    entries = [{"Cidr": b} for b in blocks(n, NESTED)]
    return dict(whole, PrefixLists=[{"PrefixListId": "pl-1"}], PrefixListEntries=[{"PrefixListId": "pl-1", "Entries": entries}])


def list_route(n):
    return listed(subnets(routes=[{"DestinationPrefixListId": "pl-1", **TO_OTHER}, {"DestinationCidrBlock": ANYWHERE, **TO_OTHER}]), n)


def list_rule(n):
    return listed(subnets([dict(tcp(0, 65535), IpRanges=[], PrefixListIds=[{"PrefixListId": "pl-1"}])]), n)


def attached(v):
    """The second VPC's rows, or the first one's, at a transit gateway."""
    ids = {"TransitGatewayAttachmentId": f"tgw-attach-{v}", "TransitGatewayId": "tgw-1", "State": "available"}
    where = {"ResourceType": "vpc", "ResourceId": f"vpc-{v}", "Association": {"TransitGatewayRouteTableId": "tgw-rtb-1", "State": "associated"}}
    return dict(ids, VpcId=f"vpc-{v}", SubnetIds=["subnet-a" if v == 1 else "subnet-c"]), dict(ids, **where)


def transit(n):
    whole = subnets(routes=[{"DestinationCidrBlock": ANYWHERE, "TransitGatewayId": "tgw-1", "State": "active"}])
    whole["Vpcs"].append({"VpcId": "vpc-2", "CidrBlock": "10.1.0.0/16"})
    whole["Subnets"].append({"SubnetId": "subnet-c", "VpcId": "vpc-2", "AvailabilityZone": "z"})
    whole["RouteTables"].append({"RouteTableId": "rtb-2", "VpcId": "vpc-2", "Associations": [{"Main": True}], "Routes": []})
    whole["NetworkAcls"][0]["Associations"].append({"SubnetId": "subnet-c"})
    whole["TransitGatewayVpcAttachments"], whole["TransitGatewayAttachments"] = map(list, zip(attached(1), attached(2)))
    target = {"TransitGatewayAttachments": [{"TransitGatewayAttachmentId": "tgw-attach-2", "ResourceType": "vpc", "ResourceId": "vpc-2"}]}
    told_routes = [{"DestinationCidrBlock": b, "Type": "static", "State": "active", **target} for b in [*blocks(n, NESTED), ANYWHERE]]
    whole["TransitGatewayRoutes"] = [{"TransitGatewayRouteTableId": "tgw-rtb-1", "Routes": told_routes}]
    return whole


def acl_rows(n):
    numbers = Numbers()
    return subnets(acl=[row(k % 31_000 + 1, False, ports=[numbers.next(65536)] * 2, block=b) for k, b in enumerate(blocks(n, [24, 28]))])


def port_rules(n):
    """Rules for a port each, none for the sender."""
    numbers = Numbers()
    return subnets([tcp(port, port, "11.0.0.0/8") for port in (numbers.next(65536) for _ in range(n))])


def wide_rules(n):
    """Rules for all ports, none for the sender: each packet tries them all."""
    return subnets([tcp(0, 65535, b) for b in blocks(n, [28, 30])])


def hosts(n):
    whole = subnets()
    whole["Vpcs"][0]["CidrBlock"] = "10.0.0.0/8"
    whole["RouteTables"][0]["Routes"][0]["DestinationCidrBlock"] = "10.0.0.0/8"
    whole["NetworkInterfaces"] += [{"NetworkInterfaceId": f"eni-{k}", "SubnetId": "subnet-b", "PrivateIpAddress": address(10, k),
                                    "Groups": [{"GroupId": "sg-b"}]} for k in sorted({*range(n), *ASKED})]
    return whole


def public_hosts(n):
    """The same, with a public address each; the first host may send from all of their addresses."""
    whole = hosts(n)
    for interface in whole["NetworkInterfaces"][2:]:
        own = interface["PrivateIpAddress"]
        interface["PrivateIpAddresses"] = [{"PrivateIpAddress": own, "Association": {"PublicIp": own.replace("10", "52", 1)}}]
    whole["NetworkInterfaces"][0]["SourceDestCheck"] = False
    whole["InternetGateways"] = [{"InternetGatewayId": "igw-1", "Attachments": [{"State": "available", "VpcId": "vpc-1"}]}]
    whole["RouteTables"][0]["Routes"].append({"DestinationCidrBlock": ANYWHERE, "GatewayId": "igw-1", "State": "active"})
    return whole


# ---- packets

def opens(source, destination, port):
    return f"open from eni-a tcp {source} {destination} 40000 {port}"


def to_blocks(count):
    numbers = Numbers()
    return [opens(OWN, address(11, numbers.next(150**3)), 443) for _ in range(count)]


def to_ports(count):
    numbers = Numbers()
    return [opens(OWN, OTHER, 10_000 + numbers.next(55_536)) for _ in range(count)]


def to_hosts(count):
    return [opens(OWN, address(10, ASKED[k % len(ASKED)]), 443) for k in range(count)]


def from_hosts(count):
    return [opens(address(10, ASKED[k % len(ASKED)]), FAR, 443) for k in range(count)]


LOOKUPS = [("routes, one beside the other", flat_routes, to_blocks, False), ("routes, nested", nested_routes, to_blocks, False),
           ("a route's prefix list", list_route, to_blocks, False), ("a rule's prefix list", list_rule, to_ports, False),
           ("transit gateway routes, nested", transit, to_blocks, False), ("hosts, by private address", hosts, to_hosts, False),
           ("public addresses", public_hosts, from_hosts, False), ("rules, a port each", port_rules, to_ports, False),
           ("rules for all ports", wide_rules, to_ports, True), ("ACL rows", acl_rows, to_ports, True)]


def printed(words):
    return subprocess.run([program(), *words], stdout=subprocess.PIPE, check=False).stdout


def replayed(path, name, lines):
    return ["replay", path, told(f"lookups-{name}-{len(lines)}.txt", lines)]


def nowhere(path):
    return ["trace", path, *f"open from eni-nowhere tcp {OWN} {FAR} 40000 443".split()]


@cache
def costs(make, n, ask, times):
    """The millions of instructions that making the look-ups takes, with one packet, the thousands of one more, and what is printed."""
    path = written(f"lookups-{make.__name__}-{n}.json", make, n)
    lines = ask(times)
    many, one = replayed(path, ask.__name__, lines), replayed(path, ask.__name__, lines[:1])
    first = counted(program(), one)
    return first - counted(program(), nowhere(path)), (counted(program(), many) - first) / (times - 1) * 1e3, printed(many)


def network_rows():
    for name, make, ask, tries in LOOKUPS:
        for n in SIZES:
            times = min(TIMES, TRIED // n) if tries else TIMES
            made, asked, text = costs(make, n, ask, times)
            made_few, asked_few, text_few = costs(make, FEW, ask, times)
            if text != text_few or text.startswith(b"refused"):
                sys.exit(f"{name}, {n}: other answers than by a few rows")
            more = max(made - made_few, 0)
            yield name, n, more, more / n * 1e6, asked_few, asked - asked_few


# ---- sessions

def of_host(host, source, ports):
    return [f"open from {host} tcp {source} {FAR} {port} 443" for port in ports]


def connections(ports):
    return [*(f"open from eni-a tcp {OWN} {OTHER} {port} 443" for port in ports),
            *(f"answer from eni-b tcp {OTHER} {OWN} 443 {port}" for port in ports)]


def translated(ports):
    return of_host("eni-a", OWN, ports)


def colliding(ports):
    return [*of_host("eni-a", OWN, ports), *of_host("eni-b", OTHER, ports)]


SESSIONS = [("connections and their answers", connections, 2), ("NAT, ports of their own", translated, 1), ("NAT, two hosts on the same ports", colliding, 2)]


def of_each(name, lines, once):
    """The thousands of instructions of a packet beyond those of one alone."""
    return (counted(program(), replayed(BEHIND, name, lines)) - once) / (len(lines) - 1) * 1e3


def session_rows():
    for name, make, packets in SESSIONS:
        once = counted(program(), replayed(BEHIND, make.__name__, make([10_000])[:1]))
        for n in (550, 5_500, 55_000):
            count = n // packets
            same = of_each(make.__name__ + "-same", make([10_000] * count), once)
            yield name, n, same, of_each(make.__name__, make(range(10_000, 10_000 + count)), once) - same


# ---- whole accounts

def whole(n):
    """An account of n interfaces, with twice as many permissions and n routes in its first table."""
    d = accounts.account(n, True)
    groups = d["SecurityGroups"]
    many = 2 * n // len(groups)
    for group in groups:
        rules = group["IpPermissions"]
        group["IpPermissions"] = (rules * (many // len(rules) + 1))[:many]
    d["RouteTables"][0]["Routes"] += [
        {"DestinationCidrBlock": f"{accounts.dotted((11 << 24) + k)}/32", "GatewayId": "local"} for k in range(n - 10)]
    return d


def account_rows():
    for n in (25_000, 50_000, 100_000):
        path = written(f"whole-{n}.json", whole, n, separators=(",", ":"))
        walk = ["trace", path, *f"open from {accounts.hexed('eni', 1)} tcp 10.0.17.4 {FAR} 40000 443".split()]
        reading = counted(program(), nowhere(path))
        peaks = [measured([program(), *words], code)[1] for words, code in ((nowhere(path), 4), (walk, 0))]
        yield n, counted(program(), walk) - reading, reading, *peaks


def main():
    print("| Look-up | rows | made in | a row | a packet, a few rows | more of a packet |\n|---|---:|---:|---:|---:|---:|")
    for name, n, made, of_row, few, more in network_rows():
        print(f"| {name} | {n:,} | {made:,.1f} M | {of_row:,.0f} | {few:.1f} k | {more:,.2f} k |", flush=True)
    print("\n| Session | packets | one packet again and again, each | more of each |\n|---|---:|---:|---:|")
    for name, n, same, more in session_rows():
        print(f"| {name} | {n:,} | {same:.1f} k | {more:.1f} k |", flush=True)
    print("\n| Interfaces | all look-ups, a walk | read in | peak without | peak with |\n|---:|---:|---:|---:|---:|")
    for n, made, reading, before, after in account_rows():
        print(f"| {n:,} | {made:,.0f} M | {reading:,.0f} M | {before:.0f} MiB | {after:.0f} MiB |", flush=True)


if __name__ == "__main__":
    main()
