"""Times `ask` on networks that are hard to answer for, beside python3's json.load of the same file.

Usage: python3 bench/ask.py [PROGRAM]     (default: the program that ./vpc builds)

A probe is one box of requests that is followed there and back. A report has one row for each; an answer `reachable` took one
more than the boxes before its packet, which isn't told. What a probe takes is the difference to the same file with a query
that is answered by a few probes.
"""

import os
import subprocess

import accounts
from measuring import loaded, measured, program, written

ANYWHERE = "0.0.0.0/0"
ALL = {"IpProtocol": "-1", "IpRanges": [{"CidrIp": ANYWHERE}]}


def tcp(first, last, *blocks):
    return {"IpProtocol": "tcp", "FromPort": first, "ToPort": last, "IpRanges": [{"CidrIp": b} for b in blocks or (ANYWHERE,)]}


def row(number, egress, action="allow", ports=None, block=ANYWHERE):
    """A row of an ACL: all protocols, or TCP with these ports."""
    plain = {"RuleNumber": number, "Egress": egress, "Protocol": "6" if ports else "-1", "RuleAction": action, "CidrBlock": block}
    return dict(plain, PortRange={"From": ports[0], "To": ports[1]}) if ports else plain


def subnets(inward=(), outward=(ALL,), acl=(), routes=()):
    """Two hosts in two subnets of one VPC, with the rules of the second host's and the first host's group, rows of the
    second subnet's ACL, and routes of the first subnet's table."""
    local = {"DestinationCidrBlock": "10.0.0.0/16", "GatewayId": "local", "State": "active"}
    return {
        "Vpcs": [{"VpcId": "vpc-1", "CidrBlock": "10.0.0.0/16"}],
        "Subnets": [{"SubnetId": f"subnet-{s}", "VpcId": "vpc-1", "AvailabilityZone": "z"} for s in "ab"],
        "NetworkInterfaces": [
            {"NetworkInterfaceId": f"eni-{s}", "SubnetId": f"subnet-{s}", "PrivateIpAddress": a, "Groups": [{"GroupId": f"sg-{s}"}]}
            for s, a in (("a", "10.0.1.10"), ("b", "10.0.2.20"))
        ],
        "RouteTables": [
            {"RouteTableId": "rtb-a", "VpcId": "vpc-1", "Associations": [{"Main": False, "SubnetId": "subnet-a"}], "Routes": [local, *routes]},
            {"RouteTableId": "rtb-1", "VpcId": "vpc-1", "Associations": [{"Main": True}], "Routes": [local]},
        ],
        "NetworkAcls": [
            {"NetworkAclId": "acl-a", "Associations": [{"SubnetId": "subnet-a"}], "Entries": [row(100, False), row(100, True)]},
            {"NetworkAclId": "acl-b", "Associations": [{"SubnetId": "subnet-b"}], "Entries": [*acl, row(32000, False), row(32000, True)]},
        ],
        "SecurityGroups": [
            {"GroupId": "sg-a", "VpcId": "vpc-1", "IpPermissions": [], "IpPermissionsEgress": list(outward)},
            {"GroupId": "sg-b", "VpcId": "vpc-1", "IpPermissions": list(inward), "IpPermissionsEgress": []},
        ],
    }


def odd_ports(count):
    """The receiver lets in odd ports, and the sender may ask for even ones: each port is a box of its own."""
    return subnets([tcp(2 * k + 1, 2 * k + 1) for k in range(count)], [tcp(2 * k, 2 * k) for k in range(count)])


def from_sources(whole):
    """The first host may send from any address, and the second's replies are refused."""
    whole["NetworkInterfaces"][0]["SourceDestCheck"] = False
    whole["NetworkAcls"][1]["Entries"].append(row(1, True, "deny", (0, 65535)))
    return whole


def rules_and_rows(count):
    """So many blocks that the group lets in, crossed by as many rows of the ACL that refuse ports."""
    wide = 65536 // count
    return from_sources(subnets([tcp(0, 65535, f"198.51.{2 * k}.0/24") for k in range(count)], acl=[row(k + 1, False, "deny", (k * wide, k * wide + wide // 2)) for k in range(count)]))


def ranges_and_sources(count):
    """So many ranges of ports, each let in from every other one of as many sources."""
    sources = [f"198.51.{k // 128}.{2 * k % 256}/32" for k in range(count)]
    return from_sources(subnets([tcp(10 * k, 10 * k + 4, *sources) for k in range(count)]))


def public_addresses(count):
    """Hosts with a public address each, and no way in: any of them is asked for."""
    whole = accounts.one_vpc(count)
    for k, interface in enumerate(whole["NetworkInterfaces"]):
        own = interface["PrivateIpAddress"]
        interface["PrivateIpAddresses"] = [{"PrivateIpAddress": own, "Association": {"PublicIp": accounts.dotted((52 << 24) + 2 * k)}}]
    whole["InternetGateways"] = [{"InternetGatewayId": "igw-1", "Attachments": [{"State": "available", "VpcId": "vpc-1"}]}]
    return whole


def routes(count):
    """A table with routes for single addresses, of which the query asks for none."""
    return subnets([tcp(443, 443)], routes=[{"DestinationCidrBlock": accounts.dotted((11 << 24) + k) + "/32", "NetworkInterfaceId": "eni-b", "State": "active"} for k in range(count)])


def references(count):
    """So many rules, each for a port of its own, that name one group with 95,000 members."""
    whole = accounts.one_vpc(95_000)
    whole["SecurityGroups"] = [
        {"GroupId": "sg-1", "VpcId": "vpc-1", "IpPermissions": [{"IpProtocol": "tcp", "FromPort": 7 * k, "ToPort": 7 * k, "UserIdGroupPairs": [{"GroupId": "sg-1"}]} for k in range(count)], "IpPermissionsEgress": []}
    ]
    return whole


def of_account(k, v=0):
    """The id of an interface of an account, by its number in its VPC."""
    return accounts.hexed("eni", v * accounts.PER_VPC + k)


BETWEEN = "from eni-a to eni-b"
CASES = [
    ("two hosts, one port open", lambda n: subnets([tcp(443, 443)]), 1, BETWEEN, 0),
    ("rules for odd ports, even ones asked", odd_ports, 9_999, BETWEEN, 1),
    ("rules crossed by ACL rows", rules_and_rows, 70, f"{BETWEEN} src 198.51.0.0/16", 1),
    ("port ranges by sources", ranges_and_sources, 300, f"{BETWEEN} src 198.51.0.0/16", 5),
    ("public addresses, any asked", public_addresses, 9_900, "from internet to eni-0 src 8.8.8.8/32", 1),
    ("an account, in one VPC", accounts.account, 10_000, f"from {of_account(1)} to {of_account(2)}", 0),
    ("an account, over a transit gateway", accounts.account, 10_000, f"from {of_account(1)} to {of_account(2, 2)}", 1),
    ("an account, to the internet", accounts.account, 10_000, f"from {of_account(1)} to internet dst 198.51.100.0/24", 0),
    ("routes of a table", routes, 99_990, BETWEEN, 0),
    ("rules that name 95,000 members", references, 1_000, "from eni-0 to eni-9", 1),
    # (which older programs stop)
    ("an account, by a group that is named over a transit gateway", accounts.joined, 10_000, f"from {of_account(1, 2)} to {of_account(2)} port 8443-8443", 0),
]


def rows_of(words):
    """How many rows were printed, none where a packet got through."""
    text = subprocess.run(words, stdout=subprocess.PIPE, check=False).stdout.decode()
    return sum(line.startswith("row ") for line in text.splitlines())


def main():
    print("| network | file | ask | json.load | ratio | rows | a row beyond a few | peak |")
    print("|---|---:|---:|---:|---:|---:|---:|---:|")
    for name, made, count, query, code in CASES:
        path = written(f"ask-{made.__name__.strip('<>')}-{count}.json", made, count)
        words = [program(), "ask", path, *query.split()]
        ours, peak = measured(words, code)
        few = [program(), "ask", path, *query.split()[:4], *"proto 50 dst 203.0.113.1/32".split()]
        once, _ = measured(few, 1)
        rows = rows_of(words) - rows_of(few)
        theirs, _ = loaded(path)
        each = f"{(ours - once) / rows * 1e6:.1f} µs" if rows > 1 else "-"
        size = os.path.getsize(path) / 2**20
        # What python3 takes to start is left out of its time, and is more than a small file takes.
        beside = f"{theirs * 1e3:.1f} ms | {ours / theirs:.2f}" if size > 0.1 else "- | -"
        print(f"| {name}: {count:,} | {size:.1f} MiB | {ours * 1e3:.1f} ms | {beside} | {max(rows, 0):,} | {each} | {peak:.0f} MiB |")
    took, peak = measured([program(), "make", "50"])
    print(f"\n`make 50`: {took * 1e3:.1f} ms, {peak:.0f} MiB")


if __name__ == "__main__":
    main()
