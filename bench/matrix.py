#!/usr/bin/env python3
"""Times `matrix` on networks of up to 500 hosts.

Usage: python3 bench/matrix.py [PROGRAM [OTHER]]     (default: the program that ./vpc builds)

Wall times of whole processes, which print to nowhere, and what is left of them for a pair beside `trace` of the same file. With
OTHER, the times of a second program stand beside those of the first, and their answers are compared. The networks:

- that of `make 50`: a VPC a host, all on one transit gateway, and 100 ports open at each
- three tiers of one account: 480 hosts in one VPC of nine subnets, by groups that name each other; ACLs of a few rows
- an account of 500 hosts in one VPC (accounts.py): groups of 20 rules by references, blocks and prefix lists
- ten VPCs over a transit gateway with 50 hosts each: 100 groups of 60 rules, ACLs of a few rows
- one VPC with 400 groups of 60 rules, each of which lets the whole VPC in to ports of its own; each host is in two of them
"""

import hashlib
import subprocess
import sys

import accounts
import wide
from measuring import measured, program, written

ANYWHERE = "0.0.0.0/0"
OPEN = {"IpProtocol": "-1", "IpRanges": [{"CidrIp": ANYWHERE}]}


def tcp(first, last, **who):
    return {"IpProtocol": "tcp", "FromPort": first, "ToPort": last, **who}


def entry(number, egress, ports=None, action="allow", block=ANYWHERE):
    row = {"RuleNumber": number, "Egress": egress, "Protocol": "6" if ports else "-1", "RuleAction": action, "CidrBlock": block}
    return {**row, "PortRange": {"From": ports[0], "To": ports[1]}} if ports else row


def made(count):
    """The network of `make`."""
    whole = {name: [] for name in "Vpcs Subnets NetworkInterfaces RouteTables NetworkAcls SecurityGroups TransitGatewayVpcAttachments TransitGatewayAttachments".split()}
    for k in range(1, count + 1):
        whole["Vpcs"].append({"VpcId": f"vpc-{k}", "CidrBlock": f"10.{k}.0.0/16"})
        whole["Subnets"].append({"SubnetId": f"subnet-{k}", "VpcId": f"vpc-{k}", "AvailabilityZone": "z"})
        whole["NetworkInterfaces"].append({"NetworkInterfaceId": f"eni-{k}", "SubnetId": f"subnet-{k}", "PrivateIpAddress": f"10.{k}.1.10", "Groups": [{"GroupId": f"sg-{k}"}]})
        ways = [{"DestinationCidrBlock": f"10.{k}.0.0/16", "GatewayId": "local"}, {"DestinationCidrBlock": "10.0.0.0/8", "TransitGatewayId": "tgw-1"}]
        whole["RouteTables"].append({"RouteTableId": f"rtb-{k}", "VpcId": f"vpc-{k}", "Associations": [{"Main": True}], "Routes": ways})
        whole["NetworkAcls"].append({"NetworkAclId": f"acl-{k}", "Associations": [{"SubnetId": f"subnet-{k}"}], "Entries": [entry(100, False), entry(100, True)]})
        rules = [tcp(100 * j + k, 100 * j + k, IpRanges=[{"CidrIp": ANYWHERE}]) for j in range(100)]
        whole["SecurityGroups"].append({"GroupId": f"sg-{k}", "VpcId": f"vpc-{k}", "IpPermissions": rules, "IpPermissionsEgress": [OPEN]})
        whole["TransitGatewayVpcAttachments"].append(
            {"TransitGatewayAttachmentId": f"att-{k}", "TransitGatewayId": "tgw-1", "VpcId": f"vpc-{k}", "SubnetIds": [f"subnet-{k}"], "State": "available"})
        whole["TransitGatewayAttachments"].append({"TransitGatewayAttachmentId": f"att-{k}", "Association": {"TransitGatewayRouteTableId": "tgw-rtb-1", "State": "associated"}})
    ways = [{"DestinationCidrBlock": f"10.{k}.0.0/16", "State": "active", "Type": "propagated", "TransitGatewayAttachments": [{"TransitGatewayAttachmentId": f"att-{k}"}]}
            for k in range(1, count + 1)]
    whole["TransitGatewayRoutes"] = [{"TransitGatewayRouteTableId": "tgw-rtb-1", "Routes": ways}]
    return whole


TIERS = ("web", "app", "db")


def group(name, inward):
    return {"GroupId": f"sg-{name}", "VpcId": "vpc-1", "IpPermissions": inward, "IpPermissionsEgress": [OPEN]}


def of(name):
    return {"UserIdGroupPairs": [{"GroupId": f"sg-{name}"}]}


def three_tiers(count):
    """So many hosts, a third in each tier; a tier has a subnet and a table in each of three zones, and an ACL."""
    whole = {"Vpcs": [{"VpcId": "vpc-1", "CidrBlock": "10.0.0.0/16"}], "Subnets": [], "NetworkInterfaces": [], "RouteTables": [], "NetworkAcls": []}
    local = {"DestinationCidrBlock": "10.0.0.0/16", "GatewayId": "local"}
    whole["RouteTables"].append({"RouteTableId": "rtb-main", "VpcId": "vpc-1", "Associations": [{"Main": True}], "Routes": [local]})
    for t, tier in enumerate(TIERS):
        subnets = [f"subnet-{tier}-{zone}" for zone in "abc"]
        for z, name in enumerate(subnets):
            whole["Subnets"].append({"SubnetId": name, "VpcId": "vpc-1", "AvailabilityZone": f"zone-{z}"})
            whole["RouteTables"].append({"RouteTableId": f"rtb-{tier}-{z}", "VpcId": "vpc-1", "Associations": [{"SubnetId": name}], "Routes": [local]})
        rows = [entry(90, False, (3389, 3389), "deny"), entry(100, False, (1, 1023)), entry(110, False, (1024, 65535)), entry(100, True)]
        whole["NetworkAcls"].append({"NetworkAclId": f"acl-{tier}", "Associations": [{"SubnetId": name} for name in subnets], "Entries": rows})
        for k in range(count // 3):
            groups = [{"GroupId": f"sg-{tier}"}, {"GroupId": "sg-all"}] + [{"GroupId": "sg-watch"}] * (k % 40 == 0)
            whole["NetworkInterfaces"].append(
                {"NetworkInterfaceId": f"eni-{tier}-{k}", "SubnetId": subnets[k % 3], "PrivateIpAddress": f"10.0.{16 * t + k % 3}.{4 + k // 3}", "Groups": groups})
    public = [tcp(80, 80, IpRanges=[{"CidrIp": ANYWHERE}]), tcp(443, 443, IpRanges=[{"CidrIp": ANYWHERE}])]
    apps = [tcp(8080, 8080, **of("web")), tcp(8443, 8443, **of("web")), tcp(9000, 9010, **of("app"))]
    data = [tcp(5432, 5432, **of("app")), tcp(6379, 6379, **of("app")), tcp(5432, 5433, **of("db"))]
    watched = [tcp(22, 22, IpRanges=[{"CidrIp": "10.0.200.0/24"}]), tcp(9100, 9100, **of("watch"))]
    whole["SecurityGroups"] = [group("web", public), group("app", apps), group("db", data), group("all", watched), group("watch", [tcp(3000, 3000, **of("watch"))])]
    return whole


def in_one_vpc(count):
    """An account of so many hosts; its NAT gateway has one interface more."""
    return accounts.account(count + 1)


def over_transit(count):
    """Ten VPCs of the account that wide.py asks, with fewer hosts."""
    wide.HOSTS = count // 10
    return wide.account(10)


def many_ranges(count):
    """So many hosts in one VPC, each in two of 400 groups with 60 ranges of ports for all of the VPC."""
    whole = {"Vpcs": [{"VpcId": "vpc-1", "CidrBlock": "10.0.0.0/16"}], "Subnets": [], "NetworkInterfaces": [], "RouteTables": [], "NetworkAcls": []}
    local = {"DestinationCidrBlock": "10.0.0.0/16", "GatewayId": "local"}
    whole["RouteTables"].append({"RouteTableId": "rtb-main", "VpcId": "vpc-1", "Associations": [{"Main": True}], "Routes": [local]})
    whole["Subnets"] = [{"SubnetId": f"subnet-{s}", "VpcId": "vpc-1", "AvailabilityZone": "zone-0"} for s in range(10)]
    whole["NetworkAcls"].append({"NetworkAclId": "acl-1", "Associations": [{"SubnetId": f"subnet-{s}"} for s in range(10)], "Entries": [entry(100, False), entry(100, True)]})
    for k in range(count):
        groups = [{"GroupId": f"sg-{k % 400}"}, {"GroupId": f"sg-{(7 * k + 1) % 400}"}]
        whole["NetworkInterfaces"].append({"NetworkInterfaceId": f"eni-{k}", "SubnetId": f"subnet-{k % 10}", "PrivateIpAddress": f"10.0.{k // 200}.{4 + k % 200}", "Groups": groups})
    firsts = [[1000 + (61 * g + 977 * r) % 60000 for r in range(60)] for g in range(400)]
    whole["SecurityGroups"] = [group(g, [tcp(first, first + r % 20, IpRanges=[{"CidrIp": "10.0.0.0/16"}]) for r, first in enumerate(its)]) for g, its in enumerate(firsts)]
    return whole


NETWORKS = [
    ("the network of `make 50`", made, 50, "eni-1 tcp 10.1.1.10 10.2.1.10"),
    ("three tiers", three_tiers, 480, "eni-web-0 tcp 10.0.0.4 10.0.16.4"),
    ("an account in one VPC", in_one_vpc, 500, f"{accounts.hexed('eni', 0)} tcp 10.0.1.4 10.0.17.4"),
    ("ten VPCs over a transit gateway", over_transit, 500, "eni-0-0 tcp 10.0.0.4 10.1.0.4"),
    ("one VPC, 400 groups of 60 ranges", many_ranges, 500, "eni-0 tcp 10.0.0.4 10.0.0.5"),
]


def answer(words):
    return subprocess.run(words, stdout=subprocess.PIPE, check=True).stdout


def traced(path, packet):
    """The time of a trace, however it ends."""
    words = [program(), "trace", path, "open", "from", *packet.split(), "5000", "443"]
    code = subprocess.run(words, stdout=subprocess.DEVNULL, check=False).returncode
    return measured(words, code)[0]


def main():
    others = sys.argv[2:3]
    print("| network | hosts | pairs | open | file | text | trace | matrix | a pair | peak |" + " other | same |" * len(others))
    print("|---|" + "---:|" * (9 + 2 * len(others)))
    for name, make, count, packet in NETWORKS:
        path = written(f"matrix-{make.__name__}-{count}.json", make, count)
        words = ["matrix", path]
        text = answer([program(), *words])
        pairs, opened = text.count(b"pair "), text.count(b" open ")
        took, peak = measured([program(), *words])
        once = traced(path, packet)
        size = len(open(path, "rb").read()) / 2**20
        row = f"| {name} | {count} | {pairs:,} | {opened:,} | {size:.1f} MiB | {len(text) / 2**20:.1f} MiB | {once * 1e3:.0f} ms | {took:.2f} s | {(took - once) / pairs * 1e6:.1f} µs | {peak:.0f} MiB |"
        for other in others:
            same = hashlib.sha256(answer([other, *words])).digest() == hashlib.sha256(text).digest()
            row += f" {measured([other, *words])[0]:.2f} s | {'yes' if same else 'NO'} |"
        print(row, flush=True)


if __name__ == "__main__":
    main()
