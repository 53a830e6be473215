#!/usr/bin/env python3
"""Times `reach` on large accounts, beside python3's json.load of the same file and the program's own reading of it.

Usage: python3 bench/reach.py [PROGRAM]     (default: the program that ./vpc builds)

Three accounts: that of wide.py, of 20,000 interfaces in 40 VPCs, for questions from the internet, from one host and to one; that of
`accounts.py outside`, of 20,000 interfaces in 10 VPCs with 20 networks that aren't described, for questions from and to these; and one of
480 hosts in 8 VPCs over a transit gateway, some of whose groups take each other, for all to all. 'Beyond reading' is what a question takes
more than `trace` of one packet in the same file. With names of accounts behind PROGRAM (wide, outside, small) those alone are asked about.
"""

import sys

import accounts
import wide
from measuring import loaded, measured, program, written

VPCS, HOSTS = 8, 60


def rules(v, g):
    """HTTPS from its own group and from the same group of the next VPC, SSH from one subnet, all outward."""
    own, other = f"sg-{v}-{g}", f"10.{(v + 1) % VPCS}.{g}.0/24"
    return {
        "GroupId": own,
        "VpcId": f"vpc-{v}",
        "IpPermissions": [
            {"IpProtocol": "tcp", "FromPort": 443, "ToPort": 443, "UserIdGroupPairs": [{"GroupId": own}], "IpRanges": [{"CidrIp": other}]},
            {"IpProtocol": "tcp", "FromPort": 22, "ToPort": 22, "IpRanges": [{"CidrIp": f"10.{v}.0.0/24"}]},
        ],
        "IpPermissionsEgress": [{"IpProtocol": "-1", "IpRanges": [{"CidrIp": "0.0.0.0/0"}]}],
    }


def all_to_all(count):
    """480 hosts, 60 a VPC in 6 groups of 10."""
    whole = {name: [] for name in ("Vpcs", "Subnets", "NetworkInterfaces", "RouteTables", "NetworkAcls", "SecurityGroups", "TransitGatewayVpcAttachments", "TransitGatewayAttachments")}
    routes = [{"DestinationCidrBlock": f"10.{v}.0.0/16", "Type": "propagated", "State": "active", "TransitGatewayAttachments": [{"TransitGatewayAttachmentId": f"att-{v}"}]} for v in range(VPCS)]
    whole["TransitGatewayRoutes"] = [{"TransitGatewayRouteTableId": "tgw-rtb-1", "Routes": routes}]
    for v in range(VPCS):
        whole["Vpcs"].append({"VpcId": f"vpc-{v}", "CidrBlock": f"10.{v}.0.0/16"})
        whole["Subnets"].append({"SubnetId": f"subnet-{v}", "VpcId": f"vpc-{v}", "AvailabilityZone": "z"})
        whole["RouteTables"].append({"RouteTableId": f"rtb-{v}", "VpcId": f"vpc-{v}", "Associations": [{"Main": True}], "Routes": [
            {"DestinationCidrBlock": f"10.{v}.0.0/16", "GatewayId": "local", "State": "active"},
            {"DestinationCidrBlock": "10.0.0.0/8", "TransitGatewayId": "tgw-1", "State": "active"}]})
        whole["NetworkAcls"].append({"NetworkAclId": f"acl-{v}", "Associations": [{"SubnetId": f"subnet-{v}"}], "Entries": [
            {"RuleNumber": 100, "Egress": egress, "Protocol": "-1", "RuleAction": "allow", "CidrBlock": "0.0.0.0/0"} for egress in (False, True)]})
        whole["SecurityGroups"] += [rules(v, g) for g in range(6)]
        whole["NetworkInterfaces"] += [
            {"NetworkInterfaceId": f"eni-{v}-{k}", "SubnetId": f"subnet-{v}", "PrivateIpAddress": f"10.{v}.{k % 6}.{10 + k // 6}", "Groups": [{"GroupId": f"sg-{v}-{k % 6}"}]}
            for k in range(count)
        ]
        whole["TransitGatewayVpcAttachments"].append({"TransitGatewayAttachmentId": f"att-{v}", "TransitGatewayId": "tgw-1", "VpcId": f"vpc-{v}", "SubnetIds": [f"subnet-{v}"], "State": "available"})
        whole["TransitGatewayAttachments"].append({"TransitGatewayAttachmentId": f"att-{v}", "Association": {"TransitGatewayRouteTableId": "tgw-rtb-1"}})
    return whole


def outside(count):
    return accounts.outside(count, lean=True)


# Words of questions about each account.
GATEWAY, PEERING, ATTACHMENT, ENDPOINT, HOST = "vgw-00000000000000000", "pcx-f0000000000000000", "tgw-attach-f0000000000000000", "vpce-00000000000000001", "eni-00000000000000001"
OUTSIDE = [
    f"from {GATEWAY}", f"from {GATEWAY} port 443-443", f"from {GATEWAY} src 192.0.2.0/25", f"from {GATEWAY} to {HOST}", f"from {PEERING}", f"from {ATTACHMENT}", f"from {ATTACHMENT} port 443-443",
    f"from {HOST}", f"from {HOST} to {GATEWAY}", f"to {GATEWAY} port 443-443", f"to {ENDPOINT} port 443-443",
]
WIDE = ["from internet", "from internet port 22-22", "from eni-3-9", "from eni-3-8", "to eni-3-9", "to eni-3-8", "to internet"]
SMALL = ["", "port 443-443", "max 1"]


def told(name, path, packet, questions):
    parsing, _ = loaded(path)
    _, status, _ = wide.once([program(), "trace", path, *packet.split()])
    reading, _ = measured([program(), "trace", path, *packet.split()], status)
    print(f"{name}: json.load {parsing:.2f} s; reading and one walk {reading:.2f} s")
    print("| words | answer | time | beyond reading | of json.load | peak |\n|---|---|---:|---:|---:|---:|")
    for words in questions:
        command = [program(), "reach", path, *words.split()]
        took, status, first = wide.once(command)
        if took is None:
            print(f"| {words} | {first} | | | | |")
            continue
        took, peak = measured(command, status) if took < 5 else (took, 0)
        print(f"| {words} | {first}, status {status} | {took:.2f} s | {took - reading:.2f} s | {took / parsing:.2f} | {peak:.0f} MiB |", flush=True)


def main():
    names = sys.argv[2:] or ["wide", "outside", "small"]
    if "wide" in names:
        path = written(f"wide-{wide.VPCS}.json", wide.account, wide.VPCS)
        told("20,000 interfaces", path, "open from eni-3-9 tcp 10.3.32.5 10.3.32.6 5000 443", WIDE)
    if "outside" in names:
        path = written("outside-20000.json", outside, 20_000)
        told("20,000 interfaces, 20 networks outside", path, f"open from {HOST} tcp 10.0.17.4 192.0.2.7 5000 443", OUTSIDE)
    if "small" in names:
        path = written("all-to-all.json", all_to_all, HOSTS)
        told("480 interfaces", path, "open from eni-0-0 tcp 10.0.0.10 10.0.0.11 0 443", SMALL)


if __name__ == "__main__":
    main()
