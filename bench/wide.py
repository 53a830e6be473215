#!/usr/bin/env python3
"""Times wide questions on a large account, as ratios to a trace of the same file.

Usage: python3 bench/wide.py [PROGRAM [OTHER]]     (default: the program that ./vpc builds)

The account: 40 VPCs over a transit gateway, each with an internet gateway, 8 subnets and 500 interfaces, 14 of them with a
public address; 400 groups of 60 rules, by blocks, references and six prefix lists of 200 blocks. With OTHER, the answers and
the times of a second program stand beside those of the first. A question is given up after 200 s.
"""

import subprocess
import sys
import time

import accounts
from measuring import measured, program, written

VPCS, SUBNETS, HOSTS, PUBLIC, GROUPS, RULES = 40, 8, 500, 14, 10, 60
LISTS, BLOCKS = 6, 200
ANYWHERE = "0.0.0.0/0"
MOST = 200


def rule(ports, **who):
    return {"IpProtocol": "tcp", "FromPort": ports[0], "ToPort": ports[1], **who}


def rules_of(v, g):
    """Sixty inbound rules of a group: a third by blocks, a third by groups, the others by prefix lists."""
    told = []
    for k in range(RULES):
        port = 1000 + 37 * k + g
        if k % 3 == 0:
            who = {"IpRanges": [{"CidrIp": f"10.{(v + k) % VPCS}.{k % 8 * 32}.0/19"}, {"CidrIp": f"198.51.{k}.0/24"}]}
        elif k % 3 == 1:
            who = {"UserIdGroupPairs": [{"GroupId": f"sg-{v}-{(g + k) % GROUPS}"}]}
        else:
            who = {"PrefixListIds": [{"PrefixListId": f"pl-{k % LISTS}"}]}
        told.append(rule((port, port + k % 5), **who))
    return told


def hosts_of(v):
    told = []
    for k in range(HOSTS):
        own = f"10.{v}.{k % SUBNETS * 32 + k // 250}.{k // SUBNETS % 250 + 4}"
        addresses = {"PrivateIpAddress": own, "Primary": True}
        if k < PUBLIC * SUBNETS and k % SUBNETS == 0:
            addresses["Association"] = {"PublicIp": accounts.dotted((52 << 24) + (v << 8) + k)}
        told.append(
            {
                "NetworkInterfaceId": f"eni-{v}-{k}",
                "SubnetId": f"subnet-{v}-{k % SUBNETS}",
                "PrivateIpAddress": own,
                "PrivateIpAddresses": [addresses],
                "Groups": [{"GroupId": f"sg-{v}-{k % GROUPS}"}],
            }
        )
    return told


def routes_of(v, is_public):
    told = [
        {"DestinationCidrBlock": f"10.{v}.0.0/16", "GatewayId": "local", "State": "active"},
        {"DestinationCidrBlock": "10.0.0.0/8", "TransitGatewayId": "tgw-1", "State": "active"},
    ]
    return told + [{"DestinationCidrBlock": ANYWHERE, "GatewayId": f"igw-{v}", "State": "active"}] * is_public


def entries():
    """An ACL as many have it: some blocks are refused, ports above 1,023 and a few others come in, all goes out."""
    refused = [{"RuleNumber": 10 + k, "Egress": False, "Protocol": "-1", "RuleAction": "deny", "CidrBlock": f"203.0.{k}.0/24"} for k in range(4)]
    ports = [(22, 22), (80, 80), (443, 443), (1024, 65535)]
    taken = [
        {"RuleNumber": 100 + k, "Egress": False, "Protocol": "6", "RuleAction": "allow", "CidrBlock": ANYWHERE, "PortRange": {"From": a, "To": b}}
        for k, (a, b) in enumerate(ports)
    ]
    return refused + taken + [{"RuleNumber": 100, "Egress": True, "Protocol": "-1", "RuleAction": "allow", "CidrBlock": ANYWHERE}]


def vpc(v, whole):
    subnets = [f"subnet-{v}-{s}" for s in range(SUBNETS)]
    whole["Vpcs"].append({"VpcId": f"vpc-{v}", "CidrBlock": f"10.{v}.0.0/16"})
    whole["Subnets"] += [{"SubnetId": it, "VpcId": f"vpc-{v}", "AvailabilityZone": "us-east-1a"} for it in subnets]
    whole["NetworkInterfaces"] += hosts_of(v)
    for name, members, is_public in (("public", subnets[:1], True), ("private", subnets[1:], False)):
        ties = [{"Main": False, "SubnetId": it} for it in members] + [{"Main": True}] * (not is_public)
        whole["RouteTables"].append({"RouteTableId": f"rtb-{v}-{name}", "VpcId": f"vpc-{v}", "Associations": ties, "Routes": routes_of(v, is_public)})
    whole["NetworkAcls"].append({"NetworkAclId": f"acl-{v}", "Associations": [{"SubnetId": it} for it in subnets], "Entries": entries()})
    everything = [{"IpProtocol": "-1", "IpRanges": [{"CidrIp": ANYWHERE}]}]
    whole["SecurityGroups"] += [
        {"GroupId": f"sg-{v}-{g}", "VpcId": f"vpc-{v}", "IpPermissions": rules_of(v, g), "IpPermissionsEgress": everything} for g in range(GROUPS)
    ]
    whole["InternetGateways"].append({"InternetGatewayId": f"igw-{v}", "Attachments": [{"State": "available", "VpcId": f"vpc-{v}"}]})
    whole["TransitGatewayVpcAttachments"].append(
        {"TransitGatewayAttachmentId": f"tgw-attach-{v}", "TransitGatewayId": "tgw-1", "VpcId": f"vpc-{v}", "SubnetIds": subnets[:1], "State": "available"}
    )
    whole["TransitGatewayAttachments"].append(
        {"TransitGatewayAttachmentId": f"tgw-attach-{v}", "ResourceType": "vpc", "State": "available", "Association": {"TransitGatewayRouteTableId": "tgw-rtb-1", "State": "associated"}}
    )


def account(count):
    """So many VPCs of the account."""
    lists = "Vpcs Subnets NetworkInterfaces RouteTables NetworkAcls SecurityGroups InternetGateways TransitGatewayVpcAttachments TransitGatewayAttachments"
    whole = {name: [] for name in lists.split()}
    whole["PrefixLists"] = [
        {"PrefixListId": f"pl-{n}", "Cidrs": [f"{100 + n}.{k}.0.0/20" for k in range(BLOCKS)]} for n in range(LISTS)
    ]
    for v in range(count):
        vpc(v, whole)
    whole["TransitGatewayRoutes"] = [
        {
            "TransitGatewayRouteTableId": "tgw-rtb-1",
            "Routes": [
                {
                    "DestinationCidrBlock": f"10.{v}.0.0/16",
                    "State": "active",
                    "Type": "propagated",
                    "TransitGatewayAttachments": [{"TransitGatewayAttachmentId": f"tgw-attach-{v}", "ResourceType": "vpc"}],
                }
                for v in range(count)
            ],
        }
    ]
    return whole


QUESTIONS = [
    ("the internet to a private host, all ports", "from internet to eni-3-9"),
    ("the internet to a private host, port 22", "from internet to eni-3-9 port 22-22"),
    ("a host with a public address to the internet", "from eni-3-8 to internet"),
    ("a private host to the internet", "from eni-3-9 to internet"),
    ("a host with a public address to 10.0.0.0/8", "from eni-3-8 to internet dst 10.0.0.0/8"),
    ("a private host to one of another VPC", "from eni-3-9 to eni-20-9"),
]


def once(words):
    """The time of one run, its status and its first line; None, none and a note where it takes too long."""
    start = time.perf_counter()
    try:
        ran = subprocess.run(words, stdout=subprocess.PIPE, timeout=MOST, check=False)
    except subprocess.TimeoutExpired:
        return None, None, f"more than {MOST} s"
    return time.perf_counter() - start, ran.returncode, ran.stdout.split(b"\n", 1)[0].decode()


def asked(tool, path, query, trace):
    took, status, first = once([tool, "ask", path, *query.split()])
    if took is None:
        return first
    if took < 5:
        took, _ = measured([tool, "ask", path, *query.split()], status)
    return f"{first}, {took:.2f} s, {took / trace:.2f}"


def main():
    tools = [program(), *sys.argv[2:3]]
    path = written(f"wide-{VPCS}.json", account, VPCS)
    print(f"| question | {' | '.join('answer, time, of a trace' for _ in tools)} |")
    print(f"|---|{'---|' * len(tools)}")
    traces = []
    for tool in tools:
        packet = "open from eni-3-9 tcp 10.3.32.5 10.3.32.6 5000 443"
        _, status, _ = once([tool, "trace", path, *packet.split()])
        took, peak = measured([tool, "trace", path, *packet.split()], status)
        traces.append(took)
        print(f"a trace takes {took:.2f} s, {peak:.0f} MiB", file=sys.stderr)
    for name, query in QUESTIONS:
        print(f"| {name} | {' | '.join(asked(tool, path, query, trace) for tool, trace in zip(tools, traces))} |", flush=True)


if __name__ == "__main__":
    main()
