#!/usr/bin/env python3
"""Ends outside, endpoints, firewalls and the tables of gateways, worked by hand: tests/outside.py [PROGRAM]

Each row has a small network, words of `ask`, `trace`, `reach` or `diff`, and what is due. The networks are those of crates/cli_rows/data,
with the rows that are told here. What is due was written by hand, from what AWS documents, before anything could tell it: of a packet that gets
through its header and the places of both walks, of others the one stop. It is held against the model (model.py), and with PROGRAM its
whole text against what the model makes of it. The last line is 'N passed, M failed'.
"""

import copy
import json
import os
import random
import subprocess
import sys
import tempfile

import model
import rows_model
import walk_model
from diff_model import Diff
from reach_model import Reach
from unused_model import Query

DATA = os.path.join(os.path.dirname(os.path.dirname(os.path.abspath(__file__))), "crates", "cli_rows", "data")
ANYWHERE = "0.0.0.0/0"


# ---- networks

def read(name):
    with open(os.path.join(DATA, f"{name}.json"), encoding="utf-8") as file:
        return json.load(file)


def row_of(network, name, field, told):
    return next(it for it in network[name] if it[field] == told)


def add_route(network, table, destination, **target):
    field = "DestinationPrefixListId" if destination.startswith("pl-") else "DestinationCidrBlock"
    row_of(network, "RouteTables", "RouteTableId", table)["Routes"].append({field: destination, "State": "active", **target})


def add_transit_route(network, table, destination, attachment):
    row = {"DestinationCidrBlock": destination, "Type": "static", "State": "active", "TransitGatewayAttachments": [{"TransitGatewayAttachmentId": attachment}]}
    row_of(network, "TransitGatewayRoutes", "TransitGatewayRouteTableId", table)["Routes"].append(row)


def behind_gateway(vpc="vpc-1"):
    """Two hosts, and a virtual private gateway to which 172.20.0.0/16 is routed."""
    network = read("two_hosts")
    network["VpnGateways"] = [{"VpnGatewayId": "vgw-1", "VpcAttachments": [{"VpcId": vpc, "State": "attached"}]}]
    add_route(network, "rtb-1", "172.20.0.0/16", GatewayId="vgw-1")
    row_of(network, "SecurityGroups", "GroupId", "sg-b")["IpPermissions"].append({"IpProtocol": "tcp", "FromPort": 22, "ToPort": 22, "IpRanges": [{"CidrIp": ANYWHERE}]})
    return network


def behind_transit(back):
    """Two VPCs at a transit gateway with a VPN and a Direct Connect gateway; what goes back to 172.20.0.0/16 takes one of them."""
    network = read("transit")
    for name, kind in (("att-vpn", "vpn"), ("att-dx", "direct-connect-gateway")):
        association = {"TransitGatewayRouteTableId": "tgw-rtb-a", "State": "associated"}
        network["TransitGatewayAttachments"].append({"TransitGatewayAttachmentId": name, "TransitGatewayId": "tgw-1", "ResourceType": kind, "State": "available", "Association": association})
    add_transit_route(network, "tgw-rtb-b", "172.20.0.0/16", back)
    return network


def half_peered(**requester):
    """A peering with a VPC that isn't described."""
    network = behind_gateway()
    del network["VpnGateways"]
    row_of(network, "RouteTables", "RouteTableId", "rtb-1")["Routes"].pop()
    add_route(network, "rtb-1", "10.9.0.0/16", VpcPeeringConnectionId="pcx-1")
    sides = {"RequesterVpcInfo": {"VpcId": "vpc-1", **requester}, "AccepterVpcInfo": {"VpcId": "vpc-9", "CidrBlock": "10.9.0.0/16"}}
    network["VpcPeeringConnections"] = [{"VpcPeeringConnectionId": "pcx-1", "Status": {"Code": "active"}, **sides}]
    return network


def endpoint(vpc, state="available"):
    return {"VpcEndpointId": "vpce-s3", "VpcEndpointType": "Gateway", "VpcId": vpc, "State": state}


def small_account(state="available"):
    """A small account with a gateway endpoint."""
    network = read("small_account")
    network["VpcEndpoints"] = [endpoint("vpc-0d", state)]
    return network


S3 = {"PrefixLists": [{"PrefixListId": "pl-s3", "Cidrs": ["52.216.0.0/15"]}]}


def service_over_transit():
    network = {**read("transit"), **S3, "VpcEndpoints": [endpoint("vpc-b")]}
    add_route(network, "rtb-b", "pl-s3", GatewayId="vpce-s3")
    add_transit_route(network, "tgw-rtb-a", "52.216.0.0/15", "att-b")
    return network


def service_behind_nat():
    network = {**read("behind_nat"), **S3, "VpcEndpoints": [endpoint("vpc-1", "Available")]}
    add_route(network, "rtb-n", "pl-s3", GatewayId="vpce-s3")
    return network


def told_attachment(without_its_row):
    """The transit gateway's list tells of att-b that it is a VPC's; its row in the list of VPCs' attachments may be missing."""
    network = read("transit")
    row_of(network, "TransitGatewayAttachments", "TransitGatewayAttachmentId", "att-b").update({"ResourceType": "vpc", "ResourceId": "vpc-b", "TransitGatewayId": "tgw-1", "State": "available"})
    if without_its_row:
        network["TransitGatewayVpcAttachments"].pop()
    return network


def without_vpc_b():
    """As the owner of a transit gateway sees it whose second VPC is another account's: it is attached, and isn't described."""
    network = told_attachment(False)
    for name, field in (("Vpcs", "VpcId"), ("Subnets", "SubnetId"), ("NetworkInterfaces", "NetworkInterfaceId"), ("RouteTables", "RouteTableId"), ("NetworkAcls", "NetworkAclId"), ("SecurityGroups", "GroupId")):
        network[name] = [it for it in network[name] if it[field].split("-")[1] not in ("b", "b9", "tb")]
    return network


def inspected(*appliances, edge=True):
    """A public host whose packets pass a firewall endpoint on their way in and out."""
    whole = {"RuleNumber": 100, "Protocol": "-1", "RuleAction": "allow", "CidrBlock": ANYWHERE}
    local = {"DestinationCidrBlock": "10.0.0.0/16", "GatewayId": "local", "State": "active"}

    def table(name, association, *routes):
        return {"RouteTableId": name, "VpcId": "vpc-1", "Associations": [{"Main": False, **association}], "Routes": [local, *routes]}

    def route(destination, target):
        return {"DestinationCidrBlock": destination, "GatewayId": target, "State": "active"}

    return {
        "Vpcs": [{"VpcId": "vpc-1", "CidrBlock": "10.0.0.0/16"}],
        "Subnets": [{"SubnetId": it, "VpcId": "vpc-1", "AvailabilityZone": "z"} for it in ("subnet-w", "subnet-f")],
        "NetworkInterfaces": [{
            "NetworkInterfaceId": "eni-w", "SubnetId": "subnet-w", "PrivateIpAddress": "10.0.1.10", "Groups": [{"GroupId": "sg-w"}],
            "PrivateIpAddresses": [{"PrivateIpAddress": "10.0.1.10", "Association": {"PublicIp": "203.0.113.10"}}]}],
        "RouteTables": [
            table("rtb-w", {"SubnetId": "subnet-w"}, route(ANYWHERE, "vpce-fw")), table("rtb-f", {"SubnetId": "subnet-f"}, route(ANYWHERE, "igw-1")),
            *([table("rtb-edge", {"GatewayId": "igw-1"}, route("10.0.1.0/24", "vpce-fw"))] if edge else [])],
        "NetworkAcls": [{"NetworkAclId": "acl-1", "Associations": [{"SubnetId": it} for it in ("subnet-w", "subnet-f")], "Entries": [{**whole, "Egress": it} for it in (False, True)]}],
        "SecurityGroups": [{"GroupId": "sg-w", "VpcId": "vpc-1", "IpPermissions": [{"IpProtocol": "tcp", "FromPort": 443, "ToPort": 443, "IpRanges": [{"CidrIp": ANYWHERE}]}], "IpPermissionsEgress": []}],
        "InternetGateways": [{"InternetGatewayId": "igw-1", "Attachments": [{"State": "available", "VpcId": "vpc-1"}]}],
        "VpcEndpoints": [{"VpcEndpointId": "vpce-fw", "VpcEndpointType": "GatewayLoadBalancer", "VpcId": "vpc-1", "State": "available", "SubnetIds": ["subnet-f"]}],
        "Appliances": list(appliances)}


def with_transit_route(network, table, destination, attachment):
    add_transit_route(network, table, destination, attachment)
    return network


def without_link(network, name):
    """What leads there isn't told; routes to it are."""
    network["TransitGatewayAttachments"] = [it for it in network["TransitGatewayAttachments"] if it["TransitGatewayAttachmentId"] != name]
    return network


def back_to_the_other():
    """From the VPN packets for 172.30.0.0/16 go to Direct Connect, and what comes back from there to 172.20.0.0/16 goes there again."""
    network = with_transit_route(behind_transit("att-vpn"), "tgw-rtb-a", "172.30.0.0/16", "att-dx")
    return with_transit_route(network, "tgw-rtb-a", "172.20.0.0/16", "att-dx")


def two_links_and_a_service():
    """A virtual private gateway and a peering, to whose blocks a route leads by the gateway; and a gateway endpoint."""
    network = {**behind_gateway(), **S3, "VpcEndpoints": [endpoint("vpc-1")], "VpcPeeringConnections": half_peered(CidrBlock="10.0.0.0/16")["VpcPeeringConnections"]}
    add_route(network, "rtb-1", "10.9.0.0/16", GatewayId="vgw-1")
    add_route(network, "rtb-1", "pl-s3", GatewayId="vpce-s3")
    return network


def without_association(network):
    row_of(network, "TransitGatewayAttachments", "TransitGatewayAttachmentId", "att-vpn").pop("Association")
    return network


def told(network, **rows):
    return {**network, **rows}


FIREWALL = {"VpcEndpointId": "vpce-fw", "Kind": "all"}
IN_AND_OUT = "internet internet, igw-in igw-1, enter vpc-1, inspect vpce-fw, router subnet-f, in eni-w / out eni-w, router subnet-w, inspect vpce-fw, router subnet-f, igw-out igw-1, internet internet"
FROM_INTERNET = "ask from internet to eni-w src 198.51.100.0/24 dst 203.0.113.10/32 port 443-443"


# ---- what is due: of a packet that gets through its header and the places of its walks, else the one stop, or the refusal

BY_WORDS = [
    (behind_gateway(), "ask from vgw-1 to eni-b port 22-22", "tcp 172.20.0.0 10.0.2.20 0 22",
     "far-in vgw-1, enter vpc-1, in eni-b / out eni-b, router subnet-b, far-out vgw-1"),
    (behind_gateway(), "ask from vgw-1 to eni-b src 10.9.0.0/16 dst 10.0.2.20/32 port 22-22", "reply NoRoute rtb-1 -", None),
    (behind_gateway(), "ask from eni-a to vgw-1 dst 172.20.0.0/16 port 443-443", "tcp 10.0.1.10 172.20.0.0 0 443",
     "out eni-a, router subnet-a, far-out vgw-1 / far-in vgw-1, enter vpc-1, in eni-a"),
    (behind_gateway("vpc-2"), "ask from eni-a to vgw-1 dst 172.20.0.0/16 port 443-443", "request FarDetached vgw-1 -", None),
    (behind_transit("att-vpn"), "ask from att-vpn to eni-b dst 10.2.1.10/32 port 443-443", "tcp 172.20.0.0 10.2.1.10 0 443",
     "far-in att-vpn, tgw-leave att-b, router subnet-tb, in eni-b / out eni-b, router subnet-b, tgw att-b, far-out att-vpn"),
    (behind_transit("att-dx"), "ask from att-vpn to eni-b src 172.20.0.0/16 dst 10.2.1.10/32 port 443-443", "reply WrongReturn att-dx -", None),
    (half_peered(CidrBlock="10.0.0.0/16"), "ask from pcx-1 to eni-b src 10.8.0.0/15 dst 10.0.2.20/32 port 22-22", "tcp 10.9.0.0 10.0.2.20 0 22",
     "far-in pcx-1, enter vpc-1, in eni-b / out eni-b, router subnet-b, far-out pcx-1"),
    (half_peered(CidrBlock="10.0.0.0/16"), "ask from pcx-1 to eni-b src 10.8.0.0/16 dst 10.0.2.20/32 port 22-22", "request PeerSource pcx-1 -", None),
    (with_transit_route(behind_transit("att-vpn"), "tgw-rtb-a", "172.30.0.0/16", "att-dx"), "trace open from att-vpn tcp 172.20.0.1 172.30.0.1 5 443", "arrived att-dx",
     "far-in att-vpn, far-out att-dx"),
    (without_association(behind_transit("att-vpn")), "ask from att-vpn to eni-b src 172.20.0.0/16 dst 10.2.1.10/32 port 443-443", "request FarNoTable att-vpn -", None),
    (told_attachment(True), "ask from eni-a to eni-b port 443-443", "request Unmodelled att-b -", None),
    (without_vpc_b(), "ask from eni-a to att-b dst 10.2.0.0/17 port 443-443", "tcp 10.1.1.10 10.2.0.0 0 443",
     "out eni-a, router subnet-a, tgw att-a, far-out att-b / far-in att-b, tgw-leave att-a, router subnet-ta, in eni-a"),
    (half_peered(), "ask from eni-a to internet dst 10.9.0.0/16 port 443-443", "request Unmodelled pcx-1 -", None),
    (half_peered(), "ask from pcx-1 to eni-b", "refused query UnknownId 4", None),
    (told_attachment(False), "ask from att-b to eni-a", "refused query NotAnEnd att-b", None),

    (small_account(), "ask from eni-web to vpce-s3 port 443-443", "tcp 172.31.5.20 52.216.0.0 0 443",
     "out eni-web, router subnet-0a, far-out vpce-s3 / far-in vpce-s3, enter vpc-0d, in eni-web by tracked"),
    (small_account(), "ask from eni-web to internet dst 52.216.0.0/16 port 443-443", "request WrongPlace vpce-s3 -", None),
    (small_account("deleting"), "ask from eni-web to internet dst 52.216.0.0/16 port 443-443", "request Unmodelled vpce-s3 -", None),
    (read("small_account"), "ask from eni-web to internet dst 52.216.0.0/16 port 443-443", "request Unmodelled vpce-s3 -", None),
    (small_account(), "trace open from vpce-s3 tcp 52.216.0.1 172.31.5.20 443 5000", "stopped FarOpens vpce-s3 -", "far-in vpce-s3"),
    (small_account(), "ask from vpce-s3 to eni-web", "refused query NotAStart 4", None),
    (service_over_transit(), "ask from eni-a to vpce-s3 dst 52.216.0.0/16 port 443-443", "request FarSource vpce-s3 -", None),
    (service_behind_nat(), "ask from eni-a to vpce-s3 sport 5000-5000 port 443-443", "tcp 10.0.1.10 52.216.0.0 5000 443",
     "out eni-a, router subnet-a, nat-out nat-1, router subnet-n, far-out vpce-s3 / far-in vpce-s3, enter vpc-1, nat-in nat-1, router subnet-n, in eni-a"),

    (inspected(FIREWALL), FROM_INTERNET, "tcp 198.51.100.0 203.0.113.10 0 443", IN_AND_OUT),
    (inspected(FIREWALL, edge=False), FROM_INTERNET, "tcp 198.51.100.0 203.0.113.10 0 443", IN_AND_OUT.replace(", inspect vpce-fw, router subnet-f, in", ", in")),
    (inspected(), FROM_INTERNET, "request Unmodelled vpce-fw -", None),
    (inspected({**FIREWALL, "Kind": "none"}), FROM_INTERNET, "request InspectDrop vpce-fw -", None),
    (inspected({**FIREWALL, "Kind": "peer", "Prefix": "192.0.2.0/24"}), FROM_INTERNET, "request InspectDrop vpce-fw -", None),
    (told(inspected(FIREWALL), VpcEndpoints=[]), FROM_INTERNET, "request Unmodelled vpce-fw -", None),
]

ALL = "0-65535"
FROM_VPN = f"6-6 172.20.0.0-172.20.255.255 10.2.1.10-10.2.1.10 {ALL} 443-443"
ROUTED_BACK = f"6-6 172.20.0.0-172.20.255.255 10.0.2.20-10.0.2.20 {ALL} 22-22"
TO_B, OVER = "to eni-b src 172.20.0.0/16 dst 10.2.1.10/32 port 443-443", "src 172.20.0.0/16 dst 172.30.0.0/16 port 443-443"
BY_PEERING = f"eni-b 6-6 10.9.0.0-10.9.255.255 10.0.2.20-10.0.2.20 {ALL} 22-22"
BY_ROWS = [
    # (without `from`, links lead to one network: a reply may take another than the request)
    (Reach, [behind_transit("att-dx")], TO_B, [f"att-dx eni-b {FROM_VPN}", f"att-vpn eni-b {FROM_VPN}"]),
    (Reach, [behind_transit("att-dx")], f"from att-vpn {TO_B}", []),
    (Reach, [behind_transit("att-dx")], f"from att-dx {TO_B}", [f"att-dx eni-b {FROM_VPN}"]),
    (Reach, [back_to_the_other()], OVER, [f"att-vpn att-dx 6-6 172.20.0.0-172.20.255.255 172.30.0.0-172.30.255.255 {ALL} 443-443"]),
    # (what is the goal, or a service, is no link)
    (Reach, [back_to_the_other()], f"to att-dx {OVER}", []),
    (Reach, [two_links_and_a_service()], "to eni-b src 10.9.0.0/16 dst 10.0.2.20/32 port 22-22", [f"pcx-1 {BY_PEERING}", f"vgw-1 {BY_PEERING}"]),
    (Reach, [two_links_and_a_service()], "to eni-b src 52.216.0.0/16 dst 10.0.2.20/32 port 22-22", []),
    # (in each of two networks they are those that it has)
    (Diff, [without_link(behind_transit("att-dx"), "att-dx"), behind_transit("att-dx")], TO_B,
     [f"att-dx opened eni-b request Absent att-dx - {FROM_VPN}", f"att-vpn opened eni-b reply Unmodelled att-dx - {FROM_VPN}"]),
    (Diff, [behind_transit("att-dx"), without_link(behind_transit("att-dx"), "att-dx")], TO_B,
     [f"att-dx closed eni-b request Absent att-dx - {FROM_VPN}", f"att-vpn closed eni-b reply Unmodelled att-dx - {FROM_VPN}"]),
    (Diff, [behind_transit("att-vpn"), behind_transit("att-dx")], TO_B, []),
    (Diff, [behind_transit("att-vpn"), behind_transit("att-dx")], f"from att-vpn {TO_B}", [f"att-vpn closed eni-b reply WrongReturn att-dx - {FROM_VPN}"]),
    (Reach, [behind_gateway()], "from vgw-1 port 22-22", [f"vgw-1 eni-b {ROUTED_BACK}"]),
    (Reach, [behind_gateway()], "to vgw-1 port 443-443", [f"eni-a vgw-1 6-6 10.0.1.10-10.0.1.10 172.20.0.0-172.20.255.255 {ALL} 443-443"]),
    (Diff, [told(behind_gateway(), VpnGateways=[]), behind_gateway()], "from eni-a proto tcp dst 172.20.0.0/16 port 443-443",
     [f"eni-a opened vgw-1 request Unmodelled vgw-1 - 6-6 10.0.1.10-10.0.1.10 172.20.0.0-172.20.255.255 {ALL} 443-443"]),
    (Diff, [told(behind_gateway(), VpnGateways=[]), behind_gateway()], "from vgw-1 to eni-b src 172.20.0.0/16 port 22-22", [f"vgw-1 opened eni-b request Absent vgw-1 - {ROUTED_BACK}"]),
]


# ---- what the model tells

def places(lines):
    """The places of hops; at interfaces that an answer enters as it was let out, that too."""
    hops = [it.split(" ") for it in lines if it.startswith("hop ")]
    return ", ".join(" ".join(words[2:4]) + (" by tracked" if words[9:] == ["by", "tracked"] and words[2] == "in" else "") for words in hops)


def asked(network, words):
    """The text of `ask`, and what is due of it; a report has one row."""
    try:
        query = Query([network], words)
    except rows_model.Refused as it:
        return [it.line], it.line, None
    stops = set()
    for header in map(model.low_corner, model.cells(model.cuts(network), query.box)):
        answer = model.verdict(network, query.start, query.goal, header)
        if not answer.stop:
            lines = walk_model.asked(network, query.start, query.goal, header)[1]
            back = lines.index("reply")
            return lines, str(header), f"{places(lines[:back])} / {places(lines[back:])}"
        stops.add(str(answer))
    box, stop = model.told_box(query.box), ", ".join(sorted(stops))
    return ["vpc-report 1", f"query from {words[1]} to {words[3]}", f"box {box}", f"row 1 {stop} {box}", "end 1"], stop, None


def traced(network, words):
    label, _, start, *header = words
    lines = model.traced(network, label, model.INTERNET if start == "internet" else start, rows_model.read_header(" ".join(header)))
    return lines, lines[-1], places(lines)


def without_tracked(due, found):
    """The places, where what is due doesn't say that an answer is let in as tracked."""
    return found if due is None or "tracked" in due else found.replace(" by tracked", "")


# ---- rows

def ran(program, command, networks, words):
    """The words of a command about networks, with their files, what the program prints, and its status."""
    with tempfile.TemporaryDirectory() as folder:
        words = [*rows_model.written(folder, [json.dumps(it).encode() for it in networks]), *words]
        done = subprocess.run([program, command, *words], capture_output=True, check=False)
        yield words, done.stdout.decode(), done.returncode


def by_words(program, network, text, due, walks):
    """What is wrong with a row of `ask` or `trace`."""
    command, *words = text.split(" ")
    lines, found, hops = {"ask": asked, "trace": traced}[command](model.Network(copy.deepcopy(network)), words)
    if walks and "tracked" not in walks:
        hops = hops and hops.replace(" by tracked", "")
    wrong = [] if (found, hops) == (due, walks) else [f"{text}: {found}, {hops} in place of {due}, {walks}"]
    for _, told_text, _ in ran(program, command, [network], words) if program else ():
        wrong += [] if told_text == "".join(f"{it}\n" for it in lines) else [f"{text}: {told_text!r} in place of {lines}"]
    return wrong


def by_rows(program, kind, networks, text, due):
    """What is wrong with a row of `reach` or `diff`."""
    question = kind([model.Network(copy.deepcopy(it)) for it in networks], text.split(" "))
    lines, _ = rows_model.Telling(question).lines()
    found = [" ".join(it.split(" ")[2:]) for it in lines if it.startswith("row ")]
    wrong = [] if found == due else [f"{kind.command} {text}: {found} in place of {due}"]
    for words, told_text, status in ran(program, kind.command, networks, text.split(" ")) if program else ():
        faults, _ = rows_model.judged(kind, words, told_text, status, random.Random(1), 100_000)
        wrong += [f"{kind.command} {text}: {it}" for it in faults]
    return wrong


def main():
    if len(sys.argv) > 2:
        sys.exit(__doc__)
    program, tried = (sys.argv[1:] or [None])[0], []
    tried += [by_words(program, *row) for row in BY_WORDS]
    tried += [by_rows(program, *row) for row in BY_ROWS]
    wrong = [it for it in tried if it]
    for it in wrong:
        print(*it, sep="\n")
    print(f"{len(tried) - len(wrong)} passed, {len(wrong)} failed")
    sys.exit(1 if wrong else 0)


if __name__ == "__main__":
    main()
