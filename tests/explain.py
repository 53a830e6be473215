#!/usr/bin/env python3
"""Whether `explain` tells the truth: tests/explain.py PROGRAM [--cases N]

Each of the 41 stops has a row in STOPS: a small network, a packet or a question, what the sentences have to say, and the change that
they ask for. PROGRAM answers, `explain` tells of the answer, the change is made, and PROGRAM no longer stops there. In N networks made
at random (as tests/fuzz.py has them) each sentence is tried likewise: where it says that a row of an ACL or a route let a packet pass,
PROGRAM stops the packet there once that row denies, or the route is a blackhole; and what would have to change is changed. Answers that
are damaged, or about another bundle, are refused. What `explain` asks is `why` of PROGRAM, or where that doesn't know the command
tests/follow.py in its place; that follows packets itself, and the sentences about a stop have to be those that it makes, or less where
nobody tells the way of a reply. The last line is 'N passed, M failed'.
"""

import argparse
import collections
import contextlib
import copy
import functools
import io
import itertools
import json
import os
import random
import re
import subprocess
import sys
import tempfile

import follow
import networks
from follow import Network, Walker, header_of, round_trip

TOP = os.path.dirname(os.path.dirname(os.path.abspath(__file__)))
sys.path.insert(0, TOP)

from scripts import explain as script, explain_program
from scripts.commands import ODD, Refused
from scripts.explain_stops import stop_lines
from scripts.explain_words import Teller
from scripts.headers import address, block_of, dotted, low_corner
from scripts.words import STOPS as ALL_STOPS

DATA = os.path.join(TOP, "crates", "cli_rows", "data")
ANYWHERE = "0.0.0.0/0"

# vpc-a (a host, a NAT gateway, an appliance) and vpc-b (a host), with a peering and a transit gateway between them.
BASE = json.loads("""{
"Vpcs": [{"VpcId": "vpc-a", "CidrBlock": "10.1.0.0/16", "Tags": [{"Key": "Name", "Value": "shop"}]}, {"VpcId": "vpc-b", "CidrBlock": "10.2.0.0/16"}],
"Subnets": [{"SubnetId": "subnet-a", "VpcId": "vpc-a", "AvailabilityZone": "z1"}, {"SubnetId": "subnet-n", "VpcId": "vpc-a", "AvailabilityZone": "z1"},
            {"SubnetId": "subnet-b", "VpcId": "vpc-b", "AvailabilityZone": "z1"}],
"NetworkInterfaces": [
  {"NetworkInterfaceId": "eni-a", "SubnetId": "subnet-a", "PrivateIpAddress": "10.1.1.10", "Groups": [{"GroupId": "sg-a"}], "TagSet": [{"Key": "Name", "Value": "web one"}]},
  {"NetworkInterfaceId": "eni-c", "SubnetId": "subnet-n", "PrivateIpAddress": "10.1.3.10", "Groups": [{"GroupId": "sg-c"}],
   "PrivateIpAddresses": [{"PrivateIpAddress": "10.1.3.10", "Association": {"PublicIp": "203.0.113.10"}}]},
  {"NetworkInterfaceId": "eni-f", "SubnetId": "subnet-n", "PrivateIpAddress": "10.1.3.4", "Groups": [], "SourceDestCheck": false},
  {"NetworkInterfaceId": "eni-n", "SubnetId": "subnet-n", "PrivateIpAddress": "10.1.3.5", "Groups": [], "SourceDestCheck": false, "InterfaceType": "nat_gateway",
   "PrivateIpAddresses": [{"PrivateIpAddress": "10.1.3.5", "Association": {"PublicIp": "203.0.113.5"}}]},
  {"NetworkInterfaceId": "eni-b", "SubnetId": "subnet-b", "PrivateIpAddress": "10.2.1.10", "Groups": [{"GroupId": "sg-b"}]}],
"RouteTables": [
  {"RouteTableId": "rtb-a", "VpcId": "vpc-a", "Associations": [{"Main": true}], "Routes": [{"DestinationCidrBlock": "10.1.0.0/16", "GatewayId": "local"},
    {"DestinationCidrBlock": "10.2.0.0/16", "TransitGatewayId": "tgw-1"}, {"DestinationCidrBlock": "10.7.0.0/16", "VpcPeeringConnectionId": "pcx-1"},
    {"DestinationCidrBlock": "10.2.9.0/24", "VpcPeeringConnectionId": "pcx-1"}, {"DestinationCidrBlock": "0.0.0.0/0", "NatGatewayId": "nat-1"}]},
  {"RouteTableId": "rtb-n", "VpcId": "vpc-a", "Associations": [{"SubnetId": "subnet-n"}], "Routes": [{"DestinationCidrBlock": "10.1.0.0/16", "GatewayId": "local"},
    {"DestinationCidrBlock": "0.0.0.0/0", "GatewayId": "igw-1"}]},
  {"RouteTableId": "rtb-b", "VpcId": "vpc-b", "Associations": [{"Main": true}], "Routes": [{"DestinationCidrBlock": "10.2.0.0/16", "GatewayId": "local"},
    {"DestinationCidrBlock": "10.1.0.0/16", "TransitGatewayId": "tgw-1"}]}],
"NetworkAcls": [
  {"NetworkAclId": "acl-a", "Associations": [{"SubnetId": "subnet-a"}, {"SubnetId": "subnet-n"}], "Entries": [
    {"RuleNumber": 100, "Egress": false, "Protocol": "-1", "RuleAction": "allow", "CidrBlock": "0.0.0.0/0"}, {"RuleNumber": 100, "Egress": true, "Protocol": "-1", "RuleAction": "allow", "CidrBlock": "0.0.0.0/0"}]},
  {"NetworkAclId": "acl-b", "Associations": [{"SubnetId": "subnet-b"}], "Entries": [
    {"RuleNumber": 100, "Egress": false, "Protocol": "-1", "RuleAction": "allow", "CidrBlock": "0.0.0.0/0"}, {"RuleNumber": 100, "Egress": true, "Protocol": "-1", "RuleAction": "allow", "CidrBlock": "0.0.0.0/0"}]}],
"SecurityGroups": [
  {"GroupId": "sg-a", "VpcId": "vpc-a", "IpPermissions": [], "IpPermissionsEgress": [{"IpProtocol": "-1", "IpRanges": [{"CidrIp": "0.0.0.0/0"}]}]},
  {"GroupId": "sg-b", "VpcId": "vpc-b", "GroupName": "database of the shop", "IpPermissions": [{"IpProtocol": "tcp", "FromPort": 5432, "ToPort": 5432, "IpRanges": [{"CidrIp": "10.1.1.0/24"}]}],
   "IpPermissionsEgress": []},
  {"GroupId": "sg-c", "VpcId": "vpc-a", "IpPermissions": [{"IpProtocol": "-1", "IpRanges": [{"CidrIp": "0.0.0.0/0"}]}], "IpPermissionsEgress": [{"IpProtocol": "-1", "IpRanges": [{"CidrIp": "0.0.0.0/0"}]}]}],
"InternetGateways": [{"InternetGatewayId": "igw-1", "Attachments": [{"State": "available", "VpcId": "vpc-a"}]}, {"InternetGatewayId": "igw-2", "Attachments": []}],
"NatGateways": [{"NatGatewayId": "nat-1", "State": "available", "SubnetId": "subnet-n", "NatGatewayAddresses": [{"NetworkInterfaceId": "eni-n", "PrivateIp": "10.1.3.5"}]}],
"VpcPeeringConnections": [{"VpcPeeringConnectionId": "pcx-1", "Status": {"Code": "active"}, "RequesterVpcInfo": {"VpcId": "vpc-a"}, "AccepterVpcInfo": {"VpcId": "vpc-b"}}],
"TransitGatewayVpcAttachments": [
  {"TransitGatewayAttachmentId": "att-a", "TransitGatewayId": "tgw-1", "VpcId": "vpc-a", "SubnetIds": ["subnet-a"], "State": "available"},
  {"TransitGatewayAttachmentId": "att-b", "TransitGatewayId": "tgw-1", "VpcId": "vpc-b", "SubnetIds": ["subnet-b"], "State": "available"}],
"TransitGatewayAttachments": [{"TransitGatewayAttachmentId": "att-a", "Association": {"TransitGatewayRouteTableId": "tgw-rtb"}},
                              {"TransitGatewayAttachmentId": "att-b", "Association": {"TransitGatewayRouteTableId": "tgw-rtb"}}],
"TransitGatewayRoutes": [{"TransitGatewayRouteTableId": "tgw-rtb", "Routes": [
  {"DestinationCidrBlock": "10.1.0.0/16", "Type": "propagated", "State": "active", "TransitGatewayAttachments": [{"TransitGatewayAttachmentId": "att-a"}]},
  {"DestinationCidrBlock": "10.2.0.0/16", "Type": "propagated", "State": "active", "TransitGatewayAttachments": [{"TransitGatewayAttachmentId": "att-b"}]}]}],
"Appliances": [{"NetworkInterfaceId": "eni-f", "Kind": "service", "Ports": "443-443"}]}""")


def row(bundle, name):
    """The row of a bundle that has an id of its own."""
    return next(it for rows in bundle.values() for it in rows if name in list(it.values())[:1])


def route(bundle, table, destination):
    return next(it for it in row(bundle, table)["Routes"] if it["DestinationCidrBlock"] == destination)


def updated(bundle, name, **members):
    row(bundle, name).update(members)


def delegated(bundle, name, *prefixes):
    updated(bundle, name, Ipv4Prefixes=[{"Ipv4Prefix": it} for it in prefixes])


def routed(bundle, table, destination, **target):
    """A further route, before all others."""
    row(bundle, table)["Routes"].insert(0, {"DestinationCidrBlock": destination, **target})


def ruled(bundle, acl, number, outward, allow, block=ANYWHERE, **ports):
    row(bundle, acl)["Entries"].append({"RuleNumber": number, "Egress": outward, "Protocol": "6" if ports else "-1", "RuleAction": "allow" if allow else "deny", "CidrBlock": block, **ports})


def permitted(bundle, group, outward, block, proto="tcp", port=None):
    ports = {} if port is None else {"FromPort": port, "ToPort": port}
    row(bundle, group)["IpPermissionsEgress" if outward else "IpPermissions"].append({"IpProtocol": proto, **ports, "IpRanges": [{"CidrIp": block}]})


def named(bundle, group, outward, other, port=443):
    """A rule that names a group, which no peering joins."""
    row(bundle, group)["IpPermissionsEgress" if outward else "IpPermissions"].append({"IpProtocol": "tcp", "FromPort": port, "ToPort": port, "UserIdGroupPairs": [{"GroupId": other}]})
    updated(bundle, "pcx-1", Status={"Code": "pending-acceptance"})


def naming(bundle, gateway, *attachments):
    """Whether rules may name groups over the transit gateway, and over its attachments."""
    if gateway:
        bundle["TransitGateways"] = [{"TransitGatewayId": "tgw-1", "Options": {"SecurityGroupReferencingSupport": gateway}}]
    for name, word in zip(("att-a", "att-b"), attachments):
        updated(bundle, name, Options={"SecurityGroupReferencingSupport": word})


def of_two_vpcs(bundle):
    """eni-b has a group of the other VPC, which lets in what it names there."""
    bundle["SecurityGroups"].append({"GroupId": "sg-s", "VpcId": "vpc-a", "IpPermissions": [], "IpPermissionsEgress": []})
    updated(bundle, "eni-b", Groups=[{"GroupId": "sg-s"}])
    bundle["SecurityGroupVpcAssociations"] = [{"GroupId": "sg-s", "VpcId": "vpc-b", "State": "associated"}]
    named(bundle, "sg-s", False, "sg-a")


def blocked(bundle, name, mode):
    updated(bundle, name, BlockPublicAccessStates={"InternetGatewayBlockMode": mode})


def instance(name, state, eni, **members):
    return {"InstanceId": name, "State": {"Name": state}, "NetworkInterfaces": [{"NetworkInterfaceId": eni}], **members}


def several(*acts):
    return lambda bundle: [act(bundle) for act in acts]


def nothing(_):
    pass


def act(function, *words, **members):
    return lambda bundle: function(bundle, *words, **members)


def in_circle(bundle):
    """Two tables that send to each other's attachment whatever they don't know."""
    routed(bundle, "rtb-a", "172.20.0.0/16", TransitGatewayId="tgw-1")
    routed(bundle, "rtb-b", "172.20.0.0/16", TransitGatewayId="tgw-1")
    updated(bundle, "att-a", SubnetIds=["subnet-a"])
    for table, attachment in (("tgw-rtb-a", "att-b"), ("tgw-rtb-b", "att-a")):
        bundle["TransitGatewayRoutes"].append({"TransitGatewayRouteTableId": table, "Routes": [{"DestinationCidrBlock": "172.20.0.0/16", "Type": "static", "State": "active", "TransitGatewayAttachments": [{"TransitGatewayAttachmentId": attachment}]}]})
    for it, table in (("att-a", "tgw-rtb-a"), ("att-b", "tgw-rtb-b")):
        next(that for that in bundle["TransitGatewayAttachments"] if that["TransitGatewayAttachmentId"] == it)["Association"]["TransitGatewayRouteTableId"] = table


def public_way(bundle):
    """eni-a has a public address, and its table leads back by the NAT gateway."""
    updated(bundle, "eni-a", PrivateIpAddresses=[{"PrivateIpAddress": "10.1.1.10", "Association": {"PublicIp": "203.0.113.20"}}])
    permitted(bundle, "sg-a", False, ANYWHERE, port=22)


def behind_appliance(bundle):
    """Replies come to eni-a by way of eni-f, which has a group without rules, and requests go another way."""
    bundle["SecurityGroups"].append({"GroupId": "sg-f", "VpcId": "vpc-a", "IpPermissions": [], "IpPermissionsEgress": []})
    updated(bundle, "eni-f", Groups=[{"GroupId": "sg-f"}])
    bundle["Appliances"][0]["Kind"] = "all"
    routed(bundle, "rtb-a", "10.1.1.10/32", NetworkInterfaceId="eni-f")


def borrowed_address(bundle):
    """eni-a sends from an address of eni-c, which eni-b takes too."""
    updated(bundle, "eni-a", SourceDestCheck=False)
    permitted(bundle, "sg-b", False, "10.1.3.10/32", port=5432)


def vpn(bundle, vpc):
    bundle["VpnGateways"] = [{"VpnGatewayId": "vgw-1", "VpcAttachments": [{"VpcId": vpc, "State": "attached"}]}]


def attached_vpn(bundle, table=None):
    """A VPN at the transit gateway, with the table that it is associated with."""
    association = {"Association": {"TransitGatewayRouteTableId": table}} if table else {}
    bundle["TransitGatewayAttachments"].append({"TransitGatewayAttachmentId": "att-vpn", "TransitGatewayId": "tgw-1", "ResourceType": "vpn", "State": "available", **association})


def endpoint(bundle, kind, name="vpce-s3", table="rtb-a", destination="52.216.0.0/15"):
    """An endpoint of vpc-a in subnet-n, with a route to it."""
    bundle["VpcEndpoints"] = [{"VpcEndpointId": name, "VpcEndpointType": kind, "VpcId": "vpc-a", "State": "available", "SubnetIds": ["subnet-n"]}]
    routed(bundle, table, destination, GatewayId=name)


def firewalled(bundle, **told):
    """A firewall's endpoint on the way to 192.0.2.0/24, and what it passes."""
    endpoint(bundle, "GatewayLoadBalancer", "vpce-fw", destination="192.0.2.0/24")
    bundle["Appliances"] += [{"VpcEndpointId": "vpce-fw", **told}] if told else []


def edge(bundle, gateway, *routes):
    """The table of a gateway, of local routes but for these."""
    local = {"DestinationCidrBlock": "10.1.0.0/16", "GatewayId": "local"}
    bundle["RouteTables"].append({"RouteTableId": "rtb-edge", "VpcId": "vpc-a", "Associations": [{"GatewayId": gateway}], "Routes": [local, *({"DestinationCidrBlock": it, **target} for it, target in routes)]})


def service_elsewhere(bundle):
    """eni-b is led to an endpoint of the other VPC."""
    endpoint(bundle, "Gateway")
    permitted(bundle, "sg-b", True, ANYWHERE, "-1")
    routed(bundle, "rtb-b", "52.216.0.0/15", TransitGatewayId="tgw-1")
    row(bundle, "tgw-rtb")["Routes"].append({"DestinationCidrBlock": "52.216.0.0/15", "Type": "static", "State": "active", "TransitGatewayAttachments": [{"TransitGatewayAttachmentId": "att-a"}]})


def half_peered(bundle):
    """The peering's other VPC isn't described, and its blocks are told."""
    updated(bundle, "pcx-1", RequesterVpcInfo={"VpcId": "vpc-a", "CidrBlock": "10.1.0.0/16"}, AccepterVpcInfo={"VpcId": "vpc-9", "CidrBlock": "10.2.8.0/22"})


FROM_VGW, FROM_NET = "open from vgw-1 tcp 172.20.0.1 10.1.3.10 5000 443", "open from internet tcp 198.51.100.7 203.0.113.10 5000 443"
TO_B, TO_NET = "open from eni-a tcp 10.1.1.10 10.2.1.10 5000 {}", "open from eni-a tcp 10.1.1.10 {} 5000 443"
MANY = 55_000

# What it is, how the network differs from BASE, the command and its words, the stop, what the sentences say why and what has to change, and that change: of
# the bundle, or of the words.
STOPS = [
    ("Detached", act(updated, "eni-b", Status="available"), "trace", TO_B.format(5432), "stopped Detached eni-b -", "eni-b is attached to nothing (its status is available)", "eni-b would have to be attached",
     act(updated, "eni-b", Status="in-use")),
    ("Detached, of an instance that is stopped", lambda bundle: bundle.update(Reservations=[{"Instances": [instance("i-1", "stopped", "eni-b", Tags=[{"Key": "Name", "Value": "db one"}])]}]), "trace", TO_B.format(5432), "stopped Detached eni-b -",
     "eni-b (db one) is an interface of instance i-1, whose state is stopped", "instance i-1 would have to be running", lambda bundle: bundle["Reservations"][0]["Instances"][0]["State"].update(Name="running")),
    ("SourceCheck", nothing, "trace", "open from eni-a tcp 10.1.1.99 10.2.1.10 5000 5432", "stopped SourceCheck eni-a -", "10.1.1.99 is none of the private addresses of eni-a (web one) (10.1.1.10)",
     "come from one of these addresses, or the source/destination check of eni-a (web one) to be off", act(updated, "eni-a", SourceDestCheck=False)),
    ("SourceCheck, beside a prefix", act(delegated, "eni-a", "10.1.1.64/28"), "trace", "open from eni-a tcp 10.1.1.80 10.2.1.10 5000 5432", "stopped SourceCheck eni-a -", "10.1.1.80 is none of the private addresses of eni-a (web one) (10.1.1.10 and the prefix 10.1.1.64/28)",
     "come from one of these addresses, or the source/destination check of eni-a (web one) to be off", "open from eni-a tcp 10.1.1.79 10.2.1.10 5000 5432"),
    ("DestCheck", several(act(routed, "rtb-a", "10.2.1.10/32", NetworkInterfaceId="eni-c")), "trace", TO_B.format(5432), "stopped DestCheck eni-c -",
     "10.2.1.10 is none of the private addresses of eni-c (10.1.3.10)", "go to one of these addresses, or the source/destination check of eni-c to be off", act(updated, "eni-c", SourceDestCheck=False)),
    ("DestCheck, beside prefixes", several(act(routed, "rtb-a", "10.2.1.10/32", NetworkInterfaceId="eni-c"), act(delegated, "eni-c", "10.1.3.64/28", "10.1.3.80/28")), "trace", TO_B.format(5432), "stopped DestCheck eni-c -",
     "10.2.1.10 is none of the private addresses of eni-c (10.1.3.10 and the prefixes 10.1.3.64/28 and 10.1.3.80/28)", "go to one of these addresses", act(updated, "eni-c", Ipv4Prefixes=[{"Ipv4Prefix": "10.2.1.0/28"}])),
    ("GroupsOut", act(updated, "sg-a", IpPermissionsEgress=[{"IpProtocol": "tcp", "FromPort": 443, "ToPort": 443, "IpRanges": [{"CidrIp": ANYWHERE}]}]), "trace", TO_B.format(5432),
     "stopped GroupsOut eni-a -", "no outbound rule of sg-a allows tcp 5432 to 10.2.1.10. To 10.2.1.10 it allows tcp 443 alone.", "an outbound rule of sg-a would have to allow tcp 5432 to 10.2.1.10",
     act(permitted, "sg-a", True, "10.2.1.10/32", port=5432)),
    ("GroupsIn", nothing, "trace", TO_B.format(22), "stopped GroupsIn eni-b -", "no inbound rule of sg-b (database of the shop) allows tcp 22 from 10.1.1.10. From 10.1.1.10 it allows tcp 5432 alone.",
     "an inbound rule of sg-b (database of the shop) would have to allow tcp 22 from 10.1.1.10", act(permitted, "sg-b", False, "10.1.1.10/32", port=22)),
    ("GroupsIn, by another source", nothing, "trace", "open from eni-c tcp 10.1.3.10 10.1.1.10 1 5432", "stopped GroupsIn eni-a -", "no inbound rule of sg-a allows tcp 5432 from 10.1.3.10. There is no inbound rule at all.",
     "an inbound rule of sg-a would have to allow tcp 5432 from 10.1.3.10", act(permitted, "sg-a", False, "10.1.3.10/32", port=5432)),
    ("GroupsIn of a reply", behind_appliance, "ask", "from eni-a to eni-b port 5432-5432", "reply GroupsIn eni-f -",
     "no inbound rule of sg-f allows tcp 0 from 10.2.1.10, and it answers no connection that passed eni-f before. There is no inbound rule at all.", "or its request to have passed here before", act(permitted, "sg-f", False, "10.2.1.10/32")),
    ("GroupsIn of a reply, by the way of the request", behind_appliance, "ask", "from eni-a to eni-b port 5432-5432", "reply GroupsIn eni-f -", "it answers no connection that passed eni-f before", "or its request to have passed here before",
     several(act(routed, "rtb-a", "10.2.1.10/32", NetworkInterfaceId="eni-f"), act(permitted, "sg-f", False, "10.2.1.10/32", "udp"), act(permitted, "sg-f", True, ANYWHERE, "-1"), act(permitted, "sg-f", False, "10.1.1.10/32", "-1"),
             lambda bundle: row(bundle, "rtb-n")["Routes"].insert(0, {"DestinationCidrBlock": "10.2.0.0/16", "TransitGatewayId": "tgw-1"}))),
    ("GroupsIn, by a group that may not be named over a transit gateway", several(act(named, "sg-b", False, "sg-a"), act(naming, "disable", "enable")), "trace", TO_B.format(443), "stopped GroupsIn eni-b -",
     "sg-a, which 10.1.1.10 belongs to, doesn't count here: it is in vpc-a (shop), which no active peering joins to vpc-b; over tgw-1 it would count if SecurityGroupReferencingSupport of tgw-1 (disable) and att-b (not told) were enable.",
     "an inbound rule of sg-b (database of the shop) would have to allow tcp 443 from 10.1.1.10", act(naming, "enable", "enable", "enable")),
    ("GroupsIn, by one of which nothing is told", act(named, "sg-b", False, "sg-a"), "trace", TO_B.format(443), "stopped GroupsIn eni-b -",
     "over tgw-1 it would count if SecurityGroupReferencingSupport of tgw-1 (not told), att-b (not told) and att-a (not told) were enable.", "would have to allow tcp 443 from 10.1.1.10",
     act(updated, "pcx-1", Status={"Code": "active"})),
    ("GroupsIn, by a prefix of a member", several(act(named, "sg-b", False, "sg-a"), act(delegated, "eni-a", "10.1.1.64/28")), "trace", "open from eni-a tcp 10.1.1.65 10.2.1.10 5000 443", "stopped GroupsIn eni-b -",
     "sg-a, which 10.1.1.65 belongs to, doesn't count here: it is in vpc-a (shop)", "would have to allow tcp 443 from 10.1.1.65", act(updated, "pcx-1", Status={"Code": "active"})),
    ("GroupsIn, by one in another VPC", several(act(named, "sg-b", False, "sg-a"), act(updated, "att-a", TransitGatewayId="tgw-2"), act(routed, "rtb-a", "10.2.1.10/32", TransitGatewayId="tgw-2")), "trace", TO_B.format(443), "stopped GroupsIn eni-b -",
     "sg-a, which 10.1.1.10 belongs to, doesn't count here: it is in vpc-a (shop), which no active peering joins to vpc-b.", "would have to allow tcp 443 from 10.1.1.10",
     lambda bundle: bundle.update(SecurityGroupVpcAssociations=[{"GroupId": "sg-a", "VpcId": "vpc-b", "State": "associated"}])),
    ("GroupsIn, by a rule of a group of two VPCs", of_two_vpcs, "trace", TO_B.format(443), "stopped GroupsIn eni-b -", "it is in vpc-a (shop), which no active peering joins to vpc-b; over tgw-1", "an inbound rule of sg-s would have to allow tcp 443 from 10.1.1.10",
     lambda bundle: bundle["SecurityGroupVpcAssociations"][0].update(State="disassociating")),
    ("GroupsIn, by a group of two other VPCs", several(act(named, "sg-b", False, "sg-a"), lambda bundle: bundle.update(SecurityGroupVpcAssociations=[{"GroupId": "sg-a", "VpcId": "vpc-9", "State": "associated"}])), "trace", TO_B.format(443),
     "stopped GroupsIn eni-b -", "it is in vpc-a (shop) and vpc-9, none of which an active peering joins to vpc-b; over tgw-1", "would have to allow tcp 443 from 10.1.1.10",
     lambda bundle: bundle["VpcPeeringConnections"].append({"VpcPeeringConnectionId": "pcx-9", "Status": {"Code": "active"}, "RequesterVpcInfo": {"VpcId": "vpc-9"}, "AccepterVpcInfo": {"VpcId": "vpc-b"}})),
    ("GroupsOut, by a group over a transit gateway", several(act(updated, "sg-a", IpPermissionsEgress=[]), act(named, "sg-a", True, "sg-b", 5432), act(naming, "enable", "enable", "enable")), "trace", TO_B.format(5432), "stopped GroupsOut eni-a -",
     "sg-b (database of the shop), which 10.2.1.10 belongs to, doesn't count here: it is in vpc-b, which no active peering joins to vpc-a (shop); outbound rules name no group over a transit gateway.",
     "an outbound rule of sg-a would have to allow tcp 5432 to 10.2.1.10", act(updated, "pcx-1", Status={"Code": "active"})),
    ("NotAHost", act(updated, "nat-1", State="deleted"), "trace", TO_NET.format("10.1.3.5"), "stopped NotAHost eni-n -", "eni-n is the interface of a gateway (its type is nat_gateway), and hosts nothing at 10.1.3.5",
     "go to the address of a host's interface", TO_NET.format("10.1.3.10")),
    ("NotAHost, by a route", act(routed, "rtb-a", "192.0.2.0/24", NetworkInterfaceId="eni-n"), "trace", TO_NET.format("192.0.2.1"), "stopped NotAHost eni-n -", "eni-n is the interface of a gateway (its type is nat_gateway), and hosts nothing",
     "the route 192.0.2.0/24 to eni-n of rtb-a would have to lead to a host's interface", act(lambda bundle: route(bundle, "rtb-a", "192.0.2.0/24").update(NetworkInterfaceId="eni-f"))),
    ("ApplianceDrop", act(routed, "rtb-a", "192.0.2.0/24", NetworkInterfaceId="eni-f"), "trace", "open from eni-a tcp 10.1.1.10 192.0.2.1 5000 80", "stopped ApplianceDrop eni-f -",
     "the appliance at eni-f forwards tcp and udp to and from port 443 alone, and not tcp from 10.1.1.10 port 5000 to 192.0.2.1 port 80", "what is told of it in Appliances would have to forward", lambda bundle: bundle["Appliances"][0].update(Kind="all")),
    ("NoRoute", nothing, "trace", "open from eni-b tcp 10.2.1.10 192.0.2.1 5000 443", "stopped GroupsOut eni-b -", "There is no outbound rule at all", "an outbound rule of sg-b", act(permitted, "sg-b", True, ANYWHERE, "-1")),
    ("NoRoute", act(permitted, "sg-b", True, ANYWHERE, "-1"), "trace", "open from eni-b tcp 10.2.1.10 192.0.2.1 5000 443", "stopped NoRoute rtb-b -", "rtb-b, the table of subnet-b, has no route for 192.0.2.1", "a route of rtb-b would have to hold 192.0.2.1",
     act(routed, "rtb-b", "192.0.2.0/24", TransitGatewayId="tgw-1")),
    ("Blackhole", act(routed, "rtb-a", "10.2.1.0/24", VpcPeeringConnectionId="pcx-9", State="blackhole"), "trace", TO_B.format(5432), "stopped Blackhole rtb-a 10.2.1.0/24",
     "its route 10.2.1.0/24 to pcx-9, which is chosen for 10.2.1.10, is a blackhole", "the route 10.2.1.0/24 of rtb-a would have to lead to a target that is there, or be deleted", lambda bundle: row(bundle, "rtb-a")["Routes"].pop(0)),
    ("AclOut", act(ruled, "acl-a", 90, True, False, "10.2.0.0/16", PortRange={"From": 5000, "To": 6000}), "trace", TO_B.format(5432), "stopped AclOut acl-a 90",
     "outbound row 90 of acl-a denies tcp 5000 to 6000 to 10.2.0.0/16, and so refuses tcp 5432 to 10.2.1.10 on its way out of subnet-a", "an outbound row of acl-a with a number below 90 would have to allow tcp 5432 to 10.2.1.10",
     act(ruled, "acl-a", 89, True, True, "10.2.1.10/32", PortRange={"From": 5432, "To": 5432})),
    ("AclIn", lambda bundle: row(bundle, "acl-a")["Entries"].pop(0), "trace", TO_NET.format("10.1.3.10"), "stopped AclIn acl-a 32767", "no inbound row of acl-a allows tcp 443 from 10.1.1.10 on its way into subnet-n; its last row, 32767, refuses the rest",
     "an inbound row of acl-a with a number below 32767 would have to allow tcp 443 from 10.1.1.10", act(ruled, "acl-a", 7, False, True, "10.1.1.10/32", PortRange={"From": 443, "To": 443})),
    ("AclIn by row 1", act(ruled, "acl-a", 1, False, False), "trace", TO_NET.format("10.1.3.10"), "stopped AclIn acl-a 1", "inbound row 1 of acl-a denies all protocols from anywhere", "inbound row 1 of acl-a would have to allow tcp 443 from 10.1.1.10, or be deleted",
     lambda bundle: row(bundle, "acl-a")["Entries"].pop()),
    ("NoHost", nothing, "trace", TO_NET.format("10.1.9.9"), "stopped NoHost vpc-a -", "no interface of VPC vpc-a (shop) has the address 10.1.9.9", "an interface of vpc-a (shop) would have to have 10.1.9.9",
     lambda bundle: bundle["NetworkInterfaces"].append({"NetworkInterfaceId": "eni-z", "SubnetId": "subnet-a", "PrivateIpAddress": "10.1.9.9"})),
    ("NoHost, beside a prefix", act(delegated, "eni-a", "10.1.9.0/28"), "trace", TO_NET.format("10.1.9.16"), "stopped NoHost vpc-a -", "no interface of VPC vpc-a (shop) has the address 10.1.9.16", "an interface of vpc-a (shop) would have to have 10.1.9.16",
     act(updated, "eni-a", Ipv4Prefixes=[{"Ipv4Prefix": "10.1.9.0/27"}])),
    ("NoGateway", several(act(updated, "eni-b", PrivateIpAddresses=[{"PrivateIpAddress": "10.2.1.10", "Association": {"PublicIp": "203.0.113.30"}}])), "trace", "open from internet tcp 198.51.100.7 203.0.113.30 1 2", "stopped NoGateway vpc-b -",
     "203.0.113.30 is a public address of eni-b, in VPC vpc-b, and no internet gateway is attached to that VPC", "an internet gateway would have to be attached to vpc-b", act(updated, "igw-2", Attachments=[{"State": "available", "VpcId": "vpc-b"}])),
    ("GatewayDetached", act(routed, "rtb-a", "192.0.2.0/24", GatewayId="igw-2"), "trace", TO_NET.format("192.0.2.1"), "stopped GatewayDetached igw-2 -", "the route 192.0.2.0/24 to igw-2 of rtb-a leads to igw-2, which isn't attached to VPC vpc-a (shop)",
     "igw-2 would have to be attached to VPC vpc-a (shop), or the route to lead to igw-1, which is", lambda bundle: route(bundle, "rtb-a", "192.0.2.0/24").update(GatewayId="igw-1")),
    ("NoPublic", act(routed, "rtb-a", "192.0.2.0/24", GatewayId="igw-1"), "trace", TO_NET.format("192.0.2.1"), "stopped NoPublic igw-1 -", "10.1.1.10, an address of eni-a (web one), has no public address", "10.1.1.10 would have to get a public address, or the route to lead to a NAT gateway",
     act(updated, "eni-a", PrivateIpAddresses=[{"PrivateIpAddress": "10.1.1.10", "Association": {"PublicIp": "203.0.113.20"}}])),
    ("NoPublic, of a prefix", several(act(routed, "rtb-a", "192.0.2.0/24", GatewayId="igw-1"), act(delegated, "eni-a", "10.1.1.64/28")), "trace", "open from eni-a tcp 10.1.1.65 192.0.2.1 1 2", "stopped NoPublic igw-1 -",
     "10.1.1.65, in the prefix 10.1.1.64/28 of eni-a (web one), has no public address", "10.1.1.65 would have to get a public address, or the route to lead to a NAT gateway",
     act(updated, "eni-a", PrivateIpAddresses=[{"PrivateIpAddress": "10.1.1.65", "Association": {"PublicIp": "203.0.113.20"}}])),
    ("NoPublic, for a NAT gateway", act(routed, "rtb-a", "192.0.2.0/24", GatewayId="igw-1"), "trace", TO_NET.format("192.0.2.1"), "stopped NoPublic igw-1 -", "has no public address", "or the route to lead to a NAT gateway",
     lambda bundle: (route(bundle, "rtb-a", "192.0.2.0/24").pop("GatewayId"), route(bundle, "rtb-a", "192.0.2.0/24").update(NatGatewayId="nat-1"))),
    ("BlockPublicAccess", act(blocked, "subnet-n", "block-ingress"), "trace", "open from internet tcp 198.51.100.7 203.0.113.10 1 2", "stopped BlockPublicAccess subnet-n block-ingress",
     "block public access of subnet-n is block-ingress: an internet gateway carries nothing from or to its interfaces but what its NAT gateways open, and the answers to that. 203.0.113.10 is a public address of eni-c, which is there.",
     "it would have to be off there, by an exclusion of subnet-n or of vpc-a (shop), or for the whole account.", act(blocked, "subnet-n", "off")),
    ("BlockPublicAccess, by VPC and outward", act(blocked, "vpc-a", "block-bidirectional"), "trace", "open from eni-c tcp 10.1.3.10 198.51.100.7 1 2", "stopped BlockPublicAccess subnet-n block-bidirectional",
     "block public access of subnet-n is block-bidirectional, as that of VPC vpc-a (shop) is: an internet gateway carries nothing from or to its interfaces. 10.1.3.10 is an address of eni-c, which is there.",
     "it would have to be off there, by an exclusion of subnet-n or of vpc-a (shop), or for the whole account.", act(blocked, "subnet-n", "off")),
    ("BlockPublicAccess, outward without a NAT gateway", act(blocked, "subnet-n", "block-ingress"), "trace", "open from eni-c tcp 10.1.3.10 198.51.100.7 1 2", "stopped BlockPublicAccess subnet-n block-ingress",
     "10.1.3.10 is an address of eni-c, which is there.", "or the route to lead to a NAT gateway", lambda bundle: route(bundle, "rtb-n", ANYWHERE).update(GatewayId=None, NatGatewayId="nat-1")),
    ("BlockPublicAccess, behind a NAT gateway", act(blocked, "subnet-n", "block-bidirectional"), "trace", TO_NET.format("198.51.100.7"), "stopped BlockPublicAccess subnet-n block-bidirectional",
     "10.1.3.5 is an address of eni-n, which is there.", "it would have to be off or block-ingress there, by an exclusion of subnet-n", act(blocked, "subnet-n", "block-ingress")),
    ("BlockPublicAccess of a reply", several(public_way, act(blocked, "subnet-a", "block-ingress"), act(routed, "rtb-a", "198.51.100.0/24", GatewayId="igw-1")), "replay", "answer from eni-a tcp 10.1.1.10 198.51.100.7 22 5000", "event 1 stopped BlockPublicAccess subnet-a block-ingress",
     "block public access of subnet-a is block-ingress: an internet gateway carries nothing from or to its interfaces but what its NAT gateways open, and the answers to that.", "it would have to be off there", act(blocked, "subnet-a", "off")),
    ("PrivateAddress", nothing, "trace", TO_NET.format("10.9.0.1"), "stopped PrivateAddress internet -", "its destination 10.9.0.1 is non-routable", "its destination 10.9.0.1 would have to be a public address", TO_NET.format("198.51.100.7")),
    ("PrivateAddress, both", nothing, "trace", "open from internet tcp 10.9.0.1 192.168.0.1 1 2", "stopped PrivateAddress internet -", "its source 10.9.0.1 and its destination 192.168.0.1 are non-routable", "would have to be public addresses",
     "open from internet tcp 198.51.100.7 203.0.113.10 1 2"),
    ("PrivateAddress, by a route", nothing, "trace", TO_NET.format("10.9.0.1"), "stopped PrivateAddress internet -", "10.9.0.1", "or routes to keep the packet off the internet", act(routed, "rtb-a", "10.9.0.0/16", TransitGatewayId="tgw-1")),
    ("NatNotAvailable", act(updated, "nat-1", State="failed"), "trace", TO_NET.format("198.51.100.7"), "stopped NatNotAvailable nat-1 -", "the state of NAT gateway nat-1 is failed", "the route 0.0.0.0/0 to nat-1 of rtb-a would have to lead to a NAT gateway that is available",
     act(updated, "nat-1", State="available")),
    ("NatAnswer", public_way, "ask", "from internet to eni-a src 198.51.100.7/32 dst 203.0.113.20/32 port 22-22", "reply NatAnswer nat-1 -", "the packet is an answer, and a NAT gateway sends out only what opens a connection",
     "would have to lead back the way that the request came, as to the internet gateway", act(routed, "rtb-a", "198.51.100.0/24", GatewayId="igw-1")),
    ("NatProtocol", nothing, "trace", "open from eni-a 50 10.1.1.10 198.51.100.7 0 0", "stopped NatProtocol nat-1 -", "the packet is protocol 50, and a NAT gateway carries TCP, UDP and ICMP alone", "would have to be one of these", "open from eni-a udp 10.1.1.10 198.51.100.7 1 2"),
    ("NatFull", nothing, "replay", "\n".join(f"open from eni-a tcp 10.1.1.10 198.51.100.7 {1024 + k} 443" for k in range(MANY + 1)), f"event {MANY + 1} stopped NatFull nat-1 -", "55,000 connections over nat-1 share its protocol, destination and destination port already",
     "fewer connections would have to go there at a time", "\n".join(f"open from eni-a tcp 10.1.1.10 198.51.100.7 {1024 + k} 443" for k in range(MANY))),
    ("NatUnsolicited", nothing, "trace", "open from internet tcp 198.51.100.7 203.0.113.5 443 5000", "stopped NatUnsolicited nat-1 -", "NAT gateway nat-1 lets in only the answers to what it sent out", "or the packet to go to a public address that is the host's own",
     "open from internet tcp 198.51.100.7 203.0.113.10 443 5000"),
    ("NatUnsolicited, replayed", nothing, "replay", "answer from internet tcp 198.51.100.7 203.0.113.5 443 5000", "event 1 stopped NatUnsolicited nat-1 -", "it answers nothing that went out there: NAT gateway nat-1 lets in only the answers",
     "the connection would have to be opened from inside", "open from eni-a tcp 10.1.1.10 198.51.100.7 5000 443\nanswer from internet tcp 198.51.100.7 203.0.113.5 443 5000"),
    ("PeerNotActive", act(updated, "pcx-1", Status={"Code": "pending-acceptance"}), "trace", TO_NET.format("10.2.9.1"), "stopped PeerNotActive pcx-1 -", "the status of peering pcx-1 is pending-acceptance", "pcx-1 would have to be active", act(updated, "pcx-1", Status={"Code": "active"})),
    ("PeerSource", act(updated, "eni-a", SourceDestCheck=False), "trace", "open from eni-a tcp 172.16.0.1 10.2.9.1 1 2", "stopped PeerSource pcx-1 -", "the source 172.16.0.1 lies in no block of vpc-a (shop) (10.1.0.0/16)", "the source would have to lie in a block of vpc-a (shop)",
     act(updated, "vpc-a", CidrBlockAssociationSet=[{"CidrBlock": "172.16.0.0/24"}])),
    ("PeerDestination", nothing, "trace", TO_NET.format("10.7.0.1"), "stopped PeerDestination pcx-1 -", "the destination 10.7.0.1 lies in no block of vpc-b (10.2.0.0/16), the VPC at the other side", "the destination would have to lie in a block of vpc-b",
     act(updated, "vpc-b", CidrBlockAssociationSet=[{"CidrBlock": "10.7.0.0/24"}])),
    ("TgwNoAttachment", act(updated, "att-a", State="deleting"), "trace", TO_B.format(5432), "stopped TgwNoAttachment tgw-1 -", "transit gateway tgw-1 has no attachment to VPC vpc-a (shop) that is available", "VPC vpc-a (shop) would have to be attached to tgw-1", act(updated, "att-a", State="available")),
    ("TgwNoZone", several(act(updated, "att-a", SubnetIds=["subnet-n"]), act(updated, "subnet-n", AvailabilityZone="z9")), "trace", TO_B.format(5432), "stopped TgwNoZone att-a -", "attachment att-a has no subnet in zone z1, that of subnet-a", "att-a would have to get a subnet in zone z1",
     act(updated, "att-a", SubnetIds=["subnet-n", "subnet-a"])),
    ("TgwNoTable", lambda bundle: bundle["TransitGatewayAttachments"].pop(0), "trace", TO_B.format(5432), "stopped TgwNoTable att-a -", "attachment att-a is associated with no route table", "att-a would have to be associated with a route table of the transit gateway",
     lambda bundle: bundle["TransitGatewayAttachments"].append({"TransitGatewayAttachmentId": "att-a", "Association": {"TransitGatewayRouteTableId": "tgw-rtb"}})),
    ("TgwNoRoute", lambda bundle: row(bundle, "tgw-rtb")["Routes"].pop(), "trace", TO_B.format(5432), "stopped TgwNoRoute tgw-rtb -", "tgw-rtb, the transit gateway's table of att-a, has no route for 10.2.1.10", "a route of tgw-rtb would have to hold 10.2.1.10",
     lambda bundle: row(bundle, "tgw-rtb")["Routes"].append({"DestinationCidrBlock": "10.2.1.0/24", "Type": "static", "State": "active", "TransitGatewayAttachments": [{"TransitGatewayAttachmentId": "att-b"}]})),
    ("TgwBlackhole", lambda bundle: row(bundle, "tgw-rtb")["Routes"].append({"DestinationCidrBlock": "10.2.1.0/24", "Type": "static", "State": "blackhole"}), "trace", TO_B.format(5432), "stopped TgwBlackhole tgw-rtb 10.2.1.0/24",
     "the route 10.2.1.0/24 of tgw-rtb, which is chosen for 10.2.1.10, is a blackhole", "would have to lead to an attachment, or be deleted", lambda bundle: row(bundle, "tgw-rtb")["Routes"].pop()),
    ("FarDetached", several(act(vpn, "vpc-b"), act(routed, "rtb-a", "192.0.2.0/24", GatewayId="vgw-1")), "trace", TO_NET.format("192.0.2.1"), "stopped FarDetached vgw-1 -",
     "the route 192.0.2.0/24 to vgw-1 of rtb-a leads to virtual private gateway vgw-1, which isn't attached to VPC vpc-a (shop).", "vgw-1 would have to be attached to VPC vpc-a (shop)", act(vpn, "vpc-a")),
    ("FarDetached, from there", act(vpn, "vpc-9"), "trace", FROM_VGW, "stopped FarDetached vgw-1 -", "virtual private gateway vgw-1 is attached to no VPC that is described, so nothing comes in by it.", "vgw-1 would have to be attached to a VPC that is described", act(vpn, "vpc-a")),
    ("FarDetached, replayed", act(vpn, "vpc-9"), "replay", FROM_VGW, "event 1 stopped FarDetached vgw-1 -", "virtual private gateway vgw-1 isn't attached to the VPC.", "vgw-1 would have to be attached to the VPC whose packets it carries", act(vpn, "vpc-a")),
    ("FarNoTable", attached_vpn, "trace", "open from att-vpn tcp 172.20.0.1 10.2.1.10 1 5432", "stopped FarNoTable att-vpn -", "attachment att-vpn is associated with no route table, so nothing comes in by it.", "att-vpn would have to be associated with a route table of the transit gateway",
     lambda bundle: bundle["TransitGatewayAttachments"][-1].update(Association={"TransitGatewayRouteTableId": "tgw-rtb"})),
    ("FarNoTable, of a table that isn't there", act(attached_vpn, "tgw-rtb-9"), "ask", "from att-vpn to eni-b src 10.1.1.10/32 dst 10.2.1.10/32 port 5432-5432", "request FarNoTable att-vpn -", "attachment att-vpn is associated with tgw-rtb-9, whose routes aren't described, so nothing comes in by it.",
     "att-vpn would have to be associated with a route table of the transit gateway", lambda bundle: bundle["TransitGatewayAttachments"][-1].update(Association={"TransitGatewayRouteTableId": "tgw-rtb"})),
    ("FarSource", service_elsewhere, "trace", "open from eni-b tcp 10.2.1.10 52.216.0.1 5000 443", "stopped FarSource vpce-s3 -", "10.2.1.10 lies in no block of vpc-a (shop) (10.1.0.0/16), and gateway endpoint vpce-s3 serves the hosts of its own VPC alone.",
     "the packet would have to come from a block of that VPC, or the route to lead elsewhere, as to an interface endpoint.", "open from eni-a tcp 10.1.1.10 52.216.0.1 5000 443"),
    ("FarOpens", act(endpoint, "Gateway"), "trace", "open from vpce-s3 tcp 52.216.0.1 10.1.3.10 443 5000", "stopped FarOpens vpce-s3 -", "the packet opens a connection, and what stands behind gateway endpoint vpce-s3 opens none: it only answers.",
     "the connection would have to be opened from inside, to vpce-s3.", "answer from vpce-s3 tcp 52.216.0.1 10.1.3.10 443 5000"),
    ("InspectDrop", act(firewalled, Kind="service", Ports="443-443"), "trace", "open from eni-a tcp 10.1.1.10 192.0.2.1 5000 80", "stopped InspectDrop vpce-fw -",
     "the firewall behind endpoint vpce-fw passes tcp and udp to and from port 443 alone, and not tcp from 10.1.1.10 port 5000 to 192.0.2.1 port 80.", "what is told of it in Appliances would have to forward tcp from 10.1.1.10 port 5000",
     lambda bundle: bundle["Appliances"][-1].update(Kind="all")),
    ("InspectDrop, on the way in", several(act(firewalled, Kind="none"), act(edge, "igw-1", ("10.1.3.0/24", {"GatewayId": "vpce-fw"}))), "trace", FROM_NET, "stopped InspectDrop vpce-fw -", "the firewall behind endpoint vpce-fw passes no packet, and not tcp from 198.51.100.7",
     "or a route to lead around it.", lambda bundle: row(bundle, "rtb-edge")["Routes"].pop()),
    ("PeerSource, from outside", half_peered, "trace", "open from pcx-1 tcp 10.2.1.10 10.1.1.10 1 2", "stopped PeerSource pcx-1 -", "the source 10.2.1.10 lies in no block of vpc-9 (10.2.8.0/22), and a peering carries only what its VPCs' own blocks send.",
     "the source would have to lie in a block of vpc-9", "open from pcx-1 tcp 10.2.8.10 10.1.1.10 1 2"),
    ("PeerDestination, from outside", half_peered, "trace", "open from pcx-1 tcp 10.2.8.10 10.2.9.10 1 2", "stopped PeerDestination pcx-1 -", "the destination 10.2.9.10 lies in no block of vpc-a (shop) (10.1.0.0/16), the VPC at the other side", "the destination would have to lie in a block of vpc-a (shop)",
     act(updated, "vpc-a", CidrBlockAssociationSet=[{"CidrBlock": "10.2.9.0/28"}])),
    ("PeerDestination, to outside", half_peered, "trace", TO_NET.format("10.7.0.1"), "stopped PeerDestination pcx-1 -", "the destination 10.7.0.1 lies in no block of vpc-9 (10.2.8.0/22), the VPC at the other side", "the destination would have to lie in a block of vpc-9", TO_NET.format("10.2.9.1")),
    ("PeerSource, to outside", several(half_peered, act(updated, "eni-a", SourceDestCheck=False)), "trace", "open from eni-a tcp 172.16.0.1 10.2.9.1 1 2", "stopped PeerSource pcx-1 -", "the source 172.16.0.1 lies in no block of vpc-a (shop) (10.1.0.0/16)", "the source would have to lie in a block of vpc-a (shop)",
     act(updated, "vpc-a", CidrBlockAssociationSet=[{"CidrBlock": "172.16.0.0/24"}])),
    ("TgwNoRoute, from outside", act(attached_vpn, "tgw-rtb"), "trace", "open from att-vpn tcp 172.20.0.1 10.9.1.10 1 2", "stopped TgwNoRoute tgw-rtb -", "tgw-rtb, the transit gateway's table of att-vpn, has no route for 10.9.1.10", "a route of tgw-rtb would have to hold 10.9.1.10",
     "open from att-vpn tcp 172.20.0.1 10.2.1.10 1 5432"),
    ("NoRoute, of a gateway's table", several(act(edge, "igw-1"), lambda bundle: row(bundle, "rtb-edge").update(Routes=[])), "trace", FROM_NET, "stopped NoRoute rtb-edge -", "rtb-edge, the table of igw-1, has no route for 10.1.3.10", "a route of rtb-edge would have to hold 10.1.3.10",
     act(routed, "rtb-edge", "10.1.3.0/24", GatewayId="local")),
    ("Blackhole, of a gateway's table", act(edge, "igw-1", ("10.1.3.0/24", {"GatewayId": "vpce-9", "State": "blackhole"})), "trace", FROM_NET, "stopped Blackhole rtb-edge 10.1.3.0/24", "rtb-edge: its route 10.1.3.0/24 to vpce-9, which is chosen for 10.1.3.10, is a blackhole",
     "the route 10.1.3.0/24 of rtb-edge would have to lead to a target that is there, or be deleted", lambda bundle: row(bundle, "rtb-edge")["Routes"].pop()),
    ("NotAHost, by a gateway's table", act(edge, "igw-1", ("10.1.3.0/24", {"NetworkInterfaceId": "eni-n"})), "trace", FROM_NET, "stopped NotAHost eni-n -", "eni-n is the interface of a gateway (its type is nat_gateway), and hosts nothing at 10.1.3.10",
     "the route 10.1.3.0/24 to eni-n of rtb-edge would have to lead to a host's interface", lambda bundle: row(bundle, "rtb-edge")["Routes"][1].update(NetworkInterfaceId="eni-c")),
    ("Unmodelled, by a gateway's table", several(act(vpn, "vpc-a"), act(edge, "vgw-1", ("10.1.3.0/24", {"NatGatewayId": "nat-1"}))), "trace", FROM_VGW, "stopped Unmodelled nat-1 -", "not known", "nothing that is known", lambda bundle: row(bundle, "rtb-edge")["Routes"].pop()),
    ("Unmodelled, a firewall", firewalled, "trace", TO_NET.format("192.0.2.1"), "stopped Unmodelled vpce-fw -", "not known: Appliances doesn't tell what the firewall behind endpoint vpce-fw passes.", "nothing that is known", lambda bundle: bundle["Appliances"].append({"VpcEndpointId": "vpce-fw", "Kind": "all"})),
    ("WrongPlace, for a network outside", several(act(vpn, "vpc-a"), act(permitted, "sg-b", False, "10.1.1.10/32", port=80)), "ask", "from eni-a to vgw-1 dst 10.2.1.10/32 port 80-80", "request WrongPlace eni-b -", "it arrived at eni-b as tcp from 10.1.1.10 port 0 to 10.2.1.10 port 80, and not at vgw-1",
     "the packet would have to go to an address behind vgw-1, or routes to lead it there", act(routed, "rtb-a", "10.2.1.10/32", GatewayId="vgw-1")),
    ("WrongReturn, of a network outside", several(act(attached_vpn, "tgw-rtb"), act(permitted, "sg-b", False, "10.1.0.0/16", port=5432)), "ask", "from att-vpn to eni-b src 10.1.3.10/32 dst 10.2.1.10/32 port 5432-5432", "reply WrongReturn eni-c -",
     "the request arrived, but its reply arrived at eni-c, and not at att-vpn as tcp from 10.2.1.10 port 5432 to 10.1.3.10 port 0.", "the routes of the reply would have to lead it back to att-vpn the way that the request came",
     lambda bundle: row(bundle, "tgw-rtb")["Routes"].append({"DestinationCidrBlock": "10.1.3.0/24", "Type": "static", "State": "active", "TransitGatewayAttachments": [{"TransitGatewayAttachmentId": "att-vpn"}]})),
    ("Unmodelled, a target", act(routed, "rtb-a", "192.0.2.0/24", GatewayId="vgw-1"), "trace", TO_NET.format("192.0.2.1"), "stopped Unmodelled vgw-1 -", "not known: vgw-1 leads beyond what vpc follows. The packet is neither let through nor refused here.", "nothing that is known", None),
    ("Unmodelled, a NAT gateway", act(updated, "nat-1", SubnetId=None), "trace", TO_NET.format("198.51.100.7"), "stopped Unmodelled nat-1 -", "not known: NAT gateway nat-1 has no subnet of its own", "nothing that is known", act(updated, "nat-1", SubnetId="subnet-n")),
    ("Unmodelled, a peering", act(updated, "pcx-1", AccepterVpcInfo={"VpcId": "vpc-9"}), "trace", TO_NET.format("10.2.9.1"), "stopped Unmodelled pcx-1 -", "not known: the VPC at the other side of peering pcx-1 isn't described", "nothing that is known", act(updated, "pcx-1", AccepterVpcInfo={"VpcId": "vpc-b"})),
    ("Unmodelled, an attachment", act(updated, "att-b", VpcId="vpc-9"), "trace", TO_B.format(5432), "stopped Unmodelled att-b -", "not known: attachment att-b leads to a VPC that isn't described, or has no subnet", "nothing that is known", act(updated, "att-b", VpcId="vpc-b")),
    ("Unmodelled, a transit route", lambda bundle: row(bundle, "tgw-rtb")["Routes"][1].pop("TransitGatewayAttachments"), "trace", TO_B.format(5432), "stopped Unmodelled tgw-rtb -", "not known: the chosen route of tgw-rtb names no attachment", "nothing that is known", None),
    ("Unmodelled, in a report", act(routed, "rtb-a", "192.0.2.0/24", GatewayId="vgw-1"), "ask", "from eni-a to internet dst 192.0.2.0/24", "request Unmodelled vgw-1 -", "not known: vgw-1 leads beyond what vpc follows", "nothing that is known", None),
    ("Loop", in_circle, "trace", TO_NET.format("172.20.0.1"), "stopped Loop att-a -", "the packet would come to att-a a second time: routes lead it in a circle", "one of the routes on the way would have to lead elsewhere: those of rtb-a, tgw-rtb-a, rtb-b and tgw-rtb-b",
     lambda bundle: route(bundle, "rtb-b", "172.20.0.0/16").update(DestinationCidrBlock="172.21.0.0/16")),
    ("WrongPlace", act(permitted, "sg-b", False, "10.1.1.10/32", port=80), "ask", "from eni-a to eni-c dst 10.2.1.10/32 port 80-80", "request WrongPlace eni-b -", "nothing stopped it, but it arrived at eni-b as tcp from 10.1.1.10 port 0 to 10.2.1.10 port 80, and not at eni-c",
     "the packet would have to go to an address of eni-c", "from eni-a to eni-c dst 10.1.3.10/32 port 80-80"),
    ("WrongPlace, for the internet", nothing, "ask", "from eni-a to internet dst 203.0.113.10/32 port 80-80", "request WrongPlace eni-c -", "it arrived at eni-c", "the packet would have to go to an address that is none of the bundle's public ones", "from eni-a to internet dst 198.51.100.7/32 port 80-80"),
    ("WrongReturn", borrowed_address, "ask", "from eni-a to eni-b src 10.1.3.10/32 port 5432-5432", "reply WrongReturn eni-c -", "the request arrived, but its reply arrived at eni-c, and not at eni-a (web one) as tcp from 10.2.1.10 port 5432 to 10.1.3.10 port 0.",
     "the request would have to come from an address of eni-a (web one)", "from eni-a to eni-b src 10.1.1.10/32 port 5432-5432"),
    ("WrongReturn, beside a prefix", several(borrowed_address, act(delegated, "eni-a", "10.1.1.64/28")), "ask", "from eni-a to eni-b src 10.1.3.10/32 port 5432-5432", "reply WrongReturn eni-c -", "the request arrived, but its reply arrived at eni-c",
     "the request would have to come from an address of eni-a (web one)", "from eni-a to eni-b src 10.1.1.79/32 port 5432-5432"),
    ("WrongReturn, by a route", borrowed_address, "ask", "from eni-a to eni-b src 10.1.3.10/32 port 5432-5432", "reply WrongReturn eni-c -", "the request arrived, but its reply arrived at eni-c", "or routes to lead its reply to eni-a (web one)",
     act(routed, "rtb-a", "10.1.3.10/32", NetworkInterfaceId="eni-a")),
    ("NoReply", act(permitted, "sg-b", False, "10.1.1.10/32", "icmp"), "ask", "from eni-a to eni-b proto icmp port 771-771", "reply NoReply eni-b -", "icmp type 3 code 3 is no echo request (type 8 code 0), so nothing comes back", "only an echo request is answered", "from eni-a to eni-b proto icmp port 2048-2048"),
    ("TooFar", None, "trace", "open from eni-1 tcp 10.1.1.10 172.20.0.1 1 2", "stopped TooFar subnet-22 -", "the packet has come to 64 places without arriving, and would come to subnet-22 next", "one of the routes on the way would have to lead elsewhere", lambda bundle: bundle["TransitGatewayRoutes"][9]["Routes"].pop()),
]


class Results:
    def __init__(self):
        self.passed = self.failed = 0

    def add(self, name, found, wanted):
        if found == wanted:
            self.passed += 1
            return
        self.failed += 1
        print(f"FAILED: {name}\n  wanted: {str(wanted)[:900]}\n  found:  {str(found)[:900]}")


class Input:
    """Standard input, for a call within this process."""

    def __init__(self, data):
        self.buffer = io.BytesIO(data)


def stand_in(program, folder):
    """Has explain ask PROGRAM, or what stands in its place."""
    path = os.path.join(folder, "base.json")
    with open(path, "w", encoding="utf-8") as file:
        json.dump(BASE, file)
    ran = subprocess.run([program, "why", path, *TO_B.format(22).split()], capture_output=True, check=False)
    if ran.returncode in (0, 1):
        explain_program.LAUNCHER = program
        return True
    explain_program.Program.printed = lambda self, words: printed_why(self.bundle, words)
    return False


def printed_why(path, words):
    try:
        return follow.why(path, words).encode()
    except ODD:
        raise Refused(f"{path} is no bundle that vpc accepts") from None


@contextlib.contextmanager
def no_program():
    """explain as where no program stands beside it."""
    before, explain_program.LAUNCHER = explain_program.LAUNCHER, "none"
    try:
        yield
    finally:
        explain_program.LAUNCHER = before


def explain(data, *words):
    """The status of explain, called within this process, and what it prints."""
    out, err = io.StringIO(), io.StringIO()
    before, sys.stdin = sys.stdin, Input(data.encode() if isinstance(data, str) else data)
    try:
        with contextlib.redirect_stdout(out), contextlib.redirect_stderr(err):
            status = script.main(list(words))
    finally:
        sys.stdin = before
    return status, out.getvalue(), err.getvalue()


class Asked:
    """The program, over bundles in a folder."""

    def __init__(self, program, folder):
        self.program, self.folder, self.path = program, folder, os.path.join(folder, "bundle.json")

    def answer(self, bundle, command, words):
        """The text of a command over a bundle, which stands at self.path then."""
        with open(self.path, "w", encoding="utf-8") as file:
            json.dump(bundle, file)
        if command in ("replay", "check"):
            second = os.path.join(self.folder, "second")
            with open(second, "w", encoding="utf-8") as file:
                file.write(words)
            words = second
        ran = subprocess.run([self.program, command, self.path, *words.split()], capture_output=True, check=False)
        return ran.stdout.decode()


def sentences_due(network, stop):
    """The sentences that may stand of a stop: all, and such as say less, of a label, a subnet or a packet that isn't known."""
    facts = [stop.facts, {**stop.facts, "label": None}, {**stop.facts, "subnet": None}, {**stop.facts, "label": None, "subnet": None}, {}]
    return [stop_lines(Teller(network), stop._replace(facts=it)) for it in facts if it or stop.name not in ("NoGateway",)]


def sentences(text):
    """What is told why, and what would have to change."""
    return re.findall(r"^  Why: (.*)$", text, re.M), re.findall(r"^  To change: (.*)$", text, re.M)


def run_stop(results, asked, it):
    name, differs, command, words, stop, why, change, act_of = it
    bundle = copy.deepcopy(BASE)
    if differs is None:
        with open(os.path.join(DATA, "sites_in_a_row.json"), encoding="utf-8") as file:
            bundle = json.load(file)
    else:
        differs(bundle)
    text = asked.answer(bundle, command, words)
    results.add(f"{name}: stops", stop in text, True)
    status, out, err = explain(text, asked.path)
    whys, changes = sentences(out)
    results.add(f"{name}: told", (status, err, len(whys), len(whys) == len(changes)), (0, "", 1, True))
    results.add(f"{name}: why", [why] if any(why in it for it in whys) else whys, [why])
    results.add(f"{name}: names the component", stop.split(" ")[-2] in out, True)
    results.add(f"{name}: to change", [change] if any(change in it for it in changes) else changes, [change])
    if isinstance(act_of, str):
        results.add(f"{name}: changed", stop in asked.answer(bundle, command, act_of), False)
    if command == "trace":
        why = follow.why(asked.path, words.split())
        results.add(f"{name}: by the text of why", explain(why, asked.path), (status, out, err))
    with no_program():
        alone = explain(text, asked.path)
        results.add(f"{name}: without a program", (alone[0], alone[2], len(sentences(alone[1])[0])), (0, "", 1))
        if command == "trace":
            results.add(f"{name}: by the text of why, without a program", sentences(explain(why, asked.path)[1]), (whys, changes))
    if act_of and not isinstance(act_of, str):
        act_of(bundle)
        changed = asked.answer(bundle, command, words)
        results.add(f"{name}: changed", (stop in changed, changed.startswith("refused")), (False, False))


# ---- networks made at random

def opened(bundle, group, outward, far, h):
    """The rule that a group lacks."""
    proto = {"IpProtocol": str(h.proto)}
    ports = {"FromPort": h.q, "ToPort": h.q} if h.proto in (6, 17) else {"FromPort": h.q // 256, "ToPort": h.q % 256} if h.proto == 1 else {}
    if any(it["GroupId"] == group and ("CidrIpv4" in it or "ReferencedGroupInfo" in it) for it in bundle.get("SecurityGroupRules", [])):
        bundle["SecurityGroupRules"].append({"SecurityGroupRuleId": "sgr-new", "GroupId": group, "IsEgress": outward, **proto, **ports, "CidrIpv4": far})
    else:
        next(it for it in bundle["SecurityGroups"] if it["GroupId"] == group)["IpPermissionsEgress" if outward else "IpPermissions"].append({**proto, **ports, "IpRanges": [{"CidrIp": far}]})


def by_id(bundle, name, member, wanted):
    return next(it for it in bundle[name] if it.get(member) == wanted)


def mended(bundle, stop):
    """Changes a bundle as the sentence of a stop says. Whether there is such a change that a test can make."""
    facts, h = stop.facts, stop.facts.get("header")
    if stop.name in ("GroupsIn", "GroupsOut"):
        interface = by_id(bundle, "NetworkInterfaces", "NetworkInterfaceId", stop.id)
        outward = stop.name == "GroupsOut"
        opened(bundle, interface["Groups"][-1]["GroupId"], outward, f"{dotted(h.dst if outward else h.src)}/32", h)
    elif stop.name in ("AclIn", "AclOut"):
        entries, outward = by_id(bundle, "NetworkAcls", "NetworkAclId", stop.id)["Entries"], stop.name == "AclOut"
        if stop.rule == "1":
            entries[:] = [it for it in entries if it["RuleNumber"] != 1 or it["Egress"] != outward]
        else:
            entries.append({"RuleNumber": int(stop.rule) - 1, "Egress": outward, "Protocol": str(h.proto), "RuleAction": "allow", "CidrBlock": f"{dotted(h.dst if outward else h.src)}/32"})
    elif stop.name == "NoRoute":
        by_id(bundle, "RouteTables", "RouteTableId", stop.id)["Routes"].append({"DestinationCidrBlock": f"{dotted(h.dst)}/32", "GatewayId": "vgw-9"})
    elif stop.name == "Blackhole":
        routes = by_id(bundle, "RouteTables", "RouteTableId", stop.id)["Routes"]
        routes[:] = [it for it in routes if it.get("State") != "blackhole" or stop.rule not in (it.get("DestinationPrefixListId"), block_text(it.get("DestinationCidrBlock")))]
    elif stop.name == "NoHost":
        subnet = next(it for it in bundle["Subnets"] if it["VpcId"] == stop.id)["SubnetId"]
        bundle["NetworkInterfaces"].append({"NetworkInterfaceId": "eni-new", "SubnetId": subnet, "PrivateIpAddress": dotted(h.dst)})
    elif stop.name == "Detached":
        by_id(bundle, "NetworkInterfaces", "NetworkInterfaceId", stop.id)["Status"] = "in-use"
        for it in (it for row_of in bundle.get("Reservations", []) for it in row_of["Instances"]):
            if stop.id in [eni["NetworkInterfaceId"] for eni in it["NetworkInterfaces"]]:
                it["State"] = {"Name": "running"}
    elif stop.name == "BlockPublicAccess":
        by_id(bundle, "Subnets", "SubnetId", stop.id)["BlockPublicAccessStates"] = {"InternetGatewayBlockMode": "off"}
    elif stop.name in ("SourceCheck", "DestCheck"):
        by_id(bundle, "NetworkInterfaces", "NetworkInterfaceId", stop.id)["SourceDestCheck"] = False
    elif stop.name == "ApplianceDrop":
        by_id(bundle, "Appliances", "NetworkInterfaceId", stop.id)["Kind"] = "all"
    elif stop.name in ("NoGateway", "GatewayDetached"):
        vpc = stop.id if stop.name == "NoGateway" else facts["vpc"]
        bundle.setdefault("InternetGateways", []).append({"InternetGatewayId": "igw-new", "Attachments": [{"State": "available", "VpcId": vpc}]})
    elif stop.name == "NoPublic" and facts["host"]:
        interface = by_id(bundle, "NetworkInterfaces", "NetworkInterfaceId", facts["host"].id)
        # (one of a prefix is to be assigned before it has one)
        found = [it for it in interface["PrivateIpAddresses"] if it["PrivateIpAddress"] != dotted(h.src)]
        interface["PrivateIpAddresses"] = [*found, {"PrivateIpAddress": dotted(h.src), "Association": {"PublicIp": "192.0.2.99"}}]
    elif stop.name == "PeerNotActive":
        by_id(bundle, "VpcPeeringConnections", "VpcPeeringConnectionId", stop.id)["Status"]["Code"] = "active"
    elif stop.name == "FarDetached" and "vpc" in facts:
        by_id(bundle, "VpnGateways", "VpnGatewayId", stop.id)["VpcAttachments"] = [{"VpcId": facts["vpc"], "State": "attached"}]
    elif stop.name == "InspectDrop":
        by_id(bundle, "Appliances", "VpcEndpointId", stop.id)["Kind"] = "all"
    elif stop.name in ("PeerSource", "PeerDestination"):
        vpc, far = (facts["vpc"], h.src) if stop.name == "PeerSource" else (facts["other"], h.dst)
        if not any(it["VpcId"] == vpc for it in bundle["Vpcs"]):
            # (the blocks of its side tell it)
            peering = by_id(bundle, "VpcPeeringConnections", "VpcPeeringConnectionId", stop.id)
            side = next(peering[it] for it in ("RequesterVpcInfo", "AccepterVpcInfo") if peering[it]["VpcId"] == vpc)
            side["CidrBlockSet"] = [{"CidrBlock": f"{dotted(far)}/32"}]
            return True
        by_id(bundle, "Vpcs", "VpcId", vpc)["CidrBlockAssociationSet"] = [{"CidrBlock": f"{dotted(far)}/32"}]
    elif stop.name == "TgwNoZone":
        by_id(bundle, "TransitGatewayVpcAttachments", "TransitGatewayAttachmentId", stop.id)["SubnetIds"].append(facts["subnet"])
    elif stop.name == "TgwNoRoute":
        rows = by_id(bundle, "TransitGatewayRoutes", "TransitGatewayRouteTableId", stop.id)["Routes"]
        rows.append({"DestinationCidrBlock": f"{dotted(h.dst)}/32", "Type": "static", "State": "active"})
    elif stop.name == "TgwBlackhole":
        rows = by_id(bundle, "TransitGatewayRoutes", "TransitGatewayRouteTableId", stop.id)["Routes"]
        rows[:] = [it for it in rows if it["State"] != "blackhole" or block_text(it["DestinationCidrBlock"]) != stop.rule]
    else:
        return False
    return True


def block_text(text):
    return str(block_of(text)) if text else None


def turned(bundle, note):
    """Turns what a sentence says let a packet pass, and the stop that is then due; None where a test can't."""
    kind, *of = note
    if kind == "acl":
        acl, row_of, _ = of
        entries = by_id(bundle, "NetworkAcls", "NetworkAclId", acl.id)["Entries"]
        first = next(it for it in entries if it["RuleNumber"] == row_of.number and it["Egress"] == row_of.outward)
        first["RuleAction"] = "deny"
        return f"{'AclOut' if row_of.outward else 'AclIn'} {acl.id} {row_of.number}"
    if kind == "route":
        table, chosen = of
        destination = block_text_of(chosen)
        for it in by_id(bundle, "RouteTables", "RouteTableId", table.id)["Routes"]:
            if destination in (it.get("DestinationPrefixListId"), block_text(it.get("DestinationCidrBlock"))):
                it["State"] = "blackhole"
        return f"Blackhole {table.id} {destination}"
    if kind == "transit":
        table, chosen = of
        for it in by_id(bundle, "TransitGatewayRoutes", "TransitGatewayRouteTableId", table)["Routes"]:
            if block_text(it["DestinationCidrBlock"]) == str(chosen.block):
                it["State"] = "blackhole"
        return f"TgwBlackhole {table} {chosen.block}"
    return None


def block_text_of(chosen):
    return str(chosen.block) if chosen.block else chosen.list


def box_of(text):
    """The five ranges of a box."""
    return [tuple((address if side in (1, 2) else int)(it) for it in ends.split("-")) for side, ends in enumerate(text.split(" "))]


def walk_of(network, words, text):
    """The walk of a packet's words that is the text: its hops and its end."""
    label, _, start, *header = words.split(" ")
    hops, end = Walker(network).walk(label, start, header_of(header))
    assert "\n".join([*follow.printed_walk(hops, end), ""]) == text
    return hops, end


def run_random(results, asked, cases):
    wrong, told_of, tried, less = [], set(), 0, collections.Counter()
    for case in range(cases):
        rng = random.Random(case)
        text = networks.network(rng)
        bundle, ends = json.loads(text), networks.Ends(text)
        for command, words in [("trace", ends.packet(rng)) for _ in range(3)] + [("ask", ends.query(rng)) for _ in range(2)]:
            words = b" ".join(words).decode()
            answer = asked.answer(bundle, command, words)
            status, out, err = explain(answer, asked.path)
            refused = answer.startswith("refused ")
            if (status, err == "", out == "") != ((2, False, True) if refused else (0, True, False)):
                wrong.append((case, command, words, answer[:200], err))
                continue
            whys, changes = sentences(out)
            if not refused and len(whys) != len(changes):
                wrong.append((case, command, words, out))
            if command == "trace" and not refused:
                tried += try_trace(wrong, told_of, asked, bundle, words, answer, (case, words), out)
            if command == "ask" and not refused and not answer.startswith("reachable"):
                tried += try_report(wrong, told_of, asked, bundle, words, answer, (case, words), out, less)
    for it in wrong[:20]:
        print("FAILED:", it)
    results.add("sentences about networks made at random", len(wrong), 0)
    results.add("what was tried", tried > cases * 3, True)
    print(f"stops of which all is told, or less: {dict(less)}")
    results.add("stops of requests of which less is told", less["request, less"], 0)
    results.add("stops of replies of which less is told", less["reply, less"] * 5 <= less["reply, all"] + 10, True)
    results.add("stops that were met", len(told_of) >= 16 or cases < 100, True)


GOES_ON = ("appliance", "inspected", "public", "owner", "private", "translated", "restored", "carried", "left")


def try_trace(wrong, told_of, asked, bundle, words, answer, name, out):
    """Turns all that let the packet pass, one after the other, and changes what would have to change."""
    network = Network(bundle if isinstance(bundle, list) else [bundle])
    hops, end = walk_of(network, words, answer)
    tried, lines = 0, [it for it in out.splitlines() if re.match(r"  \d+\. ", it)]
    if len(lines) != len(hops) or not isinstance(end, str) and out.splitlines()[-2:] not in sentences_due(network, end)[:2]:
        wrong.append((name, out, end))
    for number, hop in enumerate(hops, 1):
        for note in hop.notes:
            # (where it would go on from the last place of a circle isn't told)
            if note_words(network, note) not in lines[number - 1] and not (number == len(hops) and note[0] in GOES_ON):
                wrong.append((name, note, lines[number - 1]))
            other = copy.deepcopy(bundle)
            due = turned(other, note)
            if due:
                found = asked.answer(other, "trace", words).splitlines()
                tried += 1
                # (a row that lets a packet pass at one place may let it pass at an earlier one too)
                if found[-1] != f"stopped {due}" or len(found) - 1 > number:
                    wrong.append((name, due, found[-1]))
    if not isinstance(end, str):
        told_of.add(end.name)
        other = copy.deepcopy(bundle)
        if mended(other, end):
            found = asked.answer(other, "trace", words).splitlines()
            tried += 1
            is_mended = found[0].startswith("refused description TwoInternetGateways") or found[-1] != answer.splitlines()[-1] or len(found) > len(hops) + 1
            if found[0].startswith("refused") and "TwoInternetGateways" not in found[0] or not is_mended:
                wrong.append((name, end.name, found[-1]))
    return tried


def note_words(network, note):
    """What a sentence has to say of what let a packet pass."""
    kind, *of = note
    named = Teller(network).named
    if kind == "acl":
        return f"{'outbound' if of[1].outward else 'inbound'} row {of[1].number} of {named(of[0].id)} lets it {'out of' if of[1].outward else 'into'} {named(of[2])}"
    if kind == "route":
        return f"{named(of[0].id)} sends it by its route {Teller(network).route_words(of[1])}"
    if kind == "host":
        return f"{dotted(of[1])} is {Teller(network).own_words(*of)}"
    if kind == "transit":
        return f"its table {named(of[0])} sends it by its route {of[1].block} to {named(of[1].attachment)}"
    return {"inside": "it stays in the subnet", "appliance": "its appliance forwards", "inspected": "it passes", "public": "becomes the public address", "owner": "is a public address of",
            "private": "becomes the private address", "translated": "its source becomes the gateway's", "restored": "it answers what went out here before", "carried": "from a block of", "left": "into"}[kind]


def try_report(wrong, told_of, asked, bundle, words, answer, name, out, less):
    """Changes what would have to change for the first packet of a row, which then isn't stopped as the row says."""
    network, tried = Network([bundle]), 0
    start, goal = re.search(r"^query from (\S+) to (\S+)$", answer, re.M).groups()
    seen = set()
    for it in re.finditer(r"^row \d+ (request|reply) (\S+ \S+ \S+) (.*)$", answer, re.M):
        if it[2] in seen or len(seen) == 5:
            continue
        seen.add(it[2])
        header = low_corner(box_of(it[3]))
        told = round_trip(network, start, goal, header)
        told_of.add(told.stop.name)
        found = re.search(rf"^Row {it[0].split(' ')[1]}\b.*\n(?:  .*\n)*?(  Why: .*)\n(  To change: .*)$", out, re.M)
        allowed = sentences_due(network, told.stop)
        if not found or list(found.groups()) not in allowed:
            wrong.append((name, it[0], found and found.groups(), allowed))
        else:
            less[f"{it[1]}, {'all' if list(found.groups()) == allowed[0] else 'less'}"] += 1
        other = copy.deepcopy(bundle)
        if mended(other, told.stop):
            tried += 1
            narrow = f"from {start} to {goal} proto {header.proto} src {dotted(header.src)}/32 dst {dotted(header.dst)}/32"
            narrow += f" sport {header.p}-{header.p} port {header.q}-{header.q}" if header.proto in (1, 6, 17) else ""
            before, after = asked.answer(bundle, "ask", narrow), asked.answer(other, "ask", narrow)
            if f"{it[1]} {it[2]} " not in before or after.startswith("refused") and "TwoInternetGateways" not in after:
                wrong.append((name, it[2], before, after))
            elif f"{it[1]} {it[2]} " in after:
                again = round_trip(Network([other]), start, goal, header)
                if (len(again.request), len(again.reply or [])) <= (len(told.request), len(told.reply or [])):
                    wrong.append((name, it[2], "it still stops there"))
    return tried


# ---- answers to examples, and what is no answer

QUESTIONS = [
    ("one-subnet", "ask", "from eni-a to eni-b", ["outbound rule 1 of sg-a allows all protocols to anywhere", "10.0.1.20 is an address of eni-b; it stays in the subnet", "It arrives at eni-a."]),
    ("shop", "ask", "from eni-app to internet dst 198.51.100.7/32", ["eni-app (app-1)", "its source becomes the gateway's 10.0.1.5, and its port 0 becomes 1024", "its source 10.0.1.5 becomes the public address 203.0.113.5",
                                                                    "its destination becomes 10.0.2.10 and its port 0 again", "let it pass as the answer to a connection that passed here before"]),
    ("shop", "ask", "from eni-web to eni-db port 5432-5432", ["no inbound rule of sg-db allows tcp 5432 from 10.0.1.10. For tcp 5432 it allows sg-app alone."]),
    ("three-tiers", "ask", "from eni-app-a-1 to eni-db-a port 0-5431", ["Row 1 and 1 more: their requests are stopped by GroupsOut of eni-app-a-1.", "To 10.20.128.4 it allows tcp 5432 and tcp 443 alone."]),
    ("three-tiers", "ask", "from internet to eni-db-a", ["its source 0.0.0.0 and its destination 0.0.0.0 are non-routable", "NAT gateway nat-a lets in only the answers"]),
    ("three-tiers", "ask", "from internet to eni-db-a max 100", ["The report was cut short."]),
    ("three-tiers", "ask", "from eni-app-a-1 to internet dst 52.218.0.0/17", ["No packet is known to get through from eni-app-a-1 to the internet: tcp from 10.20.16.4 to 52.218.0.0-52.218.127.255, all ports.", "not known", "So this is no 'no'"]),
    ("two-accounts", "ask", "from eni-build-1 to eni-shop-1 sport 1024-65535 port 22-22", ["peering pcx-shop-tools"]),
    ("hub", "ask", "from eni-dev-1 to eni-prod-1", ["its appliance forwards tcp and udp to and from port 443 alone", "by its route prefix list pl-spokes"]),
    ("shop", "reach", "from internet", ["In 10 boxes all packets get through", "From the internet to eni-web (web-1):", "  Row 1: tcp from 1.0.0.0-3.4.255.255 to 203.0.113.10, port 443."]),
    ("shop", "reach", "from internet max 1", ["In 1 box all packets", "The text was cut short: tcp from", "is the first packet that it leaves out, and it gets through too."]),
    ("shop", "reach", "from eni-db to eni-web port 1-1", ["No packet is known to get through."]),
    ("hub", "reach", "to eni-prod-1 src 10.60.0.0/16 sport 1024-65535", ["From tgw-attach-lab to eni-prod-1", "What leads outside is taken to lead to one network, since no start was named: a reply may come back by another link than its request."]),
    ("shop", "matrix", "", ["Of 3 interfaces, 6 pairs: 4 open something, 2 open nothing that is known, and 0 have no address.", "eni-db (db-1) is reached on tcp 5432 from eni-app (app-1)."]),
    ("one-subnet", "unused", "from eni-a to eni-b", ["Of 4 rules 2 decide nothing of this query.", "Without inbound row 100 of acl-1, which allows all protocols from anywhere, nothing would be otherwise.",
                                                    "Without inbound rule 1 of sg-b, which allows tcp 443 from 10.0.1.0/24, it would be otherwise of tcp from 10.0.1.10 port 0 to 10.0.1.20 port 443."]),
    ("one-subnet", "flows", os.path.join(TOP, "examples", "one-subnet.log"), ["2 lines agree with the rules, and 1 is otherwise.", "Line 3 was accepted, and by the rules it is stopped by GroupsIn of eni-b.", "Of 1 line nothing is said."]),
    ("three-tiers", "expect", os.path.join(TOP, "examples", "three-tiers.rules"), ["25 rules hold, 0 fail, and of 0 it is not known."]),
    ("shop", "diff", os.path.join(TOP, "examples", "one-subnet.json") + " from eni-web to eni-app", ["The change closes 1 box.", "Row 1: from eni-web (web-1), tcp from 10.0.1.10 to 10.0.2.10, port 8080.",
                                                                                                    "Of each packet: it reached eni-app (app-1) before the change, and after it there is no such start."]),
    ("hub", "ask", "from eni-sandbox-1 to eni-shared-1 sport 1024-65535", ["its requests arrive, and the replies are stopped by TgwBlackhole", "of tgw-rtb-spokes, which is chosen for 10.43.16.4, is a blackhole"]),
]


def run_examples(results, asked):
    for bundle, command, words, told in QUESTIONS:
        path = os.path.join(TOP, "examples", f"{bundle}.json")
        text = subprocess.run([asked.program, command, path, *words.split()], capture_output=True, check=False).stdout.decode()
        status, out, err = explain(text, path)
        results.add(f"{bundle} {words}", (status, err, [it for it in told if it not in out]), (0, "", []))


def run_prefixes(results, asked):
    """What lets a packet pass to an address of a delegated prefix, and to one that is assigned within it; and the lists of addresses."""
    bundle = copy.deepcopy(BASE)
    delegated(bundle, "eni-a", "10.1.1.64/28")
    delegated(bundle, "eni-b", "10.2.1.0/28")
    named(bundle, "sg-b", False, "sg-a")
    naming(bundle, "enable", "enable", "enable")
    for src, dst, told in (("10.1.1.65", "10.2.1.1", ["10.2.1.1 is in the prefix 10.2.1.0/28 of eni-b", "from sg-a; 10.1.1.65 is in the prefix 10.1.1.64/28 of eni-a (web one)", "It arrives at eni-b"]),
                           ("10.1.1.10", "10.2.1.10", ["10.2.1.10 is an address of eni-b", "from sg-a; 10.1.1.10 is that of eni-a (web one)", "It arrives at eni-b"])):
        text = asked.answer(bundle, "trace", f"open from eni-a tcp {src} {dst} 5000 443")
        status, out, err = explain(text, asked.path)
        results.add(f"prefixes: from {src} to {dst}", (status, err, [it for it in told if it not in out]), (0, "", []))
    own = [{"PrivateIpAddress": f"10.1.1.{k}"} for k in (10, 11)]
    for members, told in (({"PrivateIpAddresses": own}, "(10.1.1.10 and 10.1.1.11, and the prefix 10.1.1.64/28)"), ({"PrivateIpAddress": None}, "(the prefix 10.1.1.64/28)"),
                          ({"Ipv4Prefixes": [{"Ipv4Prefix": f"10.1.1.{16 * k}/28"} for k in range(1, 8)]}, "(10.1.1.10 and the prefixes 10.1.1.16/28, 10.1.1.32/28, 10.1.1.48/28, 10.1.1.64/28 and 3 more)")):
        other = copy.deepcopy(bundle)
        updated(other, "eni-a", **members)
        status, out, err = explain(asked.answer(other, "trace", TO_B.format(443).replace("10.1.1.10", "10.1.9.9")), asked.path)
        results.add(f"prefixes: {told}", (status, err, told in out), (0, "", True))


def run_others(results, asked):
    """check and replay, damaged answers, other bundles, and words."""
    small, two = (os.path.join(DATA, it) for it in ("one_subnet.json", "two_subnets_own_acl.json"))
    report = "vpc-report 1\nquery from eni-a to eni-b\nbox 6-6 10.0.1.10-10.0.1.10 10.0.2.20-10.0.2.20 0-32767 443-443\nrow 1 reply AclOut acl-b {} 6-6 10.0.1.10-10.0.1.10 10.0.2.20-10.0.2.20 {} 443-443\nend 1\n"
    with open(two, encoding="utf-8") as file:
        bundle = json.load(file)
    for rule, ports, told in (
        ("32767", "0-32767", "The report is true of this bundle"), ("32767", "0-9", "no row holds tcp from 10.0.1.10 port 10 to 10.0.2.20 port 443"),
        ("100", "0-32767", "in this bundle it arrives, and its reply is stopped by AclOut of acl-b."),
    ):
        text = asked.answer(bundle, "check", report.format(rule, ports))
        status, out, err = explain(text, asked.path)
        results.add(f"check: {told}", (status, err, told in out), (0, "", True))
        if rule == "100":
            results.add("check: why", "no outbound row of acl-b allows tcp 0 to 10.0.1.10 on its way out of subnet-b; its last row, 32767, refuses the rest." in out, True)
    for text, told in (("no overlap 1 2\n", "rows 1 and 2 share a packet"), ("no untrue 3 tcp 10.0.1.10 10.0.1.20 0 443 through\n", "tcp from 10.0.1.10 port 0 to 10.0.1.20 port 443 gets through"),
                       ("no untrue 1 icmp 9.9.9.9 10.0.1.20 7 8 request WrongPlace eni-b -\n", "in this bundle it arrives elsewhere, at eni-b (WrongPlace)"),
                       ("no untrue 2 tcp 10.0.1.10 10.0.1.20 0 443 same\n", "which row 2 holds: nothing changes for it."),
                       ("no untrue 2 tcp 10.0.1.10 10.0.1.20 0 443 reached eni-b\n", "which row 2 holds: it reaches eni-b, and its reply comes back."),
                       ("no unlisted eni-a tcp 10.0.1.10 10.0.1.20 0 443 reached eni-b\n", "from eni-a, which is in no row: it reaches eni-b, and its reply comes back."),
                       ("no unlisted eni-a tcp 10.0.1.10 10.0.1.20 0 443 closed eni-b reply AclIn acl-1 90\n", "it reached eni-b before the change, and after it its reply is stopped by AclIn of acl-1, rule 90."),
                       ("no unlisted internet tcp 9.9.9.9 10.0.1.20 0 443 opened eni-b request Absent internet -\n", "it reaches eni-b after the change, and before it there is no such start."),
                       ("no untrue 1 tcp 10.0.1.10 10.0.1.20 0 443 moved eni-b eni-c\n", "it reaches eni-c after the change, in place of eni-b."),
                       ("event 1 arrived eni-b tcp 10.0.1.10 10.0.1.20 5000 443\nevent 2 stopped GroupsOut eni-b -\n", "no outbound rule of sg-b allows the packet")):
        status, out, err = explain(text, small)
        results.add(f"told: {told}", (status, err, told in out), (0, "", True))
    run_prefixes(results, asked)
    rows = explain(asked.answer(BASE, "ask", "from eni-a to eni-b src 10.1.1.0/28 port 22-22"), asked.path)[1]
    results.add("rows at the ends that were asked about", re.findall(r"^Row .*$|^  tcp .*$", rows, re.M), [
        "Row 2: its requests are stopped by GroupsIn of eni-b.", "  tcp from 10.1.1.10 to 10.2.1.10, port 22",
        "Row 1 and 1 more: their requests are stopped by SourceCheck of eni-a (web one).", "  tcp from 10.1.1.0-10.1.1.9 to 10.2.1.10, port 22", "  tcp from 10.1.1.11-10.1.1.15 to 10.2.1.10, port 22"])
    with no_program():
        alone = explain(asked.answer(BASE, "ask", "from eni-a to eni-b src 10.1.1.0/28 port 22-22"), asked.path)[1]
    results.add("without a program: where it starts", "10.1.1.0 is none of the private addresses of eni-a (web one) (10.1.1.10)" in alone, True)
    results.add("without a program: further on", "no inbound rule of sg-b (database of the shop) allows the packet." in alone and "Of single packets vpc why tells more" in alone, True)
    walk = asked.answer(BASE, "trace", TO_B.format(22))
    answer = asked.answer(BASE, "ask", "from eni-a to eni-b")
    blocked = asked.answer(BASE, "ask", "from eni-a to eni-b port 22-22")
    why = follow.why(asked.path, TO_B.format(22).split())
    for name, text in (
        ("another route of why", why.replace("tgw-1", "tgw-2")), ("another row of why", why.replace("acl-a out 100", "acl-a out 99")), ("a table of why that isn't there", why.replace("rtb-a", "rtb-z")),
        ("another rule of why", why.replace("sg-a out 1", "sg-a out 2")), ("a verdict of why", why.replace("acl-a in 100 allow", "acl-a in 100 deny")), ("less of why", why.replace("acl acl-a in 100 allow\n", "")),
        ("nothing", ""), ("a newline", "\n"), ("words", "refused words 1\n"), ("a file", "read fault 1\n"), ("memory", "want of memory\n"), ("made", "make 1\npair eni-1 internet blocked\n"),
        ("bytes", b"\xff\n"), ("carriage returns", walk.replace("\n", "\r\n")), ("two", walk + walk), ("a hop less", "\n".join(walk.splitlines()[1:]) + "\n"), ("another hop", walk.replace("subnet-a", "subnet-b")),
        ("another rule", walk.replace("out 1", "out 2")), ("another stop", walk.replace("GroupsIn", "GroupsOut")), ("another component", walk.replace("stopped GroupsIn eni-b", "stopped GroupsIn eni-a")),
        ("another address", walk.replace("10.1.1.10", "10.1.1.11")), ("an end that isn't there", walk.replace("eni-a", "eni-z")), ("another packet", answer.replace("packet tcp 10.1.1.10 10.2.1.10 0", "packet tcp 10.1.1.10 10.2.1.10 1")),
        ("another reply", answer.replace("by tracked", "by none")), ("another reason", blocked.replace("GroupsIn eni-b", "GroupsIn eni-c")), ("another phase", blocked.replace("row 1 request", "row 1 reply")),
        ("a wrong count", blocked.replace("end 1", "end 2")), ("a row that gets through", blocked.replace("22-22", "5432-5432")), ("a component that isn't there", "event 1 stopped GroupsIn eni-z -\n"),
        ("an event's number", "event 2 stopped GroupsIn eni-b -\n"), ("no end of it", walk[:-1]),
    ):
        status, out, err = explain(text, asked.path)
        results.add(f"refused: {name}", (status, out, err.startswith("explain: the text can't be told of: "), err.count("\n")), (2, "", True, 1))
    for text in (walk, answer, blocked):
        cut = next((end for end in range(len(text)) if explain(text[:end], asked.path)[0] != 2), None)
        results.add("parts of an answer", cut, None)
        results.add("another bundle", explain(text, os.path.join(TOP, "examples", "shop.json"))[0::2][0], 2)
    for words, why in (([], "BUNDLE is meant, and a TEXT that isn't standard input; --help says more"), (["--all"], "BUNDLE is meant, and a TEXT that isn't standard input; --help says more"),
                       (["none"], "none can't be read: No such file or directory"), ([small, "none"], "none can't be read: No such file or directory"),
                       ([os.path.join(DATA, "open.txt")], f"{os.path.join(DATA, 'open.txt')} is no bundle: it is not one JSON value in UTF-8"),
                       ([os.path.join(DATA, "number_among_vpcs.json")], f"{os.path.join(DATA, 'number_among_vpcs.json')} is no bundle that vpc accepts")):
        results.add(f"words {words}", explain(walk, *words), (2, "", f"explain: {why}\n"))
    results.add("--help", explain("", "--help")[0::2], (0, ""))
    with open(os.path.join(asked.folder, "text"), "w", encoding="utf-8") as file:
        file.write(walk)
    ran = subprocess.run([os.path.join(TOP, "explain"), asked.path, file.name], capture_output=True, check=False)
    # (it asks the program that stands beside it, if that knows the command)
    with no_program():
        alone = explain(walk, asked.path)[1]
    results.add("as a process", (ran.returncode, ran.stdout.decode() in (alone, explain(walk, asked.path)[1]), ran.stderr), (0, True, b""))


# ---- bundles that were written to deceive, and such as vpc alone takes

# Lines of its own, a colour, the clearing of a screen in two forms, and a change of direction.
FORGED = "x.\n  Why: forged\r\x1b[31m\x1b[2J\x9b2J\u2028\u202e To change: nothing"
STRAY = re.compile(r"[^\n -~]")
NO_STATE, NO_CODE = f"the state of NAT gateway nat-1 is {json.dumps(FORGED)}.", f"the status of peering pcx-1 is {json.dumps(FORGED)}."


def with_instance(bundle):
    """An instance with a name, tags of all kinds of rows, and a group that isn't named over the transit gateway."""
    bundle["Reservations"] = [{"Instances": [{"InstanceId": "i-1", "Tags": [{"Key": "Name", "Value": "one"}], "NetworkInterfaces": [{"NetworkInterfaceId": "eni-b"}]}]}]
    row(bundle, "eni-a")["Attachment"] = {"InstanceId": "i-1", "DeviceIndex": 0}
    delegated(bundle, "eni-a", "10.1.1.64/28")
    row(bundle, "vpc-a")["CidrBlockAssociationSet"] = [{"CidrBlock": "10.1.0.0/16", "CidrBlockState": {"State": "associated"}}]
    bundle["SecurityGroupRules"] = [{"SecurityGroupRuleId": "sgr-1", "GroupId": "sg-c", "IsEgress": False, "IpProtocol": "-1", "CidrIpv4": ANYWHERE, "Tags": []},
                                    {"SecurityGroupRuleId": "sgr-2", "GroupId": "sg-c", "IsEgress": True, "IpProtocol": "-1", "CidrIpv4": ANYWHERE, "ReferencedGroupInfo": {"GroupId": "sg-a"}}]
    named(bundle, "sg-b", False, "sg-a", 22)
    naming(bundle, "enable", "enable", "disable")
    bundle["SecurityGroupVpcAssociations"] = [{"GroupId": "sg-c", "VpcId": "vpc-b", "State": "associated"}]
    return bundle


def places(value):
    """Each place within a value: what has it, and its key."""
    for key in value if isinstance(value, dict) else range(len(value)) if isinstance(value, list) else ():
        yield value, key
        yield from places(value[key])


def is_plain(status, out, err):
    """Whether nothing but lines of visible letters was printed, and one alone where it is refused."""
    letters = STRAY.sub("", out + err) == (out + err).replace("\ufffd", "")
    return letters and (status, out, err.count("\n"), err[:9]) == (2, "", 1, "explain: ") if status else letters and err == ""


def run_forged(results, asked):
    """Each text of a bundle in turn is one that would be lines of its own at a terminal. Of states vpc takes any."""
    for name, member, words, stop, why in (("nat-1", {"State": FORGED}, TO_NET.format("198.51.100.7"), "stopped NatNotAvailable nat-1 -", NO_STATE),
                                           ("pcx-1", {"Status": {"Code": FORGED}}, TO_NET.format("10.2.9.1"), "stopped PeerNotActive pcx-1 -", NO_CODE)):
        bundle = copy.deepcopy(BASE)
        updated(bundle, name, **member)
        text = asked.answer(bundle, "trace", words)
        status, out, err = explain(text, asked.path)
        results.add(f"forged: {stop}", (stop in text, status, err, [why] == sentences(out)[0], is_plain(status, out, err)), (True, 0, "", True, True))
    clean, wrong = with_instance(copy.deepcopy(BASE)), []
    texts = [asked.answer(clean, "trace", it) for it in (TO_B.format(22), TO_B.format(5432), TO_NET.format("198.51.100.7"), TO_NET.format("10.2.9.1"), TO_NET.format("10.1.3.10"))]
    texts += [asked.answer(clean, "ask", it) for it in ("from eni-a to eni-b", "from eni-a to eni-b port 22-22", "from internet to eni-c")]
    for number in range(sum(1 for _ in places(clean))):
        bundle = copy.deepcopy(clean)
        part, key = next(itertools.islice(places(bundle), number, None))
        if not isinstance(part[key], str):
            continue
        part[key] += FORGED
        with open(asked.path, "w", encoding="utf-8") as file:
            json.dump(bundle, file)
        for text in texts:
            told = explain(text, asked.path)
            if not is_plain(*told) or "\n  Why: forged" in told[1]:
                wrong.append((key, part[key], told))
    results.add("forged: each text in turn", wrong[:3], [])
    folder = os.path.join(asked.folder, "a\x1b[2J\nexplain: all is well")
    status, out, err = explain(texts[0], folder)
    results.add("forged: the name of a file", (status, out, is_plain(status, out, err)), (2, "", True))


def misfit(asked, bundle, before):
    """What is otherwise than it has to be: a bundle that vpc takes is told of, and of another one nothing is but one line or what the text before had."""
    text = asked.answer(bundle, "trace", TO_B.format(5432))
    is_taken = not text.startswith("refused")
    told = explain(text if is_taken else before, asked.path)
    return None if is_plain(*told) and (told[0] == 0 or not is_taken) else (text[:60], told)


def run_taken(results, asked):
    """What stands in the place of objects and lists that vpc reads over, and whatever anywhere."""
    clean = with_instance(copy.deepcopy(BASE))
    before, ids = asked.answer(clean, "trace", TO_B.format(5432)), ("vpc-a", "nat-1", "sg-b", "rtb-a", "acl-a", "igw-1", "pcx-1", "att-a", "sgr-1")
    for member, name in [("Association", "att-b"), ("Options", "att-b"), ("Options", "tgw-1"), ("TagSet", "eni-a"), ("Attachment", "eni-a"), ("Associations", "rtb-a"), *(("Tags", it) for it in ids)]:
        for value in (7, "x", [7], [[]], {"Key": "Name"}, True):
            bundle = copy.deepcopy(clean)
            updated(bundle, name, **{member: [value, *row(bundle, name)[member]] if member == "Associations" else value})
            results.add(f"taken: {member} of {name} is {json.dumps(value)}", misfit(asked, bundle, before), None)
    for part, key in ((("NetworkInterfaces", 1, "PrivateIpAddresses", 0), "Association"), (("NetworkInterfaces", 0), "Ipv4Prefixes"), (("NetworkInterfaces", 0, "Ipv4Prefixes"), 0), (("SecurityGroupRules", 1), "ReferencedGroupInfo"), (("Vpcs", 0, "CidrBlockAssociationSet", 0), "CidrBlockState"),
                      (("Reservations",), 0), (("Reservations", 0), "Instances"), (("Reservations", 0, "Instances"), 0), (("Reservations", 0, "Instances", 0), "NetworkInterfaces"), (("Reservations", 0, "Instances", 0), "InstanceId"),
                      (("Reservations", 0, "Instances", 0, "NetworkInterfaces"), 0), (("NetworkInterfaces", 0, "TagSet"), 0), (("NetworkInterfaces", 0, "TagSet", 0), "Value"),
                      (("TransitGateways",), 0), (("TransitGateways", 0, "Options"), "SecurityGroupReferencingSupport"), (("SecurityGroupVpcAssociations",), 0), (("SecurityGroupVpcAssociations", 0), "State")):
        for value in (7, "x", [7], {"State": 7} if key != "CidrBlockState" else 8, None):
            bundle = copy.deepcopy(clean)
            functools.reduce(lambda value, it: value[it], part, bundle)[key] = value
            results.add(f"taken: {key} in {part} is {json.dumps(value)}", misfit(asked, bundle, before), None)
    rng, wrong = random.Random(5), []
    for _ in range(300):
        bundle = copy.deepcopy(clean)
        part, key = rng.choice(list(places(bundle)))
        part[key] = rng.choice([7, "x", [7], [[]], {"a": 1}, None, True, -1, 1.5, "", [], {}, "1" * 5000, "10.0.0.0/-99999999999", 10 ** 400])
        wrong.append(misfit(asked, bundle, before))
    results.add("taken: whatever stands anywhere", list(filter(None, wrong))[:3], [])


def put(asked, bundle):
    with open(asked.path, "w", encoding="utf-8") as file:
        json.dump(bundle, file)
    return asked.path


def run_numbers(results, asked):
    """Numbers that are none, and such as are too long, in a bundle and in a text."""
    text, report, many = asked.answer(BASE, "trace", TO_B.format(22)), asked.answer(BASE, "ask", "from eni-a to eni-b port 22-22"), "1" * 5000
    data = json.dumps(BASE)
    for name, old, new in (("NaN", '"RuleNumber": 100', '"RuleNumber": NaN'), ("Infinity", '"RuleNumber": 100', '"RuleNumber": -Infinity'), ("5,000 digits", '"RuleNumber": 100', f'"RuleNumber": {many}'),
                           ("5,000 digits in a text", '"IpProtocol": "-1"', f'"IpProtocol": "{many}"'), ("a port of 5,000 digits", '"Ports": "443-443"', f'"Ports": "443-{many}"'),
                           ("a length", "10.1.0.0/16", f"10.1.0.0/{many}"), ("a length below 0", "10.1.0.0/16", "10.1.0.0/-99999999999"), ("a block of 2^32 bits", "10.1.1.10", "10.1.1.10." * 1000),
                           ("a table that isn't there", '"SubnetId": "subnet-b"', '"SubnetId": "subnet-z"'), ("no ACL", '"Associations": [{"SubnetId": "subnet-a"}, ', '"Associations": ['),
                           ("no main table", '"Associations": [{"Main": true}]', '"Associations": []')):
        assert old in data, old
        with open(asked.path, "w", encoding="utf-8") as file:
            file.write(data.replace(old, new))
        refused = subprocess.run([asked.program, "trace", asked.path, *TO_B.format(22).split()], capture_output=True, text=True, check=False).stdout
        for words in (text, report):
            status, out, err = explain(words, asked.path)
            results.add(f"numbers: {name}", (refused[:7], status, out, is_plain(status, out, err)), ("refused", 2, "", True))
    put(asked, BASE)
    for name, words in (("a hop", text.replace("hop 2 ", f"hop {many} ")), ("a port", text.replace(" 5000 22", f" {many} 22")), ("a row", report.replace("row 1 ", f"row {many} ")), ("an end", report.replace("end 1", f"end {many}")),
                        ("an event", f"event {many} stopped GroupsIn eni-b -\n"), ("a check", f"no overlap {many} {many}\n"), ("an untrue one", f"no untrue {many} tcp 10.0.1.10 10.0.1.20 {many} 443 through\n")):
        status, out, err = explain(words, asked.path)
        results.add(f"numbers: 5,000 digits of {name}", (status, out, is_plain(status, out, err)), (2, "", True))


def main():
    parser = argparse.ArgumentParser(description=__doc__, formatter_class=argparse.RawDescriptionHelpFormatter)
    parser.add_argument("program")
    parser.add_argument("--cases", type=int, default=300)
    told = parser.parse_args()
    results = Results()
    with tempfile.TemporaryDirectory() as folder:
        asked = Asked(os.path.abspath(told.program), folder)
        if not stand_in(asked.program, folder):
            print("the program has no why: tests/follow.py stands in its place")
        for it in STOPS:
            run_stop(results, asked, it)
        results.add("all stops", {it[0].split(",")[0].split(" ")[0] for it in STOPS}, set(ALL_STOPS))
        run_examples(results, asked)
        run_others(results, asked)
        run_forged(results, asked)
        run_taken(results, asked)
        run_numbers(results, asked)
        run_random(results, asked, told.cases)
    print(f"{results.passed} passed, {results.failed} failed")
    return 1 if results.failed else 0


if __name__ == "__main__":
    sys.exit(main())
