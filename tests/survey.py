#!/usr/bin/env python3
"""What `survey` tells of small bundles, and whether the program answers as it says: tests/survey.py [PROGRAM]

Each row of ROWS is one bundle: a small network and what the row puts into it. Its lines are all that survey prints of it with --all,
without `not followed: `. Without it no line is another where each is of a kind of its own, and those of one kind are one line
with their count (FOLDED). Where a row has a packet and PROGRAM is given, PROGRAM traces the packet in the same bundle, and its last
line is the row's: so a line that says how packets end is true of the program. The rows call survey within this process, and a few
more run it as one of its own. The last line is 'N passed, M failed'.
"""

import contextlib
import copy
import io
import json
import os
import subprocess
import sys
import tempfile

TOP = os.path.dirname(os.path.dirname(os.path.abspath(__file__)))
sys.path.insert(0, TOP)

from scripts import survey as script

# vpc-a, attached to igw-a and to tgw-1, and vpc-b of another account, attached to tgw-1: a host and a table in each of the subnets.
BASE = json.loads("""{
"Vpcs": [{"VpcId": "vpc-a", "CidrBlock": "10.1.0.0/16", "BlockPublicAccessStates": {"InternetGatewayBlockMode": "off"}}, {"VpcId": "vpc-b", "CidrBlock": "10.2.0.0/16"}],
"Subnets": [
  {"SubnetId": "subnet-a", "VpcId": "vpc-a", "AvailabilityZone": "us-east-1a", "AvailabilityZoneId": "use1-az6", "OwnerId": "111122223333"},
  {"SubnetId": "subnet-b", "VpcId": "vpc-b", "AvailabilityZone": "us-east-1a", "AvailabilityZoneId": "use1-az6", "OwnerId": "444455556666"}],
"NetworkInterfaces": [
  {"NetworkInterfaceId": "eni-a", "SubnetId": "subnet-a", "PrivateIpAddress": "10.1.1.10", "Groups": [{"GroupId": "sg-a"}],
   "PrivateIpAddresses": [{"PrivateIpAddress": "10.1.1.10"}]},
  {"NetworkInterfaceId": "eni-b", "SubnetId": "subnet-b", "PrivateIpAddress": "10.2.1.10", "Groups": [{"GroupId": "sg-b"}]}],
"RouteTables": [
  {"RouteTableId": "rtb-a", "VpcId": "vpc-a", "Associations": [{"Main": true}],
   "Routes": [{"DestinationCidrBlock": "10.1.0.0/16", "GatewayId": "local"}, {"DestinationCidrBlock": "10.2.0.0/16", "TransitGatewayId": "tgw-1"},
              {"DestinationCidrBlock": "198.51.100.0/24", "GatewayId": "igw-a"}]},
  {"RouteTableId": "rtb-b", "VpcId": "vpc-b", "Associations": [{"Main": false, "SubnetId": "subnet-b"}],
   "Routes": [{"DestinationCidrBlock": "10.2.0.0/16", "GatewayId": "local"}, {"DestinationCidrBlock": "10.1.0.0/16", "TransitGatewayId": "tgw-1"}]}],
"NetworkAcls": [{"NetworkAclId": "acl-1", "Associations": [{"SubnetId": "subnet-a"}, {"SubnetId": "subnet-b"}], "Entries": [
  {"RuleNumber": 100, "Egress": false, "Protocol": "-1", "RuleAction": "allow", "CidrBlock": "0.0.0.0/0"},
  {"RuleNumber": 100, "Egress": true, "Protocol": "-1", "RuleAction": "allow", "CidrBlock": "0.0.0.0/0"}]}],
"SecurityGroups": [
  {"GroupId": "sg-a", "VpcId": "vpc-a", "IpPermissions": [{"IpProtocol": "-1", "IpRanges": [{"CidrIp": "0.0.0.0/0"}]}],
   "IpPermissionsEgress": [{"IpProtocol": "-1", "IpRanges": [{"CidrIp": "0.0.0.0/0"}]}]},
  {"GroupId": "sg-b", "VpcId": "vpc-b", "IpPermissions": [{"IpProtocol": "udp", "IpRanges": [{"CidrIp": "0.0.0.0/0"}]}], "IpPermissionsEgress": []}],
"InternetGateways": [{"InternetGatewayId": "igw-a", "Attachments": [{"State": "available", "VpcId": "vpc-a"}]}],
"TransitGatewayVpcAttachments": [
  {"TransitGatewayAttachmentId": "att-a", "TransitGatewayId": "tgw-1", "VpcId": "vpc-a", "SubnetIds": ["subnet-a"], "State": "available"},
  {"TransitGatewayAttachmentId": "att-b", "TransitGatewayId": "tgw-1", "VpcId": "vpc-b", "SubnetIds": ["subnet-b"], "State": "available"}],
"TransitGatewayAttachments": [
  {"TransitGatewayAttachmentId": "att-a", "TransitGatewayId": "tgw-1", "ResourceType": "vpc", "Association": {"TransitGatewayRouteTableId": "tgw-rtb"}},
  {"TransitGatewayAttachmentId": "att-b", "TransitGatewayId": "tgw-1", "ResourceType": "vpc", "Association": {"TransitGatewayRouteTableId": "tgw-rtb"}}],
"TransitGatewayRoutes": [{"TransitGatewayRouteTableId": "tgw-rtb", "Routes": [
  {"DestinationCidrBlock": "10.2.0.0/16", "Type": "propagated", "State": "active", "TransitGatewayAttachments": [{"TransitGatewayAttachmentId": "att-b"}]}]}]
}""")

# How rows say where they put something: the list, the row of BASE, and its list.
PLACES = {
    "route": ("RouteTables", "rtb-a", "Routes"),
    "tied": ("RouteTables", "rtb-a", "Associations"),
    "acl": ("NetworkAcls", "acl-1", "Entries"),
    "in": ("SecurityGroups", "sg-b", "IpPermissions"),
    "transit": ("TransitGatewayRoutes", "tgw-rtb", "Routes"),
    "eni": ("NetworkInterfaces", "eni-a", None),
    "vpc": ("Vpcs", "vpc-a", None),
    "subnet": ("Subnets", "subnet-b", None),
    "attachment": ("TransitGatewayVpcAttachments", "att-b", None),
    "near": ("TransitGatewayVpcAttachments", "att-a", None),
    "associated": ("TransitGatewayAttachments", "att-a", None),
}

TO_B = "open from eni-a tcp 10.1.1.10 10.2.1.10 5000 443"
TO_9 = "open from eni-a tcp 10.1.1.10 10.9.0.1 5000 443"
OUT = "open from eni-a tcp 10.1.1.10 198.51.100.7 5000 443"
STOPS = "packets stop there as Unmodelled"
IPV4 = "every answer is about IPv4 alone"
BEHIND = "packets from behind it can't be asked about"
VPN = "a network behind Site-to-Site VPN or Direct Connect"
COMES, NONE_COMES, OPENS = "packets come in from there", "no packet comes in from there", "it opens no connection; ask to it"
PEERED = '{"VpcPeeringConnectionId": "pcx-1", "Status": {"Code": "%s"}, "RequesterVpcInfo": {"VpcId": "vpc-a", "CidrBlock": "10.1.0.0/16"}, "AccepterVpcInfo": {"VpcId": "vpc-9", "OwnerId": "777788889999", "CidrBlockSet": [{"CidrBlock": "10.9.0.0/16"}]}}'
ATTACHED = '{"TransitGatewayAttachmentId": "att-vpn", "TransitGatewayId": "tgw-1", "ResourceType": "%s", "State": "available", "Association": {"TransitGatewayRouteTableId": "%s"}}'
ENDPOINT = '{"VpcEndpointId": "vpce-1", "VpcEndpointType": "%s", "VpcId": "vpc-%s", "State": "%s", "SubnetIds": ["subnet-a"], "ServiceName": "com.amazonaws.us-east-1.s3"}'
GONE_VPC = '{"VpnGatewayId": "vgw-1", "VpcAttachments": [{"State": "%s", "VpcId": "vpc-%s"}]}'
TO_VPN = '{"DestinationCidrBlock": "10.2.1.0/24", "Type": "static", "State": "active", "TransitGatewayAttachments": [{"TransitGatewayAttachmentId": "att-vpn", "ResourceType": "vpn"}]}'
FIREWALLED = {"RouteTables": '{"RouteTableId": "rtb-edge", "VpcId": "vpc-a", "Associations": [{"Main": false, "GatewayId": "igw-a"}], "Routes": [{"DestinationCidrBlock": "10.1.0.0/16", "GatewayId": "vpce-1"}]}',
              "eni": '{"PrivateIpAddresses": [{"PrivateIpAddress": "10.1.1.10", "Association": {"PublicIp": "203.0.113.10"}}]}'}
COMES_IN_BY_IGW = "open from internet tcp 198.51.100.7 203.0.113.10 1 2"
ZONES = "a packet between accounts may cross the ACL and table of the wrong subnet"
HIDDEN = "packets from it stop as NoPublic, and none to it comes to the interface"
UNLISTED = "that SecurityGroupRules has no rule of sg-b: its IpPermissions and IpPermissionsEgress count"
UNLISTED_A = UNLISTED.replace("sg-b", "sg-a")
NAMES_A, OPTION = '{"IpProtocol": "tcp", "UserIdGroupPairs": [{"GroupId": "sg-a"}]}', '{"Options": {"SecurityGroupReferencingSupport": "%s"}}'
GATEWAY_ON = {"TransitGateways": '{"TransitGatewayId": "tgw-1", "Options": {"SecurityGroupReferencingSupport": "enable"}}'}
OTHER_WAY = ", ".join(['{"TransitGatewayAttachmentId": "att-%s2", "TransitGatewayId": "tgw-2", "VpcId": "vpc-%s", "SubnetIds": ["subnet-%s"], "State": "available", "Options": {"SecurityGroupReferencingSupport": "enable"}}'] * 2)
UNTOLD = "not told: whether %s may name sg-a over tgw-1: what it alone allows stops as GroupsIn"
NO_TABLE = "which the bundle doesn't have: packets stop there as TgwNoTable"
EMPTY = "no interfaces: there is no end but the internet to ask about; another region or account may be meant"
IGW_B = '{"InternetGatewayId": "igw-b", "Attachments": [{"State": "%s", "VpcId": "vpc-b"}]}'

# Name, what is put in by its place or list, the lines, the packet, the last line of its trace.
ROWS = [
    ("nothing", {}, [], TO_B, "stopped GroupsIn eni-b -"),

    # routes
    ("a virtual private gateway", {"route": '{"DestinationCidrBlock": "10.9.0.0/16", "GatewayId": "vgw-1"}'},
     [f"route rtb-a 10.9.0.0/16 to vgw-1: {STOPS}", f"vgw-1: {BEHIND}"], TO_9, "stopped Unmodelled vgw-1 -"),
    ("a firewall's endpoint", {"route": '{"DestinationCidrBlock": "10.9.0.0/16", "GatewayId": "vpce-1", "State": "active"}'},
     [f"route rtb-a 10.9.0.0/16 to vpce-1: {STOPS}"], TO_9, "stopped Unmodelled vpce-1 -"),
    ("an endpoint for a prefix list", {"route": '{"DestinationPrefixListId": "pl-s3", "GatewayId": "vpce-s3"}',
                                      "PrefixLists": '{"PrefixListId": "pl-s3", "Cidrs": ["10.9.0.0/24"]}'},
     [f"route rtb-a pl-s3 to vpce-s3: {STOPS}"], TO_9, "stopped Unmodelled vpce-s3 -"),
    ("a local gateway", {"route": '{"DestinationCidrBlock": "10.9.0.0/16", "LocalGatewayId": "lgw-1"}'},
     [f"route rtb-a 10.9.0.0/16 to lgw-1: {STOPS}", f"lgw-1: {BEHIND}"], TO_9, "stopped Unmodelled lgw-1 -"),
    ("a carrier gateway", {"route": '{"DestinationCidrBlock": "10.9.0.0/16", "CarrierGatewayId": "cagw-1"}'},
     [f"route rtb-a 10.9.0.0/16 to cagw-1: {STOPS}", f"cagw-1: {BEHIND}"], TO_9, "stopped Unmodelled cagw-1 -"),
    ("Cloud WAN", {"route": '{"DestinationCidrBlock": "10.9.0.0/16", "CoreNetworkArn": "arn:core-1"}'},
     [f"route rtb-a 10.9.0.0/16 to arn:core-1: {STOPS}", f"arn:core-1: {BEHIND}"], TO_9, "stopped Unmodelled arn:core-1 -"),
    ("an instance without its interface", {"route": '{"DestinationCidrBlock": "10.9.0.0/16", "InstanceId": "i-1"}'},
     [f"route rtb-a 10.9.0.0/16 to i-1: {STOPS}"], TO_9, "stopped Unmodelled i-1 -"),
    ("no target that is known", {"route": '{"DestinationCidrBlock": "10.9.0.0/16", "OdbNetworkArn": "arn:odb-1"}'},
     [f"route rtb-a 10.9.0.0/16 to none: {STOPS}"], TO_9, "stopped Unmodelled none -"),
    ("a target that is gone", {"route": '{"DestinationCidrBlock": "10.9.0.0/16", "GatewayId": "vpce-1", "State": "blackhole"}'},
     [], TO_9, "stopped Blackhole rtb-a 10.9.0.0/16"),
    ("a table that no subnet has", {"RouteTables": '{"RouteTableId": "rtb-c", "VpcId": "vpc-a", "Routes": [{"DestinationCidrBlock": "10.9.0.0/16", "GatewayId": "vpce-1"}]}'},
     [], TO_9, "stopped NoRoute rtb-a -"),
    ("a NAT gateway without a subnet", {"route": '{"DestinationCidrBlock": "10.9.0.0/16", "NatGatewayId": "nat-1"}', "NatGateways": '{"NatGatewayId": "nat-1", "State": "available"}'},
     [f"route rtb-a 10.9.0.0/16 to nat-1, which has no subnet: {STOPS}"], TO_9, "stopped Unmodelled nat-1 -"),
    ("a NAT gateway that is gone", {"route": '{"DestinationCidrBlock": "10.9.0.0/16", "NatGatewayId": "nat-1"}', "NatGateways": '{"NatGatewayId": "nat-1", "State": "deleted"}'},
     [], TO_9, "stopped NatNotAvailable nat-1 -"),
    ("a peering to a VPC that isn't there", {"route": '{"DestinationCidrBlock": "10.9.0.0/16", "VpcPeeringConnectionId": "pcx-1"}',
                                            "VpcPeeringConnections": '{"VpcPeeringConnectionId": "pcx-1", "Status": {"Code": "active"}, "RequesterVpcInfo": {"VpcId": "vpc-9"}, "AccepterVpcInfo": {"VpcId": "vpc-a"}}'},
     [f"route rtb-a 10.9.0.0/16 to pcx-1, whose other VPC vpc-9 isn't described: {STOPS}"], TO_9, "stopped Unmodelled pcx-1 -"),
    ("a peering to a VPC that is", {"route": '{"DestinationCidrBlock": "10.9.0.0/16", "VpcPeeringConnectionId": "pcx-1"}',
                                   "VpcPeeringConnections": '{"VpcPeeringConnectionId": "pcx-1", "Status": {"Code": "active"}, "RequesterVpcInfo": {"VpcId": "vpc-a"}, "AccepterVpcInfo": {"VpcId": "vpc-b"}}'},
     [], TO_9, "stopped PeerDestination pcx-1 -"),
    ("a peering that isn't active", {"route": '{"DestinationCidrBlock": "10.9.0.0/16", "VpcPeeringConnectionId": "pcx-1"}',
                                    "VpcPeeringConnections": '{"VpcPeeringConnectionId": "pcx-1", "Status": {"Code": "deleted"}}'},
     [], TO_9, "stopped PeerNotActive pcx-1 -"),
    ("an appliance's interface", {"route": '{"DestinationCidrBlock": "10.9.0.0/16", "NetworkInterfaceId": "eni-a", "InstanceId": "i-1"}'},
     [], TO_9, "stopped DestCheck eni-a -"),
    ("a filtered route", {"route": '{"DestinationCidrBlock": "10.2.0.0/24", "GatewayId": "igw-a", "State": "filtered"}'},
     ["state filtered of route rtb-a 10.2.0.0/24 to igw-a: AWS doesn't use the route, and answers do"], "open from eni-a tcp 10.1.1.10 10.2.0.9 1 2", "stopped NoPublic igw-a -"),
    ("a route of a route server", {"route": '{"DestinationCidrBlock": "10.9.0.0/16", "NetworkInterfaceId": "eni-a", "Origin": "Advertisement"}'},
     ["origin Advertisement of route rtb-a 10.9.0.0/16 to eni-a: of routes as long as it, answers may go by another than AWS does"], TO_9, "stopped DestCheck eni-a -"),
    ("an internet gateway's table", FIREWALLED, [f"route rtb-edge 10.1.0.0/16 to vpce-1, of what comes in by igw-a: {STOPS}"], COMES_IN_BY_IGW, "stopped Unmodelled vpce-1 -"),
    ("which leads to a host", {**FIREWALLED, "RouteTables": FIREWALLED["RouteTables"].replace('"GatewayId": "vpce-1"', '"NetworkInterfaceId": "eni-a"')}, [], COMES_IN_BY_IGW, "arrived eni-a"),
    ("which leads to a firewall", {**FIREWALLED, "VpcEndpoints": ENDPOINT % ("GatewayLoadBalancer", "a", "available"), "Appliances": '{"VpcEndpointId": "vpce-1", "Kind": "none"}'}, [], COMES_IN_BY_IGW, "stopped InspectDrop vpce-1 -"),
    ("a firewall of which nothing is told", {**FIREWALLED, "VpcEndpoints": ENDPOINT % ("GatewayLoadBalancer", "a", "available")},
     [f"not told: what stands behind vpce-1 of vpc-a, an endpoint of a firewall (Appliances): {STOPS}"], COMES_IN_BY_IGW, "stopped Unmodelled vpce-1 -"),
    ("one of another VPC", {"route": '{"DestinationCidrBlock": "10.9.0.0/16", "GatewayId": "vpce-1"}', "VpcEndpoints": (ENDPOINT % ("GatewayLoadBalancer", "b", "available")).replace("subnet-a", "subnet-b"), "Appliances": '{"VpcEndpointId": "vpce-1", "Kind": "all"}'},
     [f"route rtb-a 10.9.0.0/16 to vpce-1: {STOPS}"], TO_9, "stopped Unmodelled vpce-1 -"),
    ("a VPN gateway's table", {"tied": '{"Main": false, "GatewayId": "vgw-1"}'}, [f"route table rtb-a of gateway vgw-1: {BEHIND}"], TO_B, "stopped GroupsIn eni-b -"),
    ("of one that is listed", {"tied": '{"Main": false, "GatewayId": "vgw-1"}', "VpnGateways": GONE_VPC % ("attached", "a")},
     [f"route rtb-a 10.2.0.0/16 to tgw-1, of what comes in by vgw-1: {STOPS}", f"route rtb-a 198.51.100.0/24 to igw-a, of what comes in by vgw-1: {STOPS}", f"outside: vgw-1 of vpc-a, {VPN}: {COMES}"],
     "open from vgw-1 tcp 10.9.0.1 10.2.1.10 1 2", "stopped Unmodelled tgw-1 -"),

    # ends outside
    ("a VPN gateway that is listed", {"route": '{"DestinationCidrBlock": "10.9.0.0/16", "GatewayId": "vgw-1"}', "VpnGateways": GONE_VPC % ("attached", "a")},
     [f"outside: vgw-1 of vpc-a, {VPN}: {COMES}"], TO_9, "arrived vgw-1"),
    ("one that is attached to another VPC", {"route": '{"DestinationCidrBlock": "10.9.0.0/16", "GatewayId": "vgw-1"}', "VpnGateways": GONE_VPC % ("attached", "b")},
     [f"outside: vgw-1 of vpc-b, {VPN}: {COMES}"], TO_9, "stopped FarDetached vgw-1 -"),
    ("to none that is described", {"VpnGateways": GONE_VPC % ("attached", "9")}, [f"outside: vgw-1, {VPN}: {NONE_COMES}, since it is attached to no VPC that is described"],
     "open from vgw-1 tcp 10.9.0.1 10.1.1.10 1 2", "stopped FarDetached vgw-1 -"),
    ("to none at all", {"VpnGateways": GONE_VPC % ("detached", "a")}, [f"outside: vgw-1, {VPN}: {NONE_COMES}, since it is attached to no VPC that is described"],
     "open from vgw-1 tcp 10.9.0.1 10.1.1.10 1 2", "stopped FarDetached vgw-1 -"),
    ("a peering with another account", {"route": '{"DestinationCidrBlock": "10.9.0.0/16", "VpcPeeringConnectionId": "pcx-1"}', "VpcPeeringConnections": PEERED % "active"},
     [f"outside: pcx-1 of vpc-a, VPC vpc-9 of account 777788889999, which isn't described: {COMES}"], TO_9, "arrived pcx-1"),
    ("one that waits", {"VpcPeeringConnections": PEERED % "pending-acceptance"}, [], None, None),
    ("of which a side's blocks aren't told", {"VpcPeeringConnections": (PEERED % "active").replace("CidrBlockSet", "Ipv6CidrBlockSet"), "route": '{"DestinationCidrBlock": "10.9.0.0/16", "VpcPeeringConnectionId": "pcx-1"}'},
     [f"route rtb-a 10.9.0.0/16 to pcx-1, whose other VPC vpc-9 isn't described: {STOPS}"], TO_9, "stopped Unmodelled pcx-1 -"),
    ("a gateway endpoint", {"route": '{"DestinationCidrBlock": "10.9.0.0/16", "GatewayId": "vpce-1"}', "VpcEndpoints": ENDPOINT % ("Gateway", "a", "Available")},
     [f"outside: vpce-1 of vpc-a, the service com.amazonaws.us-east-1.s3: {OPENS}"], TO_9, "arrived vpce-1"),
    ("of another VPC", {"route": '{"DestinationCidrBlock": "10.9.0.0/16", "GatewayId": "vpce-1"}', "VpcEndpoints": ENDPOINT % ("Gateway", "b", "available")},
     [f"route rtb-a 10.9.0.0/16 to vpce-1: {STOPS}", f"outside: vpce-1 of vpc-b, the service com.amazonaws.us-east-1.s3: {OPENS}"], TO_9, "stopped Unmodelled vpce-1 -"),
    ("of none that is described", {"VpcEndpoints": ENDPOINT % ("Gateway", "9", "available")}, [], None, None),
    ("one that is being deleted", {"route": '{"DestinationCidrBlock": "10.9.0.0/16", "GatewayId": "vpce-1"}', "VpcEndpoints": ENDPOINT % ("Gateway", "a", "deleting")},
     [f"route rtb-a 10.9.0.0/16 to vpce-1: {STOPS}"], TO_9, "stopped Unmodelled vpce-1 -"),
    ("an endpoint that is an interface", {"VpcEndpoints": ENDPOINT % ("Interface", "a", "available")}, [], None, None),

    # IPv6
    ("routes of IPv6", {"route": '{"DestinationIpv6CidrBlock": "2001:db8::/56", "GatewayId": "local"}, {"DestinationIpv6CidrBlock": "::/0", "EgressOnlyInternetGatewayId": "eigw-1"}'},
     [f"IPv6 routes of rtb-a, 2001:db8::/56 to local, ::/0 to eigw-1: {IPV4}"], TO_B, "stopped GroupsIn eni-b -"),
    ("transit routes of IPv6", {"transit": '{"DestinationCidrBlock": "2001:db8::/56", "Type": "static", "State": "active"}'},
     [f"IPv6 routes of tgw-rtb, 2001:db8::/56: {IPV4}"], TO_B, "stopped GroupsIn eni-b -"),
    ("members of a group", {"in": '{"IpProtocol": "tcp", "Ipv6Ranges": [{"CidrIpv6": "::/0"}]}'}, [f"IPv6 rules of sg-b, in 2: {IPV4}"], TO_B, "stopped GroupsIn eni-b -"),
    ("rows of their own", {"SecurityGroupRules": '{"SecurityGroupRuleId": "sgr-6", "GroupId": "sg-b", "IsEgress": true, "IpProtocol": "-1", "CidrIpv6": "::/0"}',
                           "in": '{"IpProtocol": "tcp", "Ipv6Ranges": [{"CidrIpv6": "::/0"}]}'}, [f"IPv6 rules of sg-b, sgr-6: {IPV4}"], TO_B, "stopped GroupsIn eni-b -"),
    ("rows of a group that isn't there", {"SecurityGroupRules": '{"SecurityGroupRuleId": "sgr-6", "GroupId": "sg-9", "IsEgress": true, "IpProtocol": "-1", "CidrIpv6": "::/0"}'}, [], None, None),
    ("rows of an ACL", {"acl": '{"RuleNumber": 101, "Egress": false, "Protocol": "-1", "RuleAction": "allow", "Ipv6CidrBlock": "::/0"}, {"RuleNumber": 9, "Egress": true, "Protocol": "-1", "RuleAction": "deny", "Ipv6CidrBlock": "::/0"}'},
     [f"IPv6 rows of acl-1, in 101, out 9: {IPV4}"], TO_B, "stopped GroupsIn eni-b -"),
    ("blocks of prefix lists", {"PrefixLists": '{"PrefixListId": "pl-1", "Cidrs": ["10.9.0.0/16", "2001:db8::/56"]}', "PrefixListEntries": '{"PrefixListId": "pl-2", "Entries": [{"Cidr": "2001:db9::/56"}]}'},
     [f"IPv6 blocks of pl-1, 2001:db8::/56: {IPV4}", f"IPv6 blocks of pl-2, 2001:db9::/56: {IPV4}"], TO_B, "stopped GroupsIn eni-b -"),

    # interfaces
    ("a delegated prefix, as a destination", {"eni": '{"Ipv4Prefixes": [{"Ipv4Prefix": "10.1.1.16/28"}]}'}, [], "open from eni-a tcp 10.1.1.10 10.1.1.17 1 2", "arrived eni-a"),
    ("as a source", {"eni": '{"Ipv4Prefixes": [{"Ipv4Prefix": "10.1.1.16/28"}]}'}, [], "open from eni-a tcp 10.1.1.17 10.2.1.10 1 2", "stopped GroupsIn eni-b -"),
    ("as a source that isn't public", {"eni": '{"Ipv4Prefixes": [{"Ipv4Prefix": "10.1.1.16/28"}], "PrivateIpAddresses": [{"PrivateIpAddress": "10.1.1.10", "Association": {"PublicIp": "203.0.113.10"}}]}'},
     [], "open from eni-a tcp 10.1.1.17 198.51.100.7 1 2", "stopped NoPublic igw-a -"),
    ("a public address in both places", {"eni": '{"Association": {"PublicIp": "203.0.113.10"}, "PrivateIpAddresses": [{"PrivateIpAddress": "10.1.1.10", "Association": {"PublicIp": "203.0.113.10"}}]}'},
     [], OUT, "arrived internet"),
    ("in the own association alone", {"eni": '{"Association": {"PublicIp": "203.0.113.10"}}'}, [f"public address 203.0.113.10 of eni-a, which its own Association alone has: {HIDDEN}"], OUT, "stopped NoPublic igw-a -"),
    ("and to it", {"eni": '{"Association": {"PublicIp": "203.0.113.10"}}'}, [f"public address 203.0.113.10 of eni-a, which its own Association alone has: {HIDDEN}"],
     "open from internet tcp 198.51.100.7 203.0.113.10 1 2", "arrived internet"),
    ("a carrier address", {"eni": '{"PrivateIpAddresses": [{"PrivateIpAddress": "10.1.1.10", "Association": {"CarrierIp": "203.0.113.10"}}]}'}, [f"carrier address 203.0.113.10 of eni-a: {HIDDEN}"], OUT, "stopped NoPublic igw-a -"),
    ("a customer-owned address", {"eni": '{"Association": {"CustomerOwnedIp": "203.0.113.10"}}'}, [f"customer-owned address 203.0.113.10 of eni-a: {HIDDEN}"], OUT, "stopped NoPublic igw-a -"),
    ("a network load balancer", {"eni": '{"InterfaceType": "network_load_balancer"}'}, ["what the load balancer of eni-a sends on: packets end there; ask on from it to its targets"],
     "open from eni-b udp 10.2.1.10 10.1.1.10 1 2", "stopped GroupsOut eni-b -"),
    ("an application load balancer", {"eni": '{"InterfaceType": "interface", "Description": "ELB app/shop/50dc6c495c0c9188"}'},
     ["what the load balancer of eni-a sends on: packets end there; ask on from it to its targets"], TO_B, "stopped GroupsIn eni-b -"),
    ("a stopped instance", {"Reservations": '{"Instances": [{"InstanceId": "i-1", "State": {"Name": "stopped"}, "NetworkInterfaces": [{"NetworkInterfaceId": "eni-a"}]}]}'},
     [], "open from eni-a udp 10.1.1.10 10.2.1.10 1 2", "stopped Detached eni-a -"),
    ("a running one", {"Reservations": '{"Instances": [{"InstanceId": "i-1", "State": {"Name": "running"}, "NetworkInterfaces": [{"NetworkInterfaceId": "eni-a"}]}]}'}, [], None, None),

    # groups
    ("a group of which no rule is listed", {"SecurityGroupRules": '{"SecurityGroupRuleId": "sgr-1", "GroupId": "sg-a", "IsEgress": true, "IpProtocol": "-1", "CidrIpv4": "0.0.0.0/0"}'}, [UNLISTED], "open from eni-a udp 10.1.1.10 10.2.1.10 1 2", "arrived eni-b"),
    ("one of which rules of IPv6 are", {"SecurityGroupRules": '{"SecurityGroupRuleId": "sgr-1", "GroupId": "sg-a", "IsEgress": true, "IpProtocol": "-1", "PrefixListId": "pl-1"}, {"SecurityGroupRuleId": "sgr-2", "GroupId": "sg-b", "IsEgress": false, "IpProtocol": "udp", "CidrIpv6": "::/0"}', "PrefixLists": '{"PrefixListId": "pl-1", "Cidrs": ["10.2.0.0/16"]}'},
     [UNLISTED, f"IPv6 rules of sg-b, sgr-2: {IPV4}"], "open from eni-a udp 10.1.1.10 10.2.1.10 1 2", "arrived eni-b"),
    ("both of which are listed", {"SecurityGroupRules": '{"SecurityGroupRuleId": "sgr-1", "GroupId": "sg-a", "IsEgress": true, "IpProtocol": "-1", "CidrIpv4": "0.0.0.0/0"}, {"SecurityGroupRuleId": "sgr-2", "GroupId": "sg-b", "IsEgress": false, "IpProtocol": "tcp", "CidrIpv4": "0.0.0.0/0"}'}, [], "open from eni-a udp 10.1.1.10 10.2.1.10 1 2", "stopped GroupsIn eni-b -"),
    ("a group without rules beside one whose are listed", {"SecurityGroupRules": '{"SecurityGroupRuleId": "sgr-1", "GroupId": "sg-a", "IsEgress": true, "IpProtocol": "-1", "CidrIpv4": "0.0.0.0/0"}, {"SecurityGroupRuleId": "sgr-2", "GroupId": "sg-b", "IsEgress": false, "IpProtocol": "udp", "CidrIpv4": "0.0.0.0/0"}',
                                                           "SecurityGroups": '{"GroupId": "sg-c", "VpcId": "vpc-b", "IpPermissions": [], "IpPermissionsEgress": []}, {"GroupId": "sg-d", "VpcId": "vpc-b", "IpPermissions": [{"IpProtocol": "-1", "IpRanges": [], "UserIdGroupPairs": []}]}'}, [], "open from eni-a udp 10.1.1.10 10.2.1.10 1 2", "arrived eni-b"),

    # gateways
    ("a NAT gateway of two addresses", {"NatGateways": '{"NatGatewayId": "nat-1", "State": "available", "SubnetId": "subnet-a", "NatGatewayAddresses": [{"NetworkInterfaceId": "eni-n", "PrivateIp": "10.1.1.5"}, {"NetworkInterfaceId": "eni-n", "PrivateIp": "10.1.1.6", "IsPrimary": true}]}',
                                       "NetworkInterfaces": '{"NetworkInterfaceId": "eni-n", "SubnetId": "subnet-a", "InterfaceType": "nat_gateway", "PrivateIpAddresses": [{"PrivateIpAddress": "10.1.1.5"}, {"PrivateIpAddress": "10.1.1.6"}]}',
                                       "route": '{"DestinationCidrBlock": "10.2.1.0/24", "NatGatewayId": "nat-1"}'},
     ["secondary addresses of nat-1, 10.1.1.5: it sends packets on from 10.1.1.6 alone"], TO_B, "stopped Loop nat-1 -"),
    ("public access that is blocked, by VPC", {"vpc": '{"BlockPublicAccessStates": {"InternetGatewayBlockMode": "block-bidirectional"}}', "eni": '{"PrivateIpAddresses": [{"PrivateIpAddress": "10.1.1.10", "Association": {"PublicIp": "203.0.113.10"}}]}'},
     [], OUT, "stopped BlockPublicAccess subnet-a block-bidirectional"),
    ("that isn't told", {"vpc": '{"BlockPublicAccessStates": null}', "eni": '{"PrivateIpAddresses": [{"PrivateIpAddress": "10.1.1.10", "Association": {"PublicIp": "203.0.113.10"}}]}'},
     ["not told: block public access of subnet-a"], OUT, "arrived internet"),
    ("without its mode", {"vpc": '{"BlockPublicAccessStates": {"InternetGatewayBlockMode": null}}'}, ["not told: block public access of subnet-a"], None, None),
    ("of a second VPC", {"InternetGateways": IGW_B % "attached"}, ["not told: block public access of subnet-b"], None, None),
    ("by its subnet alone", {"InternetGateways": IGW_B % "available", "subnet": '{"BlockPublicAccessStates": {"InternetGatewayBlockMode": "block-ingress"}}'}, [], None, None),
    ("of a gateway that is being detached", {"InternetGateways": IGW_B % "detaching"}, [], None, None),
    ("by account", {"VpcBlockPublicAccessOptions": '{"AwsAccountId": "111122223333", "InternetGatewayBlockMode": "block-ingress"}', "VpcBlockPublicAccessExclusions": '{"ExclusionId": "vpcbpa-exclude-1"}'}, [], None, None),

    # transit gateways
    ("an attachment of another kind", {"TransitGatewayAttachments": '{"TransitGatewayAttachmentId": "att-vpn", "TransitGatewayId": "tgw-1", "ResourceType": "vpn", "State": "available"}'},
     [f"outside: att-vpn of tgw-1, a Site-to-Site VPN: {NONE_COMES}, since it has no route table here"], "open from att-vpn tcp 10.9.0.1 10.2.1.10 1 2", "stopped FarNoTable att-vpn -"),
    ("of a table that isn't there", {"TransitGatewayAttachments": ATTACHED % ("vpn", "tgw-rtb-9")}, [f"outside: att-vpn of tgw-1, a Site-to-Site VPN: {NONE_COMES}, since it has no route table here"],
     "open from att-vpn tcp 10.9.0.1 10.2.1.10 1 2", "stopped FarNoTable att-vpn -"),
    ("of one that leads in", {"TransitGatewayAttachments": ATTACHED % ("direct-connect-gateway", "tgw-rtb")}, [f"outside: att-vpn of tgw-1, a Direct Connect gateway: {COMES}"],
     "open from att-vpn udp 10.9.0.1 10.2.1.10 1 2", "arrived eni-b"),
    ("of one that leads nowhere", {"TransitGatewayAttachments": ATTACHED % ("connect", "tgw-rtb-2"), "TransitGatewayRoutes": '{"TransitGatewayRouteTableId": "tgw-rtb-2", "Routes": [{"DestinationCidrBlock": "10.2.0.0/16", "Type": "static", "State": "blackhole", "TransitGatewayAttachments": [{"TransitGatewayAttachmentId": "att-b"}]}]}'},
     [f"outside: att-vpn of tgw-1, a Connect attachment, as of an SD-WAN: {NONE_COMES}, since tgw-rtb-2 leads to no VPC here"], "open from att-vpn udp 10.9.0.1 10.2.1.10 1 2", "stopped TgwBlackhole tgw-rtb-2 10.2.0.0/16"),
    ("of a kind that isn't known", {"TransitGatewayAttachments": ATTACHED % ("tunnel", "tgw-rtb")}, [f"outside: att-vpn of tgw-1, what is of type tunnel: {COMES}"], None, None),
    ("of which too little is told", {"TransitGatewayAttachments": '{"TransitGatewayAttachmentId": "att-vpn", "TransitGatewayId": "tgw-1", "ResourceType": "vpn"}'}, [f"vpn attachment att-vpn of tgw-1: {BEHIND}"], None, None),
    ("a transit route to one", {"transit": TO_VPN, "TransitGatewayAttachments": ATTACHED % ("vpn", "tgw-rtb")}, [f"outside: att-vpn of tgw-1, a Site-to-Site VPN: {COMES}"], TO_B, "arrived att-vpn"),
    ("to a VPC of another account", {"transit": TO_VPN, "TransitGatewayAttachments": (ATTACHED % ("vpc", "tgw-rtb")).replace('"State"', '"ResourceId": "vpc-9", "ResourceOwnerId": "777788889999", "State"'),
                                    "TransitGatewayVpcAttachments": '{"TransitGatewayAttachmentId": "att-vpn", "TransitGatewayId": "tgw-1", "VpcId": "vpc-9", "SubnetIds": ["subnet-9"], "State": "available"}'},
     [f"outside: att-vpn of tgw-1, VPC vpc-9 of account 777788889999, which isn't described: {COMES}"], TO_B, "arrived att-vpn"),
    ("one that is gone", {"TransitGatewayAttachments": '{"TransitGatewayAttachmentId": "att-vpn", "TransitGatewayId": "tgw-1", "ResourceType": "vpn", "State": "deleted"}'}, [], None, None),
    ("a transit route to a VPN", {"transit": '{"DestinationCidrBlock": "10.2.1.0/24", "Type": "static", "State": "active", "TransitGatewayAttachments": [{"TransitGatewayAttachmentId": "att-vpn", "ResourceType": "vpn"}]}'},
     [f"route tgw-rtb 10.2.1.0/24 to att-vpn, whose kind is vpn: {STOPS}"], TO_B, "stopped Unmodelled att-vpn -"),
    ("to a VPC's that isn't there", {"transit": '{"DestinationCidrBlock": "10.2.1.0/24", "Type": "static", "State": "active", "TransitGatewayAttachments": [{"TransitGatewayAttachmentId": "att-9", "ResourceType": "vpc"}]}'},
     [f"route tgw-rtb 10.2.1.0/24 to att-9, which isn't described: {STOPS}"], TO_B, "stopped Unmodelled att-9 -"),
    ("to one of a VPC that isn't", {"transit": '{"DestinationCidrBlock": "10.2.1.0/24", "Type": "static", "State": "active", "TransitGatewayAttachments": [{"TransitGatewayAttachmentId": "att-9"}]}',
                                   "TransitGatewayVpcAttachments": '{"TransitGatewayAttachmentId": "att-9", "TransitGatewayId": "tgw-1", "VpcId": "vpc-9", "SubnetIds": ["subnet-9"], "State": "available"}'},
     [f"route tgw-rtb 10.2.1.0/24 to att-9, whose VPC vpc-9 isn't described: {STOPS}"], TO_B, "stopped Unmodelled att-9 -"),
    ("to one that is being deleted", {"attachment": '{"State": "deleting"}'}, [f"route tgw-rtb 10.2.0.0/16 to att-b, which isn't described: {STOPS}"], TO_B, "stopped Unmodelled att-b -"),
    ("to one without a subnet", {"attachment": '{"SubnetIds": []}'}, [f"route tgw-rtb 10.2.0.0/16 to att-b, which has no subnet: {STOPS}"], TO_B, "stopped Unmodelled att-b -"),
    ("without an attachment", {"transit": '{"DestinationCidrBlock": "10.2.1.0/24", "Type": "static", "State": "active"}'}, [f"route tgw-rtb 10.2.1.0/24 without an attachment: {STOPS}"], TO_B, "stopped Unmodelled tgw-rtb -"),
    ("one that is a blackhole", {"transit": '{"DestinationCidrBlock": "10.2.1.0/24", "Type": "static", "State": "blackhole"}'}, [], TO_B, "stopped TgwBlackhole tgw-rtb 10.2.1.0/24"),
    ("a table without its routes", {"associated": '{"Association": {"TransitGatewayRouteTableId": "tgw-rtb-9"}}'}, [f"routes of tgw-rtb-9, the table of att-a, {NO_TABLE}"], TO_B, "stopped TgwNoTable att-a -"),
    ("a table of two attachments", {"associated": '{"Association": {"TransitGatewayRouteTableId": "tgw-rtb-9"}}', "TransitGatewayVpcAttachments": '{"TransitGatewayAttachmentId": "att-c", "TransitGatewayId": "tgw-2", "VpcId": "vpc-b", "SubnetIds": ["subnet-b"], "State": "modifying"}, {"TransitGatewayAttachmentId": "att-d", "TransitGatewayId": "tgw-2", "VpcId": "vpc-b", "SubnetIds": ["subnet-b"], "State": "deleted"}',
                                    "TransitGatewayAttachments": '{"TransitGatewayAttachmentId": "att-c", "Association": {"TransitGatewayRouteTableId": "tgw-rtb-9"}}, {"TransitGatewayAttachmentId": "att-d", "Association": {"TransitGatewayRouteTableId": "tgw-rtb-8"}}, {"TransitGatewayAttachmentId": "att-e", "Association": 7}'},
     [f"routes of tgw-rtb-9, the table of att-a, att-c, {NO_TABLE}"], TO_B, "stopped TgwNoTable att-a -"),
    ("no table", {"associated": '{"Association": null}'}, [], TO_B, "stopped TgwNoTable att-a -"),
    ("appliance mode", {"attachment": '{"Options": {"ApplianceModeSupport": "enable"}}'}, ["appliance mode of att-b: a packet leaves in the zone where it entered"], TO_B, "stopped GroupsIn eni-b -"),
    ("an attachment listed twice", {"TransitGatewayVpcAttachments": '{"TransitGatewayAttachmentId": "att-b", "TransitGatewayId": "tgw-1", "VpcId": "vpc-b", "SubnetIds": [], "State": "available"}'},
     ["another row of att-b, with other subnets: the first row counts"], TO_B, "stopped GroupsIn eni-b -"),
    ("a reference over a transit gateway of which nothing is told", {"in": NAMES_A}, [UNTOLD % "sg-b in 2"], TO_B, "stopped GroupsIn eni-b -"),
    ("of which the gateway's option isn't told", {"in": NAMES_A, "near": OPTION % "enable", "attachment": OPTION % "enable", "TransitGateways": '{"TransitGatewayId": "tgw-1", "Options": {}}'},
     [UNTOLD % "sg-b in 2"], TO_B, "stopped GroupsIn eni-b -"),
    ("of which an attachment's isn't told", {"in": NAMES_A, "attachment": OPTION % "enable", **GATEWAY_ON}, [UNTOLD % "sg-b in 2"], TO_B, "stopped GroupsIn eni-b -"),
    ("of which all is told", {"in": NAMES_A, "near": OPTION % "enable", "attachment": OPTION % "enable", **GATEWAY_ON}, [], TO_B, "arrived eni-b"),
    ("where the gateway forbids it", {"in": NAMES_A, "TransitGateways": '{"TransitGatewayId": "tgw-1", "Options": {"SecurityGroupReferencingSupport": "disable"}}'}, [], TO_B, "stopped GroupsIn eni-b -"),
    ("over another gateway", {"in": NAMES_A, "TransitGateways": '{"TransitGatewayId": "tgw-2", "Options": {"SecurityGroupReferencingSupport": "enable"}}', "TransitGatewayVpcAttachments": OTHER_WAY % ("a", "a", "a", "b", "b", "b")},
     [], TO_B, "arrived eni-b"),
    ("as a row of its own", {"SecurityGroupRules": '{"SecurityGroupRuleId": "sgr-1", "GroupId": "sg-b", "IsEgress": false, "IpProtocol": "-1", "ReferencedGroupInfo": {"GroupId": "sg-a"}}'},
     [UNLISTED_A, UNTOLD % "sg-b sgr-1"], TO_B, "stopped GroupsIn eni-b -"),
    ("to a group of both VPCs", {"in": NAMES_A, "SecurityGroupVpcAssociations": '{"GroupId": "sg-a", "VpcId": "vpc-b", "State": "associated"}'}, [], TO_B, "arrived eni-b"),
    ("to a group that isn't yet of both", {"in": NAMES_A, "SecurityGroupVpcAssociations": '{"GroupId": "sg-a", "VpcId": "vpc-b", "State": "associating"}'}, [UNTOLD % "sg-b in 2"], TO_B, "stopped GroupsIn eni-b -"),
    ("outward, as a row of its own", {"SecurityGroupRules": '{"SecurityGroupRuleId": "sgr-1", "GroupId": "sg-a", "IsEgress": true, "IpProtocol": "-1", "ReferencedGroupInfo": {"GroupId": "sg-b"}}'},
     [UNLISTED], TO_B, "stopped GroupsOut eni-a -"),
    ("over an active peering", {"in": NAMES_A,
                                "VpcPeeringConnections": '{"VpcPeeringConnectionId": "pcx-1", "Status": {"Code": "active"}, "RequesterVpcInfo": {"VpcId": "vpc-a"}, "AccepterVpcInfo": {"VpcId": "vpc-b"}}'},
     [], TO_B, "arrived eni-b"),
    ("where an attachment forbids it", {"in": NAMES_A, "attachment": OPTION % "disable", **GATEWAY_ON}, [], TO_B, "stopped GroupsIn eni-b -"),
    ("to a group that isn't there", {"in": '{"IpProtocol": "tcp", "UserIdGroupPairs": [{"GroupId": "sg-9"}]}'}, [], TO_B, "stopped GroupsIn eni-b -"),
    ("one name of two zones", {"subnet": '{"AvailabilityZoneId": "use1-az1"}'}, [f"zone us-east-1a at tgw-1, use1-az6 of subnet-a, use1-az1 of subnet-b: {ZONES}"], None, None),
    ("two names of one zone", {"subnet": '{"AvailabilityZone": "us-east-1b"}'}, [f"zone use1-az6 at tgw-1, us-east-1a of subnet-a, us-east-1b of subnet-b: {ZONES}"], None, None),
    ("zone ids in the place of names", {"subnet": '{"AvailabilityZone": "use1-az1", "AvailabilityZoneId": "use1-az1"}'}, [], None, None),
    ("a zone whose id isn't known", {"subnet": '{"AvailabilityZoneId": null}'}, [f"zones of accounts 111122223333, 444455556666 at tgw-1, whose ids subnet-b doesn't tell: {ZONES}"], None, None),
    ("zones of one account", {"subnet": '{"AvailabilityZoneId": null, "OwnerId": "111122223333"}'}, [], None, None),
]

# Name, what is put in, and the lines without --all.
VGW = '{"DestinationCidrBlock": "10.%s.0.0/16", "GatewayId": "%s"}'
FOLDED = [
    ("two routes to one gateway", {"route": f"{VGW % (8, 'vgw-1')}, {VGW % (9, 'vgw-1')}"},
     [f"2 routes that lead beyond what is followed, as rtb-a 10.8.0.0/16 to vgw-1: {STOPS}", f"vgw-1: {BEHIND}"]),
    ("to two", {"route": f"{VGW % (8, 'vgw-1')}, {VGW % (9, 'vgw-2')}"},
     [f"2 routes that lead beyond what is followed, as rtb-a 10.8.0.0/16 to vgw-1: {STOPS}",
      "2 gateways to other networks, as vgw-1: packets from behind them can't be asked about"]),
    ("two ends outside that are alike", {"VpnGateways": f"{GONE_VPC % ('attached', 'a')}, {(GONE_VPC % ('attached', 'b')).replace('vgw-1', 'vgw-2')}, {(GONE_VPC % ('attached', '9')).replace('vgw-1', 'vgw-3')}"},
     ["outside: 2 virtual private gateways, as vgw-1: packets come in from behind them", f"outside: vgw-3, {VPN}: {NONE_COMES}, since it is attached to no VPC that is described"]),
    ("two services", {"VpcEndpoints": f"{ENDPOINT % ('Gateway', 'a', 'available')}, {(ENDPOINT % ('Gateway', 'b', 'available')).replace('vpce-1', 'vpce-2')}"},
     ["outside: 2 gateway endpoints, as vpce-1: they open no connection; ask to them"]),
    ("two firewalls of which nothing is told", {"VpcEndpoints": f"{ENDPOINT % ('GatewayLoadBalancer', 'a', 'available')}, {(ENDPOINT % ('GatewayLoadBalancer', 'b', 'available')).replace('vpce-1', 'vpce-2')}"},
     [f"not told: what stands behind 2 endpoints of firewalls (Appliances), as vpce-1: {STOPS}"]),
    ("a thousand of them", {"route": ", ".join('{"DestinationCidrBlock": "10.9.%d.%d/32", "GatewayId": "vpce-1"}' % (k // 256, k % 256) for k in range(1000))},
     [f"1,000 routes that lead beyond what is followed, as rtb-a 10.9.0.0/32 to vpce-1: {STOPS}"]),
    ("two subnets of which block public access isn't told", {"vpc": '{"BlockPublicAccessStates": {}}', "InternetGateways": IGW_B % "available"},
     ["not told: block public access of 2 subnets, as subnet-a"]),
    ("two rules over a transit gateway of which nothing is told", {"in": f"{NAMES_A}, {NAMES_A}"},
     ["not told: whether 2 rules may name groups over transit gateways, as sg-b in 2 to sg-a over tgw-1: what they alone allow stops as GroupsIn"]),
    ("a word that is none", {"RouteTables": '{"RouteTableId": "rtb-\\u001b[2J", "Routes": [{"DestinationIpv6CidrBlock": "::/0", "GatewayId": "igw-a"}]}, '
                                            '{"RouteTableId": "rtb-z", "Routes": [{"DestinationIpv6CidrBlock": "::/0", "GatewayId": "igw-a"}]}'},
     [f'2 route tables with routes of IPv6, as "rtb-\\u001b[2J": {IPV4}']),
]

# Files, the status, and the line on standard error behind 'survey: FILE '.
FILES = [
    ("no file", None, 2, "can't be read: No such file or directory"),
    ("an empty file", b"", 2, "is no bundle: it is not one JSON value in UTF-8"),
    ("a file that breaks off", b'{"Vpcs": [', 2, "is no bundle: it is not one JSON value in UTF-8"),
    ("two values", b'{"Vpcs": []}{"Vpcs": []}', 2, "is no bundle: it is not one JSON value in UTF-8"),
    ("UTF-16", '{"Vpcs": []}'.encode("utf-16"), 2, "is no bundle: it is not one JSON value in UTF-8"),
    ("no JSON number", b'{"Vpcs": [], "a": NaN}', 2, "is no bundle: it is not one JSON value in UTF-8"),
    ("deep nesting", b"[" * 100_000, 2, "is no bundle: it is not one JSON value in UTF-8"),
    ("a number", b"7", 2, "is no bundle: it is neither an object nor an array of objects"),
    ("an array of numbers", b"[1]", 2, "is no bundle: it is neither an object nor an array of objects"),
    ("another object", b'{"Version": "2012-10-17"}', 2, "is no bundle: it has none of a bundle's lists"),
    ("a list that is none", b'{"Vpcs": {}}', 2, "is no bundle: its Vpcs is no list"),
    ("odd rows", b'{"Vpcs": [1, {}], "RouteTables": [{"Routes": 7, "Associations": [null]}], "Subnets": null, "NetworkInterfaces": [1, {}]}', 0, None),
]


def put(bundle, place, texts):
    """Puts rows into a list of a bundle, or members into a row of it."""
    rows = json.loads(f"[{texts}]")
    if place not in PLACES:
        bundle.setdefault(place, []).extend(rows)
        return
    name, wanted, inner = PLACES[place]
    row = next(it for it in bundle[name] if wanted in it.values())
    if inner:
        row[inner] += rows
    else:
        row.update(rows[0])


def printed(lines):
    """Lines as they are printed."""
    return [it if it.startswith(("not told: ", "outside: ")) else f"not followed: {it}" for it in lines]


def survey(*words):
    """The status of survey, called within this process, and its lines on standard output and standard error."""
    out, err = io.StringIO(), io.StringIO()
    with contextlib.redirect_stdout(out), contextlib.redirect_stderr(err):
        status = script.main(list(words))
    return status, out.getvalue().splitlines(), err.getvalue().splitlines()


def process(*words):
    """The same of survey as a process."""
    ran = subprocess.run([os.path.join(TOP, "survey"), *words], capture_output=True, text=True, check=False)
    return ran.returncode, ran.stdout.splitlines(), ran.stderr.splitlines()


class Results:
    def __init__(self):
        self.passed = self.failed = 0

    def add(self, name, found, wanted):
        if found == wanted:
            self.passed += 1
            return
        self.failed += 1
        print(f"FAILED: {name}\n  wanted: {wanted}\n  found:  {found}")


def run_row(results, row, path, program):
    name, parts, lines, packet, last = row
    bundle = copy.deepcopy(BASE)
    for place, texts in parts.items():
        put(bundle, place, texts)
    with open(path, "w", encoding="utf-8") as file:
        json.dump(bundle, file)
    wanted = (1 if lines else 0, printed(lines), [])
    results.add(name, survey("--all", path), wanted)
    results.add(f"{name}, --all behind", survey(path, "--all"), wanted)
    status, found, err = survey(path)
    kinds = [it.kind for find in script.FINDERS for it in find(script.bundle_of(path))]
    if len(set(kinds)) == len(lines):
        results.add(f"{name}, by kinds", (status, found, err), wanted)
    else:
        results.add(f"{name}, by kinds", (status, len(found), err), (wanted[0], len(set(kinds)), []))
    if program and packet:
        ran = subprocess.run([program, "trace", path, *packet.split()], capture_output=True, text=True, check=False)
        results.add(f"{name}, traced", ran.stdout.splitlines()[-1:], [last])


def run_folded(results, path):
    """Several findings of a kind are one line, with the first of them; each that is alone in its kind is told as by --all."""
    for name, parts, lines in FOLDED:
        bundle = copy.deepcopy(BASE)
        for place, texts in parts.items():
            put(bundle, place, texts)
        with open(path, "w", encoding="utf-8") as file:
            json.dump(bundle, file)
        results.add(name, survey(path), (1, printed(lines), []))


def run_file(results, row, path):
    name, data, status, why = row
    if data is None:
        os.remove(path)
    else:
        with open(path, "wb") as file:
            file.write(data)
    results.add(name, survey(path), (status, [], [f"survey: {path} {why}"] if why else []))


def run_others(results, path):
    """An array, where each line stands once, and the words."""
    vpn = '{"RouteTables": [{"RouteTableId": "rtb-1", "Associations": [{"Main": true}], "Routes": [{"DestinationCidrBlock": "10.9.0.0/16", "GatewayId": "vpce-\\u001b"}]}]}'
    with open(path, "w", encoding="utf-8") as file:
        file.write(f"[{vpn}, {{}}, {vpn}]")
    lines = [EMPTY, f'not followed: route rtb-1 10.9.0.0/16 to "vpce-\\u001b": {STOPS}']
    results.add("an array", survey(path), (1, lines, []))
    results.add("as a process, something", process(path), (1, lines, []))
    results.add("as a process, nothing", process(os.path.join(TOP, "examples", "one-subnet.json")), (0, [], []))
    for name, text in (("an empty region", '{"Vpcs": [], "Subnets": [], "NetworkInterfaces": []}'), ("a VPC without a host", '{"Vpcs": [{"VpcId": "vpc-1", "CidrBlock": "10.0.0.0/16"}]}'), ("two of them", '[{"NetworkInterfaces": null}, {"Vpcs": []}]')):
        with open(path, "w", encoding="utf-8") as file:
            file.write(text)
        results.add(name, survey(path), (1, [EMPTY], []))
    name = os.path.join(os.path.dirname(path), "x\nno interfaces\x1b[2J")
    results.add("a name that would be a line", survey(name), (2, [], [f"survey: {json.dumps(name)} can't be read: No such file or directory"]))
    with open(name, "wb"):
        results.add("a file of such a name", survey(name), (2, [], [f"survey: {json.dumps(name)} is no bundle: it is not one JSON value in UTF-8"]))
    os.remove(name)
    results.add("as a process, no bundle", process(os.devnull), (2, [], [f"survey: {os.devnull} is no bundle: it is not one JSON value in UTF-8"]))
    for words in ([], [path, path], ["--all"], ["--all", "--all", path], ["--all", path, path], ["--each", path]):
        results.add(f"words {words}", survey(*words), (2, [], ["survey: one BUNDLE is meant; --help says more"]))
    results.add("--help", (survey("--help")[0], survey("--help")[1][:1]), (0, ["Tells what a bundle has that vpc doesn't follow, and what leads outside: survey [--all] BUNDLE"]))


def main(words):
    if len(words) > 1:
        sys.exit(__doc__)
    program = os.path.abspath(words[0]) if words else None
    results = Results()
    with tempfile.TemporaryDirectory() as room:
        path = os.path.join(room, "bundle.json")
        for row in ROWS:
            run_row(results, row, path, program)
        run_folded(results, path)
        for row in FILES:
            run_file(results, row, path)
        run_others(results, path)
    print(f"{results.passed} passed, {results.failed} failed")
    return 1 if results.failed else 0


if __name__ == "__main__":
    sys.exit(main(sys.argv[1:]))
