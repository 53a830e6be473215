"""Small networks, made at random: bundles of every kind of row, changed copies of them, and the ends and addresses that occur in them.

Some have modes of Block Public Access, some instances that don't run, some delegated prefixes, some groups that are named over transit
gateways or belong to several VPCs, and some lead to networks that aren't described and have firewall endpoints. NETWORKS_MORE in the
environment names kinds of rows that all have besides, with commas between: access, instances, prefixes, references, outside; and
NETWORKS_LESS kinds that none has: outside."""

import ipaddress
import json
import os
import random
import re

ANYWHERE = "0.0.0.0/0"
OPEN = {"IpProtocol": "-1", "IpRanges": [{"CidrIp": ANYWHERE}]}
PROTOCOLS = ("tcp", "udp", "icmp", "-1", "50", "6", "17")
PORTS = (0, 1, 22, 80, 443, 1023, 1024, 5000, 8080, 32768, 65534, 65535)


def ports(rng):
    return sorted((rng.choice(PORTS), rng.choice(PORTS)))


def block(rng, vpcs):
    return rng.choice(
        [ANYWHERE, "10.0.0.0/8", f"10.{rng.randrange(vpcs)}.0.0/16", f"10.{rng.randrange(vpcs)}.{rng.randrange(3)}.0/24", f"10.0.0.{rng.randrange(4, 8)}/32",
         "198.51.100.0/24", "203.0.113.0/28", "0.0.0.0/1", "192.0.2.128/25"]
    )


def permission(rng, vpcs, groups, lists):
    protocol = rng.choice(PROTOCOLS[:4] if rng.random() < 0.8 else PROTOCOLS)
    row = {"IpProtocol": protocol, "IpRanges": [{"CidrIp": block(rng, vpcs)} for _ in range(rng.choice((0, 1, 1, 2)))]}
    if protocol in ("tcp", "udp", "6", "17"):
        row["FromPort"], row["ToPort"] = ports(rng)
    if protocol == "icmp":
        row["FromPort"], row["ToPort"] = rng.choice([(-1, -1), (8, -1), (8, 0), (0, 0), (3, 4)])
    if rng.random() < 0.4:
        row["UserIdGroupPairs"] = [{"GroupId": rng.choice(groups)}]
    if lists and rng.random() < 0.2:
        row["PrefixListIds"] = [{"PrefixListId": rng.choice(lists)}]
    return row


def told_rule(rng, number, group, vpcs, groups):
    """A rule that is told apart from its group."""
    row = {"SecurityGroupRuleId": f"sgr-{number}", "GroupId": group, "IsEgress": rng.random() < 0.5, "IpProtocol": rng.choice(("tcp", "-1", "udp")), "FromPort": -1, "ToPort": -1}
    if row["IpProtocol"] != "-1":
        row["FromPort"], row["ToPort"] = ports(rng)
    row.update(rng.choice([{"CidrIpv4": block(rng, vpcs)}, {"ReferencedGroupInfo": {"GroupId": rng.choice(groups)}}]))
    return row


def entry(rng, number, vpcs):
    protocol = rng.choice(("-1", "6", "17", "1"))
    row = {"RuleNumber": number, "Egress": rng.random() < 0.5, "Protocol": protocol, "RuleAction": rng.choice(("allow", "allow", "deny")), "CidrBlock": block(rng, vpcs)}
    if protocol in ("6", "17"):
        first, last = ports(rng)
        row["PortRange"] = {"From": first, "To": last}
    if protocol == "1":
        row["IcmpTypeCode"] = {"Type": rng.choice((-1, 8, 0)), "Code": -1}
    return row


def entries(rng, vpcs):
    rows = [entry(rng, number, vpcs) for number in rng.sample(range(1, 99), rng.randrange(4))]
    for egress in (True, False):
        if rng.random() < 0.93:
            rows.append({"RuleNumber": 100, "Egress": egress, "Protocol": "-1", "RuleAction": "allow", "CidrBlock": ANYWHERE})
    return rows


def target(rng, v, vpcs, parts):
    choices = [{"GatewayId": f"igw-{v}"}] * 3 * ("igw" in parts) + [{"NatGatewayId": f"nat-{v}"}] * 3 * ("nat" in parts)
    choices += [{"TransitGatewayId": "tgw-1"}] * 3 * ("tgw" in parts) + [{"NetworkInterfaceId": f"eni-{v}-0-0"}]
    choices += [{"VpcPeeringConnectionId": f"pcx-{min(v, vpcs - 2)}"}] * 3 * (vpcs > 1 and v in (0, vpcs - 1, min(v, vpcs - 2)))
    return rng.choice([*choices, {"GatewayId": "vgw-1"}, {"GatewayId": f"vpce-{v}"}])


def routes(rng, v, vpcs, parts, lists):
    rows = [{"DestinationCidrBlock": f"10.{v}.0.0/16", "GatewayId": "local", "State": "active"}]
    for destination in (ANYWHERE, *(f"10.{w}.0.0/16" for w in range(vpcs) if w != v), block(rng, vpcs)):
        if rng.random() < 0.7 and destination != rows[0]["DestinationCidrBlock"]:
            rows.append({"DestinationCidrBlock": destination, "State": "blackhole" if rng.random() < 0.05 else "active", **target(rng, v, vpcs, parts)})
    if lists and rng.random() < 0.4:
        rows.append({"DestinationPrefixListId": rng.choice(lists), "State": "active", **target(rng, v, vpcs, parts)})
    return rows


def interface(rng, v, s, k, groups):
    own = f"10.{v}.{s}.{4 + k}"
    addresses = [{"PrivateIpAddress": own, "Primary": True}]
    if rng.random() < 0.5:
        addresses[0]["Association"] = {"PublicIp": f"203.0.113.{1 + v * 20 + s * 5 + k}"}
    if rng.random() < 0.2:
        addresses.append({"PrivateIpAddress": f"10.{v}.{s}.{104 + k}"})
    return {
        "NetworkInterfaceId": f"eni-{v}-{s}-{k}", "SubnetId": f"subnet-{v}-{s}", "PrivateIpAddress": own, "PrivateIpAddresses": addresses,
        "Groups": [{"GroupId": g} for g in rng.sample(groups, rng.choice((0, 1, 1, 1, min(2, len(groups)))))], "SourceDestCheck": rng.random() < 0.8,
        "Status": "available" if rng.random() < 0.03 else "in-use",
    }


def add_nat(whole, v):
    whole["NetworkInterfaces"].append({
        "NetworkInterfaceId": f"eni-nat-{v}", "SubnetId": f"subnet-{v}-0", "PrivateIpAddress": f"10.{v}.0.200", "InterfaceType": "nat_gateway", "SourceDestCheck": False, "Groups": [],
        "PrivateIpAddresses": [{"PrivateIpAddress": f"10.{v}.0.200", "Association": {"PublicIp": f"198.51.100.{200 + v}"}}]})
    whole["NatGateways"].append({
        "NatGatewayId": f"nat-{v}", "State": "available", "SubnetId": f"subnet-{v}-0", "VpcId": f"vpc-{v}",
        "NatGatewayAddresses": [{"NetworkInterfaceId": f"eni-nat-{v}", "PrivateIp": f"10.{v}.0.200", "PublicIp": f"198.51.100.{200 + v}"}]})


def add_attachment(rng, whole, v, subnets):
    whole["TransitGatewayVpcAttachments"].append({
        "TransitGatewayAttachmentId": f"attach-{v}", "TransitGatewayId": "tgw-1", "VpcId": f"vpc-{v}", "State": "available",
        "SubnetIds": [f"subnet-{v}-{s}" for s in range(subnets) if s == 0 or rng.random() < 0.5]})
    whole["TransitGatewayAttachments"].append({
        "TransitGatewayAttachmentId": f"attach-{v}", "TransitGatewayId": "tgw-1", "ResourceType": "vpc", "ResourceId": f"vpc-{v}", "State": "available",
        "Association": {"TransitGatewayRouteTableId": f"tgw-rtb-{rng.randrange(2)}", "State": "associated"}})


def add_tables(rng, whole, vpcs):
    for t in range(2):
        rows = [{"DestinationCidrBlock": f"10.{v}.0.0/16", "Type": rng.choice(("static", "propagated")), "State": "active",
                 "TransitGatewayAttachments": [{"TransitGatewayAttachmentId": f"attach-{v}", "ResourceType": "vpc", "ResourceId": f"vpc-{v}"}]} for v in range(vpcs) if rng.random() < 0.8]
        if rng.random() < 0.5:
            rows.append({"DestinationCidrBlock": rng.choice((ANYWHERE, "10.0.0.0/8")), "Type": "static", "State": "blackhole"})
        whole["TransitGatewayRoutes"].append({"TransitGatewayRouteTableId": f"tgw-rtb-{t}", "Routes": rows})


def add_vpc(rng, whole, v, vpcs, parts, lists):
    subnets, groups = rng.randint(1, 3), [f"sg-{w}-{g}" for w in range(vpcs) for g in range(2)]
    whole["Vpcs"].append({"VpcId": f"vpc-{v}", "CidrBlock": f"10.{v}.0.0/16"})
    whole["Subnets"] += [{"SubnetId": f"subnet-{v}-{s}", "VpcId": f"vpc-{v}", "AvailabilityZone": rng.choice(("z-a", "z-a", "z-b"))} for s in range(subnets)]
    whole["NetworkInterfaces"] += [interface(rng, v, s, k, groups[2 * v : 2 * v + 2]) for s in range(subnets) for k in range(rng.randint(1, 2))]
    own = [f"subnet-{v}-{s}" for s in range(subnets) if rng.random() < 0.3]
    whole["RouteTables"].append({"RouteTableId": f"rtb-{v}", "VpcId": f"vpc-{v}", "Associations": [{"Main": True}], "Routes": routes(rng, v, vpcs, parts, lists)})
    if own:
        whole["RouteTables"].append({"RouteTableId": f"rtb-{v}-own", "VpcId": f"vpc-{v}", "Associations": [{"Main": False, "SubnetId": s} for s in own], "Routes": routes(rng, v, vpcs, parts, lists)})
    for s in range(subnets):
        whole["NetworkAcls"].append({"NetworkAclId": f"acl-{v}-{s}", "Associations": [{"SubnetId": f"subnet-{v}-{s}"}], "Entries": entries(rng, vpcs)})
    for g in groups[2 * v : 2 * v + 2]:
        inward, outward = ([OPEN] if rng.random() < chance else [permission(rng, vpcs, groups, lists) for _ in range(rng.randrange(4))] for chance in (0.3, 0.7))
        whole["SecurityGroups"].append({"GroupId": g, "VpcId": f"vpc-{v}", "IpPermissions": inward, "IpPermissionsEgress": outward})
        if rng.random() < 0.2:
            whole["SecurityGroupRules"] += [told_rule(rng, f"{v}-{g[-1]}-{k}", g, vpcs, groups) for k in range(rng.randrange(4))]
    if "igw" in parts:
        whole["InternetGateways"].append({"InternetGatewayId": f"igw-{v}", "Attachments": [{"State": "available", "VpcId": f"vpc-{v}"}]})
    if "nat" in parts:
        add_nat(whole, v)
    if "tgw" in parts:
        add_attachment(rng, whole, v, subnets)


def add_access(rng, whole):
    """Block Public Access: of subnets, of VPCs, and of neither."""
    modes = ("off", "off", "block-ingress", "block-bidirectional")
    for it in whole["Vpcs"] + whole["Subnets"]:
        if rng.random() < 0.4:
            it["BlockPublicAccessStates"] = {"InternetGatewayBlockMode": rng.choice(modes)}


def add_instances(rng, whole):
    """Instances in several states, some of an interface that another one names too."""
    rows = [it["NetworkInterfaceId"] for it in whole["NetworkInterfaces"]]
    for number, name in enumerate(rng.sample(rows, rng.randrange(len(rows) + 1))):
        told = {"InstanceId": f"i-{number}", "NetworkInterfaces": [{"NetworkInterfaceId": it} for it in {name: 0, rng.choice(rows): 0}]}
        state = rng.choice(("running", "running", "pending", "stopped", "stopping", "terminated", None))
        whole.setdefault("Reservations", []).append({"Instances": [{**told, "State": {"Name": state}} if state else told]})


def add_prefixes(rng, whole):
    """Delegated prefixes, which no other address or prefix of the VPC meets."""
    for it in whole["NetworkInterfaces"]:
        if "InterfaceType" not in it and rng.random() < 0.3:
            _, v, s, k = it["NetworkInterfaceId"].split("-")
            it["Ipv4Prefixes"] = [{"Ipv4Prefix": f"10.{v}.{s}.{first + 16 * int(k)}/28"} for first in rng.choice(((16,), (144,), (16, 144)))]
            # (one may hold an address of the interface)
            it["Ipv4Prefixes"] += [{"Ipv4Prefix": f"{it['PrivateIpAddress']}/32"}] * (rng.random() < 0.2)


def open_transit(whole):
    """All VPCs send to each other over the transit gateway, and nothing but groups stops a packet there."""
    blocks = {it["VpcId"]: it["CidrBlock"] for it in whole["Vpcs"]}
    for it in whole["VpcPeeringConnections"]:
        it["Status"]["Code"] = "pending-acceptance"
    for it in whole["NetworkAcls"]:
        it["Entries"] = [{"RuleNumber": 100, "Egress": egress, "Protocol": "-1", "RuleAction": "allow", "CidrBlock": ANYWHERE} for egress in (True, False)]
    for it in whole["RouteTables"]:
        others = [told for name, told in blocks.items() if name != it["VpcId"]]
        it["Routes"] = [row for row in it["Routes"] if row.get("DestinationCidrBlock") not in others] + [{"DestinationCidrBlock": told, "State": "active", "TransitGatewayId": "tgw-1"} for told in others]
    for it in whole["TransitGatewayVpcAttachments"]:
        it["SubnetIds"] = [row["SubnetId"] for row in whole["Subnets"] if row["VpcId"] == it["VpcId"]]
    for it in whole["TransitGatewayRoutes"]:
        it["Routes"] = [{"DestinationCidrBlock": blocks[row["VpcId"]], "Type": "static", "State": "active", "TransitGatewayAttachments": [{"TransitGatewayAttachmentId": row["TransitGatewayAttachmentId"]}]}
                        for row in whole["TransitGatewayVpcAttachments"]]


def add_references(rng, whole):
    """Groups that may be named over transit gateways, and such as belong to several VPCs; and rules that name groups alone."""
    def option(chance):
        return {"Options": {"SecurityGroupReferencingSupport": "enable" if rng.random() < chance else "disable"}}

    if whole["TransitGatewayVpcAttachments"] and rng.random() < 0.7:
        open_transit(whole)
    for it in whole["TransitGatewayVpcAttachments"]:
        it.update(option(0.9) if rng.random() < 0.95 else {})
    if whole["TransitGatewayVpcAttachments"] and rng.random() < 0.9:
        whole["TransitGateways"] = [{"TransitGatewayId": "tgw-1", **option(0.9)}]
    vpcs, groups = ([it[field] for it in whole[name]] for name, field in (("Vpcs", "VpcId"), ("SecurityGroups", "GroupId")))
    for it in whole["SecurityGroups"]:
        for name, chance in (("IpPermissions", 0.6), ("IpPermissionsEgress", 0.2)):
            if rng.random() < chance:
                it[name] = [{"IpProtocol": "tcp", "FromPort": 80, "ToPort": 443, "IpRanges": [], "UserIdGroupPairs": [{"GroupId": rng.choice(groups)}]}]
    for _ in range(rng.randrange(4)):
        row = {"GroupId": rng.choice(groups), "VpcId": rng.choice(vpcs), "State": rng.choice(("associated", "associated", "associating"))}
        whole["SecurityGroupVpcAssociations"].append(row)
        if rng.random() < 0.7:
            # (an interface there has the group, as the association lets it)
            homes = {it["SubnetId"]: it["VpcId"] for it in whole["Subnets"]}
            there = rng.choice([it for it in whole["NetworkInterfaces"] if homes[it["SubnetId"]] == row["VpcId"]])
            there["Groups"] = [it for it in there["Groups"] if it["GroupId"] != row["GroupId"]] + [{"GroupId": row["GroupId"]}]


def add_gateways(rng, whole, vpcs):
    """Virtual private gateways, of which one may be attached to nothing."""
    for name in ["vgw-1", "vgw-2"][: rng.choice((1, 1, 2))]:
        attached = [{"VpcId": f"vpc-{rng.randrange(vpcs)}", "State": rng.choice(("attached", "attached", "attached", "detached"))} for _ in range(rng.choice((0, 1, 1, 1, 2)))]
        whole["VpnGateways"].append({"VpnGatewayId": name, "State": "available", "VpcAttachments": attached})
    for table in whole["RouteTables"]:
        if rng.random() < 0.6:
            add_route(rng, table, {"GatewayId": rng.choice([it["VpnGatewayId"] for it in whole["VpnGateways"]])})


def add_route(rng, table, target, chances=("172.20.0.0/16", "172.20.0.0/16", "172.16.0.0/12", "52.216.0.0/15", "198.51.100.0/24")):
    """A route to a network outside, with another destination than those that are there; propagated ones may have the same."""
    destination, propagated = rng.choice(chances), "GatewayId" in target and target["GatewayId"].startswith("vgw") and rng.random() < 0.3
    if propagated or destination not in [it.get("DestinationCidrBlock") for it in table["Routes"]]:
        table["Routes"].append({"DestinationCidrBlock": destination, "State": "active", **target, **({"Origin": "EnableVgwRoutePropagation"} if propagated else {})})


def add_attachments(rng, whole):
    """Attachments of a transit gateway to a VPN, to Direct Connect and to a VPC that isn't described, with routes to them."""
    for name, kind in rng.sample((("att-vpn", "vpn"), ("att-dx", "direct-connect-gateway"), ("att-far", "vpc"), ("att-pair", "peering")), rng.choice((1, 2, 3))):
        row = {"TransitGatewayAttachmentId": name, "TransitGatewayId": "tgw-1", "ResourceType": kind, "ResourceId": f"of-{name}", "State": rng.choice(("available", "available", "available", "deleting"))}
        if rng.random() < 0.9:
            row["Association"] = {"TransitGatewayRouteTableId": f"tgw-rtb-{rng.randrange(2)}", "State": "associated"}
        whole["TransitGatewayAttachments"].append(row)
        if kind == "vpc" and rng.random() < 0.5:
            # (the gateway's owner sees the attachments of other accounts)
            whole["TransitGatewayVpcAttachments"].append({"TransitGatewayAttachmentId": name, "TransitGatewayId": "tgw-1", "VpcId": f"of-{name}", "SubnetIds": ["subnet-far"], "State": "available"})
        for table in whole["TransitGatewayRoutes"]:
            told = [it["DestinationCidrBlock"] for it in table["Routes"]]
            destination = rng.choice(("172.20.0.0/16", "172.20.0.0/16", "172.16.0.0/12", "198.51.100.0/24"))
            if rng.random() < 0.7 and destination not in told:
                table["Routes"].append({"DestinationCidrBlock": destination, "Type": rng.choice(("static", "propagated")), "State": "active", "TransitGatewayAttachments": [{"TransitGatewayAttachmentId": name}]})
    for table in whole["RouteTables"]:
        if rng.random() < 0.6:
            add_route(rng, table, {"TransitGatewayId": "tgw-1"})


def add_half_peering(rng, whole, vpcs):
    """A peering with a VPC that isn't described, whose blocks may be told."""
    v, blocks = rng.randrange(vpcs), rng.choice((["10.9.0.0/16"], ["10.9.0.0/16", "172.20.0.0/17"], []))
    sides = [{"VpcId": f"vpc-{v}", "CidrBlock": f"10.{v}.0.0/16"}, {"VpcId": "vpc-9", "CidrBlockSet": [{"CidrBlock": it} for it in blocks]}]
    if rng.random() < 0.5:
        sides.reverse()
    status = {"Code": "active" if rng.random() < 0.9 else "pending-acceptance"}
    whole["VpcPeeringConnections"].append({"VpcPeeringConnectionId": "pcx-far", "Status": status, "RequesterVpcInfo": sides[0], "AccepterVpcInfo": sides[1]})
    for table in whole["RouteTables"]:
        if table["VpcId"] == f"vpc-{v}" and rng.random() < 0.8:
            add_route(rng, table, {"VpcPeeringConnectionId": "pcx-far"}, ("10.9.0.0/16", "10.9.0.0/16", "172.20.0.0/16", "10.0.0.0/8"))


def add_endpoints(rng, whole, vpcs):
    """Endpoints of each kind in some VPCs; routes to vpce-0, vpce-1 and so on may be there before."""
    for v in range(vpcs):
        kind = rng.choice(("Gateway", "Gateway", "GatewayLoadBalancer", "GatewayLoadBalancer", "Interface", None))
        subnets = [it["SubnetId"] for it in whole["Subnets"] if it["VpcId"] == f"vpc-{v}"]
        row = {"VpcEndpointId": f"vpce-{v}", "VpcEndpointType": kind, "VpcId": f"vpc-{v}", "State": rng.choice(("available", "available", "Available", "deleting"))}
        if kind != "Gateway":
            row["SubnetIds"] = rng.sample(subnets, rng.choice((0, 1, 1, min(2, len(subnets)))) if kind == "Interface" else 1)
        whole["VpcEndpoints"].append({name: told for name, told in row.items() if told is not None})
        if kind == "GatewayLoadBalancer" and rng.random() < 0.85:
            told = rng.choice([{"Kind": "all"}, {"Kind": "all"}, {"Kind": "none"}, {"Kind": "service", "Ports": "80-443"}, {"Kind": "peer", "Prefix": block(rng, vpcs)}])
            whole["Appliances"].append({"VpcEndpointId": f"vpce-{v}", **told})
        for table in whole["RouteTables"]:
            if table["VpcId"] == f"vpc-{v}" and rng.random() < 0.6:
                add_route(rng, table, {"GatewayId": f"vpce-{v}"}, ("52.216.0.0/15", "52.216.0.0/15", ANYWHERE, "198.51.100.0/24", f"10.{v}.1.0/24"))


def add_edge_tables(rng, whole, vpcs):
    """Tables that are associated with gateways, which lead to an endpoint or an interface."""
    gateways = {it["InternetGatewayId"]: row["VpcId"] for it in whole["InternetGateways"] for row in it["Attachments"]}
    gateways.update({it["VpnGatewayId"]: row["VpcId"] for it in whole["VpnGateways"] for row in it["VpcAttachments"]})
    for number, (gateway, vpc) in enumerate(gateways.items()):
        if rng.random() < 0.6:
            v = vpc.split("-")[1]
            rows = [{"DestinationCidrBlock": f"10.{v}.0.0/16", "GatewayId": "local", "State": "active"}]
            for destination in rng.sample((f"10.{v}.0.0/24", f"10.{v}.1.0/24", f"10.{v}.0.0/25", "10.0.0.0/8"), rng.randrange(3)):
                target = rng.choice([{"GatewayId": f"vpce-{v}"}, {"GatewayId": f"vpce-{v}"}, {"NetworkInterfaceId": f"eni-{v}-0-0"}, {"GatewayId": "local"}, {"GatewayId": f"igw-{v}"}])
                if target != {"GatewayId": f"igw-{v}"} or f"igw-{v}" in gateways:
                    rows.append({"DestinationCidrBlock": destination, "State": "blackhole" if rng.random() < 0.1 else "active", **target})
            rows = rows[rng.random() < 0.05:]
            whole["RouteTables"].append({"RouteTableId": f"rtb-edge-{number}", "VpcId": vpc, "Associations": [{"Main": False, "GatewayId": gateway}], "Routes": rows})


def add_outside(rng, whole):
    """What leads to networks that aren't described, firewall endpoints, and the tables of gateways."""
    vpcs = len(whole["Vpcs"])
    if rng.random() < 0.7:
        add_gateways(rng, whole, vpcs)
    if whole["TransitGatewayRoutes"] and rng.random() < 0.9:
        add_attachments(rng, whole)
    if rng.random() < 0.5:
        add_half_peering(rng, whole, vpcs)
    if rng.random() < 0.7:
        add_endpoints(rng, whole, vpcs)
    add_edge_tables(rng, whole, vpcs)
    for it in whole["SecurityGroups"]:
        if rng.random() < 0.3:
            # (what comes from there is let in somewhere)
            it["IpPermissions"].append({"IpProtocol": "tcp", "FromPort": 22, "ToPort": 443, "IpRanges": [{"CidrIp": rng.choice(("172.20.0.0/16", "172.16.0.0/12", "10.9.0.0/16", "198.51.100.0/24"))}]})


# Kinds of rows that a network has where they are asked for, or by chance.
MORE = {"access": add_access, "instances": add_instances, "prefixes": add_prefixes, "references": add_references, "outside": add_outside}


LISTS = ("Vpcs", "Subnets", "NetworkInterfaces", "RouteTables", "NetworkAcls", "SecurityGroups", "SecurityGroupRules", "InternetGateways", "NatGateways", "VpcPeeringConnections",
         "TransitGatewayVpcAttachments", "TransitGatewayAttachments", "TransitGatewayRoutes", "PrefixLists", "Appliances", "TransitGateways", "SecurityGroupVpcAssociations", "VpnGateways", "VpcEndpoints")


def network(rng):
    """A bundle that is mostly accepted."""
    whole = {name: [] for name in LISTS}
    vpcs = rng.randint(1, 3)
    parts = {part for part in ("igw", "nat", "tgw", "list") if rng.random() < 0.6}
    lists = ["pl-1"] if "list" in parts else []
    for v in range(vpcs):
        add_vpc(rng, whole, v, vpcs, parts, lists)
    for v in range(vpcs - 1):
        whole["VpcPeeringConnections"].append({
            "VpcPeeringConnectionId": f"pcx-{v}", "Status": {"Code": "active" if rng.random() < 0.9 else "pending-acceptance"},
            "RequesterVpcInfo": {"VpcId": f"vpc-{v}", "CidrBlock": f"10.{v}.0.0/16"}, "AccepterVpcInfo": {"VpcId": f"vpc-{v + 1}", "CidrBlock": f"10.{v + 1}.0.0/16"}})
    if "tgw" in parts:
        add_tables(rng, whole, vpcs)
    if lists:
        whole["PrefixLists"].append({"PrefixListId": "pl-1", "Cidrs": [block(rng, vpcs) for _ in range(rng.randint(1, 3))]})
    if rng.random() < 0.4:
        kind = rng.choice([{"Kind": "all"}, {"Kind": "none"}, {"Kind": "service", "Ports": "80-443"}, {"Kind": "peer", "Prefix": block(rng, vpcs)}])
        whole["Appliances"].append({"NetworkInterfaceId": "eni-0-0-0", **kind})
        whole["NetworkInterfaces"][0]["SourceDestCheck"] = False
    return json.dumps({name: rows for name, rows in more(rng, whole).items() if rows}, separators=(",", ":")).encode()


def more(rng, whole):
    """The bundle with rows of further kinds."""
    wanted, without = ([*filter(None, os.environ.get(f"NETWORKS_{name}", "").split(","))] for name in ("MORE", "LESS"))
    is_outside = "outside" in wanted
    wanted = [it for it in wanted if it != "outside"]
    for name, chance in (("access", 0.3), ("instances", 0.2), ("references", 0.3), ("prefixes", 0.3)):
        if rng.random() < chance and name not in wanted:
            wanted.insert(0, name)
    for name in wanted:
        MORE[name](rng, whole)
    # (by numbers of its own: what has no such rows, and what is asked of it, is by each seed what it was without them)
    own = random.Random(json.dumps(whole))
    if "outside" not in without and (own.random() < 0.3 or is_outside):
        add_outside(own, whole)
    return whole


# ---- changed copies

# The lists of which rows tell of networks outside, of endpoints and of tables of gateways, and which rows do.
OUTSIDE = (
    ("VpnGateways", lambda row: True), ("VpcEndpoints", lambda row: True), ("Appliances", lambda row: "VpcEndpointId" in row),
    ("VpcPeeringConnections", lambda row: row["VpcPeeringConnectionId"] == "pcx-far"),
    ("TransitGatewayAttachments", lambda row: row["TransitGatewayAttachmentId"].startswith("att-")),
    ("RouteTables", lambda row: row["RouteTableId"].startswith("rtb-edge")))


class Change:
    """Changes of a bundle that `network` made, each drawn from those that it can take. It is accepted afterwards where it was before."""

    def __init__(self, rng, whole):
        self.rng, self.whole = rng, whole
        self.vpcs, self.lists = len(whole["Vpcs"]), [it["PrefixListId"] for it in whole.get("PrefixLists", [])]
        self.groups = [it["GroupId"] for it in whole["SecurityGroups"]]
        self.hosts = [it for it in whole["NetworkInterfaces"] if "InterfaceType" not in it]

    ways = (
        "permissions", "permissions", "entries", "entries", "routes", "routes", "transit", "peerings", "prefix_lists", "references", "host", "addresses", "fewer_hosts", "more_hosts", "anew",
        "exchanged_hosts", "gateways", "host_and_gateway")
    equal_ways = ("order", "split_ports", "split_blocks", "members", "renumbered", "repeated")  # nothing opens or closes by these

    def made(self, ways):
        """The bundle after a change of one of these kinds, or of one to rows of networks outside where there are some."""
        outside = [it for name, rows in OUTSIDE for it in self.whole.get(name, []) if rows(it)]
        getattr(self, self.rng.choice(ways if not outside or ways is Change.equal_ways else (*ways, *["outside"] * 6)))()
        return self.whole

    def outside(self):
        """A row about a network outside, or an endpoint, that is gone, or told otherwise."""
        name, it = self.some([(name, it) for name, rows in OUTSIDE for it in self.whole.get(name, []) if rows(it)])
        how = self.rng.choice(("gone", "told", "told"))
        if how == "gone" and name != "VpcPeeringConnections":
            self.whole[name].remove(it)
        elif name == "VpnGateways":
            it["VpcAttachments"] = [{"VpcId": f"vpc-{self.rng.randrange(self.vpcs)}", "State": "attached"}] * self.rng.randrange(2)
        elif name == "VpcEndpoints":
            it["State"] = "deleting" if it["State"].lower() == "available" else "available"
        elif name == "VpcPeeringConnections":
            it["Status"]["Code"] = "active" if it["Status"]["Code"] != "active" else "deleted"
        elif name == "Appliances":
            it["Kind"] = "none" if it["Kind"] == "all" else "all"
        elif name == "TransitGatewayAttachments":
            it["Association"] = {"TransitGatewayRouteTableId": f"tgw-rtb-{self.rng.randrange(2)}", "State": "associated"}
        else:
            self.whole[name].remove(it)

    def new_id(self):
        return f"eni-{self.rng.randrange(10**6)}"

    def some(self, rows):
        return self.rng.choice(rows) if rows else None

    def is_free(self, own, host=None):
        """Whether nobody has an address, but for a host whose prefix holds it."""
        prefixes = [ipaddress.ip_network(it["Ipv4Prefix"]) for row in self.whole["NetworkInterfaces"] if row is not host for it in row.get("Ipv4Prefixes", [])]
        return f'"{own}"' not in json.dumps(self.whole) and not any(ipaddress.ip_address(own) in it for it in prefixes)

    def exchange(self, one, other):
        """Two ids in each other's places, in the whole bundle."""
        names = {json.dumps(one): json.dumps(other), json.dumps(other): json.dumps(one)}
        self.whole = json.loads(re.sub("|".join(map(re.escape, names)), lambda it: names[it[0]], json.dumps(self.whole)))

    # -- what may open or close something

    def permissions(self):
        rows = self.some(self.whole["SecurityGroups"])[self.rng.choice(("IpPermissions", "IpPermissions", "IpPermissionsEgress"))]
        if rows and self.rng.random() < 0.5:
            rows.pop(self.rng.randrange(len(rows)))
        else:
            rows.insert(self.rng.randrange(len(rows) + 1), permission(self.rng, self.vpcs, self.groups, self.lists))

    def entries(self):
        rows = self.some(self.whole["NetworkAcls"])["Entries"]
        if rows and self.rng.random() < 0.5:
            it = self.some(rows)
            it["RuleAction"] = "deny" if it["RuleAction"] == "allow" else "allow"
        elif rows and self.rng.random() < 0.3:
            rows.pop(self.rng.randrange(len(rows)))
        else:
            rows.append(entry(self.rng, self.some([it for it in range(1, 200) if it not in [row["RuleNumber"] for row in rows]]), self.vpcs))

    def routes(self):
        table = self.some(self.whole["RouteTables"])
        others = table["Routes"][1:]
        it = self.some(others)
        if it and self.rng.random() < 0.4:
            table["Routes"].remove(it)
        elif it and self.rng.random() < 0.4:
            it["State"] = "active" if it["State"] == "blackhole" else "blackhole"
        else:
            targets = [row for other in self.whole["RouteTables"] if other["VpcId"] == table["VpcId"] for row in other["Routes"][1:] if "DestinationCidrBlock" in row]
            if targets:
                destination = block(self.rng, self.vpcs)
                table["Routes"] += [{**self.some(targets), "DestinationCidrBlock": destination}] if destination not in [row.get("DestinationCidrBlock") for row in table["Routes"]] else []

    def transit(self):
        table = self.some([it for it in self.whole.get("TransitGatewayRoutes", []) if it["Routes"]])
        if table:
            it = self.some(table["Routes"])
            if self.rng.random() < 0.5:
                table["Routes"].remove(it)
            else:
                it["State"] = "active" if it["State"] == "blackhole" and "TransitGatewayAttachments" in it else "blackhole"

    def peerings(self):
        it = self.some(self.whole.get("VpcPeeringConnections"))
        if it:
            it["Status"]["Code"] = "pending-acceptance" if it["Status"]["Code"] == "active" else "active"

    def prefix_lists(self):
        it = self.some(self.whole.get("PrefixLists"))
        if it:
            it["Cidrs"] = [block(self.rng, self.vpcs) for _ in range(self.rng.randint(1, 3))]

    def references(self):
        """Where a group counts beside its VPC: an option of a transit gateway or of an attachment, or a further VPC."""
        options = [it["Options"] for name in ("TransitGateways", "TransitGatewayVpcAttachments") for it in self.whole.get(name, []) if "Options" in it]
        rows = self.whole.get("SecurityGroupVpcAssociations", [])
        it, field, words = self.some([(it, "SecurityGroupReferencingSupport", ("enable", "disable")) for it in options] + [(it, "State", ("associated", "disassociating")) for it in rows]) or ({}, "", ())
        if it:
            it[field] = words[it[field] == words[0]]

    def host(self):
        """An interface that is told otherwise."""
        it = self.some(self.hosts)
        if self.rng.random() < 0.4 and it["NetworkInterfaceId"] not in [row.get("NetworkInterfaceId") for row in self.whole.get("Appliances", [])]:
            it["SourceDestCheck"] = not it["SourceDestCheck"]
        elif self.rng.random() < 0.3:
            it["Status"] = "in-use" if it["Status"] == "available" else "available"
        else:
            own = [name for name in self.groups if name.split("-")[1] == it["SubnetId"].split("-")[1]]
            it["Groups"] = [{"GroupId": name} for name in self.rng.sample(own, self.rng.choice((0, 1, 1, min(2, len(own)))))]

    def addresses(self):
        """An interface with another primary address, or with other ones and prefixes beside it."""
        it = self.some(self.hosts)
        first, how = it["PrivateIpAddresses"][0], self.rng.choice(("moved", "fewer", "more", "public", "prefixes"))
        if how == "moved":
            own = re.sub(r"\d+$", str(self.rng.randrange(20, 100)), it["PrivateIpAddress"])
            if self.is_free(own, it):
                it["PrivateIpAddress"] = first["PrivateIpAddress"] = own
        elif how == "fewer":
            it["PrivateIpAddresses"] = [first]
        elif how == "more":
            own = re.sub(r"\d+$", str(self.rng.randrange(150, 160)), it["PrivateIpAddress"])
            it["PrivateIpAddresses"] += [{"PrivateIpAddress": own}] if self.is_free(own, it) else []
        elif how == "prefixes" and it.get("Ipv4Prefixes") and self.rng.random() < 0.6:
            it["Ipv4Prefixes"].pop()
        elif how == "prefixes":
            own = re.sub(r"\d+$", str(self.rng.choice((224, 240))), it["PrivateIpAddress"])
            it["Ipv4Prefixes"] = it.get("Ipv4Prefixes", []) + [{"Ipv4Prefix": f"{own}/28"}] * self.is_free(own)
        elif first.pop("Association", None) is None:
            public = f"203.0.113.{self.rng.randrange(100, 200)}"
            first.update({"Association": {"PublicIp": public}} if public not in json.dumps(self.whole) else {})

    def fewer_hosts(self):
        if len(self.hosts) == 1:
            return
        name = self.some(self.hosts)["NetworkInterfaceId"]
        self.whole["NetworkInterfaces"] = [it for it in self.whole["NetworkInterfaces"] if it["NetworkInterfaceId"] != name]
        self.whole["Appliances"] = [it for it in self.whole.get("Appliances", []) if it.get("NetworkInterfaceId") != name]
        for table in self.whole["RouteTables"]:
            table["Routes"] = [it for it in table["Routes"] if it.get("NetworkInterfaceId") != name]

    def more_hosts(self):
        it = json.loads(json.dumps(self.some(self.hosts)))
        # (whose prefixes stay its own)
        it.pop("Ipv4Prefixes", None)
        own = re.sub(r"\d+$", str(self.rng.randrange(210, 220)), it["PrivateIpAddress"])
        if self.is_free(own):
            self.whole["NetworkInterfaces"].append({**it, "NetworkInterfaceId": self.new_id(), "PrivateIpAddress": own, "PrivateIpAddresses": [{"PrivateIpAddress": own}], "SourceDestCheck": True})

    def anew(self):
        """A host that was made anew has its address and another id."""
        self.exchange(self.some(self.hosts)["NetworkInterfaceId"], self.new_id())

    def exchanged_hosts(self):
        self.exchange(*(self.some(self.hosts)["NetworkInterfaceId"] for _ in range(2)))

    def gateways(self):
        """Two of one kind with each other's ids: everywhere, or, of attachments, where they are described alone."""
        kind, field = self.some([
            ("NatGateways", "NatGatewayId"), ("InternetGateways", "InternetGatewayId"), ("VpcPeeringConnections", "VpcPeeringConnectionId"),
            ("TransitGatewayVpcAttachments", "TransitGatewayAttachmentId")])
        rows = self.whole.get(kind, [])
        if len(rows) > 1:
            one, other = self.rng.sample(rows, 2)
            if kind != "TransitGatewayVpcAttachments":
                self.exchange(one[field], other[field])
            else:
                one[field], other[field] = other[field], one[field]

    def host_and_gateway(self):
        """The ids of a host and of a NAT gateway's interface in each other's places."""
        rows = [it for it in self.whole["NetworkInterfaces"] if "InterfaceType" in it]
        if rows:
            host, gateway = self.some(self.hosts), self.some(rows)
            host["NetworkInterfaceId"], gateway["NetworkInterfaceId"] = gateway["NetworkInterfaceId"], host["NetworkInterfaceId"]
            for it in self.whole["NatGateways"]:
                for told in it["NatGatewayAddresses"]:
                    if told["NetworkInterfaceId"] == host["NetworkInterfaceId"]:
                        told["NetworkInterfaceId"] = gateway["NetworkInterfaceId"]
            for table in self.whole["RouteTables"]:
                table["Routes"] = [it for it in table["Routes"] if it.get("NetworkInterfaceId") != gateway["NetworkInterfaceId"]]
            self.whole["Appliances"] = [it for it in self.whole.get("Appliances", []) if it.get("NetworkInterfaceId") != gateway["NetworkInterfaceId"]]

    # -- what opens and closes nothing

    def order(self):
        """The same rows, in other places."""
        for name in ("Vpcs", "Subnets", "NetworkInterfaces", "RouteTables", "NetworkAcls", "SecurityGroups", "InternetGateways", "NatGateways"):
            self.rng.shuffle(self.whole.get(name, []))
        for it in self.whole["NetworkAcls"]:
            self.rng.shuffle(it["Entries"])
        for it in self.whole["SecurityGroups"]:
            self.rng.shuffle(it["IpPermissions"])
            self.rng.shuffle(it["IpPermissionsEgress"])

    def permission(self, takes):
        """The rows of a group, and one of them of that kind."""
        places = [(rows, it) for group in self.whole["SecurityGroups"] for rows in (group["IpPermissions"], group["IpPermissionsEgress"]) for it in rows if takes(it)]
        return self.some(places) or ([], None)

    def split_ports(self):
        rows, it = self.permission(lambda row: row["IpProtocol"] in ("tcp", "udp", "6", "17") and row["FromPort"] < row["ToPort"])
        if it:
            middle = self.rng.randrange(it["FromPort"], it["ToPort"])
            rows.append({**it, "FromPort": middle + 1})
            it["ToPort"] = middle

    def split_blocks(self):
        _, it = self.permission(lambda row: any(not told["CidrIp"].endswith("/32") for told in row["IpRanges"]))
        if it:
            told = self.some([told for told in it["IpRanges"] if not told["CidrIp"].endswith("/32")])
            it["IpRanges"] = [other for other in it["IpRanges"] if other is not told] + [{"CidrIp": str(half)} for half in ipaddress.ip_network(told["CidrIp"]).subnets()]

    def members(self):
        """A rule that names a group of its VPC, where the rule's group belongs to no other, names its members' addresses as well."""
        rows, it = self.permission(lambda row: row.get("UserIdGroupPairs"))
        home = next((group for group in self.whole["SecurityGroups"] if rows is group["IpPermissions"] or rows is group["IpPermissionsEgress"]), None)
        named = it and it["UserIdGroupPairs"][0]["GroupId"]
        if it and named.split("-")[1] == home["GroupId"].split("-")[1] and home["GroupId"] not in [row["GroupId"] for row in self.whole.get("SecurityGroupVpcAssociations", [])]:
            theirs = [row for row in self.whole["NetworkInterfaces"] if {"GroupId": named} in row["Groups"]]
            it["IpRanges"] = it["IpRanges"] + [{"CidrIp": f"{told['PrivateIpAddress']}/32"} for row in theirs for told in row["PrivateIpAddresses"]]
            it["IpRanges"] += [{"CidrIp": told["Ipv4Prefix"]} for row in theirs for told in row.get("Ipv4Prefixes", [])]

    def renumbered(self):
        """The rows of an ACL keep their order, and the stops at them get other numbers."""
        for number, it in enumerate(sorted(self.some(self.whole["NetworkAcls"])["Entries"], key=lambda row: row["RuleNumber"]), 1):
            it["RuleNumber"] = 300 + 10 * number

    def repeated(self):
        rows, it = self.permission(lambda row: True)
        if it:
            rows.append(dict(it))


def changed(rng, text):
    """A copy of the bundle that `network` made: with changes, or otherwise written alone."""
    whole = json.loads(text)
    for _ in range(rng.choice((0, 0, 1, 2))):
        whole = Change(rng, whole).made(Change.equal_ways)
    for _ in range(rng.choice((0, 1, 2, 3, 4, 8))):
        whole = Change(rng, whole).made(Change.ways)
    return json.dumps(whole, separators=(",", ":")).encode()


class Ends:
    """The interfaces and addresses that the text of a bundle has."""

    def __init__(self, text):
        self.ids = sorted(set(re.findall(rb'"NetworkInterfaceId": ?"([!-~]{1,256}?)"', text))) or [b"eni-a"]
        self.hosts = [name for name in self.ids if b"nat" not in name] or self.ids
        self.own = dict(re.findall(rb'"NetworkInterfaceId": ?"([^"]+)"[^{}]*?"PrivateIpAddress": ?"([0-9.]+)"', text))
        self.addresses = sorted(set(re.findall(rb'(?:Ip(?:Address)?|Ipv4Prefix)": ?"([0-9.]+)["/]', text))) or [b"10.0.0.4"]
        self.blocks = sorted(set(re.findall(rb'"([0-9.]+/[0-9]+)"', text))) or [b"0.0.0.0/0"]
        self.fars = sorted(set(re.findall(rb'"(?:VpnGateway|VpcEndpoint)Id": ?"([!-~]{1,256}?)"', text) + re.findall(rb'"(att-[a-z]+|pcx-far)"', text)))

    def end(self, rng):
        """The internet, or an interface, which may be a gateway's; where there is what leads outside, that too."""
        if self.fars and rng.random() < 0.25:
            return rng.choice(self.fars)
        return b"internet" if rng.random() < 0.2 else rng.choice(self.hosts if rng.random() < 0.97 else self.ids)

    def address(self, rng):
        return rng.choice(self.addresses) if rng.random() < 0.85 else rng.choice((b"198.51.100.7", b"8.8.8.8", b"10.0.0.9", b"255.255.255.255", b"0.0.0.0"))

    def packet(self, rng):
        """LABEL from END PROTO SRC DST P Q."""
        end, proto = self.end(rng), rng.choice((b"tcp", b"tcp", b"tcp", b"udp", b"icmp", b"50"))
        p, q = (b"%d" % rng.choice(PORTS) for _ in range(2))
        if proto == b"icmp":
            q = rng.choice((b"2048", b"0", b"771"))
        if proto == b"50":
            p = q = b"0"
        src = self.own.get(end) if rng.random() < 0.8 else None
        return [rng.choice((b"open", b"open", b"answer")), b"from", end, proto, src or self.address(rng), self.address(rng), p, q]

    def query(self, rng):
        """from END to END with some pairs."""
        start, goal = self.end(rng), self.end(rng)
        if start == goal == b"internet" and rng.random() < 0.9:
            goal = rng.choice(self.hosts)
        words = [b"from", start, b"to", goal]
        proto = rng.choice((b"tcp", b"udp", b"icmp", b"50", b"1")) if rng.random() < 0.3 else None
        if proto:
            words += [b"proto", proto]
        for name, chance in ((b"src", 0.3), (b"dst", 0.4)):
            if rng.random() < chance:
                words += [name, rng.choice(self.blocks) if rng.random() < 0.6 else self.address(rng) + b"/32"]
        for name in (b"sport", b"port"):
            if proto != b"50" and rng.random() < 0.35:
                words += [name, b"%d-%d" % tuple(ports(rng))]
        return [*words, b"max", b"%d" % rng.choice((1, 2, 10, 1000, 20000, 20001, 50000, 100000))] if rng.random() < 0.3 else words
