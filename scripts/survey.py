"""Tells what a bundle has that vpc doesn't follow, and what leads outside: survey [--all] BUNDLE

Each kind of finding is one line on standard output: what it is, and what it means for answers.
Where there are several of a kind the line counts them, and names the first; --all tells each with
its ids.

    not followed: route rtb-1 10.9.0.0/16 to lgw-1: packets stop there as Unmodelled
    not followed: 12 route tables with routes of IPv6, as rtb-2: every answer is about IPv4 alone
    not told: block public access of subnet-1
    outside: pcx-1 of vpc-1, VPC vpc-9, which isn't described: packets come in from there

A line of `outside` is of an end that no bundle describes: what stands behind it, and whether
packets come in from there, or why not. It may be asked about by its id, as an interface may.

Block public access that isn't told, as older command lines don't, counts as off, and so does what
lets rules name groups over a transit gateway. docs/LIMITS.md says more of each, and what AWS does
that no bundle tells. A bundle without interfaces, as of a region that nobody uses, is told by a
line that begins with `no interfaces`. Whether vpc takes the bundle is not asked here.

Status 0: there is nothing; 1: there is something; 2: BUNDLE can't be read or is no bundle, as a
line on standard error says. It needs Python 3.9 or later alone.
"""

from __future__ import annotations

import itertools
import sys
from collections.abc import Iterable, Iterator, Sequence
from typing import Any, NamedTuple, Optional

from scripts.bundles import (
    LISTS, TARGETS, NoBundle, Row, harmless, harmless_ids, has_lists, json_in, member, objects_of,
    rows,
)
from scripts.outside import BEHIND, Far, Outside
from scripts.words import ATTACHED, USABLE

FOLLOWED = ("NatGatewayId", "TransitGatewayId", "VpcPeeringConnectionId", "NetworkInterfaceId")
EMPTY = (
    "no interfaces: there is no end but the internet to ask about; another region or account may "
    "be meant"
)

UNMODELLED = "packets stop there as Unmodelled"
IPV4_ALONE = "every answer is about IPv4 alone"
NOT_ASKED = "packets from behind it can't be asked about"
NONE_ASKED = "packets from behind them can't be asked about"
NOT_PUBLIC = "packets from it stop as NoPublic, and none to it comes to the interface"
NONE_PUBLIC = "packets from them stop as NoPublic, and none to them comes to the interfaces"


class Kind(NamedTuple):
    """How several findings of a kind are called, what they mean for answers, and how their lines
    begin."""

    many: str
    mean: str
    begin: str = "not followed: "


class Finding(NamedTuple):
    """A finding: its kind, what it is, its id or the first words of it, and what it means, where
    that is told."""

    kind: Kind
    what: str
    name: str
    means: str


Findings = Iterator[Finding]


# ---- reading


def by_id(found: Iterable[Row], name: str) -> dict[str, Row]:
    """Rows by their ids: of those with one id the first counts."""
    kept: dict[str, Row] = {}
    for it in found:
        kept.setdefault(harmless(it.get(name)), it)
    return kept


class Bundle(dict[str, list[Row]]):
    """The lists of a bundle by their names, those of its objects joined, and rows of them by their
    ids."""

    def __init__(self, lists: dict[str, list[Row]]) -> None:
        super().__init__(lists)
        self.vpcs = by_id(self["Vpcs"], "VpcId")
        self.groups = by_id(self["SecurityGroups"], "GroupId")
        self.nats = by_id(self["NatGateways"], "NatGatewayId")
        # (the active ones)
        peerings = by_id(self["VpcPeeringConnections"], "VpcPeeringConnectionId")
        self.peerings = {
            it: row for it, row in peerings.items() if member(row, "Status", "Code") == "active"
        }
        pairs = {it: vpcs_of(row) for it, row in self.peerings.items()}
        self.outside = Outside(self, self.vpcs, pairs)
        self.inspected = {
            harmless(it["VpcEndpointId"]) for it in self["Appliances"]
            if it.get("NetworkInterfaceId") is None and it.get("VpcEndpointId") is not None
        }
        # (of VPCs)
        attached = self["TransitGatewayVpcAttachments"]
        usable = [it for it in attached if it.get("State") in USABLE]
        self.attachments = by_id(usable, "TransitGatewayAttachmentId")
        self.gateways = by_id(self["TransitGateways"], "TransitGatewayId")
        # (the VPCs to which each belongs)
        self.homes = {it: {harmless(row.get("VpcId"))} for it, row in self.groups.items()}
        for row in self["SecurityGroupVpcAssociations"]:
            group = harmless(row.get("GroupId"))
            if row.get("State") == "associated" and group in self.homes:
                self.homes[group].add(harmless(row.get("VpcId")))
        # the groups whose rules are rows of their own, and those of them of which a row is about
        # IPv4: their own members don't count
        listed = self["SecurityGroupRules"]
        self.ruled_apart = {harmless(it.get("GroupId")) for it in listed}
        self.listed = {harmless(it.get("GroupId")) for it in listed if is_of_ipv4(it)}


def vpcs_of(peering: Row) -> tuple[str, str]:
    """The two VPCs of a peering, the requester's first."""
    names = ("RequesterVpcInfo", "AccepterVpcInfo")
    one, other = (harmless(member(peering, it, "VpcId")) for it in names)
    return one, other


def is_of_ipv4(rule: Row) -> bool:
    names = (("CidrIpv4",), ("PrefixListId",), ("ReferencedGroupInfo", "GroupId"))
    return any(member(rule, *it) is not None for it in names)


def bundle_of(path: str) -> Bundle:
    lists: dict[str, list[Row]] = {name: [] for name in LISTS}
    for number, part in enumerate(has_lists(objects_of(json_in(path))), 1):
        for name, joined in lists.items():
            found = part.get(name)
            if found is not None and not isinstance(found, list):
                raise NoBundle(f"its {name} is no list")
            joined += [it for it in found or [] if isinstance(it, dict)]
        # (a subnet that doesn't tell its account is in that of its object)
        for it in rows(part, "Subnets"):
            it.setdefault("OwnerId", f"object-{number}")
    return Bundle(lists)


# ---- routes

LOST_ROUTES = Kind("routes that lead beyond what is followed", UNMODELLED)
GATEWAYS = Kind("gateways to other networks", NONE_ASKED)
FILTERED = Kind("filtered routes", "AWS doesn't use them, and answers do")
ADVERTISED = Kind(
    "routes of route servers",
    "of routes as long as they are, answers may go by others than AWS does",
)
EDGE_ROUTES = Kind("routes of gateways' tables that lead beyond what is followed", UNMODELLED)
OTHER_TABLES = Kind("route tables of gateways to other networks", NONE_ASKED)


def destination(route: Row) -> Optional[str]:
    """The block or prefix list of a route; None where it is a route of IPv6."""
    names = ("DestinationCidrBlock", "DestinationPrefixListId")
    return next((harmless(route[it]) for it in names if route.get(it) is not None), None)


def target(route: Row) -> tuple[str, str]:
    """The member that names a route's target, and the target."""
    found = ((it, harmless(route[it])) for it in TARGETS if route.get(it) is not None)
    return next(found, ("", "none"))


def asked_routes(bundle: Bundle) -> Iterator[tuple[Row, Row]]:
    """The routes of tables that subnets have, each with its table."""
    for table in bundle["RouteTables"]:
        tied = rows(table, "Associations")
        if any(it.get("Main") is True or it.get("SubnetId") is not None for it in tied):
            yield from ((table, it) for it in rows(table, "Routes") if destination(it))


def route_words(table: Row, route: Row) -> str:
    """A route by its table, its destination and its target."""
    return f"{harmless(table.get('RouteTableId'))} {destination(route)} to {target(route)[1]}"


def other_vpc(peering: Row, vpc: str) -> str:
    """The VPC at the other side of a peering."""
    sides = vpcs_of(peering)
    return sides[1] if sides[0] == vpc else sides[0]


def is_followed_out(bundle: Bundle, it: str, vpc: str) -> bool:
    """Whether a route of a VPC leads to a far end, or is told not to; or to the endpoint of a
    firewall, of which another line tells if nothing stands behind it."""
    far = bundle.outside.fars.get(it)
    if far and far.kind in ("gateway", "endpoint"):
        return far.kind == "gateway" or bundle.outside.beside(far) == vpc
    return not far and leads_to_firewall(bundle, it, vpc)


def leads_to_firewall(bundle: Bundle, it: str, vpc: str) -> bool:
    found = bundle.outside.firewalls.get(it)
    return bool(found and found.vpc == vpc and vpc in bundle.vpcs)


def why_not_followed(bundle: Bundle, table: Row, route: Row) -> Optional[str]:
    """Why a route's target isn't followed, as words behind it; None where it is."""
    name, it = target(route)
    vpc = harmless(table.get("VpcId"))
    if name == "GatewayId" and (it == "local" or it.startswith("igw-")):
        return None
    gateway = bundle.nats.get(it, {}) if name == "NatGatewayId" else {}
    if gateway.get("State") == "available" and gateway.get("SubnetId") is None:
        return ", which has no subnet"
    if name == "VpcPeeringConnectionId" and it in bundle.peerings:
        other = other_vpc(bundle.peerings[it], vpc)
        is_known = other in bundle.vpcs or bundle.outside.end(it)
        return None if is_known else f", whose other VPC {other} isn't described"
    return None if name in FOLLOWED or is_followed_out(bundle, it, vpc) else ""


def unmodelled_routes(bundle: Bundle) -> Findings:
    for table, route in asked_routes(bundle):
        why = why_not_followed(bundle, table, route)
        if why is not None and route.get("State") != "blackhole":
            name = route_words(table, route)
            yield Finding(LOST_ROUTES, f"route {name}{why}", name, UNMODELLED)


def edge_tables(bundle: Bundle) -> Iterator[tuple[Row, str]]:
    """The tables that gateways have, each with its gateway: of those with one gateway the first
    counts."""
    seen: set[str] = set()
    for table in bundle["RouteTables"]:
        for it in rows(table, "Associations"):
            gateway = harmless(it.get("GatewayId"))
            if it.get("GatewayId") is not None and gateway not in seen:
                seen.add(gateway)
                yield table, gateway


def edge_routes(bundle: Bundle) -> Findings:
    """Routes by which what comes in by a gateway leaves what is followed."""
    for table, gateway in edge_tables(bundle):
        far = bundle.outside.fars.get(gateway)
        for route in rows(table, "Routes"):
            name, it = target(route)
            is_inner = (name, it) == ("GatewayId", "local") or name == "NetworkInterfaceId"
            is_inner |= leads_to_firewall(bundle, it, harmless(table.get("VpcId")))
            is_passed = gateway.startswith("igw-") or (far and far.kind == "gateway")
            if is_passed and destination(route) and not is_inner:
                if route.get("State") != "blackhole":
                    name = route_words(table, route)
                    what = f"route {name}, of what comes in by {gateway}"
                    yield Finding(EDGE_ROUTES, what, name, UNMODELLED)


def networks_behind(bundle: Bundle) -> Findings:
    """Gateways to networks of which no bundle tells."""
    for _, route in asked_routes(bundle):
        name, it = target(route)
        is_behind = it.startswith(("vgw-", "lgw-", "cagw-")) or name == "CoreNetworkArn"
        if is_behind and it not in bundle.outside.fars:
            yield Finding(GATEWAYS, it, it, NOT_ASKED)


def route_states(bundle: Bundle) -> Findings:
    for table, route in asked_routes(bundle):
        name = route_words(table, route)
        if route.get("State") == "filtered":
            means = "AWS doesn't use the route, and answers do"
            yield Finding(FILTERED, f"state filtered of route {name}", name, means)
        if route.get("Origin") == "Advertisement":
            means = "of routes as long as it, answers may go by another than AWS does"
            yield Finding(ADVERTISED, f"origin Advertisement of route {name}", name, means)


def gateway_tables(bundle: Bundle) -> Findings:
    for table, gateway in edge_tables(bundle):
        if not gateway.startswith("igw-") and gateway not in bundle.outside.fars:
            name = harmless(table.get("RouteTableId"))
            what = f"route table {name} of gateway {gateway}"
            yield Finding(OTHER_TABLES, what, name, NOT_ASKED)


# ---- ends outside

COMES_IN = "packets come in from there"
COME_IN = "packets come in from behind them"
NONE_COME_IN = "no packet comes in from behind them"
OPENS = "it opens no connection; ask to it"
FAR_KINDS = {
    "gateway": "virtual private gateways",
    "attachment": "attachments of transit gateways to {}",
    "peering": "peerings with VPCs that aren't described",
    "endpoint": "gateway endpoints",
}
UNTOLD_FIREWALLS = Kind(
    "endpoints of firewalls (Appliances)", UNMODELLED, "not told: what stands behind "
)


def far_kind(far: Far, means: str) -> Kind:
    """What several far ends are that are alike, and from which packets come in alike."""
    kind = str(far.row.get("ResourceType"))
    of = BEHIND[kind][1] if kind in BEHIND else "other networks"
    mean = COME_IN if means == COMES_IN else NONE_COME_IN
    opens_none = "they open no connection; ask to them"
    mean = opens_none if far.kind == "endpoint" else mean
    of = "VPCs that aren't described" if far.vpc else of
    return Kind(FAR_KINDS[far.kind].format(of), mean, "outside: ")


def led_in(bundle: Bundle, table: str) -> bool:
    """Whether a route of a transit gateway's table leads to a VPC that is described."""
    found = (it for it in bundle["TransitGatewayRoutes"] if table_name(it) == table)
    routes = [it for row in itertools.islice(found, 1) for it in rows(row, "Routes")]
    return any(it.get("State") != "blackhole" and is_led_in(bundle, it) for it in routes)


def is_led_in(bundle: Bundle, route: Row) -> bool:
    it = harmless(member(route, "TransitGatewayAttachments", 0, "TransitGatewayAttachmentId"))
    return it in bundle.attachments and why_not_left(bundle, route) is None


def table_name(table: Row) -> str:
    return harmless(table.get("TransitGatewayRouteTableId"))


def comes_in(bundle: Bundle, far: Far) -> str:
    """Whether packets come in from a far end, or why none does."""
    none = "no packet comes in from there"
    if far.kind == "endpoint":
        return OPENS
    if far.kind == "gateway" and not bundle.outside.beside(far):
        return f"{none}, since it is attached to no VPC that is described"
    if far.kind != "attachment":
        return COMES_IN
    table = named_tables(bundle).get(far.id)
    if table is None or table not in map(table_name, bundle["TransitGatewayRoutes"]):
        return f"{none}, since it has no route table here"
    return COMES_IN if led_in(bundle, table) else f"{none}, since {table} leads to no VPC here"


def far_ends(bundle: Bundle) -> Findings:
    outside = bundle.outside
    for far in filter(outside.is_end, outside.fars.values()):
        gateway = far.row.get("TransitGatewayId") if far.kind == "attachment" else None
        of = outside.beside(far) if gateway is None else harmless(gateway)
        means, name = comes_in(bundle, far), far.id + f" of {of}" * bool(of)
        what = f"{name}, {outside.behind(far)}"
        yield Finding(far_kind(far, means), what, far.id, means)


def untold_firewalls(bundle: Bundle) -> Findings:
    for it in bundle.outside.firewalls.values():
        if it.id not in bundle.inspected and it.vpc in bundle.vpcs:
            what = f"{it.id} of {it.vpc}, an endpoint of a firewall (Appliances)"
            yield Finding(UNTOLD_FIREWALLS, what, it.id, UNMODELLED)


# ---- IPv6

IPV6_TABLES = Kind("route tables with routes of IPv6", IPV4_ALONE)
IPV6_GROUPS = Kind("groups with rules of IPv6", IPV4_ALONE)
IPV6_ACLS = Kind("network ACLs with rows of IPv6", IPV4_ALONE)
IPV6_LISTS = Kind("prefix lists with blocks of IPv6", IPV4_ALONE)
UNLISTED = Kind(
    "groups of which SecurityGroupRules has no rule",
    "their IpPermissions and IpPermissionsEgress count",
)


def of_ipv6(kind: Kind, what: str, name: object, found: Iterable[str]) -> Findings:
    """What a component has of IPv6, if anything."""
    told = list(found)
    if told:
        words = f"IPv6 {what} of {harmless(name)}, {', '.join(told)}"
        yield Finding(kind, words, harmless(name), IPV4_ALONE)


def ipv6_routes(bundle: Bundle) -> Findings:
    member_name = "DestinationIpv6CidrBlock"
    for table in bundle["RouteTables"]:
        found = [it for it in rows(table, "Routes") if it.get(member_name) is not None]
        own = [it for it in found if not destination(it)]
        routes = (f"{harmless(it[member_name])} to {target(it)[1]}" for it in own)
        yield from of_ipv6(IPV6_TABLES, "routes", table.get("RouteTableId"), routes)
    for table in bundle["TransitGatewayRoutes"]:
        blocks = [it for it in rows(table, "Routes") if ":" in (destination(it) or "")]
        routes = (harmless(it["DestinationCidrBlock"]) for it in blocks)
        name = table.get("TransitGatewayRouteTableId")
        yield from of_ipv6(IPV6_TABLES, "routes", name, routes)


def permissions(bundle: Bundle) -> Iterator[tuple[str, str, Row]]:
    """The rules of groups that have them as members: the group, the rule as hops tell it, and the
    rule."""
    for group, row in bundle.groups.items():
        for direction, name in (("in", "IpPermissions"), ("out", "IpPermissionsEgress")):
            if group not in bundle.ruled_apart:
                for number, it in enumerate(rows(row, name), 1):
                    yield group, f"{direction} {number}", it


def ipv6_rules(bundle: Bundle) -> Findings:
    found: dict[str, list[str]] = {}
    for rule in bundle["SecurityGroupRules"]:
        group = harmless(rule.get("GroupId"))
        if rule.get("CidrIpv6") is not None and group in bundle.groups:
            found.setdefault(group, []).append(harmless(rule.get("SecurityGroupRuleId")))
    for group, name, permission in permissions(bundle):
        if rows(permission, "Ipv6Ranges"):
            found.setdefault(group, []).append(name)
    for group, rules in found.items():
        words = f"IPv6 rules of {group}, {', '.join(rules)}"
        yield Finding(IPV6_GROUPS, words, group, IPV4_ALONE)


def unlisted_groups(bundle: Bundle) -> Findings:
    """Groups whose own members count, where others have rows of their own: the rows may have been
    taken out by hand."""
    lists = ("IpRanges", "PrefixListIds", "UserIdGroupPairs")
    for group, row in bundle.groups.items():
        if not bundle.listed or group in bundle.listed:
            continue
        own = rows(row, "IpPermissions") + rows(row, "IpPermissionsEgress")
        if any(rows(it, name) for it in own for name in lists):
            what = f"that SecurityGroupRules has no rule of {group}"
            means = "its IpPermissions and IpPermissionsEgress count"
            yield Finding(UNLISTED, what, group, means)


def ipv6_acl_rows(bundle: Bundle) -> Findings:
    for acl in bundle["NetworkAcls"]:
        own = [it for it in rows(acl, "Entries") if it.get("Ipv6CidrBlock") is not None]
        found = (
            f"{'out' if it.get('Egress') else 'in'} {harmless(it.get('RuleNumber'))}" for it in own
            if it.get("CidrBlock") is None
        )
        yield from of_ipv6(IPV6_ACLS, "rows", acl.get("NetworkAclId"), found)


def ipv6_entries(bundle: Bundle) -> Findings:
    lists: list[tuple[Row, list[Any]]] = []
    for it in bundle["PrefixLists"]:
        lists.append((it, it["Cidrs"] if isinstance(it.get("Cidrs"), list) else []))
    for it in bundle["PrefixListEntries"]:
        lists.append((it, [entry.get("Cidr") for entry in rows(it, "Entries")]))
    for row, blocks in lists:
        found = (harmless(it) for it in blocks if isinstance(it, str) and ":" in it)
        yield from of_ipv6(IPV6_LISTS, "blocks", row.get("PrefixListId"), found)


# ---- interfaces

OWN_PUBLIC = Kind("public addresses that an interface's own Association alone has", NONE_PUBLIC)
OTHER_PUBLIC = {
    "CarrierIp": ("carrier", Kind("carrier addresses", NONE_PUBLIC)),
    "CustomerOwnedIp": ("customer-owned", Kind("customer-owned addresses", NONE_PUBLIC)),
}
BALANCERS = Kind(
    "interfaces of load balancers, of which isn't told what they send on",
    "packets end there; ask on from them to their targets",
)


def public_addresses(bundle: Bundle) -> Findings:
    """Those that no row of an interface's private addresses has, and what stands in the place of
    public ones."""
    for interface in bundle["NetworkInterfaces"]:
        eni = harmless(interface.get("NetworkInterfaceId"))
        own = member(interface, "Association", "PublicIp")
        private = rows(interface, "PrivateIpAddresses")
        if own is not None and own not in [member(it, "Association", "PublicIp") for it in private]:
            name = f"{harmless(own)} of {eni}"
            what = f"public address {name}, which its own Association alone has"
            yield Finding(OWN_PUBLIC, what, name, NOT_PUBLIC)
        for it in [interface, *private]:
            for member_name, (word, kind) in OTHER_PUBLIC.items():
                found = member(it, "Association", member_name)
                if found is not None and member(it, "Association", "PublicIp") is None:
                    name = f"{harmless(found)} of {eni}"
                    yield Finding(kind, f"{word} address {name}", name, NOT_PUBLIC)


def load_balancers(bundle: Bundle) -> Findings:
    kinds = ("load_balancer", "network_load_balancer", "gateway_load_balancer")
    for it in bundle["NetworkInterfaces"]:
        is_classic = str(it.get("Description")).startswith("ELB ")
        if it.get("InterfaceType") in kinds or is_classic:
            name = harmless(it.get("NetworkInterfaceId"))
            what = f"what the load balancer of {name} sends on"
            yield Finding(BALANCERS, what, name, "packets end there; ask on from it to its targets")


# ---- gateways

SECONDARY = Kind(
    "NAT gateways with secondary addresses",
    "they send packets on from their primary addresses alone",
)
UNTOLD_ACCESS = Kind("subnets", "", "not told: block public access of ")


def secondary_addresses(bundle: Bundle) -> Findings:
    for it, gateway in bundle.nats.items():
        found = rows(gateway, "NatGatewayAddresses")
        is_live = gateway.get("State") == "available" and gateway.get("SubnetId") is not None
        if is_live and len(found) > 1:
            chosen = next((row for row in found if row.get("IsPrimary") is True), found[0])
            others = harmless_ids(row.get("PrivateIp") for row in found if row is not chosen)
            means = f"it sends packets on from {harmless(chosen.get('PrivateIp'))} alone"
            yield Finding(SECONDARY, f"secondary addresses of {it}, {others}", it, means)


def untold_access(bundle: Bundle) -> Findings:
    """Subnets by whose internet gateway packets pass, unless it is blocked, which isn't told."""
    states = ("BlockPublicAccessStates", "InternetGatewayBlockMode")
    attached = {
        harmless(it.get("VpcId")) for row in bundle["InternetGateways"]
        for it in rows(row, "Attachments") if it.get("State") in ATTACHED
    }
    for it in bundle["Subnets"]:
        vpc, name = harmless(it.get("VpcId")), harmless(it.get("SubnetId"))
        told = (member(row, *states) for row in (it, bundle.vpcs.get(vpc)))
        if vpc in attached and all(mode is None for mode in told):
            yield Finding(UNTOLD_ACCESS, name, name, "")


# ---- transit gateways

OTHER_ATTACHMENTS = Kind("attachments that lead to other networks than VPCs", NONE_ASKED)
LOST_TRANSIT = Kind("routes of transit gateways that lead to nothing that is described", UNMODELLED)
NO_TABLES = Kind(
    "route tables of attachments whose routes the bundle doesn't have",
    "packets stop there as TgwNoTable",
)
APPLIANCE_MODE = Kind(
    "attachments in appliance mode", "packets leave in the zone where they entered"
)
DOUBLED = Kind("attachments with another row, with other subnets", "the first row counts")
UNTOLD_NAMING = Kind(
    "rules may name groups over transit gateways",
    "what they alone allow stops as GroupsIn",
    "not told: whether ",
)
ZONES = Kind(
    "zones at transit gateways that accounts may name otherwise",
    "a packet between accounts may cross the ACL and table of the wrong subnet",
)


def far_of(bundle: Bundle, attachment: Row) -> Optional[Far]:
    return bundle.outside.end(harmless(attachment.get("TransitGatewayAttachmentId")))


def other_attachments(bundle: Bundle) -> Findings:
    for it in bundle["TransitGatewayAttachments"]:
        kind, is_far = it.get("ResourceType"), far_of(bundle, it)
        if kind not in (None, "vpc") and it.get("State") in (None, *USABLE) and not is_far:
            name, gateway = it.get("TransitGatewayAttachmentId"), it.get("TransitGatewayId")
            what = f"{harmless(kind)} attachment {harmless(name)} of {harmless(gateway)}"
            yield Finding(OTHER_ATTACHMENTS, what, harmless(name), NOT_ASKED)


def why_not_left(bundle: Bundle, route: Row) -> Optional[str]:
    """Why a transit gateway's route doesn't lead on, as words behind its destination; None where it
    does."""
    first = next(iter(rows(route, "TransitGatewayAttachments")), None)
    if first is None:
        return " without an attachment"
    it, kind = harmless(first.get("TransitGatewayAttachmentId")), first.get("ResourceType")
    if far_of(bundle, first):
        return None
    if it not in bundle.attachments:
        is_vpc = kind in (None, "vpc")
        why = "which isn't described" if is_vpc else f"whose kind is {harmless(kind)}"
        return f" to {it}, {why}"
    vpc = harmless(bundle.attachments[it].get("VpcId"))
    if vpc not in bundle.vpcs:
        return f" to {it}, whose VPC {vpc} isn't described"
    has_subnet = member(bundle.attachments[it], "SubnetIds")
    return None if has_subnet else f" to {it}, which has no subnet"


def transit_routes(bundle: Bundle) -> Findings:
    for table in bundle["TransitGatewayRoutes"]:
        for route in rows(table, "Routes"):
            block, why = destination(route), why_not_left(bundle, route)
            if block and ":" not in block and why and route.get("State") != "blackhole":
                name = f"{harmless(table.get('TransitGatewayRouteTableId'))} {block}"
                yield Finding(LOST_TRANSIT, f"route {name}{why}", name, UNMODELLED)


def named_tables(bundle: Bundle) -> dict[str, str]:
    """The tables that attachments are associated with, by their attachments."""
    named: dict[str, str] = {}
    for it in bundle["TransitGatewayAttachments"]:
        table = member(it, "Association", "TransitGatewayRouteTableId")
        if table is not None:
            named.setdefault(harmless(it.get("TransitGatewayAttachmentId")), harmless(table))
    return named


def missing_tables(bundle: Bundle) -> Findings:
    """Tables of attachments whose routes weren't collected: those that an account doesn't own, it
    doesn't see."""
    described, named = set(map(table_name, bundle["TransitGatewayRoutes"])), named_tables(bundle)
    missing: dict[str, list[str]] = {}
    for attachment in bundle.attachments:
        if attachment in named and named[attachment] not in described:
            missing.setdefault(named[attachment], []).append(attachment)
    for table, attachments in missing.items():
        whose = f"the table of {', '.join(attachments)}, which the bundle doesn't have"
        yield Finding(NO_TABLES, f"routes of {table}, {whose}", table, NO_TABLES.mean)


def attachment_options(bundle: Bundle) -> Findings:
    for it, row in bundle.attachments.items():
        if member(row, "Options", "ApplianceModeSupport") == "enable":
            means = "a packet leaves in the zone where it entered"
            yield Finding(APPLIANCE_MODE, f"appliance mode of {it}", it, means)


def doubled_attachments(bundle: Bundle) -> Findings:
    """The owner of a transit gateway may list fewer subnets of an attachment than its account
    does."""
    for row in bundle["TransitGatewayVpcAttachments"]:
        name = harmless(row.get("TransitGatewayAttachmentId"))
        first = bundle.attachments.get(name, {})
        if row.get("State") in USABLE and row.get("SubnetIds") != first.get("SubnetIds"):
            what = f"another row of {name}, with other subnets"
            yield Finding(DOUBLED, what, name, DOUBLED.mean)


def references(bundle: Bundle) -> Iterator[tuple[str, str, bool, str]]:
    """The groups that rules name: the rule's group, its words, whether it is outward, and the group
    that is named."""
    for row in bundle["SecurityGroupRules"]:
        group, named = harmless(row.get("GroupId")), member(row, "ReferencedGroupInfo", "GroupId")
        if group in bundle.groups and named is not None:
            rule = harmless(row.get("SecurityGroupRuleId"))
            yield group, rule, bool(row.get("IsEgress")), harmless(named)
    for group, rule, permission in permissions(bundle):
        for it in rows(permission, "UserIdGroupPairs"):
            yield group, rule, rule.startswith("out "), harmless(it.get("GroupId"))


def untold_gateways(bundle: Bundle, vpc: str, others: frozenset[str]) -> list[str]:
    """The transit gateways over which inward rules in a VPC would name groups of other ones if what
    isn't told of them were on; none where they do so over one."""
    attached: dict[bool, list[Row]] = {True: [], False: []}
    for it in bundle.attachments.values():
        if harmless(it.get("VpcId")) in {vpc, *others}:
            attached[harmless(it.get("VpcId")) == vpc].append(it)
    found = set()
    for here, there in itertools.product(attached[True], attached[False]):
        gateway = harmless(here.get("TransitGatewayId"))
        if gateway == harmless(there.get("TransitGatewayId")):
            support = ("Options", "SecurityGroupReferencingSupport")
            told = [member(it, *support) for it in (bundle.gateways.get(gateway), here, there)]
            if all(it == "enable" for it in told):
                return []
            if all(it in ("enable", None) for it in told):
                found.add(gateway)
    return sorted(found)


def untold_naming(bundle: Bundle) -> Findings:
    """Inward rules that would count if groups may be named over a transit gateway, which isn't
    told."""
    peered = set()
    for row in bundle.peerings.values():
        vpc = harmless(member(row, "RequesterVpcInfo", "VpcId"))
        peered.add(frozenset((vpc, other_vpc(row, vpc))))
    found: dict[tuple[str, frozenset[str]], list[str]] = {}
    for group, rule, is_outward, named in references(bundle):
        others = frozenset(bundle.homes.get(named, ()))
        for vpc in sorted(bundle.homes[group]):
            is_joined = vpc in others or any(frozenset((vpc, it)) in peered for it in others)
            if is_outward or is_joined:
                continue
            if (vpc, others) not in found:
                found[vpc, others] = untold_gateways(bundle, vpc, others)
            for gateway in found[vpc, others]:
                what = f"{group} {rule} may name {named} over {gateway}"
                name = f"{group} {rule} to {named} over {gateway}"
                means = "what it alone allows stops as GroupsIn"
                yield Finding(UNTOLD_NAMING, what, name, means)


def attached_subnets(bundle: Bundle, gateway: str) -> Iterator[Row]:
    """The subnets by which VPCs are attached to a transit gateway."""
    subnets = by_id(bundle["Subnets"], "SubnetId")
    for row in bundle.attachments.values():
        named = row.get("SubnetIds")
        if harmless(row.get("TransitGatewayId")) == gateway and isinstance(named, list):
            yield from (subnets[harmless(it)] for it in named if harmless(it) in subnets)


def differing(subnets: list[Row], one: str, other: str) -> list[tuple[str, dict[str, str]]]:
    """The values of a member beside which another has several, each of those with a subnet."""
    beside: dict[str, dict[str, str]] = {}
    for it in subnets:
        if it.get(one) is not None and it.get(other) is not None:
            seen = beside.setdefault(harmless(it[one]), {})
            seen.setdefault(harmless(it[other]), harmless(it.get("SubnetId")))
    return [(value, seen) for value, seen in beside.items() if len(seen) > 1]


def zone_names(bundle: Bundle) -> Findings:
    """Names of zones differ between accounts, and their ids don't."""
    name, zone = "AvailabilityZone", "AvailabilityZoneId"
    attached = bundle.attachments.values()
    for gateway in sorted({harmless(it.get("TransitGatewayId")) for it in attached}):
        subnets = list(attached_subnets(bundle, gateway))
        for value, seen in differing(subnets, name, zone) + differing(subnets, zone, name):
            ids = ", ".join(f"{it} of {at}" for it, at in seen.items())
            what = f"zone {value} at {gateway}, {ids}"
            yield Finding(ZONES, what, f"{value} at {gateway}", ZONES.mean)
        unknown = [it.get("SubnetId") for it in subnets if it.get(zone) is None]
        accounts = ", ".join(sorted({harmless(it["OwnerId"]) for it in subnets}))
        if unknown and ", " in accounts:
            whose = f"whose ids {harmless_ids(unknown)} doesn't tell"
            what = f"zones of accounts {accounts} at {gateway}, {whose}"
            yield Finding(ZONES, what, f"those of {accounts} at {gateway}", ZONES.mean)


FINDERS = (
    unmodelled_routes, edge_routes, networks_behind, route_states, gateway_tables, unlisted_groups,
    ipv6_routes, ipv6_rules, ipv6_acl_rows, ipv6_entries, public_addresses, load_balancers,
    secondary_addresses, untold_access, untold_firewalls, other_attachments, missing_tables,
    transit_routes, attachment_options, doubled_attachments, untold_naming, zone_names, far_ends,
)


# ---- lines


def line(kind: Kind, what: str, means: str) -> str:
    return f"{kind.begin}{what}" + f": {means}" * bool(means)


def survey(bundle: Bundle, is_all: bool) -> list[str]:
    """The lines, each once: one of each kind, or all."""
    lines = [] if bundle["NetworkInterfaces"] else [EMPTY]
    found = list(dict.fromkeys(it for find in FINDERS for it in find(bundle)))
    if is_all:
        return lines + [line(it.kind, it.what, it.means) for it in found]
    kinds: dict[Kind, list[Finding]] = {}
    for it in found:
        kinds.setdefault(it.kind, []).append(it)
    for kind, (first, *more) in kinds.items():
        if more:
            what = f"{len(more) + 1:,} {kind.many}, as {first.name}"
            lines.append(line(kind, what, kind.mean))
        else:
            lines.append(line(kind, first.what, first.means))
    return lines


def refused(why: str) -> int:
    print(f"survey: {why}", file=sys.stderr)
    return 2


def main(words: Sequence[str]) -> int:
    if words in (["--help"], ["-h"]):
        print(__doc__, end="")
        return 0
    paths = [it for it in words if it != "--all"]
    if len(paths) != 1 or paths[0].startswith("-") or len(words) > 2:
        return refused("one BUNDLE is meant; --help says more")
    path = harmless(paths[0])
    try:
        lines = survey(bundle_of(paths[0]), "--all" in words)
    except OSError as error:
        return refused(f"{path} can't be read: {error.strerror}")
    except NoBundle as why:
        return refused(f"{path} is no bundle: {why}")
    for it in lines:
        print(it)
    return 1 if lines else 0
