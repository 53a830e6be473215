"""The rows of a bundle by their ids, as vpc reads them of a bundle that it accepts, and what single
rows say of a header. Packets are not followed here."""

from __future__ import annotations

import collections
import itertools
from collections.abc import Iterator
from typing import Any, NamedTuple, Optional

from scripts.bundles import TARGETS, Names, Row, member, rows
from scripts.commands import ODD, Refused, read_objects
from scripts.headers import Block, Header, address, block_of
from scripts.outside import Far, Outside
from scripts.words import ATTACHED, USABLE


class Vpc(NamedTuple):
    """`access` is its mode of Block Public Access, where that is told."""

    id: str
    blocks: list[Block]
    access: Optional[str]


class Subnet(NamedTuple):
    id: str
    vpc: str
    zone: str
    access: Optional[str]


class Interface(NamedTuple):
    """`addresses` are the private ones, each with its public one or None; `blocks` are delegated to
    it."""

    id: str
    subnet: str
    addresses: dict[int, Optional[int]]
    groups: list[str]
    checked: bool
    idle: bool
    is_gateway: bool
    kind: str
    blocks: list[Block]

    def has(self, number: int) -> bool:
        """Whether an address is one of its own: it is assigned, or lies in one of its blocks."""
        return number in self.addresses or any(it.holds(number) for it in self.blocks)

    def block_with(self, number: int) -> Optional[Block]:
        """The block by which an address is its own; None where it is assigned, or isn't."""
        found = (it for it in self.blocks if it.holds(number))
        return None if number in self.addresses else next(found, None)


class Owners:
    """Interfaces by their private addresses."""

    def __init__(self) -> None:
        self.assigned: dict[int, Interface] = {}
        # (by the lengths of blocks and their first addresses)
        self.delegated: dict[int, dict[int, Interface]] = {}

    def add(self, interface: Interface) -> None:
        self.assigned.update((it, interface) for it in interface.addresses)
        for it in interface.blocks:
            self.delegated.setdefault(it.length, {})[it.first] = interface

    def of(self, number: int) -> Optional[Interface]:
        """The interface that has an address, else the one with a block that holds it."""
        found = [self.assigned.get(number)]
        for length, owners in self.delegated.items():
            size = 1 << 32 - length
            found.append(owners.get(number // size * size))
        return next((it for it in found if it), None)


class Route(NamedTuple):
    """It has a block, or else a prefix list."""

    block: Optional[Block]
    list: Optional[str]
    kind: str
    target: str
    blackhole: bool
    propagated: bool

    def reach(self) -> str:
        return str(self.block or self.list)


class RouteTable(NamedTuple):
    id: str
    vpc: str
    routes: list[Route]


class AclRow(NamedTuple):
    number: int
    outward: bool
    allow: bool
    proto: Optional[int]
    first: int
    last: int
    block: Block


class Acl(NamedTuple):
    id: str
    subnets: list[str]
    rows: list[AclRow]


class Rule(NamedTuple):
    name: str
    proto: Optional[int]
    first: int
    last: int
    blocks: list[Block]
    lists: list[str]
    groups: list[str]


class Group(NamedTuple):
    """`vpcs` are those to which it belongs, its own first."""

    id: str
    vpcs: list[str]
    inward: list[Rule]
    outward: list[Rule]


class Side(NamedTuple):
    """Where rules of a group count at an interface: the VPC, and the direction."""

    vpc: str
    outward: bool


class Nat(NamedTuple):
    id: str
    state: str
    subnet: Optional[str]
    eni: Optional[str]
    address: Optional[int]


class Peering(NamedTuple):
    id: str
    code: str
    pair: Optional[tuple[str, str]]


class Attachment(NamedTuple):
    """`naming` tells whether rules may name groups over it."""

    id: str
    gateway: str
    vpc: str
    subnets: list[str]
    naming: Any


class TransitRoute(NamedTuple):
    block: Block
    blackhole: bool
    propagated: bool
    attachment: Optional[str]


class Appliance(NamedTuple):
    kind: str
    first: int
    last: int
    block: Optional[Block]


# What a route's target is by its member; what has none here isn't followed.
TARGET_KINDS = {
    "GatewayId": "gateway",
    "NatGatewayId": "nat",
    "TransitGatewayId": "transit",
    "VpcPeeringConnectionId": "peering",
    "NetworkInterfaceId": "interface",
}
ACCESS_MODES = ("off", "block-ingress", "block-bidirectional")
# The states of instances whose interfaces send and receive packets.
RUNNING = ("pending", "running")
PROTOCOL_WORDS = {"-1": None, "tcp": 6, "udp": 17, "icmp": 1, "icmpv6": 58}


def items(row: Row, name: str) -> Any:
    return row.get(name) or []


def ports_of(proto: Optional[int], first: Any, last: Any, kind: Any, code: Any) -> tuple[int, int]:
    """The range of q of a rule: ports, or types and codes of ICMP."""
    if proto in (6, 17):
        return 0 if first in (None, -1) else first, 65535 if last in (None, -1) else last
    if proto == 1 and kind not in (None, -1):
        if code in (None, -1):
            return kind * 256, kind * 256 + 255
        return kind * 256 + code, kind * 256 + code
    return 0, 65535


def protocol_of(text: str) -> Optional[int]:
    return PROTOCOL_WORDS[text] if text in PROTOCOL_WORDS else int(text)


# ---- rows


def vpc_of(row: Row) -> Vpc:
    more = [
        it["CidrBlock"] for it in items(row, "CidrBlockAssociationSet")
        if member(it, "CidrBlockState", "State") in (None, "associated")
    ]
    blocks = [block_of(it) for it in dict.fromkeys([row["CidrBlock"], *more])]
    return Vpc(row["VpcId"], blocks, access_of(row))


def access_of(row: Row) -> Optional[str]:
    """The mode of Block Public Access that a VPC or a subnet tells."""
    mode = member(row, "BlockPublicAccessStates", "InternetGatewayBlockMode")
    return None if mode is None else ACCESS_MODES[ACCESS_MODES.index(mode)]


def interface_of(row: Row) -> Interface:
    addresses: dict[int, Optional[int]] = {}
    for it in items(row, "PrivateIpAddresses"):
        public = member(it, "Association", "PublicIp")
        addresses[address(it["PrivateIpAddress"])] = None if public is None else address(public)
    if row.get("PrivateIpAddress") is not None:
        addresses = {address(row["PrivateIpAddress"]): None, **addresses}
    kind = row.get("InterfaceType") or "interface"
    plain = kind.lower().replace("_", "").replace("-", "")
    return Interface(
        row["NetworkInterfaceId"], row["SubnetId"], addresses,
        [it["GroupId"] for it in items(row, "Groups")], row.get("SourceDestCheck") is not False,
        row.get("Status") == "available", plain in ("natgateway", "transitgateway"), kind,
        [block_of(it["Ipv4Prefix"]) for it in items(row, "Ipv4Prefixes")],
    )


def route_of(row: Row) -> Optional[Route]:
    block, name = row.get("DestinationCidrBlock"), row.get("DestinationPrefixListId")
    if block is None and name is None:
        return None
    known = next((it for it in TARGETS if row.get(it) is not None), None)
    target = row[known] if known else "none"
    kind = TARGET_KINDS.get(known or "", "other")
    if kind == "gateway":
        is_internet = target.startswith("igw-")
        kind = "local" if target == "local" else "internet" if is_internet else "other"
    reach = (block_of(block), None) if block is not None else (None, name)
    is_gone = row.get("State") == "blackhole"
    return Route(*reach, kind, target, is_gone, row.get("Origin") == "EnableVgwRoutePropagation")


def acl_row_of(row: Any) -> Optional[AclRow]:
    if not isinstance(row, dict) or row.get("CidrBlock") is None:
        return None
    proto = None if row["Protocol"] == "-1" else int(row["Protocol"])
    ports, types = row.get("PortRange") or {}, row.get("IcmpTypeCode") or {}
    told = (ports.get("From"), ports.get("To"), types.get("Type"), types.get("Code"))
    first, last = ports_of(proto, *told)
    is_allow, block = row["RuleAction"] == "allow", block_of(row["CidrBlock"])
    return AclRow(row["RuleNumber"], row["Egress"], is_allow, proto, first, last, block)


def rule_ports(row: Row) -> tuple[Optional[int], int, int]:
    """The protocol and the range of q of a rule of a group."""
    proto, first, last = protocol_of(row["IpProtocol"]), row.get("FromPort"), row.get("ToPort")
    return proto, *ports_of(proto, first, last, first, last)


def listed_rule(row: Row, reference: str) -> Rule:
    """A rule that has a row of its own."""
    block, name = row.get("CidrIpv4"), row.get("PrefixListId")
    blocks = [block_of(block)] if block is not None else []
    lists = [name] if block is None and name is not None else []
    groups = [] if blocks or lists else [reference]
    return Rule(row["SecurityGroupRuleId"], *rule_ports(row), blocks, lists, groups)


def permissions(row: Row, name: str) -> list[Rule]:
    """The rules that are members of a group."""
    rules = []
    for number, it in enumerate(items(row, name), 1):
        pairs = items(it, "UserIdGroupPairs")
        found = [member(that, "GroupId") for that in pairs]
        groups = [that for that in found if that is not None]
        blocks = [block_of(that["CidrIp"]) for that in items(it, "IpRanges")]
        lists = [that["PrefixListId"] for that in items(it, "PrefixListIds")]
        rules.append(Rule(str(number), *rule_ports(it), blocks, lists, groups))
    return rules


def nat_of(row: Row) -> Nat:
    is_live = row["State"] == "available" and row.get("SubnetId") is not None
    found = items(row, "NatGatewayAddresses") if is_live else []
    otherwise = found[0] if found else None
    first = next((it for it in found if it.get("IsPrimary") is True), otherwise)
    if not first:
        return Nat(row["NatGatewayId"], row["State"], None, None, None)
    own = address(first["PrivateIp"])
    state, subnet = row["State"], row["SubnetId"]
    return Nat(row["NatGatewayId"], state, subnet, first["NetworkInterfaceId"], own)


def naming_of(row: Row) -> Any:
    """What a transit gateway or an attachment tells of whether rules may name groups over it."""
    return member(row, "Options", "SecurityGroupReferencingSupport")


def transit_route_of(row: Row) -> TransitRoute:
    found = items(row, "TransitGatewayAttachments")
    attachment = found[0]["TransitGatewayAttachmentId"] if found else None
    is_gone, is_propagated = row["State"] == "blackhole", row["Type"] == "propagated"
    return TransitRoute(block_of(row["DestinationCidrBlock"]), is_gone, is_propagated, attachment)


def appliance_of(row: Row) -> Appliance:
    if row["Kind"] == "service":
        first, _, last = (row.get("Ports") or "").partition("-")
        return Appliance("service", int(first), int(last or 0), None)
    return Appliance(row["Kind"], 0, 0, block_of(row["Prefix"]) if row["Kind"] == "peer" else None)


UNROUTABLE = [
    block_of(it)
    for it in (
        "0.0.0.0/8", "10.0.0.0/8", "127.0.0.0/8", "169.254.0.0/16", "172.16.0.0/12",
        "192.168.0.0/16", "224.0.0.0/3",
    )
]


def is_unroutable(number: int) -> bool:
    """Whether the internet doesn't carry an address."""
    return any(it.holds(number) for it in UNROUTABLE)


class Network:
    """The rows of a bundle."""

    def __init__(self, objects: list[Row]) -> None:
        lists: dict[str, list[Any]] = collections.defaultdict(list)
        for it in objects:
            for name, found in it.items():
                lists[name] += found if isinstance(found, list) else []
        self.vpcs = {it["VpcId"]: vpc_of(it) for it in lists["Vpcs"]}
        self.subnets = {
            it["SubnetId"]: Subnet(
                it["SubnetId"], it["VpcId"], it["AvailabilityZone"], access_of(it)
            )
            for it in lists["Subnets"]
        }
        interfaces = lists["NetworkInterfaces"]
        self.interfaces = {it["NetworkInterfaceId"]: interface_of(it) for it in interfaces}
        self.read_instances(lists["Reservations"])
        self.read_tables(lists["RouteTables"])
        self.read_lists(lists["PrefixLists"], lists["PrefixListEntries"])
        self.read_acls(lists["NetworkAcls"])
        self.read_groups(lists["SecurityGroups"], lists["SecurityGroupRules"])
        self.read_homes(lists["SecurityGroupVpcAssociations"])
        self.read_gateways(lists["InternetGateways"], lists["NatGateways"])
        self.read_peerings(lists["VpcPeeringConnections"])
        self.read_transit(lists)
        self.read_appliances(lists["Appliances"])
        pairs = {it.id: it.pair for it in self.peerings.values() if it.pair}
        self.outside = Outside(lists, self.vpcs, pairs)
        self.fars, self.firewalls = self.outside.fars, self.outside.firewalls
        self.names = Names(objects)
        self.index_addresses()

    def read_instances(self, reservations: list[Any]) -> None:
        """The instances that don't run, by their interfaces: the first of each, and its state."""
        self.stopped: dict[str, tuple[str, str]] = {}
        # (a reservation that is no object tells of none)
        objects = (row for row in reservations if isinstance(row, dict))
        for it in (it for row in objects for it in items(row, "Instances")):
            name, state = it["InstanceId"], member(it, "State", "Name")
            if state is not None and state not in RUNNING:
                for eni in items(it, "NetworkInterfaces"):
                    self.stopped.setdefault(eni["NetworkInterfaceId"], (name, state))

    def read_tables(self, found: list[Row]) -> None:
        self.tables: dict[str, RouteTable] = {}
        self.table_of_gateway: dict[str, RouteTable] = {}
        self.main_of: dict[str, RouteTable] = {}
        self.table_of_subnet: dict[str, RouteTable] = {}
        for row in found:
            routes = [it for it in map(route_of, items(row, "Routes")) if it]
            table = RouteTable(row["RouteTableId"], row["VpcId"], routes)
            self.tables[table.id] = table
            for it in rows(row, "Associations"):
                if it.get("Main"):
                    self.main_of[table.vpc] = table
                if it.get("SubnetId") is not None:
                    self.table_of_subnet[it["SubnetId"]] = table
                if it.get("GatewayId") is not None:
                    self.table_of_gateway.setdefault(it["GatewayId"], table)

    def read_lists(self, found: list[Row], entries: list[Row]) -> None:
        self.lists: dict[str, list[Block]] = {}
        told = [(it["PrefixListId"], it["Cidrs"]) for it in found if it.get("Cidrs") is not None]
        for it in entries:
            told.append((it["PrefixListId"], [entry["Cidr"] for entry in items(it, "Entries")]))
        for name, blocks in told:
            self.lists.setdefault(name, [block_of(it) for it in blocks if ":" not in it])

    def read_acls(self, found: list[Row]) -> None:
        self.acls: dict[str, Acl] = {}
        self.acl_of_subnet: dict[str, Acl] = {}
        for row in found:
            subnets = [it["SubnetId"] for it in items(row, "Associations")]
            entries = [it for it in map(acl_row_of, items(row, "Entries")) if it]
            acl = Acl(row["NetworkAclId"], subnets, entries)
            self.acls[acl.id] = acl
            self.acl_of_subnet.update((it, acl) for it in acl.subnets)

    def read_groups(self, found: list[Row], listed: list[Row]) -> None:
        self.groups: dict[str, Group] = {}
        apart = self.listed_rules({it["GroupId"] for it in found}, listed)
        for row in found:
            group = row["GroupId"]
            if group in apart:
                inward, outward = apart[group]
            else:
                inward = permissions(row, "IpPermissions")
                outward = permissions(row, "IpPermissionsEgress")
            self.groups[group] = Group(group, [row["VpcId"]], inward, outward)

    def read_homes(self, found: list[Row]) -> None:
        """The further VPCs of groups."""
        for it in found:
            group, vpc = self.groups.get(it["GroupId"]), it["VpcId"]
            if group and it.get("State") == "associated" and vpc not in group.vpcs:
                group.vpcs.append(vpc)

    def listed_rules(
        self, known: set[str], listed: list[Row]
    ) -> dict[str, tuple[list[Rule], list[Rule]]]:
        """The rules that have rows of their own, inward and outward, of each group that has
        some."""
        apart: dict[str, tuple[list[Rule], list[Rule]]] = {}
        seen = set()
        for it in listed:
            reference = member(it, "ReferencedGroupInfo", "GroupId")
            has_far = any(
                that is not None for that in (it.get("CidrIpv4"), it.get("PrefixListId"), reference)
            )
            if has_far and it["GroupId"] in known and it["SecurityGroupRuleId"] not in seen:
                seen.add(it["SecurityGroupRuleId"])
                of_group = apart.setdefault(it["GroupId"], ([], []))
                of_group[{False: 0, True: 1}[it["IsEgress"]]].append(listed_rule(it, reference))
        return apart

    def read_gateways(self, gateways: list[Row], nats: list[Row]) -> None:
        self.igws: dict[str, list[str]] = {}
        self.igw_of: dict[str, str] = {}
        for row in gateways:
            attached = [
                it["VpcId"] for it in items(row, "Attachments")
                if it["State"] in ATTACHED
            ]
            self.igws[row["InternetGatewayId"]] = attached
            for it in attached:
                self.igw_of.setdefault(it, row["InternetGatewayId"])
        self.nats = {row["NatGatewayId"]: nat_of(row) for row in nats}
        self.nat_at: dict[str, Nat] = {}
        for nat in self.nats.values():
            if nat.eni is not None:
                self.nat_at.setdefault(nat.eni, nat)

    def read_peerings(self, found: list[Row]) -> None:
        self.peerings: dict[str, Peering] = {}
        for row in found:
            code, pair = row["Status"]["Code"], None
            if code == "active":
                pair = (row["RequesterVpcInfo"]["VpcId"], row["AccepterVpcInfo"]["VpcId"])
            name = row["VpcPeeringConnectionId"]
            self.peerings.setdefault(name, Peering(name, code, pair))

    def read_transit(self, lists: dict[str, list[Any]]) -> None:
        self.attachments: dict[str, Attachment] = {}
        self.associations: dict[str, str] = {}
        self.transit_tables: dict[str, list[TransitRoute]] = {}
        for row in lists["TransitGatewayVpcAttachments"]:
            if row["State"] in USABLE:
                name, gateway = row["TransitGatewayAttachmentId"], row["TransitGatewayId"]
                subnets = list(items(row, "SubnetIds"))
                found = Attachment(name, gateway, row["VpcId"], subnets, naming_of(row))
                self.attachments.setdefault(name, found)
        self.naming: dict[str, Any] = {}
        for row in lists["TransitGateways"]:
            self.naming.setdefault(row["TransitGatewayId"], naming_of(row))
        for row in lists["TransitGatewayAttachments"]:
            table = member(row.get("Association"), "TransitGatewayRouteTableId")
            if table is not None:
                self.associations.setdefault(row["TransitGatewayAttachmentId"], table)
        for row in lists["TransitGatewayRoutes"]:
            table, routes = row["TransitGatewayRouteTableId"], items(row, "Routes")
            routes = [it for it in routes if ":" not in it["DestinationCidrBlock"]]
            self.transit_tables[table] = list(map(transit_route_of, routes))

    def read_appliances(self, found: list[Row]) -> None:
        """Those at interfaces, and those behind the endpoints of firewalls."""
        self.appliances: dict[str, Appliance] = {}
        self.inspecting: dict[str, Appliance] = {}
        for it in found:
            if it.get("NetworkInterfaceId") is not None:
                self.appliances[it["NetworkInterfaceId"]] = appliance_of(it)
            else:
                self.inspecting[it["VpcEndpointId"]] = appliance_of(it)

    def index_addresses(self) -> None:
        self.hosts: dict[str, Owners] = {}
        self.owner_of: dict[int, tuple[Interface, int, str]] = {}
        self.members: dict[str, Owners] = {}
        for it in self.interfaces.values():
            vpc = self.subnets[it.subnet].vpc
            self.hosts.setdefault(vpc, Owners()).add(it)
            for private, public in it.addresses.items():
                if public is not None:
                    self.owner_of[public] = (it, private, vpc)
            for group in it.groups:
                self.members.setdefault(group, Owners()).add(it)

    # -- what one component does with a header

    def is_idle(self, interface: Interface) -> bool:
        """Whether it is attached to nothing, or to an instance that doesn't run."""
        return interface.idle or interface.id in self.stopped

    def mode_of(self, subnet: str) -> str:
        """The mode of Block Public Access: its own, else that of its VPC."""
        found = self.subnets[subnet]
        return found.access or self.vpcs[found.vpc].access or "off"

    def is_blocked(self, interface: Interface) -> bool:
        """Whether public access of an interface is blocked."""
        mode, nat = self.mode_of(interface.subnet), self.nat_at.get(interface.id)
        return mode == "block-bidirectional" or (mode == "block-ingress" and not nat)

    def table_at(self, subnet: str) -> RouteTable:
        return self.table_of_subnet.get(subnet) or self.main_of[self.subnets[subnet].vpc]

    def holds(self, route: Route, number: int) -> bool:
        """Whether a route's destination holds an address."""
        blocks = [route.block] if route.block else self.lists.get(route.list or "", [])
        return any(it.holds(number) for it in blocks)

    def decide(self, acl: Acl, outward: bool, h: Header) -> Optional[AclRow]:
        """The row that decides; None where none matches."""
        far = h.dst if outward else h.src
        found = [
            it for it in acl.rows if it.outward == outward and it.proto in (None, h.proto)
            and it.first <= h.q <= it.last and it.block.holds(far)
        ]
        return min(found, key=lambda it: it.number) if found else None

    def side(self, interface: Interface, outward: bool, group: str) -> Side:
        """Where a group's rules count: in the VPC of the interface, if the group belongs to it."""
        here, vpcs = self.subnets[interface.subnet].vpc, self.groups[group].vpcs
        return Side(here if here in vpcs else vpcs[0], outward)

    def counts(self, side: Side, reference: str) -> bool:
        """Whether a rule that counts there may name a group."""
        found = self.groups.get(reference)
        return found is not None and any(self.is_joined(side, it) for it in found.vpcs)

    def is_joined(self, side: Side, vpc: str) -> bool:
        """Whether rules that count there may name groups of a VPC."""
        pairs = [it.pair for it in self.peerings.values() if it.pair]
        if vpc == side.vpc or any(set(it) == {vpc, side.vpc} for it in pairs):
            return True
        return not side.outward and any(not it for _, it in self.over_transit(side.vpc, vpc))

    def over_transit(self, one: str, other: str) -> Iterator[tuple[str, dict[str, Any]]]:
        """The transit gateways to which two VPCs are attached, each with what keeps rules from
        naming groups over it: it or an attachment, with what is told of the option."""
        found = self.attachments.values()
        theirs = [it for it in found if it.vpc == other]
        for here, there in itertools.product((it for it in found if it.vpc == one), theirs):
            if here.gateway == there.gateway:
                told = {here.gateway: self.naming.get(here.gateway)}
                told.update({here.id: here.naming, there.id: there.naming})
                yield here.gateway, {it: word for it, word in told.items() if word != "enable"}

    def allows_flow(self, rule: Rule, h: Header) -> bool:
        return rule.proto in (None, h.proto) and rule.first <= h.q <= rule.last

    def list_holds(self, name: str, number: int) -> bool:
        return any(it.holds(number) for it in self.lists.get(name, []))

    def group_holds(self, side: Side, reference: str, far: int) -> bool:
        """Whether a group that a rule names has an address, and may be named there."""
        return bool(self.member_of(reference, far)) and self.counts(side, reference)

    def member_of(self, group: str, number: int) -> Optional[Interface]:
        """The interface of a group that has an address."""
        found = self.members.get(group)
        return found.of(number) if found else None

    def allows_far(self, side: Side, rule: Rule, far: int) -> bool:
        return (
            any(it.holds(far) for it in rule.blocks)
            or any(self.list_holds(it, far) for it in rule.lists)
            or any(self.group_holds(side, it, far) for it in rule.groups)
        )

    def rules_of(self, interface: Interface, outward: bool) -> Iterator[tuple[str, Side, Rule]]:
        """The rules of an interface's groups, each with its group, and where it counts."""
        for name in interface.groups:
            group, side = self.groups[name], self.side(interface, outward, name)
            yield from ((name, side, it) for it in (group.outward if outward else group.inward))

    def is_allowed(self, interface: Interface, outward: bool, h: Header) -> bool:
        """Whether some rule of an interface's groups allows a header."""
        far = h.dst if outward else h.src
        return any(
            self.allows_flow(it, h) and self.allows_far(side, it, far)
            for _, side, it in self.rules_of(interface, outward)
        )

    # -- what lines name

    def rule_named(self, group: str, outward: bool, name: str) -> Optional[Rule]:
        found = self.groups.get(group)
        rules = (found.outward if outward else found.inward) if found else []
        return next((it for it in rules if it.name == name), None)

    def row_numbered(self, acl: str, outward: bool, number: str) -> Optional[AclRow]:
        found = self.acls[acl].rows if acl in self.acls else []
        fitting = (it for it in found if (it.outward, str(it.number)) == (outward, number))
        return next(fitting, None)

    def route_named(self, table: str, reach: str, target: Optional[str]) -> Optional[Route]:
        """The first row of a table with this destination and this target."""
        found = self.tables[table].routes if table in self.tables else []
        return next((it for it in found if (it.reach(), it.target) == (reach, target)), None)

    def gone_route(self, table: str, reach: str) -> Optional[Route]:
        """The first row of a table with this destination whose target is gone."""
        found = self.tables[table].routes if table in self.tables else []
        return next((it for it in found if it.reach() == reach and it.blackhole), None)

    # -- ends

    def far_end(self, name: str) -> Optional[Far]:
        """The network outside that is an end by this id."""
        return None if name in self.interfaces else self.outside.end(name)

    def is_end(self, name: str) -> bool:
        is_host = name in self.interfaces and not self.interfaces[name].is_gateway
        return name == "internet" or is_host or bool(self.far_end(name))

    # -- what leads where

    def firewall_subnet(self, vpc: str, name: str) -> Optional[str]:
        """The subnet of the endpoint of a firewall, where it is one of the VPC and what stands
        behind it is told."""
        found = self.firewalls.get(name)
        is_told = found and found.vpc == vpc and name in self.inspecting
        return found.subnet if found and is_told else None

    def host_of(self, vpc: str, number: int) -> Optional[Interface]:
        """The interface of a VPC that has an address."""
        found = self.hosts.get(vpc)
        return found.of(number) if found else None

    def zone_subnet(self, attachment: Attachment, subnet: str) -> Optional[str]:
        zone = self.subnets[subnet].zone
        return next((it for it in attachment.subnets if self.subnets[it].zone == zone), None)

    def other_side(self, peering: Peering, vpc: str) -> str:
        assert peering.pair
        return peering.pair[1] if peering.pair[0] == vpc else peering.pair[0]

    def entered_by(self, route: Route, subnet: str, number: int) -> Optional[str]:
        """The subnet that packets to an address enter which a subnet sends by a route; None where
        it is none of this VPC, or isn't there."""
        vpc = self.subnets[subnet].vpc
        if route.kind == "local":
            host = self.host_of(vpc, number)
            return host.subnet if host else None
        if route.kind == "nat" and route.target in self.nats:
            return self.nats[route.target].subnet
        if route.kind == "interface" and route.target in self.interfaces:
            return self.interfaces[route.target].subnet
        if route.kind == "transit":
            wanted = (route.target, vpc)
            found = (it for it in self.attachments.values() if (it.gateway, it.vpc) == wanted)
            attachment = next(found, None)
            return self.zone_subnet(attachment, subnet) if attachment else None
        if route.kind == "other" and route.target not in self.fars:
            return self.firewall_subnet(vpc, route.target)
        return None

    def entered_from_outside(
        self, route: Optional[Route], vpc: str, number: int
    ) -> Optional[str]:
        """The subnet that packets to an address enter that come into a VPC, by a route of its
        gateway's table, if that has one."""
        if route is None or route.kind == "local":
            host = self.host_of(vpc, number)
            return host.subnet if host else None
        if route.kind == "interface" and route.target in self.interfaces:
            return self.interfaces[route.target].subnet
        return self.firewall_subnet(vpc, route.target) if route.kind == "other" else None


def read_network(path: str) -> Network:
    objects = read_objects(path)
    try:
        return Network(objects)
    except ODD:
        raise Refused(f"{path} is no bundle that vpc accepts") from None
