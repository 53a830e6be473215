"""The emulator once more: what becomes of a packet in the network of a bundle, by docs/WALK.md and by no index.

Written from the pages and from no line of the program, to be asked beside it. It is plain and slow: every list is gone through, one
function a place of the walk, one walk a header. It reads bundles that are accepted; what is wrong with others it doesn't tell.

`Network(bundle)` reads. `verdict(network, start, goal, header)` is that of `ask` about one header, `journey` that of `reach`, where the
goal may be left out, `change` the words of `diff` about two such, `without` the network without one rule, for `unused`. `cuts(network)`
are the numbers at which something may change, `pieces` the lowest numbers that they leave of a range: so all headers of a box may be
asked by the low corners of its cells. An end is the id of an interface or of what leads to a network that isn't described, or INTERNET.
"""

import copy
import itertools
import socket
import struct
from typing import NamedTuple, Optional

ICMP, TCP, UDP = 1, 6, 17
NAMES = {ICMP: "icmp", TCP: "tcp", UDP: "udp"}
NUMBERS = {name: number for number, name in NAMES.items()}
ECHO_REQUEST, ECHO_REPLY = 2048, 0
LAST = (255, 2**32 - 1, 2**32 - 1, 65535, 65535)
MOST_PLACES, MOST_TRANSLATIONS = 64, 55000
INTERNET = None
ANY = object()  # any goal


def address(text):
    return struct.unpack(">I", socket.inet_aton(text))[0]


def dotted(number):
    return socket.inet_ntoa(struct.pack(">I", number))


class Header(NamedTuple):
    proto: int
    src: int
    dst: int
    p: int
    q: int

    def reply(self):
        """What answers it; None for an ICMP message that is no echo request."""
        if self.proto != ICMP:
            return Header(self.proto, self.dst, self.src, self.q, self.p)
        return Header(ICMP, self.dst, self.src, self.p, ECHO_REPLY) if self.q == ECHO_REQUEST else None

    def __str__(self):
        return f"{NAMES.get(self.proto, self.proto)} {dotted(self.src)} {dotted(self.dst)} {self.p} {self.q}"


class Block(NamedTuple):
    first: int
    length: int

    @property
    def last(self):
        return self.first + 2 ** (32 - self.length) - 1

    def holds(self, number):
        return self.first <= number <= self.last

    def __str__(self):
        return f"{dotted(self.first)}/{self.length}"


def block(text):
    told, length = text.split("/")
    size = 2 ** (32 - int(length))
    return Block(address(told) // size * size, int(length))


NON_ROUTABLE = [block(it) for it in ("0.0.0.0/8", "10.0.0.0/8", "127.0.0.0/8", "169.254.0.0/16", "172.16.0.0/12", "192.168.0.0/16", "224.0.0.0/3")]


# ---- the rows of a bundle

class Interface(NamedTuple):
    id: str
    subnet: str
    primary: Optional[int]
    addresses: list  # of pairs: private, and public or None
    groups: list
    checked: bool
    idle: bool
    gateway: bool
    blocks: list  # delegated ones

    def has(self, number):
        """Whether it is one of its private addresses, or lies in one of its blocks."""
        return number in [private for private, _ in self.addresses] or any(it.holds(number) for it in self.blocks)


class Route(NamedTuple):
    block: Optional[Block]
    list: Optional[str]  # where there is no block
    kind: str
    target: str
    blackhole: bool
    propagated: bool


class Rule(NamedTuple):
    """What a row of a network ACL and a permission of a group have in common."""
    proto: Optional[int]
    ports: tuple  # first and last q
    blocks: list
    lists: list = []
    groups: list = []
    id: Optional[str] = None  # of a permission that was told apart from its group
    number: int = 0  # the rest is of ACLs
    allow: bool = True

    def may_be(self, header):
        return self.proto in (None, header.proto) and self.ports[0] <= header.q <= self.ports[1]


class Live(NamedTuple):
    """An available NAT gateway with a subnet."""
    subnet: str
    interface: str
    address: int


class Far(NamedTuple):
    """What leads to a network that isn't described, a far end."""
    id: str
    kind: str  # gateway, attachment, peering or endpoint
    vpc: Optional[str] = None  # to which the gateway is attached, of which the attachment is, in which the endpoint lies
    blocks: tuple = ()  # of the two sides of a peering


class Attachment(NamedTuple):
    gateway: str
    vpc: str
    subnets: list
    references: bool  # whether groups may be named over it


class TransitRoute(NamedTuple):
    block: Block
    blackhole: bool
    propagated: bool
    attachment: Optional[str]


def member(row, *fields):
    for field in fields:
        row = row.get(field) if isinstance(row, dict) else None
    return row


def items(row, field):
    return member(row, field) or []


def once(rows, field):
    """The rows, without those whose id an earlier one has."""
    kept = {}
    for row in rows:
        kept.setdefault(row[field], row)
    return kept.values()


def read_interface(row, is_stopped):
    told = [(address(it["PrivateIpAddress"]), member(it, "Association", "PublicIp")) for it in items(row, "PrivateIpAddresses")]
    pairs = [(private, address(public) if public else None) for private, public in told]
    primary = address(row["PrivateIpAddress"]) if member(row, "PrivateIpAddress") else None
    if primary is not None and primary not in [private for private, _ in pairs]:
        pairs.insert(0, (primary, None))
    checked, kind = member(row, "SourceDestCheck"), (member(row, "InterfaceType") or "").lower().replace("_", "").replace("-", "")
    return Interface(row["NetworkInterfaceId"], row["SubnetId"], primary, pairs, [it["GroupId"] for it in items(row, "Groups")], checked is not False, member(row, "Status") == "available" or is_stopped,
                     kind in ("natgateway", "transitgateway"), [block(it["Ipv4Prefix"]) for it in items(row, "Ipv4Prefixes")])


TARGETS = {"GatewayId": "other", "NatGatewayId": "nat", "TransitGatewayId": "transit", "VpcPeeringConnectionId": "peering", "NetworkInterfaceId": "interface", "InstanceId": "other",
           "LocalGatewayId": "other", "CarrierGatewayId": "other", "EgressOnlyInternetGatewayId": "other", "CoreNetworkArn": "other"}


def read_route(row):
    """None of a route of IPv6."""
    to_block, to_list = member(row, "DestinationCidrBlock"), member(row, "DestinationPrefixListId")
    if to_block is None and to_list is None:
        return None
    field = next((it for it in TARGETS if member(row, it) is not None), None)
    kind, target = (TARGETS[field], row[field]) if field else ("other", "none")
    if field == "GatewayId" and target == "local":
        kind = "local"
    elif field == "GatewayId" and target.startswith("igw-"):
        kind = "internet"
    return Route(block(to_block) if to_block is not None else None, to_list if to_block is None else None, kind, target, member(row, "State") == "blackhole",
                 member(row, "Origin") == "EnableVgwRoutePropagation")


def read_ports(proto, first, last):
    """The range on q; of ICMP first is the type and last the code."""
    first, last = (None if it in (None, -1) else it for it in (first, last))
    if proto in (TCP, UDP):
        return (0 if first is None else first, LAST[4] if last is None else last)
    if proto != ICMP or first is None:
        return (0, LAST[4])
    return (256 * first, 256 * first + 255) if last is None else (256 * first + last,) * 2


def read_acl_row(row):
    proto = None if row["Protocol"] == "-1" else int(row["Protocol"])
    told = ("IcmpTypeCode", "Type", "Code") if proto == ICMP else ("PortRange", "From", "To")
    ports = read_ports(proto, member(row, told[0], told[1]), member(row, told[0], told[2]))
    return Rule(proto, ports, [block(row["CidrBlock"])], number=row["RuleNumber"], allow=row["RuleAction"] == "allow")


def read_protocol(text):
    return {"-1": None, "icmpv6": 58, **NUMBERS}[text] if not text.isdigit() else int(text)


def read_permission(row):
    proto = read_protocol(row["IpProtocol"])
    return Rule(proto, read_ports(proto, member(row, "FromPort"), member(row, "ToPort")), [block(it["CidrIp"]) for it in items(row, "IpRanges")],
                [it["PrefixListId"] for it in items(row, "PrefixListIds")], [it["GroupId"] for it in items(row, "UserIdGroupPairs") if member(it, "GroupId")])


def read_told_rule(row):
    """A permission of one target: the block, else the list, else the group."""
    proto = read_protocol(row["IpProtocol"])
    to_block, to_list = member(row, "CidrIpv4"), member(row, "PrefixListId")
    blocks, lists = [block(to_block)] if to_block else [], [to_list] if to_list and not to_block else []
    groups = [] if blocks or lists else [row["ReferencedGroupInfo"]["GroupId"]]
    return Rule(proto, read_ports(proto, member(row, "FromPort"), member(row, "ToPort")), blocks, lists, groups, row["SecurityGroupRuleId"])


def read_nat(row):
    """None of one that isn't available, False of one without a subnet."""
    if row["State"] != "available":
        return None
    if member(row, "SubnetId") is None:
        return False
    told = items(row, "NatGatewayAddresses")
    chosen = next((it for it in told if member(it, "IsPrimary") is True), told[0])
    return Live(row["SubnetId"], chosen["NetworkInterfaceId"], address(chosen["PrivateIp"]))


def read_appliance(row):
    """What it forwards, as boxes of the five numbers."""
    every = [(0, last) for last in LAST]
    if row["Kind"] == "service":
        ports = tuple(int(it) for it in row["Ports"].split("-"))
        return [[(proto, proto), *every[1:side], ports, *every[side + 1:]] for proto in (TCP, UDP) for side in (4, 3)]
    if row["Kind"] == "peer":
        told = block(row["Prefix"])
        return [[*every[:side], (told.first, told.last), *every[side + 1:]] for side in (1, 2)]
    return [every] if row["Kind"] == "all" else []


def read_vpn_gateway(row):
    vpcs = [it["VpcId"] for it in items(row, "VpcAttachments") if member(it, "State") == "attached"]
    return Far(row["VpnGatewayId"], "gateway", vpcs[0] if vpcs else None)


def read_far_attachment(row):
    """None of one that carries nothing, or of which it isn't told what it is of."""
    kind, resource = member(row, "ResourceType"), member(row, "ResourceId")
    told = kind is not None and member(row, "TransitGatewayId") is not None and (kind != "vpc" or resource is not None)
    return Far(row["TransitGatewayAttachmentId"], "attachment", resource if kind == "vpc" else None) if told and member(row, "State") in ("available", "modifying") else None


def read_far_peering(row):
    """None of one that isn't active, or that doesn't tell the blocks of both sides."""
    sides = []
    for side in ("RequesterVpcInfo", "AccepterVpcInfo") if row["Status"]["Code"] == "active" else ():
        told = [member(row, side, "CidrBlock"), *(it["CidrBlock"] for it in items(row[side], "CidrBlockSet"))]
        sides.append([block(it) for it in told if it is not None])
    return Far(row["VpcPeeringConnectionId"], "peering", blocks=tuple(sides)) if sides and all(sides) else None


class Network:
    """The rows of a bundle, by their ids in the order of the bundle."""

    def __init__(self, bundle):
        self.parts = bundle if isinstance(bundle, list) else [bundle]
        self.vpcs = {row["VpcId"]: self.read_blocks(row) for row in self.rows("Vpcs")}
        self.subnets = {row["SubnetId"]: (row["VpcId"], row["AvailabilityZone"]) for row in self.rows("Subnets")}
        self.access = {row[field]: member(row, "BlockPublicAccessStates", "InternetGatewayBlockMode") for name, field in (("Vpcs", "VpcId"), ("Subnets", "SubnetId")) for row in self.rows(name)}
        instances = [it for row in self.rows("Reservations") for it in items(row, "Instances") if member(it, "State", "Name") not in (None, "pending", "running")]
        stopped = {it["NetworkInterfaceId"] for row in instances for it in items(row, "NetworkInterfaces")}
        self.interfaces = {row["NetworkInterfaceId"]: read_interface(row, row["NetworkInterfaceId"] in stopped) for row in self.rows("NetworkInterfaces")}
        self.read_tables()
        self.lists = self.read_lists()
        self.read_acls()
        self.read_groups()
        self.internet_gateways = {it["VpcId"]: row["InternetGatewayId"] for row in self.rows("InternetGateways") for it in items(row, "Attachments") if it["State"] in ("available", "attached")}
        self.nats = {row["NatGatewayId"]: read_nat(row) for row in self.rows("NatGateways")}
        self.peerings = {row["VpcPeeringConnectionId"]: self.read_pair(row) for row in once(self.rows("VpcPeeringConnections"), "VpcPeeringConnectionId")}
        self.read_transit()
        self.appliances = {row["NetworkInterfaceId"]: read_appliance(row) for row in self.rows("Appliances") if member(row, "NetworkInterfaceId") is not None}
        self.inspected = {row["VpcEndpointId"]: read_appliance(row) for row in self.rows("Appliances") if member(row, "NetworkInterfaceId") is None}
        self.read_outside()

    def rows(self, name):
        return [row for part in self.parts for row in items(part, name)]

    @staticmethod
    def read_blocks(row):
        told = [block(it["CidrBlock"]) for it in items(row, "CidrBlockAssociationSet") if member(it, "CidrBlockState", "State") in (None, "associated")]
        return list(dict.fromkeys([block(row["CidrBlock"]), *told]))

    @staticmethod
    def read_pair(row):
        """The two VPCs of an active peering, None of another."""
        return (row["RequesterVpcInfo"]["VpcId"], row["AccepterVpcInfo"]["VpcId"]) if row["Status"]["Code"] == "active" else None

    def read_tables(self):
        self.tables, self.main, self.table_of, self.edge_tables = {}, {}, {}, {}
        for row in self.rows("RouteTables"):
            name = row["RouteTableId"]
            self.tables[name] = [it for it in map(read_route, items(row, "Routes")) if it]
            for it in items(row, "Associations"):
                if member(it, "Main"):
                    self.main[row["VpcId"]] = name
                if member(it, "SubnetId"):
                    self.table_of[it["SubnetId"]] = name
                if member(it, "GatewayId"):
                    self.edge_tables.setdefault(it["GatewayId"], name)

    def read_lists(self):
        rows = [{"id": row["PrefixListId"], "entries": row["Cidrs"]} for row in self.rows("PrefixLists") if member(row, "Cidrs") is not None]
        rows += [{"id": row["PrefixListId"], "entries": [it["Cidr"] for it in items(row, "Entries")]} for row in self.rows("PrefixListEntries")]
        return {row["id"]: [block(it) for it in row["entries"] if ":" not in it] for row in once(rows, "id")}

    def read_acls(self):
        self.acls, self.acl_of = {}, {}
        for row in self.rows("NetworkAcls"):
            told = [it for it in items(row, "Entries") if member(it, "CidrBlock")]
            self.acls[row["NetworkAclId"]] = {way: [read_acl_row(it) for it in told if it["Egress"] == (way == "out")] for way in ("in", "out")}
            self.acl_of.update({it["SubnetId"]: row["NetworkAclId"] for it in items(row, "Associations")})

    def read_groups(self):
        self.groups, self.vpc_of_group = {}, {}
        for row in self.rows("SecurityGroups"):
            self.vpc_of_group[row["GroupId"]] = row["VpcId"]
            self.groups[row["GroupId"]] = {way: [read_permission(it) for it in items(row, name)] for way, name in (("in", "IpPermissions"), ("out", "IpPermissionsEgress"))}
        self.homes = {name: {vpc} for name, vpc in self.vpc_of_group.items()}
        for row in self.rows("SecurityGroupVpcAssociations"):
            if row["GroupId"] in self.homes and member(row, "State") == "associated":
                self.homes[row["GroupId"]].add(row["VpcId"])
        kept = [row for row in self.rows("SecurityGroupRules") if row["GroupId"] in self.groups and any(member(row, *it) for it in (("CidrIpv4",), ("PrefixListId",), ("ReferencedGroupInfo", "GroupId")))]
        kept = once(kept, "SecurityGroupRuleId")
        for name in {row["GroupId"] for row in kept}:
            self.groups[name] = {way: [read_told_rule(row) for row in kept if row["GroupId"] == name and row["IsEgress"] == (way == "out")] for way in ("in", "out")}

    def read_transit(self):
        rows = [row for row in self.rows("TransitGatewayVpcAttachments") if row["State"] in ("available", "modifying")]
        self.attachments = {row["TransitGatewayAttachmentId"]: Attachment(row["TransitGatewayId"], row["VpcId"], items(row, "SubnetIds"), self.has_references(row)) for row in once(rows, "TransitGatewayAttachmentId")}
        self.referencing = {row["TransitGatewayId"] for row in once(self.rows("TransitGateways"), "TransitGatewayId") if self.has_references(row)}
        rows = [row for row in self.rows("TransitGatewayAttachments") if member(row, "Association", "TransitGatewayRouteTableId")]
        self.associations = {row["TransitGatewayAttachmentId"]: row["Association"]["TransitGatewayRouteTableId"] for row in once(rows, "TransitGatewayAttachmentId")}
        self.transit_tables = {
            row["TransitGatewayRouteTableId"]: [self.read_transit_route(it) for it in items(row, "Routes") if ":" not in it["DestinationCidrBlock"]] for row in self.rows("TransitGatewayRoutes")}

    @staticmethod
    def has_references(row):
        """Whether the option is told to be on."""
        return member(row, "Options", "SecurityGroupReferencingSupport") == "enable"

    @staticmethod
    def read_transit_route(row):
        told = items(row, "TransitGatewayAttachments")
        return TransitRoute(block(row["DestinationCidrBlock"]), row["State"] == "blackhole", row["Type"] == "propagated", member(told[0], "TransitGatewayAttachmentId") if told else None)

    def read_outside(self):
        """Far ends, and the endpoints behind which firewalls stand: each with its VPC and its subnet."""
        endpoints = [row for row in self.rows("VpcEndpoints") if (member(row, "State") or "").lower() == "available"]
        endpoints = list(once(endpoints, "VpcEndpointId"))
        told = [read_vpn_gateway(row) for row in self.rows("VpnGateways")]
        told += [read_far_attachment(row) for row in self.rows("TransitGatewayAttachments")]
        told += [read_far_peering(row) for row in self.rows("VpcPeeringConnections")]
        told += [Far(row["VpcEndpointId"], "endpoint", row["VpcId"]) for row in endpoints if member(row, "VpcEndpointType") == "Gateway"]
        self.fars = {}
        for it in filter(None, told):
            self.fars.setdefault(it.id, it)
        firewalls = [row for row in endpoints if member(row, "VpcEndpointType") == "GatewayLoadBalancer" and items(row, "SubnetIds")]
        self.firewalls = {row["VpcEndpointId"]: (row["VpcId"], row["SubnetIds"][0]) for row in firewalls}

    # -- what the walk looks up

    def vpc_of(self, subnet):
        return self.subnets[subnet][0]

    def host(self, vpc, number):
        """The interface of the VPC that has the private address, else the one in whose block it lies."""
        here = [it for it in self.interfaces.values() if self.vpc_of(it.subnet) == vpc]
        having = [it.id for it in here if number in [private for private, _ in it.addresses]] + [it.id for it in here if it.has(number)]
        return having[0] if having else None

    def public_of(self, vpc, private):
        return next((theirs for it in self.interfaces.values() if self.vpc_of(it.subnet) == vpc for own, theirs in it.addresses if own == private and theirs is not None), None)

    def behind(self, public):
        """The VPC and the private address of a public address."""
        return next(((self.vpc_of(it.subnet), own) for it in self.interfaces.values() for own, theirs in it.addresses if theirs == public), None)

    def public_access(self, interface):
        """How Block Public Access stops packets of an interface at the internet gateway: the subnet and its mode, or that of its VPC; None where it doesn't."""
        subnet = self.interfaces[interface].subnet
        mode = self.access[subnet] or self.access[self.vpc_of(subnet)] or "off"
        by_gateway = any(life and life.interface == interface for life in self.nats.values())
        return (subnet, mode) if mode == "block-bidirectional" or (mode == "block-ingress" and not by_gateway) else None

    def vpc_beside(self, far):
        """The described VPC that what leads there is attached to, lies in, or peers with; None where there is none."""
        vpcs = self.peerings.get(far.id) or () if far.kind == "peering" else () if far.kind == "attachment" else (far.vpc,)
        return next((it for it in vpcs if it in self.vpcs), None)

    def is_far_end(self, far):
        """Whether packets start and arrive there. Where a described VPC is at the other side they don't: there lacks a row of a list."""
        if far.kind == "peering":
            return len([it for it in self.peerings.get(far.id) or () if it in self.vpcs]) == 1
        return {"gateway": True, "attachment": far.vpc not in self.vpcs, "endpoint": far.vpc in self.vpcs}[far.kind]

    def far_end(self, name):
        """The far end of that id, or None."""
        return self.fars[name] if name in self.fars and self.is_far_end(self.fars[name]) else None

    def firewall(self, vpc, name):
        """Whether it is an endpoint of the VPC of which it is told what stands behind it."""
        return name in self.firewalls and self.firewalls[name][0] == vpc and name in self.inspected

    def is_end(self, name):
        """Whether it names an end: an interface that no gateway has, or, where no interface has the name, a far end."""
        if name is INTERNET:
            return True
        return not self.interfaces[name].gateway if name in self.interfaces else self.far_end(name) is not None

    def end(self, name):
        """The end that it names: a far end by its row. An end itself stays what it is."""
        return name if name is INTERNET or isinstance(name, Far) or name in self.interfaces else self.fars[name]


# ---- choices

def chosen_route(network, table, destination):
    """The place of the route in its table, or None."""
    matching = []
    for place, route in enumerate(network.tables[table]):
        lengths = [it.length for it in ([route.block] if route.block else network.lists[route.list]) if it.holds(destination)]
        if lengths:
            matching.append((-max(lengths), 2 if route.propagated else 0 if route.block else 1, place))
    routes = network.tables[table]
    if any(routes[place].kind == "local" for _, _, place in matching):
        matching = [it for it in matching if not routes[it[2]].propagated or routes[it[2]].kind == "local"]
    return min(matching)[2] if matching else None


def chosen_transit_route(network, table, destination):
    matching = [(-route.block.length, route.propagated, place) for place, route in enumerate(network.transit_tables[table]) if route.block.holds(destination)]
    return min(matching)[2] if matching else None


def acl_verdict(network, acl, way, header):
    """Whether the ACL lets the header pass, and the number of the row that decides."""
    far = header.src if way == "in" else header.dst
    matching = [(row.number, place) for place, row in enumerate(network.acls[acl][way]) if row.may_be(header) and row.blocks[0].holds(far)]
    return (network.acls[acl][way][min(matching)[1]].allow, min(matching)[0]) if matching else (False, 32767)


def counts(network, interface, group, named, way):
    """Whether a group that a rule of another names, at an interface, is described and has a home in the rule's VPC or in one that is joined to it. A rule's VPC is that of the interface
    where its group has a home there."""
    here = network.vpc_of(network.interfaces[interface].subnet)
    own = here if here in network.homes[group] else network.vpc_of_group[group]
    return any(own == home or are_joined(network, own, home, way) for home in network.homes.get(named, ()))


def are_joined(network, one, other, way):
    """By an active peering; or, for inward rules, by a transit gateway over which groups may be named, as at both attachments."""
    if any(pair in ((one, other), (other, one)) for pair in network.peerings.values()):
        return True
    near, far = ({it.gateway for it in network.attachments.values() if it.vpc == vpc and it.references} for vpc in (one, other))
    return way == "in" and bool(near & far & network.referencing)


def first_rule(network, interface, way, header):
    """The first permission of the interface's groups that lets the header pass: group, direction, and its id or number."""
    far = header.src if way == "in" else header.dst
    for group in network.interfaces[interface].groups:
        for number, rule in enumerate(network.groups[group][way], 1):
            if not rule.may_be(header):
                continue
            blocks = rule.blocks + [it for name in rule.lists for it in network.lists[name]]
            members = [one for name in rule.groups if counts(network, interface, group, name, way) for one in network.interfaces.values() if name in one.groups]
            if any(it.holds(far) for it in blocks) or any(it.has(far) for it in members):
                return f"{group} {way} {rule.id or number}"
    return None


# ---- the walk

class Stop(Exception):
    """Printed as name, component and rule. Two stops are one where also what is beneath is one: the place of a route, a place of the walk."""

    def __init__(self, name, component, rule="-", beneath=None):
        super().__init__(name)
        self.value = (name, component, str(rule), beneath)

    def __str__(self):
        return " ".join(self.value[:3])


class Arrival(Exception):
    def __init__(self, end):
        super().__init__(end)
        self.end = end


def need(holds, name, component, rule="-", beneath=None):
    if not holds:
        raise Stop(name, component, rule, beneath)


def is_in_some(header, boxes):
    return any(all(low <= it <= high for it, (low, high) in zip(header, box)) for box in boxes)


class Walk:
    """A packet on its way, with what the network remembers."""

    def __init__(self, network, label, connections, translations):
        self.network, self.label, self.connections, self.translations = network, label, connections, translations
        self.hops, self.by, self.chosen = [], None, []
        self.reasons = []  # of each hop the lines of `why` about its place

    def follow(self, place, header):
        """The end where the packet arrives, with its header there, or the stop."""
        seen = set()
        while True:
            seen.add(place)
            self.by = None
            self.reasons.append([])
            try:
                following = getattr(self, place[0])(header, *place[1:])
            except Arrival as it:
                return it.end, header
            except Stop as it:
                return it, header
            finally:
                self.hops.append((place, header, self.by))
            if following[0] in seen:
                return Stop("Loop", self.component(following[0]), beneath=following[0]), header
            if len(seen) == MOST_PLACES:
                return Stop("TooFar", self.component(following[0]), beneath=following[0]), header
            place, header = following

    def component(self, place):
        """The id that a hop at the place prints."""
        return "internet" if place[0] == "internet" else self.network.internet_gateways[place[1]] if place[0] in ("igw_out", "igw_in") else place[1]

    # -- what several places do

    def judge(self, subnet, way, header):
        acl = self.network.acl_of[subnet]
        passes, number = acl_verdict(self.network, acl, way, header)
        self.chosen.append((acl, number))
        self.reasons[-1].append(f"acl {acl} {way} {number} {'allow' if passes else 'deny'}")
        need(passes, "AclIn" if way == "in" else "AclOut", acl, number)

    def cross(self, subnet, other, header):
        if subnet != other:
            self.judge(subnet, "out", header)
            self.judge(other, "in", header)

    def pass_groups(self, interface, way, header):
        if not self.network.interfaces[interface].groups:
            self.by = "none"
            return
        if self.label == "answer" and any(it[0] == interface and it[1] != way and it[2].reply() == header for it in self.connections):
            self.by = "tracked"
            return
        self.by = first_rule(self.network, interface, way, header)
        need(self.by, "GroupsIn" if way == "in" else "GroupsOut", interface)
        self.reasons[-1].append(f"group {self.by}")
        if self.label == "open" and (interface, way, header) not in self.connections:
            self.connections.append((interface, way, header))

    def delivered(self, interface):
        """The place to which an interface leads."""
        for name, life in self.network.nats.items():
            if life and life.interface == interface:
                return ("nat_in", name)
        need(not self.network.interfaces[interface].gateway, "NotAHost", interface)
        return ("into", interface)

    # -- the places

    def out_of(self, header, interface):
        row = self.network.interfaces[interface]
        need(not row.idle, "Detached", interface)
        need(not row.checked or row.has(header.src), "SourceCheck", interface)
        self.pass_groups(interface, "out", header)
        return ("router", row.subnet, ("host", interface)), header

    def choose(self, table, header):
        """The route that a table chooses, whose target is there, and its place."""
        place = chosen_route(self.network, table, header.dst)
        self.chosen.append((table, place))
        need(place is not None, "NoRoute", table)
        route = self.network.tables[table][place]
        self.reasons[-1].append(f"route {table} {route.block or route.list} {route.target}")
        need(not route.blackhole, "Blackhole", table, route.block or route.list, place)
        return route, place

    def router(self, header, subnet, _came):
        table = self.network.table_of.get(subnet) or self.network.main[self.network.vpc_of(subnet)]
        route, place = self.choose(table, header)
        return getattr(self, f"to_{route.kind}")(header, subnet, route.target, (table, place)), header

    def to_local(self, header, subnet, _target, _route):
        vpc = self.network.vpc_of(subnet)
        interface = self.network.host(vpc, header.dst)
        need(interface is not None, "NoHost", vpc)
        self.cross(subnet, self.network.interfaces[interface].subnet, header)
        return self.delivered(interface)

    def to_internet(self, header, subnet, target, _route):
        vpc = self.network.vpc_of(subnet)
        need(self.network.internet_gateways.get(vpc) == target, "GatewayDetached", target)
        self.judge(subnet, "out", header)
        return ("igw_out", vpc)

    def to_nat(self, header, subnet, target, _route):
        life = self.network.nats[target]
        need(life is not None, "NatNotAvailable", target)
        need(life, "Unmodelled", target, beneath=("nat", target))
        self.cross(subnet, life.subnet, header)
        return ("nat_out", target)

    def to_peering(self, header, subnet, target, _route):
        need(self.network.peerings[target], "PeerNotActive", target)
        is_described = self.other_side(target, self.network.vpc_of(subnet)) in self.network.vpcs
        need(is_described or self.network.far_end(target), "Unmodelled", target, beneath=("peering", target))
        self.judge(subnet, "out", header)
        return ("peer", target, self.network.vpc_of(subnet)) if is_described else ("far_out", target)

    def other_side(self, peering, vpc):
        one, other = self.network.peerings[peering]
        return other if vpc == one else one

    def to_transit(self, header, subnet, target, route):
        vpc, zone = self.network.subnets[subnet]
        name = next((name for name, it in self.network.attachments.items() if it.gateway == target and it.vpc == vpc), None)
        need(name is not None, "TgwNoAttachment", target, beneath=route)
        near = next((it for it in self.network.attachments[name].subnets if self.network.subnets[it][1] == zone), None)
        need(near is not None, "TgwNoZone", name)
        self.judge(subnet, "out", header)
        self.judge(near, "in", header)
        return ("tgw", name, near)

    def to_interface(self, header, subnet, target, _route):
        self.cross(subnet, self.network.interfaces[target].subnet, header)
        need(not self.network.interfaces[target].gateway, "NotAHost", target)
        return ("into", target)

    def to_other(self, header, subnet, target, route):
        vpc, far = self.network.vpc_of(subnet), self.network.fars.get(target)
        if not far and self.network.firewall(vpc, target):
            self.cross(subnet, self.network.firewalls[target][1], header)
            return ("inspect", target)
        need(far and far.kind in ("gateway", "endpoint"), "Unmodelled", target, beneath=("target", route))
        is_beside = self.network.vpc_beside(far) == vpc
        need(is_beside or far.kind != "gateway", "FarDetached", target)
        need(is_beside, "Unmodelled", target, beneath=("target", route))
        self.judge(subnet, "out", header)
        return ("far_out", target)

    def enter(self, header, vpc, by):
        table = self.network.edge_tables.get(self.entrance(vpc, by))
        if table is None:
            return self.enter_local(header, vpc), header
        route, place = self.choose(table, header)
        if route.kind == "local":
            return self.enter_local(header, vpc), header
        if route.kind == "interface":
            self.judge(self.network.interfaces[route.target].subnet, "in", header)
            need(not self.network.interfaces[route.target].gateway, "NotAHost", route.target)
            return ("into", route.target), header
        need(route.kind == "other" and self.network.firewall(vpc, route.target), "Unmodelled", route.target, beneath=("target", (table, place)))
        self.judge(self.network.firewalls[route.target][1], "in", header)
        return ("inspect", route.target), header

    def entrance(self, vpc, by):
        """The gateway by which a packet enters, where it may have a table."""
        if by == "gateway":
            return self.network.internet_gateways.get(vpc)
        return by[1] if by[0] == "far" and self.network.fars[by[1]].kind == "gateway" else None

    def enter_local(self, header, vpc):
        interface = self.network.host(vpc, header.dst)
        need(interface is not None, "NoHost", vpc)
        self.judge(self.network.interfaces[interface].subnet, "in", header)
        return self.delivered(interface)

    def inspect(self, header, endpoint):
        need(is_in_some(header, self.network.inspected[endpoint]), "InspectDrop", endpoint)
        return ("router", self.network.firewalls[endpoint][1], ("firewall", endpoint)), header

    def into(self, header, interface):
        row = self.network.interfaces[interface]
        need(not row.idle, "Detached", interface)
        need(not row.checked or row.has(header.dst), "DestCheck", interface)
        self.pass_groups(interface, "in", header)
        if interface not in self.network.appliances or row.has(header.dst):
            raise Arrival(interface)
        need(is_in_some(header, self.network.appliances[interface]), "ApplianceDrop", interface)
        return ("out_of", interface), header

    def igw_out(self, header, vpc):
        public = self.network.public_of(vpc, header.src)
        need(public is not None, "NoPublic", self.network.internet_gateways[vpc])
        self.may_be_public(vpc, header.src)
        return ("internet",), header._replace(src=public)

    def internet(self, header):
        need(not any(it.holds(end) for it in NON_ROUTABLE for end in (header.src, header.dst)), "PrivateAddress", "internet")
        behind = self.network.behind(header.dst)
        if behind is None:
            raise Arrival(INTERNET)
        need(behind[0] in self.network.internet_gateways, "NoGateway", behind[0])
        return ("igw_in", behind[0]), header

    def may_be_public(self, vpc, private):
        """Whatever label a packet has: an answer is stopped as an open is."""
        stop = self.network.public_access(self.network.host(vpc, private))
        need(stop is None, "BlockPublicAccess", *(stop or ("", "")))

    def igw_in(self, header, vpc):
        behind = self.network.behind(header.dst)
        if behind and behind[0] == vpc:
            self.may_be_public(*behind)
        return ("enter", vpc, "gateway"), header._replace(dst=behind[1]) if behind and behind[0] == vpc else header

    def nat_out(self, header, nat):
        need(self.label == "open", "NatAnswer", nat)
        need(header.proto in NAMES, "NatProtocol", nat)
        known = next((after for name, before, after in self.translations if name == nat and before == header), None)
        if known is None:
            known = self.translated(header, nat)
            self.translations.append((nat, header, known))
        return ("router", self.network.nats[nat].subnet, ("nat", nat)), known

    def translated(self, header, nat):
        taken = {it.p for name, _, it in self.translations if name == nat and (it.proto, it.dst, it.q) == (header.proto, header.dst, header.q)}
        need(len(taken) < MOST_TRANSLATIONS, "NatFull", nat)
        port = header.p if header.p >= 1024 else header.p + 1024
        while port in taken:
            port = 1024 if port == LAST[3] else port + 1
        return header._replace(src=self.network.nats[nat].address, p=port)

    def nat_in(self, header, nat):
        before = next((before for name, before, after in self.translations if name == nat and after.reply() == header), None)
        need(self.label == "answer" and before is not None, "NatUnsolicited", nat)
        return ("router", self.network.nats[nat].subnet, ("nat", nat)), before.reply()

    def peer(self, header, peering, vpc):
        other = self.other_side(peering, vpc)
        need(any(it.holds(header.src) for it in self.network.vpcs[vpc]), "PeerSource", peering)
        need(any(it.holds(header.dst) for it in self.network.vpcs[other]), "PeerDestination", peering)
        return ("enter", other, ("peering", peering)), header

    def tgw(self, header, attachment, subnet):
        table = self.network.associations.get(attachment)
        need(table in self.network.transit_tables, "TgwNoTable", attachment)
        return self.carried(header, table, subnet)

    def carried(self, header, table, entered):
        """By a transit gateway's table; entered is the subnet by which the packet came, None of one that came from a far end."""
        place = chosen_transit_route(self.network, table, header.dst)
        self.chosen.append((table, place))
        need(place is not None, "TgwNoRoute", table)
        route = self.network.transit_tables[table][place]
        self.reasons[-1].append(f"route {table} {route.block} {route.attachment or '-'}")
        need(not route.blackhole, "TgwBlackhole", table, route.block, place)
        need(route.attachment is not None, "Unmodelled", table, beneath=("table", table))
        if self.network.far_end(route.attachment):
            return ("far_out", route.attachment), header
        need(route.attachment in self.network.attachments, "Unmodelled", route.attachment, beneath=("far", table, place))
        if entered is None:
            entered = next(iter(self.network.attachments[route.attachment].subnets), None)
            need(entered in self.network.subnets, "Unmodelled", route.attachment, beneath=("attachment", route.attachment))
        return ("tgw_leave", route.attachment, entered), header

    def tgw_leave(self, header, attachment, entered):
        row = self.network.attachments[attachment]
        need(row.vpc in self.network.vpcs and row.subnets, "Unmodelled", attachment, beneath=("attachment", attachment))
        zone = self.network.subnets[entered][1]
        out = next((it for it in row.subnets if self.network.subnets[it][1] == zone), row.subnets[0])
        return ("router", out, ("transit", attachment)), header

    # -- into a network that isn't described, and from there

    def far_out(self, header, name):
        far = self.network.fars[name]
        vpc = self.network.vpc_beside(far)
        if far.kind == "peering":
            need(any(it.holds(header.src) for it in self.network.vpcs[vpc]), "PeerSource", name)
            need(any(it.holds(header.dst) for it in self.blocks_beyond(far)), "PeerDestination", name)
        if far.kind == "endpoint":
            need(any(it.holds(header.src) for it in self.network.vpcs[vpc]), "FarSource", name)
        raise Arrival(far)

    def blocks_beyond(self, far):
        """The blocks of a peering's side that isn't described."""
        requester, accepter = far.blocks
        return accepter if self.network.peerings[far.id][0] in self.network.vpcs else requester

    def far_in(self, header, name):
        far = self.network.fars[name]
        vpc = self.network.vpc_beside(far)
        if far.kind == "attachment":
            table = self.network.associations.get(name)
            need(table in self.network.transit_tables, "FarNoTable", name)
            return self.carried(header, table, None)
        if far.kind == "peering":
            need(any(it.holds(header.src) for it in self.blocks_beyond(far)), "PeerSource", name)
            need(any(it.holds(header.dst) for it in self.network.vpcs[vpc]), "PeerDestination", name)
            return ("enter", vpc, ("peering", name)), header
        need(far.kind == "gateway" or self.label == "answer", "FarOpens", name)
        need(vpc is not None, "FarDetached", name)
        return ("enter", vpc, ("far", name)), header


# ---- what is asked

def first_place(end):
    """Where a packet of an end starts."""
    return ("internet",) if end is INTERNET else ("far_in", end.id) if isinstance(end, Far) else ("out_of", end)


def name_of(end):
    return "internet" if end is INTERNET else end.id if isinstance(end, Far) else end


def may_start(end):
    """Whether an end may be asked about as a start: the service behind an endpoint opens nothing."""
    return not isinstance(end, Far) or end.kind != "endpoint"


def homes(network, start, starts):
    """The ends at which the reply to a request of a start may arrive, where a question has these starts (by their names): the far ends
    among them are links to one network."""
    links = [it for it in starts if network.is_end(it) and isinstance(network.end(it), Far) and may_start(network.end(it))]
    return links if start in links else [start]


class Answer(NamedTuple):
    """What becomes of a request: the end that it reaches, or the phase and the stop. The walks are beside it."""
    reached: object
    phase: Optional[str]
    stop: Optional[Stop]
    walks: list

    def __str__(self):
        return f"{self.phase} {self.stop}" if self.stop else f"reached {name_of(self.reached)}"

    def value(self):
        return (self.phase, self.stop.value) if self.stop else self.reached


def journey(network, start, goal, header, back_at=None):
    """The header from the start, with a goal or with ANY; the start and the goal by their names. The reply has to arrive at the start, or at
    one of the ends that are named in its place."""
    if not network.is_end(start):
        return Answer(None, "request", Stop("Absent", start), [])
    start, goal = network.end(start), goal if goal is ANY else network.end(goal)
    back_at = [start] if back_at is None else [network.end(it) for it in back_at]
    request = Walk(network, "open", [], [])
    end, arrived = request.follow(first_place(start), header)
    if isinstance(end, Stop):
        return Answer(None, "request", end, [request])
    if end == start if goal is ANY else end != goal:
        return Answer(None, "request", Stop("WrongPlace", name_of(end)), [request])
    if arrived.reply() is None:
        return Answer(None, "reply", Stop("NoReply", name_of(end)), [request])
    reply = Walk(network, "answer", request.connections, request.translations)
    back, returned = reply.follow(first_place(end), arrived.reply())
    if isinstance(back, Stop):
        return Answer(None, "reply", back, [request, reply])
    if back not in back_at or returned != header.reply():
        return Answer(None, "reply", Stop("WrongReturn", name_of(back)), [request, reply])
    return Answer(end, None, None, [request, reply])


def verdict(network, start, goal, header):
    """As of `ask`: reached stands for through."""
    return journey(network, start, goal, header)


def journey_toward(network, start, goal, header, back_at=None):
    """As `journey`; a goal that the network doesn't have is reached by nothing."""
    if goal is ANY or network.is_end(goal):
        return journey(network, start, goal, header, back_at)
    it = journey(network, start, ANY, header, back_at)
    return it if it.stop else Answer(None, "request", Stop("WrongPlace", name_of(it.reached)), it.walks)


def change(one, other):
    """The words of `diff` about a header's two journeys, or None."""
    if one.stop and other.stop:
        return None
    if one.stop:
        return f"opened {name_of(other.reached)} {one}"
    if other.stop:
        return f"closed {name_of(one.reached)} {other}"
    return None if name_of(one.reached) == name_of(other.reached) else f"moved {name_of(one.reached)} {name_of(other.reached)}"


# ---- rules

def rules(network):
    """The rules in the order of `unused`: their names there, and where they stand."""
    told = [(f"{name} {way} {row.id or number}", ("groups", name, way, number - 1)) for name, ways in network.groups.items() for way in ("in", "out") for number, row in enumerate(ways[way], 1)]
    return told + [(f"{name} {way} {row.number}", ("acls", name, way, place)) for name, ways in network.acls.items() for way in ("in", "out") for place, row in enumerate(ways[way])]


def without(network, where):
    """The network without the rule that stands there."""
    kind, name, way, place = where
    other = copy.copy(network)
    ways = dict(getattr(network, kind)[name])
    ways[way] = ways[way][:place] + ways[way][place + 1:]
    setattr(other, kind, {**getattr(network, kind), name: ways})
    return other


# ---- cuts

def cuts(network):
    """The numbers at which what becomes of a header may change: of the five sides, ascending."""
    permissions = [rule for ways in network.groups.values() for rules_ in ways.values() for rule in rules_]
    rows = permissions + [row for ways in network.acls.values() for rows_ in ways.values() for row in rows_]
    blocks = [*NON_ROUTABLE, *itertools.chain(*network.vpcs.values(), *network.lists.values()), *(it for row in rows for it in row.blocks)]
    blocks += [it for row in network.interfaces.values() for it in row.blocks]
    blocks += [it.block for table in network.tables.values() for it in table if it.block] + [it.block for table in network.transit_tables.values() for it in table]
    blocks += [it for far in network.fars.values() for side in far.blocks for it in side]
    boxes = [box for told in [*network.appliances.values(), *network.inspected.values()] for box in told]
    own = [it for row in network.interfaces.values() for pair in row.addresses for it in pair if it is not None]
    ends = [(it.first, it.last) for it in blocks] + [(it, it) for it in own] + [box[side] for box in boxes for side in (1, 2)]
    edges = {it for low, high in [row.ports for row in rows] + [box[side] for box in boxes for side in (3, 4)] for it in (low, high + 1)}
    protocols = [(it, it) for it in (ICMP, TCP, UDP, *(row.proto for row in rows if row.proto is not None))] + [box[0] for box in boxes]
    addresses, of_protocols = ({it for low, high in told for it in (low, high + 1)} for told in (ends, protocols))
    sides = (of_protocols, addresses, addresses, edges | {it - 1024 for it in edges} | {1024}, edges | {ECHO_REQUEST, ECHO_REQUEST + 1})
    return [sorted(it for it in told if 0 < it <= last) for told, last in zip(sides, LAST)]


def pieces(side_cuts, low, high):
    """The pieces into which the cuts divide a side."""
    starts = [low, *(it for it in side_cuts if low < it <= high)]
    return list(zip(starts, [it - 1 for it in starts[1:]] + [high]))


def cells(told, box):
    """The cells of a box, each as a box, in the order of their low corners."""
    return itertools.product(*(pieces(side_cuts, low, high) for side_cuts, (low, high) in zip(told, box)))


def low_corner(box):
    return Header(*(low for low, _ in box))


# ---- texts

WORDS = {"out_of": "out", "into": "in", "igw_out": "igw-out", "igw_in": "igw-in", "nat_out": "nat-out", "nat_in": "nat-in", "tgw_leave": "tgw-leave", "far_out": "far-out", "far_in": "far-in"}


def told_walk(walk):
    """The hops of a walk as the program prints them."""
    return [f"hop {n} {WORDS.get(place[0], place[0])} {walk.component(place)} {header}" + (f" by {by}" if by else "") for n, (place, header, by) in enumerate(walk.hops, 1)]


def traced(network, label, start, header):
    walk = Walk(network, label, [], [])
    end, _ = walk.follow(first_place(network.end(start)), header)
    return told_walk(walk) + [f"stopped {end}" if isinstance(end, Stop) else f"arrived {name_of(end)}"]


def explained(network, label, start, header):
    """The lines of `why`: those of `trace`, and after each hop what decided there, and what the header then is, if the next hop has another."""
    walk = Walk(network, label, [], [])
    end, _ = walk.follow(first_place(network.end(start)), header)
    lines, headers = [], [it for _, it, _ in walk.hops]
    for told, reasons, here, there in zip(told_walk(walk), walk.reasons, headers, [*headers[1:], headers[-1]]):
        lines += [told, *reasons, *([f"becomes {there}"] if there != here else [])]
    return lines + [f"stopped {end}" if isinstance(end, Stop) else f"arrived {name_of(end)}"]


def told_box(box):
    return " ".join(f"{dotted(low)}-{dotted(high)}" if side in (1, 2) else f"{low}-{high}" for side, (low, high) in enumerate(box))
