"""Changes of route tables, of their routes and of what has them."""

from __future__ import annotations

from typing import Any, Optional

from scripts.bundles import Row, member, rows
from scripts.plan_changes import UNKNOWN, Change, NewId, Untold, has_true, id_text, shown
from scripts.plan_gateways import GATEWAYS, Destination, GatewayChanges, number_of
from scripts.plan_rows import LIST_OF, block_of, inner, is_main, owner, room, tags_of

# The attributes that may name a route's target, and EC2's members.
TARGETS = {
    "gateway_id": "GatewayId",
    "nat_gateway_id": "NatGatewayId",
    "transit_gateway_id": "TransitGatewayId",
    "vpc_peering_connection_id": "VpcPeeringConnectionId",
    "network_interface_id": "NetworkInterfaceId",
    "local_gateway_id": "LocalGatewayId",
    "carrier_gateway_id": "CarrierGatewayId",
    "egress_only_gateway_id": "EgressOnlyInternetGatewayId",
    "core_network_arn": "CoreNetworkArn",
    "vpc_endpoint_id": "GatewayId",
}
DESTINATIONS = (
    ("DestinationCidrBlock", ("destination_cidr_block", "cidr_block")),
    ("DestinationIpv6CidrBlock", ("destination_ipv6_cidr_block", "ipv6_cidr_block")),
    ("DestinationPrefixListId", ("destination_prefix_list_id",)),
)
# The lists that describe what a route may name.
DESCRIBED = {
    "NatGatewayId": "NatGateways",
    "VpcPeeringConnectionId": "VpcPeeringConnections",
    "NetworkInterfaceId": "NetworkInterfaces",
}
ASSOCIATED = {"State": "associated"}
LOCAL = {"GatewayId": "local", "Origin": "CreateRouteTable", "State": "active"}
# A target: the member, and what it is.
Target = tuple[str, Any]
# Of what kind a target is that isn't known yet, where a block may name it.
TO_COME = {
    "network_interface_id": "NetworkInterfaceId",
    "gateway_id": "VpnGatewayId",
    "vpc_endpoint_id": "VpcEndpointId",
}


def targets(row: Row) -> Row:
    """The attributes of an element of a plan that name a route's target."""
    return {name: row[name] for name in TARGETS if row.get(name)}


def targets_told(row: Row) -> Row:
    """The same of a route of a bundle."""
    return {name: row[name] for name in TARGETS.values() if row.get(name) is not None}


def destination_of(row: Row) -> Destination:
    for name, attributes in DESTINATIONS:
        value = next((row[it] for it in attributes if row.get(it)), None)
        if value:
            version = 6 if "Ipv6" in name else 4
            return name, value if "List" in name else block_of(value, version)
    raise Untold(f"its destination {UNKNOWN}")


def destination_if(row: Row) -> Optional[Destination]:
    try:
        return destination_of(row)
    except Untold:
        return None


def is_of_service(route: Row) -> bool:
    """Whether a route is one to a service, which comes and goes with its endpoint."""
    to = route.get("GatewayId")
    is_to_endpoint = isinstance(to, str) and to.startswith("vpce-")
    return is_to_endpoint and "DestinationPrefixListId" in route


class TableChanges(GatewayChanges):
    def add_table(self, part: Row, table: Any, vpc: Any, tags: list[Row], whose: Row) -> Row:
        row = {
            "Associations": [],
            "RouteTableId": table,
            "Routes": [{key: block, **LOCAL} for key, block in self.blocks_of(vpc)],
            "Tags": tags,
            "VpcId": vpc,
            **whose,
        }
        self.bundle.add(part, "RouteTables", row)
        return row

    def blocks_of(self, vpc: Any) -> list[Destination]:
        """The blocks of a VPC, to which each of its tables has a local route."""
        row = self.bundle.row("VpcId", vpc)
        found = [("DestinationCidrBlock", row.get("CidrBlock"))]
        for name in ("CidrBlock", "Ipv6CidrBlock"):
            for it in rows(row, f"{name}AssociationSet"):
                if member(it, f"{name}State", "State") in (None, "associated"):
                    found.append((f"Destination{name}", it.get(name)))
        return list(dict.fromkeys(it for it in found if it[1]))

    def make_table(self, change: Change) -> None:
        vpc = self.vpc_of(change)
        row, part = self.bundle.row("VpcId", vpc), self.bundle.part_of("Vpcs", vpc)
        self.add_table(part, self.plan.own_id(change), vpc, tags_of(change), owner(row))

    def fill_table(self, change: Change) -> None:
        table, is_new = self.own(change, "RouteTableId"), change.does("create")
        if change.type == "aws_default_route_table" and is_new:
            # (Terraform takes all routes away when it begins to manage it)
            for it in [it.get("GatewayId") for it in inner(table, "PropagatingVgws")]:
                self.stop_propagating(table, it)
            table["Routes"] = [
                it for it in inner(table, "Routes")
                if it.get("GatewayId") == "local" or is_of_service(it)
            ]
        self.attempt(change, lambda: self.fill_propagating(change, table))
        if change.unknown.get("route") is True:
            if self.plan.is_told(change, "route") or not is_new:
                raise Untold(f"route {UNKNOWN}")
            return
        old = [] if is_new else rows(change.before, "route")
        before = {destination_of(it): it for it in old}
        after = rows(change.after, "route")
        for number, row in enumerate(after):
            not_known = member(change.unknown, "route", number) or {}
            self.put_block(change, table, row, not_known, before)
        kept = [destination_if(it) for it in after]
        for key in before:
            if key not in kept and None not in kept:
                self.remove_route(change, table, key)

    def drop_table(self, change: Change) -> None:
        table = self.bundle.row("RouteTableId", change.before.get("id"))
        if is_main(table):
            raise Untold("it is the main one of its VPC")
        self.bundle.remove("RouteTables", table["RouteTableId"])

    # -- routes

    def put_block(
        self, change: Change, table: Row, row: Row, unknown: Any, before: dict[Destination, Row]
    ) -> None:
        try:
            key = destination_of(row)
            if key not in before or has_true(unknown) or targets(before[key]) != targets(row):
                target = self.target(change, row, unknown, "route")
                self.put_route(table, key, target, key in before)
        except Untold as why:
            found = destination_if(row)
            self.tell(change.address, f"route {shown(found[1] if found else None)}: {why}")

    def target(self, change: Change, row: Row, unknown: Any, block: Optional[str]) -> Target:
        """A route's target as EC2 prints it: the member, and the id."""
        known = targets(row)
        if len(known) > 1 and not block:
            # (what isn't configured is of the route as it was)
            known = {name: it for name, it in known.items() if self.plan.is_told(change, name)}
        if len(known) == 1:
            ((name, value),) = known.items()
            return TARGETS[name], value
        open_names = [it for it in TARGETS if not known and has_true(member(unknown, it))]
        found = [
            (TARGETS[name], self.target_to_come(change, name, block)) for name in open_names
            if block or self.plan.is_told(change, name)
        ]
        if len(found) != 1:
            raise Untold(f"its target {UNKNOWN}, or is none that is followed")
        return found[0]

    def target_to_come(self, change: Change, name: str, block: Optional[str]) -> Any:
        kind = TO_COME.get(name)
        if not block:
            is_interface = name == "network_interface_id"
            return self.plan.one(change, name, kind if is_interface else None)
        if kind is None:
            raise Untold(f"{name} {UNKNOWN}")
        found = self.plan.one_among(change, block, kind, lambda it: False)
        others = self.plan.looked_up(change, block, UNKNOWN) if name == "gateway_id" else []
        for it in others:
            # (which of them an attribute names that both may be in)
            if isinstance(it, NewId) and it.kind == "aws_internet_gateway":
                raise Untold(f"{name} {UNKNOWN}, and may be of {found}, {it}")
        return found

    def put_route(self, table: Row, key: Destination, target: Target, is_known: bool) -> None:
        """Puts a route in, or has one go elsewhere."""
        self.refuse_missing(key, target)
        routes = room(table, "Routes")
        number = number_of(routes, key)
        row = {key[0]: key[1], target[0]: target[1], "Origin": "CreateRoute", "State": "active"}
        if number is None:
            routes.append(row)
        elif targets_told(routes[number]) != dict([target]):
            if not is_known:
                raise Untold(f"{shown(table['RouteTableId'])} has a route to {key[1]} already")
            routes[number] = {**row, "Origin": routes[number].get("Origin", "CreateRoute")}

    def refuse_missing(self, key: Destination, target: Target) -> None:
        """What a route names has to be described, or vpc refuses the bundle."""
        if key[0] == "DestinationPrefixListId" and not self.bundle.has_prefix_list(key[1]):
            raise Untold(f"the bundle has no {shown(key[1])}")
        member_name, value = target
        is_internet = member_name == "GatewayId" and str(value).startswith("igw-")
        name = "InternetGateways" if is_internet else DESCRIBED.get(member_name)
        is_new = isinstance(value, NewId) and value.kind not in LIST_OF
        if isinstance(value, NewId) and value.kind in LIST_OF:
            name = LIST_OF[value.kind]
        if name and self.bundle.find(name, value) is None or is_new:
            raise Untold(f"the bundle has no {shown(value)}")

    def remove_route(self, change: Change, table: Row, key: Destination) -> None:
        """Takes a route away. A local one that went elsewhere is local again."""
        routes = inner(table, "Routes")
        number = number_of(routes, key)
        if number is None:
            what = f"route of {shown(table['RouteTableId'])} to {key[1]}"
            self.tell(change.address, f"the bundle has no {what} to take away")
        elif key in self.blocks_of(table.get("VpcId")):
            routes[number] = {key[0]: key[1], **LOCAL}
        else:
            del routes[number]

    def fill_route(self, change: Change) -> None:
        table = self.named(change, "RouteTableId", "route_table_id")
        key = destination_of(change.after)
        target = self.target(change, change.after, change.unknown, None)
        self.put_route(table, key, target, change.does("update"))

    def take_route(self, change: Change) -> None:
        table = self.bundle.row("RouteTableId", change.before.get("route_table_id"))
        self.remove_route(change, table, destination_of(change.before))

    # -- associations

    def tied(self, change: Change) -> tuple[str, Any]:
        """What an association of a route table ties to it: the member's name, and the id."""
        subnet = self.plan.one(change, "subnet_id", "SubnetId")
        if subnet:
            self.bundle.row("SubnetId", subnet)
            return "SubnetId", subnet
        gateway = self.plan.one(change, "gateway_id", None)
        if not gateway:
            raise Untold("it names neither a subnet nor a gateway")
        if not any(self.bundle.find(it, gateway) for it in ("InternetGateways", GATEWAYS)):
            raise Untold(f"the bundle has no {shown(gateway)}")
        return "GatewayId", gateway

    def fill_table_association(self, change: Change) -> None:
        table = self.named(change, "RouteTableId", "route_table_id")
        key, found = self.tied(change)
        new = {"Main": False, "RouteTableAssociationId": id_text(change.address), key: found}
        new["AssociationState"] = dict(ASSOCIATED)
        row = self.untie("RouteTables", key, found) or new
        room(table, "Associations").append({**row, "RouteTableId": table["RouteTableId"]})

    def take_table_association(self, change: Change) -> None:
        table = self.bundle.row("RouteTableId", change.before.get("route_table_id"))
        names = (("SubnetId", "subnet_id"), ("GatewayId", "gateway_id"))
        found = {key: change.before[it] for key, it in names if change.before.get(it)}
        own = inner(table, "Associations") if found else []
        if not any(all(it.get(key) == value for key, value in found.items()) for it in own):
            raise Untold(f"the bundle has no such association of {shown(table['RouteTableId'])}")
        for key, value in found.items():
            self.untie("RouteTables", key, value)

    def fill_main_table(self, change: Change) -> None:
        table = self.named(change, "RouteTableId", "route_table_id")
        self.make_main(self.plan.one(change, "vpc_id", "VpcId"), table)

    def take_main_table(self, change: Change) -> None:
        """The table that was the main one before is it again."""
        table = self.bundle.row("RouteTableId", change.before.get("original_route_table_id"))
        self.make_main(change.before.get("vpc_id"), table)

    def make_main(self, vpc: Any, table: Row) -> None:
        old = self.bundle.main_table(vpc)
        if table.get("VpcId") != vpc:
            raise Untold(f"{shown(table['RouteTableId'])} isn't of {shown(vpc)}")
        mains = [it for it in old["Associations"] if it.get("Main") is True]
        old["Associations"] = [it for it in old["Associations"] if it.get("Main") is not True]
        for it in mains:
            own = {"RouteTableId": table["RouteTableId"]} if "RouteTableId" in it else {}
            room(table, "Associations").append({**it, **own})
