"""Changes of virtual private gateways, of what they are attached to and of the routes that they
propagate."""

from __future__ import annotations

from collections.abc import Iterator
from typing import Any, Optional

from scripts.bundles import Row, rows
from scripts.plan_applying import Applying
from scripts.plan_changes import Change, Plan, Untold, items, shown
from scripts.plan_rows import Bundle, block_if, inner, room, tags_of

GATEWAYS = "VpnGateways"
PROPAGATING = "propagating_vgws"
# Where a route comes from that a gateway propagates.
PROPAGATED = "EnableVgwRoutePropagation"
# The members of a route that may be its destination.
DESTINATION_MEMBERS = (
    "DestinationCidrBlock", "DestinationIpv6CidrBlock", "DestinationPrefixListId",
)
# A destination: the member, and what it is.
Destination = tuple[str, Any]


def number_of(routes: list[Row], key: Destination) -> Optional[int]:
    """Where a route to a destination stands; None where there is none."""
    found = (k for k, it in enumerate(routes) if block_if(it.get(key[0])) == key[1])
    return next(found, None)


def destination_told(row: Row) -> Optional[Destination]:
    """The destination of a route of a bundle."""
    found = ((name, row[name]) for name in DESTINATION_MEMBERS if isinstance(row.get(name), str))
    return next(((name, block_if(it)) for name, it in found), None)


def vpc_attached(gateway: Row) -> Any:
    """The VPC that a gateway is attached to; None where there is none."""
    found = (it for it in inner(gateway, "VpcAttachments") if it.get("State") == "attached")
    return next((it.get("VpcId") for it in found), None)


class GatewayChanges(Applying):
    def __init__(self, plan: Plan, bundle: Bundle) -> None:
        super().__init__(plan, bundle)
        # (as it was: each table that takes a gateway's routes has all of them)
        self.propagated: dict[Any, list[Destination]] = {}
        for it in (it for table in bundle.rows("RouteTables") for it in rows(table, "Routes")):
            key = destination_told(it)
            if it.get("Origin") == PROPAGATED and key is not None:
                found = self.propagated.setdefault(shown(it.get("GatewayId")), [])
                found.extend([key] * (key not in found))

    def make_gateway(self, change: Change) -> None:
        own, vpc = self.plan.own_id(change), self.plan.one(change, "vpc_id", "VpcId")
        if vpc:
            self.bundle.row("VpcId", vpc)
        part = self.bundle.part_of("Vpcs", vpc) if vpc else self.home()
        row = {"State": "available", "Type": "ipsec.1", "VpcAttachments": [], "VpnGatewayId": own}
        row["Tags"] = tags_of(change)
        self.bundle.add(part, GATEWAYS, row)
        if vpc:
            self.attach_gateway(row, vpc)

    def fill_gateway(self, change: Change) -> None:
        """What a gateway is attached to, where no attachment of its own says it."""
        name = "vpc_id"
        if not change.does("update") or not change.differs(name):
            return
        row = self.bundle.row("VpnGatewayId", change.after.get("id"))
        if change.is_unknown(name) and self.plan.resource_at(change):
            if not self.plan.is_told(change, name):
                return
        vpc = self.plan.one(change, name, "VpcId")
        if vpc:
            self.bundle.row("VpcId", vpc)
        self.detach_gateway(row)
        if vpc:
            self.attach_gateway(row, vpc)

    def take_gateway(self, change: Change) -> None:
        """Routes to a gateway that is gone lead nowhere, and no table is its any more."""
        row = self.bundle.row("VpnGatewayId", change.before.get("id"))
        own = row["VpnGatewayId"]
        self.detach_gateway(row)
        for it in self.routes_to(own):
            it["State"] = "blackhole"
        self.untie("RouteTables", "GatewayId", own)
        self.bundle.remove(GATEWAYS, own)

    # -- attachments

    def attach_gateway(self, row: Row, vpc: Any) -> None:
        old, own = vpc_attached(row), row["VpnGatewayId"]
        self.bundle.row("VpcId", vpc)
        if old not in (None, vpc):
            raise Untold(f"{shown(own)} is attached to {shown(old)}")
        others = [it for it in inner(row, "VpcAttachments") if it.get("VpcId") != vpc]
        row["VpcAttachments"] = [{"State": "attached", "VpcId": vpc}, *others]
        for it in self.routes_to(own, vpc):
            it["State"] = "active"

    def detach_gateway(self, row: Row) -> None:
        """What a gateway propagated goes, and its other routes lead nowhere."""
        vpc, own = vpc_attached(row), row["VpnGatewayId"]
        if vpc is None:
            return
        row["VpcAttachments"] = [it for it in row["VpcAttachments"] if it.get("VpcId") != vpc]
        for table in self.tables_of(vpc):
            self.stop_propagating(table, own)
        for it in self.routes_to(own, vpc):
            it["State"] = "blackhole"

    def fill_gateway_attachment(self, change: Change) -> None:
        row = self.named(change, "VpnGatewayId", "vpn_gateway_id")
        self.attach_gateway(row, self.plan.one(change, "vpc_id", "VpcId"))

    def take_gateway_attachment(self, change: Change) -> None:
        row = self.bundle.row("VpnGatewayId", change.before.get("vpn_gateway_id"))
        vpc = change.before.get("vpc_id")
        if vpc is None or vpc_attached(row) != vpc:
            what = f"no attachment of {shown(row['VpnGatewayId'])} to {shown(vpc)}"
            raise Untold(f"the bundle has {what} to take away")
        self.detach_gateway(row)

    # -- routes

    def tables_of(self, vpc: Any) -> list[Row]:
        return [it for it in self.bundle.rows("RouteTables") if it.get("VpcId") == vpc]

    def routes_to(self, gateway: str, vpc: Any = None) -> Iterator[Row]:
        """The routes to a gateway or an endpoint, of all tables or of those of a VPC."""
        for table in self.bundle.rows("RouteTables"):
            if vpc is None or table.get("VpcId") == vpc:
                yield from (it for it in inner(table, "Routes") if it.get("GatewayId") == gateway)

    def propagate(self, change: Change, table: Row, gateway: str) -> None:
        """A table takes the routes that a gateway propagates, but where it has one of its own."""
        if not any(it.get("GatewayId") == gateway for it in inner(table, "PropagatingVgws")):
            room(table, "PropagatingVgws").append({"GatewayId": gateway})
        found, routes = self.propagated.get(shown(gateway), []), room(table, "Routes")
        if not found:
            self.tell(change.address, f"the routes that {shown(gateway)} propagates aren't known")
        for name, value in found:
            if number_of(routes, (name, value)) is None:
                row = {name: value, "GatewayId": gateway, "Origin": PROPAGATED, "State": "active"}
                routes.append(row)

    def stop_propagating(self, table: Row, gateway: str) -> bool:
        """A table takes a gateway's routes no more. Whether it did."""
        propagating, routes = inner(table, "PropagatingVgws"), inner(table, "Routes")
        others = [it for it in propagating if it.get("GatewayId") != gateway]
        own = [
            it for it in routes
            if it.get("GatewayId") != gateway or it.get("Origin") != PROPAGATED
        ]
        if propagating:
            table["PropagatingVgws"] = others
        if routes:
            table["Routes"] = own
        return len(others) < len(propagating) or len(own) < len(routes)

    def fill_propagation(self, change: Change) -> None:
        table = self.named(change, "RouteTableId", "route_table_id")
        gateway = self.named(change, "VpnGatewayId", "vpn_gateway_id")
        self.propagate(change, table, gateway["VpnGatewayId"])

    def take_propagation(self, change: Change) -> None:
        table = self.bundle.row("RouteTableId", change.before.get("route_table_id"))
        gateway = shown(change.before.get("vpn_gateway_id"))
        if not self.stop_propagating(table, gateway):
            name = shown(table["RouteTableId"])
            raise Untold(f"the bundle has no routes of {name} that {gateway} propagates")

    def fill_propagating(self, change: Change, table: Row) -> None:
        """The gateways whose routes a table takes, as its own resource names them."""
        if not change.differs(PROPAGATING):
            return
        if change.is_unknown(PROPAGATING) and not self.plan.is_told(change, PROPAGATING):
            return
        before = items(change.before.get(PROPAGATING)) if change.does("update") else []
        wanted = self.plan.all_of(change, PROPAGATING, "VpnGatewayId", self.bundle.is_gateway)
        for it in before:
            if it not in wanted:
                self.stop_propagating(table, it)
        for it in wanted:
            if it not in before:
                self.propagate(change, table, self.bundle.row("VpnGatewayId", it)["VpnGatewayId"])
