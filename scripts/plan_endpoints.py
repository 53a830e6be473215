"""Changes of endpoints of VPCs, of the routes to them and of their interfaces."""

from __future__ import annotations

from functools import partial
from typing import Any

from scripts.bundles import Row, rows
from scripts.plan_changes import UNKNOWN, Change, NewId, Untold, items, shown
from scripts.plan_gateways import Destination
from scripts.plan_interfaces import CANT_CHANGE, InstanceChanges
from scripts.plan_rows import address_of, has_group, inner, owner, room, tags_of
from scripts.plan_tables import TableChanges

ENDPOINTS, INTERFACES = "VpcEndpoints", "NetworkInterfaceIds"
TABLES, SUBNETS, GROUPS = "route_table_ids", "subnet_ids", "security_group_ids"
# What an endpoint is where its type isn't told; by the routes of tables it leads to a service.
SERVICE = "Gateway"
# One that leads to a firewall, and that has no groups.
FIREWALL = "GatewayLoadBalancer"


class EndpointChanges(TableChanges, InstanceChanges):
    def make_endpoint(self, change: Change) -> None:
        vpc = self.named(change, "VpcId", "vpc_id")
        self.refuse_unknown(change, ["vpc_endpoint_type"])
        row = {
            "VpcEndpointId": self.plan.own_id(change),
            "VpcEndpointType": change.after.get("vpc_endpoint_type") or SERVICE,
            "VpcId": vpc["VpcId"],
            "ServiceName": change.after.get("service_name") or "",
            "State": "available",
            "RouteTableIds": [],
            "SubnetIds": [],
            "Groups": [],
            INTERFACES: [],
            "Tags": tags_of(change),
            **owner(vpc),
        }
        self.bundle.add(self.bundle.part_of("Vpcs", vpc["VpcId"]), ENDPOINTS, row)

    def fill_endpoint(self, change: Change) -> None:
        row = self.own(change, "VpcEndpointId")
        kind = row.get("VpcEndpointType", SERVICE)
        if kind == SERVICE:
            self.change_tables(change, row)
        elif kind == FIREWALL:
            self.attempt(change, lambda: self.change_subnets(change, row, False))
        else:
            # (groups first: new interfaces have the endpoint's)
            self.attempt_each(
                change, lambda: self.change_endpoint_groups(change, row),
                lambda: self.change_subnets(change, row, True),
            )

    def is_set(self, change: Change, name: str) -> bool:
        """Whether an attribute says something new: where it isn't configured, others may say it."""
        if not change.does("create") and not change.differs(name):
            return False
        return not change.is_unknown(name) or self.plan.is_told(change, name)

    def take_endpoint(self, change: Change) -> None:
        """Routes to a service go with their endpoint, and others lead nowhere then."""
        row = self.bundle.row("VpcEndpointId", change.before.get("id"))
        own = row["VpcEndpointId"]
        for it in self.routes_to(own):
            it["State"] = "blackhole"
        if row.get("VpcEndpointType", SERVICE) == SERVICE:
            for table in self.bundle.rows("RouteTables"):
                routes = inner(table, "Routes")
                if any(it.get("GatewayId") == own for it in routes):
                    table["Routes"] = [it for it in routes if it.get("GatewayId") != own]
        for it in self.endpoint_interfaces(row):
            self.take_away(it["NetworkInterfaceId"])
        for part in self.bundle.objects:
            if part.get("Appliances"):
                found = part["Appliances"]
                part["Appliances"] = [it for it in found if it.get("VpcEndpointId") != own]
        self.bundle.remove(ENDPOINTS, own)

    def endpoint_before(self, change: Change) -> Row:
        return self.bundle.row("VpcEndpointId", change.before.get("vpc_endpoint_id"))

    def endpoint_of(self, change: Change) -> Row:
        return self.named(change, "VpcEndpointId", "vpc_endpoint_id")

    # -- routes to services

    def change_tables(self, change: Change, row: Row) -> None:
        if not self.is_set(change, TABLES):
            return
        wanted = self.plan.all_of(change, TABLES, "RouteTableId", self.bundle.is_table)
        before = items(change.before.get(TABLES)) if change.does("update") else []
        gone = [it for it in before if it not in wanted]
        new = [it for it in wanted if it not in before]
        self.attempt_each(
            change, *(partial(self.take_service, row, it) for it in gone),
            *(partial(self.put_service, row, it) for it in new),
        )

    def addresses_of_service(self, row: Row) -> Destination:
        """The destination of an endpoint's routes: the prefix list that has its service's name."""
        name = row.get("ServiceName")
        lists = self.bundle.rows("PrefixLists")
        found = {it["PrefixListId"] for it in lists if it.get("PrefixListName") == name}
        if len(found) != 1:
            raise Untold(f"the bundle has no prefix list of {shown(name)}")
        return "DestinationPrefixListId", found.pop()

    def put_service(self, row: Row, table: Any) -> None:
        own, found = row["VpcEndpointId"], self.bundle.row("RouteTableId", table)
        self.put_route(found, self.addresses_of_service(row), ("GatewayId", own), False)
        if table not in (row.get("RouteTableIds") or []):
            row["RouteTableIds"] = [*(row.get("RouteTableIds") or []), table]

    def take_service(self, row: Row, table: Any) -> None:
        own, found = row["VpcEndpointId"], self.bundle.row("RouteTableId", table)
        routes = inner(found, "Routes")
        others = [it for it in routes if it.get("GatewayId") != own]
        if len(others) == len(routes):
            raise Untold(f"the bundle has no route of {shown(table)} to {shown(own)} to take away")
        found["Routes"] = others
        row["RouteTableIds"] = [it for it in row.get("RouteTableIds") or [] if it != table]

    def fill_endpoint_table(self, change: Change) -> None:
        row, table = self.endpoint_of(change), self.named(change, "RouteTableId", "route_table_id")
        self.put_service(row, table["RouteTableId"])

    def take_endpoint_table(self, change: Change) -> None:
        self.take_service(self.endpoint_before(change), change.before.get("route_table_id"))

    # -- interfaces

    def endpoint_interfaces(self, row: Row) -> list[Row]:
        """The interfaces of an endpoint, as far as the bundle has them."""
        ids = row.get(INTERFACES)
        found = (self.bundle.find("NetworkInterfaces", it) for it in ids or [])
        return [it for it in found if it is not None]

    def change_subnets(self, change: Change, row: Row, with_interfaces: bool) -> None:
        name = "subnet_configuration"
        if change.does("update") and change.differs(name) and not change.differs(SUBNETS):
            self.tell_unknown(change, name, CANT_CHANGE)
        if not self.is_set(change, SUBNETS):
            return
        wanted = self.plan.all_of(change, SUBNETS, "SubnetId", self.bundle.is_subnet)
        before = items(change.before.get(SUBNETS)) if change.does("update") else []
        gone = [it for it in before if it not in wanted]
        new = [it for it in wanted if it not in before]
        if not with_interfaces:
            kept = [it for it in row.get("SubnetIds") or [] if it not in gone]
            row["SubnetIds"] = [*kept, *(self.bundle.row("SubnetId", it)["SubnetId"] for it in new)]
            return
        self.attempt_each(
            change, *(partial(self.leave_subnet, row, it) for it in gone),
            *(partial(self.enter_subnet, change, row, it) for it in new),
        )

    def enter_subnet(self, change: Change, row: Row, subnet: Any) -> None:
        """An endpoint's interface in a subnet. Where its address isn't known, a free one stands for
        it."""
        place, own = self.bundle.row("SubnetId", subnet), row["VpcEndpointId"]
        groups = [self.group_pair(it.get("GroupId")) for it in inner(row, "Groups")]
        if not groups:
            raise Untold(f"the bundle doesn't tell the groups of {shown(own)}")
        ids = list(row.get(INTERFACES) or [])
        eni = NewId(f"{own}.network_interface_ids[{len(ids)}]", "NetworkInterfaceId")
        found = self.new_row(change, place, eni, groups, [self.address_in(change, place)])
        found.update(Description=f"VPC Endpoint Interface {own}", InterfaceType="vpc_endpoint")
        found.update(Attachment={"InstanceOwnerId": "amazon-aws", "Status": "attached"})
        found.update(RequesterManaged=True, Status="in-use")
        self.add_interface(place, found)
        row[INTERFACES] = [*ids, eni]
        row["SubnetIds"] = [*(row.get("SubnetIds") or []), subnet]

    def address_in(self, change: Change, place: Row) -> str:
        subnet = place["SubnetId"]
        for it in rows(change.after, "subnet_configuration"):
            if it.get("subnet_id") == subnet and it.get("ipv4"):
                self.refuse_taken(place.get("VpcId"), [address_of(it["ipv4"])])
                return address_of(it["ipv4"])
        free = self.free_address(place, self.plan.told_addresses())
        what = f"the address of its interface in {shown(subnet)} {UNKNOWN}"
        self.tell(change.address, f"{what}: {free} is taken for it")
        return free

    def leave_subnet(self, row: Row, subnet: Any) -> None:
        found = [it for it in self.endpoint_interfaces(row) if it.get("SubnetId") == subnet]
        if not found:
            own = shown(row["VpcEndpointId"])
            raise Untold(f"the bundle doesn't tell the interface of {own} in {shown(subnet)}")
        for it in found:
            self.take_away(it["NetworkInterfaceId"])
        gone = [it["NetworkInterfaceId"] for it in found]
        row[INTERFACES] = [it for it in row[INTERFACES] if it not in gone]
        row["SubnetIds"] = [it for it in row.get("SubnetIds") or [] if it != subnet]

    def fill_endpoint_subnet(self, change: Change) -> None:
        row, place = self.endpoint_of(change), self.named(change, "SubnetId", "subnet_id")
        self.enter_subnet(change, row, place["SubnetId"])

    def take_endpoint_subnet(self, change: Change) -> None:
        self.leave_subnet(self.endpoint_before(change), change.before.get("subnet_id"))

    # -- groups

    def change_endpoint_groups(self, change: Change, row: Row) -> None:
        if change.does("create"):
            row["Groups"] = self.groups_of_new(change, GROUPS, row["VpcId"])
            return
        for it in (row, *self.endpoint_interfaces(row)):
            self.change_groups(change, GROUPS, it)

    def fill_endpoint_group(self, change: Change) -> None:
        row, group = self.endpoint_of(change), self.plan.one(change, "security_group_id", "GroupId")
        self.exchange_group(row, self.default_if(change.after, row), group)

    def take_endpoint_group(self, change: Change) -> None:
        row, group = self.endpoint_before(change), change.before.get("security_group_id")
        if not has_group(row, group):
            raise Untold(f"{shown(row['VpcEndpointId'])} of the bundle doesn't have {shown(group)}")
        self.exchange_group(row, group, self.default_if(change.before, row))

    def default_if(self, values: Row, row: Row) -> Any:
        """The default group, in whose place a group of an endpoint is; None where it is beside
        others."""
        is_in_place = values.get("replace_default_association") is True
        return self.bundle.default_group(row.get("VpcId"))["GroupId"] if is_in_place else None

    def exchange_group(self, endpoint: Row, old: Any, new: Any) -> None:
        """Takes a group away from an endpoint and its interfaces, and puts another one in."""
        pair = self.group_pair(new) if new is not None else {}
        for row in (endpoint, *self.endpoint_interfaces(endpoint)):
            row["Groups"] = [it for it in inner(row, "Groups") if it.get("GroupId") != old]
            if pair and not has_group(row, new):
                room(row, "Groups").append(dict(pair))
