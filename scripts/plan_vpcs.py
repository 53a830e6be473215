"""Changes of VPCs and subnets, with what comes with them."""

from __future__ import annotations

from typing import Any

from scripts.bundles import LISTS, Row, rows
from scripts.plan_acls import AclChanges
from scripts.plan_changes import UNKNOWN, Change, NewId, Untold, of_vpc
from scripts.plan_gateways import vpc_attached
from scripts.plan_groups import GroupChanges
from scripts.plan_rows import (
    USED_BY_VPC, block_of, came_with_vpc, every_row, owner, room, tags_of,
)
from scripts.plan_rules import Rule
from scripts.plan_tables import ASSOCIATED, TableChanges


class VpcChanges(GroupChanges, AclChanges, TableChanges):
    def block_of_new(self, change: Change) -> str:
        block = change.after.get("cidr_block")
        if not block:
            raise Untold(f"its cidr_block {UNKNOWN}")
        return block_of(block, 4)

    def make_vpc(self, change: Change) -> None:
        vpc, block, part = self.plan.own_id(change), self.block_of_new(change), self.home()
        whose = owner(next(iter(part.get("Vpcs") or []), {}))
        row = {
            **whose,
            "CidrBlockAssociationSet": [{"CidrBlock": block, "CidrBlockState": dict(ASSOCIATED)}],
            "IsDefault": False,
            "Tags": tags_of(change),
            "VpcId": vpc,
            "State": "available",
            "CidrBlock": block,
        }
        self.bundle.add(part, "Vpcs", row)
        self.make_defaults(part, vpc, whose)

    def make_defaults(self, part: Row, vpc: str, whose: Row) -> None:
        """The main table, the default ACL and the default group of a new VPC."""
        table = of_vpc(vpc, "default_route_table_id")
        tie = {"Main": True, "RouteTableId": table, "AssociationState": dict(ASSOCIATED)}
        self.add_table(part, table, vpc, [], whose)["Associations"] = [tie]
        acl = of_vpc(vpc, "default_network_acl_id")
        allowed = [every_row(100, egress, "allow") for egress in (True, False)]
        self.add_acl(part, acl, vpc, [], whose, True)["Entries"][:0] = allowed
        group = of_vpc(vpc, "default_security_group_id")
        row: Row = {**whose, "GroupId": group, "GroupName": "default"}
        row.update(Description="default VPC security group", Tags=[], VpcId=vpc)
        self.add_group(part, row)
        own = self.bundle.row("GroupId", group)
        inward = Rule(False, "-1", None, None, "GroupId", group)
        self.rules.add(own, inward, None, f"{group}.ingress")
        outward = Rule(True, "-1", None, None, "CidrIpv4", "0.0.0.0/0")
        self.rules.add(own, outward, None, f"{group}.egress")

    def fill_vpc(self, change: Change) -> None:
        if change.does("update") and change.differs("cidr_block"):
            raise Untold("its cidr_block is another one")

    def drop_vpc(self, change: Change) -> None:
        vpc = change.before.get("id")
        row = self.bundle.row("VpcId", vpc)
        used = [
            it[LISTS[name]] for name in ("Subnets", *USED_BY_VPC) for it in self.bundle.rows(name)
            if it.get("VpcId") == vpc and not came_with_vpc(it)
        ]
        for it in self.bundle.rows("InternetGateways"):
            if any(to.get("VpcId") == vpc for to in rows(it, "Attachments")):
                used.append(it.get("InternetGatewayId"))
        gateways = self.bundle.rows("VpnGateways")
        used += [it["VpnGatewayId"] for it in gateways if vpc_attached(it) == vpc]
        endpoints = self.bundle.rows("VpcEndpoints")
        used += [it["VpcEndpointId"] for it in endpoints if it.get("VpcId") == vpc]
        self.refuse_used(used)
        for name in USED_BY_VPC:
            for it in [it for it in self.bundle.rows(name) if it.get("VpcId") == vpc]:
                if name == "SecurityGroups":
                    self.rules.clear(it)
                self.bundle.remove(name, it[LISTS[name]])
        self.dissociate(VpcId=row["VpcId"])
        self.bundle.remove("Vpcs", row["VpcId"])

    # -- subnets

    def make_subnet(self, change: Change) -> None:
        subnet, vpc = self.plan.own_id(change), self.vpc_of(change)
        whose = owner(self.bundle.row("VpcId", vpc))
        block = change.after.get("cidr_block")
        if not block:
            raise Untold(f"its cidr_block {UNKNOWN}")
        zone, acl = self.zone_of(change, subnet), self.bundle.default_acl(vpc)
        self.bundle.main_table(vpc)
        ipv6 = change.after.get("ipv6_cidr_block")
        state = {"Ipv6CidrBlock": ipv6, "Ipv6CidrBlockState": dict(ASSOCIATED)}
        row = {
            **zone,
            **whose,
            "Tags": tags_of(change),
            "SubnetId": subnet,
            "State": "available",
            "VpcId": vpc,
            "CidrBlock": block_of(block, 4),
            "DefaultForAz": False,
            "MapPublicIpOnLaunch": change.after.get("map_public_ip_on_launch") is True,
            "Ipv6CidrBlockAssociationSet": [state] if ipv6 else [],
        }
        self.bundle.add(self.bundle.part_of("Vpcs", vpc), "Subnets", row)
        tie = {"NetworkAclId": acl["NetworkAclId"], "SubnetId": subnet}
        room(acl, "Associations").append(tie)

    def zone_of(self, change: Change, subnet: str) -> Row:
        """The zone of a new subnet, by its name and its id, as other subnets have them side by
        side."""
        name, code = (change.after.get(f"availability_zone{it}") for it in ("", "_id"))
        for it in self.bundle.rows("Subnets"):
            if name and it.get("AvailabilityZone") == name:
                code = code or it.get("AvailabilityZoneId")
            if code and it.get("AvailabilityZoneId") == code:
                name = name or it.get("AvailabilityZone")
        if not name:
            what = "; over a transit gateway no packet comes to it"
            self.tell_unknown(change, "its availability zone", what)
            name = NewId(f"{subnet}.availability_zone", None)
        return {"AvailabilityZone": name, **({"AvailabilityZoneId": code} if code else {})}

    def fill_subnet(self, change: Change) -> None:
        names = ("cidr_block", "vpc_id", "availability_zone")
        if change.does("update") and any(map(change.differs, names)):
            raise Untold("its block, VPC or zone is another one")

    def drop_subnet(self, change: Change) -> None:
        subnet = change.before.get("id")
        row = self.bundle.row("SubnetId", subnet)
        used: list[Any] = []
        for name in ("NetworkInterfaces", "NatGateways"):
            for it in self.bundle.rows(name):
                is_there = name != "NatGateways" or it.get("State") == "available"
                if it.get("SubnetId") == subnet and is_there:
                    used.append(it.get(LISTS[name]))
        for it in self.bundle.rows("TransitGatewayVpcAttachments"):
            if subnet in (it.get("SubnetIds") or []):
                used.append(it.get("TransitGatewayAttachmentId"))
        self.refuse_used(used)
        for name in ("RouteTables", "NetworkAcls"):
            self.untie(name, "SubnetId", subnet)
        self.bundle.remove("Subnets", row["SubnetId"])
