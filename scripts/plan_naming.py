"""Changes of where security groups count beside their own VPC: the VPCs with which they are
associated, and transit gateways over which rules may name them."""

from __future__ import annotations

from typing import Any

from scripts.bundles import LISTS
from scripts.plan_applying import Applying
from scripts.plan_changes import Change, Untold, shown

ASSOCIATIONS = "SecurityGroupVpcAssociations"
# The option by which rules may name groups, as Terraform calls it.
NAMING = "security_group_referencing_support"
NAMING_LISTS = {
    "aws_ec2_transit_gateway": "TransitGateways",
    "aws_ec2_transit_gateway_vpc_attachment": "TransitGatewayVpcAttachments",
}


class NamingChanges(Applying):
    def make_association(self, change: Change) -> None:
        group = self.named(change, "GroupId", "security_group_id")
        vpc = self.named(change, "VpcId", "vpc_id")
        whose = {"VpcOwnerId": vpc["OwnerId"]} if isinstance(vpc.get("OwnerId"), str) else {}
        row = {"GroupId": group["GroupId"], "VpcId": vpc["VpcId"], **whose, "State": "associated"}
        self.bundle.add(self.bundle.part_of("Vpcs", vpc["VpcId"]), ASSOCIATIONS, row)

    def take_association(self, change: Change) -> None:
        group, vpc = change.before.get("security_group_id"), change.before.get("vpc_id")
        if not self.dissociate(GroupId=group, VpcId=vpc):
            what = f"no association of {shown(group)} with {shown(vpc)}"
            raise Untold(f"the bundle has {what} to take away")

    def dissociate(self, **ids: Any) -> bool:
        """Takes away the associations of groups with VPCs that have these ids. Whether there was
        one."""
        found = False
        for part in self.bundle.objects:
            rows = part.get(ASSOCIATIONS) or []
            kept = [it for it in rows if any(it.get(name) != value for name, value in ids.items())]
            if len(kept) < len(rows):
                part[ASSOCIATIONS], found = kept, True
        return found

    def fill_naming(self, change: Change) -> None:
        """Whether rules may name groups over a transit gateway, or over an attachment."""
        if not change.differs(NAMING):
            return
        self.refuse_unknown(change, [NAMING])
        name, word = NAMING_LISTS[change.type], change.after.get(NAMING)
        own = change.after.get("id")
        if word not in ("enable", "disable"):
            raise Untold(f"{NAMING} is {shown(word)}")
        found = [it for it in self.bundle.rows(name) if it[LISTS[name]] == own]
        if not found:
            raise Untold(f"the bundle has no {shown(own)} among its {name}")
        for it in found:
            options = it["Options"] if isinstance(it.get("Options"), dict) else {}
            it["Options"] = {**options, "SecurityGroupReferencingSupport": word}
