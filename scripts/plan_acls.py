"""Changes of network ACLs, of their rows and of the subnets that have them."""

from __future__ import annotations

from typing import Any, Optional

from scripts.bundles import Row, member, rows
from scripts.plan_applying import Applying
from scripts.plan_changes import UNKNOWN, Change, Untold, has_true, items, shown
from scripts.plan_rows import (
    LAST_ROWS, EntryKey, entry_key, entry_of, entry_said, every_row, inner, owner, room, tags_of,
)

OF_ACL_RULE = (
    "rule_number egress protocol rule_action cidr_block ipv6_cidr_block from_port to_port "
    "icmp_type icmp_code"
).split()
Entries = dict[EntryKey, Row]


class AclChanges(Applying):
    def add_acl(
        self, part: Row, acl: Any, vpc: Any, tags: list[Row], whose: Row, is_default: bool
    ) -> Row:
        row = {
            "Associations": [],
            "Entries": [every_row(LAST_ROWS, egress, "deny") for egress in (True, False)],
            "IsDefault": is_default,
            "NetworkAclId": acl,
            "Tags": tags,
            "VpcId": vpc,
            **whose,
        }
        self.bundle.add(part, "NetworkAcls", row)
        return row

    def make_acl(self, change: Change) -> None:
        vpc = self.vpc_of(change)
        row, part = self.bundle.row("VpcId", vpc), self.bundle.part_of("Vpcs", vpc)
        acl = self.plan.own_id(change)
        self.add_acl(part, acl, vpc, tags_of(change), owner(row), False)

    def fill_acl(self, change: Change) -> None:
        acl = self.own(change, "NetworkAclId")
        self.change_blocks(change, acl)
        is_told = not change.is_unknown("subnet_ids") or self.plan.is_told(change, "subnet_ids")
        if not is_told or not change.differs("subnet_ids"):
            return
        wanted = self.subnets_of(change)
        for it in items(change.before.get("subnet_ids")) if change.does("update") else []:
            if it not in wanted:
                self.untie_acl(it, acl)
        for it in wanted:
            self.tie_acl(it, acl)

    def subnets_of(self, change: Change) -> list[Any]:
        return self.plan.all_of(change, "subnet_ids", "SubnetId", self.bundle.is_subnet)

    def fill_default_acl(self, change: Change) -> None:
        """Terraform takes all rows away from a default ACL when it begins to manage it. Subnets
        never leave it by that."""
        found = self.plan.one(change, "default_network_acl_id", "NetworkAclId")
        acl = self.bundle.row("NetworkAclId", found or change.after.get("id"))
        if change.does("create"):
            acl["Entries"] = [it for it in inner(acl, "Entries") if not is_changeable(it)]
        self.change_blocks(change, acl)
        is_told = change.after.get("subnet_ids") or self.plan.is_told(change, "subnet_ids")
        if change.differs("subnet_ids") and is_told:
            for it in self.subnets_of(change):
                self.tie_acl(it, acl)

    def drop_acl(self, change: Change) -> None:
        acl = self.bundle.row("NetworkAclId", change.before.get("id"))
        if acl.get("IsDefault") is True:
            raise Untold("it is the default one of its VPC")
        for it in list(inner(acl, "Associations")):
            self.untie_acl(it.get("SubnetId"), acl)
        self.bundle.remove("NetworkAcls", acl["NetworkAclId"])

    # -- the subnets that have one

    def tie_acl(self, subnet: Any, acl: Row) -> None:
        self.bundle.row("SubnetId", subnet)
        old = self.untie("NetworkAcls", "SubnetId", subnet) or {"SubnetId": subnet}
        room(acl, "Associations").append({**old, "NetworkAclId": acl["NetworkAclId"]})

    def untie_acl(self, subnet: Any, acl: Row) -> None:
        """A subnet that leaves an ACL goes back to the default one of its VPC. One that has another
        by now stays."""
        if any(it.get("SubnetId") == subnet for it in inner(acl, "Associations")):
            self.tie_acl(subnet, self.bundle.default_acl(acl.get("VpcId")))

    def fill_acl_association(self, change: Change) -> None:
        acl = self.named(change, "NetworkAclId", "network_acl_id")
        self.tie_acl(self.plan.one(change, "subnet_id", "SubnetId"), acl)

    def take_acl_association(self, change: Change) -> None:
        acl = self.bundle.row("NetworkAclId", change.before.get("network_acl_id"))
        self.untie_acl(change.before.get("subnet_id"), acl)

    # -- rows

    def change_blocks(self, change: Change, acl: Row) -> None:
        before: Entries = {}
        after: Entries = {}
        doubtful: set[EntryKey] = set()
        is_new = change.does("create")
        for name in ("ingress", "egress"):
            if change.unknown.get(name) is True:
                if self.plan.is_told(change, name) or not is_new:
                    self.tell_unknown(change, name)
                continue
            if not is_new:
                before |= self.entries_of(change, name, change.before, {}, set())
            after |= self.entries_of(change, name, change.after, change.unknown, doubtful)
        for key, entry in before.items():
            if entry != after.get(key) and not doubtful & {key, (None, key[1])}:
                self.remove_entry(change, acl, key)
        for key, entry in after.items():
            if entry != before.get(key):
                self.add_entry(change, acl, entry)

    def entries_of(
        self, change: Change, name: str, values: Row, unknown: Row, doubtful: set[EntryKey]
    ) -> Entries:
        """The rows of an ACL's blocks by their keys. Those keys of which the rows aren't known
        become doubtful."""
        found: Entries = {}
        for number, row in enumerate(rows(values, name)):
            try:
                if has_true(member(unknown, name, number)):
                    raise Untold(f"it {UNKNOWN}")
                entry = entry_of(row, name == "egress")
                found[entry_key(entry)] = entry
            except Untold as why:
                key: Optional[Any] = row.get("rule_no")
                doubtful.add((key if isinstance(key, int) else None, name == "egress"))
                self.tell(change.address, f"{name} {shown(key)}: {why}")
        return found

    def remove_entry(self, change: Change, acl: Row, key: EntryKey) -> None:
        left = [it for it in inner(acl, "Entries") if entry_key(it) != key]
        if len(left) == len(inner(acl, "Entries")):
            said = entry_said(acl, key)
            self.tell(change.address, f"the bundle has no row {said} to take away")
        else:
            acl["Entries"] = left

    def add_entry(self, change: Change, acl: Row, entry: Row) -> None:
        key = entry_key(entry)
        if any(entry_key(it) == key for it in inner(acl, "Entries")):
            self.tell(change.address, f"the bundle has a row {entry_said(acl, key)} already")
        else:
            room(acl, "Entries").append(entry)

    def fill_acl_rule(self, change: Change) -> None:
        acl = self.named(change, "NetworkAclId", "network_acl_id")
        self.refuse_unknown(change, OF_ACL_RULE)
        if change.does("update"):
            self.take_acl_rule(change)
        entry = entry_of(change.after, change.after.get("egress") is True)
        self.add_entry(change, acl, entry)

    def take_acl_rule(self, change: Change) -> None:
        acl = self.bundle.row("NetworkAclId", change.before.get("network_acl_id"))
        key = (change.before.get("rule_number"), change.before.get("egress") is True)
        self.remove_entry(change, acl, key)


def is_changeable(entry: Row) -> bool:
    number = entry.get("RuleNumber")
    return isinstance(number, int) and number < LAST_ROWS
