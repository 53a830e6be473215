"""Changes of security groups and of their rules."""

from __future__ import annotations

from typing import Any, NamedTuple, Optional

from scripts.bundles import Row, member, rows
from scripts.plan_changes import UNKNOWN, Change, NewId, Untold, has_true, items, shown
from scripts.plan_naming import NamingChanges
from scripts.plan_rows import block_of, has_group, inner, owner, ports_in, protocol_of, tags_of
from scripts.plan_rules import PERMISSIONS, Rule, told_target, traffic_of

# The attributes of a block that name what a rule is from or to, and the kinds of these targets.
TARGETS = {
    "cidr_blocks": "CidrIpv4",
    "ipv6_cidr_blocks": "CidrIpv6",
    "prefix_list_ids": "PrefixListId",
    "security_groups": "GroupId",
}
# The same of an aws_vpc_security_group_ingress_rule or .._egress_rule.
TARGET = {"cidr_ipv4": "CidrIpv4", "cidr_ipv6": "CidrIpv6", "prefix_list_id": "PrefixListId"}
OF_RULE = ("type", "protocol", "from_port", "to_port", *list(TARGETS)[:3], "self")
OF_VPC_RULE = "ip_protocol from_port to_port cidr_ipv4 cidr_ipv6 prefix_list_id".split()

# Rules with their descriptions.
Described = dict[Rule, Any]
Traffic = tuple[str, Any, Any]
# Whether it is outward, protocol and ports, and the kind of target.
Head = tuple[bool, str, Any, Any, str]
# Protocol and ports, and the kind of target, of which some rules aren't known; None where nothing
# is.
Doubtful = set[Optional[tuple[Traffic, str]]]


class Block(NamedTuple):
    """A block of a group's rules: the group, `ingress` or `egress`, its values, and what of them
    isn't known."""

    group: Row
    name: str
    row: Row
    unknown: Any


class GroupChanges(NamingChanges):
    def add_group(self, part: Row, row: Row) -> None:
        empty: Row = {it: [] for it in PERMISSIONS}
        self.bundle.add(part, "SecurityGroups", {**row, **empty})

    def make_group(self, change: Change) -> None:
        vpc = self.vpc_of(change)
        group, row = self.plan.own_id(change), self.bundle.row("VpcId", vpc)
        name = change.after.get("name") or group
        description = change.after.get("description") or ""
        own = {"GroupId": group, "Tags": tags_of(change), "VpcId": vpc, **owner(row)}
        own.update(GroupName=name, Description=description)
        self.add_group(self.bundle.part_of("Vpcs", vpc), own)

    def fill_group(self, change: Change) -> None:
        self.inline_rules(change, self.own(change, "GroupId"))

    def fill_default_group(self, change: Change) -> None:
        """Terraform takes all rules away from a default group when it begins to manage it."""
        if change.does("create"):
            group = self.bundle.default_group(self.vpc_of(change))
            self.rules.clear(group)
        else:
            group = self.bundle.row("GroupId", change.after.get("id"))
        self.inline_rules(change, group)

    # -- rules within a group

    def inline_rules(self, change: Change, group: Row) -> None:
        is_update = not change.does("create")
        for name in ("ingress", "egress"):
            if change.unknown.get(name) is True:
                # (a new group without such blocks)
                if self.plan.is_told(change, name) or is_update:
                    self.tell_unknown(change, name)
                continue
            if is_update and not change.differs(name):
                continue
            before: Described = {}
            if is_update:
                before = self.rules_of_blocks(change, group, name, change.before, None)[0]
            after, doubtful = self.rules_of_blocks(
                change, group, name, change.after, change.unknown
            )
            kept = {
                it: text for it, text in before.items()
                if (it.traffic, it.kind) in doubtful or None in doubtful
            }
            wanted = {**kept, **after}
            self.change_rules(change, group, before, wanted, f"{group['GroupId']}.{name}")

    def rules_of_blocks(
        self, change: Change, group: Row, name: str, values: Row, unknown: Any
    ) -> tuple[Described, Doubtful]:
        """The rules of a group's blocks with their descriptions, and the traffic and kinds of which
        some aren't known."""
        rules: Described = {}
        doubtful: Doubtful = set()
        for number, row in enumerate(rows(values, name)):
            not_known = member(unknown, name, number) if unknown else {}
            block = Block(group, name, row, not_known or {})
            self.rules_of_block(change, block, rules, doubtful)
        return rules, doubtful

    def rules_of_block(
        self, change: Change, block: Block, rules: Described, doubtful: Doubtful
    ) -> None:
        name, row = block.name, block.row
        try:
            traffic = self.traffic_of_block(block)
        except Untold as why:
            doubtful.add(None)
            self.tell(change.address, f"{name} {shown(row.get('protocol'))}: {why}")
            return
        ports = f"{traffic[0]} {row.get('from_port')}-{row.get('to_port')}"
        for attribute, kind in TARGETS.items():
            try:
                found = [it for it in items(row.get(attribute)) if it is not None]
                if has_true(member(block.unknown, attribute)):
                    doubtful.add((traffic, kind))
                    found += self.not_known(change, name, kind)
                head = (name == "egress", *traffic, kind)
                self.put_targets(rules, head, found, row.get("description"))
            except Untold as why:
                doubtful.add((traffic, kind))
                self.tell(change.address, f"{name} {ports}: {attribute} {why}")
        if row.get("self") is True:
            own = Rule(name == "egress", *traffic, "GroupId", block.group["GroupId"])
            rules[own] = row.get("description")

    def traffic_of_block(self, block: Block) -> Traffic:
        names = ("protocol", "from_port", "to_port", "self")
        if any(has_true(member(block.unknown, it)) for it in names):
            raise Untold("its protocol and ports aren't known before the apply")
        return self.traffic_of(block.row, "protocol")

    def traffic_of(self, values: Row, name: str) -> Traffic:
        protocol = protocol_of(values.get(name))
        return traffic_of(protocol, *ports_in(values, protocol))

    def not_known(self, change: Change, name: str, kind: str) -> list[Any]:
        """What a list within a block will be: the only id to come to which the blocks refer."""
        if kind != "GroupId":
            raise Untold(UNKNOWN)
        return [self.plan.one_among(change, name, kind, self.bundle.is_group)]

    def put_targets(self, rules: Described, head: Head, found: list[Any], description: Any) -> None:
        for it in found:
            rules[Rule(*head, self.target_of(head[-1], it))] = description

    def target_of(self, kind: str, value: Any) -> Any:
        """A rule's target as a bundle has it."""
        if kind in ("CidrIpv4", "CidrIpv6"):
            return block_of(value, 4 if kind == "CidrIpv4" else 6)
        if kind == "PrefixListId":
            if not self.bundle.has_prefix_list(value):
                raise Untold(f"names {shown(value)}, which the bundle doesn't have")
            return value
        if not isinstance(value, NewId) and not self.bundle.is_group(value):
            raise Untold(f"names {shown(value)}, which is no group of the bundle")
        return value if isinstance(value, NewId) else value.rpartition("/")[2]

    def change_rules(
        self, change: Change, group: Row, before: Described, after: Described, name: str
    ) -> None:
        """Takes away and puts in what differs."""
        for rule in before:
            if rule in after:
                continue
            if self.rules.has(group, rule):
                self.rules.remove(group, rule)
            else:
                self.tell(change.address, f"the bundle has no {rule.said()} to take away")
        for rule, text in after.items():
            if rule not in before:
                self.rules.add(group, rule, text, name)
            elif (before[rule] or None) != (text or None):
                self.rules.describe(group, rule, text)

    def drop_group(self, change: Change) -> None:
        group = change.before.get("id")
        row = self.bundle.row("GroupId", group)
        interfaces = self.bundle.rows("NetworkInterfaces")
        used = [it.get("NetworkInterfaceId") for it in interfaces if has_group(it, group)]
        for it in self.bundle.rows("SecurityGroups"):
            is_staying = it is not row and shown(it.get("GroupId")) not in self.plan.leaving
            if is_staying and self.names_group(it, group):
                used.append(it.get("GroupId"))
        self.refuse_used(used)
        self.rules.clear(row)
        self.dissociate(GroupId=row["GroupId"])
        self.bundle.remove("SecurityGroups", row["GroupId"])

    def names_group(self, row: Row, group: Any) -> bool:
        listed = self.rules.listed.get(shown(row.get("GroupId")), [])
        if any(told_target(it) == ("GroupId", group) for it in listed):
            return True
        permissions = [it for name in PERMISSIONS for it in inner(row, name)]
        pairs = [pair for it in permissions for pair in inner(it, "UserIdGroupPairs")]
        return any(it.get("GroupId") == group for it in pairs)

    # -- rules of their own

    def group_of(self, change: Change) -> Row:
        return self.named(change, "GroupId", "security_group_id")

    def group_before(self, change: Change) -> Row:
        return self.bundle.row("GroupId", change.before.get("security_group_id"))

    def group_rules(self, change: Change, values: Row, group: Any) -> Described:
        """The rules of an aws_security_group_rule."""
        head = (values.get("type") == "egress", *self.traffic_of(values, "protocol"))
        rules: Described = {}
        text = values.get("description")
        for attribute, kind in TARGETS.items():
            if kind != "GroupId":
                self.put_targets(rules, (*head, kind), items(values.get(attribute)), text)
        named = self.named_group(change, values, "source_security_group_id")
        self.put_targets(rules, (*head, "GroupId"), [named] if named else [], text)
        own = [group] if values.get("self") is True else []
        self.put_targets(rules, (*head, "GroupId"), own, text)
        if not rules:
            raise Untold("it names nothing from or to which it is")
        return rules

    def named_group(self, change: Change, values: Row, name: str) -> Any:
        """The group that a rule names, before or after the change."""
        is_before = values is change.before
        return values.get(name) if is_before else self.plan.one(change, name, "GroupId")

    def fill_group_rule(self, change: Change) -> None:
        group = self.group_of(change)
        self.refuse_unknown(change, OF_RULE)
        before: Described = {}
        if not change.does("create"):
            before = self.group_rules(change, change.before, group["GroupId"])
        after = self.group_rules(change, change.after, group["GroupId"])
        self.change_rules(change, group, before, after, change.address)

    def take_group_rule(self, change: Change) -> None:
        group = self.group_before(change)
        before = self.group_rules(change, change.before, group["GroupId"])
        self.change_rules(change, group, before, {}, "")

    def vpc_rule(self, change: Change, values: Row) -> tuple[Rule, Any]:
        """The one rule of an aws_vpc_security_group_ingress_rule or .._egress_rule."""
        head = ("egress" in change.type, *self.traffic_of(values, "ip_protocol"))
        rules: Described = {}
        text = values.get("description")
        for name, kind in TARGET.items():
            found = [values[name]] if values.get(name) else []
            self.put_targets(rules, (*head, kind), found, text)
        named = self.named_group(change, values, "referenced_security_group_id")
        self.put_targets(rules, (*head, "GroupId"), [named] if named else [], text)
        if len(rules) != 1:
            raise Untold("it doesn't name one thing from or to which it is")
        return next(iter(rules.items()))

    def fill_vpc_rule(self, change: Change) -> None:
        group = self.group_of(change)
        self.refuse_unknown(change, OF_VPC_RULE)
        rule, text = self.vpc_rule(change, change.after)
        if change.does("create"):
            self.rules.add(group, rule, text, change.address)
            return
        old = self.vpc_rule(change, change.before)[0]
        if old == rule:
            self.rules.describe(group, rule, text)
            return
        if not self.rules.has(group, old):
            raise Untold(f"the bundle has no {old.said()} to change")
        place = self.rules.remove(group, old)
        self.rules.add(group, rule, text, change.after.get("id") or change.address, place)

    def take_vpc_rule(self, change: Change) -> None:
        group = self.group_before(change)
        rule, text = self.vpc_rule(change, change.before)
        self.change_rules(change, group, {rule: text}, {}, "")
