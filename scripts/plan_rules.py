"""The rules of security groups, in their permissions and, where a bundle has them, in
SecurityGroupRules."""

from __future__ import annotations

from collections.abc import Iterator
from typing import Any, NamedTuple, Optional

from scripts.bundles import Row, member
from scripts.plan_changes import id_text, shown
from scripts.plan_rows import NAMED, Bundle, block_if, inner, room


class Rule(NamedTuple):
    outward: bool
    protocol: str
    first: Any
    last: Any
    kind: str
    target: Any

    @property
    def traffic(self) -> tuple[str, Any, Any]:
        return self.protocol, self.first, self.last

    @property
    def permissions(self) -> str:
        """The list of a group that has such rules."""
        return "IpPermissionsEgress" if self.outward else "IpPermissions"

    def said(self) -> str:
        """A rule in words."""
        is_all = self.first is None and self.last is None
        ports = "" if is_all else f" {self.first}-{self.last}"
        protocol = "all" if self.protocol == "-1" else self.protocol
        return f"{'egress' if self.outward else 'ingress'} {protocol}{ports} of {self.target}"


# A place of the list of rules, and the row that stood there.
Place = tuple[Optional[int], Optional[Row]]
NOWHERE: Place = (None, None)
# Kinds of targets: the list within a permission and its member.
OF_PERMISSION = {
    "CidrIpv4": ("IpRanges", "CidrIp"),
    "CidrIpv6": ("Ipv6Ranges", "CidrIpv6"),
    "PrefixListId": ("PrefixListIds", "PrefixListId"),
    "GroupId": ("UserIdGroupPairs", "GroupId"),
}
OF_IPV4 = ("IpRanges", "PrefixListIds", "UserIdGroupPairs")
PERMISSIONS = ("IpPermissions", "IpPermissionsEgress")


def traffic_of(protocol: str, first: Any, last: Any) -> tuple[str, Any, Any]:
    """Protocol and ports so that equal rules are equal."""
    if protocol in ("tcp", "udp"):
        return protocol, None if first == -1 else first, None if last == -1 else last
    if protocol in ("icmp", "icmpv6"):
        return protocol, -1 if first is None else first, -1 if last is None else last
    return protocol, None, None


def told_traffic(row: Row) -> tuple[str, Any, Any]:
    """That of a row of a bundle."""
    text = str(row.get("IpProtocol")).lower()
    return traffic_of(NAMED.get(text, text), row.get("FromPort"), row.get("ToPort"))


def told_target(row: Row) -> Optional[tuple[str, Any]]:
    """That of a rule that is listed separately; None where it has none."""
    named = member(row, "ReferencedGroupInfo", "GroupId")
    if named is not None:
        return "GroupId", named
    for kind in ("CidrIpv4", "CidrIpv6", "PrefixListId"):
        if row.get(kind) is not None:
            return kind, block_if(row[kind])
    return None


def is_same(row: Row, rule: Rule) -> bool:
    is_outward = bool(row.get("IsEgress")) == rule.outward
    alike = is_outward and told_traffic(row) == rule.traffic
    return alike and told_target(row) == (rule.kind, rule.target)


def describe(row: Row, description: Any) -> None:
    row.pop("Description", None)
    if description:
        row["Description"] = description


class Rules:
    """The rules of a bundle's groups."""

    def __init__(self, bundle: Bundle) -> None:
        self.bundle = bundle
        self.listed: dict[str, list[Row]] = {}
        for part in bundle.objects:
            for it in part.get("SecurityGroupRules") or []:
                if isinstance(it.get("GroupId"), str):
                    self.listed.setdefault(it["GroupId"], []).append(it)

    def of(self, group: Row) -> list[Row]:
        """The rows of a group's rules."""
        return self.listed.get(group["GroupId"], [])

    def are_listed(self, group: Row) -> bool:
        """Whether a group's rules are listed separately. Where a group has rules and the list has
        none of them, they count."""
        part = self.bundle.part_of("SecurityGroups", group["GroupId"])
        own = (permission for name in PERMISSIONS for permission in inner(group, name))
        has_own = any(permission.get(it) for permission in own for it in OF_IPV4)
        return self.has_row(group) or not has_own and part.get("SecurityGroupRules") is not None

    def has_row(self, group: Row) -> bool:
        """Whether the list has a rule of a group that is about IPv4."""
        kinds = ((told_target(it) or ("CidrIpv6",))[0] for it in self.of(group))
        return any(it != "CidrIpv6" for it in kinds)

    def has(self, group: Row, rule: Rule) -> bool:
        if self.are_listed(group):
            return any(is_same(it, rule) for it in self.of(group))
        return any(True for _ in self.permitted(group, rule))

    def permitted(self, group: Row, rule: Rule) -> Iterator[tuple[Row, Row]]:
        """Where a rule stands in a group's permissions: the permission, and the target."""
        for permission in inner(group, rule.permissions):
            if told_traffic(permission) == rule.traffic:
                name, key = OF_PERMISSION[rule.kind]
                for it in inner(permission, name):
                    if block_if(it.get(key)) == rule.target:
                        yield permission, it

    def remove(self, group: Row, rule: Rule) -> Place:
        """Takes a rule away, and gives where it stood in the list and its row, if there."""
        was_listed = self.has_row(group)
        for permission, target in list(self.permitted(group, rule)):
            kind = OF_PERMISSION[rule.kind][0]
            permission[kind] = [it for it in permission[kind] if it is not target]
            if not any(permission.get(it) for it, _ in OF_PERMISSION.values()):
                left = [it for it in group[rule.permissions] if it is not permission]
                group[rule.permissions] = left
        row = next((it for it in self.of(group) if is_same(it, rule)), None)
        if row is None:
            return NOWHERE
        place = self.unlist(row)
        if was_listed and not self.has_row(group):
            self.forget_permissions(group)
        return place

    def forget_permissions(self, group: Row) -> None:
        """Where the list has no rule of a group any more, its permissions count: of them none may
        be left that didn't count before."""
        for name in PERMISSIONS:
            for permission in inner(group, name):
                permission.update((it, []) for it in OF_IPV4 if permission.get(it))
            if group.get(name):
                group[name] = [it for it in group[name] if it.get("Ipv6Ranges")]

    def unlist(self, row: Row) -> Place:
        group = row["GroupId"]
        self.listed[group] = [it for it in self.listed[group] if it is not row]
        for part in self.bundle.objects:
            for number, it in enumerate(part.get("SecurityGroupRules") or []):
                if it is row:
                    known = shown(row.get("SecurityGroupRuleId"))
                    self.bundle.index["SecurityGroupRules"].pop(known, None)
                    del part["SecurityGroupRules"][number]
                    return number, row
        return NOWHERE

    def add(
        self, group: Row, rule: Rule, description: Any, name: str, place: Place = NOWHERE
    ) -> None:
        """Puts a rule in, where it isn't there; at a place of the list, with the members of the row
        that stood there."""
        if self.has(group, rule):
            return
        listed = self.are_listed(group)
        told = {"Description": description} if description else {}
        named = self.bundle.find("SecurityGroups", rule.target) if rule.kind == "GroupId" else None
        whose = member(named, "OwnerId")
        user = {"UserId": whose} if whose else {}
        self.permit(group, rule, {**told, **user})
        if listed:
            row = self.new_row(group, rule, user, name, place[1])
            self.enlist(group, {**row, **told}, place[0])

    def permit(self, group: Row, rule: Rule, more: Row) -> None:
        """EC2 keeps the targets of one traffic together."""
        name, key = OF_PERMISSION[rule.kind]
        permissions = room(group, rule.permissions)
        found = next((it for it in permissions if told_traffic(it) == rule.traffic), None)
        if found is None:
            is_all = rule.first is None and rule.last is None
            ports = {} if is_all else {"FromPort": rule.first, "ToPort": rule.last}
            found = {"IpProtocol": rule.protocol, **ports}
            found.update((it, []) for it in ("UserIdGroupPairs", "IpRanges"))
            found.update((it, []) for it in ("Ipv6Ranges", "PrefixListIds"))
            permissions.append(found)
        room(found, name).append({key: rule.target, **more})

    def new_row(self, group: Row, rule: Rule, user: Row, name: str, old: Optional[Row]) -> Row:
        """The row of a rule, with the members of the one that stood in its place."""
        target: Row = {rule.kind: rule.target}
        if rule.kind == "GroupId":
            target = {"ReferencedGroupInfo": {"GroupId": rule.target, **user}}
        replaced = {"CidrIpv4", "CidrIpv6", "PrefixListId", "ReferencedGroupInfo", "Description"}
        row = {it: value for it, value in (old or {}).items() if it not in replaced}
        if not old:
            row = {"SecurityGroupRuleId": self.fresh(name), "GroupId": group["GroupId"]}
            row.update({"GroupOwnerId": group["OwnerId"]} if "OwnerId" in group else {})
        first, last = (-1 if it is None else it for it in (rule.first, rule.last))
        row.update(IsEgress=rule.outward, IpProtocol=rule.protocol, FromPort=first, ToPort=last)
        return {**row, **target}

    def enlist(self, group: Row, row: Row, number: Optional[int]) -> None:
        row.setdefault("Tags", [])
        part = self.bundle.part_of("SecurityGroups", group["GroupId"])
        self.bundle.add(part, "SecurityGroupRules", row)
        self.listed.setdefault(group["GroupId"], []).append(row)
        if number is not None:
            part["SecurityGroupRules"].insert(number, part["SecurityGroupRules"].pop())

    def fresh(self, name: str) -> str:
        """A name for a rule that no other has: two rules of one id are one."""
        found, number = id_text(name), 1
        while found in self.bundle.index["SecurityGroupRules"]:
            number += 1
            found = id_text(f"{name}.{number}")
        return found

    def describe(self, group: Row, rule: Rule, description: Any) -> None:
        for _, target in self.permitted(group, rule):
            describe(target, description)
        for it in self.of(group):
            if is_same(it, rule):
                describe(it, description)

    def clear(self, group: Row) -> None:
        """Takes away all rules of a group."""
        for row in list(self.of(group)):
            self.unlist(row)
        group["IpPermissions"], group["IpPermissionsEgress"] = [], []
