"""The rows of a bundle, to be changed as a plan says: by their ids, and as EC2 writes them."""

from __future__ import annotations

import functools
import ipaddress
import re
from collections.abc import Callable, Iterator
from typing import Any, Optional

from scripts.bundles import LISTS, NoBundle, Row, has_lists, member, objects_of, rows
from scripts.commands import Refused
from scripts.plan_changes import Change, Untold, json_of, shown

# The lists whose rows a resource may be.
LIST_OF = {
    LISTS[name]: name
    for name in (
        "Vpcs", "Subnets", "NetworkInterfaces", "RouteTables", "NetworkAcls", "SecurityGroups",
        "VpnGateways", "VpcEndpoints",
    )
}
# Protocols as Terraform may name them in rows of ACLs.
PROTOCOLS = dict(
    it.split("=")
    for it in (
        "all=-1 hopopt=0 icmp=1 igmp=2 ggp=3 ipv4=4 st=5 tcp=6 cbt=7 egp=8 igp=9 udp=17 rdp=27 "
        "ipv6=41 gre=47 esp=50 ah=51 icmpv6=58 ipv6-icmp=58 eigrp=88 ospf=89 pim=103 vrrp=112 "
        "l2tp=115 sctp=132 udplite=136"
    ).split()
)
NAMED = {"6": "tcp", "17": "udp", "1": "icmp", "58": "icmpv6"}
NUMBERED = {name: number for number, name in NAMED.items()}
# Rows of an ACL from this number on can't be changed.
LAST_ROWS = 32767
USED_BY_VPC = ("SecurityGroups", "NetworkAcls", "RouteTables")


class Bundle:
    """The objects of a bundle, and their rows by their ids."""

    def __init__(self, path: str) -> None:
        self.value = json_of(path, "bundle")
        # (by lists and ids: the object that has the row, and the row)
        self.index: dict[str, dict[str, tuple[Row, Row]]] = {name: {} for name in LISTS}
        try:
            self.objects = has_lists(objects_of(self.value))
            for part in self.objects:
                for name in LISTS:
                    self.read_list(part, name)
        except NoBundle as why:
            raise Refused(f"{shown(path)} is no bundle: {why}") from None

    def read_list(self, part: Row, name: str) -> None:
        found = part.get(name)
        if found is not None and not is_list_of_rows(found):
            raise NoBundle(f"its {name} is no list of objects")
        for it in found or []:
            if isinstance(it.get(LISTS[name]), str):
                self.index[name].setdefault(it[LISTS[name]], (part, it))

    def rows(self, name: str) -> Iterator[Row]:
        """The rows of a list that have an id."""
        for part in self.objects:
            yield from (it for it in part.get(name) or [] if isinstance(it.get(LISTS[name]), str))

    def find(self, name: str, found: Any) -> Optional[Row]:
        """The row with an id; None where there is none."""
        is_there = isinstance(found, str) and found in self.index[name]
        return self.index[name][found][1] if is_there else None

    def row(self, kind: str, found: Any) -> Row:
        """The row with an id. That there is one is wanted."""
        if found is None:
            raise Untold(f"it names no {kind}")
        row = self.find(LIST_OF[kind], found)
        if row is None:
            raise Untold(f"the bundle has no {shown(found)}")
        return row

    def part_of(self, name: str, found: str) -> Row:
        """The object that has the row with an id."""
        return self.index[name][found][0]

    def add(self, part: Row, name: str, row: Row) -> None:
        if part.get(name) is None:
            part[name] = []
        part[name].append(row)
        self.index[name][row[LISTS[name]]] = (part, row)

    def remove(self, name: str, found: str) -> None:
        part, row = self.index[name].pop(found)
        part[name] = [it for it in part[name] if it is not row]

    def is_group(self, value: Any) -> bool:
        found = value.rpartition("/")[2] if isinstance(value, str) else None
        if found is None:
            return False
        is_id = re.fullmatch("sg-[0-9a-f]+", found) is not None
        return is_id or self.find("SecurityGroups", found) is not None

    def is_subnet(self, value: Any) -> bool:
        return self.find("Subnets", value) is not None

    def is_table(self, value: Any) -> bool:
        return self.find("RouteTables", value) is not None

    def is_gateway(self, value: Any) -> bool:
        return self.find("VpnGateways", value) is not None

    def has_prefix_list(self, found: Any) -> bool:
        listed = member(self.find("PrefixLists", found), "Cidrs")
        return listed is not None or self.find("PrefixListEntries", found) is not None

    # -- what a VPC has

    def one_of_vpc(self, name: str, vpc: Any, is_it: Callable[[Row], bool], what: str) -> Row:
        found = [it for it in self.rows(name) if it.get("VpcId") == vpc and is_it(it)]
        if len(found) != 1:
            raise Untold(f"the bundle doesn't tell the {what} of {shown(vpc)}")
        return found[0]

    def main_table(self, vpc: Any) -> Row:
        return self.one_of_vpc("RouteTables", vpc, is_main, "main route table")

    def default_acl(self, vpc: Any) -> Row:
        def is_default(row: Row) -> bool:
            return row.get("IsDefault") is True

        return self.one_of_vpc("NetworkAcls", vpc, is_default, "default ACL")

    def default_group(self, vpc: Any) -> Row:
        def is_default(row: Row) -> bool:
            return bool(row.get("GroupName") == "default")

        return self.one_of_vpc("SecurityGroups", vpc, is_default, "default group")

    def named_group(self, vpc: Any, name: Any) -> Any:
        def is_named(row: Row) -> bool:
            return name in (row.get("GroupName"), row["GroupId"])

        found = self.one_of_vpc("SecurityGroups", vpc, is_named, f"group {shown(name)}")
        return found["GroupId"]

    def instances(self) -> Iterator[Row]:
        """What is told of instances, in Reservations."""
        for it in (row for part in self.objects for row in rows(part, "Reservations")):
            yield from rows(it, "Instances")

    def interfaces_of(self, instance: Optional[str]) -> list[Row]:
        """The interfaces of an instance: by their attachments, or by what is told of the instance
        where they don't tell it."""
        if instance is None:
            return []
        told = [
            eni.get("NetworkInterfaceId") for row in self.instances()
            if row.get("InstanceId") == instance for eni in rows(row, "NetworkInterfaces")
        ]
        return [
            it for it in self.rows("NetworkInterfaces")
            if member(it, "Attachment", "InstanceId") == instance or it.get("Attachment") is None
            and it["NetworkInterfaceId"] in told
        ]

    def addresses(self, name: str) -> set[str]:
        """The private or the public addresses that interfaces have."""
        found = [
            that for it in self.rows("NetworkInterfaces")
            for that in (it, *rows(it, "PrivateIpAddresses"))
        ]
        path = (name,) if name == "PrivateIpAddress" else ("Association", name)
        return {shown(member(it, *path)) for it in found}

    def prefixes(self) -> set[str]:
        """The prefixes that are delegated to interfaces."""
        found = (that for it in self.rows("NetworkInterfaces") for that in rows(it, "Ipv4Prefixes"))
        return {shown(it.get("Ipv4Prefix")) for it in found}

    def default_vpc(self) -> Any:
        found = [it for it in self.rows("Vpcs") if it.get("IsDefault") is True]
        if len(found) != 1:
            raise Untold("the bundle doesn't tell the default VPC")
        return found[0]["VpcId"]


def is_list_of_rows(value: Any) -> bool:
    return isinstance(value, list) and all(isinstance(it, dict) for it in value)


def inner(row: Row, name: str) -> list[Row]:
    """A list within a row, to be read."""
    found = row.get(name)
    if found is not None and not is_list_of_rows(found):
        raise Untold(f"the bundle's {name} is no list of objects")
    return found or []


def room(row: Row, name: str) -> list[Row]:
    """The same to be added to: it is made where there is none."""
    if not inner(row, name):
        row[name] = []
    found: list[Row] = row[name]
    return found


def is_main(table: Row) -> bool:
    """Whether a route table is the main one of its VPC."""
    return any(it.get("Main") is True for it in inner(table, "Associations"))


def has_group(row: Row, group: Any) -> bool:
    return any(it.get("GroupId") == group for it in inner(row, "Groups"))


def came_with_vpc(row: Row) -> bool:
    if "GroupId" in row:
        return row.get("GroupName") == "default"
    return row.get("IsDefault") is True or "RouteTableId" in row and is_main(row)


def owner(row: Row) -> Row:
    """The account of a row as a member, where it is told."""
    return {"OwnerId": row["OwnerId"]} if isinstance(row.get("OwnerId"), str) else {}


def tags_of(change: Change) -> list[Row]:
    found = change.after.get("tags_all") or change.after.get("tags")
    pairs = found.items() if isinstance(found, dict) else ()
    return [{"Key": key, "Value": value} for key, value in pairs]


# ---- words of a plan as EC2 writes them


def network_of(text: Any) -> Any:
    return parsed(text if isinstance(text, str) else "")


@functools.lru_cache(None)
def parsed(text: str) -> Any:
    return ipaddress.ip_network(text, strict=False)


def block_of(text: Any, version: int) -> str:
    """A block as EC2 writes it: without host bits."""
    try:
        block = network_of(text)
    except ValueError:
        raise Untold(f"{shown(text)} is no block") from None
    if block.version != version:
        raise Untold(f"{shown(text)} is no block of IPv{version}")
    return str(block)


def block_if(text: Any) -> Any:
    """The same of a bundle's text, which may be none."""
    try:
        return str(network_of(text))
    except ValueError:
        return text


def meets(one: Any, other: Any) -> bool:
    """Whether two blocks or addresses share an address. What is neither shares none."""
    try:
        return bool(network_of(one).overlaps(network_of(other)))
    except ValueError:
        return False


def range_of(text: Any) -> tuple[int, int]:
    """The first and the last address of a block of IPv4, or an address; none of what is neither."""
    try:
        found = network_of(text)
    except ValueError:
        return -1, -1
    return (int(found[0]), int(found[-1])) if found.version == 4 else (-1, -1)


def address_of(value: Any) -> str:
    try:
        return str(ipaddress.IPv4Address(value if isinstance(value, str) else ""))
    except ValueError:
        raise Untold(f"{shown(value)} is no address") from None


def protocol_of(value: Any) -> str:
    """A protocol as EC2 names it in rules of groups."""
    text = str(value).lower()
    text = PROTOCOLS.get(text, text)
    if text != "-1" and not (re.fullmatch(r"0*[0-9]{1,3}", text) and int(text[-3:]) < 256):
        raise Untold(f"{shown(value)} is no protocol")
    return NAMED.get(text, text)


def ports_in(row: Row, protocol: str) -> tuple[Any, Any]:
    """The two ports of an element of a plan."""
    found: list[Any] = []
    for name in ("from_port", "to_port"):
        value = row.get(name)
        if isinstance(value, str) and re.fullmatch(r"-?[0-9]{1,5}", value):
            value = int(value)
        is_number = isinstance(value, int) and not isinstance(value, bool)
        if value is not None and not (is_number and -1 <= value <= 65535):
            raise Untold(f"{name} is {shown(value)}")
        found.append(value)
    if protocol in ("tcp", "udp") and None in found:
        raise Untold("its ports aren't told")
    return found[0], found[1]


# ---- rows of ACLs

# A row is known by its number and whether it is outward.
EntryKey = tuple[Any, Any]


def every_row(number: int, egress: bool, action: str) -> Row:
    return {
        "CidrBlock": "0.0.0.0/0",
        "Egress": egress,
        "Protocol": "-1",
        "RuleAction": action,
        "RuleNumber": number,
    }


def entry_of(row: Row, egress: bool) -> Row:
    """A row of an ACL as EC2 prints it, of an element of a plan or of a resource of its own."""
    number = row.get("rule_no", row.get("rule_number"))
    action = row.get("action", row.get("rule_action"))
    is_number = isinstance(number, int) and 0 < number < LAST_ROWS
    if not is_number or not isinstance(action, str) or action.lower() not in ("allow", "deny"):
        raise Untold(f"its number is {shown(number)} and its action {shown(action)}")
    name = protocol_of(row.get("protocol"))
    protocol = NUMBERED.get(name, name)
    entry: Row = {}
    if row.get("cidr_block"):
        entry["CidrBlock"] = block_of(row["cidr_block"], 4)
    if row.get("ipv6_cidr_block"):
        entry["Ipv6CidrBlock"] = block_of(row["ipv6_cidr_block"], 6)
    if not entry:
        raise Untold("it has no block")
    entry["Egress"] = egress
    if protocol in ("1", "58"):
        code, kind = icmp_of(row, "icmp_code"), icmp_of(row, "icmp_type")
        entry["IcmpTypeCode"] = {"Code": code, "Type": kind}
    if protocol in ("6", "17"):
        first, last = ports_in(row, name)
        entry["PortRange"] = {"From": first, "To": last}
    return {**entry, "Protocol": protocol, "RuleAction": action.lower(), "RuleNumber": number}


def icmp_of(row: Row, name: str) -> int:
    """A type or a code of ICMP, which is 0 where a block of an ACL doesn't tell it, and has to be
    told by a rule of its own."""
    value: Any = row.get(name)
    if value in (None, "") and "rule_no" in row:
        return 0
    is_number = not isinstance(value, bool) and re.fullmatch(r"-1|\d{1,3}", str(value))
    if not is_number or int(value) > 255:
        raise Untold(f"{name} is {shown(value)}")
    return int(value)


def entry_key(entry: Row) -> EntryKey:
    return entry.get("RuleNumber"), entry.get("Egress")


def entry_said(acl: Row, key: EntryKey) -> str:
    return f"{shown(acl['NetworkAclId'])} {'out' if key[1] else 'in'} {key[0]}"
