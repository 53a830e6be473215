"""What a bundle has: its objects and rows, the names of components, and how what a file tells is
printed."""

from __future__ import annotations

import json
import unicodedata
from collections.abc import Callable, Iterable, Iterator
from typing import Any, NamedTuple, Optional

# An object of JSON: of a bundle a row of one of its lists.
Row = dict[str, Any]

# The lists that make a bundle, and the member that is the id of a row.
LISTS = {
    "Vpcs": "VpcId",
    "Subnets": "SubnetId",
    "NetworkInterfaces": "NetworkInterfaceId",
    "RouteTables": "RouteTableId",
    "PrefixLists": "PrefixListId",
    "PrefixListEntries": "PrefixListId",
    "NetworkAcls": "NetworkAclId",
    "SecurityGroups": "GroupId",
    "SecurityGroupRules": "SecurityGroupRuleId",
    "InternetGateways": "InternetGatewayId",
    "NatGateways": "NatGatewayId",
    "VpcPeeringConnections": "VpcPeeringConnectionId",
    "TransitGateways": "TransitGatewayId",
    "TransitGatewayVpcAttachments": "TransitGatewayAttachmentId",
    "TransitGatewayAttachments": "TransitGatewayAttachmentId",
    "TransitGatewayRoutes": "TransitGatewayRouteTableId",
    "VpnGateways": "VpnGatewayId",
    "VpcEndpoints": "VpcEndpointId",
    "SecurityGroupVpcAssociations": "GroupId",
    "Appliances": "NetworkInterfaceId",
}
# The members of a route that may name its target: the first that is there does.
TARGETS = (
    "GatewayId NatGatewayId TransitGatewayId VpcPeeringConnectionId NetworkInterfaceId InstanceId "
    "LocalGatewayId CarrierGatewayId EgressOnlyInternetGatewayId CoreNetworkArn"
).split()


class NoBundle(Exception):
    """Why a file is no bundle."""


# ---- printing

# What may move a cursor, change the direction of letters or begin a line, and what is no letter.
HARMFUL = ("Cc", "Cf", "Cs", "Cn", "Zl", "Zp")


def harmless(value: object, form: str = "id") -> str:
    """What a file or a word tells, so that it can be printed: it can't pass for other words, nor
    for a line of its own, nor do anything to a terminal.

    An `id` is as it is where it is one, and else in the form of JSON; `words` may have blanks. A
    `name` is any text in one line, with a mark in the place of each letter that isn't visible. In a
    `line` such letters alone are in the form of JSON."""
    if form == "name":
        kinds = map(unicodedata.category, str(value))
        seen = ("\ufffd" if kind in HARMFUL else it for it, kind in zip(str(value), kinds))
        return " ".join("".join(seen).split())
    if form == "line":
        return "".join(it if " " <= it <= "~" else json.dumps(it)[1:-1] for it in str(value))
    first = "!" if form == "id" else " "
    if isinstance(value, str) and value and all(first <= it <= "~" for it in value):
        return value
    return json.dumps(value)


def harmless_ids(values: Iterable[object]) -> str:
    return ", ".join(map(harmless, values))


# ---- reading


def no_number(text: str) -> Any:
    raise ValueError(f"{text} is no number")


def json_in(path: str, parse_float: Optional[Callable[[str], Any]] = None) -> Any:
    """The JSON value of a file."""
    with open(path, "rb") as file:
        data = file.read()
    try:
        return json.loads(data.decode("utf-8"), parse_constant=no_number, parse_float=parse_float)
    except (ValueError, RecursionError):
        raise NoBundle("it is not one JSON value in UTF-8") from None


def objects_of(value: Any) -> list[Row]:
    """The objects of a bundle: it is one, or an array of them."""
    objects = value if isinstance(value, list) else [value]
    if not all(isinstance(it, dict) for it in objects):
        raise NoBundle("it is neither an object nor an array of objects")
    return objects


def has_lists(objects: list[Row]) -> list[Row]:
    """The objects, some of which have lists of a bundle."""
    if not any(name in it for it in objects for name in LISTS):
        raise NoBundle("it has none of a bundle's lists")
    return objects


def member(value: Any, *names: Any) -> Any:
    """The member of a value, or of a part of it; None where there is none."""
    for name in names:
        if isinstance(value, dict):
            value = value.get(name)
        elif isinstance(value, list) and isinstance(name, int) and name < len(value):
            value = value[name]
        else:
            return None
    return value


def rows(value: Any, *names: Any) -> list[Row]:
    """The rows of a list, or of one that is a member. What is no row is left out."""
    found = member(value, *names)
    return [it for it in found if isinstance(it, dict)] if isinstance(found, list) else []


# ---- names

# The lists whose rows have a name.
NAMELESS = (
    "PrefixListEntries", "TransitGatewayRoutes", "SecurityGroupVpcAssociations", "Appliances",
)
NAMED = [it for it in LISTS if it not in NAMELESS]


def tag_of(row: Row) -> Optional[str]:
    """The Name tag of a row."""
    for it in rows(row, "Tags") + rows(row, "TagSet"):
        if it.get("Key") == "Name" and isinstance(it.get("Value"), str) and printable(it["Value"]):
            return printable(it["Value"])
    return None


def printable(text: str) -> str:
    return harmless(text, "name")


def word_of(row: Row, name: str) -> str:
    """A member that is a text, as it can be printed; empty where there is none."""
    value = row.get(name)
    return printable(value) if isinstance(value, str) else ""


# The lists of what may lead to a network that isn't described, and how such ids begin.
LEADING = (
    "VpnGateways", "TransitGatewayAttachments", "VpcPeeringConnections", "VpcEndpoints",
)
LEADING_IDS = ("vgw-", "tgw-attach-", "pcx-", "vpce-")
# What is described so tells nothing of its own.
DEFAULT_DESCRIPTIONS = ("", "Primary network interface", "RDSNetworkInterface")


class Home(NamedTuple):
    """Where an interface is, and what it is described as, empty where that tells nothing."""

    description: str
    groups: tuple[str, ...]
    subnet: str
    vpc: str


class Names:
    """The names of components, where interfaces are, and the prefixes that are delegated to them;
    `by` is what they are folded by, if that was asked for."""

    def __init__(self, objects: Iterable[Row] = (), by: str = "") -> None:
        self.by = by
        self.names: dict[str, str] = {}
        self.homes: dict[str, Home] = {}
        self.prefixes: dict[str, list[str]] = {}
        self.leading: set[str] = set()
        objects = list(objects)
        instances = dict(instance_names(objects))
        for it in objects:
            for name in NAMED:
                for row in rows(it, name):
                    self.name_row(name, row)
        subnets = (row for it in objects for row in rows(it, "Subnets"))
        vpcs = {word_of(it, "SubnetId"): word_of(it, "VpcId") for it in subnets}
        for row in (row for it in objects for row in rows(it, "NetworkInterfaces")):
            self.name_interface(row, instances, vpcs)

    def name_row(self, list_name: str, row: Row) -> None:
        """By its tag, and a group or a prefix list by its own name."""
        own = {"SecurityGroups": "GroupName", "PrefixLists": "PrefixListName"}.get(list_name)
        row_id, name = row.get(LISTS[list_name]), tag_of(row) or (row.get(own) if own else None)
        if list_name in LEADING and isinstance(row_id, str):
            self.leading.add(row_id)
        if isinstance(row_id, str) and isinstance(name, str) and printable(name):
            self.names.setdefault(row_id, printable(name))

    def name_interface(
        self, row: Row, instances: dict[str, str], vpcs: dict[str, str]
    ) -> None:
        """By the name of its instance, where it has none of its own."""
        own = row.get("NetworkInterfaceId")
        if not isinstance(own, str):
            return
        name = instances.get(own) or instances.get(str(member(row, "Attachment", "InstanceId")))
        if name:
            self.names.setdefault(own, name)
        groups = {word_of(it, "GroupId") for it in rows(row, "Groups")} - {""}
        description, subnet = word_of(row, "Description"), word_of(row, "SubnetId")
        if description in DEFAULT_DESCRIPTIONS:
            description = ""
        vpc = vpcs.get(subnet) or word_of(row, "VpcId")
        self.homes.setdefault(own, Home(description, tuple(sorted(groups)), subnet, vpc))
        found = (it.get("Ipv4Prefix") for it in rows(row, "Ipv4Prefixes"))
        self.prefixes.setdefault(own, [it for it in found if isinstance(it, str)])

    def is_outside(self, end: str) -> bool:
        """Whether an end is what leads to a network that isn't described."""
        is_leading = end in self.leading or end.startswith(LEADING_IDS)
        return is_leading and end not in self.homes

    def of(self, component: str) -> Optional[str]:
        """The name of a component, where it has one that its id doesn't end with."""
        name = self.names.get(component)
        return None if not name or f"-{component}".endswith(f"-{name}") else name

    def called(self, component: str) -> str:
        """Its name, or its id."""
        return self.of(component) or component


def instance_names(objects: list[Row]) -> Iterator[tuple[str, str]]:
    """The names of instances, by their ids and by those of their interfaces."""
    reservations = (row for it in objects for row in rows(it, "Reservations"))
    for instance in (it for row in reservations for it in rows(row, "Instances")):
        name = tag_of(instance)
        if name:
            ids = [it.get("NetworkInterfaceId") for it in rows(instance, "NetworkInterfaces")]
            ids.append(instance.get("InstanceId"))
            yield from ((it, name) for it in ids if isinstance(it, str))
