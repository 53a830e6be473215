"""Changes of network interfaces, and of the interfaces of instances."""

from __future__ import annotations

import ipaddress
from typing import Any, Optional

from scripts.bundles import Row, member, rows
from scripts.plan_applying import Applying
from scripts.plan_changes import (
    UNKNOWN, Change, NewId, Plan, Untold, first_interface, has_true, items, own_interfaces, shown,
)
from scripts.plan_rows import (
    Bundle, address_of, block_if, block_of, has_group, inner, meets, owner, range_of, room,
    tags_of,
)

# What of an instance does, beside its groups, and that it has its source checked.
OF_INSTANCE = (
    "subnet_id private_ip network_interface primary_network_interface associate_public_ip_address"
).split()
GROUPS_OF_INSTANCE = "vpc_security_group_ids"
# Addresses for documentation and for measurements, which no host of an account has: they stand for
# public ones to come.
STAND_INS = [
    ipaddress.IPv4Network(it)
    for it in ("192.0.2.0/24", "198.51.100.0/24", "203.0.113.0/24", "198.18.0.0/15")
]
# The prefixes that are delegated to an interface, and how many of them AWS is to choose.
PREFIXES, PREFIX_COUNT = "ipv4_prefixes", "ipv4_prefix_count"
CANT_CHANGE = ", or can't be changed here"
SOME_UNKNOWN = "not all of its private addresses are known before the apply"
ADDRESSES_UNKNOWN = "its private addresses aren't known before the apply"


class InterfaceChanges(Applying):
    def __init__(self, plan: Plan, bundle: Bundle) -> None:
        super().__init__(plan, bundle)
        gone = [it for it in plan.changes if it.type == "aws_instance" and it.does("delete")]
        self.leaving = plan.leaving | {
            shown(row["NetworkInterfaceId"]) for it in gone for row in self.interfaces_that_go(it)
        }

    def make_interface(self, change: Change) -> None:
        eni, subnet = self.plan.own_id(change), self.plan.one(change, "subnet_id", "SubnetId")
        place = self.bundle.row("SubnetId", subnet)
        self.bundle.row("VpcId", place.get("VpcId"))
        groups = self.groups_of_new(change, "security_groups", place["VpcId"])
        addresses, prefixes = self.addresses_of(change), self.prefixes_of(change)
        self.refuse_taken(place["VpcId"], addresses + prefixes)
        row = self.new_row(change, place, eni, groups, addresses)
        row["TagSet"] = tags_of(change)
        if prefixes:
            row["Ipv4Prefixes"] = [{"Ipv4Prefix": it} for it in prefixes]
        self.add_interface(place, row)
        self.attach_by_block(change, row)

    def new_row(
        self, change: Change, place: Row, eni: str, groups: list[Row], addresses: list[str]
    ) -> Row:
        """An interface in a subnet: its id, its groups and its addresses, the primary one first."""
        ipv6 = [{"Ipv6Address": it} for it in items(change.after.get("ipv6_addresses"))]
        first = addresses[0] if addresses else None
        primary = {"PrivateIpAddress": first} if addresses else {}
        return {
            "AvailabilityZone": place.get("AvailabilityZone"),
            "Description": change.after.get("description") or "",
            "Groups": groups,
            "InterfaceType": change.after.get("interface_type") or "interface",
            "Ipv6Addresses": ipv6,
            "NetworkInterfaceId": eni,
            **owner(place),
            **primary,
            "PrivateIpAddresses": [
                {"Primary": it == first, "PrivateIpAddress": it} for it in addresses
            ],
            "SourceDestCheck": change.after.get("source_dest_check") is not False,
            "Status": "available",
            "SubnetId": place["SubnetId"],
            "TagSet": [],
            "VpcId": place["VpcId"],
        }

    def add_interface(self, place: Row, row: Row) -> None:
        part = self.bundle.part_of("Subnets", place["SubnetId"])
        self.bundle.add(part, "NetworkInterfaces", row)

    def refuse_taken(self, vpc: Any, wanted: list[str], own: Any = None) -> None:
        """Addresses and prefixes of other interfaces that stay are taken."""
        for row in self.bundle.rows("NetworkInterfaces"):
            eni = row["NetworkInterfaceId"]
            if row.get("VpcId", vpc) == vpc and eni not in self.leaving and eni != own:
                self.refuse_taken_by(row, wanted)

    def refuse_taken_by(self, row: Row, wanted: list[str]) -> None:
        whose = f"of {shown(row['NetworkInterfaceId'])}"
        addresses = [
            it.get("PrivateIpAddress") for it in [row, *rows(row, "PrivateIpAddresses")]
        ]
        for it in addresses:
            if it in wanted:
                raise Untold(f"{it} is an address {whose}")
        prefixes = [it.get("Ipv4Prefix") for it in rows(row, "Ipv4Prefixes")]
        for it in wanted:
            theirs = [*addresses, *prefixes] if "/" in it else prefixes
            found = next((that for that in theirs if meets(it, that)), None)
            if found is not None:
                how = "meets" if "/" in it else "lies in"
                what = "a prefix" if "/" in found else "an address"
                raise Untold(f"{it} {how} {found}, {what} {whose}")

    def groups_of_new(self, change: Change, name: str, vpc: Any) -> list[Row]:
        """The groups of a new interface: the default one of its VPC where none is told."""
        found: list[Any] = []
        if not change.is_unknown(name) or self.plan.is_told(change, name):
            found = self.plan.all_of(change, name, "GroupId", self.bundle.is_group)
        pairs = [self.group_pair(it) for it in found]
        return pairs or [self.group_pair(self.bundle.default_group(vpc)["GroupId"])]

    def group_pair(self, group: Any) -> Row:
        row = self.bundle.row("GroupId", group)
        name = {"GroupName": row["GroupName"]} if "GroupName" in row else {}
        return {"GroupId": group, **name}

    def addresses_of(self, change: Change) -> list[str]:
        """The private addresses of a new interface, the primary one first."""
        after, listed = change.after, change.after.get("private_ip_list_enabled") is True
        name = "private_ip_list" if listed else "private_ips"
        found = [address_of(it) for it in items(after.get(name)) if it is not None]
        first = after.get("private_ip")
        is_other = first and first not in found
        if is_other or change.is_unknown(name) or after.get("private_ips_count"):
            self.tell(change.address, SOME_UNKNOWN)
        elif len(found) > 1 and not listed and not first:
            which = f"which of {', '.join(found)} is its primary address"
            self.tell_unknown(change, which, f": {found[0]} is taken for it")
        return [address_of(first), *(it for it in found if it != first)] if first else found

    def prefixes_of(self, change: Change) -> list[str]:
        """The prefixes of a new interface: none where nobody asks for some."""
        names = (PREFIXES, PREFIX_COUNT)
        is_asked = any(self.plan.is_told(change, it) for it in names)
        is_asked |= not self.plan.resource_at(change)
        if change.after.get(PREFIX_COUNT) or is_asked and any(map(change.is_unknown, names)):
            self.tell_unknown(change, PREFIXES)
        is_known = not change.is_unknown(PREFIXES)
        return [block_of(it, 4) for it in items(change.after.get(PREFIXES)) if is_known]

    def fill_interface(self, change: Change) -> None:
        if not change.does("update"):
            return
        row = self.bundle.row("NetworkInterfaceId", change.after.get("id"))
        self.attempt_each(
            change, lambda: self.change_groups(change, "security_groups", row),
            lambda: self.change_addresses(change, row), lambda: self.change_prefixes(change, row),
            lambda: self.change_manner(change, row),
        )

    def change_groups(self, change: Change, name: str, row: Row) -> None:
        if not change.differs(name):
            return
        wanted = self.plan.all_of(change, name, "GroupId", self.bundle.is_group)
        kept = [it for it in inner(row, "Groups") if it.get("GroupId") in wanted]
        known = [it["GroupId"] for it in kept]
        row["Groups"] = kept + [self.group_pair(it) for it in wanted if it not in known]

    def change_addresses(self, change: Change, row: Row) -> None:
        before, after, listed = change.before, change.after, "private_ip_list"
        names = [
            it for it in ("private_ips", listed)
            if before.get(it) != after.get(it) or change.is_unknown(it)
        ]
        for name in names:
            if not change.is_unknown(name) and isinstance(after.get(name), list):
                self.exchange_addresses(change, name, row)
                continue
            # (the other one of the two tells it)
            is_first = name == "private_ips" and listed in names
            if len(names) == 1 or is_first and change.is_unknown(listed):
                raise Untold(ADDRESSES_UNKNOWN)

    def exchange_addresses(self, change: Change, name: str, row: Row) -> None:
        before = items(change.before.get(name))
        after = [address_of(it) for it in items(change.after.get(name))]
        found = [
            it for it in inner(row, "PrivateIpAddresses")
            if it.get("PrivateIpAddress") not in before or it.get("PrivateIpAddress") in after
        ]
        primary = row.get("PrivateIpAddress")
        if primary in before and primary not in after:
            raise Untold("its primary address can't be changed")
        there = [it.get("PrivateIpAddress") for it in found] + [primary]
        new = [it for it in after if it not in there]
        found += [{"Primary": False, "PrivateIpAddress": it} for it in new]
        row["PrivateIpAddresses"] = found

    def change_prefixes(self, change: Change, row: Row) -> None:
        if change.differs(PREFIXES) and not change.is_unknown(PREFIXES):
            # (how many there are follows)
            self.exchange_prefixes(change, row)
            return
        for it in (PREFIXES, PREFIX_COUNT):
            if change.differs(it):
                self.tell_unknown(change, it, CANT_CHANGE)

    def exchange_prefixes(self, change: Change, row: Row) -> None:
        before = [block_if(it) for it in items(change.before.get(PREFIXES))]
        after = [block_of(it, 4) for it in items(change.after.get(PREFIXES))]
        there = [(block_if(it.get("Ipv4Prefix")), it) for it in inner(row, "Ipv4Prefixes")]
        kept = [it for own, it in there if own not in before or own in after]
        new = [it for it in after if it not in [own for own, _ in there]]
        self.refuse_taken(row.get("VpcId"), new, row["NetworkInterfaceId"])
        row["Ipv4Prefixes"] = kept + [{"Ipv4Prefix": it} for it in new]

    def change_check(self, change: Change, row: Row) -> None:
        name = "source_dest_check"
        if change.before.get(name) != change.after.get(name):
            row["SourceDestCheck"] = change.after.get(name) is not False

    def change_manner(self, change: Change, row: Row) -> None:
        self.change_check(change, row)
        is_other = change.before.get("attachment") != change.after.get("attachment")
        if is_other and not change.is_unknown("attachment"):
            self.detach(row)
            self.attach_by_block(change, row)
        for name in ("subnet_id", "attachment"):
            if change.is_unknown(name) or name != "attachment" and change.differs(name):
                self.tell_unknown(change, name, CANT_CHANGE)
        if change.differs("private_ips_count"):
            self.tell_unknown(change, "private_ips_count", CANT_CHANGE)

    # -- attachments

    def attach_by_block(self, change: Change, row: Row) -> None:
        for number, it in enumerate(rows(change.after, "attachment")):
            unknown = member(change.unknown, "attachment", number, "instance")
            if has_true(unknown) or not it.get("instance"):
                raise Untold(f"the instance that it is attached to {UNKNOWN}")
            self.attach(row, it["instance"], it.get("device_index"))

    def attach(self, row: Row, instance: Any, index: Any) -> None:
        self.leave_instances(row)
        row["Attachment"] = {"DeviceIndex": index, "InstanceId": instance, "Status": "attached"}
        row["Status"] = "in-use"
        for it in self.bundle.instances():
            if it.get("InstanceId") == instance:
                own = {"NetworkInterfaceId": row["NetworkInterfaceId"]}
                room(it, "NetworkInterfaces").append(own)

    def detach(self, row: Row) -> None:
        self.leave_instances(row)
        row.pop("Attachment", None)
        row["Status"] = "available"

    def leave_instances(self, row: Row) -> None:
        """An interface goes by the state of its instance: no other one names it."""
        for it in self.bundle.instances():
            found = it.get("NetworkInterfaces")
            if isinstance(found, list):
                it["NetworkInterfaces"] = [
                    eni for eni in found
                    if member(eni, "NetworkInterfaceId") != row["NetworkInterfaceId"]
                ]

    def interface_of(self, change: Change) -> Row:
        return self.named(change, "NetworkInterfaceId", "network_interface_id")

    def interface_before(self, change: Change) -> Row:
        return self.bundle.row("NetworkInterfaceId", change.before.get("network_interface_id"))

    def fill_attachment(self, change: Change) -> None:
        row = self.interface_of(change)
        instance = self.plan.one(change, "instance_id", "aws_instance")
        if not instance:
            raise Untold("its instance isn't told")
        self.attach(row, instance, change.after.get("device_index"))

    def take_attachment(self, change: Change) -> None:
        self.detach(self.interface_before(change))

    def fill_group_attachment(self, change: Change) -> None:
        row = self.interface_of(change)
        group = self.plan.one(change, "security_group_id", "GroupId")
        if not has_group(row, group):
            room(row, "Groups").append(self.group_pair(group))

    def take_group_attachment(self, change: Change) -> None:
        row, group = self.interface_before(change), change.before.get("security_group_id")
        if not has_group(row, group):
            name = shown(row["NetworkInterfaceId"])
            raise Untold(f"{name} of the bundle doesn't have {shown(group)}")
        row["Groups"] = [it for it in row["Groups"] if it.get("GroupId") != group]

    def drop_interface(self, change: Change) -> None:
        row = self.bundle.row("NetworkInterfaceId", change.before.get("id"))
        self.take_away(row["NetworkInterfaceId"])

    def take_away(self, eni: str) -> None:
        """Routes to an interface that is gone lead nowhere."""
        for table in self.bundle.rows("RouteTables"):
            for it in inner(table, "Routes"):
                if it.get("NetworkInterfaceId") == eni:
                    it["State"] = "blackhole"
        for part in self.bundle.objects:
            if part.get("Appliances"):
                found = part["Appliances"]
                part["Appliances"] = [it for it in found if it.get("NetworkInterfaceId") != eni]
        self.bundle.remove("NetworkInterfaces", eni)

    def interfaces_that_go(self, change: Change) -> list[Row]:
        """The interfaces that an instance takes with it: its own, but for those that are to outlive
        it."""
        found, first = self.bundle.interfaces_of(change.id_before()), self.primary(change.before)
        if first is not None and not any(it is first for it in found):
            found.append(first)
        return [it for it in found if member(it, "Attachment", "DeleteOnTermination") is not False]

    def primary(self, values: Row) -> Optional[Row]:
        """The interface that a plan names as an instance's primary one, where the bundle has it."""
        return self.bundle.find("NetworkInterfaces", values.get("primary_network_interface_id"))


class InstanceChanges(InterfaceChanges):
    def make_instance(self, change: Change) -> None:
        """A new instance has an interface of its own, unless it takes some that are there."""
        if own_interfaces(change):
            self.take_interfaces(change)
            return
        place = self.named(change, "SubnetId", "subnet_id")
        self.bundle.row("VpcId", place.get("VpcId"))
        groups = self.groups_of_instance(change, place["VpcId"])
        addresses = self.addresses_of_instance(change, place)
        row = self.new_row(change, place, first_interface(change), groups, addresses)
        self.add_interface(place, row)
        self.attach(row, self.plan.own_id(change), 0)
        public = self.public_of(change, place)
        if public:
            shared = {"PublicIp": public}
            row["Association"] = row["PrivateIpAddresses"][0]["Association"] = shared
        self.add_instance(change, place, row["NetworkInterfaceId"])

    def add_instance(self, change: Change, place: Row, eni: str) -> None:
        """Beside other instances, where the bundle has them."""
        part = self.bundle.part_of("Subnets", place["SubnetId"])
        if isinstance(part.get("Reservations"), list):
            instance = {
                "InstanceId": self.plan.own_id(change),
                "State": {"Name": "running"},
                "Tags": tags_of(change),
                "NetworkInterfaces": [{"NetworkInterfaceId": eni}],
            }
            part["Reservations"].append({"Instances": [instance]})

    def take_interfaces(self, change: Change) -> None:
        for name, number, it in own_interfaces(change):
            eni = it.get("network_interface_id")
            if has_true(member(change.unknown, name, number, "network_interface_id")):
                values = self.plan.looked_up(change, name, f"{name} {UNKNOWN}")
                found = [that for that in values if isinstance(that, NewId)]
                if len(found) != 1:
                    raise Untold(f"{name} {UNKNOWN}")
                eni = found[0]
            row = self.bundle.row("NetworkInterfaceId", eni)
            self.attach(row, self.plan.own_id(change), it.get("device_index") or 0)

    def groups_of_instance(self, change: Change, vpc: Any) -> list[Row]:
        """The groups of a new instance, which in a default VPC may be told by their names."""
        plan, names = self.plan, change.after.get("security_groups")
        is_by_id = change.after.get(GROUPS_OF_INSTANCE) or plan.is_told(change, GROUPS_OF_INSTANCE)
        if names and not change.is_unknown("security_groups") and not is_by_id:
            found = [self.bundle.named_group(vpc, it) for it in items(names)]
            return [self.group_pair(it) for it in found]
        if plan.is_told(change, "security_groups"):
            raise Untold(f"security_groups {UNKNOWN}")
        if change.after.get("launch_template") or plan.is_told(change, "launch_template"):
            if not is_by_id:
                raise Untold("its groups may be those of its launch template")
            what = "what its launch template says of its interface"
            self.tell(change.address, f"{what} isn't known")
        return self.groups_of_new(change, GROUPS_OF_INSTANCE, vpc)

    def addresses_of_instance(self, change: Change, place: Row) -> list[str]:
        """The private addresses of a new instance. Where the first one isn't known, a free one
        stands for it."""
        name, first = "secondary_private_ips", change.after.get("private_ip")
        more = [address_of(it) for it in items(change.after.get(name)) if it is not None]
        if change.is_unknown(name) and self.plan.is_told(change, name):
            self.tell(change.address, SOME_UNKNOWN)
        found = [address_of(first), *more] if first else more
        self.refuse_taken(place["VpcId"], found)
        if not first:
            free = self.free_address(place, {*more, *self.plan.told_addresses()})
            self.tell_unknown(change, "private_ip", f": {free} is taken for it")
            found = [free, *more]
        return list(dict.fromkeys(found))

    def free_address(self, place: Row, others: set[str]) -> str:
        """The lowest address of a subnet that nobody has. The first four and the last are kept by
        AWS."""
        first, last = range_of(block_of(place.get("CidrBlock"), 4))
        taken = {*self.bundle.addresses("PrivateIpAddress"), *self.bundle.prefixes(), *others}
        found = first + 4
        for low, high in sorted(map(range_of, taken)):
            if found < low:
                break
            found = max(found, high + 1)
        if found >= last:
            raise Untold(f"{shown(place['SubnetId'])} has no free address")
        return str(ipaddress.IPv4Address(found))

    def public_of(self, change: Change, place: Row) -> Optional[str]:
        """The public address of a new instance; None where it has none. Where it has one that isn't
        known, another stands for it."""
        if change.after.get("public_ip"):
            return address_of(change.after["public_ip"])
        wanted = change.after.get("associate_public_ip_address")
        is_given = wanted is None and place.get("MapPublicIpOnLaunch") is True
        if wanted is not True and not is_given:
            return None
        taken = self.bundle.addresses("PublicIp")
        hosts = (str(it) for block in STAND_INS for it in block.hosts())
        found = next((it for it in hosts if it not in taken), None)
        if found is None:
            raise Untold("no address is left to stand for its public one")
        self.tell_unknown(change, "public_ip", f": {found} stands for it")
        return found

    def first_of(self, change: Change) -> Row:
        """The interface of an instance by which it is known: the one that the plan names, or that
        at its device 0."""
        for values in (change.after, change.before):
            row = self.primary(values)
            if row is not None:
                return row
        found = self.bundle.interfaces_of(change.id_before())
        first = [
            it for it in found if member(it, "Attachment", "DeviceIndex") == 0
            or it.get("Attachment") is None and len(found) == 1
        ]
        if len(first) != 1:
            name = shown(change.id_before())
            raise Untold(f"the bundle doesn't tell the interface of {name} at device 0")
        return first[0]

    def fill_instance(self, change: Change) -> None:
        """What of an instance is of its first interface."""
        if not change.does("update"):
            return
        kept = [it for it in OF_INSTANCE if change.differs(it)]
        old = change.before.get("public_ip") if change.is_unknown("public_ip") else None
        names = (GROUPS_OF_INSTANCE, "security_groups", "source_dest_check")
        is_same = not any(map(change.differs, (*names, "secondary_private_ips")))
        if not kept and not old and is_same:
            return
        row = self.first_of(change)
        self.attempt_each(
            change, lambda: self.change_groups_of_instance(change, row),
            lambda: self.change_manner_of_instance(change, row),
        )
        for it in kept:
            self.tell_unknown(change, it, CANT_CHANGE)
        if old:
            self.tell_unknown(change, "public_ip", f": {shown(old)} is kept")

    def change_groups_of_instance(self, change: Change, row: Row) -> None:
        """The groups by their ids. Terraform keeps their names too, which follow the ids."""
        if not change.differs(GROUPS_OF_INSTANCE) and change.differs("security_groups"):
            raise Untold(f"security_groups {UNKNOWN}{CANT_CHANGE}")
        self.change_groups(change, GROUPS_OF_INSTANCE, row)

    def change_manner_of_instance(self, change: Change, row: Row) -> None:
        self.change_check(change, row)
        if change.is_unknown("secondary_private_ips"):
            raise Untold(ADDRESSES_UNKNOWN)
        if change.differs("secondary_private_ips"):
            self.exchange_addresses(change, "secondary_private_ips", row)

    def drop_instance(self, change: Change) -> None:
        """Those that outlive it are attached to nothing then."""
        instance = change.id_before()
        gone, found = self.interfaces_that_go(change), self.bundle.interfaces_of(instance)
        primary = shown(change.before.get("primary_network_interface_id"))
        if not gone and not found and primary not in self.leaving:
            raise Untold(f"the bundle has no interface of {shown(instance)}")
        for it in found:
            self.detach(it)
        for it in gone:
            self.take_away(it["NetworkInterfaceId"])
        for row in (row for part in self.bundle.objects for row in rows(part, "Reservations")):
            if isinstance(row.get("Instances"), list):
                left = [it for it in row["Instances"] if member(it, "InstanceId") != instance]
                row["Instances"] = left
