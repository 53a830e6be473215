"""Tells how a bundle will be after a Terraform plan is applied: plan-bundle PLAN.json BUNDLE

PLAN.json is what `terraform show -json PLAN` prints, and BUNDLE what collect-bundle made of the
account just before. The bundle as it will be is printed on standard output, for vpc: the rows that
the plan's changes are about are added, changed or taken away, and all others stay as they are. What
has no id yet gets its address as its id:

    terraform plan -out=tf.plan && terraform show -json tf.plan > plan.json
    ./plan-bundle plan.json bundle.json > planned.json
    ./vpc diff bundle.json planned.json

It applies VPCs, subnets, security groups, their rules and the VPCs that they are associated with,
network ACLs and their rows, route tables, their routes and associations, network interfaces with
their groups, addresses and prefixes, and the interfaces of instances; virtual private gateways,
what they are attached to, and which tables take their routes; endpoints of VPCs, with their routes
or interfaces; of transit gateways and their attachments to VPCs whether rules may name groups over
them. What it can't apply, or not without a guess, is told on standard error, one line each, and at
last how many changes that is about:

    not applied: aws_lb.a: it makes, changes or takes away interfaces that a plan doesn't tell
    not applied: aws_instance.a: private_ip isn't known before the apply: 10.0.1.4 is taken for it
    2 changes not applied

So it is with VPN connections, Direct Connect, peerings and attachments of transit gateways. Which
routes a gateway propagates a plan doesn't tell: they are those that other tables have of it, and
where none has, that is told. Of the resources of AWS it passes over those alone that are known to
touch no network, as buckets, roles and DNS records.

Where the plan doesn't know a value yet, it is looked for by the references of its expression. Of a
list that is not known yet, literals beside references are in no plan's JSON:
`[aws_security_group.new.id, "sg-0a1b"]` is taken for its first member, and `dynamic` blocks for
each of what isn't known for none.

Status 0: all that matters was applied; 1: something was not, and the bundle is printed all the
same; 2: a file can't be read, is no plan or no bundle, as a line on standard error says, and
nothing is printed. It needs Python 3.9 or later alone. Nothing of it is proved.
"""

from __future__ import annotations

import functools
import json
import sys
from collections.abc import Callable, Sequence

from scripts.bundles import harmless
from scripts.commands import ODD, Refused
from scripts.plan_changes import Change, Plan, has_true, shown
from scripts.plan_endpoints import EndpointChanges
from scripts.plan_naming import NAMING, NAMING_LISTS
from scripts.plan_rows import Bundle
from scripts.plan_types import PLACED, SILENT, UNAPPLIED, is_quiet, placing
from scripts.plan_vpcs import VpcChanges


class Apply(VpcChanges, EndpointChanges):
    """Applies a plan to a bundle, and keeps the lines about what isn't applied."""

    def run(self) -> list[str]:
        """In the order in which AWS takes it: what hangs on others goes first and comes last."""
        self.stage(TAKEN, [], "delete")
        not_made = self.stage(MADE, [], "create")
        self.stage(FILLED, not_made, "create", "update")
        self.stage(PARTLY_FILLED, [], "update")
        self.stage(DROPPED, [], "delete")
        known = {**TAKEN, **MADE, **FILLED, **DROPPED}
        for change in self.plan.changes:
            if change.does("create", "update", "delete") and change.type not in known:
                self.other(change)
        for address in self.plan.put_off:
            self.tell(address, "Terraform puts it off")
        count = f"{len(self.told)} changes not applied"
        return [*dict.fromkeys(self.lines), *[count] * bool(self.told)]

    def stage(self, acts: Acts, without: list[str], *actions: str) -> list[str]:
        """Does what is done with each change's type, type by type; the addresses of those that
        failed."""
        failed: list[str] = []
        for kind, act in acts.items():
            for change in self.plan.changes:
                is_due = change.type == kind and change.does(*actions)
                if not is_due or change.address in without:
                    continue
                if not self.attempt(change, functools.partial(act, self, change)):
                    failed.append(change.address)
        return failed

    # -- what isn't applied

    def other(self, change: Change) -> None:
        """Tells of a change that may have packets go otherwise."""
        if not self.matters(change):
            return
        if UNAPPLIED.match(change.type):
            otherwise = "packets may go otherwise than the printed bundle has it"
            self.tell(change.address, f"plan-bundle doesn't know how; {otherwise}")
        elif any(placing(it) for it in (change.before, change.after, change.unknown)):
            what = "it makes, changes or takes away interfaces that a plan doesn't tell"
            self.tell(change.address, what)
        else:
            what = "plan-bundle doesn't know whether packets go otherwise by it"
            self.tell(change.address, what)

    def matters(self, change: Change) -> bool:
        if is_quiet(change.type) or not change.type.startswith(("aws_", "awscc_")):
            return False
        whole = change.does("create", "delete")
        if PLACED.fullmatch(change.type):
            before, after, unknown = map(placing, (change.before, change.after, change.unknown))
            if whole:
                return any((before, after, unknown))
            return before != after or has_true(unknown)
        names = {*change.before, *change.after, *change.unknown} - SILENT
        names -= {NAMING} if change.type in NAMING_LISTS else set()
        return whole or any(map(change.differs, names))

    def nothing(self, change: Change) -> None:
        """What Terraform no longer manages stays as it is in the account."""


Acts = dict[str, Callable[[Apply, Change], None]]
# What is done with each type: first what hangs on others is taken away, then rows are made and
# filled, and then those that go are dropped.
TAKEN: Acts = {
    "aws_security_group_rule": Apply.take_group_rule,
    "aws_vpc_security_group_ingress_rule": Apply.take_vpc_rule,
    "aws_vpc_security_group_egress_rule": Apply.take_vpc_rule,
    "aws_network_acl_rule": Apply.take_acl_rule,
    "aws_route": Apply.take_route,
    "aws_route_table_association": Apply.take_table_association,
    "aws_main_route_table_association": Apply.take_main_table,
    "aws_network_acl_association": Apply.take_acl_association,
    "aws_network_interface_sg_attachment": Apply.take_group_attachment,
    "aws_network_interface_attachment": Apply.take_attachment,
    "aws_vpc_security_group_vpc_association": Apply.take_association,
    "aws_vpn_gateway_route_propagation": Apply.take_propagation,
    "aws_vpn_gateway_attachment": Apply.take_gateway_attachment,
    "aws_vpn_gateway": Apply.take_gateway,
    "aws_vpc_endpoint_route_table_association": Apply.take_endpoint_table,
    "aws_vpc_endpoint_subnet_association": Apply.take_endpoint_subnet,
    "aws_vpc_endpoint_security_group_association": Apply.take_endpoint_group,
    "aws_vpc_endpoint": Apply.take_endpoint,
}
MADE: Acts = {
    "aws_vpc": Apply.make_vpc,
    "aws_subnet": Apply.make_subnet,
    "aws_security_group": Apply.make_group,
    "aws_vpc_security_group_vpc_association": Apply.make_association,
    "aws_network_acl": Apply.make_acl,
    "aws_route_table": Apply.make_table,
    "aws_vpn_gateway": Apply.make_gateway,
    "aws_vpc_endpoint": Apply.make_endpoint,
    # (after the groups, whose rows it names)
    "aws_network_interface": Apply.make_interface,
    "aws_instance": Apply.make_instance,
}
FILLED: Acts = {
    "aws_vpc": Apply.fill_vpc,
    "aws_subnet": Apply.fill_subnet,
    "aws_default_security_group": Apply.fill_default_group,
    "aws_security_group": Apply.fill_group,
    "aws_security_group_rule": Apply.fill_group_rule,
    "aws_vpc_security_group_ingress_rule": Apply.fill_vpc_rule,
    "aws_vpc_security_group_egress_rule": Apply.fill_vpc_rule,
    "aws_default_network_acl": Apply.fill_default_acl,
    "aws_network_acl": Apply.fill_acl,
    "aws_network_acl_rule": Apply.fill_acl_rule,
    "aws_network_acl_association": Apply.fill_acl_association,
    "aws_network_interface": Apply.fill_interface,
    "aws_network_interface_sg_attachment": Apply.fill_group_attachment,
    "aws_network_interface_attachment": Apply.fill_attachment,
    # (a table may take the routes of a gateway that is attached)
    "aws_vpn_gateway": Apply.fill_gateway,
    "aws_vpn_gateway_attachment": Apply.fill_gateway_attachment,
    "aws_default_route_table": Apply.fill_table,
    "aws_route_table": Apply.fill_table,
    "aws_vpn_gateway_route_propagation": Apply.fill_propagation,
    "aws_route": Apply.fill_route,
    "aws_route_table_association": Apply.fill_table_association,
    "aws_main_route_table_association": Apply.fill_main_table,
    "aws_instance": Apply.fill_instance,
    # (after all that have their addresses told)
    "aws_vpc_endpoint": Apply.fill_endpoint,
    "aws_vpc_endpoint_route_table_association": Apply.fill_endpoint_table,
    "aws_vpc_endpoint_security_group_association": Apply.fill_endpoint_group,
    "aws_vpc_endpoint_subnet_association": Apply.fill_endpoint_subnet,
}
# (of what else they change is told)
PARTLY_FILLED: Acts = {it: Apply.fill_naming for it in NAMING_LISTS}
DROPPED: Acts = {
    "aws_network_interface": Apply.drop_interface,
    "aws_instance": Apply.drop_instance,
    "aws_security_group": Apply.drop_group,
    "aws_network_acl": Apply.drop_acl,
    "aws_route_table": Apply.drop_table,
    "aws_subnet": Apply.drop_subnet,
    "aws_vpc": Apply.drop_vpc,
    "aws_default_security_group": Apply.nothing,
    "aws_default_network_acl": Apply.nothing,
    "aws_default_route_table": Apply.nothing,
}


def refused(why: object) -> int:
    print(f"plan-bundle: {harmless(why, 'line')}", file=sys.stderr)
    return 2


def main(words: Sequence[str]) -> int:
    if words in (["--help"], ["-h"]):
        print(__doc__, end="")
        return 0
    if len(words) != 2 or any(it.startswith("-") or not it for it in words):
        return refused("PLAN.json and BUNDLE are meant; --help says more")
    try:
        plan, bundle = Plan(words[0]), Bundle(words[1])
    except OSError as error:
        return refused(f"{shown(error.filename)} can't be read: {error.strerror}")
    except Refused as why:
        return refused(why)
    try:
        lines = Apply(plan, bundle).run()
    except ODD as why:
        what = f"{type(why).__name__} {shown(str(why))}"
        names = " or ".join(map(shown, words))
        return refused(f"{names} has something unexpected: {what}")
    try:
        print(json.dumps(bundle.value, separators=(",", ":")), flush=True)
    except OSError as error:
        return refused(f"the bundle can't be written: {error.strerror}")
    for it in lines:
        print(it, file=sys.stderr)
    return 1 if lines else 0
