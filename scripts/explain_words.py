"""Puts packets, rules and hops into words."""

from __future__ import annotations

from collections.abc import Callable, Iterable, Iterator
from typing import Any, Optional

from scripts.bundles import harmless
from scripts.explain_network import (
    AclRow, Appliance, Interface, Network, Route, Rule, Side, is_unroutable,
)
from scripts.explain_told import Decisions, chosen_at, entered_at, route_at
from scripts.headers import Block, Box, Header, dotted
from scripts.texts import AclVerdict, ChosenRoute, Decision, Fare, Hop, NoText, Walk
from scripts.words import PROTOCOLS


def list_words(parts: list[str], word: str = "and") -> str:
    *rest, last = parts
    return f"{', '.join(rest)} {word} {last}" if rest else last


def some(parts: Iterable[str], most: int = 4) -> str:
    """The first of several, and how many more there are."""
    found = list(dict.fromkeys(parts))
    if not found:
        return ""
    if len(found) <= most + 1:
        return list_words(found)
    return f"{', '.join(found[:most])} and {len(found) - most} more"


def icmp_words(q: int) -> str:
    return f"icmp type {q // 256} code {q % 256}"


def flow_words(h: Header) -> str:
    """The protocol and the port that rules judge."""
    if h.proto in (6, 17):
        return f"{PROTOCOLS[h.proto]} {h.q}"
    return icmp_words(h.q) if h.proto == 1 else f"protocol {h.proto}"


def way_words(h: Header, outward: bool) -> str:
    return f"{flow_words(h)} {'to' if outward else 'from'} {dotted(h.dst if outward else h.src)}"


def packet_words(h: Header) -> str:
    src, dst = dotted(h.src), dotted(h.dst)
    if h.proto in (6, 17):
        return f"{PROTOCOLS[h.proto]} from {src} port {h.p} to {dst} port {h.q}"
    if h.proto == 1:
        return f"{icmp_words(h.q)} (identifier {h.p}) from {src} to {dst}"
    return f"protocol {h.proto} from {src} to {dst}"


def ports_words(proto: Optional[int], first: int, last: int) -> str:
    """The protocol and ports of a rule or row."""
    name = "all protocols" if proto is None else PROTOCOLS.get(proto, f"protocol {proto}")
    if (first, last) == (0, 65535) or proto not in PROTOCOLS:
        return name if proto not in (6, 17) else f"{name}, all ports"
    if proto == 1:
        if first == last:
            return icmp_words(first)
        is_type = (first % 256, last) == (0, first + 255)
        return f"icmp type {first // 256}" if is_type else f"icmp of {first} to {last}"
    if first == last:
        return f"{name} {first}"
    return f"{name} {first} to {last}" + ", which no port is" * (first > last)


def numbers_words(first: int, last: int) -> str:
    return f"port {first}" if first == last else f"ports {first} to {last}"


def block_words(block: Block) -> str:
    if block.length == 0:
        return "anywhere"
    return dotted(block.first) if block.length == 32 else str(block)


def range_words(first: Any, last: Any) -> str:
    return f"{first}" if first == last else f"{first}-{last}"


ALL_PORTS = (0, 65535)


def box_words(box: Box) -> str:
    (low, high), src, dst, p, q = box
    proto = PROTOCOLS.get(low, f"protocol {low}") if low == high else f"protocols {low}-{high}"
    sources, goals = (range_words(*map(dotted, it)) for it in (src, dst))
    words = [f"{proto} from {sources} to {goals}"]
    if low == high and low in (6, 17):
        if p != ALL_PORTS:
            words.append(f"source port{'s' * (p[0] < p[1])} {range_words(*p)}")
        ports = f"port{'s' * (q[0] < q[1])} {range_words(*q)}"
        words.append(ports if q != ALL_PORTS else "all ports")
    elif low == high == 1:
        kinds = [icmp_words(it) for it in q]
        words.append(kinds[0] if q[0] == q[1] else f"{kinds[0]} to{kinds[1][4:]}")
    return ", ".join(words)


def direction(outward: bool) -> str:
    return "outbound" if outward else "inbound"


def appliance_words(it: Appliance) -> str:
    """What an appliance forwards."""
    if it.kind == "service":
        return f"tcp and udp to and from {numbers_words(it.first, it.last)} alone"
    if it.kind == "peer":
        return f"what comes from or goes to {it.block} alone" if it.block else ""
    return {"all": "every packet", "none": "no packet"}[it.kind]


# What a place is called, behind the number of its hop.
PLACE_NAMES = {
    "out": "out of {}",
    "in": "into {}",
    "router": "router of {}",
    "enter": "into VPC {}",
    "igw-out": "internet gateway {}, outward",
    "igw-in": "internet gateway {}, inward",
    "internet": "internet",
    "nat-out": "NAT gateway {}, outward",
    "nat-in": "NAT gateway {}, on the way back",
    "peer": "peering {}",
    "tgw": "transit gateway, by attachment {}",
    "tgw-leave": "out of the transit gateway, by attachment {}",
    "far-out": "to the network behind {}",
    "far-in": "from the network behind {}",
    "inspect": "through the firewall behind endpoint {}",
}


def fare_words(fare: Fare, named: Callable[[str], str] = str) -> str:
    """What becomes of a packet in one network, or what changes for it between two."""
    if fare.word == "same":
        return "nothing changes for it"
    end = named(fare.end)
    if fare.word == "reached":
        return f"it reaches {end}, and its reply comes back"
    if fare.word == "moved":
        return f"it reaches {named(fare.after)} after the change, in place of {end}"
    kept = "there is no such start"
    if fare.stop and fare.stop.name != "Absent":
        rule = "" if fare.stop.rule == "-" else f", rule {fare.stop.rule}"
        who = "it" if fare.phase == "request" else "its reply"
        kept = f"{who} is stopped by {fare.stop.name} of {named(fare.stop.id)}{rule}"
    if fare.word == "opened":
        return f"it reaches {end} after the change, and before it {kept}"
    return f"it reached {end} before the change, and after it {kept}"


class Teller:
    """Puts what was found in a network into sentences."""

    def __init__(self, network: Network) -> None:
        self.network = network

    def named(self, component: str) -> str:
        """An id, with its name where it has one."""
        if component == "internet":
            return "the internet"
        name = self.network.names.of(component)
        return f"{harmless(component)} ({name})" if name else harmless(component)

    def all_named(self, components: Iterable[str], word: str = "and") -> str:
        return list_words([self.named(it) for it in components], word)

    def own_words(self, interface: Interface, number: int, word: str = "an address") -> str:
        """What an address is to the interface that has it."""
        block, whose = interface.block_with(number), f"of {self.named(interface.id)}"
        return f"in the prefix {block} {whose}" if block else f"{word} {whose}"

    # -- rules and rows

    def far_words(self, rule: Rule) -> str:
        parts = [block_words(it) for it in rule.blocks]
        parts += [f"prefix list {self.named(it)}" for it in rule.lists]
        parts += [self.named(it) for it in rule.groups]
        return some(parts) if parts else "no address"

    def rule_words(self, rule: Rule, outward: bool) -> str:
        ports = ports_words(rule.proto, rule.first, rule.last)
        return f"{ports} {'to' if outward else 'from'} {self.far_words(rule)}"

    def why_far(self, side: Side, rule: Rule, far: int) -> str:
        """Which group or list it is that holds the far address, where the rule's words don't show
        it."""
        network = self.network
        if any(it.holds(far) for it in rule.blocks):
            return ""
        for it in rule.lists:
            if network.list_holds(it, far):
                return f"; {self.named(it)} holds {dotted(far)}"
        found = (it for it in rule.groups if network.group_holds(side, it, far))
        host = next((network.member_of(it, far) for it in found), None)
        if host is None:
            raise NoText(f"rule {harmless(rule.name)} doesn't allow {dotted(far)}")
        return f"; {dotted(far)} is {self.own_words(host, far, 'that')}"

    def row_words(self, row: AclRow) -> str:
        verb, way = "allows" if row.allow else "denies", "to" if row.outward else "from"
        ports = ports_words(row.proto, row.first, row.last)
        return f"{verb} {ports} {way} {block_words(row.block)}"

    def route_words(self, route: Route) -> str:
        reach = str(route.block) if route.block else f"prefix list {self.named(route.list or '')}"
        goal = "(local)" if route.kind == "local" else f"to {self.named(route.target)}"
        return f"{reach} {goal}"

    # -- hops

    def hop_lines(self, walk: Walk, decisions: Decisions) -> list[str]:
        """A line for each hop: what let the packet pass there, or what it passed before it was
        stopped."""
        lines = []
        following: list[Optional[Hop]] = [*walk.hops[1:], None]
        for number, (it, found, after) in enumerate(zip(walk.hops, decisions, following), 1):
            told = [self.place_words(it), *self.decided_words(it, found)]
            words = "; ".join(filter(None, [*told, self.then_words(it, after)]))
            name = PLACE_NAMES[it.place].format(self.named(it.id))
            lines.append(f"  {number}. {name}: {words}." if words else f"  {number}. {name}.")
        return lines

    def place_words(self, hop: Hop) -> str:
        """What let the packet pass at the place itself."""
        h = hop.header
        if hop.place == "internet" and not (is_unroutable(h.src) or is_unroutable(h.dst)):
            return "its addresses are ones that the internet routes"
        if hop.place in ("far-out", "far-in"):
            outside = self.network.outside.behind(self.network.fars[hop.id])
            return f"{harmless(hop.id)} leads to {outside}"
        if hop.by is None:
            return ""
        if hop.by == "none":
            return "it has no security groups, so every packet passes"
        if hop.by == "tracked":
            what = "the answer to a connection that passed here before"
            return f"security groups let it pass as {what}"
        outward = hop.place == "out"
        group, _, rule_name = hop.by.split(" ")
        name = f"{direction(outward)} rule {harmless(rule_name)} of {self.named(group)}"
        rule = self.network.rule_named(group, outward, rule_name)
        if not rule:
            raise NoText(f"{name} isn't in the bundle")
        side = self.network.side(self.network.interfaces[hop.id], outward, group)
        far = self.why_far(side, rule, h.dst if outward else h.src)
        return f"{name} allows {self.rule_words(rule, outward)}{far}"

    # -- what was decided, as far as it let the packet pass

    def decided_words(self, hop: Hop, found: list[Decision]) -> Iterator[str]:
        chosen = chosen_at(found)
        if chosen and hop.place in ("tgw", "far-in"):
            yield self.transit_words(chosen)
            return
        route, entered = route_at(self.network, found), entered_at(self.network, hop, found)
        if chosen and not route:
            raise NoText(f"{chosen.table} has no route {chosen.reach} to {chosen.target}")
        if chosen and route and route.blackhole:
            return
        if chosen and route:
            yield f"{self.named(chosen.table)} sends it by its route {self.route_words(route)}"
        if (hop.place == "enter" and not route) or (route and route.kind == "local"):
            yield self.host_words(hop)
        verdicts = [it for it in found if isinstance(it, AclVerdict)]
        for it in verdicts:
            if it.allows:
                outward = it.direction == "out"
                yield self.acl_words(it, hop.id if outward else entered)
        if route and not verdicts and entered == hop.id:
            yield "it stays in the subnet, where no network ACL is evaluated"

    def transit_words(self, chosen: ChosenRoute) -> str:
        """(a route whose target is gone, or isn't told, sends nothing)"""
        found = self.network.transit_tables.get(chosen.table, [])
        gone = any(str(it.block) == chosen.reach and it.blackhole for it in found)
        if gone or chosen.target is None:
            return ""
        reach = f"{chosen.reach} to {self.named(chosen.target)}"
        return f"its table {self.named(chosen.table)} sends it by its route {reach}"

    def host_words(self, hop: Hop) -> str:
        network, number = self.network, hop.header.dst
        vpc = hop.id if hop.place == "enter" else network.subnets[hop.id].vpc
        host = network.host_of(vpc, number)
        return f"{dotted(number)} is {self.own_words(host, number)}" if host else ""

    def acl_words(self, it: AclVerdict, subnet: Optional[str]) -> str:
        outward = it.direction == "out"
        row = self.network.row_numbered(it.acl, outward, str(it.number))
        name = f"{direction(outward)} row {it.number} of {self.named(it.acl)}"
        if not row or not row.allow:
            raise NoText(f"{it.acl} has no {direction(outward)} row {it.number} that allows")
        where = f" {'out of' if outward else 'into'} {self.named(subnet)}" if subnet else " pass"
        return f"{name} lets it{where} ({self.row_words(row)})"

    # -- where the packet went on, and as what

    def then_words(self, hop: Hop, after: Optional[Hop]) -> str:
        if not after:
            return ""
        words = {
            "in": self.then_in, "igw-out": self.then_igw_out, "igw-in": self.then_igw_in,
            "internet": self.then_internet, "nat-out": self.then_nat_out,
            "nat-in": self.then_nat_in, "peer": self.then_peer, "tgw-leave": self.then_tgw_leave,
            "inspect": self.then_inspect,
        }
        return words[hop.place](hop, after) if hop.place in words else ""

    def then_in(self, hop: Hop, after: Hop) -> str:
        appliance = self.network.appliances.get(hop.id)
        return f"its appliance forwards {appliance_words(appliance)}" if appliance else ""

    def then_igw_out(self, hop: Hop, after: Hop) -> str:
        source = f"its source {dotted(hop.header.src)}"
        return f"{source} becomes the public address {dotted(after.header.src)}"

    def then_igw_in(self, hop: Hop, after: Hop) -> str:
        goal = f"its destination {dotted(hop.header.dst)}"
        return f"{goal} becomes the private address {dotted(after.header.dst)}"

    def then_internet(self, hop: Hop, after: Hop) -> str:
        owner = self.network.owner_of.get(hop.header.dst)
        if not owner:
            return ""
        whose = f"{dotted(hop.header.dst)} is a public address of {self.named(owner[0].id)}"
        return f"{whose}, so it comes in again by the internet gateway of {self.named(owner[2])}"

    def then_nat_out(self, hop: Hop, after: Hop) -> str:
        before, now = hop.header, after.header
        what = "identifier" if now.proto == 1 else "port"
        source = f"its source becomes the gateway's {dotted(now.src)}"
        return f"{source}, and its {what} {before.p} becomes {now.p}"

    def then_nat_in(self, hop: Hop, after: Hop) -> str:
        now = after.header
        what, number = ("identifier", now.p) if now.proto == 1 else ("port", now.q)
        goal = f"its destination becomes {dotted(now.dst)} and its {what} {number} again"
        return f"it answers what went out here before, so {goal}"

    def then_peer(self, hop: Hop, after: Hop) -> str:
        peering = self.network.peerings[hop.id]
        if not peering.pair or after.id not in peering.pair:
            raise NoText(f"{hop.id} doesn't lead to {after.id}")
        vpc = self.network.other_side(peering, after.id)
        return f"from a block of {self.named(vpc)} to a block of {self.named(after.id)}"

    def then_inspect(self, hop: Hop, after: Hop) -> str:
        appliance = self.network.inspecting.get(hop.id)
        if not appliance:
            raise NoText(f"nothing is told of what stands behind {hop.id}")
        return f"it passes {appliance_words(appliance)}"

    def then_tgw_leave(self, hop: Hop, after: Hop) -> str:
        vpc = self.network.attachments[hop.id].vpc
        return f"into {self.named(vpc)}, by {self.named(after.id)}"
