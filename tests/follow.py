"""Follows packets through a network, as docs/WALK.md tells, to judge what `explain` tells: the rows are read as scripts/ reads them,
and what is chosen of them is chosen here. It prints walks as `trace` and `why` do, and stands in for a program without `why`."""

from __future__ import annotations

import os
import sys
from typing import Any, NamedTuple, Optional, Union

sys.path.insert(0, os.path.dirname(os.path.dirname(os.path.abspath(__file__))))

from scripts import explain_network
from scripts.bundles import Row, json_in, objects_of
from scripts.explain_network import Appliance, Interface, Route, RouteTable, Rule, TransitRoute, is_unroutable
from scripts.explain_told import Stop
from scripts.headers import Header, address, block_of, reply_of
from scripts.outside import Far
from scripts.words import PROTOCOL_NUMBERS, PROTOCOLS

MOST_PLACES, MOST_TRANSLATIONS, FIRST_PORT = 64, 55_000, 1024

# Where a packet is: the kind of place, its id, and where it came from where that matters.
Place = tuple[Any, ...]
# By what a packet passes security groups: none, tracked, or a rule with its group.
By = Union[None, str, tuple[str, Rule]]
# What was asked at a hop and let the packet pass: its kind, and what it is about.
Note = tuple[Any, ...]


class Hop(NamedTuple):
    kind: str
    id: str
    header: Header
    by: By
    notes: list[Note]


class Go(NamedTuple):
    """On to another place."""

    place: Place
    header: Header


class Translation(NamedTuple):
    nat: str
    before: Header
    after: Header


# How a hop ends: elsewhere, stopped, or at the id of an end.
Then = Union[Go, Stop, str]
Step = tuple[By, Then]


class Network(explain_network.Network):
    """The rows of a bundle, and what its tables and rules choose."""

    def length_of(self, route: Route, number: int) -> Optional[int]:
        """How long a route's destination is that holds an address; None where none does."""
        blocks = [route.block] if route.block else self.lists.get(route.list or "", [])
        return max((it.length for it in blocks if it.holds(number)), default=None)

    def choose(self, table: RouteTable, number: int) -> Optional[Route]:
        told = [(self.length_of(it, number), it) for it in table.routes]
        found = [(length, it) for length, it in told if length is not None]
        if any(it.kind == "local" for _, it in found):
            found = [it for it in found if not it[1].propagated or it[1].kind == "local"]

        def rank(it: tuple[int, Route]) -> tuple[int, int]:
            return it[0], 0 if it[1].propagated else 2 if it[1].block else 1

        return max(found, key=rank)[1] if found else None

    def choose_transit(self, table: str, number: int) -> Optional[TransitRoute]:
        found = [it for it in self.transit_tables[table] if it.block.holds(number)]

        def rank(it: TransitRoute) -> tuple[int, bool]:
            return it.block.length, not it.propagated

        return max(found, key=rank) if found else None

    def first_rule(self, interface: Interface, outward: bool, h: Header) -> Optional[tuple[str, Rule]]:
        far = h.dst if outward else h.src
        for group, side, it in self.rules_of(interface, outward):
            if self.allows_flow(it, h) and self.allows_far(side, it, far):
                return group, it
        return None


class Walker:
    """Follows packets, and keeps connections and translations between them."""

    def __init__(self, network: Network) -> None:
        self.network = network
        self.connections: set[tuple[str, bool, Header]] = set()
        self.translations: list[Translation] = []

    def walk(self, label: str, start: str, header: Header) -> tuple[list[Hop], Union[Stop, str]]:
        """The hops of a packet, and where it arrived or what stopped it."""
        kind = "internet" if start == "internet" else "out" if start in self.network.interfaces else "far-in"
        place: Place = (kind, start)
        hops: list[Hop] = []
        seen: set[Place] = set()
        while True:
            seen.add(place)
            notes: list[Note] = []
            act = getattr(self, "at_" + place[0].replace("-", "_"))
            by, then = act(label, place, header, notes)
            hops.append(Hop(place[0], self.printed(place), header, by, notes))
            if not isinstance(then, Go):
                return hops, then
            if then.place in seen or len(hops) == MOST_PLACES:
                name = "Loop" if then.place in seen else "TooFar"
                chosen = [note for it in hops for note in it.notes if note[0] in ("route", "transit")]
                facts = {"tables": [it[1] if it[0] == "transit" else it[1].id for it in chosen]}
                return hops, Stop(name, self.printed(then.place), "-", facts)
            place, header = then

    def printed(self, place: Place) -> str:
        """The id of a place as a hop tells it: that of the gateway where it is a VPC's."""
        return str(self.network.igw_of[place[1]] if place[0] in ("igw-out", "igw-in") else place[1])

    # -- what several places ask

    def judge(self, subnet: str, outward: bool, h: Header, notes: list[Note]) -> Optional[Stop]:
        """The stop of the ACL of a subnet; None where it lets the packet pass."""
        acl = self.network.acl_of_subnet[subnet]
        row = self.network.decide(acl, outward, h)
        if row and row.allow:
            notes.append(("acl", acl, row, subnet))
            return None
        number = str(row.number if row else 32767)
        facts = {"row": row, "subnet": subnet, "header": h}
        return Stop("AclOut" if outward else "AclIn", acl.id, number, facts)

    def cross(self, one: str, other: str, h: Header, notes: list[Note]) -> Optional[Stop]:
        if one == other:
            notes.append(("inside", one))
            return None
        return self.judge(one, True, h, notes) or self.judge(other, False, h, notes)

    def deliver(self, interface: Interface, h: Header) -> Then:
        nat = self.network.nat_at.get(interface.id)
        if nat:
            return Go(("nat-in", nat.id), h)
        if interface.is_gateway:
            return Stop("NotAHost", interface.id, "-", {"header": h})
        return Go(("in", interface.id), h)

    def passes(self, label: str, interface: Interface, outward: bool, h: Header) -> By:
        """By what the packet passes the groups; None where they refuse it."""
        if not interface.groups:
            return "none"
        if label == "answer" and self.is_reply(interface, outward, h):
            return "tracked"
        found = self.network.first_rule(interface, outward, h)
        if found and label == "open":
            self.connections.add((interface.id, outward, h))
        return found

    def is_reply(self, interface: Interface, outward: bool, h: Header) -> bool:
        """Whether it answers a connection that passed here before."""
        return any(
            eni == interface.id and way != outward and reply_of(told) == h
            for eni, way, told in self.connections
        )

    # -- places

    def at_out(self, label: str, place: Place, h: Header, notes: list[Note]) -> Step:
        interface = self.network.interfaces[place[1]]
        if self.network.is_idle(interface):
            return None, Stop("Detached", interface.id, "-", {})
        if interface.checked and not interface.has(h.src):
            return None, Stop("SourceCheck", interface.id, "-", {"header": h})
        by = self.passes(label, interface, True, h)
        if not by:
            return None, Stop("GroupsOut", interface.id, "-", {"header": h, "label": label})
        return by, Go(("router", interface.subnet, ("host", interface.id)), h)

    def at_in(self, label: str, place: Place, h: Header, notes: list[Note]) -> Step:
        interface = self.network.interfaces[place[1]]
        if self.network.is_idle(interface):
            return None, Stop("Detached", interface.id, "-", {})
        if interface.checked and not interface.has(h.dst):
            return None, Stop("DestCheck", interface.id, "-", {"header": h})
        by = self.passes(label, interface, False, h)
        if not by:
            return None, Stop("GroupsIn", interface.id, "-", {"header": h, "label": label})
        appliance = self.network.appliances.get(interface.id)
        if not appliance or interface.has(h.dst):
            return by, interface.id
        if not forwards(appliance, h):
            return by, Stop("ApplianceDrop", interface.id, "-", {"header": h})
        notes.append(("appliance", appliance))
        return by, Go(("out", interface.id), h)

    def at_router(self, label: str, place: Place, h: Header, notes: list[Note]) -> Step:
        network, subnet = self.network, place[1]
        table, vpc = network.table_at(subnet), network.subnets[subnet].vpc
        route = network.choose(table, h.dst)
        facts = {"header": h, "subnet": subnet, "table": table, "vpc": vpc}
        if not route:
            return None, Stop("NoRoute", table.id, "-", facts)
        facts["route"] = route
        if route.blackhole:
            return None, Stop("Blackhole", table.id, route.reach(), facts)
        notes.append(("route", table, route))
        act = getattr(self, "to_" + route.kind)
        return None, act(facts, route, h, notes)

    def after(self, stop: Optional[Stop], place: Place, h: Header) -> Then:
        """On to a place, unless something stops the packet before."""
        return stop or Go(place, h)

    # -- targets of routes. Facts have the subnet that sends, and its VPC.

    def to_local(self, facts: Row, route: Route, h: Header, notes: list[Note]) -> Then:
        host = self.network.host_of(facts["vpc"], h.dst)
        if not host:
            return Stop("NoHost", facts["vpc"], "-", facts)
        notes.append(("host", host, h.dst))
        return self.cross(facts["subnet"], host.subnet, h, notes) or self.deliver(host, h)

    def to_internet(self, facts: Row, route: Route, h: Header, notes: list[Note]) -> Then:
        vpc = facts["vpc"]
        if self.network.igw_of.get(vpc) != route.target:
            return Stop("GatewayDetached", route.target, "-", facts)
        return self.after(self.judge(facts["subnet"], True, h, notes), ("igw-out", vpc), h)

    def to_nat(self, facts: Row, route: Route, h: Header, notes: list[Note]) -> Then:
        nat = self.network.nats[route.target]
        if nat.state != "available":
            return Stop("NatNotAvailable", nat.id, "-", facts)
        if nat.subnet is None:
            return Stop("Unmodelled", nat.id, "-", facts)
        stop = self.cross(facts["subnet"], nat.subnet, h, notes)
        return self.after(stop, ("nat-out", nat.id), h)

    def to_peering(self, facts: Row, route: Route, h: Header, notes: list[Note]) -> Then:
        peering, vpc = self.network.peerings[route.target], facts["vpc"]
        if not peering.pair:
            return Stop("PeerNotActive", peering.id, "-", facts)
        is_described = self.network.other_side(peering, vpc) in self.network.vpcs
        if not is_described and not self.network.outside.end(peering.id):
            return Stop("Unmodelled", peering.id, "-", facts)
        stop = self.judge(facts["subnet"], True, h, notes)
        return self.after(stop, ("peer", peering.id, vpc) if is_described else ("far-out", peering.id), h)

    def to_transit(self, facts: Row, route: Route, h: Header, notes: list[Note]) -> Then:
        found = self.network.attachments.values()
        wanted = (route.target, facts["vpc"])
        attachment = next((it for it in found if (it.gateway, it.vpc) == wanted), None)
        if not attachment:
            return Stop("TgwNoAttachment", route.target, "-", facts)
        entered = self.network.zone_subnet(attachment, facts["subnet"])
        if entered is None:
            return Stop("TgwNoZone", attachment.id, "-", facts)
        stop = self.judge(facts["subnet"], True, h, notes) or self.judge(entered, False, h, notes)
        return self.after(stop, ("tgw", attachment.id, entered), h)

    def to_interface(self, facts: Row, route: Route, h: Header, notes: list[Note]) -> Then:
        interface = self.network.interfaces[route.target]
        stop = self.cross(facts["subnet"], interface.subnet, h, notes)
        if not stop and interface.is_gateway:
            return Stop("NotAHost", interface.id, "-", facts)
        return self.after(stop, ("in", interface.id), h)

    def to_other(self, facts: Row, route: Route, h: Header, notes: list[Note]) -> Then:
        network, vpc, it = self.network, facts["vpc"], route.target
        far, subnet = network.fars.get(it), network.firewall_subnet(vpc, it)
        if not far and subnet is not None:
            return self.after(self.cross(facts["subnet"], subnet, h, notes), ("inspect", it), h)
        if not far or far.kind not in ("gateway", "endpoint"):
            return Stop("Unmodelled", it, "-", facts)
        if network.outside.beside(far) != vpc:
            return Stop("FarDetached" if far.kind == "gateway" else "Unmodelled", it, "-", facts)
        return self.after(self.judge(facts["subnet"], True, h, notes), ("far-out", it), h)

    # -- gateways and other VPCs

    def at_enter(self, label: str, place: Place, h: Header, notes: list[Note]) -> Step:
        network, vpc, by = self.network, place[1], place[2]
        gateway = network.igw_of.get(vpc) if by == "gateway" else by[1] if by[0] == "gateway" else None
        table = network.table_of_gateway.get(gateway or "")
        facts: Row = {"header": h}
        route = network.choose(table, h.dst) if table else None
        if table:
            facts.update(vpc=vpc, gateway=gateway)
            if not route:
                return None, Stop("NoRoute", table.id, "-", facts)
            facts.update(table=table, route=route)
            if route.blackhole:
                return None, Stop("Blackhole", table.id, route.reach(), facts)
            notes.append(("route", table, route))
        if not route or route.kind == "local":
            host = network.host_of(vpc, h.dst)
            if not host:
                return None, Stop("NoHost", vpc, "-", facts)
            notes.append(("host", host, h.dst))
            return None, self.judge(host.subnet, False, h, notes) or self.deliver(host, h)
        if route.kind == "interface":
            interface = network.interfaces[route.target]
            stop = self.judge(interface.subnet, False, h, notes)
            if not stop and interface.is_gateway:
                return None, Stop("NotAHost", interface.id, "-", facts)
            return None, self.after(stop, ("in", interface.id), h)
        subnet = network.firewall_subnet(vpc, route.target) if route.kind == "other" else None
        if subnet is None:
            return None, Stop("Unmodelled", route.target, "-", facts)
        return None, self.after(self.judge(subnet, False, h, notes), ("inspect", route.target), h)

    def at_inspect(self, label: str, place: Place, h: Header, notes: list[Note]) -> Step:
        appliance = self.network.inspecting[place[1]]
        if not forwards(appliance, h):
            return None, Stop("InspectDrop", place[1], "-", {"header": h})
        notes.append(("inspected", appliance))
        return None, Go(("router", self.network.firewalls[place[1]].subnet, ("firewall", place[1])), h)

    def at_igw_out(self, label: str, place: Place, h: Header, notes: list[Note]) -> Step:
        host = self.network.host_of(place[1], h.src)
        public = host.addresses.get(h.src) if host else None
        if public is None:
            facts = {"header": h, "vpc": place[1], "host": host}
            return None, Stop("NoPublic", self.network.igw_of[place[1]], "-", facts)
        assert host
        if self.network.is_blocked(host):
            return None, self.blocked(host, True, label, h)
        notes.append(("public", h.src, public))
        return None, Go(("internet", "internet"), h._replace(src=public))

    def blocked(self, end: Interface, outward: bool, label: str, h: Header) -> Stop:
        facts = {"header": h, "label": label, "end": end, "outward": outward}
        return Stop("BlockPublicAccess", end.subnet, self.network.mode_of(end.subnet), facts)

    def at_internet(self, label: str, place: Place, h: Header, notes: list[Note]) -> Step:
        if is_unroutable(h.src) or is_unroutable(h.dst):
            return None, Stop("PrivateAddress", "internet", "-", {"header": h})
        owner = self.network.owner_of.get(h.dst)
        if not owner:
            return None, "internet"
        interface, _, vpc = owner
        if vpc not in self.network.igw_of:
            return None, Stop("NoGateway", vpc, "-", {"header": h, "interface": interface})
        notes.append(("owner", interface, h.dst, vpc))
        return None, Go(("igw-in", vpc), h)

    def at_igw_in(self, label: str, place: Place, h: Header, notes: list[Note]) -> Step:
        owner, private, _ = self.network.owner_of[h.dst]
        if self.network.is_blocked(owner):
            return None, self.blocked(owner, False, label, h)
        notes.append(("private", h.dst, private))
        return None, Go(("enter", place[1], "gateway"), h._replace(dst=private))

    def at_nat_out(self, label: str, place: Place, h: Header, notes: list[Note]) -> Step:
        nat = self.network.nats[place[1]]
        if label == "answer":
            return None, Stop("NatAnswer", nat.id, "-", {"header": h})
        if h.proto not in PROTOCOLS:
            return None, Stop("NatProtocol", nat.id, "-", {"header": h})
        own = [it for it in self.translations if it.nat == nat.id]
        known = next((it for it in own if it.before == h), None)
        if not known:
            shared = [it.after.p for it in own if has_goal(it.after, h)]
            if len(shared) >= MOST_TRANSLATIONS:
                return None, Stop("NatFull", nat.id, "-", {"header": h})
            assert nat.address is not None
            after = h._replace(src=nat.address, p=free_port(set(shared), h))
            known = Translation(nat.id, h, after)
            self.translations.append(known)
        notes.append(("translated", h, known.after))
        return None, Go(("router", nat.subnet, ("nat", nat.id)), known.after)

    def at_nat_in(self, label: str, place: Place, h: Header, notes: list[Note]) -> Step:
        nat = self.network.nats[place[1]]
        own = [it for it in self.translations if it.nat == nat.id and label == "answer"]
        known = next((it for it in own if reply_of(it.after) == h), None)
        back = reply_of(known.before) if known else None
        if not back:
            return None, Stop("NatUnsolicited", nat.id, "-", {"header": h, "label": label})
        notes.append(("restored", h, back))
        return None, Go(("router", nat.subnet, ("nat", nat.id)), back)

    def at_peer(self, label: str, place: Place, h: Header, notes: list[Note]) -> Step:
        network, peering, vpc = self.network, self.network.peerings[place[1]], place[2]
        other = network.other_side(peering, vpc)
        facts = {"header": h, "vpc": vpc, "other": other}
        if not any(it.holds(h.src) for it in network.vpcs[vpc].blocks):
            return None, Stop("PeerSource", peering.id, "-", facts)
        if not any(it.holds(h.dst) for it in network.vpcs[other].blocks):
            return None, Stop("PeerDestination", peering.id, "-", facts)
        notes.append(("carried", vpc, other))
        return None, Go(("enter", other, ("peering", peering.id)), h)

    def at_tgw(self, label: str, place: Place, h: Header, notes: list[Note]) -> Step:
        table = self.network.associations.get(place[1])
        if table is None or table not in self.network.transit_tables:
            return None, Stop("TgwNoTable", place[1], "-", {"header": h, "table": table})
        return self.carried(place, table, place[2], h, notes)

    def carried(self, place: Place, table: str, entered: Optional[str], h: Header, notes: list[Note]) -> Step:
        """By the table of a transit gateway; entered is None of what came from outside."""
        network = self.network
        route = network.choose_transit(table, h.dst)
        facts = {"header": h, "attachment": place[1], "route": route, "table": table}
        if not route:
            return None, Stop("TgwNoRoute", table, "-", facts)
        if route.blackhole:
            return None, Stop("TgwBlackhole", table, str(route.block), facts)
        if route.attachment is None:
            return None, Stop("Unmodelled", table, "-", facts)
        is_far = network.outside.end(route.attachment)
        if not is_far and route.attachment not in network.attachments:
            return None, Stop("Unmodelled", route.attachment, "-", facts)
        if not is_far and entered is None:
            entered = next(iter(network.attachments[route.attachment].subnets), None)
            if entered not in network.subnets:
                return None, Stop("Unmodelled", route.attachment, "-", facts)
        notes.append(("transit", table, route))
        return None, Go(("far-out", route.attachment) if is_far else ("tgw-leave", route.attachment, entered), h)

    # -- networks outside

    def at_far_out(self, label: str, place: Place, h: Header, notes: list[Note]) -> Step:
        far = self.network.fars[place[1]]
        return None, self.over(far, h, True) or far.id

    def over(self, far: Far, h: Header, outward: bool) -> Optional[Stop]:
        """What stops a packet on its way to what isn't described, or from there, by its addresses."""
        network = self.network
        beside, other = network.outside.beside(far), network.outside.other(far)
        own = network.vpcs[beside].blocks if beside else []
        if far.kind == "endpoint" and outward and not any(it.holds(h.src) for it in own):
            return Stop("FarSource", far.id, "-", {"header": h})
        if far.kind != "peering":
            return None
        theirs = [block_of(it) for it in network.outside.blocks_beyond(far)]
        sides, vpcs = ((own, theirs), (beside, other)) if outward else ((theirs, own), (other, beside))
        facts = {"header": h, "vpc": vpcs[0], "other": vpcs[1]}
        for blocks, number, name in zip(sides, (h.src, h.dst), ("PeerSource", "PeerDestination")):
            if not any(it.holds(number) for it in blocks):
                return Stop(name, far.id, "-", facts)
        return None

    def at_far_in(self, label: str, place: Place, h: Header, notes: list[Note]) -> Step:
        network, far = self.network, self.network.fars[place[1]]
        if far.kind == "attachment":
            table = network.associations.get(far.id)
            if table is None or table not in network.transit_tables:
                return None, Stop("FarNoTable", far.id, "-", {"header": h, "table": table})
            return self.carried(place, table, None, h, notes)
        beside = network.outside.beside(far)
        if far.kind == "endpoint" and label == "open":
            return None, Stop("FarOpens", far.id, "-", {"header": h})
        if beside is None:
            return None, Stop("FarDetached", far.id, "-", {"header": h})
        stop = self.over(far, h, False)
        return None, self.after(stop, ("enter", beside, (far.kind, far.id)), h)

    def at_tgw_leave(self, label: str, place: Place, h: Header, notes: list[Note]) -> Step:
        network, attachment = self.network, self.network.attachments[place[1]]
        if attachment.vpc not in network.vpcs or not attachment.subnets:
            facts = {"header": h, "attachment": attachment.id}
            return None, Stop("Unmodelled", attachment.id, "-", facts)
        subnet = network.zone_subnet(attachment, place[2]) or attachment.subnets[0]
        notes.append(("left", attachment, subnet))
        return None, Go(("router", subnet, ("transit", attachment.id)), h)


def has_goal(header: Header, other: Header) -> bool:
    """Whether two headers share what NAT ports are counted by."""
    return (header.proto, header.dst, header.q) == (other.proto, other.dst, other.q)


def free_port(taken: set[int], h: Header) -> int:
    """The port that a NAT gateway gives."""
    port = h.p if h.p >= FIRST_PORT else h.p + FIRST_PORT
    while port in taken:
        port = port + 1 if port < 65535 else FIRST_PORT
    return port


def forwards(appliance: Appliance, h: Header) -> bool:
    if appliance.kind == "service":
        is_carried = h.proto in (6, 17)
        return is_carried and any(appliance.first <= it <= appliance.last for it in (h.q, h.p))
    if appliance.kind == "peer" and appliance.block:
        return appliance.block.holds(h.src) or appliance.block.holds(h.dst)
    return appliance.kind == "all"


class Round(NamedTuple):
    """What became of a request and its reply. `stop` is None where both get through."""

    phase: str
    stop: Optional[Stop]
    request: list[Hop]
    reply: Optional[list[Hop]]
    goal: Optional[str]


def round_trip(network: Network, start: str, goal: Optional[str], header: Header) -> Round:
    """What becomes of a request and its reply, as ask judges it; a goal of None is any end."""
    walker = Walker(network)
    hops, end = walker.walk("open", start, header)
    if isinstance(end, Stop):
        return Round("request", end, hops, None, goal)
    arrived = hops[-1].header
    facts = {"start": start, "goal": goal, "header": arrived}
    if goal is not None and end != goal:
        return Round("request", Stop("WrongPlace", end, "-", facts), hops, None, goal)
    answer = reply_of(arrived)
    if answer is None:
        return Round("reply", Stop("NoReply", end, "-", facts), hops, None, end)
    back, final = walker.walk("answer", end, answer)
    if isinstance(final, Stop):
        return Round("reply", final, hops, back, end)
    wanted, returned = reply_of(header), back[-1].header
    if final != start or returned != wanted:
        facts = {**facts, "header": returned, "goal": end, "wanted": wanted}
        return Round("reply", Stop("WrongReturn", final, "-", facts), hops, back, end)
    return Round("reply", None, hops, back, end)


# ---- texts


def printed_walk(hops: list[Hop], end: Union[Stop, str]) -> list[str]:
    """A walk as `trace` prints it."""
    lines = []
    for number, it in enumerate(hops, 1):
        by = "" if it.by is None else f" by {it.by}"
        if isinstance(it.by, tuple):
            by = f" by {rule_words(it)}"
        lines.append(f"hop {number} {it.kind} {it.id} {it.header}{by}")
    return [*lines, f"arrived {end}" if isinstance(end, str) else f"stopped {end.name} {end.id} {end.rule}"]


def rule_words(hop: Hop) -> str:
    assert isinstance(hop.by, tuple)
    return f"{hop.by[0]} {'out' if hop.kind == 'out' else 'in'} {hop.by[1].name}"


def printed_why(hops: list[Hop], end: Union[Stop, str]) -> list[str]:
    """A walk as `why` prints it."""
    *lines, last = printed_walk(hops, end)
    told = []
    for number, (line, hop) in enumerate(zip(lines, hops), 1):
        told += [line, *decided(hop)]
        if number == len(hops) and isinstance(end, Stop):
            told += refused(hop, end)
        elif number < len(hops) and hops[number].header != hop.header:
            told.append(f"becomes {hops[number].header}")
    return [*told, last]


def decided(hop: Hop) -> list[str]:
    """What let the packet pass."""
    lines = [f"group {rule_words(hop)}"] if isinstance(hop.by, tuple) else []
    for kind, *of in hop.notes:
        if kind == "route":
            lines.append(f"route {of[0].id} {of[1].reach()} {of[1].target}")
        elif kind == "transit":
            lines.append(f"route {of[0]} {of[1].block} {of[1].attachment}")
        elif kind == "acl":
            lines.append(f"acl {of[0].id} {'out' if of[1].outward else 'in'} {of[1].number} allow")
    return lines


def refused(hop: Hop, end: Stop) -> list[str]:
    """What stopped it."""
    route = end.facts.get("route")
    if end.name in ("AclOut", "AclIn"):
        return [f"acl {end.id} {end.name[3:].lower()} {end.rule} deny"]
    if end.name == "Blackhole" and route:
        return [f"route {end.id} {route.reach()} {route.target}"]
    if hop.kind in ("tgw", "far-in") and route:
        return [f"route {end.facts['table']} {route.block} {route.attachment or '-'}"]
    return []


def why(path: str, words: list[str]) -> str:
    """What `vpc why` prints of a packet, by the words behind FILE; nothing where it refuses."""
    label, _, start, *header = words
    hops, end = Walker(network_of(path)).walk(label, start, header_of(header))
    return "\n".join([*printed_why(hops, end), ""])


# The network of the file that was read last.
READ: dict[str, Any] = {}


def network_of(path: str) -> Network:
    with open(path, "rb") as file:
        data = file.read()
    if READ.get("data") != data:
        READ.update(data=data, network=Network(objects_of(json_in(path))))
    found: Network = READ["network"]
    return found


def header_of(words: list[str]) -> Header:
    """The header of five words."""
    proto, src, dst, p, q = words
    return Header(PROTOCOL_NUMBERS.get(proto) or int(proto), address(src), address(dst), int(p), int(q))
