"""Walks as the program tells them: what their lines name in a bundle, and what stopped a packet,
with what that is about."""

from __future__ import annotations

from collections.abc import Iterator, Sequence
from typing import Any, NamedTuple, Optional, Union

from scripts.explain_network import Network, Route, is_unroutable
from scripts.headers import Header, reply_of
from scripts.texts import (
    AclVerdict, ChosenRoute, Decision, End, Hop, NoText, Stopped, Walk, Why,
)

# What was decided at each hop of a walk; nothing where that isn't told.
Decisions = Sequence[list[Decision]]

# Where a bundle has the component that a hop names, by its place, and that of a stop, by its name.
PLACE_HOMES = {
    "out": "interfaces", "in": "interfaces", "router": "subnets", "enter": "vpcs",
    "igw-out": "igws", "igw-in": "igws", "nat-out": "nats", "nat-in": "nats", "peer": "peerings",
    "tgw": "attachments", "tgw-leave": "attachments", "far-out": "fars", "far-in": "fars",
    "inspect": "firewalls",
}
HOMES = {
    "interfaces": "Detached SourceCheck DestCheck GroupsOut GroupsIn NotAHost",
    "appliances": "ApplianceDrop",
    "tables": "NoRoute Blackhole",
    "acls": "AclOut AclIn",
    "vpcs": "NoHost NoGateway",
    "igws": "GatewayDetached NoPublic",
    "subnets": "BlockPublicAccess",
    "nats": "NatNotAvailable NatAnswer NatProtocol NatFull NatUnsolicited",
    "peerings": "PeerNotActive PeerSource PeerDestination",
    "attachments": "TgwNoZone TgwNoTable",
    "transit_tables": "TgwNoRoute TgwBlackhole",
    "fars": "FarDetached FarNoTable FarSource FarOpens",
    "inspecting": "InspectDrop",
}


class Stop(NamedTuple):
    """What stopped a packet; `facts` are what that is about, as far as it is known."""

    name: str
    id: str
    rule: str
    facts: dict[str, Any]


def known(network: Network, home: Optional[str], component: str) -> str:
    """Refuses a component that the bundle doesn't have."""
    if home and component not in getattr(network, home):
        raise NoText(f"{component} isn't in the bundle")
    return component


def home_of(name: str) -> Optional[str]:
    return next((it for it, names in HOMES.items() if name in names.split()), None)


def bare_stop(network: Network, stop: Stopped) -> Stop:
    """A stop of which the packet isn't told."""
    known(network, home_of(stop.name), stop.id)
    if stop.name == "BlockPublicAccess" and stop.rule != network.mode_of(stop.id):
        raise NoText(f"block public access of {stop.id} is {network.mode_of(stop.id)}")
    if stop.name == "Detached" and not network.is_idle(network.interfaces[stop.id]):
        raise NoText(f"{stop.id} is attached, and to no instance that doesn't run")
    return Stop(stop.name, stop.id, stop.rule, {})


def must_be_there(network: Network, why: Why) -> None:
    """Refuses a walk that names what the bundle doesn't have."""
    for hop in why.walk.hops:
        known(network, PLACE_HOMES.get(hop.place), hop.id)
        if hop.by:
            must_have_groups(network, hop.id, hop.by)
    for hop, found in zip(why.walk.hops, why.decisions):
        for it in found:
            if isinstance(it, AclVerdict):
                known(network, "acls", it.acl)
            if isinstance(it, ChosenRoute):
                home = "transit_tables" if hop.place in ("tgw", "far-in") else "tables"
                known(network, home, it.table)
    if isinstance(why.walk.end, Stopped):
        bare_stop(network, why.walk.end)


def must_have_groups(network: Network, eni: str, by: str) -> None:
    """Refuses what an interface passes a packet by that has other groups."""
    groups, group = network.interfaces[eni].groups, by.split(" ")[0]
    if (by == "none") != (not groups) or (" " in by and group not in groups):
        raise NoText(f"{eni} has other groups")


# ---- what was decided

def chosen_at(found: list[Decision]) -> Optional[ChosenRoute]:
    return next((it for it in found if isinstance(it, ChosenRoute)), None)


def route_at(network: Network, found: list[Decision]) -> Optional[Route]:
    """The row of a route table that was chosen."""
    it = chosen_at(found)
    return network.route_named(it.table, it.reach, it.target) if it else None


def entered_at(network: Network, hop: Hop, found: list[Decision]) -> Optional[str]:
    """The subnet that a packet enters from a router, or from outside its VPC."""
    route = route_at(network, found)
    if hop.place == "enter":
        return network.entered_from_outside(route, hop.id, hop.header.dst)
    return network.entered_by(route, hop.id, hop.header.dst) if route else None


# ---- what stopped a packet


class Way:
    """A walk up to what stopped the packet."""

    def __init__(self, network: Network, why: Why, label: Optional[str]) -> None:
        self.network, self.hops, self.label = network, why.walk.hops, label
        self.decisions, self.end = why.decisions, why.walk.end
        self.last = self.hops[-1]
        self.found: list[Decision] = self.decisions[-1] if self.decisions else []

    def stop(self) -> Stop:
        """What stopped it, with what is known of that."""
        assert isinstance(self.end, Stopped)
        name = self.end.name
        facts: dict[str, Any] = {"header": self.last.header, "label": self.label}
        if name in ("Loop", "TooFar"):
            facts = {"tables": [it.table for it in self.routes()]}
        elif name == "Detached":
            facts = {}
        elif name in ("AclOut", "AclIn"):
            facts.update(self.acl_facts(self.end, name == "AclOut"))
        elif name == "BlockPublicAccess":
            facts.update(access_facts(self.network, self.end.id, self.last.header))
        else:
            facts.update(getattr(self, f"at_{self.last.place.replace('-', '_')}")())
        return Stop(name, self.end.id, self.end.rule, facts)

    def routes(self) -> Iterator[ChosenRoute]:
        for found in self.decisions:
            yield from (it for it in found if isinstance(it, ChosenRoute))

    def vpc(self) -> str:
        """The VPC of the router where the packet was last."""
        subnet = next(it.id for it in reversed(self.hops) if it.place == "router")
        return self.network.subnets[subnet].vpc

    def acl_facts(self, end: Stopped, outward: bool) -> dict[str, Any]:
        subnet = entered_at(self.network, self.last, self.found)
        row = self.network.row_numbered(end.id, outward, end.rule)
        return {"row": row, "subnet": self.last.id if outward else subnet}

    def at_out(self) -> dict[str, Any]:
        return {}

    at_in = at_nat_out = at_nat_in = at_igw_in = at_tgw_leave = at_inspect = at_out

    def at_enter(self) -> dict[str, Any]:
        """By the table of the gateway, if it has one."""
        assert isinstance(self.end, Stopped)
        network, gateway, name = self.network, self.entrance(), self.end.name
        if gateway is None:
            return {}
        table, route = network.table_of_gateway[gateway], route_at(network, self.found)
        if name == "Blackhole":
            route = network.gone_route(self.end.id, self.end.rule)
        facts: dict[str, Any] = {"vpc": self.last.id, "gateway": gateway}
        if route and (name != "NotAHost" or route.target == self.end.id):
            facts.update(table=table, route=route)
        return facts

    def entrance(self) -> Optional[str]:
        """The gateway by which the packet came in, where it has a table."""
        before = self.hops[-2] if len(self.hops) > 1 else self.last
        is_gateway = before.place in ("igw-in", "far-in")
        return before.id if is_gateway and before.id in self.network.table_of_gateway else None

    def at_router(self) -> dict[str, Any]:
        assert isinstance(self.end, Stopped)
        network, subnet = self.network, self.last.id
        route = route_at(network, self.found)
        if self.end.name == "Blackhole":
            route = network.gone_route(self.end.id, self.end.rule)
        facts: dict[str, Any] = {"subnet": subnet, "vpc": network.subnets[subnet].vpc}
        # (a packet to an address may end at a gateway's interface too)
        if route and (self.end.name != "NotAHost" or route.target == self.end.id):
            facts.update(table=network.table_at(subnet), route=route)
        return facts

    def at_igw_out(self) -> dict[str, Any]:
        return {"vpc": self.vpc(), "host": self.network.host_of(self.vpc(), self.last.header.src)}

    def at_internet(self) -> dict[str, Any]:
        owner = self.network.owner_of.get(self.last.header.dst)
        return {"interface": owner[0]} if owner else {}

    def at_peer(self) -> dict[str, Any]:
        vpc, peering = self.vpc(), self.network.peerings[self.last.id]
        if not peering.pair or vpc not in peering.pair:
            raise NoText(f"{self.last.id} isn't a peering of {vpc}")
        return {"vpc": vpc, "other": self.network.other_side(peering, vpc)}

    def at_tgw(self) -> dict[str, Any]:
        return {"attachment": self.last.id}

    def at_far_out(self) -> dict[str, Any]:
        return self.far_facts(True)

    def at_far_in(self) -> dict[str, Any]:
        return self.far_facts(False)

    def far_facts(self, outward: bool) -> dict[str, Any]:
        """Of a peering the VPC that sends, and the other one."""
        outside, far = self.network.outside, self.network.fars[self.last.id]
        if far.kind == "attachment":
            return {"attachment": far.id}
        vpcs = [outside.beside(far), outside.other(far)]
        here, other = vpcs if outward else vpcs[::-1]
        return {"vpc": here, "other": other} if far.kind == "peering" else {"far": far.id}


def as_end(end: End) -> Union[str, tuple[str, str, str]]:
    """How a walk ends, to be compared."""
    return (end.name, end.id, end.rule) if isinstance(end, Stopped) else end.id


# ---- stops of replies, whose walks aren't told

def may_stop(network: Network, stop: Stopped, h: Header) -> bool:
    """Whether a header is one that the rows of the component stop, as far as they tell."""
    name, outward = stop.name, stop.name in ("GroupsOut", "AclOut")
    if name in ("GroupsOut", "GroupsIn"):
        return not network.is_allowed(network.interfaces[stop.id], outward, h)
    if name in ("AclOut", "AclIn"):
        row = network.decide(network.acls[stop.id], outward, h)
        return (str(row.number), row.allow) == (stop.rule, False) if row else stop.rule == "32767"
    if name in ("SourceCheck", "DestCheck"):
        own = h.src if name == "SourceCheck" else h.dst
        return not network.interfaces[stop.id].has(own)
    if name in ("NoRoute", "Blackhole"):
        routes = network.tables[stop.id].routes
        held = [it.reach() for it in routes if network.holds(it, h.dst)]
        return stop.rule in held if name == "Blackhole" else not held
    if name == "NoHost":
        return not network.host_of(stop.id, h.dst)
    if name == "BlockPublicAccess":
        return bool(access_facts(network, stop.id, h))
    return True


def access_facts(network: Network, subnet: str, h: Header) -> dict[str, Any]:
    """The interface of a subnet, whose public access is blocked there, by whose public address a
    packet goes out, else comes in; nothing where there is none."""
    sender, owner = network.host_of(network.subnets[subnet].vpc, h.src), network.owner_of.get(h.dst)
    if sender and sender.addresses.get(h.src) is None:
        sender = None
    for outward, end in ((True, sender), (False, owner[0] if owner else None)):
        if end and end.subnet == subnet and network.is_blocked(end):
            return {"end": end, "outward": outward}
    return {}


def stops_first(network: Network, start: str, stop: Stopped, h: Header) -> bool:
    """Whether it is where a packet starts that a component stops it."""
    if stop.name == "PrivateAddress":
        return start == "internet" and (is_unroutable(h.src) or is_unroutable(h.dst))
    is_own = stop.id == start and stop.name in ("SourceCheck", "GroupsOut")
    return is_own and may_stop(network, stop, h)


def reply_stop(network: Network, stop: Stopped, request: Walk) -> Stop:
    """What stopped a reply whose walk isn't told. Where nothing rewrote the request the reply is
    one all the way; else it may be that of any hop which the component stops."""
    bare = bare_stop(network, stop)
    replies = [reply_of(it.header) for it in reversed(request.hops)]
    found = [it for it in dict.fromkeys(replies) if it and may_stop(network, stop, it)]
    if not found:
        return bare
    facts: dict[str, Any] = {"header": found[0], "label": "answer"}
    if stop.name in ("AclOut", "AclIn"):
        subnets = network.acls[stop.id].subnets
        facts["row"] = network.row_numbered(stop.id, stop.name == "AclOut", stop.rule)
        facts["subnet"] = subnets[0] if len(subnets) == 1 else None
    if stop.name == "BlockPublicAccess":
        facts.update(access_facts(network, stop.id, found[0]))
    # (of these the header alone doesn't make the sentences)
    return bare if stop.name in NEED_MORE else Stop(stop.name, stop.id, stop.rule, facts)


NEED_MORE = ("NoGateway", "PeerSource", "PeerDestination", "TgwNoRoute", "Loop", "TooFar")
