"""Why a packet was stopped, and what would have to change, for each stop."""

from __future__ import annotations

from collections.abc import Iterator
from typing import Optional

from scripts.bundles import harmless
from scripts.explain_network import Interface, Route, Rule, Side, is_unroutable
from scripts.explain_told import Stop
from scripts.explain_words import (
    Teller, appliance_words, direction, flow_words, icmp_words, list_words, packet_words,
    ports_words, some, way_words,
)
from scripts.headers import Header, dotted

# How many places a walk has at most, and a NAT gateway translations to one destination.
MOST_PLACES, MOST_TRANSLATIONS = 64, 55_000
WAY_BACK = "back the way that the request came, so that its addresses are restored"
ANOTHER = "or be deleted, so that another one is chosen"

# The two sentences of each stop. A word in braces is that of Why, of the packet and the component;
# stops that aren't here have a method there.
SENTENCES = {
    "SourceCheck": (
        "{s.its_source} is none of the private addresses of {s.it} ({s.addresses}), and its "
        "source/destination check is on.",
        "the packet would have to come from one of these addresses, or the source/destination "
        "check of {s.it} to be off.",
    ),
    "DestCheck": (
        "{s.its_destination} is none of the private addresses of {s.it} ({s.addresses}), and its "
        "source/destination check is on.",
        "the packet would have to go to one of these addresses, or the source/destination check of "
        "{s.it} to be off.",
    ),
    "ApplianceDrop": (
        "the appliance at {s.it} forwards {s.forwarded}, and not {s.packet}.",
        "what is told of it in Appliances would have to forward {s.packet}, or a route to lead "
        "around it.",
    ),
    "NoRoute": (
        "{s.table} has no route for {s.destination}.",
        "a route of {s.it} would have to hold {s.destination}.",
    ),
    "Blackhole": (
        "{s.it}: {s.chosen_route} is a blackhole, since its target is gone.",
        f"the route {{s.rule}} of {{s.it}} would have to lead to a target that is there, "
        f"{ANOTHER}.",
    ),
    "NoHost": (
        "no interface of VPC {s.it} has the address {s.destination}.",
        "an interface of {s.it} would have to have {s.destination}, or a route to send it "
        "elsewhere.",
    ),
    "NoGateway": (
        "{s.public_address} in VPC {s.it}, and no internet gateway is attached to that VPC.",
        "an internet gateway would have to be attached to {s.it}.",
    ),
    "GatewayDetached": (
        "{s.led_to} isn't attached to {s.vpc}.",
        "{s.it} would have to be attached to {s.vpc}{s.other_gateway}.",
    ),
    "NoPublic": (
        "{s.its_source}{s.whose} has no public address, and an internet gateway sends on only what "
        "has one.",
        "{s.its_source} would have to get a public address, or the route to lead to a NAT gateway.",
    ),
    "NatNotAvailable": (
        "the state of NAT gateway {s.it} is {s.nat_state}.",
        "{s.route_there} would have to lead to a NAT gateway that is available.",
    ),
    "NatAnswer": (
        "the packet is an answer, and a NAT gateway sends out only what opens a connection. Its "
        "request came in another way than by {s.it}.",
        "the route that leads the answer to this gateway would have to lead back the way that the "
        "request came, as to the internet gateway.",
    ),
    "NatProtocol": (
        "the packet is {s.protocol} a NAT gateway carries TCP, UDP and ICMP alone.",
        "the packet would have to be one of these, or the route to lead elsewhere than to a NAT "
        "gateway.",
    ),
    "NatFull": (
        f"{MOST_TRANSLATIONS:,} connections over {{s.it}} share its protocol, destination and "
        "destination port already, and it has no port for one more.",
        "fewer connections would have to go there at a time, or some of them over another NAT "
        "gateway.",
    ),
    "NatUnsolicited": (
        "{s.unsolicited} NAT gateway {s.it} lets in only the answers to what it sent out.",
        "the connection would have to be opened from inside, or the packet to go to a public "
        "address that is the host's own.",
    ),
    "PeerNotActive": (
        "the status of peering {s.it} is {s.peering_code}.", "{s.it} would have to be active.",
    ),
    "TgwNoAttachment": (
        "transit gateway {s.it} has no attachment to {s.vpc} that is available.",
        "{s.vpc} would have to be attached to {s.it}.",
    ),
    "TgwNoZone": (
        "attachment {s.it} has no subnet in {s.zone}.",
        "{s.it} would have to get a subnet in {s.zone}.",
    ),
    "TgwNoTable": (
        "attachment {s.it} {s.transit_table}.",
        "{s.it} would have to be associated with a route table of the transit gateway whose routes "
        "are in the bundle.",
    ),
    "TgwNoRoute": (
        "{s.it}{s.table_of_attachment} has no route for {s.destination}.",
        "a route of {s.it} would have to hold {s.destination}.",
    ),
    "TgwBlackhole": (
        "the route {s.rule} of {s.it}{s.chosen_for} is a blackhole.",
        f"the route {{s.rule}} of {{s.it}} would have to lead to an attachment, {ANOTHER}.",
    ),
    "FarNoTable": (
        "attachment {s.it} {s.transit_table}, so nothing comes in by it.",
        "{s.it} would have to be associated with a route table of the transit gateway whose routes "
        "are in the bundle.",
    ),
    "FarSource": (
        "{s.its_source} lies in no block of {s.vpc_of_endpoint}, and gateway endpoint {s.it} "
        "serves the hosts of its own VPC alone.",
        "the packet would have to come from a block of that VPC, or the route to lead elsewhere, "
        "as to an interface endpoint.",
    ),
    "FarOpens": (
        "the packet opens a connection, and what stands behind gateway endpoint {s.it} opens none: "
        "it only answers.",
        "the connection would have to be opened from inside, to {s.it}.",
    ),
    "InspectDrop": (
        "the firewall behind endpoint {s.it} passes {s.passed}, and not {s.packet}.",
        "what is told of it in Appliances would have to forward {s.packet}, or a route to lead "
        "around it.",
    ),
    "Unmodelled": (
        "not known: {s.beyond}. The packet is neither let through nor refused here.",
        "nothing that is known. To learn more, ask on from behind {s.it}, or about the part "
        "before it (docs/LIMITS.md).",
    ),
    "Loop": (
        "the packet would come to {s.it} a second time: routes lead it in a circle.",
        "one of the routes on the way would have to lead elsewhere{s.tables_on_the_way}.",
    ),
    "TooFar": (
        f"the packet has come to {MOST_PLACES} places without arriving, and would come to {{s.it}} "
        "next.",
        "one of the routes on the way would have to lead elsewhere{s.tables_on_the_way}.",
    ),
    "NoReply": (
        "the request arrived, and has no reply: {s.icmp} is no echo request (type 8 code 0), so "
        "nothing comes back.",
        "only an echo request is answered: nothing in the network would have to change.",
    ),
}
# How a packet ended, behind 'it' and behind 'they', where it wasn't stopped as most are.
ENDINGS = {
    "Unmodelled": (
        "comes to {}, from where on it is not known what becomes of it (Unmodelled)",
        "come to {}, from where on it is not known what becomes of them (Unmodelled)",
    ),
    "WrongPlace": ("arrives elsewhere, at {} (WrongPlace)", "arrive elsewhere, at {} (WrongPlace)"),
    "WrongReturn": (
        "arrives elsewhere, at {} (WrongReturn)", "arrive elsewhere, at {} (WrongReturn)"
    ),
    "NoReply": ("ends at {} (NoReply)", "end at {} (NoReply)"),
}


def stop_lines(teller: Teller, stop: Stop) -> list[str]:
    """Why it was stopped, and what would have to change."""
    it = Why(teller, stop)
    if stop.name in SENTENCES:
        why, change = (sentence.format(s=it) for sentence in SENTENCES[stop.name])
    else:
        why, change = getattr(it, f"stop_{stop.name.lower()}")()
    return [f"  Why: {why}", f"  To change: {change}"]


def ended(teller: Teller, stop: Stop, are_many: bool) -> str:
    """How a packet ended, behind 'it' or 'they'."""
    name = teller.named(stop.id)
    if stop.name in ENDINGS:
        return ENDINGS[stop.name][are_many].format(name)
    return f"{'are' if are_many else 'is'} stopped by {stop.name} of {name}"


class Why:
    """The words of a stop. The header is None where the packet isn't told, as in what replay
    prints."""

    def __init__(self, teller: Teller, stop: Stop) -> None:
        self.teller, self.network, self.stop, self.facts = teller, teller.network, stop, stop.facts
        self.h: Optional[Header] = stop.facts.get("header")
        self.it = teller.named(stop.id)
        self.rule = harmless(stop.rule)

    # -- the packet

    @property
    def packet(self) -> str:
        return packet_words(self.h) if self.h else "the packet"

    @property
    def its_source(self) -> str:
        return dotted(self.h.src) if self.h else "the packet's source"

    @property
    def its_destination(self) -> str:
        return dotted(self.h.dst) if self.h else "the packet's destination"

    @property
    def destination(self) -> str:
        return dotted(self.h.dst) if self.h else "the destination"

    @property
    def chosen_for(self) -> str:
        return f", which is chosen for {dotted(self.h.dst)}," if self.h else ""

    @property
    def protocol(self) -> str:
        return f"{flow_words(self.h)}, and" if self.h else "none of these:"

    @property
    def icmp(self) -> str:
        return icmp_words(self.h.q) if self.h else "the ICMP message"

    # -- routes and their tables

    @property
    def route(self) -> Optional[Route]:
        found: Optional[Route] = self.facts.get("route")
        return found

    @property
    def table(self) -> str:
        of = self.facts.get("subnet") or self.facts.get("gateway")
        return f"{self.it}, the table of {self.teller.named(of)}," if of else self.it

    @property
    def chosen_route(self) -> str:
        if not self.route:
            return f"its route to {self.rule}"
        return f"its route {self.teller.route_words(self.route)}{self.chosen_for}"

    def route_of_table(self, route: Route) -> str:
        table = self.teller.named(self.facts["table"].id)
        return f"the route {self.teller.route_words(route)} of {table}"

    @property
    def route_there(self) -> str:
        return self.route_of_table(self.route) if self.route else "the route to it"

    @property
    def led_to(self) -> str:
        if not self.route:
            return self.it
        return f"{self.route_of_table(self.route)} leads to {self.it}, which"

    @property
    def tables_on_the_way(self) -> str:
        """Those of which a route led the packet."""
        tables = self.facts.get("tables", [])
        return f": those of {some(map(self.teller.named, tables))}" if tables else ""

    # -- components

    @property
    def interface(self) -> Interface:
        return self.network.interfaces[self.stop.id]

    @property
    def addresses(self) -> str:
        """Those of the interface, and its prefixes."""
        own = some([dotted(it) for it in self.interface.addresses])
        found = [str(it) for it in self.interface.blocks]
        prefixes = f"the prefix{'es' * (len(found) > 1)} {some(found)}" if found else ""
        both = [it for it in (own, prefixes) if it]
        return (", and " if " and " in own else " and ").join(both) or "it has none"

    @property
    def forwarded(self) -> str:
        return appliance_words(self.network.appliances[self.stop.id])

    @property
    def passed(self) -> str:
        return appliance_words(self.network.inspecting[self.stop.id])

    @property
    def vpc_of_endpoint(self) -> str:
        return self.blocks(self.network.fars[self.stop.id].vpc or "")

    @property
    def public_address(self) -> str:
        if not self.h:
            return "the destination is a public address"
        whose = self.teller.named(self.facts["interface"].id)
        return f"{dotted(self.h.dst)} is a public address of {whose},"

    @property
    def whose(self) -> str:
        host = self.facts.get("host")
        return f", {self.teller.own_words(host, self.h.src)}," if host and self.h else ""

    @property
    def vpc(self) -> str:
        vpc = self.facts.get("vpc")
        return f"VPC {self.teller.named(vpc)}" if vpc else "the VPC whose route leads there"

    @property
    def other_gateway(self) -> str:
        found = self.network.igw_of.get(self.facts.get("vpc", ""))
        return f", or the route to lead to {self.teller.named(found)}, which is" if found else ""

    @property
    def nat_state(self) -> str:
        return harmless(self.network.nats[self.stop.id].state)

    @property
    def unsolicited(self) -> str:
        label = self.facts.get("label")
        if label == "open":
            return "it opens a connection, and"
        return f"it answers nothing that went out there{', and' if label == 'answer' else ':'}"

    @property
    def peering_code(self) -> str:
        return harmless(self.network.peerings[self.stop.id].code)

    @property
    def zone(self) -> str:
        subnet = self.facts.get("subnet")
        if not subnet:
            return "the zone of the subnet that sends"
        zone = harmless(self.network.subnets[subnet].zone)
        return f"zone {zone}, that of {self.teller.named(subnet)}"

    @property
    def transit_table(self) -> str:
        table = self.network.associations.get(self.stop.id)
        if not table:
            return "is associated with no route table"
        return f"is associated with {self.teller.named(table)}, whose routes aren't described"

    @property
    def table_of_attachment(self) -> str:
        if not self.h:
            return ""
        return f", the transit gateway's table of {self.teller.named(self.facts['attachment'])},"

    @property
    def beyond(self) -> str:
        """What isn't followed."""
        what, network = self.stop.id, self.network
        if what in network.nats:
            return f"NAT gateway {self.it} has no subnet of its own"
        if what in network.peerings:
            told = "and not the blocks of both sides are told"
            return f"the VPC at the other side of peering {self.it} isn't described, {told}"
        if what in network.firewalls and what not in network.inspecting:
            return f"Appliances doesn't tell what the firewall behind endpoint {self.it} passes"
        if what in network.transit_tables:
            return f"the chosen route of {self.it} names no attachment"
        if what in network.attachments:
            return f"attachment {self.it} leads to a VPC that isn't described, or has no subnet"
        return f"{self.it} leads beyond what vpc follows"

    # -- networks outside

    def stop_fardetached(self) -> tuple[str, str]:
        gateway = f"virtual private gateway {self.it}"
        if self.route:
            led = f"{self.route_of_table(self.route)} leads to {gateway}"
            return f"{led}, which isn't attached to {self.vpc}.", self.attached(self.vpc)
        where = "a VPC that is described"
        why = f"{gateway} is attached to no VPC that is described, so nothing comes in by it."
        if not self.facts:
            where, why = "the VPC whose packets it carries", f"{gateway} isn't attached to the VPC."
        return why, self.attached(where)

    def attached(self, where: str) -> str:
        return f"{self.it} would have to be attached to {where}."

    # -- security groups

    def stop_groupsout(self) -> tuple[str, str]:
        return self.groups_words(True)

    def stop_groupsin(self) -> tuple[str, str]:
        return self.groups_words(False)

    def groups_words(self, outward: bool) -> tuple[str, str]:
        groups, h, way = self.interface.groups, self.h, direction(outward)
        flow = way_words(h, outward) if h else "the packet"
        is_answer = self.facts.get("label") == "answer"
        why = f"no {way} rule of {self.teller.all_named(groups, 'or')} allows {flow}"
        why += f", and it answers no connection that passed {self.it} before" * is_answer + "."
        near = self.near_rules(outward, h) if h else ""
        of = self.teller.all_named(groups)
        change = f"an {way} rule of {'one of ' * (len(groups) > 1)}{of} would have to allow {flow}"
        change += ", or its request to have passed here before" * is_answer + "."
        return " ".join(filter(None, [why, near])), change

    def near_rules(self, outward: bool, h: Header) -> str:
        """What the rules allow that is nearest to the packet."""
        network, teller = self.network, self.teller
        rules, far = list(network.rules_of(self.interface, outward)), h.dst if outward else h.src
        they = "they allow" if len(self.interface.groups) > 1 else "it allows"
        if not rules:
            return f"There is no {direction(outward)} rule at all."
        same_flow = [it for _, _, it in rules if network.allows_flow(it, h)]
        same_far = [it for _, side, it in rules if network.allows_far(side, it, far)]
        if same_flow:
            found = f"For {flow_words(h)} {they} {some(map(teller.far_words, same_flow))} alone."
        elif same_far:
            ports = some(ports_words(it.proto, it.first, it.last) for it in same_far)
            found = f"{'To' if outward else 'From'} {dotted(far)} {they} {ports} alone."
        else:
            words = some(teller.rule_words(it, outward) for _, _, it in rules)
            found = f"{they.capitalize()} {words} alone."
        return " ".join([found, *self.lost_references(rules, h, far)])

    def lost_references(
        self, rules: list[tuple[str, Side, Rule]], h: Header, far: int
    ) -> Iterator[str]:
        """Groups that hold the address, and whose naming doesn't count."""
        network, named = self.network, self.teller.named
        found = [
            (side, it) for _, side, rule in rules for it in rule.groups
            if network.allows_flow(rule, h) and network.member_of(it, far)
        ]
        for side, it in dict.fromkeys(found):
            if not network.counts(side, it):
                why = self.why_lost(side, it)
                yield f"{named(it)}, which {dotted(far)} belongs to, doesn't count here: it {why}."

    def why_lost(self, side: Side, reference: str) -> str:
        """Why a rule may not name a group."""
        network, teller = self.network, self.teller
        if reference not in network.groups:
            return "isn't described"
        vpcs = network.groups[reference].vpcs
        several = bool(vpcs[1:])
        which = f"{'none of ' * several}which {'an' if several else 'no'} active peering joins"
        why = f"is in {teller.all_named(vpcs)}, {which} to {teller.named(side.vpc)}"
        over = [found for it in vpcs for found in network.over_transit(side.vpc, it)]
        if not over:
            return why
        gateway, lacking = over[0]
        if side.outward:
            return f"{why}; outbound rules name no group over a transit gateway"
        words = list_words([
            f"{teller.named(it)} ({'not told' if word is None else harmless(word)})"
            for it, word in lacking.items()
        ])
        option = f"SecurityGroupReferencingSupport of {words} were enable"
        return f"{why}; over {teller.named(gateway)} it would count if {option}"

    # -- other stops whose sentences differ by what is known

    def stop_detached(self) -> tuple[str, str]:
        none = "so no packet leaves it or comes to it."
        if self.interface.idle:
            why = f"{self.it} is attached to nothing (its status is available), {none}"
            return why, f"{self.it} would have to be attached to an instance."
        name, state = self.network.stopped[self.stop.id]
        instance = f"instance {harmless(name)}"
        why = f"{self.it} is an interface of {instance}, whose state is {harmless(state)}, {none}"
        return why, f"{instance} would have to be running."

    def stop_blockpublicaccess(self) -> tuple[str, str]:
        network, named = self.network, self.teller.named
        found, end = network.subnets[self.stop.id], self.facts.get("end")
        vpc, is_ingress = named(found.vpc), self.rule == "block-ingress"
        carried = "carries nothing from or to its interfaces"
        carried += " but what its NAT gateways open, and the answers to that" * is_ingress
        by = f", as that of VPC {vpc} is" if found.access is None else ""
        mode = f"block public access of {self.it} is {self.rule}{by}"
        why = [f"{mode}: an internet gateway {carried}."]
        if end and self.h:
            own = (self.h.dst, "a public address")
            own = (self.h.src, "an address") if self.facts["outward"] else own
            why.append(f"{dotted(own[0])} is {own[1]} of {named(end.id)}, which is there.")
        modes = "off or block-ingress" if end and end.id in network.nat_at else "off"
        where = f"by an exclusion of {self.it} or of {vpc}, or for the whole account"
        is_out = is_ingress and end and self.facts["outward"]
        other = ", or the route to lead to a NAT gateway" if is_out else ""
        return " ".join(why), f"it would have to be {modes} there, {where}{other}."

    def stop_notahost(self) -> tuple[str, str]:
        at = f" at {dotted(self.h.dst)}" if self.h else ""
        kind = f"its type is {harmless(self.interface.kind)}"
        why = f"{self.it} is the interface of a gateway ({kind}), and hosts nothing{at}."
        if self.route:
            return why, f"{self.route_there} would have to lead to a host's interface."
        return why, "the packet would have to go to the address of a host's interface."

    def stop_aclout(self) -> tuple[str, str]:
        return self.acl_words(True)

    def stop_aclin(self) -> tuple[str, str]:
        return self.acl_words(False)

    def acl_words(self, outward: bool) -> tuple[str, str]:
        acl, row, subnet = self.network.acls[self.stop.id], self.facts.get("row"), ""
        if not self.h:
            denying = [it for it in acl.rows if it.outward == outward and not it.allow]
            row = next((it for it in denying if str(it.number) == self.stop.rule), None)
        if self.facts.get("subnet"):
            way = "out of" if outward else "into"
            subnet = f" {way} {self.teller.named(self.facts['subnet'])}"
        flow = f"{way_words(self.h, outward) if self.h else 'the packet'}"
        name, number = direction(outward), row.number if row else 32767
        if row and row.number < 32767:
            head = f"{name} row {harmless(row.number)} of {self.it} {self.teller.row_words(row)}"
            why = f"{head}, and so refuses {flow} on its way{subnet}."
        else:
            last = "its last row, 32767, refuses the rest"
            why = f"no {name} row of {self.it} allows {flow} on its way{subnet}; {last}."
        if number > 1:
            below = f"with a number below {number}"
            return why, f"an {name} row of {self.it} {below} would have to allow {flow}."
        return why, f"{name} row 1 of {self.it} would have to allow {flow}, or be deleted."

    def stop_privateaddress(self) -> tuple[str, str]:
        which = ["its source or its destination"]
        if self.h:
            both = (("source", self.h.src), ("destination", self.h.dst))
            which = [f"its {word} {dotted(it)}" for word, it in both if is_unroutable(it)]
        are = "are" if len(which) > 1 else "is"
        public = "public addresses" if len(which) > 1 else "a public address"
        inner = "as those to a peering or a transit gateway do"
        routes = f"routes to keep the packet off the internet, {inner}"
        why = f"the packet is on the internet, where {list_words(which)} {are} non-routable."
        return why, f"{list_words(which)} would have to be {public}, or {routes}."

    def blocks(self, vpc: str) -> str:
        """A VPC, with its blocks: of one that isn't described, as the peering tells them."""
        network = self.network
        if vpc in network.vpcs:
            found = list(map(str, network.vpcs[vpc].blocks))
        else:
            found = network.outside.blocks_beyond(network.fars[self.stop.id])
        return f"{self.teller.named(vpc)} ({some(found)})"

    def stop_peersource(self) -> tuple[str, str]:
        if not self.h:
            source = "the packet's source lies in no block of the VPC that sends"
            change = "the packet would have to come from a block of the VPC that sends."
            return f"{source}, and a peering carries nothing else.", change
        vpc, source = self.facts["vpc"], dotted(self.h.src)
        carried = "a peering carries only what its VPCs' own blocks send"
        why = f"the source {source} lies in no block of {self.blocks(vpc)}, and {carried}."
        other_way = "the packet to go another way than over a peering"
        block = f"a block of {self.teller.named(vpc)}"
        return why, f"the source would have to lie in {block}, or {other_way}."

    def stop_peerdestination(self) -> tuple[str, str]:
        further = "and a peering carries nothing further."
        if not self.h:
            goal = "the packet's destination lies in no block of the VPC at the other side"
            return f"{goal}, {further}", "the packet would have to go to a block of that VPC."
        other, goal = self.facts["other"], dotted(self.h.dst)
        where = f"no block of {self.blocks(other)}, the VPC at the other side"
        change = f"the destination would have to lie in a block of {self.teller.named(other)}"
        return (
            f"the destination {goal} lies in {where}, {further}",
            f"{change}, or the route to lead elsewhere.",
        )

    def stop_wrongplace(self) -> tuple[str, str]:
        goal, named = self.facts.get("goal"), self.teller.named
        meant = f"at {named(goal)}" if goal else "at the end that was asked about"
        packet = f" as {packet_words(self.h)}" if self.h else ""
        if not goal:
            change = "the packet would have to go elsewhere."
        elif goal == "internet":
            where = "an address that is none of the bundle's public ones"
            routes = "routes to lead it to the internet"
            change = f"the packet would have to go to {where}, and {routes}."
        else:
            is_outside = goal not in self.network.interfaces
            where = f"an address {'behind' if is_outside else 'of'} {named(goal)}"
            change = f"the packet would have to go to {where}, or routes to lead it there."
        return f"nothing stopped it, but it arrived at {self.it}{packet}, and not {meant}.", change

    def stop_wrongreturn(self) -> tuple[str, str]:
        lead = f"the routes of the reply would have to lead it {WAY_BACK}."
        arrived = f"the request arrived, but its reply arrived at {self.it}"
        if "wanted" not in self.facts:
            return f"{arrived}, or not as its reply.", lead
        start, wanted = self.facts["start"], self.facts["wanted"]
        name, arrived_as = self.teller.named(start), f" as {packet_words(self.h)}" if self.h else ""
        why = f"{arrived}{arrived_as}, and not at {name} as {packet_words(wanted)}."
        host = self.network.interfaces.get(start)
        if host and not host.has(wanted.dst):
            change = f"the request would have to come from an address of {name}"
            return why, f"{change}, or routes to lead its reply to {name}."
        back = WAY_BACK.replace("back ", f"back to {name} ", 1)
        return why, f"the routes of the reply would have to lead it {back}."
