"""What leads to networks that no bundle tells of, and the endpoints of firewalls, as vpc reads
them of rows."""

from __future__ import annotations

from collections.abc import Iterator, Mapping
from typing import Any, NamedTuple, Optional

from scripts.bundles import Row, harmless, member, rows
from scripts.words import USABLE

# What stands behind an attachment of a transit gateway, by its ResourceType: how one is told, and
# what several are.
BEHIND = {
    "vpn": ("a Site-to-Site VPN", "Site-to-Site VPNs"),
    "vpn-concentrator": ("a Site-to-Site VPN concentrator", "Site-to-Site VPN concentrators"),
    "direct-connect-gateway": ("a Direct Connect gateway", "Direct Connect gateways"),
    "connect": ("a Connect attachment, as of an SD-WAN", "Connect attachments"),
    "peering": ("another transit gateway", "other transit gateways"),
    "tgw-peering": ("another transit gateway", "other transit gateways"),
    "network-function": ("a network function, as a firewall", "network functions"),
    "client-vpn": ("a Client VPN endpoint", "Client VPN endpoints"),
}


class Far(NamedTuple):
    """What leads to a network outside: a virtual private gateway, an attachment of a transit
    gateway, a peering, or a gateway endpoint. `vpc` is what the gateway is attached to, what the
    attachment is of, and where the endpoint lies; `blocks` are those of a peering's two sides."""

    id: str
    kind: str
    vpc: Optional[str]
    blocks: tuple[list[str], ...]
    row: Row


class Firewall(NamedTuple):
    """An endpoint behind which a firewall stands."""

    id: str
    vpc: str
    subnet: str


def named(row: Any, name: str) -> Optional[str]:
    """A member that is an id."""
    found = member(row, name)
    return None if found is None else harmless(found)


def gateway_of(row: Row) -> Far:
    attached = [it for it in rows(row, "VpcAttachments") if it.get("State") == "attached"]
    vpc = named(attached[0], "VpcId") if attached else None
    return Far(harmless(row.get("VpnGatewayId")), "gateway", vpc, (), row)


def attachment_of(row: Row) -> Optional[Far]:
    """None of one that carries nothing, or of which it isn't told what it is of."""
    kind, of = row.get("ResourceType"), named(row, "ResourceId")
    is_vpc, is_told = kind == "vpc", named(row, "TransitGatewayId") is not None
    if kind is None or not is_told or row.get("State") not in USABLE or (is_vpc and of is None):
        return None
    name = harmless(row.get("TransitGatewayAttachmentId"))
    return Far(name, "attachment", of if is_vpc else None, (), row)


def peering_of(row: Row) -> Optional[Far]:
    """None of one that isn't active, or doesn't tell the blocks of both sides."""
    if member(row, "Status", "Code") != "active":
        return None
    blocks = []
    for side in ("RequesterVpcInfo", "AccepterVpcInfo"):
        found = [member(row, side, "CidrBlock")]
        found += [it.get("CidrBlock") for it in rows(row, side, "CidrBlockSet")]
        blocks.append([it for it in found if isinstance(it, str)])
    name = harmless(row.get("VpcPeeringConnectionId"))
    return Far(name, "peering", None, tuple(blocks), row) if all(blocks) else None


def endpoints_of(lists: Mapping[str, list[Row]]) -> list[Row]:
    """The endpoints that are available, of each id the first."""
    kept: dict[str, Row] = {}
    for it in lists["VpcEndpoints"]:
        state = it.get("State")
        if isinstance(state, str) and state.lower() == "available":
            kept.setdefault(harmless(it.get("VpcEndpointId")), it)
    return list(kept.values())


def each_far(lists: Mapping[str, list[Row]]) -> Iterator[Optional[Far]]:
    yield from map(gateway_of, lists["VpnGateways"])
    yield from map(attachment_of, lists["TransitGatewayAttachments"])
    yield from map(peering_of, lists["VpcPeeringConnections"])
    for it in endpoints_of(lists):
        if it.get("VpcEndpointType") == "Gateway":
            yield Far(harmless(it.get("VpcEndpointId")), "endpoint", named(it, "VpcId"), (), it)


def fars_of(lists: Mapping[str, list[Row]]) -> dict[str, Far]:
    """What leads outside, by its id: of those with one id the first counts."""
    kept: dict[str, Far] = {}
    for it in each_far(lists):
        if it:
            kept.setdefault(it.id, it)
    return kept


def firewalls_of(lists: Mapping[str, list[Row]]) -> dict[str, Firewall]:
    found = {}
    for it in endpoints_of(lists):
        subnets = it.get("SubnetIds") or []
        if it.get("VpcEndpointType") == "GatewayLoadBalancer" and isinstance(subnets, list):
            name, vpc = harmless(it.get("VpcEndpointId")), harmless(it.get("VpcId"))
            found.update({name: Firewall(name, vpc, harmless(it)) for it in subnets[:1]})
    return found


class Outside:
    """What leads outside of the VPCs that are described; `pairs` are the two VPCs of each active
    peering."""

    def __init__(
        self, lists: Mapping[str, list[Row]], vpcs: Mapping[str, Any],
        pairs: Mapping[str, tuple[str, str]],
    ) -> None:
        self.fars, self.firewalls = fars_of(lists), firewalls_of(lists)
        self.vpcs, self.pairs = vpcs, pairs

    def beside(self, far: Far) -> Optional[str]:
        """The described VPC that it is attached to, lies in, or peers with."""
        found = self.pairs.get(far.id, ()) if far.kind == "peering" else (far.vpc,)
        vpcs = () if far.kind == "attachment" else found
        return next((it for it in vpcs if it in self.vpcs), None)

    def other(self, far: Far) -> Optional[str]:
        """The VPC of a peering that isn't described."""
        return next((it for it in self.pairs.get(far.id, ()) if it not in self.vpcs), None)

    def is_end(self, far: Far) -> bool:
        """Whether packets start and arrive there. Where a described VPC is at the other side, a row
        of a list lacks."""
        if far.kind == "attachment":
            return far.vpc not in self.vpcs
        if far.kind == "peering":
            return bool(self.beside(far) and self.other(far))
        return far.kind == "gateway" or far.vpc in self.vpcs

    def end(self, name: str) -> Optional[Far]:
        far = self.fars.get(name)
        return far if far and self.is_end(far) else None

    def blocks_beyond(self, far: Far) -> list[str]:
        """Those of a peering's side that isn't described."""
        requester = self.pairs.get(far.id, ("", ""))[0]
        return far.blocks[1 if requester in self.vpcs else 0] if far.blocks else []

    def behind(self, far: Far) -> str:
        """What stands behind it."""
        if far.kind == "gateway":
            return "a network behind Site-to-Site VPN or Direct Connect"
        if far.kind == "endpoint":
            service = far.row.get("ServiceName")
            return "a service of AWS" if service is None else f"the service {harmless(service)}"
        if far.kind == "attachment" and not far.vpc:
            kind = str(far.row.get("ResourceType"))
            return BEHIND[kind][0] if kind in BEHIND else f"what is of type {harmless(kind)}"
        return f"VPC {far.vpc or self.other(far)}{self.of_account(far)}, which isn't described"

    def of_account(self, far: Far) -> str:
        """The account of a VPC that isn't described."""
        sides = [member(far.row, it) for it in ("RequesterVpcInfo", "AccepterVpcInfo")]
        other = next((it for it in sides if named(it, "VpcId") == self.other(far)), None)
        is_peering = far.kind == "peering"
        owner = named(other, "OwnerId") if is_peering else named(far.row, "ResourceOwnerId")
        return f" of account {owner}" if owner else ""
