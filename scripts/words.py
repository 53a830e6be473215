"""The words of vpc's texts, each list once. tests/package.py compares them with the sources of the
program."""

# What may stop a packet.
STOPS = (
    "Detached SourceCheck DestCheck GroupsOut GroupsIn NotAHost ApplianceDrop NoRoute Blackhole "
    "AclOut AclIn NoHost NoGateway GatewayDetached NoPublic PrivateAddress BlockPublicAccess "
    "NatNotAvailable NatAnswer NatProtocol NatFull NatUnsolicited PeerNotActive PeerSource "
    "PeerDestination TgwNoAttachment TgwNoZone TgwNoTable TgwNoRoute TgwBlackhole FarDetached "
    "FarNoTable FarSource FarOpens InspectDrop Unmodelled Loop TooFar WrongPlace WrongReturn "
    "NoReply"
).split()
# Where a packet may be, where it starts, and where it arrives.
PLACES = (
    "out router enter in igw-out internet igw-in nat-out nat-in peer tgw tgw-leave far-out far-in "
    "inspect"
).split()
STARTS, ENDS = ("out", "internet", "far-in"), ("in", "internet", "far-out")
# The lists of a bundle that may have too many rows.
COUNTED_LISTS = (
    "Vpcs Subnets NetworkInterfaces RouteTables PrefixLists NetworkAcls SecurityGroups "
    "InternetGateways NatGateways VpcPeeringConnections TransitGatewayVpcAttachments "
    "TransitGatewayAttachments TransitGatewayRoutes Appliances VpnGateways VpcEndpoints"
).split()
# The protocols that have a name.
PROTOCOLS = {1: "icmp", 6: "tcp", 17: "udp"}
PROTOCOL_NUMBERS = {name: number for number, name in PROTOCOLS.items()}
# The states of what a transit gateway may lead packets to, and of an internet gateway that is
# attached.
USABLE = ("available", "modifying")
ATTACHED = ("available", "attached")
# The sides of a header and of a box, as queries name them and as cuts do.
SIDES = ("proto", "src", "dst", "sport", "port")
CUT_SIDES = ("proto", "src", "dst", "p", "q")


def counted(count: int, one: str, many: str = "") -> str:
    """A count, with what is counted behind it."""
    return f"{count:,} {one if count == 1 else many or one + 's'}"
