#!/usr/bin/env python3
"""Whole accounts for measuring, in the shape that the AWS command line prints. Nothing is random.

    accounts.py KIND [N] [--indent] [--lean] [-o FILE]      without -o: standard output
    accounts.py all FOLDER                                  each bundle of the list below, by its name
    accounts.py kinds                                       the kinds, each with what is due for it

    account N      N interfaces in a VPC per 2,000: 8 subnets, each with a table and an ACL; two groups an interface, a
                   group per 50, each of 20 rules with references, blocks and a prefix list; a NAT gateway (whose interface
                   is one of the N), a peering to the next VPC and an attachment to the transit gateway a VPC; a transit
                   table. Accepted
    joined N       the same, where rules name groups of another VPC over the transit gateway, and the first group of each VPC
                   belongs to the next one too, where some interfaces have it
    delegated N    the same as account, where each host has 16 delegated prefixes of 16 addresses, as nodes of EKS have, in
                   further blocks of its VPC: 100.64.0.0/16 and the seven behind it, in each VPC
    outside N      the same as account, where of each two VPCs the first has a virtual private gateway, whose 100 routes its
                   tables take, and a peering with a VPC that isn't described, the second an endpoint of S3; and the transit
                   gateway has an attachment more for each two, of a VPN, a Direct Connect gateway, another transit gateway
                   or a VPC that isn't described. So 20,000 interfaces have 20 networks that aren't described
    fit            an account as large as fits a file (64 MiB); with --indent it is indented as `aws` prints it

--lean leaves out the members that aren't read. A full row is a kilobyte without blanks, so that 100,000 interfaces fit a
file only by --lean (`account 100000 --lean`, 40 MB; without it the answer is TooBig); a full account of 40,000 is 45 MB.

Hostile bundles, each of which a linear reader takes as easily as an account of its size:

    equal-ids N          N VPCs with one id: DuplicateId
    equal-peerings N     N peerings with one id: all but the first are dropped, accepted
    equal-lists N        N prefix lists with one id, half of them in each of the two lists: accepted
    one-vpc N            N interfaces with an address each in one VPC: accepted
    one-vpc-twice N      the same, where the last repeats the first one's address: DuplicateAddress
    one-interface N      one interface with N addresses: accepted
    subnets N            N subnets, each with a table and an ACL of its own: accepted (30000)
    one-table N          N subnets under one table and one ACL: accepted
    named-by-one N       one interface that names a group N times: accepted
    named-by-all N       N interfaces that name one group: accepted
    named-by-rule N      one permission that names a group N times: accepted
    rules N              N rule rows of one group: accepted
    groups-of-rules N    N rule rows of N groups, in the reverse order of the groups: accepted
    equal-gateways N     N transit gateways with one id: all but the first are dropped, accepted
    associated N         two groups, each of N VPCs that aren't described, all of them at one transit gateway over which rules
                         may name groups, and a rule of the one that names the other: accepted (50000)
    routes N             a table with N routes to one internet gateway: accepted
    long-ids N           N interfaces with ids of 256 characters that differ in the last ones: accepted
    last-missing N       an account of one-vpc whose last interface is in a group that isn't described: MissingReference
    tiny                 64 MiB of empty objects in one member that is read over: accepted, and costly in memory
    deep                 64 MiB of arrays, each nested 120 deep, in such a member: accepted
    escapes              64 MiB of escapes in a text that is read over: accepted

The bundles of `all`: account-1000, account-10000, account-40000, account-100000 (lean), joined-10000, delegated-10000,
outside-20000, fit-indented, and each hostile kind with 100,000 rows (subnets with 30,000, associated with 50,000)."""
import json
import os
import sys

LIMIT = 64 * 1024 * 1024
OWNER, REGION = '111122223333', 'us-east-1'
PER_VPC, SUBNETS, PER_GROUP, PREFIXES = 2000, 8, 50, 16
TGW, TGW_TABLE, PROPAGATED = 'tgw-00000000000000001', 'tgw-rtb-00000000000000001', 100
ANY = '0.0.0.0/0'


def hexed(prefix, n):
    return f'{prefix}-0{n:016x}'


def dotted(n):
    return f'{n >> 24}.{n >> 16 & 255}.{n >> 8 & 255}.{n & 255}'


def open_entries():
    told = []
    for egress in (True, False):
        told += [{'CidrBlock': ANY, 'Egress': egress, 'Protocol': '-1', 'RuleAction': 'allow', 'RuleNumber': 100},
                 {'Egress': egress, 'Ipv6CidrBlock': '::/0', 'Protocol': '-1', 'RuleAction': 'allow', 'RuleNumber': 101},
                 {'CidrBlock': ANY, 'Egress': egress, 'Protocol': '-1', 'RuleAction': 'deny', 'RuleNumber': 32767},
                 {'Egress': egress, 'Ipv6CidrBlock': '::/0', 'Protocol': '-1', 'RuleAction': 'deny', 'RuleNumber': 32768}]
    return told


# ---- rows, whole or lean

def vpc(v, lean):
    block = f'10.{v}.0.0/16'
    row = {'VpcId': hexed('vpc', v), 'CidrBlock': block}
    return row if lean else dict({
        'OwnerId': OWNER, 'InstanceTenancy': 'default', 'Ipv6CidrBlockAssociationSet': [],
        'CidrBlockAssociationSet': [{'AssociationId': hexed('vpc-cidr-assoc', v), 'CidrBlock': block, 'CidrBlockState': {'State': 'associated'}}],
        'IsDefault': False, 'Tags': [{'Key': 'Name', 'Value': f'network {v}'}], 'State': 'available', 'DhcpOptionsId': 'dopt-0123456789abcdef0'}, **row)


def subnet(v, s, lean):
    zone = 'abcd'[s % 4]
    row = {'SubnetId': hexed('subnet', v * SUBNETS + s), 'VpcId': hexed('vpc', v), 'AvailabilityZone': REGION + zone}
    return row if lean else dict({
        'AvailabilityZoneId': f'use1-az{s % 4 + 1}', 'MapCustomerOwnedIpOnLaunch': False, 'OwnerId': OWNER, 'AssignIpv6AddressOnCreation': False,
        'Ipv6CidrBlockAssociationSet': [], 'Tags': [], 'SubnetArn': f'arn:aws:ec2:{REGION}:{OWNER}:subnet/{row["SubnetId"]}', 'EnableDns64': False,
        'Ipv6Native': False, 'PrivateDnsNameOptionsOnLaunch': {'HostnameType': 'ip-name', 'EnableResourceNameDnsARecord': False, 'EnableResourceNameDnsAAAARecord': False},
        'State': 'available', 'CidrBlock': f'10.{v}.{s * 16}.0/20', 'AvailableIpAddressCount': 3800, 'DefaultForAz': False, 'MapPublicIpOnLaunch': False}, **row)


def interface(name, subnet_row, own, groups, lean, public=None, kind='interface', checked=True):
    addresses = [{'Primary': True, 'PrivateIpAddress': own}]
    if public:
        addresses[0]['Association'] = {'IpOwnerId': OWNER, 'PublicDnsName': f'ec2-{public.replace(".", "-")}.compute-1.amazonaws.com', 'PublicIp': public}
    row = {'NetworkInterfaceId': name, 'SubnetId': subnet_row['SubnetId'], 'PrivateIpAddress': own, 'PrivateIpAddresses': addresses,
           'Groups': [{'GroupId': g} for g in groups], 'SourceDestCheck': checked, 'Status': 'in-use', 'InterfaceType': kind}
    if lean:
        return row
    dns = f'ip-{own.replace(".", "-")}.ec2.internal'
    addresses[0]['PrivateDnsName'] = dns
    more = {'Attachment': {'AttachTime': '2026-03-01T08:15:00+00:00', 'AttachmentId': 'eni-attach' + name[3:], 'DeleteOnTermination': True, 'DeviceIndex': 0,
                           'NetworkCardIndex': 0, 'InstanceId': 'i' + name[3:], 'InstanceOwnerId': OWNER, 'Status': 'attached'},
            'AvailabilityZone': subnet_row['AvailabilityZone'], 'Description': 'Primary network interface', 'Ipv6Addresses': [],
            'MacAddress': '0a:' + ':'.join(name[-10:][k:k + 2] for k in range(0, 10, 2)), 'OwnerId': OWNER, 'PrivateDnsName': dns, 'RequesterManaged': False,
            'TagSet': [{'Key': 'Name', 'Value': 'host ' + name[-6:]}], 'VpcId': subnet_row['VpcId'], 'Operator': {'Managed': False}}
    if public:
        more['Association'] = addresses[0]['Association']
    row['Groups'] = [{'GroupId': g, 'GroupName': 'hosts ' + g[-4:]} for g in groups]
    return dict(more, **row)


def route(destination, lean, **target):
    row = dict({'DestinationCidrBlock': destination}, **target)
    return dict(row, State='active') if lean else dict(row, Origin='CreateRoute', State='active')


def table(n, v, routes, lean, main=False, subnets=()):
    name = hexed('rtb', n)
    ties = [{'Main': True}] if main else [{'Main': False, 'SubnetId': s} for s in subnets]
    row = {'Associations': ties, 'RouteTableId': name, 'Routes': routes, 'VpcId': hexed('vpc', v)}
    if lean:
        return row
    for k, tie in enumerate(ties):
        tie.update(RouteTableAssociationId=hexed('rtbassoc', n * 16 + k), RouteTableId=name, AssociationState={'State': 'associated'})
    return dict(row, PropagatingVgws=[], Tags=[], OwnerId=OWNER)


def acl(n, v, subnets, entries, lean):
    name = hexed('acl', n)
    ties = [{'SubnetId': s} for s in subnets]
    row = {'Associations': ties, 'Entries': entries, 'NetworkAclId': name}
    if lean:
        return row
    for k, tie in enumerate(ties):
        tie.update(NetworkAclAssociationId=hexed('aclassoc', n * 16 + k), NetworkAclId=name)
    return dict(row, IsDefault=False, Tags=[], VpcId=hexed('vpc', v), OwnerId=OWNER)


def permission(protocol, first, last, lean, blocks=(), lists=(), groups=()):
    row = {'IpProtocol': protocol}
    if first is not None:
        row.update(FromPort=first, ToPort=last)
    row['IpRanges'] = [{'CidrIp': b} for b in blocks]
    if lists or not lean:
        row['PrefixListIds'] = [{'PrefixListId': p} for p in lists]
    if groups or not lean:
        row['UserIdGroupPairs'] = [{'GroupId': g} if lean else {'UserId': OWNER, 'GroupId': g} for g in groups]
    return row if lean else dict(row, Ipv6Ranges=[])


def group(g, v, others, lean):
    """19 rules inward, of which a third name other groups, and one outward."""
    name = hexed('sg', g)
    inward = []
    for k in range(19):
        port = 1000 + 37 * k + g % 29
        if k % 3 == 0:
            inward.append(permission('tcp', port, port + k, lean, groups=[hexed('sg', others[(g + k) % len(others)])]))
        elif k == 7:
            inward.append(permission('tcp', 443, 443, lean, lists=['pl-0000000000000000a']))
        elif k == 10:
            inward.append(permission('icmp', 8, -1, lean, blocks=['10.0.0.0/8']))
        else:
            inward.append(permission('udp' if k % 5 == 0 else 'tcp', port, port, lean, blocks=[f'10.{v}.{16 * (k % SUBNETS)}.0/20', '192.0.2.0/24'][:1 + k % 2]))
    row = {'GroupId': name, 'VpcId': hexed('vpc', v), 'IpPermissions': inward, 'IpPermissionsEgress': [permission('-1', None, None, lean, blocks=[ANY])]}
    return row if lean else dict({'Description': f'hosts of network {v}', 'GroupName': 'hosts ' + name[-4:], 'OwnerId': OWNER, 'Tags': [],
                                  'SecurityGroupArn': f'arn:aws:ec2:{REGION}:{OWNER}:security-group/{name}'}, **row)


def empty():
    return {name: [] for name in ('Vpcs', 'Subnets', 'NetworkInterfaces', 'RouteTables', 'PrefixLists', 'PrefixListEntries', 'NetworkAcls', 'SecurityGroups',
                                  'InternetGateways', 'NatGateways', 'VpcPeeringConnections', 'TransitGatewayVpcAttachments', 'TransitGatewayAttachments',
                                  'TransitGatewayRoutes')}


def account(n, lean=False):
    d = empty()
    vpcs = max(1, -(-n // PER_VPC))
    groups_a_vpc = PER_VPC // PER_GROUP
    d['PrefixLists'] = [{'Cidrs': ['52.216.0.0/15', '54.231.0.0/16'], 'PrefixListId': 'pl-0000000000000000c', 'PrefixListName': f'com.amazonaws.{REGION}.s3'},
                        {'PrefixListId': 'pl-0000000000000000a', 'AddressFamily': 'IPv4', 'State': 'create-complete', 'PrefixListName': 'office', 'MaxEntries': 10, 'Version': 1,
                         'Tags': [], 'OwnerId': OWNER}]
    d['PrefixListEntries'] = [{'PrefixListId': 'pl-0000000000000000a', 'Entries': [{'Cidr': f'198.51.100.{16 * k}/28', 'Description': f'floor {k}'} for k in range(8)]}]
    learnt = []
    for v in range(vpcs):
        hosts = min(PER_VPC, n - v * PER_VPC) - 1
        d['Vpcs'].append(vpc(v, lean))
        rows = [subnet(v, s, lean) for s in range(SUBNETS)]
        d['Subnets'] += rows
        local = {'DestinationCidrBlock': f'10.{v}.0.0/16', 'GatewayId': 'local', 'Origin': 'CreateRouteTable', 'State': 'active'}
        igw, nat, pcx, att = (hexed(kind, v) for kind in ('igw', 'nat', 'pcx', 'tgw-attach'))
        peer = [route(f'10.{v + 1}.0.0/16', lean, VpcPeeringConnectionId=pcx)] if v + 1 < vpcs else []
        inner = [local, route(ANY, lean, NatGatewayId=nat), route('10.0.0.0/8', lean, TransitGatewayId=TGW), *peer,
                 {'DestinationIpv6CidrBlock': '::/0', 'EgressOnlyInternetGatewayId': hexed('eigw', v), 'Origin': 'CreateRoute', 'State': 'active'},
                 {'DestinationPrefixListId': 'pl-0000000000000000c', 'GatewayId': hexed('vpce', v), 'Origin': 'CreateRoute', 'State': 'active'}]
        d['RouteTables'].append(table(v * (SUBNETS + 1), v, [dict(r) for r in inner], lean, main=True))
        for s, row in enumerate(rows):
            outer = [dict(local), route(ANY, lean, GatewayId=igw)]
            d['RouteTables'].append(table(v * (SUBNETS + 1) + s + 1, v, outer if s == 0 else [dict(r) for r in inner], lean, subnets=[row['SubnetId']]))
            entries = [{'CidrBlock': f'192.0.2.{16 * k}/28', 'Egress': False, 'PortRange': {'From': 22, 'To': 22}, 'Protocol': '6', 'RuleAction': 'deny', 'RuleNumber': 10 + k}
                       for k in range(6)]
            d['NetworkAcls'].append(acl(v * SUBNETS + s, v, [row['SubnetId']], entries + open_entries(), lean))
        first = v * groups_a_vpc
        known = range(first, first + max(1, -(-hosts // PER_GROUP)))
        d['SecurityGroups'] += [group(g, v, known, lean) for g in known]
        for k in range(hosts):
            s = k % SUBNETS
            own = f'10.{v}.{16 * s + 1 + k // SUBNETS // 250}.{k // SUBNETS % 250 + 4}'
            public = f'203.{v}.{k // 250}.{k % 250 + 1}' if s == 0 and k // SUBNETS % 5 == 0 else None
            d['NetworkInterfaces'].append(interface(hexed('eni', v * PER_VPC + k), rows[s], own, [hexed('sg', known[k // PER_GROUP]), hexed('sg', known[0])][:1 if k < PER_GROUP else 2], lean, public))
        own = f'10.{v}.15.250'
        d['NetworkInterfaces'].append(interface(f'eni-f{v:016x}', rows[0], own, [], lean, f'203.{v}.255.1', 'nat_gateway', False))
        d['InternetGateways'].append({'Attachments': [{'State': 'available', 'VpcId': hexed('vpc', v)}], 'InternetGatewayId': igw, 'OwnerId': OWNER, 'Tags': []})
        d['NatGateways'] += [
            {'CreateTime': '2026-01-10T10:00:00+00:00', 'NatGatewayAddresses': [{'AllocationId': hexed('eipalloc', v), 'NetworkInterfaceId': f'eni-f{v:016x}', 'PrivateIp': own,
             'PublicIp': f'203.{v}.255.1', 'IsPrimary': True, 'Status': 'succeeded'}], 'NatGatewayId': nat, 'State': 'available', 'SubnetId': rows[0]['SubnetId'],
             'VpcId': hexed('vpc', v), 'Tags': [], 'ConnectivityType': 'public'},
            {'CreateTime': '2025-01-10T10:00:00+00:00', 'DeleteTime': '2026-01-11T10:00:00+00:00', 'NatGatewayAddresses': [], 'NatGatewayId': f'nat-f{v:016x}', 'State': 'deleted',
             'SubnetId': 'subnet-gone', 'VpcId': hexed('vpc', v), 'Tags': []}]
        if v + 1 < vpcs:
            d['VpcPeeringConnections'].append({
                'AccepterVpcInfo': {'CidrBlock': f'10.{v + 1}.0.0/16', 'OwnerId': OWNER, 'VpcId': hexed('vpc', v + 1), 'Region': REGION},
                'RequesterVpcInfo': {'CidrBlock': f'10.{v}.0.0/16', 'OwnerId': OWNER, 'VpcId': hexed('vpc', v), 'Region': REGION},
                'Status': {'Code': 'active', 'Message': 'Active'}, 'Tags': [], 'VpcPeeringConnectionId': pcx})
        d['TransitGatewayVpcAttachments'].append({
            'TransitGatewayAttachmentId': att, 'TransitGatewayId': TGW, 'VpcId': hexed('vpc', v), 'VpcOwnerId': OWNER, 'State': 'available',
            'SubnetIds': [row['SubnetId'] for row in rows[:4]], 'CreationTime': '2026-01-10T10:00:00+00:00', 'Options': {'DnsSupport': 'enable', 'Ipv6Support': 'disable'}, 'Tags': []})
        d['TransitGatewayAttachments'].append({
            'TransitGatewayAttachmentId': att, 'TransitGatewayId': TGW, 'TransitGatewayOwnerId': OWNER, 'ResourceOwnerId': OWNER, 'ResourceType': 'vpc',
            'ResourceId': hexed('vpc', v), 'State': 'available', 'Association': {'TransitGatewayRouteTableId': TGW_TABLE, 'State': 'associated'},
            'CreationTime': '2026-01-10T10:00:00+00:00', 'Tags': []})
        learnt.append({'DestinationCidrBlock': f'10.{v}.0.0/16', 'TransitGatewayAttachments': [
            {'ResourceId': hexed('vpc', v), 'TransitGatewayAttachmentId': att, 'ResourceType': 'vpc'}], 'Type': 'propagated', 'State': 'active'})
    learnt.append({'DestinationCidrBlock': '192.168.0.0/16', 'Type': 'static', 'State': 'blackhole'})
    d['TransitGatewayRoutes'].append({'TransitGatewayRouteTableId': TGW_TABLE, 'Routes': learnt})
    return d


def gateway(option, name=TGW):
    return {'TransitGatewayId': name, 'State': 'available', 'OwnerId': OWNER, 'Options': {'DnsSupport': 'enable', 'SecurityGroupReferencingSupport': option}, 'Tags': []}


def joined(n, lean=False):
    """An account whose groups count in other VPCs too. (The first group of a VPC lets in the one of the next but one, which no peering joins.)"""
    d = account(n, lean)
    vpcs, groups_a_vpc = len(d['Vpcs']), PER_VPC // PER_GROUP
    d['TransitGateways'] = [gateway('enable')]
    for it in d['TransitGatewayVpcAttachments']:
        it['Options']['SecurityGroupReferencingSupport'] = 'enable'
    first = [hexed('sg', v * groups_a_vpc) for v in range(vpcs)]
    for it in d['SecurityGroups']:
        if it['GroupId'] in first:
            named = first[(first.index(it['GroupId']) + 2) % vpcs]
            it['IpPermissions'].append(permission('tcp', 8443, 8443, lean, groups=[named]))
    d['SecurityGroupVpcAssociations'] = [
        {'GroupId': first[v], 'VpcId': hexed('vpc', (v + 1) % vpcs), 'VpcOwnerId': OWNER, 'State': 'associated', 'GroupOwnerId': OWNER} for v in range(vpcs) if vpcs > 1]
    homes = {row['SubnetId']: k // SUBNETS for k, row in enumerate(d['Subnets'])}
    for k, it in enumerate(d['NetworkInterfaces']):
        if k % PER_GROUP == 7 and it['Groups'] and vpcs > 1:
            it['Groups'].append(dict(it['Groups'][0], GroupId=first[homes[it['SubnetId']] - 1]))
    return d


def delegated(n, lean=False):
    """An account whose hosts have prefixes. (Those of a subnet's hosts are of one further block of the VPC.)"""
    d = account(n, lean)
    further = [f'100.{64 + s}.0.0/16' for s in range(SUBNETS)]
    for it in d['Vpcs']:
        ties = [{'CidrBlock': block, 'CidrBlockState': {'State': 'associated'}} for block in further]
        it['CidrBlockAssociationSet'] = it.get('CidrBlockAssociationSet', []) + [
            tie if lean else dict(tie, AssociationId=f'{it["VpcId"].replace("vpc", "vpc-cidr-assoc")}-{k}') for k, tie in enumerate(ties)]
    for it in d['RouteTables']:
        it['Routes'] = [dict(it['Routes'][0], DestinationCidrBlock=block) for block in further] + it['Routes']
    hosts = [it for it in d['NetworkInterfaces'] if it['InterfaceType'] == 'interface']
    for k, it in enumerate(hosts):
        place, s = divmod(k % (PER_VPC - 1), SUBNETS)
        first = (100 << 24) + (64 + s << 16) + 16 * PREFIXES * place
        it['Ipv4Prefixes'] = [{'Ipv4Prefix': f'{dotted(first + 16 * k)}/28'} for k in range(PREFIXES)]
    return d


def private_gateway(d, v, lean):
    """A virtual private gateway of a VPC, whose tables take its routes: to half of what rules call 192.0.2.0/24, and to many that no rule names."""
    name = hexed('vgw', v)
    row = {'VpnGatewayId': name, 'VpcAttachments': [{'State': 'attached', 'VpcId': hexed('vpc', v)}]}
    d['VpnGateways'].append(row if lean else dict({'AmazonSideAsn': 64512, 'State': 'available', 'Type': 'ipsec.1', 'Tags': []}, **row))
    blocks = ['192.0.2.0/25', *(f'172.{16 + k // 16}.{k % 16 * 16}.0/20' for k in range(PROPAGATED - 1))]
    for it in d['RouteTables'][v * (SUBNETS + 1):(v + 1) * (SUBNETS + 1)]:
        it['Routes'] += [dict(route(block, True, GatewayId=name), Origin='EnableVgwRoutePropagation') for block in blocks]
        if not lean:
            it['PropagatingVgws'] = [{'GatewayId': name}]


def half_peering(d, v, lean):
    """A peering with a VPC that isn't described, which has the other half of 192.0.2.0/24."""
    name, far = f'pcx-f{v:016x}', {'CidrBlock': '192.0.2.128/25', 'OwnerId': '444455556666', 'VpcId': f'vpc-f{v:016x}', 'Region': REGION}
    near = {'CidrBlock': f'10.{v}.0.0/16', 'OwnerId': OWNER, 'VpcId': hexed('vpc', v), 'Region': REGION}
    d['VpcPeeringConnections'].append({'AccepterVpcInfo': far, 'RequesterVpcInfo': near, 'Status': {'Code': 'active', 'Message': 'Active'}, 'Tags': [],
                                       'VpcPeeringConnectionId': name})
    for it in d['RouteTables'][v * (SUBNETS + 1):(v + 1) * (SUBNETS + 1)]:
        it['Routes'].append(route('192.0.2.128/25', lean, VpcPeeringConnectionId=name))


def endpoint(d, v, lean):
    """The endpoint to which the tables of a VPC route the addresses of S3."""
    row = {'VpcEndpointId': hexed('vpce', v), 'VpcEndpointType': 'Gateway', 'VpcId': hexed('vpc', v), 'State': 'available'}
    more = {'ServiceName': f'com.amazonaws.{REGION}.s3', 'SubnetIds': [], 'Groups': [], 'PrivateDnsEnabled': False, 'RequesterManaged': False, 'NetworkInterfaceIds': [],
            'DnsEntries': [], 'CreationTimestamp': '2026-01-10T10:00:00+00:00', 'Tags': [], 'OwnerId': OWNER}
    tables = d['RouteTables'][v * (SUBNETS + 1):(v + 1) * (SUBNETS + 1)]
    used = [it['RouteTableId'] for it in tables if any(to.get('GatewayId') == row['VpcEndpointId'] for to in it['Routes'])]
    d['VpcEndpoints'].append(row if lean else dict(more, RouteTableIds=used, **row))


def far_attachment(d, k):
    """An attachment of the transit gateway to what isn't described. (It has a floor of the office, which a prefix list of rules names.)"""
    kind = ('vpn', 'direct-connect-gateway', 'peering', 'vpc')[k % 4]
    name, resource = f'tgw-attach-f{k:016x}', {'vpn': 'vpn', 'peering': 'tgw', 'vpc': 'vpc'}.get(kind, 'dxgw') + f'-f{k:016x}'
    d['TransitGatewayAttachments'].append({
        'TransitGatewayAttachmentId': name, 'TransitGatewayId': TGW, 'TransitGatewayOwnerId': OWNER, 'ResourceOwnerId': OWNER, 'ResourceType': kind, 'ResourceId': resource,
        'State': 'available', 'Association': {'TransitGatewayRouteTableId': TGW_TABLE, 'State': 'associated'}, 'CreationTime': '2026-01-10T10:00:00+00:00', 'Tags': []})
    d['TransitGatewayRoutes'][0]['Routes'].append({'DestinationCidrBlock': f'198.51.100.{16 * k % 256}/28', 'TransitGatewayAttachments': [
        {'ResourceId': resource, 'TransitGatewayAttachmentId': name, 'ResourceType': kind}], 'Type': 'static', 'State': 'active'})


def outside(n, lean=False):
    """An account that leads to networks that aren't described."""
    d = account(n, lean)
    d['VpnGateways'], d['VpcEndpoints'] = [], []
    for it in d['RouteTables']:
        it['Routes'].append(route('198.51.100.0/24', lean, TransitGatewayId=TGW))
    for v in range(len(d['Vpcs'])):
        if v % 2 == 0:
            private_gateway(d, v, lean)
            half_peering(d, v, lean)
            far_attachment(d, v // 2)
        else:
            endpoint(d, v, lean)
    return d


# ---- hostile bundles

def plain(subnets=1):
    """One VPC with a main table, an ACL and a group."""
    return {'Vpcs': [{'VpcId': 'vpc-1', 'CidrBlock': '10.0.0.0/8'}],
            'Subnets': [{'SubnetId': f'subnet-{k}', 'VpcId': 'vpc-1', 'AvailabilityZone': 'us-east-1a'} for k in range(subnets)],
            'RouteTables': [{'RouteTableId': 'rtb-1', 'VpcId': 'vpc-1', 'Associations': [{'Main': True}], 'Routes': [{'DestinationCidrBlock': '10.0.0.0/8', 'GatewayId': 'local'}]}],
            'NetworkAcls': [{'NetworkAclId': 'acl-1', 'Associations': [{'SubnetId': f'subnet-{k}'} for k in range(subnets)], 'Entries': open_entries()}],
            'SecurityGroups': [{'GroupId': 'sg-1', 'VpcId': 'vpc-1', 'IpPermissions': [{'IpProtocol': '-1', 'IpRanges': [{'CidrIp': ANY}]}], 'IpPermissionsEgress': []}]}


def bare(k, own, groups=('sg-1',)):
    return {'NetworkInterfaceId': f'eni-{k}', 'SubnetId': 'subnet-0', 'PrivateIpAddress': own, 'Groups': [{'GroupId': g} for g in groups]}


def one_vpc(n, last=None, groups=('sg-1',)):
    d = plain()
    d['NetworkInterfaces'] = [bare(k, dotted((10 << 24) + k), groups) for k in range(n)]
    if last:
        d['NetworkInterfaces'][-1].update(last)
    return d


def one_interface(n):
    d = plain()
    d['NetworkInterfaces'] = [dict(bare(0, '10.0.0.0'), PrivateIpAddresses=[{'PrivateIpAddress': dotted((10 << 24) + k)} for k in range(n)])]
    return d


def many_subnets(n):
    d = plain(n)
    d['RouteTables'] = [{'RouteTableId': f'rtb-{k}', 'VpcId': 'vpc-1', 'Associations': [{'Main': False, 'SubnetId': f'subnet-{k}'}], 'Routes': [
        {'DestinationCidrBlock': '10.0.0.0/8', 'GatewayId': 'local'}]} for k in range(n)]
    d['NetworkAcls'] = [{'NetworkAclId': f'acl-{k}', 'Associations': [{'SubnetId': f'subnet-{k}'}], 'Entries': open_entries()[:1]} for k in range(n)]
    return d


def named_by_one(n):
    d = one_vpc(1)
    d['NetworkInterfaces'][0]['Groups'] = [{'GroupId': 'sg-1'}] * n
    return d


def named_by_rule(n):
    d = one_vpc(2)
    d['SecurityGroups'][0]['IpPermissions'] = [{'IpProtocol': '-1', 'UserIdGroupPairs': [{'GroupId': 'sg-1'}] * n}]
    return d


def rule(k, home):
    return {'SecurityGroupRuleId': f'sgr-{k}', 'GroupId': home, 'GroupOwnerId': OWNER, 'IsEgress': False, 'IpProtocol': 'tcp', 'FromPort': k % 65536, 'ToPort': k % 65536,
            'CidrIpv4': '10.0.0.0/8', 'Tags': []}


def rules(n):
    return dict(one_vpc(2), SecurityGroupRules=[rule(k, 'sg-1') for k in range(n)])


def groups_of_rules(n):
    d = plain()
    d['SecurityGroups'] = [{'GroupId': f'sg-{k}', 'VpcId': 'vpc-1', 'IpPermissions': [], 'IpPermissionsEgress': []} for k in range(n)]
    d['SecurityGroupRules'] = [rule(k, f'sg-{n - 1 - k}') for k in range(n)]
    return d


def associated(n):
    d = one_vpc(2)
    d['Vpcs'].append({'VpcId': 'vpc-2', 'CidrBlock': '11.0.0.0/8'})
    d['SecurityGroups'][0]['IpPermissions'].append({'IpProtocol': 'tcp', 'FromPort': 443, 'ToPort': 443, 'UserIdGroupPairs': [{'GroupId': 'sg-2'}]})
    d['SecurityGroups'].append({'GroupId': 'sg-2', 'VpcId': 'vpc-2', 'IpPermissions': [], 'IpPermissionsEgress': []})
    far = [f'vpc-far-{k}' for k in range(2 * n)]
    d['SecurityGroupVpcAssociations'] = [{'GroupId': f'sg-{1 + k % 2}', 'VpcId': it, 'State': 'associated'} for k, it in enumerate(far)]
    d['TransitGateways'] = [gateway('enable', 'tgw-1')]
    d['TransitGatewayVpcAttachments'] = [
        {'TransitGatewayAttachmentId': f'att-{k}', 'TransitGatewayId': 'tgw-1', 'VpcId': it, 'SubnetIds': [], 'State': 'available', 'Options': {'SecurityGroupReferencingSupport': 'enable'}}
        for k, it in enumerate(far)]
    return d


def routes(n):
    d = one_vpc(2)
    d['InternetGateways'] = [{'InternetGatewayId': 'igw-1', 'Attachments': [{'State': 'available', 'VpcId': 'vpc-1'}]}]
    d['RouteTables'][0]['Routes'] = [{'DestinationCidrBlock': dotted((11 << 24) + k) + '/32', 'GatewayId': 'igw-1', 'State': 'active'} for k in range(n)]
    return d


def long_ids(n):
    d = one_vpc(n)
    for k, row in enumerate(d['NetworkInterfaces']):
        row['NetworkInterfaceId'] = 'eni-' + f'{k:0252x}'
    return d


def equal_lists(n):
    return {'PrefixLists': [{'PrefixListId': 'pl-1', 'Cidrs': ['192.0.2.0/24']}] * (n // 2),
            'PrefixListEntries': [{'PrefixListId': 'pl-1', 'Entries': [{'Cidr': '192.0.2.0/24'}]}] * (n - n // 2)}


def filled(before, item, after):
    """A text of the file limit's length."""
    count = (LIMIT - len(before) - len(after) + 1) // (len(item) + 1)
    return before + ','.join([item] * count) + after


WHOLE = {'account': account, 'joined': joined, 'delegated': delegated, 'outside': outside}
HOSTILE = {
    'equal-ids': lambda n: {'Vpcs': [{'VpcId': 'vpc-1', 'CidrBlock': '10.0.0.0/16'}] * n},
    'equal-peerings': lambda n: {'VpcPeeringConnections': [{'VpcPeeringConnectionId': 'pcx-1', 'Status': {'Code': 'deleted'}}] * n},
    'equal-lists': equal_lists, 'one-vpc': one_vpc,
    'one-vpc-twice': lambda n: one_vpc(n, {'PrivateIpAddress': '10.0.0.0'}), 'one-interface': one_interface, 'subnets': many_subnets, 'one-table': plain,
    'named-by-one': named_by_one, 'named-by-all': one_vpc, 'named-by-rule': named_by_rule, 'rules': rules, 'groups-of-rules': groups_of_rules,
    'equal-gateways': lambda n: {'TransitGateways': [gateway('enable', 'tgw-1')] * n}, 'associated': associated, 'routes': routes,
    'long-ids': long_ids, 'last-missing': lambda n: one_vpc(n, {'Groups': [{'GroupId': 'sg-x'}]})}
TEXTS = {
    'tiny': lambda: filled('{"Note":[', '{}', ']}'),
    'deep': lambda: filled('{"Note":[', '[' * 120 + ']' * 120, ']}'),
    'escapes': lambda: '{"Note":"' + '\\u00e9' * ((LIMIT - 11) // 6) + '"}'}
DUE = {'equal-ids': 'refused description DuplicateId vpc-1', 'one-vpc-twice': 'refused description DuplicateAddress vpc-1 10.0.0.0',
       'last-missing': 'refused description MissingReference eni-{last} sg-x'}


def text_of(bundle, indent):
    return json.dumps(bundle, indent=4) + '\n' if indent else json.dumps(bundle, separators=(',', ':'))


def fit(indent, lean):
    """The largest account whose text fits, by steps of a VPC."""
    one, two = (len(text_of(account(n, lean), indent)) for n in (PER_VPC, 2 * PER_VPC))
    vpcs = max(1, (LIMIT - one) // (two - one) + 1)
    while True:
        text = text_of(account(vpcs * PER_VPC, lean), indent)
        if len(text) <= LIMIT:
            return text
        vpcs -= 1


def make(kind, n=None, indent=False, lean=False):
    if kind in WHOLE:
        return text_of(WHOLE[kind](n or 1000, lean), indent)
    if kind == 'fit':
        return fit(indent, lean)
    if kind in TEXTS:
        return TEXTS[kind]()
    return text_of(HOSTILE[kind](n or {'subnets': 30_000, 'associated': 50_000}.get(kind, 100_000)), indent)


def write(path, text):
    with open(path, 'w', encoding='utf-8') as file:
        file.write(text)
    print(f'{path}: {len(text)} bytes', file=sys.stderr)


def make_all(folder):
    os.makedirs(folder, exist_ok=True)
    for n in (1000, 10_000, 40_000):
        write(os.path.join(folder, f'account-{n}.json'), make('account', n))
    write(os.path.join(folder, 'account-100000.json'), make('account', 100_000, lean=True))
    for kind in ('joined', 'delegated'):
        write(os.path.join(folder, f'{kind}-10000.json'), make(kind, 10_000))
    write(os.path.join(folder, 'outside-20000.json'), make('outside', 20_000))
    write(os.path.join(folder, 'fit-indented.json'), make('fit', indent=True))
    for kind in (*HOSTILE, *TEXTS):
        write(os.path.join(folder, f'{kind}.json'), make(kind))


def main(words):
    if not words or words[0] in ('-h', '--help'):
        print(__doc__)
        return 0
    if words[0] == 'all':
        make_all(words[1])
        return 0
    if words[0] == 'kinds':
        for kind in (*WHOLE, 'fit', *HOSTILE, *TEXTS):
            print(f'{kind}\t{DUE.get(kind, "accepted")}')
        return 0
    out = words[words.index('-o') + 1] if '-o' in words else None
    plain_words = [w for k, w in enumerate(words) if not w.startswith('-') and (k == 0 or words[k - 1] != '-o')]
    text = make(plain_words[0], int(plain_words[1]) if len(plain_words) > 1 else None, '--indent' in words, '--lean' in words)
    if out:
        write(out, text)
    else:
        sys.stdout.write(text)
    return 0


if __name__ == '__main__':
    sys.exit(main(sys.argv[1:]))
