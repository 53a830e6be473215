#!/usr/bin/env python3
"""Writes the example bundles beside this page: shop.json, three-tiers.json, two-accounts.json and hub.json.

Their rows have the members that `aws ec2 describe-*` prints, with made-up ids that are readable. Those of shop.json are
the answers stored in tests/account, joined as collect-bundle joins them. Nothing is random: the same bundles come out
each time. A list has a row a line."""
import json
import os

HERE = os.path.dirname(os.path.abspath(__file__))
ANY, ANY6 = '0.0.0.0/0', '::/0'
CREATED = '2026-02-11T09:30:00+00:00'


def address(text):
    a, b, c, d = map(int, text.split('.'))
    return ((a * 256 + b) * 256 + c) * 256 + d


def dotted(number):
    return '.'.join(str(octet) for octet in number.to_bytes(4, 'big'))


def tags(name, **more):
    return [{'Key': 'Name', 'Value': name}] + [{'Key': k, 'Value': v} for k, v in more.items()]


class Account:
    """One account's object. Calls add rows, in the order in which the account would have made them."""

    def __init__(self, owner, region):
        self.owner, self.region = owner, region
        self.lists = {name: [] for name in (
            'Vpcs', 'Subnets', 'NetworkInterfaces', 'RouteTables', 'PrefixLists', 'PrefixListEntries', 'NetworkAcls', 'SecurityGroups',
            'SecurityGroupRules', 'InternetGateways', 'NatGateways', 'VpcPeeringConnections', 'TransitGatewayVpcAttachments',
            'TransitGatewayAttachments', 'TransitGatewayRoutes')}
        self.vpc_of, self.zone_of, self.first_of, self.used = {}, {}, {}, {}
        self.subnets_left = {}

    def add(self, name, row):
        self.lists[name].append(row)
        return row

    def arn(self, kind, name):
        return f'arn:aws:ec2:{self.region}:{self.owner}:{kind}/{name}'

    # ---- VPCs and subnets

    def vpc(self, name, block, further=(), default=False, gone=(), v6=None):
        def told(k, text, state):
            return {'AssociationId': f'vpc-cidr-assoc-{name[4:]}-{k}', 'CidrBlock': text, 'CidrBlockState': {'State': state}}

        row = {'OwnerId': self.owner, 'InstanceTenancy': 'default', 'Ipv6CidrBlockAssociationSet': [],
               'CidrBlockAssociationSet': [told(k, text, 'associated') for k, text in enumerate([block, *further])]
               + [told(f'old-{k}', text, 'disassociated') for k, text in enumerate(gone)],
               'IsDefault': default, 'Tags': [] if default else tags(name[4:]),
               'BlockPublicAccessStates': {'InternetGatewayBlockMode': 'off'}, 'VpcId': name, 'State': 'available', 'CidrBlock': block,
               'DhcpOptionsId': 'dopt-' + self.owner[:4]}
        if v6:
            row['Ipv6CidrBlockAssociationSet'] = [{'AssociationId': f'vpc-cidr-assoc-{name[4:]}-v6', 'Ipv6CidrBlock': v6,
                                                   'Ipv6CidrBlockState': {'State': 'associated'}, 'NetworkBorderGroup': self.region,
                                                   'Ipv6Pool': 'Amazon', 'Ipv6AddressAttribute': 'public', 'IpSource': 'amazon'}]
        return self.add('Vpcs', row)

    def subnet(self, name, vpc, zone, block, public=False, v6=None, default=False):
        self.vpc_of[name], self.zone_of[name] = vpc, zone
        self.first_of[name], self.used[name] = address(block.split('/')[0]), 3
        self.subnets_left.setdefault(vpc, []).append(name)
        letter = zone[-1]
        row = {'AvailabilityZoneId': f'{self.region[:2]}w1-az{ord(letter) - 96}', 'MapCustomerOwnedIpOnLaunch': False, 'OwnerId': self.owner,
               'AssignIpv6AddressOnCreation': bool(v6), 'Ipv6CidrBlockAssociationSet': [], 'Tags': [] if default else tags(name[7:]),
               'SubnetArn': self.arn('subnet', name), 'EnableDns64': False, 'Ipv6Native': False,
               'PrivateDnsNameOptionsOnLaunch': {'HostnameType': 'ip-name', 'EnableResourceNameDnsARecord': False,
                                                 'EnableResourceNameDnsAAAARecord': False},
               'BlockPublicAccessStates': {'InternetGatewayBlockMode': 'off'}, 'SubnetId': name, 'State': 'available', 'VpcId': vpc,
               'CidrBlock': block, 'AvailableIpAddressCount': 2 ** (32 - int(block.split('/')[1])) - 9, 'AvailabilityZone': zone,
               'DefaultForAz': default, 'MapPublicIpOnLaunch': public}
        if v6:
            row['Ipv6CidrBlockAssociationSet'] = [{'AssociationId': f'subnet-cidr-assoc-{name[7:]}', 'Ipv6CidrBlock': v6,
                                                   'Ipv6CidrBlockState': {'State': 'associated'}, 'Ipv6AddressAttribute': 'public', 'IpSource': 'amazon'}]
        return self.add('Subnets', row)

    # ---- interfaces

    def next_address(self, subnet):
        self.used[subnet] += 1
        return dotted(self.first_of[subnet] + self.used[subnet])

    def interface(self, name, subnet, groups, kind='interface', description='', public=None, checked=True, status='in-use', further=0,
                  instance=None, managed_by=None, private=None):
        own = [private or self.next_address(subnet)] + [self.next_address(subnet) for _ in range(further)]
        n = len(self.lists['NetworkInterfaces'])
        association = None
        if public:
            association = {'AllocationId': 'eipalloc-' + name[4:], 'AssociationId': 'eipassoc-' + name[4:], 'IpOwnerId': self.owner,
                           'PublicDnsName': f'ec2-{public.replace(".", "-")}.{self.region}.compute.amazonaws.com', 'PublicIp': public}
        told = []
        for k, text in enumerate(own):
            row = {'Association': association} if k == 0 and association else {'Association': None} if n % 7 == 0 else {}
            row.update(Primary=k == 0, PrivateDnsName=f'ip-{text.replace(".", "-")}.{self.region}.compute.internal', PrivateIpAddress=text)
            told.append(row)
        row = {'Association': association} if association else {}
        if status == 'in-use':
            row['Attachment'] = {'AttachTime': CREATED, 'AttachmentId': 'eni-attach-' + name[4:], 'DeleteOnTermination': instance is not None,
                                 'DeviceIndex': 0 if instance else 1, 'NetworkCardIndex': 0, 'InstanceId': instance,
                                 'InstanceOwnerId': self.owner if instance else managed_by or 'amazon-elb', 'Status': 'attached'}
        row.update({
            'AvailabilityZone': self.zone_of[subnet], 'Description': description,
            'Groups': [{'GroupId': g, 'GroupName': g[3:]} for g in groups], 'InterfaceType': kind, 'Ipv6Addresses': [],
            'MacAddress': f'06:{n // 256:02x}:{n % 256:02x}:1d:2e:3f', 'NetworkInterfaceId': name, 'OwnerId': self.owner,
            'PrivateDnsName': f'ip-{own[0].replace(".", "-")}.{self.region}.compute.internal', 'PrivateIpAddress': own[0],
            'PrivateIpAddresses': told})
        if managed_by:
            row['RequesterId'] = managed_by
        row.update({'RequesterManaged': managed_by is not None, 'SourceDestCheck': checked, 'Status': status, 'SubnetId': subnet,
                    'TagSet': [] if managed_by else tags(name[4:]), 'VpcId': self.vpc_of[subnet], 'Operator': {'Managed': False}})
        return self.add('NetworkInterfaces', row)

    def host(self, name, subnet, groups, **more):
        return self.interface('eni-' + name, subnet, groups, instance='i-' + name, description='Primary network interface', **more)

    # ---- route tables

    @staticmethod
    def local(*blocks, v6=()):
        return [{'DestinationCidrBlock': b, 'GatewayId': 'local', 'Origin': 'CreateRouteTable', 'State': 'active'} for b in blocks] + [
            {'DestinationIpv6CidrBlock': b, 'GatewayId': 'local', 'Origin': 'CreateRouteTable', 'State': 'active'} for b in v6]

    @staticmethod
    def route(destination, origin='CreateRoute', state='active', **target):
        field = 'DestinationPrefixListId' if destination.startswith('pl-') else 'DestinationIpv6CidrBlock' if ':' in destination else 'DestinationCidrBlock'
        return dict({field: destination}, **target, Origin=origin, State=state)

    def table(self, name, vpc, routes, main=False, subnets=(), gateway=None, learnt_from=()):
        ties = []
        if main:
            ties.append({'Main': True, 'RouteTableAssociationId': f'rtbassoc-{name[4:]}-main', 'RouteTableId': name, 'AssociationState': {'State': 'associated'}})
        ties += [{'Main': False, 'RouteTableAssociationId': f'rtbassoc-{s[7:]}', 'RouteTableId': name, 'SubnetId': s,
                  'AssociationState': {'State': 'associated'}} for s in subnets]
        if gateway:
            ties.append({'Main': False, 'RouteTableAssociationId': f'rtbassoc-{gateway}', 'RouteTableId': name, 'SubnetId': None,
                         'GatewayId': gateway, 'AssociationState': {'State': 'associated'}})
        return self.add('RouteTables', {'Associations': ties, 'PropagatingVgws': [{'GatewayId': g} for g in learnt_from], 'RouteTableId': name,
                                        'Routes': routes, 'Tags': tags(name[4:]), 'VpcId': vpc, 'OwnerId': self.owner})

    # ---- ACLs

    @staticmethod
    def entry(number, egress, protocol='-1', block=ANY, action='allow', ports=None, message=None):
        row = {('Ipv6CidrBlock' if ':' in block else 'CidrBlock'): block, 'Egress': egress}
        if message:
            row['IcmpTypeCode'] = {'Code': message[1], 'Type': message[0]}
        if ports:
            row['PortRange'] = {'From': ports[0], 'To': ports[1]}
        return dict(row, Protocol=protocol, RuleAction=action, RuleNumber=number)

    def acl(self, name, vpc, entries, subnets=None, default=False):
        """The ACL of these subnets, or of those of the VPC that have none yet."""
        chosen = list(subnets) if subnets is not None else list(self.subnets_left[vpc])
        self.subnets_left[vpc] = [s for s in self.subnets_left[vpc] if s not in chosen]
        last = [self.entry(32767 + k, egress, block=b, action='deny') for egress in (True, False) for k, b in enumerate((ANY, ANY6))]
        return self.add('NetworkAcls', {
            'Associations': [{'NetworkAclAssociationId': f'aclassoc-{s[7:]}', 'NetworkAclId': name, 'SubnetId': s} for s in chosen],
            'Entries': entries + last, 'IsDefault': default, 'NetworkAclId': name, 'Tags': [] if default else tags(name[4:]), 'VpcId': vpc, 'OwnerId': self.owner})

    def open_entries(self):
        return [self.entry(100 + k, egress, block=b) for egress in (True, False) for k, b in enumerate((ANY, ANY6))]

    # ---- groups

    def group(self, name, vpc, inward=(), outward=None, description=None, peer=None, rules=True):
        """Rules are (protocol, first, last, sources): blocks of both kinds, pl- and sg- ids. Each source is a rule row too."""
        everything = [('-1', None, None, [ANY])]

        def permission(rule):
            protocol, first, last, sources = rule
            row = {'IpProtocol': protocol}
            if first is not None:
                row.update(FromPort=first, ToPort=last)
            pairs = []
            for g in (s for s in sources if s.startswith('sg-')):
                pair = {'UserId': self.owner, 'GroupId': g}
                if peer and g in peer[1]:
                    pair.update(UserId=peer[0], VpcId=peer[3], VpcPeeringConnectionId=peer[2], PeeringStatus='active')
                pairs.append(pair)
            row['UserIdGroupPairs'] = pairs
            row['IpRanges'] = [{'Description': f'{protocol} from {s}', 'CidrIp': s} if k % 2 else {'CidrIp': s}
                               for k, s in enumerate(sources) if s[0].isdigit() and ':' not in s]
            row['Ipv6Ranges'] = [{'CidrIpv6': s} for s in sources if ':' in s]
            row['PrefixListIds'] = [{'PrefixListId': s} for s in sources if s.startswith('pl-')]
            return row

        outward = everything if outward is None else outward
        self.add('SecurityGroups', {
            'GroupId': name, 'IpPermissionsEgress': [permission(r) for r in outward], 'Tags': tags(name[3:]), 'VpcId': vpc,
            'SecurityGroupArn': self.arn('security-group', name), 'OwnerId': self.owner, 'GroupName': name[3:],
            'Description': description or f'what {name[3:]} may', 'IpPermissions': [permission(r) for r in inward]})
        if not rules:
            return
        k = 0
        for egress, told in ((False, inward), (True, outward)):
            for protocol, first, last, sources in told:
                for s in sources:
                    k += 1
                    row = {'SecurityGroupRuleId': f'sgr-{name[3:]}-{k}', 'GroupId': name, 'GroupOwnerId': self.owner, 'IsEgress': egress,
                           'IpProtocol': protocol, 'FromPort': -1 if first is None else first, 'ToPort': -1 if last is None else last}
                    if s.startswith('pl-'):
                        row['PrefixListId'] = s
                    elif s.startswith('sg-'):
                        row['ReferencedGroupInfo'] = {'GroupId': s, 'UserId': self.owner}
                        if peer and s in peer[1]:
                            row['ReferencedGroupInfo'] = {'GroupId': s, 'PeeringStatus': 'active', 'UserId': peer[0], 'VpcId': peer[3],
                                                          'VpcPeeringConnectionId': peer[2]}
                    else:
                        row['CidrIpv6' if ':' in s else 'CidrIpv4'] = s
                    row.update(Tags=[], SecurityGroupRuleArn=self.arn('security-group-rule', row['SecurityGroupRuleId']))
                    self.add('SecurityGroupRules', row)

    def default_group(self, vpc):
        name = 'sg-default-' + vpc[4:]
        self.group(name, vpc, [('-1', None, None, [name])], description='default VPC security group')

    # ---- prefix lists

    def aws_list(self, name, service, *blocks):
        self.add('PrefixLists', {'Cidrs': list(blocks), 'PrefixListId': name, 'PrefixListName': f'com.amazonaws.{self.region}.{service}'})
        self.managed_row(name, f'com.amazonaws.{self.region}.{service}', 'AWS')

    def managed_row(self, name, told, owner, family='IPv4'):
        row = {'PrefixListId': name, 'AddressFamily': family, 'State': 'create-complete',
               'PrefixListArn': f'arn:aws:ec2:{self.region}:{"aws" if owner == "AWS" else owner}:prefix-list/{name}', 'PrefixListName': told}
        if owner != 'AWS':
            row.update(MaxEntries=20, Version=3)
        self.add('PrefixLists', dict(row, Tags=[], OwnerId=owner))

    def managed_list(self, name, told, owner, *blocks):
        self.managed_row(name, told, owner, 'IPv6' if ':' in blocks[0] else 'IPv4')
        self.add('PrefixListEntries', {'PrefixListId': name, 'Entries': [
            {'Cidr': b, 'Description': f'entry {k}'} if k % 3 == 0 else {'Cidr': b} for k, b in enumerate(blocks)]})

    # ---- gateways

    def internet_gateway(self, name, vpc):
        self.add('InternetGateways', {'Attachments': [{'State': 'available', 'VpcId': vpc}] if vpc else [], 'InternetGatewayId': name,
                                      'OwnerId': self.owner, 'Tags': tags(name[4:])})

    def nat_gateway(self, name, subnet, public, further=0):
        row = self.interface('eni-' + name, subnet, [], kind='nat_gateway', description=f'Interface for NAT Gateway {name}', public=public,
                             checked=False, further=further, managed_by='amazon-nat')
        told = []
        for k, it in enumerate(row['PrivateIpAddresses']):
            address_row = {'NetworkInterfaceId': row['NetworkInterfaceId'], 'PrivateIp': it['PrivateIpAddress'], 'IsPrimary': k == 0, 'Status': 'succeeded'}
            if k == 0 and public:
                address_row.update(AllocationId='eipalloc-' + name, PublicIp=public, AssociationId='eipassoc-' + name)
            told.append(address_row)
        self.add('NatGateways', {'CreateTime': CREATED, 'NatGatewayAddresses': told[::-1] if further else told, 'NatGatewayId': name, 'State': 'available',
                                 'SubnetId': subnet, 'VpcId': self.vpc_of[subnet], 'Tags': tags(name[4:]), 'ConnectivityType': 'public' if public else 'private',
                                 'AvailabilityMode': 'zonal'})

    def gone_nat_gateway(self, name, subnet, vpc, state='deleted', **more):
        self.add('NatGateways', dict({
            'CreateTime': CREATED, 'DeleteTime': '2026-06-30T16:00:00+00:00', 'NatGatewayId': name, 'State': state, 'SubnetId': subnet,
            'VpcId': vpc, 'Tags': [], 'ConnectivityType': 'public', 'NatGatewayAddresses': [
                {'AllocationId': 'eipalloc-' + name, 'NetworkInterfaceId': 'eni-gone', 'PrivateIp': '10.255.0.9', 'PublicIp': '198.51.100.250'}]}, **more))

    def text(self):
        return {name: rows for name, rows in self.lists.items()}


def peering(name, code, requester, accepter, message):
    """(owner, VPC, blocks, region) of each side; the blocks of a side are not told before it is active."""
    def side(owner, vpc, blocks, region):
        row = {'OwnerId': owner, 'VpcId': vpc, 'Region': region}
        if code == 'active':
            row = dict({'CidrBlock': blocks[0], 'Ipv6CidrBlockSet': [], 'CidrBlockSet': [{'CidrBlock': b} for b in blocks]}, **row)
            row['PeeringOptions'] = {'AllowDnsResolutionFromRemoteVpc': True, 'AllowEgressFromLocalClassicLinkToRemoteVpc': False,
                                     'AllowEgressFromLocalVpcToRemoteClassicLink': False}
        return row

    row = {'AccepterVpcInfo': side(*accepter), 'RequesterVpcInfo': side(*requester), 'Status': {'Code': code, 'Message': message}, 'Tags': [],
           'VpcPeeringConnectionId': name}
    if code == 'pending-acceptance':
        row['ExpirationTime'] = '2026-12-04T09:30:00+00:00'
    return row


# ---- a small account, of the answers that stand in for those of AWS in the tests

def kept_instances(reservations):
    """What collect-bundle keeps of instances."""
    def kept(it):
        return {'InstanceId': it['InstanceId'], 'State': {'Name': it['State']['Name']}, 'Tags': [tag for tag in it.get('Tags', []) if tag['Key'] == 'Name'],
                'NetworkInterfaces': [{'NetworkInterfaceId': eni['NetworkInterfaceId']} for eni in it.get('NetworkInterfaces', [])]}

    return [{'Instances': [kept(it) for it in row['Instances']]} for row in reservations]


def shop():
    folder = os.path.join(HERE, os.pardir, 'tests', 'account', 'answers', 'shop')
    # (what collect-bundle asks for in order to know what else to ask for)
    not_kept = ('describe-managed-prefix-lists', 'describe-transit-gateway-route-tables')
    told = {'PrefixListEntries': [], 'TransitGatewayRoutes': []}
    for name in sorted(os.listdir(folder)):
        with open(os.path.join(folder, name), encoding='utf-8') as file:
            answer = json.load(file)
        call, _, asked = name.removesuffix('.json').partition('.')
        if call == 'get-managed-prefix-list-entries':
            told['PrefixListEntries'].append({'PrefixListId': asked, 'Entries': answer['Entries']})
        elif call == 'search-transit-gateway-routes':
            told['TransitGatewayRoutes'].append({'TransitGatewayRouteTableId': asked, 'Routes': answer['Routes']})
        elif call not in not_kept:
            told.update((key, rows) for key, rows in answer.items() if isinstance(rows, list))
    groups = {group['GroupId'] for group in told['SecurityGroups']}
    told['SecurityGroupRules'] = [rule for rule in told['SecurityGroupRules'] if rule['GroupId'] in groups]
    told['Reservations'] = kept_instances(told['Reservations'])
    told['VpcEndpoints'] = [{name: it for name, it in row.items() if name != 'PolicyDocument'} for row in told['VpcEndpoints']]
    return told


# ---- an account with three tiers in three zones

def three_tiers():
    a = Account('111122223333', 'eu-west-1')
    zones = [a.region + c for c in 'abc']
    vpc = 'vpc-shop'
    a.vpc(vpc, '10.20.0.0/16', further=['100.64.0.0/18'], gone=['10.21.0.0/16'], v6='2001:db8:20::/56')
    a.vpc('vpc-default', '172.31.0.0/16', default=True)
    for k, zone in enumerate(zones):
        c = zone[-1]
        a.subnet(f'subnet-public-{c}', vpc, zone, f'10.20.{k}.0/24', public=True, v6=f'2001:db8:20:{k}::/64')
        a.subnet(f'subnet-app-{c}', vpc, zone, f'10.20.{16 * (k + 1)}.0/20')
        a.subnet(f'subnet-data-{c}', vpc, zone, f'10.20.{128 + k}.0/24')
        a.subnet(f'subnet-service-{c}', vpc, zone, f'100.64.{k}.0/24')
        a.subnet(f'subnet-default-{c}', 'vpc-default', zone, f'172.31.{16 * k}.0/20', public=True, default=True)

    a.aws_list('pl-s3', 's3', '52.218.0.0/17', '3.5.64.0/21', '52.92.0.0/17')
    a.aws_list('pl-dynamodb', 'dynamodb', '52.119.240.0/21', '52.94.24.0/23')
    a.managed_row('pl-cloudfront', 'com.amazonaws.global.cloudfront.origin-facing', 'AWS')
    a.add('PrefixListEntries', {'PrefixListId': 'pl-cloudfront', 'Entries': [{'Cidr': b} for b in ('120.52.22.96/27', '205.251.249.0/24', '180.163.57.128/26')]})
    a.managed_list('pl-office', 'office', a.owner, '198.51.100.0/26', '198.51.100.128/27', '203.0.113.248/29')
    a.managed_list('pl-office-v6', 'office-v6', a.owner, '2001:db8:ff00::/40', '2001:db8:ff80::/41')

    a.group('sg-lb', vpc, [('tcp', 443, 443, [ANY, ANY6]), ('tcp', 80, 80, ['pl-cloudfront'])], [('tcp', 8080, 8080, ['sg-app']), ('tcp', 8443, 8443, ['sg-app'])])
    a.group('sg-app', vpc, [('tcp', 8080, 8080, ['sg-lb']), ('tcp', 8443, 8443, ['sg-lb', 'sg-lambda']), ('tcp', 22, 22, ['sg-bastion']), ('icmp', 8, -1, ['10.20.0.0/16'])],
            [('tcp', 5432, 5432, ['sg-db']), ('tcp', 6379, 6379, ['sg-cache']), ('tcp', 443, 443, [ANY, 'pl-s3', 'pl-dynamodb']), ('udp', 123, 123, ['169.254.169.123/32'])])
    a.group('sg-db', vpc, [('tcp', 5432, 5432, ['sg-app', 'sg-lambda']), ('tcp', 5432, 5432, ['sg-db'])], [('tcp', 5432, 5432, ['sg-db'])])
    a.group('sg-cache', vpc, [('tcp', 6379, 6380, ['sg-app'])], [])
    a.group('sg-bastion', vpc, [('tcp', 22, 22, ['pl-office', 'pl-office-v6']), ('icmp', -1, -1, ['pl-office']), ('icmpv6', -1, -1, [ANY6])])
    a.group('sg-endpoint', vpc, [('tcp', 443, 443, ['10.20.0.0/16', '100.64.0.0/18'])], [])
    a.group('sg-lambda', vpc, [])
    a.group('sg-unused', vpc, [('-1', None, None, ['sg-of-another-account']), ('udp', 4500, 4500, ['192.0.2.0/24']), ('47', None, None, ['192.0.2.7/32'])])
    a.default_group(vpc)
    a.default_group('vpc-default')

    publics = iter(f'203.0.113.{n}' for n in range(10, 200))
    for zone in zones:
        c = zone[-1]
        a.interface(f'eni-lb-{c}', f'subnet-public-{c}', ['sg-lb'], description='ELB app/shop/50dc6c495c0c9188', public=next(publics), managed_by='amazon-elb')
    for zone in zones:
        a.nat_gateway(f'nat-{zone[-1]}', f'subnet-public-{zone[-1]}', next(publics), further=2 if zone[-1] == 'a' else 0)
    a.host('bastion', 'subnet-public-a', ['sg-bastion'], public=next(publics))
    for k in range(54):
        c = 'abc'[k % 3]
        a.host(f'app-{c}-{k // 3 + 1}', f'subnet-app-{c}', ['sg-app'], further=1 if k % 9 == 0 else 0)
    for c in 'abc':
        a.host(f'job-{c}', f'subnet-app-{c}', ['sg-app', 'sg-lambda'])
        a.interface(f'eni-db-{c}', f'subnet-data-{c}', ['sg-db'], description='RDSNetworkInterface', managed_by='amazon-rds')
        a.interface(f'eni-cache-{c}', f'subnet-data-{c}', ['sg-cache'], description=f'ElastiCache shop-000{ord(c) - 96}-001', managed_by='amazon-elasticache')
        a.interface(f'eni-endpoint-{c}', f'subnet-service-{c}', ['sg-endpoint'], kind='vpc_endpoint', description='VPC Endpoint Interface vpce-secrets', managed_by='727180483921')
        a.interface(f'eni-lambda-{c}', f'subnet-service-{c}', ['sg-lambda'], kind='lambda', description='AWS Lambda VPC ENI-orders', managed_by='AROAEXAMPLE:orders')
        a.interface(f'eni-nlb-{c}', f'subnet-app-{c}', [], kind='network_load_balancer', description='ELB net/inside/6d0ecf831eec9f09', managed_by='amazon-elb')
    a.interface('eni-spare', 'subnet-app-b', ['sg-app'], status='available', description='kept for a repair')
    a.host('old-host', 'subnet-default-a', ['sg-default-default'], public=next(publics))

    blocks = ['10.20.0.0/16', '100.64.0.0/18']
    out = [a.route(ANY, GatewayId='igw-shop'), a.route(ANY6, GatewayId='igw-shop')]
    a.table('rtb-shop', vpc, a.local(*blocks, v6=['2001:db8:20::/56']), main=True)
    a.table('rtb-public', vpc, a.local(*blocks, v6=['2001:db8:20::/56']) + out, subnets=[f'subnet-public-{c}' for c in 'abc'])
    for c in 'abc':
        a.table(f'rtb-app-{c}', vpc, a.local(*blocks, v6=['2001:db8:20::/56']) + [
            a.route(ANY, NatGatewayId=f'nat-{c}'), a.route(ANY6, EgressOnlyInternetGatewayId='eigw-shop'),
            a.route('pl-s3', GatewayId='vpce-s3'), a.route('pl-dynamodb', GatewayId='vpce-dynamodb'),
            a.route('192.168.40.0/24', origin='EnableVgwRoutePropagation', GatewayId='vgw-office'),
            a.route('10.30.0.0/16', state='blackhole', VpcPeeringConnectionId='pcx-gone'),
            a.route('10.31.0.0/16', state='blackhole', NatGatewayId='nat-gone')], subnets=[f'subnet-app-{c}'], learnt_from=['vgw-office'])
    a.table('rtb-data', vpc, a.local(*blocks, v6=['2001:db8:20::/56']) + [a.route('pl-s3', GatewayId='vpce-s3')], subnets=[f'subnet-data-{c}' for c in 'abc'])
    a.table('rtb-service', vpc, a.local(*blocks, v6=['2001:db8:20::/56']) + [a.route(ANY, NatGatewayId='nat-a')], subnets=[f'subnet-service-{c}' for c in 'abc'])
    a.table('rtb-edge', vpc, a.local(*blocks, v6=['2001:db8:20::/56']), gateway='igw-shop')
    a.table('rtb-default', 'vpc-default', a.local('172.31.0.0/16') + [a.route(ANY, GatewayId='igw-default')], main=True)

    ephemeral = (1024, 65535)
    a.acl('acl-public', vpc, [
        a.entry(90, False, '6', '192.0.2.0/24', 'deny', (0, 65535)), a.entry(100, False, '6', ANY, 'allow', (80, 80)), a.entry(110, False, '6', ANY, 'allow', (443, 443)),
        a.entry(111, False, '6', ANY6, 'allow', (443, 443)), a.entry(120, False, '6', ANY, 'allow', ephemeral), a.entry(130, False, '17', ANY, 'allow', ephemeral),
        a.entry(140, False, '6', '198.51.100.0/24', 'allow', (22, 22)), a.entry(150, False, '1', ANY, 'allow', message=(-1, -1)), a.entry(160, False, '-1', '10.20.0.0/16'),
        a.entry(100, True), a.entry(101, True, block=ANY6)], [f'subnet-public-{c}' for c in 'abc'])
    a.acl('acl-app', vpc, [a.entry(100, False, block='10.20.0.0/16'), a.entry(105, False, block='100.64.0.0/18'), a.entry(110, False, '6', ANY, 'allow', ephemeral),
                           a.entry(120, False, '17', ANY, 'allow', ephemeral), a.entry(100, True), a.entry(101, True, block=ANY6)], [f'subnet-app-{c}' for c in 'abc'])
    a.acl('acl-data', vpc, [a.entry(100 + k, False, '6', f'10.20.{16 * (k + 1)}.0/20', 'allow', (5432, 6380)) for k in range(3)]
          + [a.entry(110 + k, False, '6', f'10.20.{128 + k}.0/24', 'allow', (0, 65535)) for k in range(3)]
          + [a.entry(120, False, '6', '100.64.0.0/18', 'allow', (5432, 5432)), a.entry(130, False, '6', ANY, 'allow', ephemeral), a.entry(100, True, '6', ANY, 'allow', (0, 65535)),
             a.entry(110, True, '1', '10.20.0.0/16', 'allow', message=(3, 4)), a.entry(120, True, '58', ANY6, 'allow', message=(-1, -1))], [f'subnet-data-{c}' for c in 'abc'])
    a.acl('acl-shop-default', vpc, a.open_entries(), default=True)
    a.acl('acl-default', 'vpc-default', a.open_entries(), default=True)
    a.internet_gateway('igw-shop', vpc)
    a.internet_gateway('igw-default', 'vpc-default')
    a.internet_gateway('igw-spare', None)
    a.gone_nat_gateway('nat-gone', 'subnet-gone', vpc)
    a.gone_nat_gateway('nat-failed', 'subnet-public-c', vpc, 'failed', FailureCode='Gateway.NotAttached', FailureMessage='Network vpc-shop has no Internet gateway attached',
                       NatGatewayAddresses=[{'AllocationId': 'eipalloc-failed', 'IsPrimary': True, 'Status': 'failed'}])
    a.lists['VpcPeeringConnections'].append(peering('pcx-gone', 'deleted', (a.owner, vpc, [], a.region), ('444455556666', 'vpc-gone', [], a.region), f'Deleted by {a.owner}'))
    return a.text()


# ---- two accounts whose VPCs are peered

def two_accounts():
    region = 'eu-west-1'
    shop, tools = Account('111122223333', region), Account('444455556666', region)
    zones = [region + c for c in 'ab']
    shop.vpc('vpc-shop', '10.0.0.0/16', further=['10.1.0.0/20'])
    shop.vpc('vpc-stage', '10.2.0.0/16')
    tools.vpc('vpc-tools', '10.8.0.0/16')
    for k, zone in enumerate(zones):
        c = zone[-1]
        shop.subnet(f'subnet-web-{c}', 'vpc-shop', zone, f'10.0.{k}.0/24', public=True)
        shop.subnet(f'subnet-shop-{c}', 'vpc-shop', zone, f'10.0.{16 + k}.0/24')
        shop.subnet(f'subnet-batch-{c}', 'vpc-shop', zone, f'10.1.{k}.0/24')
        shop.subnet(f'subnet-stage-{c}', 'vpc-stage', zone, f'10.2.{k}.0/24')
        tools.subnet(f'subnet-build-{c}', 'vpc-tools', zone, f'10.8.{k}.0/24')
        tools.subnet(f'subnet-watch-{c}', 'vpc-tools', zone, f'10.8.{8 + k}.0/24')
        tools.subnet(f'subnet-door-{c}', 'vpc-tools', zone, f'10.8.{16 + k}.0/24', public=True)

    for a in (shop, tools):
        a.aws_list('pl-s3', 's3', '52.218.0.0/17', '3.5.64.0/21')
        # (shop's list, which is shared with tools)
        a.managed_list('pl-shared', 'known-networks', shop.owner, '198.51.100.0/24', '192.0.2.0/25')
    to_tools = (tools.owner, ['sg-watch', 'sg-build'], 'pcx-shop-tools', 'vpc-tools')
    to_shop = (shop.owner, ['sg-shop', 'sg-web'], 'pcx-shop-tools', 'vpc-shop')
    shop.group('sg-web', 'vpc-shop', [('tcp', 443, 443, [ANY, ANY6]), ('tcp', 9100, 9100, ['sg-watch']), ('tcp', 22, 22, ['pl-shared'])], peer=to_tools)
    shop.group('sg-shop', 'vpc-shop', [('tcp', 8080, 8080, ['sg-web']), ('tcp', 9100, 9100, ['sg-watch']), ('tcp', 22, 22, ['sg-build', 'pl-shared'])], peer=to_tools)
    shop.group('sg-batch', 'vpc-shop', [('tcp', 9100, 9100, ['10.8.8.0/21']), ('udp', 514, 514, ['sg-shop'])], rules=False)
    shop.group('sg-stage', 'vpc-stage', [('tcp', 0, 65535, ['10.8.0.0/16']), ('tcp', 443, 443, ['sg-stage'])])
    tools.group('sg-build', 'vpc-tools', [('tcp', 22, 22, ['sg-door'])])
    tools.group('sg-watch', 'vpc-tools', [('tcp', 3000, 3000, ['sg-door']), ('tcp', 9093, 9094, ['sg-watch']), ('tcp', 8125, 8125, ['sg-shop'])],
                [('tcp', 9100, 9100, ['10.0.0.0/8']), ('tcp', 443, 443, [ANY])], peer=to_shop)
    tools.group('sg-door', 'vpc-tools', [('tcp', 443, 443, ['pl-shared']), ('tcp', 22, 22, ['pl-shared'])])
    for vpc, a in (('vpc-shop', shop), ('vpc-stage', shop), ('vpc-tools', tools)):
        a.default_group(vpc)

    publics = iter(f'203.0.113.{n}' for n in range(20, 200))
    for k in range(8):
        shop.host(f'web-{k + 1}', f'subnet-web-{"ab"[k % 2]}', ['sg-web'], public=next(publics))
    for k in range(36):
        shop.host(f'shop-{k + 1}', f'subnet-shop-{"ab"[k % 2]}', ['sg-shop'], further=k % 5 == 4)
    for k in range(14):
        shop.host(f'batch-{k + 1}', f'subnet-batch-{"ab"[k % 2]}', ['sg-batch'])
        shop.host(f'stage-{k + 1}', f'subnet-stage-{"ab"[k % 2]}', ['sg-stage'])
    for k in range(16):
        tools.host(f'build-{k + 1}', f'subnet-build-{"ab"[k % 2]}', ['sg-build'])
        tools.host(f'watch-{k + 1}', f'subnet-watch-{"ab"[k % 2]}', ['sg-watch'])
    for k in range(2):
        tools.host(f'door-{k + 1}', f'subnet-door-{"ab"[k % 2]}', ['sg-door'], public=next(publics))
    shop.nat_gateway('nat-shop', 'subnet-web-a', next(publics))
    tools.nat_gateway('nat-tools', 'subnet-door-a', next(publics))
    tools.gone_nat_gateway('nat-tools-old', 'subnet-door-b', 'vpc-tools')

    def peers(*blocks):
        return [shop.route(b, VpcPeeringConnectionId='pcx-shop-tools') for b in blocks]

    own, theirs = ['10.0.0.0/16', '10.1.0.0/20'], '10.8.0.0/16'
    shop.table('rtb-shop', 'vpc-shop', shop.local(*own) + [shop.route(ANY, NatGatewayId='nat-shop')] + peers(theirs) + [shop.route('pl-s3', GatewayId='vpce-s3-shop')], main=True)
    shop.table('rtb-web', 'vpc-shop', shop.local(*own) + [shop.route(ANY, GatewayId='igw-shop'), shop.route(ANY6, GatewayId='igw-shop')] + peers('10.8.8.0/21'),
               subnets=[f'subnet-web-{c}' for c in 'ab'])
    shop.table('rtb-batch', 'vpc-shop', shop.local(*own) + peers('10.8.8.0/21') + [shop.route('10.8.0.0/24', state='blackhole', VpcPeeringConnectionId='pcx-first-try')],
               subnets=[f'subnet-batch-{c}' for c in 'ab'])
    shop.table('rtb-stage', 'vpc-stage', shop.local('10.2.0.0/16') + [shop.route(theirs, VpcPeeringConnectionId='pcx-stage-tools')], main=True)
    tools.table('rtb-tools', 'vpc-tools', tools.local(theirs) + [tools.route(ANY, NatGatewayId='nat-tools')] + peers('10.0.0.0/16', '10.1.0.0/20') + [
        tools.route('10.2.0.0/16', VpcPeeringConnectionId='pcx-stage-tools'), tools.route('pl-s3', GatewayId='vpce-s3-tools')], main=True)
    tools.table('rtb-door', 'vpc-tools', tools.local(theirs) + [tools.route(ANY, GatewayId='igw-tools')] + peers('10.0.0.0/16'), subnets=[f'subnet-door-{c}' for c in 'ab'])
    shop.acl('acl-batch', 'vpc-shop', [shop.entry(100, False, '6', '10.8.0.0/16', 'allow', (9100, 9100)), shop.entry(110, False, '6', ANY, 'allow', (1024, 65535)),
                                       shop.entry(120, False, '17', '10.0.0.0/16', 'allow', (514, 514)), shop.entry(100, True)], [f'subnet-batch-{c}' for c in 'ab'])
    shop.acl('acl-shop', 'vpc-shop', shop.open_entries(), default=True)
    shop.acl('acl-stage', 'vpc-stage', shop.open_entries(), default=True)
    tools.acl('acl-door', 'vpc-tools', [tools.entry(100, False, '6', '198.51.100.0/24', 'allow', (22, 443)), tools.entry(110, False, '6', ANY, 'allow', (1024, 65535)),
                                        tools.entry(120, False, block=theirs), tools.entry(100, True)], [f'subnet-door-{c}' for c in 'ab'])
    tools.acl('acl-tools', 'vpc-tools', tools.open_entries(), default=True)
    shop.internet_gateway('igw-shop', 'vpc-shop')
    tools.internet_gateway('igw-tools', 'vpc-tools')

    shop_side, tools_side = (shop.owner, 'vpc-shop', own, region), (tools.owner, 'vpc-tools', [theirs], region)
    stage_side = (shop.owner, 'vpc-stage', ['10.2.0.0/16'], region)
    both = [peering('pcx-shop-tools', 'active', shop_side, tools_side, 'Active'), peering('pcx-stage-tools', 'active', tools_side, stage_side, 'Active')]
    shop.lists['VpcPeeringConnections'] += both + [
        peering('pcx-first-try', 'rejected', shop_side, tools_side, f'Rejected by {tools.owner}'),
        peering('pcx-partner', 'pending-acceptance', shop_side, ('777788889999', 'vpc-partner', [], 'us-east-1'), 'Pending Acceptance by 777788889999')]
    tools.lists['VpcPeeringConnections'] += [dict(row) for row in reversed(both)]
    return [shop.text(), tools.text()]


# ---- a hub and its spokes over a transit gateway, all in one account

def hub():
    a = Account('222233334444', 'eu-west-1')
    zones = [a.region + c for c in 'ab']
    spokes = {'prod': 40, 'dev': 41, 'shared': 42, 'sandbox': 43}
    a.vpc('vpc-inspect', '10.100.0.0/16')
    a.vpc('vpc-egress', '10.101.0.0/16')
    for name, n in spokes.items():
        a.vpc(f'vpc-{name}', f'10.{n}.0.0/16')
    for k, zone in enumerate(zones):
        c = zone[-1]
        for name in ('inspect', 'egress'):
            n = {'inspect': 100, 'egress': 101}[name]
            a.subnet(f'subnet-{name}-tgw-{c}', f'vpc-{name}', zone, f'10.{n}.{k}.0/28')
            a.subnet(f'subnet-{name}-{c}', f'vpc-{name}', zone, f'10.{n}.{16 + k}.0/24', public=name == 'egress')
        for name, n in spokes.items():
            a.subnet(f'subnet-{name}-tgw-{c}', f'vpc-{name}', zone, f'10.{n}.{k}.0/28')
            a.subnet(f'subnet-{name}-{c}', f'vpc-{name}', zone, f'10.{n}.{16 + k}.0/24')

    a.aws_list('pl-s3', 's3', '52.218.0.0/17', '3.5.64.0/21')
    a.managed_list('pl-spokes', 'spokes', a.owner, *(f'10.{n}.0.0/16' for n in spokes.values()))
    inside = '10.0.0.0/8'
    a.group('sg-firewall', 'vpc-inspect', [('-1', None, None, [inside])])
    a.group('sg-prod', 'vpc-prod', [('tcp', 443, 443, [inside]), ('tcp', 5432, 5432, ['sg-prod']), ('icmp', 8, 0, ['pl-spokes'])])
    a.group('sg-dev', 'vpc-dev', [('tcp', 22, 22, ['10.42.0.0/16']), ('tcp', 443, 443, ['pl-spokes'])])
    a.group('sg-shared', 'vpc-shared', [('tcp', 53, 53, ['pl-spokes']), ('udp', 53, 53, ['pl-spokes']), ('tcp', 443, 443, ['pl-spokes'])])
    a.group('sg-sandbox', 'vpc-sandbox', [])
    for name in ('inspect', 'egress', *spokes):
        a.default_group(f'vpc-{name}')

    for c in 'ab':
        a.host(f'firewall-{c}', f'subnet-inspect-{c}', ['sg-firewall'], checked=False)
    publics = iter(f'203.0.113.{n}' for n in range(60, 90))
    for c in 'ab':
        a.nat_gateway(f'nat-egress-{c}', f'subnet-egress-{c}', next(publics))
    a.gone_nat_gateway('nat-egress-old', 'subnet-egress-a', 'vpc-egress')
    for name in ('inspect', 'egress', *spokes):
        for c in 'ab':
            a.interface(f'eni-tgw-{name}-{c}', f'subnet-{name}-tgw-{c}', [], kind='transit_gateway', description=f'Network Interface for Transit Gateway Attachment tgw-attach-{name}',
                        checked=True, managed_by=a.owner)
    for name in spokes:
        for k in range(16):
            a.host(f'{name}-{k + 1}', f'subnet-{name}-{"ab"[k % 2]}', [f'sg-{name}'])

    def to_tgw(*destinations):
        return [a.route(d, TransitGatewayId='tgw-hub') for d in destinations]

    for name, n in spokes.items():
        routes = a.local(f'10.{n}.0.0/16') + to_tgw(ANY)
        if name == 'prod':
            routes += to_tgw('pl-spokes') + [a.route('pl-s3', GatewayId='vpce-s3-prod')]
        if name == 'sandbox':
            routes += [a.route('10.40.0.0/16', state='blackhole', TransitGatewayId='tgw-old')]
        a.table(f'rtb-{name}', f'vpc-{name}', routes, main=True)
        a.table(f'rtb-{name}-tgw', f'vpc-{name}', a.local(f'10.{n}.0.0/16'), subnets=[f'subnet-{name}-tgw-{c}' for c in 'ab'])
    a.table('rtb-inspect', 'vpc-inspect', a.local('10.100.0.0/16') + to_tgw(ANY), main=True)
    for c in 'ab':
        a.table(f'rtb-inspect-tgw-{c}', 'vpc-inspect', a.local('10.100.0.0/16') + [dict(a.route(ANY, NetworkInterfaceId=f'eni-firewall-{c}'), InstanceId=f'i-firewall-{c}', InstanceOwnerId=a.owner)],
                subnets=[f'subnet-inspect-tgw-{c}'])
    a.table('rtb-egress', 'vpc-egress', a.local('10.101.0.0/16') + [a.route(ANY, GatewayId='igw-egress')] + to_tgw('pl-spokes'), main=True)
    for c in 'ab':
        a.table(f'rtb-egress-tgw-{c}', 'vpc-egress', a.local('10.101.0.0/16') + [a.route(ANY, NatGatewayId=f'nat-egress-{c}')], subnets=[f'subnet-egress-tgw-{c}'])
    a.acl('acl-sandbox', 'vpc-sandbox', [a.entry(90, True, '6', '10.40.0.0/16', 'deny', (0, 65535)), a.entry(100, True), a.entry(100, False, '6', ANY, 'allow', (1024, 65535))],
          [f'subnet-sandbox-{c}' for c in 'ab'])
    for name in ('inspect', 'egress', *spokes):
        a.acl(f'acl-{name}-default', f'vpc-{name}', a.open_entries(), default=True)
    a.internet_gateway('igw-egress', 'vpc-egress')

    def attachment(name, vpc, subnets, state='available', mode='disable'):
        a.add('TransitGatewayVpcAttachments', {
            'TransitGatewayAttachmentId': f'tgw-attach-{name}', 'TransitGatewayId': 'tgw-hub', 'VpcId': vpc, 'VpcOwnerId': a.owner, 'State': state, 'SubnetIds': subnets,
            'CreationTime': CREATED, 'Options': {'DnsSupport': 'enable', 'SecurityGroupReferencingSupport': 'enable', 'Ipv6Support': 'disable', 'ApplianceModeSupport': mode},
            'Tags': tags(name)})

    def tie(name, kind, resource, table, state='available'):
        row = {'TransitGatewayAttachmentId': f'tgw-attach-{name}', 'TransitGatewayId': 'tgw-hub', 'TransitGatewayOwnerId': a.owner, 'ResourceOwnerId': a.owner,
               'ResourceType': kind, 'ResourceId': resource, 'State': state, 'CreationTime': CREATED, 'Tags': []}
        if table:
            row['Association'] = {'TransitGatewayRouteTableId': table, 'State': 'associated'}
        a.add('TransitGatewayAttachments', row)

    for name in ('inspect', 'egress', *spokes):
        attachment(name, f'vpc-{name}', [f'subnet-{name}-tgw-{c}' for c in 'ab'], 'modifying' if name == 'shared' else 'available', 'enable' if name == 'inspect' else 'disable')
        tie(name, 'vpc', f'vpc-{name}', 'tgw-rtb-spokes' if name in spokes else 'tgw-rtb-inspect')
    attachment('prod-old', 'vpc-prod', ['subnet-gone'], 'deleted')
    attachment('partner', 'vpc-partner', ['subnet-partner'], 'pendingAcceptance')
    attachment('lab', 'vpc-of-another-account', ['subnet-lab-a', 'subnet-lab-b'])
    tie('prod-old', 'vpc', 'vpc-prod', None, 'deleted')
    tie('partner', 'vpc', 'vpc-partner', None, 'pendingAcceptance')
    tie('lab', 'vpc', 'vpc-of-another-account', 'tgw-rtb-spokes')
    tie('office', 'vpn', 'vpn-office', 'tgw-rtb-spokes')
    tie('us', 'peering', 'tgw-us', None)

    def learnt(name, block, kind='propagated', resource='vpc'):
        return {'DestinationCidrBlock': block, 'TransitGatewayAttachments': [
            {'ResourceId': 'vpn-office(198.51.100.9)' if resource == 'vpn' else f'vpc-{name}', 'TransitGatewayAttachmentId': f'tgw-attach-{name}', 'ResourceType': resource}],
            'Type': kind, 'State': 'active'}

    a.add('TransitGatewayRoutes', {'TransitGatewayRouteTableId': 'tgw-rtb-spokes', 'Routes': [
        learnt('inspect', ANY, 'static'), {'DestinationCidrBlock': '10.43.0.0/16', 'Type': 'static', 'State': 'blackhole'},
        {'DestinationCidrBlock': '192.168.0.0/16', 'TransitGatewayAttachments': None, 'Type': 'static', 'State': 'blackhole'},
        learnt('office', '172.16.8.0/24', resource='vpn'), dict(learnt('inspect', ANY6, 'static'))]})
    a.add('TransitGatewayRoutes', {'TransitGatewayRouteTableId': 'tgw-rtb-inspect', 'Routes': [
        *(learnt(name, f'10.{n}.0.0/16') for name, n in spokes.items()), learnt('egress', ANY, 'static'), learnt('lab', '10.60.0.0/16'),
        {'DestinationCidrBlock': '10.61.0.0/16', 'Type': 'static', 'State': 'blackhole', 'TransitGatewayAttachments': []},
        learnt('office', '172.16.8.0/24', resource='vpn'), dict(learnt('shared', '10.42.128.0/17', 'static'), PrefixListId='pl-of-the-hub')]})
    told = a.text()
    # (written by hand: what the firewalls forward)
    told['Appliances'] = [{'NetworkInterfaceId': 'eni-firewall-a', 'Kind': 'service', 'Ports': '443-443'},
                          {'NetworkInterfaceId': 'eni-firewall-b', 'Kind': 'service', 'Ports': '443-443'}]
    return told


def lines(account, indent=''):
    lists = []
    for name, rows in account.items():
        inside = ',\n'.join(indent + '  ' + json.dumps(row) for row in rows)
        lists.append(f'{indent} {json.dumps(name)}: [' + (f'\n{inside}\n{indent} ]' if rows else ']'))
    return indent + '{\n' + ',\n'.join(lists) + '\n' + indent + '}'


def main():
    for name, bundle in (('shop', shop()), ('three-tiers', three_tiers()), ('two-accounts', two_accounts()), ('hub', hub())):
        text = '[\n' + ',\n'.join(lines(account, ' ') for account in bundle) + '\n]\n' if isinstance(bundle, list) else lines(bundle) + '\n'
        assert json.loads(text) == bundle
        with open(os.path.join(HERE, name + '.json'), 'w', encoding='utf-8') as file:
            file.write(text)
        rows = sum(len(r) for account in (bundle if isinstance(bundle, list) else [bundle]) for r in account.values())
        print(f'{name}.json: {rows} rows, {len(text)} bytes')


if __name__ == '__main__':
    main()
