#!/usr/bin/env python3
"""What `plan-bundle` makes of small bundles, and whether the program answers of them as AWS would: tests/plan_bundle.py [PROGRAM]

Each row of ROWS is one plan over BASE, written after the documentation of Terraform's JSON output and of the AWS provider: what it says
is not applied, what becomes of the bundle, all else staying exactly as it is, and packets. Where PROGRAM is given, it traces the packets
in the planned bundle, and it has to take each planned bundle. `tests/plans/` has three plans that Terraform 1.11.4 made with version 5.100.0
of the AWS provider (`first.tf`, `second.tf` and `third.tf` are their configurations), over accounts that moto 5.2.1 played, and the account's
bundles before each apply and after it: the planned bundle is compared with the second. Damaged plans and bundles end with a status of 0, 1 or 2.
The rows call plan-bundle within this process, and a few more run it as one of its own. The last line is 'N passed, M failed'.
"""

import contextlib
import copy
import io
import json
import os
import random
import re
import subprocess
import sys
import tempfile
import traceback

TOP = os.path.dirname(os.path.dirname(os.path.abspath(__file__)))
sys.path.insert(0, TOP)

from scripts import plan_bundle as script

PLANS = os.path.join(TOP, "tests", "plans")

# A web host that the internet reaches, and a database behind it. The rules of sg-old aren't listed separately. `Extra` is of no kind.
BASE = json.loads("""{
"Vpcs": [{"VpcId": "vpc-1", "CidrBlock": "10.1.0.0/16", "OwnerId": "111122223333", "Extra": [1.5, {"a": null}],
  "CidrBlockAssociationSet": [{"CidrBlock": "10.1.0.0/16", "CidrBlockState": {"State": "associated"}}, {"CidrBlock": "10.9.0.0/16", "CidrBlockState": {"State": "disassociated"}}]}],
"Subnets": [
  {"SubnetId": "subnet-web", "VpcId": "vpc-1", "CidrBlock": "10.1.1.0/24", "AvailabilityZone": "us-east-1a", "AvailabilityZoneId": "use1-az6", "OwnerId": "111122223333"},
  {"SubnetId": "subnet-db", "VpcId": "vpc-1", "CidrBlock": "10.1.2.0/24", "AvailabilityZone": "us-east-1b", "AvailabilityZoneId": "use1-az1", "OwnerId": "111122223333"}],
"NetworkInterfaces": [
  {"NetworkInterfaceId": "eni-web", "SubnetId": "subnet-web", "VpcId": "vpc-1", "PrivateIpAddress": "10.1.1.10", "Status": "in-use", "SourceDestCheck": true, "Groups": [{"GroupId": "sg-web", "GroupName": "web"}],
   "PrivateIpAddresses": [{"Primary": true, "PrivateIpAddress": "10.1.1.10", "Association": {"PublicIp": "203.0.113.10"}}, {"Primary": false, "PrivateIpAddress": "10.1.1.11"}]},
  {"NetworkInterfaceId": "eni-db", "SubnetId": "subnet-db", "VpcId": "vpc-1", "PrivateIpAddress": "10.1.2.10", "Status": "in-use", "SourceDestCheck": true, "Groups": [{"GroupId": "sg-db", "GroupName": "db"}], "PrivateIpAddresses": [{"Primary": true, "PrivateIpAddress": "10.1.2.10"}]},
  {"NetworkInterfaceId": "eni-nat", "SubnetId": "subnet-web", "VpcId": "vpc-1", "PrivateIpAddress": "10.1.1.5", "Status": "in-use", "SourceDestCheck": false, "InterfaceType": "nat_gateway", "Groups": [],
   "PrivateIpAddresses": [{"Primary": true, "PrivateIpAddress": "10.1.1.5", "Association": {"PublicIp": "203.0.113.5"}}]}],
"RouteTables": [
  {"RouteTableId": "rtb-main", "VpcId": "vpc-1", "Associations": [{"Main": true, "RouteTableAssociationId": "rtbassoc-main", "RouteTableId": "rtb-main"}],
   "Routes": [{"DestinationCidrBlock": "10.1.0.0/16", "GatewayId": "local", "Origin": "CreateRouteTable", "State": "active"}]},
  {"RouteTableId": "rtb-web", "VpcId": "vpc-1", "Associations": [{"Main": false, "RouteTableAssociationId": "rtbassoc-web", "RouteTableId": "rtb-web", "SubnetId": "subnet-web"}],
   "Routes": [{"DestinationCidrBlock": "10.1.0.0/16", "GatewayId": "local", "Origin": "CreateRouteTable", "State": "active"}, {"DestinationCidrBlock": "0.0.0.0/0", "GatewayId": "igw-1", "Origin": "CreateRoute", "State": "active"}]}],
"PrefixLists": [{"PrefixListId": "pl-1", "Cidrs": ["192.0.2.0/24"]}],
"NetworkAcls": [
  {"NetworkAclId": "acl-default", "VpcId": "vpc-1", "IsDefault": true, "Associations": [{"NetworkAclAssociationId": "aclassoc-1", "NetworkAclId": "acl-default", "SubnetId": "subnet-web"}], "Entries": [
   {"RuleNumber": 100, "Egress": true, "Protocol": "-1", "RuleAction": "allow", "CidrBlock": "0.0.0.0/0"}, {"RuleNumber": 32767, "Egress": true, "Protocol": "-1", "RuleAction": "deny", "CidrBlock": "0.0.0.0/0"},
   {"RuleNumber": 100, "Egress": false, "Protocol": "-1", "RuleAction": "allow", "CidrBlock": "0.0.0.0/0"}, {"RuleNumber": 32767, "Egress": false, "Protocol": "-1", "RuleAction": "deny", "CidrBlock": "0.0.0.0/0"}]},
  {"NetworkAclId": "acl-db", "VpcId": "vpc-1", "IsDefault": false, "Associations": [{"NetworkAclAssociationId": "aclassoc-2", "NetworkAclId": "acl-db", "SubnetId": "subnet-db"}], "Entries": [
   {"RuleNumber": 100, "Egress": true, "Protocol": "-1", "RuleAction": "allow", "CidrBlock": "0.0.0.0/0"}, {"RuleNumber": 100, "Egress": false, "Protocol": "6", "RuleAction": "allow", "CidrBlock": "10.1.1.0/24", "PortRange": {"From": 5432, "To": 5432}}]}],
"SecurityGroups": [
  {"GroupId": "sg-default", "GroupName": "default", "VpcId": "vpc-1", "IpPermissions": [{"IpProtocol": "-1", "UserIdGroupPairs": [{"GroupId": "sg-default", "UserId": "111122223333"}]}], "IpPermissionsEgress": []},
  {"GroupId": "sg-web", "GroupName": "web", "VpcId": "vpc-1", "OwnerId": "111122223333",
   "IpPermissions": [{"IpProtocol": "tcp", "FromPort": 443, "ToPort": 443, "IpRanges": [{"CidrIp": "0.0.0.0/0"}], "Ipv6Ranges": [{"CidrIpv6": "::/0"}], "PrefixListIds": [], "UserIdGroupPairs": []}],
   "IpPermissionsEgress": [{"IpProtocol": "-1", "IpRanges": [{"CidrIp": "0.0.0.0/0"}], "Ipv6Ranges": [], "PrefixListIds": [], "UserIdGroupPairs": []}]},
  {"GroupId": "sg-db", "GroupName": "db", "VpcId": "vpc-1", "OwnerId": "111122223333",
   "IpPermissions": [{"IpProtocol": "tcp", "FromPort": 5432, "ToPort": 5432, "IpRanges": [], "Ipv6Ranges": [], "PrefixListIds": [], "UserIdGroupPairs": [{"GroupId": "sg-web", "UserId": "111122223333"}]}], "IpPermissionsEgress": []},
  {"GroupId": "sg-old", "GroupName": "old", "VpcId": "vpc-1", "IpPermissions": [{"IpProtocol": "tcp", "FromPort": 22, "ToPort": 22, "IpRanges": [{"CidrIp": "10.1.1.0/24", "Description": "hosts"}]}], "IpPermissionsEgress": []}],
"SecurityGroupRules": [
  {"SecurityGroupRuleId": "sgr-1", "GroupId": "sg-web", "IsEgress": false, "IpProtocol": "tcp", "FromPort": 443, "ToPort": 443, "CidrIpv4": "0.0.0.0/0", "Tags": []},
  {"SecurityGroupRuleId": "sgr-2", "GroupId": "sg-web", "IsEgress": false, "IpProtocol": "tcp", "FromPort": 443, "ToPort": 443, "CidrIpv6": "::/0", "Tags": []},
  {"SecurityGroupRuleId": "sgr-3", "GroupId": "sg-web", "IsEgress": true, "IpProtocol": "-1", "FromPort": -1, "ToPort": -1, "CidrIpv4": "0.0.0.0/0", "Tags": []},
  {"SecurityGroupRuleId": "sgr-4", "GroupId": "sg-db", "IsEgress": false, "IpProtocol": "tcp", "FromPort": 5432, "ToPort": 5432, "ReferencedGroupInfo": {"GroupId": "sg-web", "UserId": "111122223333"}, "Tags": [{"Key": "a", "Value": "b"}]}],
"InternetGateways": [{"InternetGatewayId": "igw-1", "Attachments": [{"State": "available", "VpcId": "vpc-1"}]}],
"NatGateways": [{"NatGatewayId": "nat-1", "State": "available", "SubnetId": "subnet-web", "VpcId": "vpc-1", "NatGatewayAddresses": [{"NetworkInterfaceId": "eni-nat", "PrivateIp": "10.1.1.5", "IsPrimary": true}]}]
}""")

TO_DB = "open from eni-web tcp 10.1.1.10 10.1.2.10 5000 5432"
SSH_DB = "open from eni-web tcp 10.1.1.10 10.1.2.10 5000 22"
TO_WEB = "open from internet tcp 198.51.100.7 203.0.113.10 5000 443"
SSH_WEB = "open from internet tcp 198.51.100.7 203.0.113.10 5000 22"
OUT_DB = "open from eni-db tcp 10.1.2.10 198.51.100.7 5000 443"
KEYS = {"Vpcs": "VpcId", "Subnets": "SubnetId", "NetworkInterfaces": "NetworkInterfaceId", "RouteTables": "RouteTableId", "NetworkAcls": "NetworkAclId",
        "SecurityGroups": "GroupId", "SecurityGroupRules": "SecurityGroupRuleId", "PrefixLists": "PrefixListId"}


# ---- plans

def change(address, actions, before=None, after=None, unknown=None, **more):
    """A row of resource_changes."""
    parts = re.sub(r"\[[^]]*\]", "", address).split(".")
    row = {"address": address, "mode": "managed", "type": parts[-2], "name": parts[-1], **more,
           "change": {"actions": actions.split(), "before": before, "after": after, "after_unknown": unknown if unknown is not None else {}}}
    if address.startswith("module."):
        row["module_address"] = address[:address.rindex(f".{parts[-2]}.")]
    key = re.search(r"\[([^]]*)\]$", address)
    return {**row, "index": json.loads(key[1])} if key else row


def refer(*texts):
    """The expression of one reference, with the parts with which it begins, as a plan has them."""
    return {"references": [it for text in texts for it in [text] + ([text.rpartition(".")[0]] if text.count(".") > 1 else [])]}


def module(resources=None, **more):
    """A module's configuration: the expressions of resources by their types and names."""
    rows = []
    for address, expressions in (resources or {}).items():
        kind, name = address.split(".")
        own = {it: expressions[it] for it in ("for_each_expression", "count_expression") if it in expressions}
        rows.append({"address": address, "mode": "managed", "type": kind, "name": name, **own,
                     "expressions": {it: value for it, value in expressions.items() if it not in own}})
    return {"resources": rows, **more}


def plan(changes, resources=None, calls=None, **more):
    root = module(resources, **({"module_calls": calls} if calls else {}))
    return {"format_version": "1.2", "terraform_version": "1.11.4", "planned_values": {}, "resource_changes": changes, "configuration": {"root_module": root}, **more}


def no_op(address, after):
    return change(address, "no-op", after, after)


def block(protocol, first, last, **more):
    """A block of ingress or egress of a security group."""
    return {"cidr_blocks": [], "description": "", "from_port": first, "ipv6_cidr_blocks": [], "prefix_list_ids": [], "protocol": protocol,
            "security_groups": [], "self": False, "to_port": last, **more}


def known(row):
    """What after_unknown has of a block that is known."""
    return {name: [False] * len(value) for name, value in row.items() if isinstance(value, list)}


def acl_block(number, action, protocol, first=0, last=0, **more):
    return {"action": action, "cidr_block": "", "from_port": first, "icmp_code": None, "icmp_type": None, "ipv6_cidr_block": "", "protocol": protocol,
            "rule_no": number, "to_port": last, **more}


def route_block(cidr, **more):
    names = ("carrier_gateway_id core_network_arn destination_prefix_list_id egress_only_gateway_id gateway_id ipv6_cidr_block local_gateway_id "
             "nat_gateway_id network_interface_id transit_gateway_id vpc_endpoint_id vpc_peering_connection_id").split()
    return {**{it: "" for it in names}, "cidr_block": cidr, **more}


def rule(kind, group, protocol, first, last, **more):
    """The values of an aws_security_group_rule."""
    return {"cidr_blocks": None, "description": None, "from_port": first, "ipv6_cidr_blocks": None, "prefix_list_ids": None, "protocol": protocol,
            "security_group_id": group, "self": False, "source_security_group_id": None, "to_port": last, "type": kind, **more}


def vpc_rule(group, protocol, first, last, **more):
    """The values of an aws_vpc_security_group_ingress_rule or .._egress_rule."""
    return {"cidr_ipv4": None, "cidr_ipv6": None, "description": None, "from_port": first, "ip_protocol": protocol, "prefix_list_id": None,
            "referenced_security_group_id": None, "security_group_id": group, "to_port": last, **more}


def acl_rule(acl, number, egress, action, protocol, **more):
    return {"cidr_block": None, "egress": egress, "from_port": None, "icmp_code": None, "icmp_type": None, "ipv6_cidr_block": None,
            "network_acl_id": acl, "protocol": protocol, "rule_action": action, "rule_number": number, "to_port": None, **more}


def route(table, **more):
    names = ("carrier_gateway_id core_network_arn destination_cidr_block destination_ipv6_cidr_block destination_prefix_list_id egress_only_gateway_id "
             "gateway_id local_gateway_id nat_gateway_id network_interface_id transit_gateway_id vpc_endpoint_id vpc_peering_connection_id").split()
    return {**{it: None for it in names}, "route_table_id": table, **more}


def eni(subnet, addresses, groups, **more):
    return {"description": "", "private_ip_list_enabled": False, "private_ips": addresses, "security_groups": groups, "source_dest_check": True,
            "subnet_id": subnet, "tags": None, **more}


# What a new interface's plan doesn't know.
NEW_ENI = {"id": True, "attachment": True, "private_ip": True, "private_ip_list": True, "private_ips_count": True, "ipv6_addresses": True}
NEW_GROUP = {"id": True, "arn": True, "ingress": True, "egress": True, "owner_id": True}


def group(name, vpc="vpc-1", **more):
    return {"description": "Managed by Terraform", "name": name, "revoke_rules_on_delete": False, "tags": None, "vpc_id": vpc, **more}


def web(**more):
    """sg-web as a plan has it."""
    return group("web", id="sg-web", **{"ingress": [block("tcp", 443, 443, cidr_blocks=["0.0.0.0/0"], ipv6_cidr_blocks=["::/0"])],
                                        "egress": [block("-1", 0, 0, cidr_blocks=["0.0.0.0/0"])], **more})


# ---- what becomes of the bundle

def permission(protocol, ports, **targets):
    found = {"IpProtocol": protocol, **({"FromPort": ports[0], "ToPort": ports[1]} if ports else {}), "UserIdGroupPairs": [], "IpRanges": [], "Ipv6Ranges": [],
             "PrefixListIds": []}
    return {**found, **targets}


def listed(name, of, outward, protocol, first, last, **target):
    """A rule that is listed separately."""
    whose = {"GroupOwnerId": "111122223333"} if of in ("sg-web", "sg-db") or of.startswith("aws_") else {}
    return {"SecurityGroupRuleId": name, "GroupId": of, **whose, "IsEgress": outward, "IpProtocol": protocol, "FromPort": first, "ToPort": last, "Tags": [], **target}


def pair(found, **more):
    return {"GroupId": found, **({"UserId": "111122223333"} if found in ("sg-web", "sg-db") or found.startswith("aws_") else {}), **more}


def new_group(name, address, inward=(), outward=(), vpc="vpc-1", **more):
    return {"GroupId": address, "Tags": [], "VpcId": vpc, "OwnerId": "111122223333", "GroupName": name, "Description": "Managed by Terraform",
            "IpPermissions": list(inward), "IpPermissionsEgress": list(outward), **more}


def new_eni(address, subnet, zone, addresses, groups, **more):
    first = {"PrivateIpAddress": addresses[0]} if addresses else {}
    return {"AvailabilityZone": zone, "Description": "", "Groups": groups, "InterfaceType": "interface", "Ipv6Addresses": [], "NetworkInterfaceId": address,
            "OwnerId": "111122223333", **first, "PrivateIpAddresses": [{"Primary": it == addresses[0], "PrivateIpAddress": it} for it in addresses],
            "SourceDestCheck": True, "Status": "available", "SubnetId": subnet, "TagSet": [], "VpcId": "vpc-1", **more}


def new_subnet(address, cidr, zone, vpc="vpc-1", **more):
    return {"AvailabilityZone": zone, "OwnerId": "111122223333", "Tags": [], "SubnetId": address, "State": "available", "VpcId": vpc, "CidrBlock": cidr,
            "DefaultForAz": False, "MapPublicIpOnLaunch": False, "Ipv6CidrBlockAssociationSet": [], **more}


def entry(number, egress, protocol, action, cidr, **more):
    return {"CidrBlock": cidr, "Egress": egress, "Protocol": protocol, "RuleAction": action, "RuleNumber": number, **more}


LAST = [entry(32767, True, "-1", "deny", "0.0.0.0/0"), entry(32767, False, "-1", "deny", "0.0.0.0/0")]
LOCAL = {"DestinationCidrBlock": "10.1.0.0/16", "GatewayId": "local", "Origin": "CreateRouteTable", "State": "active"}


def to(cidr, **target):
    return {"DestinationCidrBlock": cidr, **target, "Origin": "CreateRoute", "State": "active"}


def lines_of(told):
    """What stands on standard error where this is told: a line each, and at last of how many changes."""
    about = {it.split(": ")[0] for it in told}
    return [*(f"not applied: {it}" for it in told), *[f"{len(about)} changes not applied"] * bool(told)]


def row_of(bundle, name, found):
    return next(it for it in bundle[name] if it[KEYS[name]] == found)


def edited(edits, base):
    """A bundle with edits: `+LIST` adds rows, `-LIST` takes those with these ids away, and `LIST ID MEMBER` is what a member becomes."""
    bundle = copy.deepcopy(base)
    for place, value in sorted(edits.items(), key=lambda it: it[0][0] == "+"):
        if place[0] == "+":
            bundle[place[1:]] += value
        elif place[0] == "-":
            bundle[place[1:]] = [it for it in bundle[place[1:]] if it.get(KEYS[place[1:]]) not in value]
        else:
            name, found, inner = place.split(" ")
            row_of(bundle, name, found)[inner] = value
    return bundle


def tied(acl, *subnets):
    """Associations of an ACL, with the ids that BASE has of them."""
    ids = {"subnet-web": "aclassoc-1", "subnet-db": "aclassoc-2"}
    return [{**({"NetworkAclAssociationId": ids[it]} if it in ids else {}), "NetworkAclId": acl, "SubnetId": it} for it in subnets]


def routed(table, name, **what):
    return {"Main": False, "RouteTableAssociationId": name, "RouteTableId": table, **what}


SG_WEB, SG_DB = (row_of(BASE, "SecurityGroups", it) for it in ("sg-web", "sg-db"))
IN_443, OUT_ALL = SG_WEB["IpPermissions"][0], SG_WEB["IpPermissionsEgress"][0]
IN_5432 = SG_DB["IpPermissions"][0]
ENI_WEB = row_of(BASE, "NetworkInterfaces", "eni-web")
TIED = {"AssociationState": {"State": "associated"}}
DOESNT = "plan-bundle doesn't know how; packets may go otherwise than the printed bundle has it"
HIDDEN = "it makes, changes or takes away interfaces that a plan doesn't tell"
UNSURE = "plan-bundle doesn't know whether packets go otherwise by it"
LATER = "isn't known before the apply"

MANY = "1" * 5000
# Types that may touch a network for all that is known, and types that are known to touch none.
STRANGE = ("rds_cluster_instance", "rds_cluster", "ecs_service", "autoscaling_group", "vpclattice_service", "fms_policy", "cloudformation_stack", "route53_resolver_endpoint", "spot_instance_request", "api_gateway_vpc_link",
           "apigatewayv2_vpc_link", "organizations_policy", "ec2_fleet", "globalaccelerator_accelerator", "verifiedaccess_endpoint", "guardduty_detector", "made_up", "s3", "iamx_role", "subnet_group_of_all", "kmsx")
KNOWN = ("s3_bucket", "s3_bucket_policy", "iam_role", "iam_role_policy_attachment", "iam_policy", "kms_key", "kms_alias", "cloudwatch_log_group", "cloudwatch_metric_alarm", "cloudwatch_event_rule", "sns_topic", "sns_topic_subscription", "sqs_queue", "route53_record", "route53_zone",
         "dynamodb_table", "ecr_repository", "ssm_parameter", "key_pair", "secretsmanager_secret", "acm_certificate", "ebs_volume", "volume_attachment", "launch_template", "ecs_cluster", "ecs_task_definition", "lb_target_group_attachment", "lb_listener", "db_parameter_group",
         "elasticache_subnet_group", "wafv2_web_acl", "lambda_permission", "cloudtrail", "flow_log", "vpc_dhcp_options_association", "vpc_peering_connection_options", "eip_domain_name")

# Name; plan; what is told; what becomes of the bundle; packets, each with the program's last line.
ROWS = [
    ("nothing", plan([]), [], {}, [(TO_DB, "arrived eni-db"), (TO_WEB, "arrived eni-web"), (SSH_WEB, "stopped GroupsIn eni-web -"), (OUT_DB, "stopped GroupsOut eni-db -")]),
    ("no-op and read", plan([no_op("aws_security_group.web", web()), change("data.aws_vpc.a", "read", None, {}, {"id": True}, mode="data")]), [], {}, []),
    ("what is forgotten stays", plan([change("aws_security_group.web", "forget", web(), None)]), [], {}, []),
    ("tags alone", plan([change("aws_security_group.web", "update", web(tags={}), web(tags={"a": "b"})), change("aws_nat_gateway.a", "update", {"id": "nat-1", "tags": {}}, {"id": "nat-1", "tags": {"a": "b"}})]), [], {}, []),

    # aws_security_group
    ("a new group without rules has none", plan([change("aws_security_group.new", "create", None, group("new"), NEW_GROUP)]), [], {"+SecurityGroups": [new_group("new", "aws_security_group.new")]}, []),
    ("a new group with rules", plan([change("aws_security_group.new", "create", None, group("new", ingress=[block("6", 80, 90, cidr_blocks=["10.0.0.1/8", "10.2.0.0/16"], description="a"), block("all", 0, 0, self=True)],
                                                                                     egress=[block("icmp", 8, -1, prefix_list_ids=["pl-1"])]), {"id": True, "ingress": [{}, {}], "egress": [{}]})]), [],
     {"+SecurityGroups": [new_group("new", "aws_security_group.new", [permission("tcp", (80, 90), IpRanges=[{"CidrIp": "10.0.0.0/8", "Description": "a"}, {"CidrIp": "10.2.0.0/16", "Description": "a"}]),
                                                                     permission("-1", None, UserIdGroupPairs=[pair("aws_security_group.new")])], [permission("icmp", (8, -1), PrefixListIds=[{"PrefixListId": "pl-1"}])])],
      "+SecurityGroupRules": [listed("aws_security_group.new.ingress", "aws_security_group.new", False, "tcp", 80, 90, CidrIpv4="10.0.0.0/8", Description="a"),
                              listed("aws_security_group.new.ingress.2", "aws_security_group.new", False, "tcp", 80, 90, CidrIpv4="10.2.0.0/16", Description="a"),
                              listed("aws_security_group.new.ingress.3", "aws_security_group.new", False, "-1", -1, -1, ReferencedGroupInfo=pair("aws_security_group.new")),
                              listed("aws_security_group.new.egress", "aws_security_group.new", True, "icmp", 8, -1, PrefixListId="pl-1")]}, []),
    ("a group's blocks change", plan([change("aws_security_group.web", "update", web(), web(ingress=[block("tcp", 443, 443, cidr_blocks=["198.51.100.0/24"], ipv6_cidr_blocks=["::/0"]), block("tcp", 22, 22, cidr_blocks=["0.0.0.0/0"])]))]), [],
     {"SecurityGroups sg-web IpPermissions": [{**IN_443, "IpRanges": [{"CidrIp": "198.51.100.0/24"}]}, permission("tcp", (22, 22), IpRanges=[{"CidrIp": "0.0.0.0/0"}])], "-SecurityGroupRules": ["sgr-1"],
      "+SecurityGroupRules": [listed("sg-web.ingress", "sg-web", False, "tcp", 443, 443, CidrIpv4="198.51.100.0/24"), listed("sg-web.ingress.2", "sg-web", False, "tcp", 22, 22, CidrIpv4="0.0.0.0/0")]},
     [(SSH_WEB, "arrived eni-web"), (TO_WEB, "arrived eni-web"), ("open from internet tcp 198.51.101.7 203.0.113.10 5000 443", "stopped GroupsIn eni-web -")]),
    ("a group without egress blocks any more", plan([change("aws_security_group.web", "update", web(), web(egress=[]))]), [], {"SecurityGroups sg-web IpPermissionsEgress": [], "-SecurityGroupRules": ["sgr-3"]}, [(TO_DB, "stopped GroupsOut eni-web -")]),
    ("a description changes", plan([change("aws_security_group.web", "update", web(), web(egress=[block("-1", 0, 0, cidr_blocks=["0.0.0.0/0"], description="out")]))]), [],
     {"SecurityGroups sg-web IpPermissionsEgress": [{**OUT_ALL, "IpRanges": [{"CidrIp": "0.0.0.0/0", "Description": "out"}]}], "-SecurityGroupRules": ["sgr-3", "sgr-4"],
      "+SecurityGroupRules": [{**row_of(BASE, "SecurityGroupRules", "sgr-3"), "Description": "out"}, row_of(BASE, "SecurityGroupRules", "sgr-4")]}, []),
    ("a group whose rules aren't listed", plan([change("aws_security_group.old", "update", group("old", id="sg-old", ingress=[block("tcp", 22, 22, cidr_blocks=["10.1.1.0/24"], description="hosts")], egress=[]),
                                                      group("old", id="sg-old", ingress=[block("tcp", 22, 22, cidr_blocks=["10.1.1.0/24"], description="hosts"), block("tcp", 22, 22, security_groups=["sg-web"])], egress=[]))]), [],
     {"SecurityGroups sg-old IpPermissions": [{"IpProtocol": "tcp", "FromPort": 22, "ToPort": 22, "IpRanges": [{"CidrIp": "10.1.1.0/24", "Description": "hosts"}], "UserIdGroupPairs": [pair("sg-web")]}]}, []),
    ("a rule that isn't there to take away", plan([change("aws_security_group.web", "update", web(ingress=[block("tcp", 25, 25, cidr_blocks=["0.0.0.0/0"])]), web(ingress=[]))]),
     ["aws_security_group.web: the bundle has no ingress tcp 25-25 of 0.0.0.0/0 to take away"], {}, []),
    ("a new group in a block", plan([change("aws_security_group.new", "create", None, group("new"), NEW_GROUP),
                                     change("aws_security_group.web", "update", web(), web(ingress=[{it: value for it, value in block("tcp", 22, 22).items() if it != "security_groups"}, *web()["ingress"]]),
                                            {"ingress": [{"security_groups": True}, known(web()["ingress"][0])]})], {"aws_security_group.web": {"ingress": refer("aws_security_group.new.id")}}), [],
     {"+SecurityGroups": [new_group("new", "aws_security_group.new")], "SecurityGroups sg-web IpPermissions": [IN_443, permission("tcp", (22, 22), UserIdGroupPairs=[pair("aws_security_group.new")])],
      "+SecurityGroupRules": [listed("sg-web.ingress", "sg-web", False, "tcp", 22, 22, ReferencedGroupInfo=pair("aws_security_group.new"))]}, []),
    ("one of two groups in a block", plan([change("aws_security_group.new", "create", None, group("new"), NEW_GROUP), no_op("aws_security_group.db", {"id": "sg-db"}),
                                           change("aws_security_group.web", "update", web(), web(ingress=[{it: value for it, value in block("tcp", 443, 443, cidr_blocks=["10.0.0.0/8"]).items() if it != "security_groups"}]),
                                                  {"ingress": [{"cidr_blocks": [False], "security_groups": True}]})], {"aws_security_group.web": {"ingress": refer("aws_security_group.new.id", "aws_security_group.db.id")}}),
     [f"aws_security_group.web: ingress tcp 443-443: security_groups {LATER}, and may be of aws_security_group.new, sg-db"],
     {"+SecurityGroups": [new_group("new", "aws_security_group.new")], "SecurityGroups sg-web IpPermissions": [{**IN_443, "IpRanges": [{"CidrIp": "10.0.0.0/8"}], "Ipv6Ranges": []}], "-SecurityGroupRules": ["sgr-1", "sgr-2"],
      "+SecurityGroupRules": [listed("sg-web.ingress", "sg-web", False, "tcp", 443, 443, CidrIpv4="10.0.0.0/8")]}, [(TO_WEB, "stopped GroupsIn eni-web -")]),
    ("a block that isn't known", plan([change("aws_eip.a", "create", None, {}, {"id": True, "public_ip": True}),
                                       change("aws_security_group.web", "update", web(), web(ingress=[block("tcp", 443, 443, cidr_blocks=["10.0.0.0/8", None])]), {"ingress": [{"cidr_blocks": [False, True]}]})],
                                      {"aws_security_group.web": {"ingress": refer("aws_eip.a.public_ip")}}),
     [f"aws_security_group.web: ingress tcp 443-443: cidr_blocks {LATER}", f"aws_eip.a: {DOESNT}"],
     {"SecurityGroups sg-web IpPermissions": [{**IN_443, "IpRanges": [{"CidrIp": "0.0.0.0/0"}], "Ipv6Ranges": []}], "-SecurityGroupRules": ["sgr-2"]}, [(TO_WEB, "arrived eni-web")]),
    ("ports that aren't known: what was stays", plan([change("aws_security_group.web", "update", web(), web(ingress=[{"protocol": "tcp"}]), {"ingress": [{"from_port": True, "to_port": True}]})]),
     ["aws_security_group.web: ingress tcp: its protocol and ports aren't known before the apply"], {}, [(TO_WEB, "arrived eni-web")]),
    ("a list of blocks that isn't known", plan([change("aws_security_group.web", "update", web(), group("web", id="sg-web", egress=web()["egress"]), {"ingress": True})]), [f"aws_security_group.web: ingress {LATER}"], {}, []),
    ("a prefix list that isn't there", plan([change("aws_security_group.web", "update", web(), web(egress=[block("-1", 0, 0, prefix_list_ids=["pl-9"])]))]),
     ["aws_security_group.web: egress -1 0-0: prefix_list_ids names pl-9, which the bundle doesn't have"], {"SecurityGroups sg-web IpPermissionsEgress": [], "-SecurityGroupRules": ["sgr-3"]}, []),
    ("another account's group", plan([change("aws_security_group.web", "update", web(), web(egress=[block("tcp", 1, 2, security_groups=["444455556666/sg-0a1b2c3d"])]))]), [],
     {"SecurityGroups sg-web IpPermissionsEgress": [permission("tcp", (1, 2), UserIdGroupPairs=[{"GroupId": "sg-0a1b2c3d"}])], "-SecurityGroupRules": ["sgr-3"],
      "+SecurityGroupRules": [listed("sg-web.egress", "sg-web", True, "tcp", 1, 2, ReferencedGroupInfo={"GroupId": "sg-0a1b2c3d"})]}, []),
    ("a group goes", plan([change("aws_security_group.old", "delete", group("old", id="sg-old"), None)]), [], {"-SecurityGroups": ["sg-old"]}, []),
    ("a group that is needed stays", plan([change("aws_security_group.web", "delete", web(), None)]), ["aws_security_group.web: eni-web, sg-db would still need it"], {}, [(TO_DB, "arrived eni-db")]),
    ("a group is replaced", plan([change("aws_security_group.db", "delete create", group("db", id="sg-db"), group("database"), NEW_GROUP, action_reason="replace_because_cannot_update"),
                                  change("aws_network_interface.db", "update", eni("subnet-db", ["10.1.2.10"], ["sg-db"], id="eni-db"), {it: value for it, value in eni("subnet-db", ["10.1.2.10"], None, id="eni-db").items() if it != "security_groups"}, {"security_groups": True})],
                                 {"aws_network_interface.db": {"security_groups": refer("aws_security_group.db.id")}}),
     [], {"-SecurityGroups": ["sg-db"], "+SecurityGroups": [new_group("database", "aws_security_group.db")], "-SecurityGroupRules": ["sgr-4"], "NetworkInterfaces eni-db Groups": [{"GroupId": "aws_security_group.db", "GroupName": "database"}]}, [(TO_DB, "stopped GroupsIn eni-db -")]),
    ("a group that a list may or may not keep", plan([change("aws_security_group.new", "create", None, group("new"), NEW_GROUP), change("aws_network_interface.db", "update", eni("subnet-db", ["10.1.2.10"], ["sg-db"], id="eni-db"), {it: value for it, value in eni("subnet-db", ["10.1.2.10"], None, id="eni-db").items() if it != "security_groups"}, {"security_groups": True})],
                                                     {"aws_network_interface.db": {"security_groups": refer("aws_security_group.new.id")}}), [f"aws_network_interface.db: security_groups {LATER}, and may or may not keep sg-db"], {"+SecurityGroups": [new_group("new", "aws_security_group.new")]}, [(TO_DB, "arrived eni-db")]),
    ("a group is replaced, made before", plan([change("aws_security_group.old", "create delete", group("old", id="sg-old"), group("older", ingress=[], egress=[]), {"id": True, "ingress": [], "egress": []})]), [],
     {"-SecurityGroups": ["sg-old"], "+SecurityGroups": [new_group("older", "aws_security_group.old")]}, []),
    ("a deposed group goes", plan([change("aws_security_group.old", "delete", group("old", id="sg-old"), None, deposed="12345678")]), [], {"-SecurityGroups": ["sg-old"]}, []),
    ("a new group in a VPC that the bundle doesn't have", plan([change("aws_security_group.x", "create", None, group("x", "vpc-9", ingress=[block("-1", 0, 0, self=True)]), {"id": True, "egress": True})]), ["aws_security_group.x: the bundle has no vpc-9"], {}, []),
    ("a group that the bundle doesn't have", plan([change("aws_security_group.x", "update", group("x", id="sg-9", ingress=[]), group("x", id="sg-9", ingress=[block("-1", 0, 0, self=True)]))]), ["aws_security_group.x: the bundle has no sg-9"], {}, []),
    ("the default group is managed from now on", plan([change("aws_default_security_group.a", "create", None, {"vpc_id": "vpc-1"}, NEW_GROUP)]), [], {"SecurityGroups sg-default IpPermissions": []}, []),
    ("and no more: it stays", plan([change("aws_default_security_group.a", "delete", {"id": "sg-default", "vpc_id": "vpc-1"}, None)]), [], {}, []),
    ("the default group changes", plan([change("aws_default_security_group.a", "update", {"id": "sg-default", "ingress": [block("-1", 0, 0, self=True)], "egress": []}, {"id": "sg-default", "ingress": [], "egress": [block("-1", 0, 0, cidr_blocks=["10.1.0.0/16"])]})]), [],
     {"SecurityGroups sg-default IpPermissions": [], "SecurityGroups sg-default IpPermissionsEgress": [permission("-1", None, IpRanges=[{"CidrIp": "10.1.0.0/16"}])],
      "+SecurityGroupRules": [listed("sg-default.egress", "sg-default", True, "-1", -1, -1, CidrIpv4="10.1.0.0/16")]}, []),

    # rules of their own
    ("a rule", plan([change("aws_security_group_rule.a", "create", None, rule("ingress", "sg-db", "tcp", 22, 22, source_security_group_id="sg-web"), {"id": True})]), [],
     {"SecurityGroups sg-db IpPermissions": [IN_5432, permission("tcp", (22, 22), UserIdGroupPairs=[pair("sg-web")])], "+SecurityGroupRules": [listed("aws_security_group_rule.a", "sg-db", False, "tcp", 22, 22, ReferencedGroupInfo=pair("sg-web"))]},
     [(SSH_DB, "stopped AclIn acl-db 32767"), (TO_DB, "arrived eni-db")]),
    ("a rule of several blocks", plan([change('aws_security_group_rule.a["x"]', "create", None, rule("egress", "sg-db", "-1", 0, 0, cidr_blocks=["10.0.0.0/8", "192.0.2.0/24"], ipv6_cidr_blocks=["2001:DB8::/56"], self=True, description="d"), {"id": True})]), [],
     {"SecurityGroups sg-db IpPermissionsEgress": [permission("-1", None, IpRanges=[{"CidrIp": "10.0.0.0/8", "Description": "d"}, {"CidrIp": "192.0.2.0/24", "Description": "d"}], Ipv6Ranges=[{"CidrIpv6": "2001:db8::/56", "Description": "d"}], UserIdGroupPairs=[pair("sg-db", Description="d")])],
      "+SecurityGroupRules": [listed('aws_security_group_rule.a["x"]' + end, "sg-db", True, "-1", -1, -1, **target, Description="d") for end, target in (("", {"CidrIpv4": "10.0.0.0/8"}), (".2", {"CidrIpv4": "192.0.2.0/24"}), (".3", {"CidrIpv6": "2001:db8::/56"}), (".4", {"ReferencedGroupInfo": pair("sg-db")}))]}, []),
    ("a rule of a new group", plan([change("aws_security_group.new", "create", None, group("new"), NEW_GROUP), change("aws_security_group_rule.a", "create", None, {it: value for it, value in rule("ingress", None, "tcp", 22, 22).items() if not it.endswith("_id")},
                                                                                                                    {"id": True, "security_group_id": True, "source_security_group_id": True})],
                                   {"aws_security_group_rule.a": {"security_group_id": refer("aws_security_group.new.id"), "source_security_group_id": refer("aws_security_group.new.id")}}), [],
     {"+SecurityGroups": [new_group("new", "aws_security_group.new", [permission("tcp", (22, 22), UserIdGroupPairs=[pair("aws_security_group.new")])])],
      "+SecurityGroupRules": [listed("aws_security_group_rule.a", "aws_security_group.new", False, "tcp", 22, 22, ReferencedGroupInfo=pair("aws_security_group.new"))]}, []),
    ("a rule goes", plan([change("aws_security_group_rule.a", "delete", rule("ingress", "sg-db", "tcp", 5432, 5432, source_security_group_id="sg-web"), None)]), [], {"SecurityGroups sg-db IpPermissions": [], "-SecurityGroupRules": ["sgr-4"]}, [(TO_DB, "stopped GroupsIn eni-db -")]),
    ("one of two targets goes", plan([change("aws_security_group_rule.a", "delete", rule("ingress", "sg-web", "tcp", 443, 443, ipv6_cidr_blocks=["::/0"]), None)]), [], {"SecurityGroups sg-web IpPermissions": [{**IN_443, "Ipv6Ranges": []}], "-SecurityGroupRules": ["sgr-2"]}, [(TO_WEB, "arrived eni-web")]),
    ("a rule is replaced", plan([change("aws_security_group_rule.a", "delete create", rule("ingress", "sg-db", "tcp", 5432, 5432, source_security_group_id="sg-web"), rule("ingress", "sg-db", "tcp", 5432, 5433, source_security_group_id="sg-web"), {"id": True}, replace_paths=[["to_port"]])]), [],
     {"SecurityGroups sg-db IpPermissions": [permission("tcp", (5432, 5433), UserIdGroupPairs=[pair("sg-web")])], "-SecurityGroupRules": ["sgr-4"], "+SecurityGroupRules": [listed("aws_security_group_rule.a", "sg-db", False, "tcp", 5432, 5433, ReferencedGroupInfo=pair("sg-web"))]}, [(TO_DB, "arrived eni-db")]),
    ("a rule's description", plan([change("aws_security_group_rule.a", "update", rule("ingress", "sg-old", "tcp", 22, 22, cidr_blocks=["10.1.1.0/24"], description="hosts"), rule("ingress", "sg-old", "tcp", 22, 22, cidr_blocks=["10.1.1.0/24"]))]), [],
     {"SecurityGroups sg-old IpPermissions": [{"IpProtocol": "tcp", "FromPort": 22, "ToPort": 22, "IpRanges": [{"CidrIp": "10.1.1.0/24"}], "Ipv6Ranges": [], "PrefixListIds": [], "UserIdGroupPairs": []}][:0] + [{"IpProtocol": "tcp", "FromPort": 22, "ToPort": 22, "IpRanges": [{"CidrIp": "10.1.1.0/24"}]}]}, []),
    ("a rule of one of two new groups", plan([change("aws_security_group.a", "create", None, group("a"), NEW_GROUP), change("aws_security_group.b", "create", None, group("b"), NEW_GROUP),
                                              change("aws_security_group_rule.a", "create", None, {it: value for it, value in rule("ingress", "sg-db", "tcp", 22, 22).items() if it != "source_security_group_id"}, {"source_security_group_id": True})],
                                             {"aws_security_group_rule.a": {"source_security_group_id": refer("var.which", "aws_security_group.a.id", "aws_security_group.b.id")}}, variables={"which": {"value": True}}),
     [f"aws_security_group_rule.a: source_security_group_id {LATER}, and may be aws_security_group.a or aws_security_group.b"], {"+SecurityGroups": [new_group("a", "aws_security_group.a"), new_group("b", "aws_security_group.b")]}, []),
    ("a rule by a local value", plan([change("aws_security_group_rule.a", "create", None, {it: value for it, value in rule("ingress", "sg-db", "tcp", 22, 22).items() if it != "source_security_group_id"}, {"source_security_group_id": True})],
                                     {"aws_security_group_rule.a": {"source_security_group_id": refer("local.group")}}), [f"aws_security_group_rule.a: source_security_group_id {LATER}: a plan doesn't tell local.group"], {}, []),
    ("a rule of what is no protocol", plan([change("aws_security_group_rule.a", "create", None, rule("ingress", "sg-db", "tls", 1, 2, self=True))]), ["aws_security_group_rule.a: tls is no protocol"], {}, []),
    ("a rule of what is no block", plan([change("aws_security_group_rule.a", "create", None, rule("ingress", "sg-db", "tcp", 1, 2, cidr_blocks=["10.0.0.0/33"]))]), ["aws_security_group_rule.a: 10.0.0.0/33 is no block"], {}, []),

    ("an ingress rule", plan([change("aws_vpc_security_group_ingress_rule.a", "create", None, vpc_rule("sg-web", "tcp", 22, 22, cidr_ipv4="198.51.100.7/32", description="d"), {"id": True})]), [],
     {"SecurityGroups sg-web IpPermissions": [IN_443, permission("tcp", (22, 22), IpRanges=[{"CidrIp": "198.51.100.7/32", "Description": "d"}])],
      "+SecurityGroupRules": [listed("aws_vpc_security_group_ingress_rule.a", "sg-web", False, "tcp", 22, 22, CidrIpv4="198.51.100.7/32", Description="d")]}, [(SSH_WEB, "arrived eni-web")]),
    ("an egress rule, beside one of its traffic", plan([change("aws_vpc_security_group_egress_rule.a", "create", None, vpc_rule("sg-web", "-1", None, None, prefix_list_id="pl-1"), {"id": True})]), [],
     {"SecurityGroups sg-web IpPermissionsEgress": [{**OUT_ALL, "PrefixListIds": [{"PrefixListId": "pl-1"}]}], "+SecurityGroupRules": [listed("aws_vpc_security_group_egress_rule.a", "sg-web", True, "-1", -1, -1, PrefixListId="pl-1")]}, []),
    ("an ingress rule changes in its place", plan([change("aws_vpc_security_group_ingress_rule.a", "update", vpc_rule("sg-web", "tcp", 443, 443, cidr_ipv4="0.0.0.0/0", id="sgr-1"), vpc_rule("sg-web", "tcp", 443, 443, cidr_ipv4="192.0.2.0/24", id="sgr-1"))]), [],
     {"SecurityGroups sg-web IpPermissions": [{**IN_443, "IpRanges": [{"CidrIp": "192.0.2.0/24"}]}], "-SecurityGroupRules": ["sgr-1", "sgr-2", "sgr-3", "sgr-4"],
      "+SecurityGroupRules": [{**BASE["SecurityGroupRules"][0], "CidrIpv4": "192.0.2.0/24"}, *BASE["SecurityGroupRules"][1:]]}, [(TO_WEB, "stopped GroupsIn eni-web -")]),
    ("another spelling of the same", plan([change("aws_vpc_security_group_ingress_rule.a", "update", vpc_rule("sg-db", "tcp", 5432, 5432, referenced_security_group_id="111122223333/sg-web", id="sgr-4"), vpc_rule("sg-db", "tcp", 5432, 5432, referenced_security_group_id="sg-web", id="sgr-4"))]), [], {}, []),
    ("an ingress rule goes", plan([change("aws_vpc_security_group_ingress_rule.a", "delete", vpc_rule("sg-db", "tcp", 5432, 5432, referenced_security_group_id="sg-web", id="sgr-4"), None)]), [], {"SecurityGroups sg-db IpPermissions": [], "-SecurityGroupRules": ["sgr-4"]}, []),
    ("an egress rule goes that isn't there", plan([change("aws_vpc_security_group_egress_rule.a", "delete", vpc_rule("sg-db", "udp", 53, 53, cidr_ipv6="::/0", id="sgr-9"), None)]), ["aws_vpc_security_group_egress_rule.a: the bundle has no egress udp 53-53 of ::/0 to take away"], {}, []),
    ("a rule of this kind is made another", plan([change("aws_security_group_rule.a", "delete", rule("ingress", "sg-db", "tcp", 5432, 5432, source_security_group_id="sg-web"), None), change("aws_vpc_security_group_ingress_rule.a", "create", None, vpc_rule("sg-db", "tcp", 5432, 5432, referenced_security_group_id="sg-web"), {"id": True})]), [],
     {"SecurityGroups sg-db IpPermissions": [IN_5432], "-SecurityGroupRules": ["sgr-4"], "+SecurityGroupRules": [listed("aws_vpc_security_group_ingress_rule.a", "sg-db", False, "tcp", 5432, 5432, ReferencedGroupInfo=pair("sg-web"))]}, [(TO_DB, "arrived eni-db")]),
    ("rules for each key in a module", plan([change("aws_security_group.new", "create", None, group("new"), NEW_GROUP)]
                                            + [change(f'module.m.aws_vpc_security_group_ingress_rule.a["{it}"]', "create", None, {name: value for name, value in vpc_rule("sg-db", "tcp", int(it), int(it)).items() if not name.startswith("ref")}, {"referenced_security_group_id": True}) for it in ("80", "81")],
                                            {}, {"m": {"expressions": {"from": refer("aws_security_group.new.id")}, "module": module({"aws_vpc_security_group_ingress_rule.a": {"referenced_security_group_id": refer("var.from")}})}}), [],
     {"+SecurityGroups": [new_group("new", "aws_security_group.new")], "SecurityGroups sg-db IpPermissions": [IN_5432, *(permission("tcp", (it, it), UserIdGroupPairs=[pair("aws_security_group.new")]) for it in (80, 81))],
      "+SecurityGroupRules": [listed(f'module.m.aws_vpc_security_group_ingress_rule.a["{it}"]', "sg-db", False, "tcp", it, it, ReferencedGroupInfo=pair("aws_security_group.new")) for it in (80, 81)]}, []),
]

ROWS += [
    # ACLs
    ("an ACL's rows change", plan([change("aws_network_acl.db", "update",
                                          {"id": "acl-db", "vpc_id": "vpc-1", "subnet_ids": ["subnet-db"], "egress": [acl_block(100, "allow", "-1", cidr_block="0.0.0.0/0")], "ingress": [acl_block(100, "allow", "6", 5432, 5432, cidr_block="10.1.1.0/24", icmp_code=0, icmp_type=0)]},
                                          {"id": "acl-db", "vpc_id": "vpc-1", "subnet_ids": ["subnet-db"], "egress": [acl_block(100, "allow", "-1", cidr_block="0.0.0.0/0", icmp_code=0)],
                                           "ingress": [acl_block(100, "allow", "tcp", 5432, 5432, cidr_block="10.1.1.0/24"), acl_block(90, "deny", "tcp", 5432, 5432, cidr_block="10.1.1.10/32"), acl_block(95, "allow", "icmp", cidr_block="10.1.1.0/24", icmp_type=-1, icmp_code=-1), acl_block(96, "allow", "udp", 53, 53, ipv6_cidr_block="::/0")]})]), [],
     {"NetworkAcls acl-db Entries": [*row_of(BASE, "NetworkAcls", "acl-db")["Entries"], entry(90, False, "6", "deny", "10.1.1.10/32", PortRange={"From": 5432, "To": 5432}), entry(95, False, "1", "allow", "10.1.1.0/24", IcmpTypeCode={"Type": -1, "Code": -1}),
                                     {"Ipv6CidrBlock": "::/0", "Egress": False, "Protocol": "17", "RuleAction": "allow", "RuleNumber": 96, "PortRange": {"From": 53, "To": 53}}]}, [(TO_DB, "stopped AclIn acl-db 90")]),
    ("a row that goes, and one that isn't known", plan([change("aws_network_acl.db", "update", {"id": "acl-db", "egress": [acl_block(100, "allow", "-1", cidr_block="0.0.0.0/0")], "ingress": [acl_block(100, "allow", "6", 5432, 5432, cidr_block="10.1.1.0/24")]},
                                                               {"id": "acl-db", "egress": [], "ingress": [{"rule_no": 100, "action": "allow", "protocol": "tcp", "from_port": 1, "to_port": 2}]}, {"ingress": [{"cidr_block": True}]})]),
     ["aws_network_acl.db: ingress 100: it isn't known before the apply"], {"NetworkAcls acl-db Entries": row_of(BASE, "NetworkAcls", "acl-db")["Entries"][1:]}, []),
    ("a new ACL takes a subnet", plan([change("aws_network_acl.new", "create", None, {"vpc_id": "vpc-1", "subnet_ids": ["subnet-db"], "egress": [acl_block(1, "allow", "all", cidr_block="0.0.0.0/0")], "tags": {"a": "b"}}, {"id": True, "ingress": True})]), [],
     {"+NetworkAcls": [{"NetworkAclId": "aws_network_acl.new", "VpcId": "vpc-1", "IsDefault": False, "OwnerId": "111122223333", "Tags": [{"Key": "a", "Value": "b"}], "Associations": tied("aws_network_acl.new", "subnet-db"), "Entries": [*LAST, entry(1, True, "-1", "allow", "0.0.0.0/0")]}],
      "NetworkAcls acl-db Associations": []}, [(TO_DB, "stopped AclIn aws_network_acl.new 32767")]),
    ("an ACL loses its subnet to the default one", plan([change("aws_network_acl.db", "update", {"id": "acl-db", "subnet_ids": ["subnet-db"], "egress": [], "ingress": []}, {"id": "acl-db", "subnet_ids": [], "egress": [], "ingress": []})]), [],
     {"NetworkAcls acl-db Associations": [], "NetworkAcls acl-default Associations": tied("acl-default", "subnet-web", "subnet-db")}, []),
    ("a subnet goes from one ACL to another", plan([change("aws_network_acl.a", "update", {"id": "acl-default", "subnet_ids": ["subnet-web"], "egress": [], "ingress": []}, {"id": "acl-default", "subnet_ids": [], "egress": [], "ingress": []}),
                                                    change("aws_network_acl.b", "create", None, {"vpc_id": "vpc-1", "subnet_ids": ["subnet-db"], "egress": [], "ingress": []}, {"id": True}),
                                                    change("aws_network_acl.c", "update", {"id": "acl-db", "subnet_ids": ["subnet-db"], "egress": [], "ingress": []}, {"id": "acl-db", "subnet_ids": [], "egress": [], "ingress": []})]), [],
     {"NetworkAcls acl-db Associations": [], "+NetworkAcls": [{"NetworkAclId": "aws_network_acl.b", "VpcId": "vpc-1", "IsDefault": False, "OwnerId": "111122223333", "Tags": [], "Associations": tied("aws_network_acl.b", "subnet-db"), "Entries": LAST}]},
     [(TO_DB, "stopped AclIn aws_network_acl.b 32767")]),
    ("an ACL goes", plan([change("aws_network_acl.db", "delete", {"id": "acl-db"}, None)]), [], {"-NetworkAcls": ["acl-db"], "NetworkAcls acl-default Associations": tied("acl-default", "subnet-web", "subnet-db")}, [(TO_DB, "arrived eni-db")]),
    ("the default ACL can't go", plan([change("aws_network_acl.a", "delete", {"id": "acl-default"}, None)]), ["aws_network_acl.a: it is the default one of its VPC"], {}, []),
    ("a row of its own", plan([change("aws_network_acl_rule.a", "create", None, acl_rule("acl-db", 50, False, "deny", "6", cidr_block="10.1.1.0/24", from_port=0, to_port=65535), {"id": True})]), [],
     {"NetworkAcls acl-db Entries": [*row_of(BASE, "NetworkAcls", "acl-db")["Entries"], entry(50, False, "6", "deny", "10.1.1.0/24", PortRange={"From": 0, "To": 65535})]}, [(TO_DB, "stopped AclIn acl-db 50")]),
    ("rows of ICMP", plan([change(f"aws_network_acl_rule.a[{number}]", "create", None, acl_rule("acl-db", number, False, "allow", "icmp", cidr_block="10.1.1.0/24", **more)) for number, more in ((50, {"icmp_type": "8", "icmp_code": "0"}), (51, {}))]),
     ["aws_network_acl_rule.a[51]: icmp_code is null"], {"NetworkAcls acl-db Entries": [*row_of(BASE, "NetworkAcls", "acl-db")["Entries"], entry(50, False, "1", "allow", "10.1.1.0/24", IcmpTypeCode={"Type": 8, "Code": 0})]}, []),
    ("a row whose number is taken", plan([change("aws_network_acl_rule.a", "create", None, acl_rule("acl-db", 100, False, "deny", "-1", cidr_block="10.1.1.0/24"))]), ["aws_network_acl_rule.a: the bundle has a row acl-db in 100 already"], {}, []),
    ("a row goes", plan([change("aws_network_acl_rule.a", "delete", acl_rule("acl-db", 100, True, "allow", "-1", cidr_block="0.0.0.0/0"), None)]), [], {"NetworkAcls acl-db Entries": row_of(BASE, "NetworkAcls", "acl-db")["Entries"][1:]}, []),
    ("a row is replaced", plan([change("aws_network_acl_rule.a", "create delete", acl_rule("acl-db", 100, False, "allow", "6", cidr_block="10.1.1.0/24", from_port=5432, to_port=5432), acl_rule("acl-db", 100, False, "allow", "6", cidr_block="10.1.1.0/24", from_port=22, to_port=22))]), [],
     {"NetworkAcls acl-db Entries": [row_of(BASE, "NetworkAcls", "acl-db")["Entries"][0], entry(100, False, "6", "allow", "10.1.1.0/24", PortRange={"From": 22, "To": 22})]}, [(TO_DB, "stopped AclIn acl-db 32767")]),
    ("the default ACL is managed from now on", plan([change("aws_default_network_acl.a", "create", None, {"default_network_acl_id": "acl-default", "egress": [], "ingress": [acl_block(7, "allow", "tcp", 443, 443, cidr_block="0.0.0.0/0")], "subnet_ids": ["subnet-web", "subnet-db"]}, {"id": True})]), [],
     {"NetworkAcls acl-default Entries": [LAST[0], LAST[1], entry(7, False, "6", "allow", "0.0.0.0/0", PortRange={"From": 443, "To": 443})], "NetworkAcls acl-db Associations": [], "NetworkAcls acl-default Associations": tied("acl-default", "subnet-web", "subnet-db")},
     [(TO_DB, "stopped AclOut acl-default 32767")]),
    ("an ACL's association", plan([change("aws_network_acl_association.a", "create", None, {"network_acl_id": "acl-db", "subnet_id": "subnet-web"}, {"id": True})]), [], {"NetworkAcls acl-default Associations": [], "NetworkAcls acl-db Associations": tied("acl-db", "subnet-db", "subnet-web")}, [(TO_WEB, "stopped AclIn acl-db 32767")]),
    ("an ACL's association goes", plan([change("aws_network_acl_association.a", "delete", {"id": "aclassoc-2", "network_acl_id": "acl-db", "subnet_id": "subnet-db"}, None)]), [], {"NetworkAcls acl-default Associations": tied("acl-default", "subnet-web", "subnet-db"), "NetworkAcls acl-db Associations": []}, []),

    # routes
    ("a route", plan([change("aws_route.a", "create", None, {it: value for it, value in route("rtb-main", destination_cidr_block="0.0.0.0/0", nat_gateway_id="nat-1").items() if it != "network_interface_id"}, {"id": True, "network_interface_id": True})],
                     {"aws_route.a": {"nat_gateway_id": {"constant_value": "nat-1"}}}), [], {"RouteTables rtb-main Routes": [LOCAL, to("0.0.0.0/0", NatGatewayId="nat-1")]}, [("open from eni-db tcp 10.1.2.10 198.51.100.7 5000 443", "stopped GroupsOut eni-db -")]),
    ("a route changes its target", plan([change("aws_route.a", "update", route("rtb-web", destination_cidr_block="0.0.0.0/0", gateway_id="igw-1"), route("rtb-web", destination_cidr_block="0.0.0.0/0", gateway_id="igw-1", network_interface_id="eni-db"))], {"aws_route.a": {"network_interface_id": {"constant_value": "eni-db"}}}), [],
     {"RouteTables rtb-web Routes": [LOCAL, to("0.0.0.0/0", NetworkInterfaceId="eni-db")]}, [("open from eni-web tcp 10.1.1.10 198.51.100.7 5000 443", "stopped AclIn acl-db 32767")]),
    ("a route goes", plan([change("aws_route.a", "delete", route("rtb-web", destination_cidr_block="0.0.0.0/0", gateway_id="igw-1"), None)]), [], {"RouteTables rtb-web Routes": [LOCAL]}, [("open from eni-web tcp 10.1.1.10 198.51.100.7 5000 443", "stopped NoRoute rtb-web -")]),
    ("a route is replaced", plan([change("aws_route.a", "delete create", route("rtb-web", destination_cidr_block="0.0.0.0/0", gateway_id="igw-1"), route("rtb-web", destination_cidr_block="198.51.100.0/24", gateway_id="igw-1"))]), [], {"RouteTables rtb-web Routes": [LOCAL, to("198.51.100.0/24", GatewayId="igw-1")]}, []),
    ("a local route that went elsewhere is local again", plan([change("aws_route.a", "delete", route("rtb-web", destination_cidr_block="10.1.0.0/16", network_interface_id="eni-db"), None)]), [], {}, []),
    ("routes to what has no id yet, or isn't there", plan([change("aws_nat_gateway.a", "create", None, {"subnet_id": "subnet-web"}, {"id": True}), change("aws_route.a", "create", None, {it: value for it, value in route("rtb-main", destination_cidr_block="0.0.0.0/0").items() if it not in ("nat_gateway_id", "network_interface_id")}, {"nat_gateway_id": True, "network_interface_id": True}),
                                                           change("aws_route.b", "create", None, route("rtb-main", destination_cidr_block="10.8.0.0/16", vpc_peering_connection_id="pcx-9")), change("aws_route.c", "create", None, route("rtb-main", destination_prefix_list_id="pl-9", gateway_id="igw-1")),
                                                           change("aws_route.d", "create", None, route("rtb-main", destination_prefix_list_id="pl-1", transit_gateway_id="tgw-1")), change("aws_route.e", "create", None, route("rtb-main", destination_ipv6_cidr_block="::/0", egress_only_gateway_id="eigw-1")),
                                                           change("aws_route.f", "create", None, route("rtb-web", destination_cidr_block="0.0.0.0/0", nat_gateway_id="nat-1")), change("aws_route.g", "create", None, route("rtb-main", destination_cidr_block="10.7.0.0/16", vpc_endpoint_id="vpce-1"))],
                                                          {"aws_route.a": {"nat_gateway_id": refer("aws_nat_gateway.a.id")}}),
     ["aws_route.a: the bundle has no aws_nat_gateway.a", "aws_route.b: the bundle has no pcx-9", "aws_route.c: the bundle has no pl-9", "aws_route.f: rtb-web has a route to 0.0.0.0/0 already", f"aws_nat_gateway.a: {DOESNT}"],
     {"RouteTables rtb-main Routes": [LOCAL, {"DestinationPrefixListId": "pl-1", "TransitGatewayId": "tgw-1", "Origin": "CreateRoute", "State": "active"}, {"DestinationIpv6CidrBlock": "::/0", "EgressOnlyInternetGatewayId": "eigw-1", "Origin": "CreateRoute", "State": "active"}, to("10.7.0.0/16", GatewayId="vpce-1")]}, []),
    ("a table's routes change", plan([change("aws_route_table.web", "update", {"id": "rtb-web", "propagating_vgws": [], "route": [route_block("0.0.0.0/0", gateway_id="igw-1")]}, {"id": "rtb-web", "propagating_vgws": [], "route": [route_block("10.9.0.0/16", network_interface_id="eni-db"), route_block("198.51.100.0/24", gateway_id="igw-1")]})]), [],
     {"RouteTables rtb-web Routes": [LOCAL, to("10.9.0.0/16", NetworkInterfaceId="eni-db"), to("198.51.100.0/24", GatewayId="igw-1")]}, [("open from eni-web tcp 10.1.1.10 192.0.2.7 5000 443", "stopped NoRoute rtb-web -")]),
    ("a new table with a new interface, and a subnet's association", plan([
        change("aws_network_interface.fw", "create", None, eni("subnet-web", ["10.1.1.20"], ["sg-web"], source_dest_check=False), NEW_ENI), change("aws_route_table.new", "create", None, {"vpc_id": "vpc-1", "route": [{it: value for it, value in route_block("0.0.0.0/0").items() if it != "network_interface_id"}]}, {"id": True, "propagating_vgws": True, "route": [{"network_interface_id": True}]}),
        change("aws_route_table_association.db", "create", None, {"subnet_id": "subnet-db", "gateway_id": None}, {"id": True, "route_table_id": True})],
        {"aws_route_table.new": {"route": refer("aws_network_interface.fw.id")}, "aws_route_table_association.db": {"route_table_id": refer("aws_route_table.new.id")}}), [],
     {"+NetworkInterfaces": [new_eni("aws_network_interface.fw", "subnet-web", "us-east-1a", ["10.1.1.20"], [{"GroupId": "sg-web", "GroupName": "web"}], SourceDestCheck=False)],
      "+RouteTables": [{"Associations": [routed("aws_route_table.new", "aws_route_table_association.db", SubnetId="subnet-db", **TIED)], "RouteTableId": "aws_route_table.new", "Routes": [LOCAL, to("0.0.0.0/0", NetworkInterfaceId="aws_network_interface.fw")], "Tags": [], "VpcId": "vpc-1", "OwnerId": "111122223333"}]}, []),
    ("one of two interfaces in a table", plan([*(change(f"aws_network_interface.n[{it}]", "create", None, eni("subnet-web", [f"10.1.1.3{it}"], ["sg-web"]), NEW_ENI) for it in (0, 1)), change("aws_route_table.web", "update", {"id": "rtb-web", "route": [route_block("0.0.0.0/0", gateway_id="igw-1")]},
                                                                                      {"id": "rtb-web", "route": [{it: value for it, value in route_block("0.0.0.0/0").items() if it != "network_interface_id"}]}, {"route": [{"network_interface_id": True}]})], {"aws_route_table.web": {"route": refer("aws_network_interface.n")}}),
     [f"aws_route_table.web: route 0.0.0.0/0: {LATER}, and may be of aws_network_interface.n[0], aws_network_interface.n[1]"], {"+NetworkInterfaces": [new_eni(f"aws_network_interface.n[{it}]", "subnet-web", "us-east-1a", [f"10.1.1.3{it}"], [{"GroupId": "sg-web", "GroupName": "web"}]) for it in (0, 1)]}, []),
    ("a table goes", plan([change("aws_route_table.web", "delete", {"id": "rtb-web"}, None)]), [], {"-RouteTables": ["rtb-web"]}, [("open from eni-web tcp 10.1.1.10 192.0.2.7 5000 443", "stopped NoRoute rtb-main -")]),
    ("the main table can't go", plan([change("aws_route_table.a", "delete", {"id": "rtb-main"}, None)]), ["aws_route_table.a: it is the main one of its VPC"], {}, []),
    ("the default table is managed from now on", plan([change("aws_default_route_table.a", "create", None, {"default_route_table_id": "rtb-main", "route": [route_block("0.0.0.0/0", gateway_id="igw-1")]}, {"id": True})]), [], {"RouteTables rtb-main Routes": [LOCAL, to("0.0.0.0/0", GatewayId="igw-1")]}, []),
    ("an association goes", plan([change("aws_route_table_association.a", "delete", {"id": "rtbassoc-web", "subnet_id": "subnet-web", "gateway_id": "", "route_table_id": "rtb-web"}, None)]), [], {"RouteTables rtb-web Associations": []}, [("open from eni-web tcp 10.1.1.10 192.0.2.7 5000 443", "stopped NoRoute rtb-main -")]),
    ("an association that isn't there goes", plan([change("aws_route_table_association.a", "delete", {"subnet_id": "subnet-web", "route_table_id": "rtb-main"}, None)]), ["aws_route_table_association.a: the bundle has no such association of rtb-main"], {}, []),
    ("an association changes its table", plan([change("aws_route_table_association.a", "update", {"id": "rtbassoc-web", "subnet_id": "subnet-web", "route_table_id": "rtb-web"}, {"id": "rtbassoc-web", "subnet_id": "subnet-web", "route_table_id": "rtb-main"})]), [],
     {"RouteTables rtb-web Associations": [], "RouteTables rtb-main Associations": [*BASE["RouteTables"][0]["Associations"], routed("rtb-main", "rtbassoc-web", SubnetId="subnet-web")]}, []),
    ("a gateway's association", plan([change("aws_route_table_association.a", "create", None, {"gateway_id": "igw-1", "route_table_id": "rtb-main", "subnet_id": None}, {"id": True})]), [], {"RouteTables rtb-main Associations": [*BASE["RouteTables"][0]["Associations"], routed("rtb-main", "aws_route_table_association.a", GatewayId="igw-1", **TIED)]}, []),
    ("another main table", plan([change("aws_main_route_table_association.a", "create", None, {"route_table_id": "rtb-web", "vpc_id": "vpc-1"}, {"id": True, "original_route_table_id": True})]), [],
     {"RouteTables rtb-main Associations": [], "RouteTables rtb-web Associations": [*BASE["RouteTables"][1]["Associations"], {"Main": True, "RouteTableAssociationId": "rtbassoc-main", "RouteTableId": "rtb-web"}]}, []),
    ("the main table is what it was before", plan([change("aws_main_route_table_association.a", "delete", {"route_table_id": "rtb-main", "vpc_id": "vpc-1", "original_route_table_id": "rtb-web"}, None)]), [],
     {"RouteTables rtb-main Associations": [], "RouteTables rtb-web Associations": [*BASE["RouteTables"][1]["Associations"], {"Main": True, "RouteTableAssociationId": "rtbassoc-main", "RouteTableId": "rtb-web"}]}, []),
]

NEW_VPC = {"id": True, "default_security_group_id": True, "default_network_acl_id": True, "default_route_table_id": True, "main_route_table_id": True}
NEW_SUBNET = {"id": True, "availability_zone_id": True}
A_VPC = "aws_vpc.a"


def subnet(cidr, zone="us-east-1a", **more):
    return {"availability_zone": zone, "cidr_block": cidr, "ipv6_cidr_block": None, "map_public_ip_on_launch": False, "tags": None, **more}


def vpc_rows(block_, route_=()):
    """The rows of a new VPC."""
    table, acl, sg = (f"{A_VPC}.default_{it}_id" for it in ("route_table", "network_acl", "security_group"))
    return {
        "+Vpcs": [{"OwnerId": "111122223333", "CidrBlockAssociationSet": [{"CidrBlock": block_, "CidrBlockState": {"State": "associated"}}], "IsDefault": False, "Tags": [], "VpcId": A_VPC, "State": "available", "CidrBlock": block_}],
        "+RouteTables": [{"Associations": [{"Main": True, "RouteTableId": table, **TIED}], "RouteTableId": table, "Routes": [{**LOCAL, "DestinationCidrBlock": block_}, *route_], "Tags": [], "VpcId": A_VPC, "OwnerId": "111122223333"}],
        "+NetworkAcls": [{"Associations": [], "Entries": [entry(100, True, "-1", "allow", "0.0.0.0/0"), entry(100, False, "-1", "allow", "0.0.0.0/0"), *LAST], "IsDefault": True, "NetworkAclId": acl, "Tags": [], "VpcId": A_VPC, "OwnerId": "111122223333"}],
        "+SecurityGroups": [{"OwnerId": "111122223333", "GroupId": sg, "GroupName": "default", "Description": "default VPC security group", "Tags": [], "VpcId": A_VPC, "IpPermissions": [permission("-1", None, UserIdGroupPairs=[pair(sg)])],
                             "IpPermissionsEgress": [permission("-1", None, IpRanges=[{"CidrIp": "0.0.0.0/0"}])]}],
        "+SecurityGroupRules": [listed(f"{sg}.ingress", sg, False, "-1", -1, -1, ReferencedGroupInfo=pair(sg)), listed(f"{sg}.egress", sg, True, "-1", -1, -1, CidrIpv4="0.0.0.0/0")],
    }


def with_subnets(rows, *ids):
    rows["+NetworkAcls"][0]["Associations"] = [{"NetworkAclId": rows["+NetworkAcls"][0]["NetworkAclId"], "SubnetId": it} for it in ids]
    return rows


ROWS += [
    # VPCs and subnets
    ("a new VPC", plan([change(A_VPC, "create", None, {"cidr_block": "10.5.0.0/16"}, NEW_VPC)]), [], vpc_rows("10.5.0.0/16"), []),
    ("a VPC whose block isn't known", plan([change(A_VPC, "create", None, {}, {**NEW_VPC, "cidr_block": True}), change("aws_subnet.a", "create", None, subnet("10.5.0.0/24"), {**NEW_SUBNET, "vpc_id": True})], {"aws_subnet.a": {"vpc_id": refer("aws_vpc.a.id")}}),
     [f"aws_vpc.a: its cidr_block {LATER}", "aws_subnet.a: the bundle has no aws_vpc.a"], {}, []),
    ("a VPC's tags", plan([change(A_VPC, "update", {"id": "vpc-1", "cidr_block": "10.1.0.0/16", "tags": {}}, {"id": "vpc-1", "cidr_block": "10.1.0.0/16", "tags": {"a": "b"}})]), [], {}, []),
    ("a VPC that is needed stays", plan([change(A_VPC, "delete", {"id": "vpc-1"}, None)]), ["aws_vpc.a: subnet-web, subnet-db, sg-web and others would still need it"], {}, []),
    ("a subnet", plan([change("aws_subnet.a", "create", None, subnet("10.1.3.0/24", "us-east-1b", vpc_id="vpc-1", ipv6_cidr_block="2001:db8::/64"), NEW_SUBNET)]), [],
     {"+Subnets": [new_subnet("aws_subnet.a", "10.1.3.0/24", "us-east-1b", AvailabilityZoneId="use1-az1", Ipv6CidrBlockAssociationSet=[{"Ipv6CidrBlock": "2001:db8::/64", "Ipv6CidrBlockState": {"State": "associated"}}])],
      "NetworkAcls acl-default Associations": tied("acl-default", "subnet-web", "aws_subnet.a")}, []),
    ("a subnet somewhere", plan([change("aws_subnet.a", "create", None, {it: value for it, value in subnet("10.1.3.0/24", vpc_id="vpc-1").items() if it != "availability_zone"}, {**NEW_SUBNET, "availability_zone": True})]),
     [f"aws_subnet.a: its availability zone {LATER}; over a transit gateway no packet comes to it"], {"+Subnets": [new_subnet("aws_subnet.a", "10.1.3.0/24", "aws_subnet.a.availability_zone")], "NetworkAcls acl-default Associations": tied("acl-default", "subnet-web", "aws_subnet.a")}, []),
    ("a subnet that is needed stays", plan([change("aws_subnet.web", "delete", {"id": "subnet-web"}, None)]), ["aws_subnet.web: eni-web, eni-nat, nat-1 would still need it"], {}, []),
    ("a subnet goes with its interface", plan([change("aws_subnet.db", "delete", {"id": "subnet-db"}, None), change("aws_network_interface.db", "delete", {"id": "eni-db"}, None)]), [], {"-Subnets": ["subnet-db"], "-NetworkInterfaces": ["eni-db"], "NetworkAcls acl-db Associations": []}, []),
    ("subnets by their numbers, in a new VPC, and interfaces in them", plan(
        [change(A_VPC, "create", None, {"cidr_block": "10.5.0.0/16"}, NEW_VPC)] + [change(f"aws_subnet.a[{it}]", "create", None, subnet(f"10.5.{it}.0/24"), {**NEW_SUBNET, "vpc_id": True}) for it in (0, 1)]
        + [change(f"aws_network_interface.a[{it}]", "create", None, {"private_ips": [f"10.5.{it}.10"], "source_dest_check": True}, {**NEW_ENI, "subnet_id": True, "security_groups": True}) for it in (0, 1)]
        + [change("aws_default_route_table.a", "create", None, {"route": []}, {"id": True, "default_route_table_id": True})],
        {"aws_subnet.a": {"vpc_id": refer("aws_vpc.a.id"), "count_expression": {"constant_value": 2}}, "aws_network_interface.a": {"subnet_id": {"references": ["aws_subnet.a", "count.index"]}, "count_expression": {"constant_value": 2}},
         "aws_default_route_table.a": {"default_route_table_id": refer("aws_vpc.a.default_route_table_id")}}), [],
     {**with_subnets(vpc_rows("10.5.0.0/16"), "aws_subnet.a[0]", "aws_subnet.a[1]"), "+Subnets": [new_subnet(f"aws_subnet.a[{it}]", f"10.5.{it}.0/24", "us-east-1a", A_VPC, AvailabilityZoneId="use1-az6") for it in (0, 1)],
      "+NetworkInterfaces": [new_eni(f"aws_network_interface.a[{it}]", f"aws_subnet.a[{it}]", "us-east-1a", [f"10.5.{it}.10"], [{"GroupId": "aws_vpc.a.default_security_group_id", "GroupName": "default"}], VpcId=A_VPC) for it in (0, 1)]}, []),
    ("one of several by a number that isn't told", plan([*(change(f"aws_subnet.a[{it}]", "create", None, subnet(f"10.1.{it}.0/24", vpc_id="vpc-1"), NEW_SUBNET) for it in (3, 4)), change("aws_route_table_association.a[0]", "create", None, {"route_table_id": "rtb-web"}, {"subnet_id": True})],
                                                        {"aws_route_table_association.a": {"subnet_id": {"references": ["aws_subnet.a", "count.index"]}}}),
     [f"aws_route_table_association.a[0]: subnet_id {LATER}: which of several it refers to isn't told"],
     {"+Subnets": [new_subnet(f"aws_subnet.a[{it}]", f"10.1.{it}.0/24", "us-east-1a", AvailabilityZoneId="use1-az6") for it in (3, 4)], "NetworkAcls acl-default Associations": tied("acl-default", "subnet-web", "aws_subnet.a[3]", "aws_subnet.a[4]")}, []),
    ("the first of more than are counted", plan([*(change(f"aws_subnet.a[{it}]", "create", None, subnet(f"10.1.{it + 3}.0/24", vpc_id="vpc-1"), NEW_SUBNET) for it in (0, 1)), change("aws_route_table_association.a[0]", "create", None, {"route_table_id": "rtb-web"}, {"subnet_id": True})],
                                                {"aws_route_table_association.a": {"subnet_id": {"references": ["aws_subnet.a", "count.index"]}}}),
     [f"aws_route_table_association.a[0]: subnet_id {LATER}: which of several it refers to isn't told"],
     {"+Subnets": [new_subnet(f"aws_subnet.a[{it}]", f"10.1.{it + 3}.0/24", "us-east-1a", AvailabilityZoneId="use1-az6") for it in (0, 1)], "NetworkAcls acl-default Associations": tied("acl-default", "subnet-web", "aws_subnet.a[0]", "aws_subnet.a[1]")}, []),
    ("each of some subnets, and all of them in an ACL", plan(
        [change(f'aws_subnet.a["{it}"]', "create", None, subnet(f"10.1.{number}.0/24", vpc_id="vpc-1"), NEW_SUBNET) for number, it in ((3, "x"), (4, "y"))]
        + [change(f'aws_route_table_association.a["{it}"]', "create", None, {"route_table_id": "rtb-web"}, {"id": True, "subnet_id": True}) for it in "xy"]
        + [change("aws_network_acl.a", "create", None, {"vpc_id": "vpc-1"}, {"id": True, "ingress": True, "egress": True, "subnet_ids": True})],
        {"aws_route_table_association.a": {"subnet_id": {"references": ["each.value.id", "each.value"]}, "for_each_expression": {"references": ["aws_subnet.a"]}}, "aws_network_acl.a": {"subnet_ids": {"references": ["aws_subnet.a"]}}}), [],
     {"+Subnets": [new_subnet(f'aws_subnet.a["{it}"]', f"10.1.{number}.0/24", "us-east-1a", AvailabilityZoneId="use1-az6") for number, it in ((3, "x"), (4, "y"))],
      "+NetworkAcls": [{"NetworkAclId": "aws_network_acl.a", "VpcId": "vpc-1", "IsDefault": False, "OwnerId": "111122223333", "Tags": [], "Entries": LAST, "Associations": [{"NetworkAclId": "aws_network_acl.a", "SubnetId": f'aws_subnet.a["{it}"]'} for it in "xy"]}],
      "RouteTables rtb-web Associations": [*BASE["RouteTables"][1]["Associations"], *(routed("rtb-web", f'aws_route_table_association.a["{it}"]', SubnetId=f'aws_subnet.a["{it}"]', **TIED) for it in "xy")]}, []),

    # interfaces
    ("an interface's groups and check", plan([change("aws_network_interface.web", "update", eni("subnet-web", ["10.1.1.10", "10.1.1.11"], ["sg-web"], id="eni-web"), eni("subnet-web", ["10.1.1.10", "10.1.1.11"], ["sg-db", "sg-old"], id="eni-web", source_dest_check=False))]), [],
     {"NetworkInterfaces eni-web Groups": [{"GroupId": "sg-db", "GroupName": "db"}, {"GroupId": "sg-old", "GroupName": "old"}], "NetworkInterfaces eni-web SourceDestCheck": False}, [(TO_WEB, "stopped GroupsIn eni-web -")]),
    ("an interface's new group", plan([change("aws_security_group.new", "create", None, group("new"), NEW_GROUP), no_op("aws_security_group.web", web()), change("aws_network_interface.web", "update", eni("subnet-web", [], ["sg-web"], id="eni-web"), {it: value for it, value in eni("subnet-web", [], [], id="eni-web").items() if it != "security_groups"}, {"security_groups": True})],
                                      {"aws_network_interface.web": {"security_groups": refer("aws_security_group.new.id", "aws_security_group.web.id")}}), [], {"+SecurityGroups": [new_group("new", "aws_security_group.new")], "NetworkInterfaces eni-web Groups": [{"GroupId": "sg-web", "GroupName": "web"}, {"GroupId": "aws_security_group.new", "GroupName": "new"}]}, [(TO_WEB, "arrived eni-web")]),
    ("an interface's addresses", plan([change("aws_network_interface.web", "update", eni("subnet-web", ["10.1.1.10", "10.1.1.11"], ["sg-web"], id="eni-web"), eni("subnet-web", ["10.1.1.10", "10.1.1.12"], ["sg-web"], id="eni-web"), {"private_ip_list": True})]), [],
     {"NetworkInterfaces eni-web PrivateIpAddresses": [ENI_WEB["PrivateIpAddresses"][0], {"Primary": False, "PrivateIpAddress": "10.1.1.12"}]}, [("open from eni-web tcp 10.1.1.12 10.1.2.10 5000 5432", "arrived eni-db"), ("open from eni-web tcp 10.1.1.11 10.1.2.10 5000 5432", "stopped SourceCheck eni-web -")]),
    ("an address that isn't known", plan([change("aws_network_interface.web", "update", eni("subnet-web", ["10.1.1.10"], ["sg-web"], id="eni-web", private_ips_count=0), eni("subnet-web", None, ["sg-web"], id="eni-web", private_ips_count=1), {"private_ips": True, "private_ip_list": True})]),
     ["aws_network_interface.web: its private addresses aren't known before the apply", f"aws_network_interface.web: private_ips_count {LATER}, or can't be changed here"], {}, []),
    ("a new interface by its list of addresses, attached", plan([change("aws_network_interface.a", "create", None, eni("subnet-db", None, ["sg-db"], private_ip_list_enabled=True, private_ip_list=["10.1.2.21", "10.1.2.20"], attachment=[{"instance": "i-1", "device_index": 1}]), {"id": True, "private_ips": True, "attachment": [{"attachment_id": True}]})]), [],
     {"+NetworkInterfaces": [new_eni("aws_network_interface.a", "subnet-db", "us-east-1b", ["10.1.2.21", "10.1.2.20"], [{"GroupId": "sg-db", "GroupName": "db"}], Status="in-use", Attachment={"DeviceIndex": 1, "InstanceId": "i-1", "Status": "attached"})]},
     [("open from eni-web tcp 10.1.1.10 10.1.2.20 5000 5432", "arrived aws_network_interface.a")]),
    ("new interfaces whose addresses aren't known, or are taken", plan([change("aws_network_interface.a", "create", None, {"source_dest_check": True, "subnet_id": "subnet-db", "security_groups": ["sg-db"]}, {**NEW_ENI, "private_ips": True}), change("aws_network_interface.b", "create", None, eni("subnet-db", ["10.1.2.30", "10.1.2.31"], ["sg-db"]), NEW_ENI),
                                                                        change("aws_network_interface.c", "create", None, eni("subnet-db", ["10.1.2.10"], ["sg-db"]), NEW_ENI), change("aws_network_interface.d", "create", None, eni("subnet-db", ["10.1.2.40"], ["sg-9"]), NEW_ENI)]),
     ["aws_network_interface.a: not all of its private addresses are known before the apply", f"aws_network_interface.b: which of 10.1.2.30, 10.1.2.31 is its primary address {LATER}: 10.1.2.30 is taken for it", "aws_network_interface.c: 10.1.2.10 is an address of eni-db", "aws_network_interface.d: the bundle has no sg-9"],
     {"+NetworkInterfaces": [new_eni("aws_network_interface.a", "subnet-db", "us-east-1b", [], [{"GroupId": "sg-db", "GroupName": "db"}]), new_eni("aws_network_interface.b", "subnet-db", "us-east-1b", ["10.1.2.30", "10.1.2.31"], [{"GroupId": "sg-db", "GroupName": "db"}])]}, []),
    ("an interface is replaced, and a route to it leads nowhere", plan([change("aws_network_interface.db", "delete create", eni("subnet-db", ["10.1.2.10"], ["sg-db"], id="eni-db"), eni("subnet-db", ["10.1.2.10"], ["sg-db"]), NEW_ENI), change("aws_route.a", "create", None, route("rtb-web", destination_cidr_block="10.8.0.0/16", network_interface_id="eni-db"))]), [],
     {"-NetworkInterfaces": ["eni-db"], "+NetworkInterfaces": [new_eni("aws_network_interface.db", "subnet-db", "us-east-1b", ["10.1.2.10"], [{"GroupId": "sg-db", "GroupName": "db"}])], "RouteTables rtb-web Routes": [*BASE["RouteTables"][1]["Routes"], {**to("10.8.0.0/16", NetworkInterfaceId="eni-db"), "State": "blackhole"}]},
     [("open from eni-web tcp 10.1.1.10 10.8.0.1 5000 5432", "stopped Blackhole rtb-web 10.8.0.0/16")]),
    ("a group is attached, and another taken off", plan([change("aws_network_interface_sg_attachment.a", "create", None, {"network_interface_id": "eni-db", "security_group_id": "sg-old"}, {"id": True}), change("aws_network_interface_sg_attachment.b", "delete", {"network_interface_id": "eni-db", "security_group_id": "sg-db"}, None),
                                                         change("aws_network_interface_sg_attachment.c", "delete", {"network_interface_id": "eni-db", "security_group_id": "sg-web"}, None)]), ["aws_network_interface_sg_attachment.c: eni-db of the bundle doesn't have sg-web"], {"NetworkInterfaces eni-db Groups": [{"GroupId": "sg-old", "GroupName": "old"}]}, [(TO_DB, "stopped GroupsIn eni-db -")]),
    ("interfaces are attached to instances", plan([change("aws_network_interface_attachment.a", "create", None, {"device_index": 1, "network_interface_id": "eni-db", "instance_id": "i-1"}, {"id": True}), change("aws_network_interface_attachment.b", "delete", {"network_interface_id": "eni-web", "instance_id": "i-2"}, None)]), [],
     {"NetworkInterfaces eni-db Attachment": {"DeviceIndex": 1, "InstanceId": "i-1", "Status": "attached"}, "NetworkInterfaces eni-web Status": "available"}, [(TO_DB, "stopped Detached eni-web -")]),

    # what isn't applied, and what says nothing of packets
    ("other resources of the network", plan([change(f"{it}.a", "create", None, {}, {"id": True}) for it in ("aws_internet_gateway", "aws_nat_gateway", "aws_vpc_peering_connection", "aws_ec2_transit_gateway", "aws_ec2_transit_gateway_route", "aws_vpc_endpoint_service", "aws_vpc_ipv4_cidr_block_association", "aws_ec2_managed_prefix_list", "aws_eip", "aws_default_vpc", "awscc_ec2_subnet")]
                                            + [change("aws_internet_gateway.b", "delete", {"id": "igw-1"}, None), change("aws_nat_gateway.b", "update", {"id": "nat-1", "subnet_id": "a"}, {"id": "nat-1", "subnet_id": "b"})]),
     [f"{it}: {DOESNT}" for it in ("aws_internet_gateway.a", "aws_nat_gateway.a", "aws_vpc_peering_connection.a", "aws_ec2_transit_gateway.a", "aws_ec2_transit_gateway_route.a", "aws_vpc_endpoint_service.a", "aws_vpc_ipv4_cidr_block_association.a", "aws_ec2_managed_prefix_list.a", "aws_eip.a", "aws_default_vpc.a", "awscc_ec2_subnet.a", "aws_internet_gateway.b", "aws_nat_gateway.b")], {}, []),
    ("public access that is blocked", plan([change("aws_vpc_block_public_access_options.a", "create", None, {"internet_gateway_block_mode": "block-bidirectional", "timeouts": None}, {"id": True, "aws_account_id": True, "aws_region": True}),
                                            change("aws_vpc_block_public_access_exclusion.a", "update", {"id": "vpcbpa-exclude-1", "vpc_id": "vpc-1", "internet_gateway_exclusion_mode": "allow-egress"}, {"id": "vpcbpa-exclude-1", "vpc_id": "vpc-1", "internet_gateway_exclusion_mode": "allow-bidirectional"}),
                                            change("aws_vpc_block_public_access_exclusion.b", "delete", {"id": "vpcbpa-exclude-2", "subnet_id": "subnet-web", "internet_gateway_exclusion_mode": "allow-egress"}, None),
                                            change("aws_vpc_block_public_access_exclusion.c", "update", {"id": "vpcbpa-exclude-3", "tags": {}}, {"id": "vpcbpa-exclude-3", "tags": {"Name": "x"}})]),
     [f"aws_vpc_block_public_access_{it}: {DOESNT}" for it in ("options.a", "exclusion.a", "exclusion.b")], {}, []),
    ("resources with interfaces of their own", plan([change("aws_lb.a", "create", None, {"subnets": ["subnet-web"]}, {"id": True}), change("aws_lambda_function.a", "delete", {"vpc_config": [{"subnet_ids": ["subnet-web"]}]}, None), change("aws_db_instance.a", "update", {"vpc_security_group_ids": ["sg-db"], "size": 1}, {"vpc_security_group_ids": ["sg-db"], "size": 2}),
                                                     change("aws_eks_cluster.a", "create", None, {"vpc_config": [{}]}, {"vpc_config": [{"subnet_ids": True}]})]),
     [f"{it}: {HIDDEN}" for it in ("aws_lb.a", "aws_lambda_function.a", "aws_eks_cluster.a")], {}, []),
    ("what says nothing of packets", plan([change("aws_s3_bucket.a", "create", None, {"bucket": "b"}, {"id": True}), change("aws_db_subnet_group.a", "create", None, {"subnet_ids": ["subnet-db"]}, {"id": True}), change("aws_lb_target_group.a", "delete", {"vpc_id": "vpc-1"}, None), change("aws_vpc_dhcp_options.a", "create", None, {}, {"id": True}),
                                           change("aws_flow_log.a", "create", None, {"subnet_id": "subnet-db"}, {}), change("random_id.a", "create", None, {"subnet_id": "x"}, {}), change("google_compute_network.a", "create", None, {}, {})]), [], {}, []),
    ("what decides where packets go, beside what only looks like it", plan([change(f"aws_{it}.a", "create", None, {}, {"id": True}) for it in ("networkfirewall_firewall_policy", "networkfirewall_rule_group", "ec2_transit_gateway_policy_table", "vpc_endpoint_service", "vpc_endpoint_connection_accepter", "dx_gateway", "vpc_endpoint_policy", "dx_lag", "network_interface_permission")]),
     [f"aws_{it}.a: {DOESNT}" for it in ("networkfirewall_firewall_policy", "networkfirewall_rule_group", "ec2_transit_gateway_policy_table", "vpc_endpoint_service", "vpc_endpoint_connection_accepter", "dx_gateway")], {}, []),
    ("what isn't known to touch no network", plan([change(f"aws_{it}.a", "create", None, {"name": "a"}, {"id": True}) for it in STRANGE] + [change("aws_made_up.b", "delete", {"id": "x"}, None), change("aws_made_up.c", "update", {"id": "x", "size": 1}, {"id": "x", "size": 2}),
                                                   change("aws_made_up.d", "update", {"id": "x"}, {"id": "x"}, {"size": True}), change("aws_made_up.e", "update", {"id": "x", "tags": {}}, {"id": "x", "tags": {"a": "b"}}), no_op("aws_made_up.f", {"id": "x"}), change("aws_route53_resolver_endpoint.a", "create", None, {"ip_address": [{"subnet_id": "subnet-db"}]}, {})]),
     [*(f"aws_{it}.a: {UNSURE}" for it in STRANGE), *(f"aws_made_up.{it}: {UNSURE}" for it in "bcd"), f"aws_route53_resolver_endpoint.a: {HIDDEN}"], {}, []),
    ("what is known to touch none", plan([change(f"aws_{it}.a", actions, before, after) for it in KNOWN for actions, before, after in (("create", None, {"id": "x", "subnet_ids": ["subnet-db"]}), ("delete", {"id": "x"}, None), ("update", {"id": "x"}, {"id": "x", "size": 2}))]), [], {}, []),
    ("functions outside of VPCs", plan([change("aws_lambda_function.a", "create", None, {"vpc_config": []}, {"id": True}), change("aws_lambda_function.b", "update", {"vpc_config": [{"subnet_ids": ["subnet-db"]}]}, {"vpc_config": [{"subnet_ids": ["subnet-db"]}], "timeout": 3}), change("aws_lambda_function.c", "delete", {}, None)]), [], {}, []),
    ("a database that is made public", plan([change("aws_db_instance.a", "update", {"publicly_accessible": False}, {"publicly_accessible": True})]), [f"aws_db_instance.a: {HIDDEN}"], {}, []),
    ("what Terraform puts off", plan([], deferred_changes=[{"reason": "resource_config_unknown", "resource_change": change("aws_route.a", "create", None, {})}]), ["aws_route.a: Terraform puts it off"], {}, []),
    ("an address that is no id", plan([change('aws_security_group.a["b c\u00e9"]', "create", None, group("new"), NEW_GROUP)]), [], {"+SecurityGroups": [new_group("new", 'aws_security_group.a["b_c_"]~a39c7f05c4be')]}, []),
]

ROWS += [
    # texts and numbers to deceive, or to end a script by
    ("lines in a reference", plan([change("aws_security_group_rule.a", "create", None, {it: value for it, value in rule("ingress", "sg-db", "tcp", 22, 22).items() if it != "source_security_group_id"}, {"source_security_group_id": True})],
                                  {"aws_security_group_rule.a": {"source_security_group_id": {"references": ["local.x\nnot applied: all\r\x1b[2J\x9b1m\u202e"]}}}),
     [f"aws_security_group_rule.a: source_security_group_id {LATER}: a plan doesn't tell local.x\\nnot applied: all\\r\\u001b[2J\\u009b1m\\u202e"], {}, []),
    ("lines in an address", plan([change("aws_eip.a\nnot applied: x\x1b[2J", "create", None, {}, {}, type="aws_eip", name="a")]), [f'"aws_eip.a\\nnot applied: x\\u001b[2J": {DOESNT}'], {}, []),
    ("lines in a block", plan([change("aws_security_group.web", "update", web(), web(egress=[block("tcp", 1, 2, cidr_blocks=["::1\n\x1b[2J"])]))]), ['aws_security_group.web: egress tcp 1-2: cidr_blocks "::1\\n\\u001b[2J" is no block'],
     {"SecurityGroups sg-web IpPermissionsEgress": [], "-SecurityGroupRules": ["sgr-3"]}, []),
    ("ports of 5,000 digits", plan([change("aws_security_group_rule.a", "create", None, rule("ingress", "sg-db", "tcp", MANY, 22, self=True)), change("aws_security_group_rule.b", "create", None, rule("ingress", "sg-db", MANY, 1, 2, self=True)),
                                    change("aws_network_acl_rule.a", "create", None, acl_rule("acl-db", 50, False, "deny", "icmp", cidr_block="10.1.1.0/24", icmp_type=MANY, icmp_code="0")), change("aws_network_acl_rule.b", "create", None, acl_rule("acl-db", 50, False, "deny", "\u0661", cidr_block="10.1.1.0/24")),
                                    change("aws_security_group.web", "update", web(), web(egress=[block("tcp", 1, 2, cidr_blocks=[f"10.0.0.0/{MANY}"])]))]),
     [f'aws_security_group.web: egress tcp 1-2: cidr_blocks 10.0.0.0/{MANY} is no block', f"aws_security_group_rule.a: from_port is {MANY}", f"aws_security_group_rule.b: {MANY} is no protocol", f"aws_network_acl_rule.a: icmp_type is {MANY}", 'aws_network_acl_rule.b: "\\u0661" is no protocol'],
     {"SecurityGroups sg-web IpPermissionsEgress": [], "-SecurityGroupRules": ["sgr-3"]}, []),
]

# BASE with instances: i-web by the attachments of its interfaces, the second of which outlives it, and i-db by what is told of it alone.
HOSTS = copy.deepcopy(BASE)
HOSTS["NetworkInterfaces"].append({"NetworkInterfaceId": "eni-two", "SubnetId": "subnet-db", "VpcId": "vpc-1", "PrivateIpAddress": "10.1.2.20", "Status": "in-use", "SourceDestCheck": True, "Groups": [{"GroupId": "sg-db", "GroupName": "db"}],
                                   "PrivateIpAddresses": [{"Primary": True, "PrivateIpAddress": "10.1.2.20"}], "Attachment": {"DeviceIndex": 1, "InstanceId": "i-web", "DeleteOnTermination": False}})
HOSTS["NetworkInterfaces"][0]["Attachment"] = {"DeviceIndex": 0, "InstanceId": "i-web", "DeleteOnTermination": True}
HOSTS["RouteTables"][0]["Routes"].append({"DestinationCidrBlock": "10.8.0.0/16", "NetworkInterfaceId": "eni-web", "Origin": "CreateRoute", "State": "active"})
HOSTS["Reservations"] = [{"Instances": [{"InstanceId": "i-web", "NetworkInterfaces": [{"NetworkInterfaceId": "eni-web"}, {"NetworkInterfaceId": "eni-two"}]}]}, {"Instances": [{"InstanceId": "i-db", "NetworkInterfaces": [{"NetworkInterfaceId": "eni-db"}]}]}]
KEYS["Reservations"] = "of no id"
# What a new instance's plan doesn't know.
NEW_HOST = {"id": True, "private_ip": True, "public_ip": True, "primary_network_interface_id": True, "network_interface": True, "secondary_private_ips": True, "security_groups": True, "vpc_security_group_ids": True, "associate_public_ip_address": True, "source_dest_check": False}
SSH = [block("tcp", 22, 22, cidr_blocks=["0.0.0.0/0"])]


def host(name, groups, **more):
    """The values of an aws_instance."""
    return {"id": name, "instance_type": "t3.micro", "vpc_security_group_ids": groups, "source_dest_check": True, "secondary_private_ips": [], "tags": {}, **more}


def new_host(subnet_, **more):
    return {"instance_type": "t3.micro", "subnet_id": subnet_, "source_dest_check": True, **more}


def unknown(*known_):
    return {it: value for it, value in NEW_HOST.items() if it not in known_}


def host_rows(address, subnet_, zone, addresses, groups, public=None, **more):
    """The rows that come with a new instance."""
    eni_ = f"{address}.primary_network_interface_id"
    row = new_eni(eni_, subnet_, zone, addresses, groups, Status="in-use", Attachment={"DeviceIndex": 0, "InstanceId": address, "Status": "attached"}, **more)
    if public:
        row["Association"] = row["PrivateIpAddresses"][0]["Association"] = {"PublicIp": public}
    return [row], [{"Instances": [{"InstanceId": address, "State": {"Name": "running"}, "Tags": [], "NetworkInterfaces": [{"NetworkInterfaceId": eni_}]}]}]


def of_hosts(*rows):
    return {"+NetworkInterfaces": [it for row in rows for it in row[0]], "+Reservations": [it for row in rows for it in row[1]]}


DB, WEB, OLD = ({"GroupId": f"sg-{it}", "GroupName": it} for it in ("db", "web", "old"))
A_HOST = "aws_instance.a"

HOST_ROWS = [
    ("an instance's groups, of the interface that the plan names", plan([change(A_HOST, "update", host("i-9", ["sg-web"], primary_network_interface_id="eni-db"), host("i-9", ["sg-old"], primary_network_interface_id="eni-db"))]), [], {"NetworkInterfaces eni-db Groups": [OLD]}, [(TO_DB, "stopped GroupsIn eni-db -")]),
    ("of that at device 0", plan([change(A_HOST, "update", host("i-web", ["sg-web"], security_groups=["web"]), host("i-web", ["sg-old", "sg-web"], security_groups=["old", "web"]))]), [], {"NetworkInterfaces eni-web Groups": [WEB, OLD]}, []),
    ("of the only one that is told of it", plan([change(A_HOST, "update", host("i-db", ["sg-db"]), host("i-db", ["sg-old"]))]), [], {"NetworkInterfaces eni-db Groups": [OLD]}, [(TO_DB, "stopped GroupsIn eni-db -")]),
    ("a web server gains the new group for SSH", plan([change("aws_security_group.ssh", "create", None, group("ssh", ingress=SSH, egress=[]), {"id": True}), no_op("aws_security_group.web", web()),
                                                      change(A_HOST, "update", host("i-web", ["sg-web"], primary_network_interface_id="eni-web"), {it: value for it, value in host("i-web", [], primary_network_interface_id="eni-web").items() if it != "vpc_security_group_ids"}, {"vpc_security_group_ids": True})],
                                                     {A_HOST: {"vpc_security_group_ids": refer("aws_security_group.web.id", "aws_security_group.ssh.id")}}), [],
     {"+SecurityGroups": [new_group("ssh", "aws_security_group.ssh", [permission("tcp", (22, 22), IpRanges=[{"CidrIp": "0.0.0.0/0"}])])], "+SecurityGroupRules": [listed("aws_security_group.ssh.ingress", "aws_security_group.ssh", False, "tcp", 22, 22, CidrIpv4="0.0.0.0/0")],
      "NetworkInterfaces eni-web Groups": [WEB, {"GroupId": "aws_security_group.ssh", "GroupName": "ssh"}]}, [(SSH_WEB, "arrived eni-web"), (TO_WEB, "arrived eni-web")]),
    ("an instance that the bundle doesn't have", plan([change(A_HOST, "update", host("i-9", ["sg-web"]), host("i-9", ["sg-old"]))]), [f"{A_HOST}: the bundle doesn't tell the interface of i-9 at device 0"], {}, []),
    ("a group that the bundle doesn't have", plan([change(A_HOST, "update", host("i-web", ["sg-web"]), host("i-web", ["sg-9"]))]), [f"{A_HOST}: the bundle has no sg-9"], {}, []),
    ("what of an instance says nothing of packets", plan([change(A_HOST, "update", host("i-9", ["sg-web"], user_data="a"), host("i-9", ["sg-web"], user_data="b", tags={"a": "b"}), {"password_data": True})]), [], {}, []),
    ("its check and its other addresses", plan([change(A_HOST, "update", host("i-web", ["sg-web"], secondary_private_ips=["10.1.1.11"]), host("i-web", ["sg-web"], secondary_private_ips=["10.1.1.12"], source_dest_check=False))]), [],
     {"NetworkInterfaces eni-web SourceDestCheck": False, "NetworkInterfaces eni-web PrivateIpAddresses": [ENI_WEB["PrivateIpAddresses"][0], {"Primary": False, "PrivateIpAddress": "10.1.1.12"}]}, []),
    ("what can't be changed, or isn't known", plan([change(A_HOST, "update", host("i-web", ["sg-web"], subnet_id="subnet-web", public_ip="203.0.113.10"), host("i-web", ["sg-old"], subnet_id="subnet-db"), {"public_ip": True, "secondary_private_ips": True}), change("aws_instance.b", "update", host("i-db", ["sg-db"], security_groups=["db"]), host("i-db", ["sg-db"], security_groups=["old"]))]),
     [f"{A_HOST}: its private addresses aren't known before the apply", f"{A_HOST}: subnet_id {LATER}, or can't be changed here", f"{A_HOST}: public_ip {LATER}: 203.0.113.10 is kept", f"aws_instance.b: security_groups {LATER}, or can't be changed here"], {"NetworkInterfaces eni-web Groups": [OLD]}, []),

    ("an instance goes, and one of its interfaces stays", plan([change(A_HOST, "delete", host("i-web", ["sg-web"], primary_network_interface_id="eni-web"), None)]), [],
     {"-NetworkInterfaces": ["eni-web", "eni-two"], "+NetworkInterfaces": [{**{it: value for it, value in HOSTS["NetworkInterfaces"][3].items() if it != "Attachment"}, "Status": "available"}], "RouteTables rtb-main Routes": [LOCAL, {**to("10.8.0.0/16", NetworkInterfaceId="eni-web"), "State": "blackhole"}],
      "-Reservations": [None], "+Reservations": [{"Instances": []}, HOSTS["Reservations"][1]]}, [("open from eni-db tcp 10.1.2.10 10.1.1.10 5000 443", "stopped GroupsOut eni-db -")]),
    ("an instance goes after its interface", plan([change("aws_network_interface.db", "delete", {"id": "eni-db"}, None), change(A_HOST, "delete", host("i-db", ["sg-db"], primary_network_interface_id="eni-db"), None)]), [],
     {"-NetworkInterfaces": ["eni-db"], "-Reservations": [None], "+Reservations": [HOSTS["Reservations"][0], {"Instances": []}]}, []),
    ("with its subnet and group", plan([change("aws_subnet.db", "delete", {"id": "subnet-db"}, None), change("aws_network_interface.two", "delete", {"id": "eni-two"}, None), change("aws_security_group.db", "delete", group("db", id="sg-db"), None), change(A_HOST, "delete", host("i-db", ["sg-db"]), None)]), [],
     {"-Subnets": ["subnet-db"], "-NetworkInterfaces": ["eni-two", "eni-db"], "-SecurityGroups": ["sg-db"], "-SecurityGroupRules": ["sgr-4"], "NetworkAcls acl-db Associations": [], "-Reservations": [None], "+Reservations": [HOSTS["Reservations"][0], {"Instances": []}]}, []),
    ("an instance goes that isn't there", plan([change(A_HOST, "delete", host("i-9", []), None)]), [f"{A_HOST}: the bundle has no interface of i-9"], {}, []),

    ("a new instance", plan([change(A_HOST, "create", None, new_host("subnet-db", private_ip="10.1.2.30", vpc_security_group_ids=["sg-db"], associate_public_ip_address=False, secondary_private_ips=["10.1.2.31"]), unknown("private_ip", "vpc_security_group_ids", "secondary_private_ips", "associate_public_ip_address"))]), [],
     of_hosts(host_rows(A_HOST, "subnet-db", "us-east-1b", ["10.1.2.30", "10.1.2.31"], [DB])), [("open from eni-web tcp 10.1.1.10 10.1.2.30 5000 5432", f"arrived {A_HOST}.primary_network_interface_id"), ("open from eni-web tcp 10.1.1.10 10.1.2.31 5000 5432", f"arrived {A_HOST}.primary_network_interface_id")]),
    ("new instances at free addresses, with the default group", plan([*(change(f"{A_HOST}[{it}]", "create", None, new_host("subnet-web"), unknown()) for it in (0, 1)), change("aws_instance.b", "create", None, new_host("subnet-web", private_ip="10.1.1.6"), unknown("private_ip"))]),
     [f"{A_HOST}[0]: private_ip {LATER}: 10.1.1.4 is taken for it", f"{A_HOST}[1]: private_ip {LATER}: 10.1.1.7 is taken for it"], of_hosts(*(host_rows(it, "subnet-web", "us-east-1a", [at], [{"GroupId": "sg-default", "GroupName": "default"}]) for it, at in ((f"{A_HOST}[0]", "10.1.1.4"), (f"{A_HOST}[1]", "10.1.1.7"), ("aws_instance.b", "10.1.1.6")))), []),
    ("a new instance with a public address", plan([change("aws_security_group.ssh", "create", None, group("ssh", ingress=SSH, egress=[]), {"id": True}), change(A_HOST, "create", None, new_host("subnet-web", associate_public_ip_address=True), unknown("associate_public_ip_address"))], {A_HOST: {"vpc_security_group_ids": refer("aws_security_group.ssh.id")}}),
     [f"{A_HOST}: private_ip {LATER}: 10.1.1.4 is taken for it", f"{A_HOST}: public_ip {LATER}: 192.0.2.1 stands for it"],
     {"+SecurityGroups": [new_group("ssh", "aws_security_group.ssh", [permission("tcp", (22, 22), IpRanges=[{"CidrIp": "0.0.0.0/0"}])])], "+SecurityGroupRules": [listed("aws_security_group.ssh.ingress", "aws_security_group.ssh", False, "tcp", 22, 22, CidrIpv4="0.0.0.0/0")],
      **of_hosts(host_rows(A_HOST, "subnet-web", "us-east-1a", ["10.1.1.4"], [{"GroupId": "aws_security_group.ssh", "GroupName": "ssh"}], "192.0.2.1"))}, [("open from internet tcp 198.51.100.7 192.0.2.1 5000 22", f"arrived {A_HOST}.primary_network_interface_id")]),
    ("one whose public address the plan tells", plan([change(A_HOST, "create", None, new_host("subnet-web", private_ip="10.1.1.30", public_ip="203.0.113.30", vpc_security_group_ids=["sg-web"]), unknown("private_ip", "public_ip", "vpc_security_group_ids"))]), [], of_hosts(host_rows(A_HOST, "subnet-web", "us-east-1a", ["10.1.1.30"], [WEB], "203.0.113.30")), [("open from internet tcp 198.51.100.7 203.0.113.30 5000 443", f"arrived {A_HOST}.primary_network_interface_id")]),
    ("in a new subnet that gives public addresses", plan([change("aws_subnet.a", "create", None, {**subnet("10.1.3.0/28", vpc_id="vpc-1"), "map_public_ip_on_launch": True}, NEW_SUBNET), change(A_HOST, "create", None, {it: value for it, value in new_host(None).items() if it != "subnet_id"}, {**unknown(), "subnet_id": True})], {A_HOST: {"subnet_id": refer("aws_subnet.a.id")}}),
     [f"{A_HOST}: private_ip {LATER}: 10.1.3.4 is taken for it", f"{A_HOST}: public_ip {LATER}: 192.0.2.1 stands for it"],
     {"+Subnets": [new_subnet("aws_subnet.a", "10.1.3.0/28", "us-east-1a", AvailabilityZoneId="use1-az6", MapPublicIpOnLaunch=True)], "NetworkAcls acl-default Associations": tied("acl-default", "subnet-web", "aws_subnet.a"), **of_hosts(host_rows(A_HOST, "aws_subnet.a", "us-east-1a", ["10.1.3.4"], [{"GroupId": "sg-default", "GroupName": "default"}], "192.0.2.1"))}, []),
    ("in a default VPC, by the names of groups", plan([change(A_HOST, "create", None, new_host("subnet-web", private_ip="10.1.1.30", security_groups=["old", "web"]), unknown("private_ip", "security_groups"))], {A_HOST: {"security_groups": {"constant_value": ["old", "web"]}}}), [], of_hosts(host_rows(A_HOST, "subnet-web", "us-east-1a", ["10.1.1.30"], [OLD, WEB])), []),
    ("with an interface of its own change", plan([change("aws_network_interface.a", "create", None, eni("subnet-db", ["10.1.2.40"], ["sg-db"]), NEW_ENI), change(A_HOST, "create", None, {"network_interface": [{"device_index": 0}]}, {"id": True, "network_interface": [{"network_interface_id": True}]})], {A_HOST: {"network_interface": [{"device_index": {"constant_value": 0}, "network_interface_id": refer("aws_network_interface.a.id")}]}}), [],
     {"+NetworkInterfaces": [new_eni("aws_network_interface.a", "subnet-db", "us-east-1b", ["10.1.2.40"], [DB], Status="in-use", Attachment={"DeviceIndex": 0, "InstanceId": A_HOST, "Status": "attached"})]}, [("open from eni-web tcp 10.1.1.10 10.1.2.40 5000 5432", "arrived aws_network_interface.a")]),
    ("with an interface that is there", plan([change(A_HOST, "create", None, {"network_interface": [{"device_index": 1, "network_interface_id": "eni-two"}]}, {"id": True, "network_interface": [{}]})]), [],
     {"NetworkInterfaces eni-two Attachment": {"DeviceIndex": 1, "InstanceId": A_HOST, "Status": "attached"}, "-Reservations": [None], "+Reservations": [{"Instances": [{"InstanceId": "i-web", "NetworkInterfaces": [{"NetworkInterfaceId": "eni-web"}]}]}, HOSTS["Reservations"][1]]}, []),
    ("an instance is replaced at its address", plan([change(A_HOST, "delete create", host("i-db", ["sg-db"], primary_network_interface_id="eni-db"), new_host("subnet-db", private_ip="10.1.2.10", vpc_security_group_ids=["sg-db"]), unknown("private_ip", "vpc_security_group_ids"))]), [],
     {"-NetworkInterfaces": ["eni-db"], "+NetworkInterfaces": host_rows(A_HOST, "subnet-db", "us-east-1b", ["10.1.2.10"], [DB])[0], "-Reservations": [None], "+Reservations": [HOSTS["Reservations"][0], {"Instances": []}, *host_rows(A_HOST, "subnet-db", "us-east-1b", ["10.1.2.10"], [DB])[1]]}, [(TO_DB, f"arrived {A_HOST}.primary_network_interface_id")]),
    ("instances that aren't made", plan([change(A_HOST, "create", None, new_host("subnet-db", private_ip="10.1.2.10"), unknown("private_ip")), change("aws_instance.b", "create", None, {}, {**unknown(), "subnet_id": True}), change("aws_instance.g", "create", None, {}, {**unknown(), "subnet_id": True}), change("aws_instance.c", "create", None, new_host("subnet-9"), unknown()), change("aws_subnet.a", "create", None, subnet("10.1.3.0/30", vpc_id="vpc-1"), NEW_SUBNET),
                                         change("aws_instance.d", "create", None, {}, {**unknown(), "subnet_id": True}), change("aws_instance.e", "create", None, new_host("subnet-db", private_ip="10.1.2.50"), unknown("private_ip")), change("aws_instance.f", "create", None, new_host("subnet-db", private_ip="10.1.2.51", security_groups=["none"]), unknown("private_ip", "security_groups"))],
                                        {"aws_instance.g": {}, "aws_instance.d": {"subnet_id": refer("aws_subnet.a.id")}, "aws_instance.e": {"vpc_security_group_ids": refer("local.groups")}}),
     [f"{A_HOST}: 10.1.2.10 is an address of eni-db", f"aws_instance.b: subnet_id {LATER}", "aws_instance.g: it names no SubnetId", "aws_instance.c: the bundle has no subnet-9", "aws_instance.d: aws_subnet.a has no free address", f"aws_instance.e: vpc_security_group_ids {LATER}: a plan doesn't tell local.groups", "aws_instance.f: the bundle doesn't tell the group none of vpc-1"],
     {"+Subnets": [new_subnet("aws_subnet.a", "10.1.3.0/30", "us-east-1a", AvailabilityZoneId="use1-az6")], "NetworkAcls acl-default Associations": tied("acl-default", "subnet-web", "aws_subnet.a")}, []),
    ("new instances by a launch template", plan([change(A_HOST, "create", None, new_host("subnet-db", private_ip="10.1.2.60", launch_template=[{"name": "x"}]), unknown("private_ip")), change("aws_instance.b", "create", None, new_host("subnet-db", private_ip="10.1.2.61", vpc_security_group_ids=["sg-db"], launch_template=[{"name": "x"}]), unknown("private_ip", "vpc_security_group_ids")),
                                                   change("aws_instance.c", "create", None, new_host("subnet-db", private_ip="10.1.2.62"), {**unknown("private_ip"), "launch_template": True})], {"aws_instance.c": {"launch_template": [{"id": refer("aws_launch_template.a.id")}]}}),
     [f"{A_HOST}: its groups may be those of its launch template", "aws_instance.b: what its launch template says of its interface isn't known", "aws_instance.c: its groups may be those of its launch template"], of_hosts(host_rows("aws_instance.b", "subnet-db", "us-east-1b", ["10.1.2.61"], [DB])), []),
    ("a route to a new instance", plan([change(A_HOST, "create", None, new_host("subnet-web", private_ip="10.1.1.30", source_dest_check=False), unknown("private_ip")), change("aws_route.a", "create", None, {it: value for it, value in route("rtb-main", destination_cidr_block="10.7.0.0/16").items() if it != "network_interface_id"}, {"network_interface_id": True})], {"aws_route.a": {"network_interface_id": refer("aws_instance.a.primary_network_interface_id")}}), [],
     {**of_hosts(host_rows(A_HOST, "subnet-web", "us-east-1a", ["10.1.1.30"], [{"GroupId": "sg-default", "GroupName": "default"}], SourceDestCheck=False)), "RouteTables rtb-main Routes": [*HOSTS["RouteTables"][0]["Routes"], to("10.7.0.0/16", NetworkInterfaceId=f"{A_HOST}.primary_network_interface_id")]}, []),
]

# BASE with delegated prefixes of two interfaces.
NODES = copy.deepcopy(BASE)


def prefixed(*prefixes):
    return [{"Ipv4Prefix": it} for it in prefixes]


for name_, prefixes_ in (("eni-web", ["10.1.1.16/28"]), ("eni-db", ["10.1.2.0/29", "10.1.2.64/28"])):
    row_of(NODES, "NetworkInterfaces", name_)["Ipv4Prefixes"] = prefixed(*prefixes_)


def with_prefixes(*prefixes, name="web", **more):
    """eni-web, or another interface, as a plan has it."""
    return eni(f"subnet-{name}", None, [f"sg-{name}"], id=f"eni-{name}", **({"ipv4_prefixes": list(prefixes)} if None not in prefixes else {}), **more)


NODE, NODE_ENI = "aws_network_interface.web", {**NEW_ENI, "ipv4_prefixes": True, "ipv4_prefix_count": True}
ATTACHED = {"attachment": [{"instance": "i-1", "device_index": 1}]}
# As ROWS, over NODES.
NODE_ROWS = [
    ("an interface's new prefix", plan([change(NODE, "update", with_prefixes("10.1.1.16/28", ipv4_prefix_count=1), with_prefixes("10.1.1.16/28", "10.1.1.33/28", ipv4_prefix_count=1))]), [],
     {"NetworkInterfaces eni-web Ipv4Prefixes": prefixed("10.1.1.16/28", "10.1.1.32/28")}, [("open from eni-web tcp 10.1.1.47 10.1.2.10 5000 5432", "arrived eni-db"), ("open from eni-web tcp 10.1.1.48 10.1.2.10 5000 5432", "stopped SourceCheck eni-web -")]),
    ("one in the place of another, beside one that Terraform doesn't have", plan([change(NODE, "update", with_prefixes("10.1.2.0/29", name="db"), with_prefixes("10.1.2.80/28", name="db"))]), [],
     {"NetworkInterfaces eni-db Ipv4Prefixes": prefixed("10.1.2.64/28", "10.1.2.80/28")}, [("open from eni-web tcp 10.1.1.31 10.1.2.95 5000 5432", "arrived eni-db"), ("open from eni-web tcp 10.1.1.31 10.1.2.7 5000 5432", "stopped NoHost vpc-1 -")]),
    ("its prefixes go, whose count isn't known", plan([change(NODE, "update", with_prefixes("10.1.1.16/28", ipv4_prefix_count=1), with_prefixes(), {"ipv4_prefix_count": True})]), [],
     {"NetworkInterfaces eni-web Ipv4Prefixes": []}, [("open from eni-web tcp 10.1.1.16 10.1.2.10 5000 5432", "stopped SourceCheck eni-web -")]),
    ("more of them, which aren't known", plan([change(NODE, "update", with_prefixes("10.1.1.16/28", ipv4_prefix_count=1), with_prefixes("10.1.1.16/28", ipv4_prefix_count=2)), change("aws_network_interface.db", "update", with_prefixes("10.1.2.64/28", name="db"), with_prefixes(None, name="db"), {"ipv4_prefixes": True})]),
     [f"{NODE}: ipv4_prefix_count {LATER}, or can't be changed here", f"aws_network_interface.db: ipv4_prefixes {LATER}, or can't be changed here"], {}, []),
    ("prefixes that others have, or that are none", plan([*(change(f"{NODE}[{number}]", "update", with_prefixes("10.1.1.16/28"), with_prefixes("10.1.1.16/28", it)) for number, it in enumerate(("10.1.2.64/27", "10.1.2.8/29", "10.1.3.0", "x", "2001:db8::/80"))),
                                                          change("aws_network_interface.db", "update", with_prefixes("10.1.2.64/28", name="db"), with_prefixes("10.1.2.0/24", name="db", source_dest_check=False))]),
     [f"{NODE}[0]: 10.1.2.64/27 meets 10.1.2.64/28, a prefix of eni-db", f"{NODE}[1]: 10.1.2.8/29 meets 10.1.2.10, an address of eni-db", f"{NODE}[3]: x is no block", f"{NODE}[4]: 2001:db8::/80 is no block of IPv4"],
     {"NetworkInterfaces eni-web Ipv4Prefixes": prefixed("10.1.1.16/28", "10.1.3.0/32"), "NetworkInterfaces eni-db Ipv4Prefixes": prefixed("10.1.2.0/29", "10.1.2.0/24"), "NetworkInterfaces eni-db SourceDestCheck": False}, []),
    ("new interfaces with prefixes", plan([change("aws_network_interface.a", "create", None, eni("subnet-db", ["10.1.2.20"], ["sg-db"], ipv4_prefixes=["10.1.2.32/28", "10.1.2.48/28"], **ATTACHED), NEW_ENI), change("aws_network_interface.b", "create", None, eni("subnet-db", ["10.1.2.21"], ["sg-db"]), NODE_ENI)],
                                          {"aws_network_interface.b": {"private_ips": {"constant_value": ["10.1.2.21"]}}}), [],
     {"+NetworkInterfaces": [new_eni("aws_network_interface.a", "subnet-db", "us-east-1b", ["10.1.2.20"], [DB], Ipv4Prefixes=prefixed("10.1.2.32/28", "10.1.2.48/28"), Status="in-use", Attachment={"DeviceIndex": 1, "InstanceId": "i-1", "Status": "attached"}), new_eni("aws_network_interface.b", "subnet-db", "us-east-1b", ["10.1.2.21"], [DB])]},
     [("open from eni-web tcp 10.1.1.10 10.1.2.63 5000 5432", "arrived aws_network_interface.a")]),
    ("new ones whose prefixes aren't known", plan([change(f"aws_network_interface.{it}", "create", None, eni("subnet-db", [f"10.1.2.{number}"], ["sg-db"], **more), unknown_)
                                                   for number, it, more, unknown_ in ((20, "a", {"ipv4_prefix_count": 2}, {**NEW_ENI, "ipv4_prefixes": True}), (21, "b", {}, NODE_ENI), (22, "c", {}, NODE_ENI), (23, "d", {}, NODE_ENI))],
                                                  {"aws_network_interface.a": {"ipv4_prefix_count": {"constant_value": 2}}, "aws_network_interface.b": {"ipv4_prefixes": refer("var.prefixes")}, "aws_network_interface.d": {"ipv4_prefix_count": refer("var.many")}}),
     [f"aws_network_interface.{it}: ipv4_prefixes {LATER}" for it in "abcd"], {"+NetworkInterfaces": [new_eni(f"aws_network_interface.{it}", "subnet-db", "us-east-1b", [f"10.1.2.{number}"], [DB]) for number, it in ((20, "a"), (21, "b"), (22, "c"), (23, "d"))]}, []),
    ("new ones whose addresses or prefixes others have", plan([change("aws_network_interface.a", "create", None, eni("subnet-db", ["10.1.2.70"], ["sg-db"]), NEW_ENI), change("aws_network_interface.b", "create", None, eni("subnet-db", ["10.1.2.20"], ["sg-db"], ipv4_prefixes=["10.1.2.0/27"]), NEW_ENI),
                                                               change("aws_network_interface.c", "create", None, eni("subnet-db", ["10.1.2.33"], ["sg-db"], ipv4_prefixes=["10.1.2.32/28"]), NEW_ENI), change("aws_network_interface.d", "create", None, eni("subnet-db", ["10.1.2.40"], ["sg-db"]), NEW_ENI)]),
     ["aws_network_interface.a: 10.1.2.70 lies in 10.1.2.64/28, a prefix of eni-db", "aws_network_interface.b: 10.1.2.0/27 meets 10.1.2.10, an address of eni-db", "aws_network_interface.d: 10.1.2.40 lies in 10.1.2.32/28, a prefix of aws_network_interface.c"],
     {"+NetworkInterfaces": [new_eni("aws_network_interface.c", "subnet-db", "us-east-1b", ["10.1.2.33"], [DB], Ipv4Prefixes=prefixed("10.1.2.32/28"))]}, []),
    ("an interface is replaced at its prefix", plan([change("aws_network_interface.db", "delete create", with_prefixes("10.1.2.64/28", name="db"), eni("subnet-db", ["10.1.2.10"], ["sg-db"], ipv4_prefixes=["10.1.2.64/28"], **ATTACHED), NEW_ENI)]), [],
     {"-NetworkInterfaces": ["eni-db"], "+NetworkInterfaces": [new_eni("aws_network_interface.db", "subnet-db", "us-east-1b", ["10.1.2.10"], [DB], Ipv4Prefixes=prefixed("10.1.2.64/28"), Status="in-use", Attachment={"DeviceIndex": 1, "InstanceId": "i-1", "Status": "attached"})]},
     [("open from eni-web tcp 10.1.1.10 10.1.2.64 5000 5432", "arrived aws_network_interface.db")]),
    ("a new instance at an address that no prefix holds", plan([change(A_HOST, "create", None, new_host("subnet-db", vpc_security_group_ids=["sg-db"]), unknown("vpc_security_group_ids")), change("aws_network_interface.web", "update", with_prefixes("10.1.1.16/28"), with_prefixes("10.1.1.16/28", "10.1.2.11/32"))]),
     [f"{A_HOST}: private_ip {LATER}: 10.1.2.8 is taken for it"], {"+NetworkInterfaces": host_rows(A_HOST, "subnet-db", "us-east-1b", ["10.1.2.8"], [DB])[0], "NetworkInterfaces eni-web Ipv4Prefixes": prefixed("10.1.1.16/28", "10.1.2.11/32")}, []),
    ("nor one that a change gives", plan([change(A_HOST, "create", None, new_host("subnet-db", vpc_security_group_ids=["sg-db"]), unknown("vpc_security_group_ids")), change("aws_network_interface.web", "update", with_prefixes("10.1.1.16/28"), with_prefixes("10.1.1.16/28", "10.1.2.8/31"))]),
     [f"{A_HOST}: private_ip {LATER}: 10.1.2.11 is taken for it"], {"+NetworkInterfaces": host_rows(A_HOST, "subnet-db", "us-east-1b", ["10.1.2.11"], [DB])[0], "NetworkInterfaces eni-web Ipv4Prefixes": prefixed("10.1.1.16/28", "10.1.2.8/31")}, []),
    ("an instance whose addresses a prefix holds", plan([change(A_HOST, "create", None, new_host("subnet-db", private_ip="10.1.2.65"), unknown("private_ip"))]), [f"{A_HOST}: 10.1.2.65 lies in 10.1.2.64/28, a prefix of eni-db"], {}, []),
]

# Of each of Terraform's plans what is told, of which groups the rules are otherwise than moto has them, and how much is alike at least.
TERRAFORM = {
    "first": ([f"aws_security_group.web: ingress tcp {it}-{it}: security_groups {LATER}, and may be of aws_security_group.bastion, sg-cbae759a6429ecf8a" for it in (80, 22)], ["sg-fe6343d9545d01576"], 65),
    "second": ([], ["sg-f201565ddeeb561bd"], 100),
    "third": ([], ["sg-1e2c4e5b97c83731c", "sg-ad18d136e34868728"], 42),
}

# BASE with vpc-2, behind a transit gateway over which no rule names groups: eni-far lets in what sg-web sends to port 443. sg-far belongs to vpc-1 as well.
FAR = copy.deepcopy(BASE)
ON, OFF = ({"SecurityGroupReferencingSupport": it} for it in ("enable", "disable"))
ATT = {"TransitGatewayId": "tgw-1", "State": "available", "Options": {"DnsSupport": "enable", **ON}}
FAR["Vpcs"].append({"VpcId": "vpc-2", "CidrBlock": "10.2.0.0/16", "OwnerId": "111122223333"})
FAR["Subnets"].append({"SubnetId": "subnet-far", "VpcId": "vpc-2", "CidrBlock": "10.2.1.0/24", "AvailabilityZone": "us-east-1a", "OwnerId": "111122223333"})
FAR["NetworkInterfaces"].append({"NetworkInterfaceId": "eni-far", "SubnetId": "subnet-far", "PrivateIpAddress": "10.2.1.10", "Groups": [{"GroupId": "sg-far"}]})
FAR["RouteTables"].append({"RouteTableId": "rtb-far", "VpcId": "vpc-2", "Associations": [{"Main": True}], "Routes": [{"DestinationCidrBlock": "10.2.0.0/16", "GatewayId": "local"}, to("10.1.0.0/16", TransitGatewayId="tgw-1")]})
FAR["RouteTables"][1]["Routes"].append(to("10.2.0.0/16", TransitGatewayId="tgw-1"))
FAR["NetworkAcls"].append({"NetworkAclId": "acl-far", "VpcId": "vpc-2", "IsDefault": True, "Associations": [{"SubnetId": "subnet-far"}], "Entries": [entry(100, it, "-1", "allow", "0.0.0.0/0") for it in (True, False)]})
FAR["SecurityGroups"].append({"GroupId": "sg-far", "GroupName": "far", "VpcId": "vpc-2", "IpPermissions": [permission("tcp", (443, 443), UserIdGroupPairs=[{"GroupId": "sg-web"}])], "IpPermissionsEgress": []})
FAR["TransitGateways"] = [{"TransitGatewayId": "tgw-1", "State": "available", "Options": {"DnsSupport": "enable", **OFF}}]
FAR["TransitGatewayVpcAttachments"] = [{"TransitGatewayAttachmentId": f"att-{it}", "VpcId": f"vpc-{it}", "SubnetIds": [subnet_], **copy.deepcopy(ATT)} for it, subnet_ in ((1, "subnet-web"), (2, "subnet-far"))]
FAR["TransitGatewayAttachments"] = [{"TransitGatewayAttachmentId": f"att-{it}", "Association": {"TransitGatewayRouteTableId": "tgw-rtb"}} for it in (1, 2)]
FAR["TransitGatewayRoutes"] = [{"TransitGatewayRouteTableId": "tgw-rtb", "Routes": [{"DestinationCidrBlock": f"10.{it}.0.0/16", "Type": "propagated", "State": "active", "TransitGatewayAttachments": [{"TransitGatewayAttachmentId": f"att-{it}"}]} for it in (1, 2)]}]
FAR["SecurityGroupVpcAssociations"] = [{"GroupId": "sg-far", "VpcId": "vpc-1", "State": "associated"}]
KEYS.update(TransitGateways="TransitGatewayId", TransitGatewayVpcAttachments="TransitGatewayAttachmentId", SecurityGroupVpcAssociations="GroupId")
TO_FAR, NAMED_FAR = "open from eni-web tcp 10.1.1.10 10.2.1.10 5000 443", "security_group_referencing_support"
TGW, TGW_ATT, SG_VPC = "aws_ec2_transit_gateway.a", "aws_ec2_transit_gateway_vpc_attachment.a", "aws_vpc_security_group_vpc_association.a"


def option(own, word, **more):
    return {"id": own, NAMED_FAR: word, **more}


def in_vpc(group_, vpc, **more):
    return {"security_group_id": group_, "vpc_id": vpc, **more}


def associated(group_, vpc):
    return {"GroupId": group_, "VpcId": vpc, "VpcOwnerId": "111122223333", "State": "associated"}


TURNED_ON = change(TGW, "update", option("tgw-1", "disable"), option("tgw-1", "enable"))
GATEWAY_ON = {"TransitGateways tgw-1 Options": {"DnsSupport": "enable", **ON}}
# As ROWS, over FAR.
FAR_ROWS = [
    ("no naming over a transit gateway", plan([]), [], {}, [(TO_FAR, "stopped GroupsIn eni-far -")]),
    ("a transit gateway's option is turned on", plan([TURNED_ON]), [], GATEWAY_ON, [(TO_FAR, "arrived eni-far")]),
    ("and an attachment's off", plan([TURNED_ON, change(TGW_ATT, "update", option("att-2", "enable"), option("att-2", "disable"))]), [], {**GATEWAY_ON, "TransitGatewayVpcAttachments att-2 Options": {"DnsSupport": "enable", **OFF}},
     [(TO_FAR, "stopped GroupsIn eni-far -")]),
    ("with more that isn't applied", plan([change(TGW, "update", option("tgw-1", "disable", dns_support="enable"), option("tgw-1", "enable", dns_support="disable"))]), [f"{TGW}: {DOESNT}"], GATEWAY_ON, [(TO_FAR, "arrived eni-far")]),
    ("other options alone", plan([change(TGW_ATT, "update", option("att-1", "enable", subnet_ids=["subnet-web"]), option("att-1", "enable", subnet_ids=[]))]), [f"{TGW_ATT}: {DOESNT}"], {}, []),
    ("tags alone, and what has none", plan([change(TGW, "update", option("tgw-1", "disable", tags={}), option("tgw-1", "disable", tags={"a": "b"})), no_op(TGW_ATT, option("att-1", "enable"))]), [], {}, []),
    ("an option that isn't known", plan([change(TGW, "update", option("tgw-1", "disable"), {"id": "tgw-1"}, {NAMED_FAR: True})]), [f"{TGW}: {NAMED_FAR} {LATER}"], {}, []),
    ("an option that is none", plan([change(TGW, "update", option("tgw-1", "disable"), option("tgw-1", "on"))]), [f"{TGW}: {NAMED_FAR} is on"], {}, []),
    ("a transit gateway that the bundle doesn't have", plan([change(TGW, "update", option("tgw-9", "disable"), option("tgw-9", "enable"))]), [f"{TGW}: the bundle has no tgw-9 among its TransitGateways"], {}, []),
    ("a new transit gateway, an attachment that goes", plan([change(TGW, "create", None, {NAMED_FAR: "enable"}, {"id": True}), change(TGW_ATT, "delete", option("att-1", "enable"), None)]), [f"{TGW}: {DOESNT}", f"{TGW_ATT}: {DOESNT}"], {}, []),
    ("a group is associated", plan([change(SG_VPC, "create", None, in_vpc("sg-web", "vpc-2"), {"state": True})]), [], {"+SecurityGroupVpcAssociations": [associated("sg-web", "vpc-2")]}, [(TO_FAR, "arrived eni-far")]),
    ("a new group is", plan([change("aws_security_group.new", "create", None, group("new"), NEW_GROUP), change(SG_VPC, "create", None, {"vpc_id": "vpc-2"}, {"security_group_id": True, "state": True})], {SG_VPC: {"security_group_id": refer("aws_security_group.new.id")}}), [],
     {"+SecurityGroups": [new_group("new", "aws_security_group.new")], "+SecurityGroupVpcAssociations": [associated("aws_security_group.new", "vpc-2")]}, []),
    ("an association goes", plan([change(SG_VPC, "delete", in_vpc("sg-far", "vpc-1", state="associated"), None)]), [], {"-SecurityGroupVpcAssociations": ["sg-far"]}, []),
    ("one becomes another", plan([change(SG_VPC, "delete create", in_vpc("sg-far", "vpc-1", state="associated"), in_vpc("sg-web", "vpc-2"), {"state": True})]), [], {"-SecurityGroupVpcAssociations": ["sg-far"], "+SecurityGroupVpcAssociations": [associated("sg-web", "vpc-2")]},
     [(TO_FAR, "arrived eni-far")]),
    ("an association that the bundle doesn't have goes", plan([change(SG_VPC, "delete", in_vpc("sg-far", "vpc-2"), None)]), [f"{SG_VPC}: the bundle has no association of sg-far with vpc-2 to take away"], {}, []),
    ("a VPC that the bundle doesn't have", plan([change(SG_VPC, "create", None, in_vpc("sg-far", "vpc-9"))]), [f"{SG_VPC}: the bundle has no vpc-9"], {}, []),
    ("a group that the bundle doesn't have", plan([change(SG_VPC, "create", None, in_vpc("sg-9", "vpc-1"))]), [f"{SG_VPC}: the bundle has no sg-9"], {}, []),
    ("an associated group goes", plan([change("aws_security_group.far", "delete", group("far", "vpc-2", id="sg-far"), None), change("aws_network_interface.far", "delete", {"id": "eni-far"}, None)]), [],
     {"-SecurityGroups": ["sg-far"], "-NetworkInterfaces": ["eni-far"], "-SecurityGroupVpcAssociations": ["sg-far"]}, []),
]

# BASE with a virtual private gateway, whose routes rtb-web takes, with one that is attached to nothing, and with an endpoint of each kind: of S3, of other services, and one behind which a firewall lets all pass.
AWAY = copy.deepcopy(BASE)
OF_S3, BY_BGP = "com.amazonaws.us-east-1.s3", "EnableVgwRoutePropagation"
ENI_SSM = {"NetworkInterfaceId": "eni-ssm", "SubnetId": "subnet-db", "VpcId": "vpc-1", "PrivateIpAddress": "10.1.2.40", "Status": "in-use", "InterfaceType": "vpc_endpoint", "Groups": [{"GroupId": "sg-db", "GroupName": "db"}], "PrivateIpAddresses": [{"Primary": True, "PrivateIpAddress": "10.1.2.40"}]}
AWAY["NetworkInterfaces"].append(ENI_SSM)
AWAY["VpnGateways"] = [{"VpnGatewayId": "vgw-1", "State": "available", "Type": "ipsec.1", "VpcAttachments": [{"State": "attached", "VpcId": "vpc-1"}]}, {"VpnGatewayId": "vgw-2", "State": "available", "Type": "ipsec.1", "VpcAttachments": [{"State": "detached", "VpcId": "vpc-1"}]}]
AWAY["PrefixLists"].append({"PrefixListId": "pl-s3", "PrefixListName": OF_S3, "Cidrs": ["52.216.0.0/15"]})


def endpoint(name, kind, tables=(), subnets=(), interfaces=(), groups=(), **more):
    return {"VpcEndpointId": name, "VpcEndpointType": kind, "VpcId": "vpc-1", "ServiceName": OF_S3, "State": "available", "RouteTableIds": list(tables), "SubnetIds": list(subnets),
            "Groups": list(groups), "NetworkInterfaceIds": list(interfaces), "Tags": [], "OwnerId": "111122223333", **more}


def propagated(cidr, gateway="vgw-1"):
    return {**to(cidr, GatewayId=gateway), "Origin": BY_BGP}


def to_s3(endpoint_):
    return {"DestinationPrefixListId": "pl-s3", "GatewayId": endpoint_, "Origin": "CreateRoute", "State": "active"}


def gone(*routes):
    return [{**it, "State": "blackhole"} for it in routes]


TO_OFFICE, TO_FW = to("172.20.0.0/16", GatewayId="vgw-1"), to("10.7.0.0/16", GatewayId="vpce-fw")
MAIN, ROUTES_WEB = [LOCAL, TO_OFFICE, TO_FW], [LOCAL, to("0.0.0.0/0", GatewayId="igw-1"), propagated("172.30.0.0/16"), to_s3("vpce-s3")]
row_of(AWAY, "RouteTables", "rtb-main")["Routes"] = copy.deepcopy(MAIN)
row_of(AWAY, "RouteTables", "rtb-web").update(Routes=copy.deepcopy(ROUTES_WEB), PropagatingVgws=[{"GatewayId": "vgw-1"}])
AWAY["VpcEndpoints"] = [endpoint("vpce-s3", "Gateway", tables=["rtb-web"]), endpoint("vpce-ssm", "Interface", subnets=["subnet-db"], interfaces=["eni-ssm"], groups=[DB]), endpoint("vpce-fw", "GatewayLoadBalancer", subnets=["subnet-web"])]
AWAY["Appliances"] = [{"NetworkInterfaceId": "eni-db", "Kind": "none"}, {"VpcEndpointId": "vpce-fw", "Kind": "all"}]
KEYS.update(VpnGateways="VpnGatewayId", VpcEndpoints="VpcEndpointId", Appliances="VpcEndpointId")
OFFICE_WEB, WEB_OFFICE = "open from vgw-1 tcp 172.30.0.7 10.1.1.10 5000 443", "open from eni-web tcp 10.1.1.10 172.30.0.7 5000 443"
WEB_S3, DB_S3 = "open from eni-web tcp 10.1.1.10 52.216.0.7 5000 443", "open from eni-db tcp 10.1.2.10 52.216.0.7 5432 1024"
VGW, ATTACHMENT, PROPAGATION, EDGE = "aws_vpn_gateway.a", "aws_vpn_gateway_attachment.a", "aws_vpn_gateway_route_propagation.a", "aws_route_table_association.a"
ENDPOINT, OF_TABLE, OF_SUBNET, OF_GROUP = (f"aws_vpc_endpoint{it}.a" for it in ("", "_route_table_association", "_subnet_association", "_security_group_association"))
NOT_TOLD_ROUTES = "the routes that {} propagates aren't known"


def new_gateway(name, *vpcs):
    return {"State": "available", "Type": "ipsec.1", "VpcAttachments": [{"State": "attached", "VpcId": it} for it in vpcs], "VpnGatewayId": name, "Tags": []}


def attached(gateway, vpc="vpc-1"):
    return {"vpn_gateway_id": gateway, "vpc_id": vpc}


def taking(table, gateway):
    return {"route_table_id": table, "vpn_gateway_id": gateway}


def of_service(tables=None, **more):
    """An aws_vpc_endpoint of a service that has routes."""
    return {"service_name": OF_S3, "vpc_endpoint_type": "Gateway", "vpc_id": "vpc-1", **({"route_table_ids": tables} if tables is not None else {}), **more}


def of_interfaces(subnets, groups=None, **more):
    return {"service_name": OF_S3, "vpc_endpoint_type": "Interface", "vpc_id": "vpc-1", "subnet_configuration": [], **({"subnet_ids": subnets} if subnets is not None else {}), **({"security_group_ids": groups} if groups is not None else {}), **more}


def in_endpoint(endpoint_, number, subnet_, zone, at, groups):
    """The interface of an endpoint in a subnet."""
    return new_eni(f"{endpoint_}.network_interface_ids[{number}]", subnet_, zone, [at], groups, Description=f"VPC Endpoint Interface {endpoint_}", InterfaceType="vpc_endpoint",
                   Attachment={"InstanceOwnerId": "amazon-aws", "Status": "attached"}, RequesterManaged=True, Status="in-use")


def without_office():
    """What becomes of tables where vgw-1 is attached to nothing any more."""
    return {"RouteTables rtb-main Routes": [LOCAL, *gone(TO_OFFICE), TO_FW], "RouteTables rtb-web Routes": [ROUTES_WEB[0], ROUTES_WEB[1], ROUTES_WEB[3]], "RouteTables rtb-web PropagatingVgws": []}


NEW_ENDPOINT = {"id": True, "network_interface_ids": True, "prefix_list_id": True, "state": True, "route_table_ids": True, "subnet_ids": True, "security_group_ids": True}


def open_in(*known_):
    return {it: value for it, value in NEW_ENDPOINT.items() if it not in known_}


# As ROWS, over AWAY.
AWAY_ROWS = [
    ("an office by a gateway, and S3", plan([]), [], {}, [(OFFICE_WEB, "arrived eni-web"), (WEB_OFFICE, "arrived vgw-1"), (WEB_S3, "arrived vpce-s3"), (DB_S3, "stopped GroupsOut eni-db -"), ("open from vgw-2 tcp 172.30.0.7 10.1.1.10 5000 443", "stopped FarDetached vgw-2 -")]),

    # virtual private gateways
    ("a new gateway", plan([change(VGW, "create", None, {"vpc_id": "vpc-1", "tags_all": {"Name": "office"}}, {"id": True, "arn": True})]), [], {"+VpnGateways": [{**new_gateway(VGW, "vpc-1"), "Tags": [{"Key": "Name", "Value": "office"}]}]}, [(f"open from {VGW} tcp 172.30.0.7 10.1.1.10 5000 443", "arrived eni-web")]),
    ("one of a new VPC", plan([change(A_VPC, "create", None, {"cidr_block": "10.5.0.0/16"}, NEW_VPC), change(VGW, "create", None, {}, {"id": True, "vpc_id": True})], {VGW: {"vpc_id": refer("aws_vpc.a.id")}}), [], {**vpc_rows("10.5.0.0/16"), "+VpnGateways": [new_gateway(VGW, A_VPC)]}, []),
    ("one that an attachment of its own attaches, with a route", plan([change(VGW, "create", None, {}, {"id": True, "vpc_id": True}), change(ATTACHMENT, "create", None, {"vpc_id": "vpc-1"}, {"id": True, "vpn_gateway_id": True}),
                                                                       change("aws_route.a", "create", None, {it: value for it, value in route("rtb-web", destination_cidr_block="10.6.0.0/16").items() if it not in ("gateway_id", "network_interface_id")}, {"gateway_id": True, "network_interface_id": True}),
                                                                       change("aws_route_table.main", "update", {"id": "rtb-main", "route": [route_block("172.20.0.0/16", gateway_id="vgw-1")]}, {"id": "rtb-main", "route": [{it: value for it, value in route_block("172.20.0.0/16").items() if it != "gateway_id"}]}, {"route": [{"gateway_id": True}]})],
                                                                      {VGW: {}, ATTACHMENT: {"vpn_gateway_id": refer("aws_vpn_gateway.a.id")}, "aws_route.a": {"gateway_id": refer("aws_vpn_gateway_attachment.a.vpn_gateway_id")}, "aws_route_table.main": {"route": refer("aws_vpn_gateway.a.id")}}), [],
     {"+VpnGateways": [new_gateway(VGW, "vpc-1")], "RouteTables rtb-web Routes": [*ROUTES_WEB, to("10.6.0.0/16", GatewayId=VGW)], "RouteTables rtb-main Routes": [LOCAL, to("172.20.0.0/16", GatewayId=VGW), TO_FW]}, [("open from eni-web tcp 10.1.1.10 10.6.0.7 5000 443", f"arrived {VGW}")]),
    ("a block that may name a new gateway or another", plan([change(VGW, "create", None, {"vpc_id": "vpc-1"}, {"id": True}), change("aws_internet_gateway.a", "create", None, {}, {"id": True}),
                                                             change("aws_route_table.main", "update", {"id": "rtb-main", "route": []}, {"id": "rtb-main", "route": [{it: value for it, value in route_block("10.6.0.0/16").items() if it != "gateway_id"}]}, {"route": [{"gateway_id": True}]})],
                                                            {"aws_route_table.main": {"route": refer("aws_vpn_gateway.a.id", "aws_internet_gateway.a.id")}}),
     [f"aws_route_table.main: route 10.6.0.0/16: gateway_id {LATER}, and may be of {VGW}, aws_internet_gateway.a", f"aws_internet_gateway.a: {DOESNT}"], {"+VpnGateways": [new_gateway(VGW, "vpc-1")]}, []),
    ("a gateway of a VPC that the bundle doesn't have, and a route to it", plan([change(VGW, "create", None, {"vpc_id": "vpc-9"}, {"id": True}), change("aws_route.a", "create", None, {it: value for it, value in route("rtb-web", destination_cidr_block="10.6.0.0/16").items() if it not in ("gateway_id", "network_interface_id")}, {"gateway_id": True, "network_interface_id": True})],
                                                                                {"aws_route.a": {"gateway_id": refer("aws_vpn_gateway.a.id")}}), [f"{VGW}: the bundle has no vpc-9", f"aws_route.a: the bundle has no {VGW}"], {}, []),
    ("a gateway goes", plan([change(VGW, "delete", {"id": "vgw-1", "vpc_id": "vpc-1"}, None)]), [], {"-VpnGateways": ["vgw-1"], **without_office()}, [(WEB_OFFICE, "stopped PrivateAddress internet -"), ("open from eni-ssm tcp 10.1.2.40 172.20.0.7 5000 443", "stopped GroupsOut eni-ssm -")]),
    ("a gateway that isn't there goes", plan([change(VGW, "delete", {"id": "vgw-9"}, None)]), [f"{VGW}: the bundle has no vgw-9"], {}, []),
    ("a gateway is replaced", plan([change(VGW, "delete create", {"id": "vgw-1", "vpc_id": "vpc-1"}, {"vpc_id": "vpc-1"}, {"id": True}), change("aws_route.a", "update", route("rtb-main", destination_cidr_block="172.20.0.0/16", gateway_id="vgw-1"), {it: value for it, value in route("rtb-main", destination_cidr_block="172.20.0.0/16").items() if it != "gateway_id"}, {"gateway_id": True})],
                                   {"aws_route.a": {"gateway_id": refer("aws_vpn_gateway.a.id")}}), [], {"-VpnGateways": ["vgw-1"], "+VpnGateways": [new_gateway(VGW, "vpc-1")], **without_office(), "RouteTables rtb-main Routes": [LOCAL, to("172.20.0.0/16", GatewayId=VGW), TO_FW]}, []),
    ("tags alone, and a gateway in its place", plan([change(VGW, "update", {"id": "vgw-1", "vpc_id": "vpc-1", "tags": {}}, {"id": "vgw-1", "vpc_id": "vpc-1", "tags": {"a": "b"}}), no_op("aws_vpn_gateway.b", {"id": "vgw-2"})]), [], {}, []),
    ("a gateway is attached", plan([change(ATTACHMENT, "create", None, attached("vgw-2"), {"id": True})]), [], {"VpnGateways vgw-2 VpcAttachments": [{"State": "attached", "VpcId": "vpc-1"}]}, [("open from vgw-2 tcp 172.30.0.7 10.1.1.10 5000 443", "arrived eni-web")]),
    ("by its own resource, and another by it no more", plan([change(VGW, "update", {"id": "vgw-2", "vpc_id": ""}, {"id": "vgw-2", "vpc_id": "vpc-1"}), change("aws_vpn_gateway.b", "update", {"id": "vgw-1", "vpc_id": "vpc-1"}, {"id": "vgw-1", "vpc_id": None})]), [],
     {"VpnGateways vgw-2 VpcAttachments": [{"State": "attached", "VpcId": "vpc-1"}], "VpnGateways vgw-1 VpcAttachments": [], **without_office()}, [(OFFICE_WEB, "stopped FarDetached vgw-1 -")]),
    ("what it is attached to isn't known, or is told elsewhere", plan([change(VGW, "update", {"id": "vgw-1", "vpc_id": "vpc-1"}, {"id": "vgw-1"}, {"vpc_id": True}), change("aws_vpn_gateway.b", "update", {"id": "vgw-1", "vpc_id": "vpc-1"}, {"id": "vgw-1"}, {"vpc_id": True})], {VGW: {"vpc_id": refer("var.vpc")}, "aws_vpn_gateway.b": {}}), [f"{VGW}: vpc_id {LATER}: a plan doesn't tell var.vpc"], {}, []),
    ("a gateway that is attached already", plan([change(ATTACHMENT, "create", None, attached("vgw-1")), change("aws_vpn_gateway_attachment.b", "create", None, attached("vgw-9"))]), ["aws_vpn_gateway_attachment.b: the bundle has no vgw-9"], {}, []),
    ("an attachment goes", plan([change(ATTACHMENT, "delete", attached("vgw-1"), None)]), [], {"VpnGateways vgw-1 VpcAttachments": [], **without_office()}, [(OFFICE_WEB, "stopped FarDetached vgw-1 -")]),
    ("and comes again", plan([change(ATTACHMENT, "delete", attached("vgw-1"), None), change("aws_vpn_gateway_attachment.b", "create", None, attached("vgw-1")), change(PROPAGATION, "create", None, taking("rtb-web", "vgw-1"))]), [],
     {"RouteTables rtb-web Routes": [ROUTES_WEB[0], ROUTES_WEB[1], ROUTES_WEB[3], ROUTES_WEB[2]]}, [(WEB_OFFICE, "arrived vgw-1")]),
    ("attachments that aren't there go", plan([change(ATTACHMENT, "delete", attached("vgw-2"), None), change("aws_vpn_gateway_attachment.b", "delete", attached("vgw-1", "vpc-2"), None)]), [f"{ATTACHMENT}: the bundle has no attachment of vgw-2 to vpc-1 to take away", "aws_vpn_gateway_attachment.b: the bundle has no attachment of vgw-1 to vpc-2 to take away"], {}, []),
    ("a gateway at two VPCs", plan([change(A_VPC, "create", None, {"cidr_block": "10.5.0.0/16"}, NEW_VPC), change(ATTACHMENT, "create", None, {"vpn_gateway_id": "vgw-1"}, {"vpc_id": True})], {ATTACHMENT: {"vpc_id": refer("aws_vpc.a.id")}}), [f"{ATTACHMENT}: vgw-1 is attached to vpc-1"], vpc_rows("10.5.0.0/16"), []),
    ("a VPC goes that has a gateway and endpoints", plan([change("aws_vpc.old", "delete", {"id": "vpc-1"}, None)]), ["aws_vpc.old: subnet-web, subnet-db, sg-web and others would still need it"], {}, []),

    ("a table takes a gateway's routes, as another one does", plan([change(PROPAGATION, "create", None, taking("rtb-main", "vgw-1"), {"id": True})]), [], {"RouteTables rtb-main Routes": [*MAIN, propagated("172.30.0.0/16")], "RouteTables rtb-main PropagatingVgws": [{"GatewayId": "vgw-1"}]}, []),
    ("but for those that it has of its own", plan([change("aws_route.a", "create", None, route("rtb-main", destination_cidr_block="172.30.0.0/16", gateway_id="igw-1")), change(PROPAGATION, "create", None, taking("rtb-main", "vgw-1"))]), [f"aws_route.a: rtb-main has a route to 172.30.0.0/16 already"],
     {"RouteTables rtb-main Routes": [*MAIN, propagated("172.30.0.0/16")], "RouteTables rtb-main PropagatingVgws": [{"GatewayId": "vgw-1"}]}, []),
    ("routes that no table tells", plan([change(PROPAGATION, "create", None, taking("rtb-main", "vgw-2"))]), [f"{PROPAGATION}: {NOT_TOLD_ROUTES.format('vgw-2')}"], {"RouteTables rtb-main PropagatingVgws": [{"GatewayId": "vgw-2"}]}, []),
    ("a table takes them no more", plan([change(PROPAGATION, "delete", taking("rtb-web", "vgw-1"), None)]), [], {"RouteTables rtb-web Routes": [ROUTES_WEB[0], ROUTES_WEB[1], ROUTES_WEB[3]], "RouteTables rtb-web PropagatingVgws": []}, [(WEB_OFFICE, "stopped PrivateAddress internet -"), (OFFICE_WEB, "arrived eni-web")]),
    ("another one does in its place", plan([change(PROPAGATION, "delete create", taking("rtb-web", "vgw-1"), taking("rtb-main", "vgw-1"))]), [],
     {"RouteTables rtb-web Routes": [ROUTES_WEB[0], ROUTES_WEB[1], ROUTES_WEB[3]], "RouteTables rtb-web PropagatingVgws": [], "RouteTables rtb-main Routes": [*MAIN, propagated("172.30.0.0/16")], "RouteTables rtb-main PropagatingVgws": [{"GatewayId": "vgw-1"}]}, []),
    ("a table that doesn't take them, a gateway that isn't there", plan([change(PROPAGATION, "delete", taking("rtb-main", "vgw-1"), None), change("aws_vpn_gateway_route_propagation.b", "create", None, taking("rtb-main", "vgw-9"))]), [f"{PROPAGATION}: the bundle has no routes of rtb-main that vgw-1 propagates", "aws_vpn_gateway_route_propagation.b: the bundle has no vgw-9"], {}, []),
    ("tables name the gateways whose routes they take", plan([change("aws_route_table.main", "update", {"id": "rtb-main", "propagating_vgws": [], "route": []}, {"id": "rtb-main", "propagating_vgws": ["vgw-1", "vgw-9"], "route": []}), change("aws_route_table.web", "update", {"id": "rtb-web", "propagating_vgws": ["vgw-1"], "route": []}, {"id": "rtb-web", "propagating_vgws": [], "route": []})]),
     ["aws_route_table.main: the bundle has no vgw-9"], {"RouteTables rtb-web Routes": [ROUTES_WEB[0], ROUTES_WEB[1], ROUTES_WEB[3]], "RouteTables rtb-web PropagatingVgws": [], "RouteTables rtb-main Routes": [*MAIN, propagated("172.30.0.0/16")], "RouteTables rtb-main PropagatingVgws": [{"GatewayId": "vgw-1"}]}, []),
    ("a new table names a new gateway, another doesn't say", plan([change(VGW, "create", None, {"vpc_id": "vpc-1"}, {"id": True}), *(change(f"aws_route_table.{it}", "create", None, {"vpc_id": "vpc-1"}, {"id": True, "propagating_vgws": True, "route": True}) for it in "ab")],
                                                                  {"aws_route_table.a": {"propagating_vgws": refer("aws_vpn_gateway.a.id")}, "aws_route_table.b": {}}),
     [f"aws_route_table.a: {NOT_TOLD_ROUTES.format(VGW)}"], {"+VpnGateways": [new_gateway(VGW, "vpc-1")], "+RouteTables": [{"Associations": [], "RouteTableId": "aws_route_table.a", "Routes": [LOCAL], "Tags": [], "VpcId": "vpc-1", "OwnerId": "111122223333", "PropagatingVgws": [{"GatewayId": VGW}]}, {"Associations": [], "RouteTableId": "aws_route_table.b", "Routes": [LOCAL], "Tags": [], "VpcId": "vpc-1", "OwnerId": "111122223333"}]}, []),

    # tables of gateways
    ("a table of a virtual private gateway", plan([change(EDGE, "create", None, {"route_table_id": "rtb-main", "gateway_id": "vgw-1", "subnet_id": None}, {"id": True})]), [], {"RouteTables rtb-main Associations": [*AWAY["RouteTables"][0]["Associations"], {**routed("rtb-main", EDGE, GatewayId="vgw-1"), **TIED}]},
     [(OFFICE_WEB, "arrived eni-web"), ("open from vgw-1 tcp 172.30.0.7 10.2.0.7 5000 443", "stopped NoRoute rtb-main -")]),
    ("a new table of the internet gateway, by a firewall", plan([change("aws_route_table.edge", "create", None, {"vpc_id": "vpc-1", "route": [route_block("10.1.1.0/24", vpc_endpoint_id="vpce-fw")]}, {"id": True, "propagating_vgws": True, "route": [{}]}), change(EDGE, "create", None, {"gateway_id": "igw-1"}, {"id": True, "route_table_id": True})], {"aws_route_table.edge": {}, EDGE: {"route_table_id": refer("aws_route_table.edge.id")}}), [],
     {"+RouteTables": [{"Associations": [{**routed("aws_route_table.edge", EDGE, GatewayId="igw-1"), **TIED}], "RouteTableId": "aws_route_table.edge", "Routes": [LOCAL, to("10.1.1.0/24", GatewayId="vpce-fw")], "Tags": [], "VpcId": "vpc-1", "OwnerId": "111122223333"}]}, [(TO_WEB, "arrived eni-web")]),
    ("tables of gateways that the bundle doesn't have", plan([change("aws_internet_gateway.a", "create", None, {}, {"id": True}), change(EDGE, "create", None, {"route_table_id": "rtb-main"}, {"gateway_id": True}), change("aws_route_table_association.b", "create", None, {"route_table_id": "rtb-main", "gateway_id": "vgw-9"})], {EDGE: {"gateway_id": refer("aws_internet_gateway.a.id")}}),
     [f"{EDGE}: the bundle has no aws_internet_gateway.a", "aws_route_table_association.b: the bundle has no vgw-9", f"aws_internet_gateway.a: {DOESNT}"], {}, []),

    # endpoints of services that have routes
    ("an endpoint of a service", plan([change(ENDPOINT, "create", None, of_service(["rtb-main"]), open_in("route_table_ids"))]), [], {"+VpcEndpoints": [endpoint(ENDPOINT, "Gateway", tables=["rtb-main"])], "RouteTables rtb-main Routes": [*MAIN, to_s3(ENDPOINT)]}, [(DB_S3, "stopped GroupsOut eni-db -")]),
    ("one whose kind isn't told, at a new table and by an association", plan([change("aws_route_table.new", "create", None, {"vpc_id": "vpc-1"}, {"id": True, "propagating_vgws": True, "route": True}), change("aws_vpc_endpoint.b", "create", None, {"service_name": OF_S3, "vpc_id": "vpc-1"}, {**NEW_ENDPOINT}),
                                                                              change(OF_TABLE, "create", None, {}, {"id": True, "route_table_id": True, "vpc_endpoint_id": True})],
                                                                             {"aws_vpc_endpoint.b": {}, OF_TABLE: {"route_table_id": refer("aws_route_table.new.id"), "vpc_endpoint_id": refer("aws_vpc_endpoint.b.id")}}), [],
     {"+VpcEndpoints": [endpoint("aws_vpc_endpoint.b", "Gateway", tables=["aws_route_table.new"])], "+RouteTables": [{"Associations": [], "RouteTableId": "aws_route_table.new", "Routes": [LOCAL, to_s3("aws_vpc_endpoint.b")], "Tags": [], "VpcId": "vpc-1", "OwnerId": "111122223333"}]}, []),
    ("at tables that aren't known before", plan([change("aws_route_table.new", "create", None, {"vpc_id": "vpc-1"}, {"id": True, "propagating_vgws": True, "route": True}), change(ENDPOINT, "create", None, of_service(), NEW_ENDPOINT)], {"aws_route_table.new": {}, ENDPOINT: {"route_table_ids": refer("aws_route_table.new.id")}}), [],
     {"+VpcEndpoints": [endpoint(ENDPOINT, "Gateway", tables=["aws_route_table.new"])], "+RouteTables": [{"Associations": [], "RouteTableId": "aws_route_table.new", "Routes": [LOCAL, to_s3(ENDPOINT)], "Tags": [], "VpcId": "vpc-1", "OwnerId": "111122223333"}]}, []),
    ("a service without a prefix list, a table with such a route, one that isn't there", plan([change(f"{ENDPOINT}[0]", "create", None, of_service(["rtb-main"], service_name="com.amazonaws.us-east-1.dynamodb"), open_in("route_table_ids")), change(f"{ENDPOINT}[1]", "create", None, of_service(["rtb-web", "rtb-9"]), open_in("route_table_ids"))]),
     [f"{ENDPOINT}[0]: the bundle has no prefix list of com.amazonaws.us-east-1.dynamodb", f"{ENDPOINT}[1]: rtb-web has a route to pl-s3 already", f"{ENDPOINT}[1]: the bundle has no rtb-9"],
     {"+VpcEndpoints": [endpoint(f"{ENDPOINT}[0]", "Gateway", ServiceName="com.amazonaws.us-east-1.dynamodb"), endpoint(f"{ENDPOINT}[1]", "Gateway")]}, []),
    ("an endpoint's tables change, and its policy", plan([change(ENDPOINT, "update", of_service(["rtb-web"], id="vpce-s3", policy="a"), of_service(["rtb-main"], id="vpce-s3", policy="b"))]), [], {"VpcEndpoints vpce-s3 RouteTableIds": ["rtb-main"], "RouteTables rtb-web Routes": ROUTES_WEB[:3], "RouteTables rtb-main Routes": [*MAIN, to_s3("vpce-s3")]}, [(WEB_S3, "arrived internet")]),
    ("its policy alone, its tables elsewhere", plan([change(ENDPOINT, "update", of_service(["rtb-web"], id="vpce-s3", policy="a"), of_service(id="vpce-s3", policy="b"), {"route_table_ids": True})], {ENDPOINT: {}}), [], {}, [(WEB_S3, "arrived vpce-s3")]),
    ("an association of a table goes, and one that isn't there", plan([change(OF_TABLE, "delete", {"route_table_id": "rtb-web", "vpc_endpoint_id": "vpce-s3"}, None), change("aws_vpc_endpoint_route_table_association.b", "delete", {"route_table_id": "rtb-main", "vpc_endpoint_id": "vpce-s3"}, None)]),
     ["aws_vpc_endpoint_route_table_association.b: the bundle has no route of rtb-main to vpce-s3 to take away"], {"VpcEndpoints vpce-s3 RouteTableIds": [], "RouteTables rtb-web Routes": ROUTES_WEB[:3]}, [(WEB_S3, "arrived internet")]),
    ("an endpoint of a service goes", plan([change(ENDPOINT, "delete", of_service(["rtb-web"], id="vpce-s3"), None)]), [], {"-VpcEndpoints": ["vpce-s3"], "RouteTables rtb-web Routes": ROUTES_WEB[:3]}, [(WEB_S3, "arrived internet")]),
    ("one is replaced", plan([change(ENDPOINT, "delete create", of_service(["rtb-web"], id="vpce-s3"), of_service(["rtb-web"]), open_in("route_table_ids"))]), [], {"-VpcEndpoints": ["vpce-s3"], "+VpcEndpoints": [endpoint(ENDPOINT, "Gateway", tables=["rtb-web"])], "RouteTables rtb-web Routes": [*ROUTES_WEB[:3], to_s3(ENDPOINT)]}, [(WEB_S3, f"arrived {ENDPOINT}")]),
    ("the default table is managed from now on: routes of endpoints stay", plan([change("aws_main_route_table_association.a", "create", None, {"route_table_id": "rtb-web", "vpc_id": "vpc-1"}), change("aws_default_route_table.a", "create", None, {"default_route_table_id": "rtb-web", "route": []}, {"id": True})]), [],
     {"RouteTables rtb-web Routes": [LOCAL, to_s3("vpce-s3")], "RouteTables rtb-web PropagatingVgws": [], "RouteTables rtb-main Associations": [], "RouteTables rtb-web Associations": [*AWAY["RouteTables"][1]["Associations"], {"Main": True, "RouteTableAssociationId": "rtbassoc-main", "RouteTableId": "rtb-web"}]}, []),
    ("endpoints that aren't there, or in a VPC that isn't", plan([change(ENDPOINT, "delete", of_service([], id="vpce-9"), None), change("aws_vpc_endpoint.b", "create", None, of_service([], vpc_id="vpc-9"), open_in("route_table_ids")), change("aws_vpc_endpoint.c", "update", of_service([], id="vpce-9"), of_service(["rtb-main"], id="vpce-9"))]),
     [f"{ENDPOINT}: the bundle has no vpce-9", "aws_vpc_endpoint.b: the bundle has no vpc-9", "aws_vpc_endpoint.c: the bundle has no vpce-9"], {}, []),

    # endpoints with interfaces
    ("an endpoint with interfaces", plan([change(ENDPOINT, "create", None, of_interfaces(["subnet-web", "subnet-db"], ["sg-web"], subnet_configuration=[{"ipv4": "10.1.2.50", "ipv6": None, "subnet_id": "subnet-db"}]), open_in("subnet_ids", "security_group_ids"))]), [f"{ENDPOINT}: the address of its interface in subnet-web {LATER}: 10.1.1.4 is taken for it"],
     {"+VpcEndpoints": [endpoint(ENDPOINT, "Interface", subnets=["subnet-web", "subnet-db"], groups=[WEB], interfaces=[f"{ENDPOINT}.network_interface_ids[{it}]" for it in (0, 1)])], "+NetworkInterfaces": [in_endpoint(ENDPOINT, 0, "subnet-web", "us-east-1a", "10.1.1.4", [WEB]), in_endpoint(ENDPOINT, 1, "subnet-db", "us-east-1b", "10.1.2.50", [WEB])]},
     [("open from eni-web tcp 10.1.1.10 10.1.1.4 5000 443", f"arrived {ENDPOINT}.network_interface_ids[0]")]),
    ("with the default group, in no subnet yet", plan([change(ENDPOINT, "create", None, of_interfaces(None), NEW_ENDPOINT), change(OF_SUBNET, "create", None, {"subnet_id": "subnet-db"}, {"vpc_endpoint_id": True})], {ENDPOINT: {}, OF_SUBNET: {"vpc_endpoint_id": refer("aws_vpc_endpoint.a.id")}}),
     [f"{OF_SUBNET}: the address of its interface in subnet-db {LATER}: 10.1.2.4 is taken for it"],
     {"+VpcEndpoints": [endpoint(ENDPOINT, "Interface", subnets=["subnet-db"], groups=[{"GroupId": "sg-default", "GroupName": "default"}], interfaces=[f"{ENDPOINT}.network_interface_ids[0]"])], "+NetworkInterfaces": [in_endpoint(ENDPOINT, 0, "subnet-db", "us-east-1b", "10.1.2.4", [{"GroupId": "sg-default", "GroupName": "default"}])]}, []),
    ("addresses that others have, and what isn't known", plan([change(f"{ENDPOINT}[0]", "create", None, of_interfaces(["subnet-db"], ["sg-web"], subnet_configuration=[{"ipv4": "10.1.2.10", "subnet_id": "subnet-db"}]), open_in("subnet_ids", "security_group_ids")), change(f"{ENDPOINT}[1]", "create", None, of_interfaces(["subnet-9"], ["sg-web"]), open_in("subnet_ids", "security_group_ids")),
                                                               change("aws_vpc_endpoint.b", "create", None, of_interfaces(["subnet-db"]), open_in("subnet_ids")), change("aws_vpc_endpoint.c", "create", None, {**of_interfaces([]), "vpc_endpoint_type": None}, {"id": True, "vpc_endpoint_type": True})], {"aws_vpc_endpoint.b": {"security_group_ids": refer("local.groups")}}),
     [f"aws_vpc_endpoint.c: vpc_endpoint_type {LATER}", f"{ENDPOINT}[0]: 10.1.2.10 is an address of eni-db", f"{ENDPOINT}[1]: the bundle has no subnet-9", f"aws_vpc_endpoint.b: security_group_ids {LATER}: a plan doesn't tell local.groups", "aws_vpc_endpoint.b: the bundle doesn't tell the groups of aws_vpc_endpoint.b"],
     {"+VpcEndpoints": [endpoint(f"{ENDPOINT}[0]", "Interface", groups=[WEB]), endpoint(f"{ENDPOINT}[1]", "Interface", groups=[WEB]), endpoint("aws_vpc_endpoint.b", "Interface")]}, []),
    ("an endpoint's groups and subnets change", plan([change(ENDPOINT, "update", of_interfaces(["subnet-db"], ["sg-db"], id="vpce-ssm"), of_interfaces(["subnet-db", "subnet-web"], ["sg-web"], id="vpce-ssm"))]), [f"{ENDPOINT}: the address of its interface in subnet-web {LATER}: 10.1.1.4 is taken for it"],
     {"VpcEndpoints vpce-ssm Groups": [WEB], "VpcEndpoints vpce-ssm SubnetIds": ["subnet-db", "subnet-web"], "VpcEndpoints vpce-ssm NetworkInterfaceIds": ["eni-ssm", "vpce-ssm.network_interface_ids[1]"], "NetworkInterfaces eni-ssm Groups": [WEB], "+NetworkInterfaces": [in_endpoint("vpce-ssm", 1, "subnet-web", "us-east-1a", "10.1.1.4", [WEB])]},
     [("open from eni-web tcp 10.1.1.10 10.1.2.40 5000 5432", "stopped GroupsIn eni-ssm -")]),
    ("a subnet goes, and one that it isn't in", plan([change(ENDPOINT, "update", of_interfaces(["subnet-db", "subnet-web"], ["sg-db"], id="vpce-ssm"), of_interfaces([], ["sg-db"], id="vpce-ssm", subnet_configuration=[]))]), [f"{ENDPOINT}: the bundle doesn't tell the interface of vpce-ssm in subnet-web"],
     {"VpcEndpoints vpce-ssm SubnetIds": [], "VpcEndpoints vpce-ssm NetworkInterfaceIds": [], "-NetworkInterfaces": ["eni-ssm"]}, []),
    ("associations of subnets and groups", plan([change(OF_SUBNET, "delete", {"subnet_id": "subnet-db", "vpc_endpoint_id": "vpce-ssm"}, None), change(OF_GROUP, "create", None, {"security_group_id": "sg-web", "vpc_endpoint_id": "vpce-ssm", "replace_default_association": False}, {"id": True})]), [],
     {"VpcEndpoints vpce-ssm SubnetIds": [], "VpcEndpoints vpce-ssm NetworkInterfaceIds": [], "VpcEndpoints vpce-ssm Groups": [DB, WEB], "-NetworkInterfaces": ["eni-ssm"]}, []),
    ("a group comes, and one goes", plan([change(OF_GROUP, "create", None, {"security_group_id": "sg-web", "vpc_endpoint_id": "vpce-ssm"}, {"id": True}), change("aws_vpc_endpoint_security_group_association.b", "delete", {"security_group_id": "sg-db", "vpc_endpoint_id": "vpce-ssm"}, None), change("aws_vpc_endpoint_security_group_association.c", "delete", {"security_group_id": "sg-old", "vpc_endpoint_id": "vpce-ssm"}, None)]),
     ["aws_vpc_endpoint_security_group_association.c: vpce-ssm of the bundle doesn't have sg-old"], {"VpcEndpoints vpce-ssm Groups": [WEB], "NetworkInterfaces eni-ssm Groups": [WEB]}, []),
    ("a group in the place of the default one, and back", plan([change(ENDPOINT, "create", None, of_interfaces(["subnet-db"], subnet_configuration=[{"ipv4": "10.1.2.50", "subnet_id": "subnet-db"}]), open_in("subnet_ids")), change(OF_GROUP, "create", None, {"security_group_id": "sg-web", "replace_default_association": True}, {"vpc_endpoint_id": True}), change("aws_vpc_endpoint_security_group_association.b", "delete", {"security_group_id": "sg-db", "vpc_endpoint_id": "vpce-ssm", "replace_default_association": True}, None)],
                                                               {ENDPOINT: {}, OF_GROUP: {"vpc_endpoint_id": refer("aws_vpc_endpoint.a.id")}}), [],
     {"+VpcEndpoints": [endpoint(ENDPOINT, "Interface", subnets=["subnet-db"], groups=[WEB], interfaces=[f"{ENDPOINT}.network_interface_ids[0]"])], "+NetworkInterfaces": [in_endpoint(ENDPOINT, 0, "subnet-db", "us-east-1b", "10.1.2.50", [WEB])],
      "VpcEndpoints vpce-ssm Groups": [{"GroupId": "sg-default", "GroupName": "default"}], "NetworkInterfaces eni-ssm Groups": [{"GroupId": "sg-default", "GroupName": "default"}]}, []),
    ("addresses of an endpoint's interfaces", plan([change(ENDPOINT, "update", of_interfaces(["subnet-db"], ["sg-db"], id="vpce-ssm"), of_interfaces(["subnet-db"], ["sg-db"], id="vpce-ssm", subnet_configuration=[{"ipv4": "10.1.2.60", "subnet_id": "subnet-db"}]))]), [f"{ENDPOINT}: subnet_configuration {LATER}, or can't be changed here"], {}, []),
    ("an endpoint with interfaces goes, with its group", plan([change(ENDPOINT, "delete", of_interfaces(["subnet-db"], ["sg-db"], id="vpce-ssm"), None)]), [], {"-VpcEndpoints": ["vpce-ssm"], "-NetworkInterfaces": ["eni-ssm"]}, []),

    # endpoints of firewalls
    ("an endpoint of a firewall, with a route", plan([change(ENDPOINT, "create", None, {**of_interfaces(["subnet-web"]), "vpc_endpoint_type": "GatewayLoadBalancer", "service_name": "com.amazonaws.vpce.us-east-1.vpce-svc-1"}, open_in("subnet_ids")),
                                                      change("aws_route.a", "create", None, {it: value for it, value in route("rtb-web", destination_cidr_block="10.6.0.0/16").items() if it not in ("vpc_endpoint_id", "network_interface_id")}, {"vpc_endpoint_id": True, "network_interface_id": True})],
                                                     {ENDPOINT: {"subnet_ids": {"constant_value": ["subnet-web"]}}, "aws_route.a": {"vpc_endpoint_id": refer("aws_vpc_endpoint.a.id")}}), [],
     {"+VpcEndpoints": [endpoint(ENDPOINT, "GatewayLoadBalancer", subnets=["subnet-web"], ServiceName="com.amazonaws.vpce.us-east-1.vpce-svc-1")], "RouteTables rtb-web Routes": [*ROUTES_WEB, to("10.6.0.0/16", GatewayId=ENDPOINT)]}, [("open from eni-web tcp 10.1.1.10 10.6.0.7 5000 443", f"stopped Unmodelled {ENDPOINT} -")]),
    ("one goes, with what is told of its firewall", plan([change(ENDPOINT, "delete", {**of_interfaces(["subnet-web"], id="vpce-fw"), "vpc_endpoint_type": "GatewayLoadBalancer"}, None)]), [], {"-VpcEndpoints": ["vpce-fw"], "-Appliances": ["vpce-fw"], "RouteTables rtb-main Routes": [LOCAL, TO_OFFICE, *gone(TO_FW)]}, []),

    ("what else leads to networks that aren't described", plan([*(change(f"aws_{it}.a", "create", None, {}, {"id": True}) for it in ("vpn_connection", "vpn_connection_route", "dx_gateway", "dx_gateway_association", "dx_private_virtual_interface", "ec2_transit_gateway_peering_attachment", "ec2_transit_gateway_connect", "ec2_transit_gateway_vpc_attachment", "vpc_endpoint_service", "networkfirewall_firewall")),
                                                                change("aws_vpn_connection.b", "update", {"id": "vpn-1", "transit_gateway_id": "tgw-1", "tags": {}}, {"id": "vpn-1", "transit_gateway_id": "tgw-1", "tags": {"a": "b"}}), change("aws_vpn_connection.c", "delete", {"id": "vpn-2", "vpn_gateway_id": "vgw-1"}, None), change("aws_customer_gateway.a", "create", None, {}, {"id": True})]),
     [f"{it}: {DOESNT}" for it in ("aws_vpn_connection.a", "aws_vpn_connection_route.a", "aws_dx_gateway.a", "aws_dx_gateway_association.a", "aws_dx_private_virtual_interface.a", "aws_ec2_transit_gateway_peering_attachment.a", "aws_ec2_transit_gateway_connect.a", "aws_ec2_transit_gateway_vpc_attachment.a", "aws_vpc_endpoint_service.a", "aws_networkfirewall_firewall.a", "aws_vpn_connection.c")], {}, []),
]

# Rows, the bundle that they are over, and how often they are drawn to be damaged.
BASES = [(ROWS, BASE, 1), (HOST_ROWS, HOSTS, 3), (FAR_ROWS, FAR, 3), (NODE_ROWS, NODES, 3), (AWAY_ROWS, AWAY, 3)]

# References through modules, data and variables: what the id of a group in a rule's block is, and what is told.
THROUGH = [
    ("an output of a module", refer("module.m.id"), {"m": {"expressions": {}, "module": module({}, outputs={"id": {"expression": refer("aws_security_group.in.id")}})}}, "module.m.aws_security_group.in"),
    ("an output of one instance of a module", {"references": ['module.m["x"].id', 'module.m["x"]', "module.m"]}, {"m": {"expressions": {}, "module": module({}, outputs={"id": {"expression": refer("aws_security_group.in.id")}})}}, 'module.m["x"].aws_security_group.in'),
    ("an object that is an output", refer("module.m.all.id"), {"m": {"expressions": {}, "module": module({}, outputs={"all": {"expression": {"references": ["aws_security_group.in"]}}})}}, "module.m.aws_security_group.in"),
    ("an output of a module that isn't there", refer("module.n.id"), {"m": {"expressions": {}, "module": module({})}}, None),
    ("a variable of what is no id", refer("var.nothing"), {}, None),
    ("a resource that isn't there", refer("aws_security_group.other.id"), {}, None),
    ("itself", refer("aws_security_group.in.id"), {}, None),
]

FILES = [
    ("a plan that isn't JSON", b'{"format_version": ', "it is not one JSON value in UTF-8"),
    ("a plan in lines", b'{"@level": "info"}\n{"@level": "info"}\n', "it is not one JSON value in UTF-8"),
    ("a plan that isn't UTF-8", b'{"format_version": "\xff"}', "it is not one JSON value in UTF-8"),
    ("a plan with a number that is none", b'{"format_version": NaN}', "it is not one JSON value in UTF-8"),
    ("a plan with a number that no float holds", b'{"format_version": "1.2", "resource_changes": [], "variables": {"a": {"value": -1e999}}}', "it is not one JSON value in UTF-8"),
    ("a plan with a number of 5,000 digits", b'{"format_version": "1.2", "resource_changes": [], "variables": {"a": {"value": %s}}}' % (b"1" * 5000), "it is not one JSON value in UTF-8"),
    ("a plan nested too deep", b"[" * 100000, "it is not one JSON value in UTF-8"),
    ("a list", b"[]", "it is not what `terraform show -json` prints"),
    ("a bundle in its place", json.dumps(BASE).encode(), "it is not what `terraform show -json` prints"),
    ("a state", b'{"format_version": "1.0", "values": {"root_module": {}}}', "it has neither resource_changes nor planned_values"),
    ("a format to come", b'{"format_version": "2.0", "resource_changes": []}', "its format_version is 2.0"),
    ("a plan that failed", b'{"format_version": "1.2", "errored": true, "planned_values": {}}', "making it failed, as its errored says"),
    ("changes that are none", b'{"format_version": "1.2", "resource_changes": [1]}', "its resource_changes is no list of objects"),
    ("a change without actions", b'{"format_version": "1.2", "resource_changes": [{"address": "a.b", "type": "a", "name": "b"}]}', "a row of its resource_changes tells no address, type, name and actions"),
]
BUNDLES = [
    ("a bundle that isn't JSON", b"{", "it is not one JSON value in UTF-8"),
    *((f"a bundle with {it[:9]}", b'{"Vpcs": [{"VpcId": "vpc-1", "Extra": %s}]}' % it.encode(), "it is not one JSON value in UTF-8") for it in ("NaN", "Infinity", "-Infinity", "1e999", "-1e999", MANY)),
    ("a number", b"1", "it is neither an object nor an array of objects"),
    ("an array of others", b"[{}, 1]", "it is neither an object nor an array of objects"),
    ("a plan in its place", b'{"format_version": "1.2", "resource_changes": []}', "it has none of a bundle's lists"),
    ("a list that is none", b'{"Vpcs": 1}', "its Vpcs is no list of objects"),
    ("rows that are none", b'{"SecurityGroupRules": [1]}', "its SecurityGroupRules is no list of objects"),
]


# ---- running

def planned(*words):
    """The status of plan-bundle, called within this process, and what it prints on standard output and standard error."""
    out, err = io.StringIO(), io.StringIO()
    with contextlib.redirect_stdout(out), contextlib.redirect_stderr(err):
        status = script.main(list(words))
    return status, out.getvalue(), err.getvalue().splitlines()


def process(*words):
    """The same of plan-bundle as a process."""
    ran = subprocess.run([os.path.join(TOP, "plan-bundle"), *words], capture_output=True, text=True, check=False)
    return ran.returncode, ran.stdout, ran.stderr.splitlines()


def put(path, value):
    with open(path, "w", encoding="utf-8") as file:
        json.dump(value, file)
    return path


class Results:
    def __init__(self):
        self.passed = self.failed = 0

    def add(self, name, found, wanted):
        if found == wanted:
            self.passed += 1
            return
        self.failed += 1
        print(f"FAILED: {name}")
        if isinstance(found, dict) and isinstance(wanted, dict):
            for it in {**wanted, **found}:
                if found.get(it) != wanted.get(it):
                    print(f"  {it}\n    wanted: {json.dumps(wanted.get(it))}\n    found:  {json.dumps(found.get(it))}")
            return
        print(f"  wanted: {wanted}\n  found:  {found}")


def last_line(program, *words):
    ran = subprocess.run([program, *words], capture_output=True, text=True, check=False)
    return ran.stdout.splitlines()[-1] if ran.stdout else ran.stderr


def run_row(results, row, room, program, base):
    name, value, told, edits, packets = row
    paths = put(os.path.join(room, "plan.json"), value), put(os.path.join(room, "bundle.json"), base)
    status, out, err = planned(*paths)
    results.add(name, (status, err), (1 if told else 0, lines_of(told)))
    results.add(f"{name}: the bundle", json.loads(out), edited(edits, base))
    if program:
        path = put(os.path.join(room, "planned.json"), json.loads(out))
        start = next(it["NetworkInterfaceId"] for it in json.loads(out)["NetworkInterfaces"] if it.get("InterfaceType") != "nat_gateway")
        results.add(f"{name}: taken by the program", last_line(program, "trace", path, *TO_DB.replace("eni-web", start).split()).split()[0] in ("arrived", "stopped"), True)
        for packet, last in packets:
            results.add(f"{name}: {packet}", last_line(program, "trace", path, *packet.split()), last)


def run_through(results, row, room):
    """A rule of sg-db from a group that is found by an expression."""
    name, expression, calls, wanted = row
    address = wanted or "module.m.aws_security_group.in"
    values = {it: value for it, value in rule("ingress", "sg-db", "tcp", 22, 22).items() if it != "source_security_group_id"}
    changes = [change(address, "create", None, group("in"), NEW_GROUP), change("aws_security_group_rule.a", "create", None, values, {"source_security_group_id": True})]
    value = plan(changes, {"aws_security_group_rule.a": {"source_security_group_id": expression}}, calls, variables={"nothing": {"value": "x"}})
    status, out, err = planned(put(os.path.join(room, "plan.json"), value), put(os.path.join(room, "bundle.json"), BASE))
    found = [it["UserIdGroupPairs"][0]["GroupId"] for it in row_of(json.loads(out), "SecurityGroups", "sg-db")["IpPermissions"] if it["FromPort"] == 22]
    results.add(name, (status, found, len(err)), (0, [wanted], 0) if wanted else (1, [], 2))


def run_files(results, room):
    good = put(os.path.join(room, "plan.json"), plan([])), put(os.path.join(room, "bundle.json"), BASE)
    path = os.path.join(room, "odd.json")
    for what, rows in (("plan", FILES), ("bundle", BUNDLES)):
        for name, data, why in rows:
            with open(path, "wb") as file:
                file.write(data)
            words = (path, good[1]) if what == "plan" else (good[0], path)
            results.add(name, planned(*words), (2, "", [f"plan-bundle: {path} is no {what}: {why}"]))
    os.remove(path)
    name = os.path.join(room, "x\nnot applied: x\x1b[2J")
    results.add("a name that would be a line", (planned(name, good[1])[::2], planned(good[0], name)[::2]), ((2, [f"plan-bundle: {json.dumps(name)} can't be read: No such file or directory"]),) * 2)
    with open(name, "wb") as file:
        file.write(b"{}")
    results.add("a file of such a name", planned(good[0], name), (2, "", [f"plan-bundle: {json.dumps(name)} is no bundle: it has none of a bundle's lists"]))
    os.remove(name)
    results.add("no such plan", planned(path, good[1]), (2, "", [f"plan-bundle: {path} can't be read: No such file or directory"]))
    results.add("no such bundle", planned(good[0], path), (2, "", [f"plan-bundle: {path} can't be read: No such file or directory"]))
    results.add("a folder", planned(room, good[1]), (2, "", [f"plan-bundle: {room} can't be read: Is a directory"]))
    for words in ([], [good[0]], [*good, good[1]], ["--all", good[1]], [good[0], "-"], ["", good[1]]):
        results.add(f"words {words}", planned(*words), (2, "", ["plan-bundle: PLAN.json and BUNDLE are meant; --help says more"]))
    results.add("--help", planned("--help")[1].splitlines()[:1], ["Tells how a bundle will be after a Terraform plan is applied: plan-bundle PLAN.json BUNDLE"])
    results.add("as a process", (process(*good)[0], json.loads(process(*good)[1]), process(*good)[2]), (0, BASE, []))
    with open("/dev/full", "w", encoding="utf-8") as full:
        ran = subprocess.run([os.path.join(TOP, "plan-bundle"), *good], stdout=full, stderr=subprocess.PIPE, text=True, check=False)
    results.add("a full disk", (ran.returncode, ran.stderr), (2, "plan-bundle: the bundle can't be written: No space left on device\n"))


def run_accounts(results, room):
    """Several accounts: a new VPC is of the account that the plan is about, and a group's rows are of its own."""
    other = {"Vpcs": [{"VpcId": "vpc-2", "CidrBlock": "10.2.0.0/16", "OwnerId": "444455556666"}], "SecurityGroups": [], "SecurityGroupRules": []}
    changes = [change(A_VPC, "create", None, {"cidr_block": "10.5.0.0/16"}, NEW_VPC), no_op("aws_vpc.b", {"id": "vpc-2"}), change("aws_security_group.a", "create", None, group("a", "vpc-2", ingress=[block("-1", 0, 0, self=True)], egress=[]), {"id": True})]
    bundle = put(os.path.join(room, "bundle.json"), [BASE, other])
    status, out, err = planned(put(os.path.join(room, "plan.json"), plan(changes)), bundle)
    found = json.loads(out)
    results.add("two accounts", (status, err, found[0]), (0, [], BASE))
    results.add("two accounts: the second", ([it["VpcId"] for it in found[1]["Vpcs"]], [(it["GroupId"], it["OwnerId"]) for it in found[1]["SecurityGroups"]], len(found[1]["SecurityGroupRules"])),
                (["vpc-2", A_VPC], [(f"{A_VPC}.default_security_group_id", "444455556666"), ("aws_security_group.a", "444455556666")], 3))
    status, out, err = planned(put(os.path.join(room, "plan.json"), plan(changes[:1])), bundle)
    results.add("two accounts, and none of them told", (status, json.loads(out), err), (1, [BASE, other], lines_of(["aws_vpc.a: which of the bundle's accounts it is made in isn't told"])))
    gateways = [change(VGW, "create", None, {"vpc_id": "vpc-2"}, {"id": True}), change("aws_vpn_gateway.b", "create", None, {}, {"id": True, "vpc_id": True})]
    status, out, err = planned(put(os.path.join(room, "plan.json"), plan(gateways, {"aws_vpn_gateway.b": {}})), bundle)
    results.add("two accounts: a gateway of a VPC, and one of none", (status, json.loads(out), err),
                (1, [BASE, {**other, "VpnGateways": [new_gateway(VGW, "vpc-2")]}], lines_of(["aws_vpn_gateway.b: which of the bundle's accounts it is made in isn't told"])))


def run_listed(results, room, program):
    """Groups whose list and permissions aren't the same, as where the list was edited. While the list has a rule of IPv4, permissions don't count."""
    old, six = [permission("tcp", (1, 65535), IpRanges=[{"CidrIp": "0.0.0.0/0"}])], [permission("tcp", (22, 22), Ipv6Ranges=[{"CidrIpv6": "::/0"}])]
    listed_six = listed("sgr-6", "sg-db", False, "tcp", 22, 22, CidrIpv6="::/0")
    goes = change("aws_security_group_rule.a", "delete", rule("ingress", "sg-db", "tcp", 5432, 5432, source_security_group_id="sg-web"), None)
    comes = change("aws_security_group_rule.b", "create", None, rule("ingress", "sg-db", "tcp", 22, 22, source_security_group_id="sg-web"))
    for name, more, inward, changes, wanted, last in (
        ("its only rule goes", [], old, [goes], [], "stopped GroupsIn eni-db -"), ("its only rule of IPv4 goes", [listed_six], old + six, [goes], six, "stopped GroupsIn eni-db -"),
        ("and another one comes", [], old, [goes, comes], [permission("tcp", (22, 22), UserIdGroupPairs=[pair("sg-web")])], "stopped GroupsIn eni-db -"),
    ):
        bundle = copy.deepcopy(BASE)
        row_of(bundle, "SecurityGroups", "sg-db")["IpPermissions"] = copy.deepcopy(inward)
        bundle["SecurityGroupRules"] += more
        status, out, err = planned(put(os.path.join(room, "plan.json"), plan(changes)), put(os.path.join(room, "bundle.json"), bundle))
        found = row_of(json.loads(out), "SecurityGroups", "sg-db")
        results.add(f"a list of its own: {name}", (status, err, found["IpPermissions"]), (0, [], wanted))
        if program:
            results.add(f"a list of its own: {name}: packets", last_line(program, "trace", put(os.path.join(room, "planned.json"), json.loads(out)), *TO_DB.split()), last)
    bundle = copy.deepcopy(BASE)
    bundle["SecurityGroupRules"] = [it for it in bundle["SecurityGroupRules"] if it["GroupId"] != "sg-db"] + [listed_six]
    status, out, err = planned(put(os.path.join(room, "plan.json"), plan([comes])), put(os.path.join(room, "bundle.json"), bundle))
    results.add("a list of IPv6 alone: permissions still count", (status, err, row_of(json.loads(out), "SecurityGroups", "sg-db")["IpPermissions"], json.loads(out)["SecurityGroupRules"][-1]["SecurityGroupRuleId"]),
                (0, [], [IN_5432, permission("tcp", (22, 22), UserIdGroupPairs=[pair("sg-web")])], "sgr-6"))
    if program:
        results.add("a list of IPv6 alone: packets", last_line(program, "trace", put(os.path.join(room, "planned.json"), json.loads(out)), *TO_DB.split()), "arrived eni-db")


def run_bases(results, room, program):
    """Bundles that are otherwise than BASE."""
    def told(bundle, value):
        status, out, err = planned(put(os.path.join(room, "plan.json"), value), put(os.path.join(room, "bundle.json"), bundle))
        return status, json.loads(out), err

    bundle = copy.deepcopy(BASE)
    for row in bundle["RouteTables"]:
        row["Associations"] = [it for it in row["Associations"] if it.get("Main") is not True]
    wanted = (1, bundle, lines_of(["aws_subnet.a: the bundle doesn't tell the main route table of vpc-1"]))
    results.add("a subnet of a VPC without a main table", told(bundle, plan([change("aws_subnet.a", "create", None, subnet("10.1.3.0/24", vpc_id="vpc-1"), NEW_SUBNET)])), wanted)
    bundle = copy.deepcopy(BASE)
    bundle["Vpcs"][0]["Ipv6CidrBlockAssociationSet"] = [{"Ipv6CidrBlock": "2001:db8::/56", "Ipv6CidrBlockState": {"State": "associated"}}]
    status, found, err = told(bundle, plan([change("aws_route_table.a", "create", None, {"vpc_id": "vpc-1", "route": []}, {"id": True})]))
    routes = [(it.get("DestinationCidrBlock"), it.get("DestinationIpv6CidrBlock"), it["GatewayId"]) for it in row_of(found, "RouteTables", "aws_route_table.a")["Routes"]]
    results.add("a table of a VPC with a block of IPv6", (status, err, routes), (0, [], [("10.1.0.0/16", None, "local"), (None, "2001:db8::/56", "local")]))
    run_listed(results, room, program)
    bundle = copy.deepcopy(HOSTS)
    bundle["Reservations"][0]["Instances"][0]["State"] = {"Name": "stopped"}
    ties = [{"id": "a", "device_index": index, "network_interface_id": "eni-web", "instance_id": it} for index, it in ((0, "i-web"), (1, "i-db"))]
    status, found, err = told(bundle, plan([change("aws_network_interface_attachment.a", "delete create", *ties)]))
    instances = [(it["InstanceId"], [eni_["NetworkInterfaceId"] for eni_ in it["NetworkInterfaces"]]) for row in found["Reservations"] for it in row["Instances"]]
    results.add("an interface leaves an instance that is stopped", (status, err, instances), (0, [], [("i-web", ["eni-two"]), ("i-db", ["eni-db", "eni-web"])]))
    if program:
        lasts = [last_line(program, "trace", put(os.path.join(room, "planned.json"), it), *TO_DB.split()) for it in (bundle, found)]
        results.add("an interface leaves an instance that is stopped: packets", lasts, ["stopped Detached eni-web -", "arrived eni-db"])
    values = {it: value for it, value in rule("ingress", "sg-db", "tcp", 22, 22).items() if it != "source_security_group_id"}
    changes = [change("aws_security_group.in[0]", "create", None, group("in"), NEW_GROUP), change("aws_security_group.in[1]", "delete", {"id": "sg-old", "vpc_id": "vpc-1"}, None),
               change("aws_security_group_rule.a[0]", "create", None, values, {"source_security_group_id": True})]
    by_number = {"source_security_group_id": {"references": ["aws_security_group.in", "count.index"]}, "count_expression": {"constant_value": 1}}
    status, found, err = told(BASE, plan(changes, {"aws_security_group_rule.a": by_number}))
    groups = [it["UserIdGroupPairs"][0]["GroupId"] for it in row_of(found, "SecurityGroups", "sg-db")["IpPermissions"] if it["FromPort"] == 22]
    results.add("a reference by its number to what is left of several", (status, err, groups), (0, [], ["aws_security_group.in[0]"]))


# ---- a plan by Terraform itself

def facts(bundle):
    """What a bundle says, in words that don't depend on the order of its rows. What moto leaves out is left out: the last rows of new ACLs,
    and types of ICMP."""
    found = {("subnet", it["SubnetId"], it["VpcId"], it["CidrBlock"], it["AvailabilityZone"]) for it in bundle["Subnets"]}
    for it in bundle["SecurityGroups"]:
        for name in ("IpPermissions", "IpPermissionsEgress"):
            for row in it[name]:
                head = ("permission", it["GroupId"], name, row["IpProtocol"], row.get("FromPort"), row.get("ToPort"))
                found |= {(*head, value) for inner in ("IpRanges", "Ipv6Ranges", "PrefixListIds", "UserIdGroupPairs") for target in row.get(inner, [])
                          for key, value in target.items() if key not in ("UserId", "Description")}
    for it in bundle["SecurityGroupRules"]:
        target = next(it[name] for name in ("CidrIpv4", "CidrIpv6", "PrefixListId", "ReferencedGroupInfo") if it.get(name))
        found.add(("rule", it["GroupId"], it["IsEgress"], it["IpProtocol"], it["FromPort"], it["ToPort"], target["GroupId"] if isinstance(target, dict) else target))
    for it in bundle["NetworkAcls"]:
        found |= {("acl", it["NetworkAclId"], row["SubnetId"]) for row in it["Associations"]}
        found |= {("row", it["NetworkAclId"], row["RuleNumber"], row["Egress"], row["CidrBlock"], row["Protocol"], row["RuleAction"], str(row.get("PortRange") if row["Protocol"] == "6" else ""))
                  for row in it["Entries"] if row["RuleNumber"] < 32767}
    for it in bundle["RouteTables"]:
        found |= {("table", it["RouteTableId"], row.get("SubnetId"), row.get("GatewayId"), row["Main"]) for row in it["Associations"]}
        found |= {("route", it["RouteTableId"], row.get("DestinationCidrBlock"), row.get("DestinationPrefixListId"), row.get("GatewayId"), row.get("NetworkInterfaceId"), row["State"]) for row in it["Routes"]}
    for it in bundle["NetworkInterfaces"]:
        found.add(("interface", it["NetworkInterfaceId"], it["SubnetId"], it["PrivateIpAddress"], *sorted(row["PrivateIpAddress"] for row in it["PrivateIpAddresses"]),
                   *sorted(row["GroupId"] for row in it["Groups"]), it["SourceDestCheck"], it["Status"]))
    found |= {("gateway", it["VpnGatewayId"], row["VpcId"], row["State"]) for it in bundle.get("VpnGateways", []) for row in it["VpcAttachments"]}
    found |= {("endpoint", it["VpcEndpointId"], it["VpcEndpointType"], it["VpcId"], it["ServiceName"], it["State"], *sorted(it["RouteTableIds"]), *sorted(it["NetworkInterfaceIds"]))
              for it in bundle.get("VpcEndpoints", [])}
    return found


def stored(name):
    with open(os.path.join(PLANS, name), encoding="utf-8") as file:
        return json.load(file)


def run_terraform(results, name, wanted):
    """Compares what is planned with what was collected after the apply. What is told may be otherwise, and the rules of a group that moto
    didn't change."""
    told, otherwise, least = wanted
    status, out, err = planned(*(os.path.join(PLANS, it) for it in (f"{name}.json", f"{name}-before.json")))
    results.add(f"the {name} plan", (status, err), (1 if told else 0, lines_of(told)))
    for address, found in stored(f"{name}-ids.json").items():
        out = out.replace(json.dumps(address), json.dumps(found))
    ours, theirs = facts(json.loads(out)), facts(stored(f"{name}-after.json"))
    results.add(f"the {name} plan: otherwise", {it[:2] for it in ours ^ theirs}, {(kind, it) for kind in ("permission", "rule") for it in otherwise})
    results.add(f"the {name} plan: alike", len(ours & theirs) >= least, True)


# ---- damage

def damaged(value, source):
    """A value with one of its parts exchanged, taken away or doubled."""
    value = copy.deepcopy(value)
    places = []

    def walk(part):
        if isinstance(part, (dict, list)):
            for key in part if isinstance(part, dict) else range(len(part)):
                places.append((part, key))
                walk(part[key])

    walk(value)
    part, key = source.choice(places)
    kind = source.randrange(3)
    if kind == 0:
        del part[key]
    elif kind == 1 and isinstance(part, list):
        part.append(copy.deepcopy(part[key]))
    else:
        part[key] = source.choice([None, True, 0, -1, 1.5, "", "x", "sg-web", [], [None], {}, {"id": True}, [[]], ["sg-db"], "10.0.0.0/8", "aws_vpc.a", "x\nnot applied: x\x1b[2J\x9b\u202e", MANY, 10 ** 400, 1e308])
    return value


def run_damage(results, room, cases):
    source = random.Random(7)
    odd = []
    for number in range(cases):
        row, bundle = source.choice([(row, base) for rows, base, many in BASES for row in rows * many])
        value = row[1]
        if source.random() < 0.7:
            value = damaged(value, source)
        else:
            bundle = damaged(bundle, source)
        paths = put(os.path.join(room, "plan.json"), value), put(os.path.join(room, "bundle.json"), bundle)
        try:
            status, out, err = planned(*paths)
        except Exception as why:  # pylint: disable=broad-exception-caught
            odd.append((number, row[0], "".join(traceback.format_exception(why)[-3:])))
            continue
        if status not in (0, 1, 2) or (status == 2) != (out == "") or bool(status) != bool(err) or status == 2 and len(err) != 1:
            odd.append((number, row[0], status, err))
        if any("unexpected" in it or not it.isascii() or not it.isprintable() for it in err):
            odd.append((number, row[0], err))
        if status == 1 and (any(not it.startswith("not applied: ") for it in err[:-1]) or not re.fullmatch("[0-9]+ changes not applied", err[-1])):
            odd.append((number, row[0], err))
    results.add(f"{cases} damaged plans and bundles", odd[:3], [])


def main(words):
    if len(words) > 1:
        sys.exit(__doc__)
    program = os.path.abspath(words[0]) if words else None
    results = Results()
    with tempfile.TemporaryDirectory() as room:
        for rows, base, _ in BASES:
            for row in rows:
                run_row(results, row, room, program, base)
        for row in THROUGH:
            run_through(results, row, room)
        run_files(results, room)
        run_bases(results, room, program)
        run_accounts(results, room)
        for name, wanted in TERRAFORM.items():
            run_terraform(results, name, wanted)
        run_damage(results, room, 3000)
    print(f"{results.passed} passed, {results.failed} failed")
    return 1 if results.failed else 0


if __name__ == "__main__":
    sys.exit(main(sys.argv[1:]))
