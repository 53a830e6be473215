#!/usr/bin/env python3
"""Times `unused`: rules of a group, and hosts beside them.

Usage: python3 bench/unused.py [PROGRAM]     (default: the program that ./vpc builds)

The network is one VPC with two subnets and an ACL that allows all. Its group lets in TCP to a port of its own by each rule; the
query asks for all ports, which each rule that decides something divides, or for some 50 of them. What a rule takes is the difference to
one `ask` of the same file. The second table has as many rows of an ACL beside the rules, which stop replies to a port of its own each: the
query is divided on both sides.
"""

import measuring
from measuring import measured, program, written

ANYWHERE = "0.0.0.0/0"
OPEN = {"IpProtocol": "-1", "IpRanges": [{"CidrIp": ANYWHERE}]}


def host(number):
    """A host with an address of its own, ten thousand at most."""
    third, fourth = divmod(number, 200)
    return {"NetworkInterfaceId": f"eni-{number}", "SubnetId": f"subnet-{number % 2}", "PrivateIpAddress": f"10.0.{third}.{10 + fourth}", "Groups": [{"GroupId": "sg"}]}


def account(form):
    """So many hosts, and so many rules of their group."""
    hosts, rules = form
    entry = {"RuleNumber": 100, "Protocol": "-1", "RuleAction": "allow", "CidrBlock": ANYWHERE}
    # the outward permission and the two rows of the ACL are rules as well
    inward = [{"IpProtocol": "tcp", "FromPort": 10 * k + 10, "ToPort": 10 * k + 10, "IpRanges": [{"CidrIp": ANYWHERE}]} for k in range(rules - 3)]
    return {
        "Vpcs": [{"VpcId": "vpc", "CidrBlock": "10.0.0.0/16"}],
        "Subnets": [{"SubnetId": f"subnet-{k}", "VpcId": "vpc", "AvailabilityZone": "z"} for k in range(2)],
        "NetworkInterfaces": [host(k) for k in range(hosts)],
        "RouteTables": [{"RouteTableId": "rtb", "VpcId": "vpc", "Associations": [{"Main": True}], "Routes": [{"DestinationCidrBlock": "10.0.0.0/16", "GatewayId": "local"}]}],
        "NetworkAcls": [{"NetworkAclId": "acl", "Associations": [{"SubnetId": f"subnet-{k}"} for k in range(2)], "Entries": [{**entry, "Egress": False}, {**entry, "Egress": True}]}],
        "SecurityGroups": [{"GroupId": "sg", "VpcId": "vpc", "IpPermissions": inward, "IpPermissionsEgress": [OPEN]}],
    }


def divided(count):
    """So many rules of a group, and as many rows of the ACL of the subnet behind which the second host is."""
    whole = account((2, count + 3))
    acl = whole["NetworkAcls"][0]
    acl["Associations"] = acl["Associations"][:1]
    refused = [
        {"RuleNumber": k + 1, "Protocol": "6", "RuleAction": "deny", "Egress": True, "CidrBlock": ANYWHERE, "PortRange": {"From": 10 * k + 10, "To": 10 * k + 10}}
        for k in range(count)
    ]
    allowed = [{"RuleNumber": 30_000, "Protocol": "-1", "RuleAction": "allow", "Egress": egress, "CidrBlock": ANYWHERE} for egress in (False, True)]
    whole["NetworkAcls"].append({"NetworkAclId": "acl-1", "Associations": [{"SubnetId": "subnet-1"}], "Entries": refused + allowed})
    return whole


def both(count):
    words = [written(f"unused-both-{count}.json", divided, count), "from", "eni-0", "to", "eni-1", "proto", "6"]
    measuring.RUNS = 3 if count < 500 else 1
    took, peak = measured([program(), "unused", *words], 0)
    print(f"| {count:,} | {count:,} | {took:.2f} s | {peak:.0f} MiB |", flush=True)


def row(hosts, rules, ports):
    bundle = written(f"unused-{hosts}-{rules}.json", account, (hosts, rules))
    words = [bundle, "from", "eni-0", "to", "eni-1", "port", ports]
    took, peak = measured([program(), "unused", *words], 0)
    asked, _ = measured([program(), "ask", *words], 0)
    print(f"| {hosts:,} | {rules:,} | {ports} | {took * 1e3:.1f} ms | {asked * 1e3:.1f} ms | {(took - asked) / rules * 1e6:.0f} µs | {peak:.0f} MiB |", flush=True)


def main():
    print("| hosts | rules | ports | unused | one ask | a rule | peak |")
    print("|---:|---:|---|---:|---:|---:|---:|")
    for hosts in (2, 480):
        for rules, ports in ((200, "0-499"), (200, "0-65535"), (2000, "0-499"), (2000, "0-65535")):
            row(hosts, rules, ports)
    row(10_000, 200, "0-499")
    print("\n| rules of a group | rows of an ACL | unused | peak |")
    print("|---:|---:|---:|---:|")
    for count in (100, 200, 995):
        both(count)


if __name__ == "__main__":
    main()
