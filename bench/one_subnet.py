"""Prints a description of one subnet with N hosts, each in one of N / 10 security groups."""

import json
import sys


def address(k):
    return f"10.{k // 65536 % 256}.{k // 256 % 256}.{k % 256}"


def description(hosts):
    groups = max(2, hosts // 10)
    anywhere = [{"CidrIp": "0.0.0.0/0"}]
    return {
        "Vpcs": [{"VpcId": "vpc-1", "CidrBlock": "10.0.0.0/8"}],
        "Subnets": [{"SubnetId": "subnet-a", "VpcId": "vpc-1", "AvailabilityZone": "us-east-1a"}],
        "NetworkInterfaces": [
            {
                "NetworkInterfaceId": f"eni-{k}",
                "SubnetId": "subnet-a",
                "PrivateIpAddress": address(k + 10),
                "Groups": [{"GroupId": f"sg-{k % groups}"}],
            }
            for k in range(hosts)
        ],
        "RouteTables": [
            {
                "RouteTableId": "rtb-1",
                "VpcId": "vpc-1",
                "Associations": [{"Main": True}],
                "Routes": [{"DestinationCidrBlock": "10.0.0.0/8", "GatewayId": "local", "State": "active"}],
            }
        ],
        "SecurityGroups": [
            {
                "GroupId": f"sg-{g}",
                "VpcId": "vpc-1",
                "IpPermissions": [{"IpProtocol": "tcp", "FromPort": 443, "ToPort": 443, "IpRanges": anywhere}],
                "IpPermissionsEgress": [{"IpProtocol": "-1", "IpRanges": anywhere}],
            }
            for g in range(groups)
        ],
    }


if __name__ == "__main__":
    json.dump(description(int(sys.argv[1])), sys.stdout)
