#!/usr/bin/env python3
"""Times `diff` of large accounts and of copies with one rule or one host more, beside the program's own reading of the two files.

Usage: python3 bench/diff.py [PROGRAM]     (default: the program that ./vpc builds)

The accounts are those of reach.py: 20,000 interfaces in 40 VPCs, for questions from the internet and to one host, and 480 hosts in 8 VPCs
over a transit gateway, for all to all. The rule lets SSH, or port 8080, into one group from everywhere. Each is asked about its copy, the
copy about it, about itself, and about a copy with a host more of that group. 'Beyond reading' is what a question takes more than `trace` of
one packet in the one file and in the other.
"""

import json

import reach
import wide
from measuring import measured, program, written


def one_rule_more(make, group, port):
    """The account that is made of a count, with a rule more in one of its groups."""
    def made(count):
        whole = make(count)
        rows = next(it for it in whole["SecurityGroups"] if it["GroupId"] == group)["IpPermissions"]
        rows.append({"IpProtocol": "tcp", "FromPort": port, "ToPort": port, "IpRanges": [{"CidrIp": "0.0.0.0/0"}]})
        return whole
    return made


def one_host_more(make, like, address):
    """The account that is made of a count, with a copy of one of its interfaces that has an id and an address of its own."""
    def made(count):
        whole = make(count)
        row = json.loads(json.dumps(next(it for it in whole["NetworkInterfaces"] if it["NetworkInterfaceId"] == like)))
        row["NetworkInterfaceId"] += "-more"
        row["PrivateIpAddress"] = address
        row["PrivateIpAddresses"] = [{"PrivateIpAddress": address, "Primary": True}]
        whole["NetworkInterfaces"].append(row)
        return whole
    return made


# Words of questions about the wide accounts, and about the others.
WIDE = ["from internet", "from internet port 22-22", "to eni-3-8", "to eni-3-9"]
SMALL = ["", "port 8080-8080", "max 1"]


def read(path, packet):
    """The time for one packet in a file, which is mostly that of reading it."""
    command = [program(), "trace", path, *packet.split()]
    _, status, _ = wide.once(command)
    return measured(command, status)[0]


def told(name, before, after, grown, packet, questions):
    times = {path: read(path, packet) for path in (before, after, grown)}
    print(f"{name}: reading and one walk {times[before]:.2f} and {times[after]:.2f} s")
    print("| files | words | answer | time | beyond reading | peak |\n|---|---|---|---:|---:|---:|")
    for files, pair in (("a rule more", (before, after)), ("a rule less", (after, before)), ("the same", (before, before)), ("a host more", (before, grown))):
        reading = sum(times[path] for path in pair)
        for words in questions:
            command = [program(), "diff", *pair, *words.split()]
            took, status, first = wide.once(command)
            if took is None:
                print(f"| {files} | {words} | {first} | | | |")
                continue
            took, peak = measured(command, status) if took < 5 else (took, 0)
            print(f"| {files} | {words} | {first}, status {status} | {took:.2f} s | {took - reading:.2f} s | {peak:.0f} MiB |", flush=True)


def main():
    packet = "open from eni-3-9 tcp 10.3.32.5 10.3.32.6 5000 443"
    before = written(f"wide-{wide.VPCS}.json", wide.account, wide.VPCS)
    after = written(f"wide-{wide.VPCS}-ssh.json", one_rule_more(wide.account, "sg-3-8", 22), wide.VPCS)
    grown = written(f"wide-{wide.VPCS}-host.json", one_host_more(wide.account, "eni-3-8", "10.3.31.250"), wide.VPCS)
    told("20,000 interfaces", before, after, grown, packet, WIDE)
    before = written("all-to-all.json", reach.all_to_all, reach.HOSTS)
    after = written("all-to-all-8080.json", one_rule_more(reach.all_to_all, "sg-0-0", 8080), reach.HOSTS)
    grown = written("all-to-all-host.json", one_host_more(reach.all_to_all, "eni-0-0", "10.0.0.250"), reach.HOSTS)
    told("480 interfaces", before, after, grown, "open from eni-0-0 tcp 10.0.0.10 10.0.0.11 0 443", SMALL)


if __name__ == "__main__":
    main()
