"""What `trace` costs: a small bundle as a whole process, and whole accounts by what is done, beside python3's json.load.

Usage: python3 bench/trace.py [PROGRAM]     (default: the program that ./vpc builds)

All are processor times (user and system), each the least of some runs. The stages of an account are differences: PROGRAM on the
same text as a member that no list has (the JSON reading alone), on the account with an END that is no interface (rows and
acceptance besides), and with a packet from the first host to the last one (look-ups, walk and text besides). What the look-ups take of
that is told in instructions by lookups.py.
"""

import json
import os
import sys

import accounts
from measuring import OUT, RUNS, TOP, measured, program, written

SMALL = [("one-subnet.json", "open from eni-a tcp 10.0.1.10 10.0.1.20 5000 443".split()),
         ("three-tiers.json", "open from eni-app-a-1 tcp 10.20.16.4 198.51.100.7 40000 443".split())]


def used(words):
    """The least processor time, in seconds, of some runs."""
    best = None
    for _ in range(RUNS):
        child = os.posix_spawn(words[0], words, os.environ, file_actions=[(os.POSIX_SPAWN_OPEN, 1, os.devnull, os.O_WRONLY, 0)])
        _, status, usage = os.wait4(child, 0)
        if os.waitstatus_to_exitcode(status) not in (0, 1, 4, 5):
            sys.exit(f"failed: {' '.join(words)}")
        took = usage.ru_utime + usage.ru_stime
        best = took if best is None else min(best, took)
    return best


def account(count):
    """An account whose groups have 20 rules each."""
    return with_rules(accounts.account(count, True))


def joined(count):
    """The same, whose groups belong to several VPCs and are named over its transit gateway."""
    return with_rules(accounts.joined(count, True))


def delegated(count):
    """The same, whose hosts have 16 delegated prefixes each."""
    return with_rules(accounts.delegated(count, True))


def with_rules(whole):
    for group in whole["SecurityGroups"]:
        rules = group["IpPermissions"]
        group["IpPermissions"] = (rules * (20 // max(1, len(rules)) + 1))[:20]
    return whole


def bare(path):
    """The same JSON where none of it is a list that is read."""
    other = path.replace(".json", "-bare.json")
    with open(path) as file, open(other, "w") as out:
        out.write('{"read-over":' + file.read() + "}")
    return other


def packet(path):
    with open(path) as file:
        hosts = [e for e in json.load(file)["NetworkInterfaces"] if e.get("InterfaceType") != "nat_gateway"]
    first, last = hosts[0], hosts[-1]
    return ["open", "from", first["NetworkInterfaceId"], "tcp", first["PrivateIpAddress"], last["PrivateIpAddress"], "5000", "443"]


def row(count, made=account):
    path = written(f"{made.__name__}-{count}.json", made, count, separators=(",", ":"))
    words = packet(path)
    nowhere = [*words[:2], "eni-nowhere", *words[3:]]
    alone = used([program(), "trace", bare(path), *nowhere])
    rows = used([program(), "trace", path, *nowhere])
    whole = used([program(), "trace", path, *words])
    theirs = used([sys.executable, "-c", f"import json; json.load(open({path!r}))"]) - used([sys.executable, "-c", "import json"])
    _, peak = measured([program(), "trace", path, *words], code=answered(path, words))
    size = os.path.getsize(path) / 2**20
    print(f"| {count:,}{f', {made.__name__}' * (made is not account)} | {size:.1f} MiB | {whole * 1e3:.0f} ms | {whole / theirs:.2f} | {alone * 1e3:.0f} ms | {(rows - alone) * 1e3:.0f} ms"
          f" | {(whole - rows) * 1e3:.0f} ms | {(whole - alone) / alone:.2f} | {peak:.0f} MiB |", flush=True)


def answered(path, words):
    """The exit code of the packet's walk."""
    child = os.posix_spawn(program(), [program(), "trace", path, *words], os.environ, file_actions=[(os.POSIX_SPAWN_OPEN, 1, os.devnull, os.O_WRONLY, 0)])
    return os.waitstatus_to_exitcode(os.waitpid(child, 0)[1])


def main():
    print("| example | file | a whole process |\n|---|---:|---:|")
    for name, words in SMALL:
        path = os.path.join(TOP, "examples", name)
        print(f"| {name} | {os.path.getsize(path) / 1024:.0f} KiB | {used([program(), 'trace', path, *words]) * 1e3:.1f} ms |")
    print("\n| interfaces | file | trace | of json.load | JSON alone | rows, acceptance | look-ups, walk, text | all but JSON, of the JSON | peak |")
    print("|---:|---:|---:|---:|---:|---:|---:|---:|---:|")
    os.makedirs(OUT, exist_ok=True)
    for count in (1_000, 10_000, 100_000):
        row(count)
    for made in (joined, delegated):
        row(10_000, made)


if __name__ == "__main__":
    main()
