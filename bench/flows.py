"""What `flows` costs: a flow log as large as a file may be, over accounts of some sizes.

Usage: python3 bench/flows.py [PROGRAM]     (default: the program that ./vpc builds)

Processor times (user and system) of whole processes, each the least of some runs. Beside each stand the time for reading alone, which
is PROGRAM on the same bundle with an empty log, and python3's `json.load` of the bundle. The lines tell of TCP between interfaces of one
VPC, half of them inside one subnet, each as it is seen at one of the two; every 16th was rejected, every 64th has no data, and every
128th tells of an interface that isn't described. A log stands there at a quarter, a half and the whole of its size, so that growth shows.
"""

import json
import os
import sys

import accounts
from measuring import OUT, program
from trace import used

LIMIT = 64 * 1024 * 1024
START = 1_700_000_000


def hosts_of(bundle):
    """The id and the address of each interface, by its VPC and subnet."""
    vpcs = {s["SubnetId"]: s["VpcId"] for s in bundle["Subnets"]}
    told = {}
    for e in bundle["NetworkInterfaces"]:
        told.setdefault(vpcs[e["SubnetId"]], {}).setdefault(e["SubnetId"], []).append((e["NetworkInterfaceId"], e["PrivateIpAddress"]))
    return [[subnets[s] for s in sorted(subnets)] for _, subnets in sorted(told.items())]


def line(k, hosts):
    subnets = hosts[k % len(hosts)]
    here = subnets[k * 7 % len(subnets)]
    there = here if k % 2 else subnets[k * 11 % len(subnets)]
    (eni, own), (_, far) = here[k * 13 % len(here)], there[(k * 17 + 1) % len(there)]
    port, service = 32768 + k % 28000, (443, 80, 22, 5432)[k % 4]
    ends = (own, far, port, service) if k % 3 else (far, own, port, service)
    when = f"{START + k // 100} {START + k // 100 + 60}"
    if k % 64 == 63:
        return f"2 111122223333 {eni} - - - - - - - {when} - NODATA"
    shown = "eni-0ffffffffffffffff" if k % 128 == 77 else eni
    action = "REJECT" if k % 16 == 15 else "ACCEPT"
    return f"2 111122223333 {shown} {ends[0]} {ends[1]} {ends[2]} {ends[3]} 6 {1 + k % 40} {40 + k % 60000} {when} {action} OK"


def log_of(bundle, most):
    """Lines up to so many bytes."""
    hosts, lines, size, k = hosts_of(bundle), [], 0, 0
    while True:
        text = line(k, hosts)
        size, k = size + len(text) + 1, k + 1
        if size > most:
            return lines
        lines.append(text)


def written(name, lines):
    path = os.path.join(OUT, name)
    with open(path, "w", encoding="ascii") as file:
        file.write("".join(text + "\n" for text in lines))
    return path


def loaded(path):
    """The time of json.load, in a process that has nothing else to do."""
    return used([sys.executable, "-c", f"import json; json.load(open({path!r}))"])


def main():
    os.makedirs(OUT, exist_ok=True)
    none = written("flows-none.txt", [])
    print("| interfaces | lines | log | flows | reading alone | beyond that | a line | json.load of the bundle |")
    print("|---:|---:|---:|---:|---:|---:|---:|---:|")
    for count in (1_000, 10_000):
        path = os.path.join(OUT, f"flows-{count}.json")
        with open(path, "w", encoding="ascii") as file:
            json.dump(accounts.account(count, True), file)
        with open(path, encoding="ascii") as file:
            lines = log_of(json.load(file), LIMIT)
        reading = used([program(), "flows", path, none])
        for part in (4, 2, 1):
            log = written(f"flows-{count}-{part}.txt", lines[: len(lines) // part])
            whole = used([program(), "flows", path, log])
            print(f"| {count:,} | {len(lines) // part:,} | {os.path.getsize(log) / 2**20:.0f} MiB | {whole:.2f} s | {reading:.2f} s"
                  f" | {whole - reading:.2f} s | {(whole - reading) / (len(lines) // part) * 1e6:.2f} µs | {loaded(path):.2f} s |", flush=True)


if __name__ == "__main__":
    main()
