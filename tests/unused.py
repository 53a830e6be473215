"""Compares `unused` with `ask`, rule by rule, on networks that are made at random.

    python3 tests/unused.py PROGRAM [--seed N] [--cases N] [--rules N] [FILE ..]

Of each network (networks.py, and each FILE) some rules of an answer are taken out of the bundle, one at a time. The packet that needs a rule must
be told of otherwise by `ask` about the bundle without it; packets of the query before that one, and all packets where the rule is unused, must not:
some by chance, and those at the edges of the rule. A line for each answer that differs.
"""

import argparse
import copy
import glob
import ipaddress
import json
import os
import random
import subprocess
import sys
import tempfile

import networks

TOP = os.path.dirname(os.path.dirname(os.path.abspath(__file__)))
PORTS = (0, 1, 22, 79, 80, 81, 442, 443, 444, 1024, 5000, 5001, 8080, 32767, 32768, 65535)
# what these stops carry isn't all told
PART_TOLD = {"Loop", "TooFar", "WrongPlace", "WrongReturn"}


class Run:
    """A program, what it was asked, and what differed."""

    def __init__(self, program):
        self.program, self.asked, self.wrong, self.seen = program, 0, [], {"needed": 0, "unused": 0, "passed over": 0}

    def answer(self, *words):
        self.asked += 1
        got = subprocess.run([self.program, *words], stdout=subprocess.PIPE, stderr=subprocess.PIPE, check=False)
        if got.stderr:
            self.note(words, "an error: " + got.stderr.decode()[:200])
        return got.returncode, got.stdout.decode()

    def note(self, words, what):
        self.wrong.append(f"{' '.join(words)}: {what}")
        print(self.wrong[-1], flush=True)

    def fate(self, path, ends, header):
        """What becomes of one packet: nothing stops it, or the phase, the name, the id and the rule of what does."""
        proto, src, dst, p, q = header.split(" ")
        words = ["ask", path, *ends, "proto", proto, "src", f"{src}/32", "dst", f"{dst}/32"]
        if proto in ("tcp", "udp", "icmp"):
            words += ["sport", f"{p}-{p}", "port", f"{q}-{q}"]
        code, text = self.answer(*words)
        if code == 0:
            return ()
        rows = [line.split(" ")[2:6] for line in text.split("\n") if line.startswith("row ")]
        if code != 1 or len(rows) != 1:
            self.note(words, f"status {code}: {text[:200]!r}")
        return tuple(rows[0]) if rows else None


def rows_of(bundle, rule):
    """The list of the bundle in which a rule stands, and its place there; none where they can't be told by the name."""
    whole, (owner, way, name) = bundle if isinstance(bundle, dict) else {}, rule
    for group in whole.get("SecurityGroups") or []:
        if group["GroupId"] == owner and name.isdigit() and not whole.get("SecurityGroupRules"):
            return group.get("IpPermissions" if way == "in" else "IpPermissionsEgress") or [], int(name) - 1
    for acl in whole.get("NetworkAcls") or []:
        if acl["NetworkAclId"] == owner:
            places = [k for k, row in enumerate(acl["Entries"]) if row["Egress"] == (way == "out") and str(row["RuleNumber"]) == name]
            return acl["Entries"], places[0] if len(places) == 1 else None
    return [], None


def number_of(header):
    proto, src, dst, p, q = header.split(" ")
    known = {"icmp": 1, "tcp": 6, "udp": 17}
    return (known.get(proto) or int(proto), int(ipaddress.ip_address(src)), int(ipaddress.ip_address(dst)), int(p), int(q))


def headers_near(rng, sides):
    """Some packets of the query's box."""
    proto, src, dst = sides
    for _ in range(6):
        p, q = (rng.choice(PORTS), rng.choice(PORTS)) if proto in ("tcp", "udp") else (0, 0)
        yield f"{proto} {src} {dst} {p} {q}"


def check_rule(run, path, bundle, ends, sides, line, folder, rng):
    rule, need = line[1:4], line[5:] if line[4] == "needed" else None
    rows, place = rows_of(bundle, rule)
    if place is None or place >= len(rows):
        run.seen["passed over"] += 1
        return
    without = copy.deepcopy(bundle)
    del rows_of(without, rule)[0][place]
    other = os.path.join(folder, "without.json")
    with open(other, "w", encoding="utf-8") as file:
        json.dump(without, file)
    words = ("unused", path, *ends, "rule", *rule)
    run.seen["needed" if need else "unused"] += 1
    if need:
        header = " ".join(need)
        before, after = run.fate(path, ends, header), run.fate(other, ends, header)
        if before == after and not (before and before[1] in PART_TOLD):
            run.note(words, f"{header} is told the same: {before}")
    for header in headers_near(rng, sides):
        if need and number_of(header) >= number_of(" ".join(need)):
            continue
        before, after = run.fate(path, ends, header), run.fate(other, ends, header)
        if before != after:
            run.note(words, f"{header}: {before}, and without it {after}")


def ends_of(bundle):
    hosts = [row for row in (bundle.get("NetworkInterfaces") or []) if row.get("PrivateIpAddress") and "gateway" not in row.get("InterfaceType", "")]
    return [(row["NetworkInterfaceId"], row["PrivateIpAddress"]) for row in hosts]


def check(run, path, folder, rng, most):
    with open(path, "rb") as file:
        bundle = json.load(file)
    if not isinstance(bundle, dict) or len(ends_of(bundle)) < 2:
        return
    one, other = rng.sample(ends_of(bundle), 2)
    proto = rng.choice(("tcp", "tcp", "udp", "50"))
    ends = ["from", one[0], "to", other[0]]
    words = ["unused", path, *ends, "proto", proto]
    code, text = run.answer(*words)
    if code == 3 or text.startswith("refused unused TooManyRules"):
        return
    lines = [line.split(" ") for line in text.split("\n")]
    rules = lines[1:-1]
    if code != 0 or lines[0] != ["rules", str(len(rules))] or lines[-1] != [""] or any(line[0] != "rule" or line[4] not in ("needed", "unused") for line in rules):
        run.note(words, f"status {code}: {text[:200]!r}")
        return
    for line in rng.sample(rules, min(most, len(rules))):
        check_rule(run, path, bundle, ends, (proto, one[1], other[1]), line, folder, rng)


def check_limit(run, folder):
    """2,000 rules are judged, and one more is refused."""
    path = os.path.join(TOP, "crates", "cli_rows", "data", "two_thousand_and_one_rules.json")
    words = ["from", "eni-a", "to", "eni-b", "port", "443-443"]
    code, text = run.answer("unused", path, *words)
    if (code, text) != (4, "refused unused TooManyRules\n"):
        run.note((path, *words), f"status {code}: {text[:200]!r}")
    with open(path, "rb") as file:
        bundle = json.load(file)
    del bundle["SecurityGroups"][0]["IpPermissions"][-1]
    path = os.path.join(folder, "at_the_limit.json")
    with open(path, "w", encoding="utf-8") as file:
        json.dump(bundle, file)
    code, text = run.answer("unused", path, *words)
    if code != 0 or not text.startswith("rules 2000\n") or text.count("\nrule ") != 2000:
        run.note((path, *words), f"status {code}: {text[:200]!r}")


def main():
    words = argparse.ArgumentParser()
    words.add_argument("program")
    words.add_argument("files", nargs="*", metavar="FILE")
    words.add_argument("--seed", type=int, default=1)
    words.add_argument("--cases", type=int, default=40, help="how many networks are made")
    words.add_argument("--rules", type=int, default=12, help="how many rules of a network are taken out")
    given = words.parse_args()
    run, rng = Run(os.path.abspath(given.program)), random.Random(given.seed)
    with tempfile.TemporaryDirectory() as folder:
        check_limit(run, folder)
        for path in given.files or sorted(glob.glob(os.path.join(TOP, "examples", "*.json"))):
            check(run, path, folder, rng, given.rules)
        for number in range(given.cases):
            path = os.path.join(folder, f"{number}.json")
            with open(path, "wb") as file:
                file.write(networks.network(random.Random(given.seed * 1_000_003 + number)))
            check(run, path, folder, rng, given.rules)
    kinds = ", ".join(f"{count} {name}" for name, count in run.seen.items())
    print(f"{kinds}\n{run.asked - len(run.wrong)} passed, {len(run.wrong)} failed")
    sys.exit(1 if run.wrong else 0)


if __name__ == "__main__":
    main()
