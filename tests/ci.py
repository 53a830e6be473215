#!/usr/bin/env python3
"""What `check-network` says and ends with, and what the jobs of docs/ci/ make of it: tests/ci.py PROGRAM

`check-network` stands in a checkout of its own, whose launcher calls PROGRAM, and whose aws is tests/account/aws. It is called for
each outcome: nothing opens and the policy holds (0), something opens or a rule fails (1), it isn't known (9), and no answer (2), which
each step gives in turn; and under each shell that is there. Then the shell of both jobs is run as their runners would, with stand-ins for
terraform, git and what else they call, for each outcome. Nobody's GitHub or GitLab is asked. Without PyYAML the jobs' shell isn't run,
and without shellcheck nothing is said of the script's form; that is skipped. The last line is 'N passed, M failed, K skipped'.
"""

import hashlib
import json
import os
import re
import shutil
import subprocess
import sys
import tempfile

try:
    import yaml
except ImportError:
    yaml = None

TOP = os.path.dirname(os.path.dirname(os.path.abspath(__file__)))
EXAMPLES, PLANS, CI = (os.path.join(TOP, *it) for it in (("examples",), ("tests", "plans"), ("docs", "ci")))
SHOP, RULES, OPENS = (os.path.join(EXAMPLES, it) for it in ("shop.json", "shop.rules", "plan.json"))
SCRIPTS = ("collect-bundle", "explain", "picture", "plan-bundle", "survey")
SECRETS = {"AWS_SECRET_ACCESS_KEY": "secret-key-of-the-job", "AWS_SESSION_TOKEN": "secret-token-of-the-job"}
PASSWORD = "secret-password-of-the-plan"
ENDS = {
    0: "check-network: it passes",
    1: "check-network: it does not pass",
    2: "check-network: there is no answer",
    9: "check-network: it is not known: ask somebody",
}

# The launcher of the checkout. $ODD names a command that prints $ODD_TEXT and ends with $ODD_STATUS, or takes $ODD_SECONDS.
LAUNCHER = """#!/bin/sh
if [ "$1" = --version ]; then
    printf 'program 00\\nsources 00\\nkit a kit\\n'
    exit
fi
if [ "$1" = "${ODD-}" ]; then
    [ -z "${ODD_SECONDS-}" ] || exec sleep "$ODD_SECONDS"
    printf '%b' "${ODD_TEXT-}"
    printf '%b' "${ODD_SAYS-}" >&2
    exit "$ODD_STATUS"
fi
exec 'PROGRAM' "$@"
"""
# What stands in for scripts where others are tried. The account is shop.json, or $ACCOUNT.
QUICK = {
    "collect-bundle": f"""echo "collect-bundle: asking aws ec2 describe-vpcs, for eni-web" >&2
[ -z "${{FAILS-}}" ] || {{ echo "collect-bundle: aws ec2 $FAILS failed; nothing is printed" >&2; exit 1; }}
cat "${{ACCOUNT:-{SHOP}}}\"""",
    "explain": "echo 'a sentence'",
    "picture": "echo '<svg xmlns='",
    "survey": "exit 0",
}


class Results:
    def __init__(self):
        self.passed = self.failed = self.skipped = 0

    def add(self, name, found, wanted):
        if found == wanted:
            self.passed += 1
            return
        self.failed += 1
        print(f"FAILED: {name}\n  wanted: {wanted}\n  found:  {found}")

    def skip(self, why):
        self.skipped += 1
        print(f"skipped: {why}")


def write(path, text, mode=0o644):
    with open(path, "w", encoding="utf-8") as file:
        file.write(text)
    os.chmod(path, mode)
    return path


def read(path):
    with open(path, encoding="utf-8", errors="surrogateescape") as file:
        return file.read()


def edited(path, filter_of_jq, target):
    """What jq makes of a file."""
    ran = subprocess.run(["jq", filter_of_jq, path], capture_output=True, text=True, check=True)
    return write(target, ran.stdout)


class Room:
    """A checkout, files to ask about, and what a call leaves."""

    def __init__(self, folder, program):
        self.folder, self.made = folder, 0
        self.checkout = os.path.join(folder, "checkout")
        os.mkdir(self.checkout)
        for name in ("check-network", "evidence"):
            shutil.copy(os.path.join(TOP, name), self.checkout)
        for name in SCRIPTS:
            write(os.path.join(self.checkout, name), f"#!/bin/sh\nexec '{TOP}/{name}' \"$@\"\n", 0o755)
        write(os.path.join(self.checkout, "vpc"), LAUNCHER.replace("PROGRAM", program), 0o755)
        self.script = os.path.join(self.checkout, "check-network")
        # Another one, where collecting and what is for readers costs nothing.
        self.quick = os.path.join(folder, "quick")
        shutil.copytree(self.checkout, self.quick)
        for name, text in QUICK.items():
            write(os.path.join(self.quick, name), f"#!/bin/sh\n{text}\n", 0o755)
        self.calls = self.path("calls")
        self.calm = edited(OPENS, 'del(.resource_changes[] | select(.type == "aws_vpc_security_group_ingress_rule"))', self.path("calm.json"))
        # (a parameter is no part of a network, but its value stands in a plan)
        parameter = {"address": "aws_ssm_parameter.a", "mode": "managed", "type": "aws_ssm_parameter", "name": "a", "change": {
            "actions": ["create"], "before": None, "after": {"name": "a", "value": PASSWORD}, "after_unknown": {"id": True}, "after_sensitive": {"value": True}}}
        self.calm_secret = edited(self.calm, f".resource_changes += [{json.dumps(parameter)}]", self.path("calm-secret.json"))
        self.fewer = edited(SHOP, '(.SecurityGroups[] | select(.GroupId == "sg-db")) |= (.IpPermissions = [] | .IpPermissionsEgress = []) | del(.SecurityGroupRules[] | select(.GroupId == "sg-db"))', self.path("fewer.json"))
        # A host that is made anew with its address has moved.
        self.anew = self.path("anew.json")
        write(self.anew, read(SHOP).replace('"eni-db"', '"eni-new"'))
        self.lost = edited(SHOP, '(.RouteTables[] | select(.RouteTableId == "rtb-public").Routes[] | select(.DestinationCidrBlock == "0.0.0.0/0")) |= (del(.GatewayId) | .CarrierGatewayId = "cagw-1")', self.path("lost.json"))
        self.fails = write(self.path("fails.rules"), "blocked from eni-app to eni-db\n")

    def quickly(self):
        return os.path.join(self.quick, "check-network")

    def path(self, name):
        return os.path.join(self.folder, name)

    def env(self, **more):
        path = os.pathsep.join([os.path.join(TOP, "tests", "account"), os.environ["PATH"]])
        return {**os.environ, **SECRETS, "PATH": path, "CALLS": self.calls, "PYTHONDONTWRITEBYTECODE": "1", **more}

    def run(self, *words, shell=None, **env):
        """Calls it, with a folder of its own. What it left: the status, the lines it printed, and what was said on standard error."""
        self.made += 1
        self.to = self.path(f"answers-{self.made}")
        write(self.calls, "")
        command = [*([shell] if shell else []), self.script, "--to", self.to, *words]
        ran = subprocess.run(command, cwd=self.folder, env=self.env(**env), capture_output=True, text=True, errors="replace", timeout=120, check=False)
        self.status, self.lines, self.errors = ran.returncode, ran.stdout.splitlines(), ran.stderr
        return self

    def files(self):
        return sorted(os.listdir(self.to)) if os.path.isdir(self.to) else None

    def text(self, name):
        return read(os.path.join(self.to, name))

    def line(self, step):
        """What it printed of a step."""
        return [it.split(": ", 2)[2] for it in self.lines if it.startswith(f"check-network: {step}: ")]

    def ended(self):
        """Its status, where all else fits it: the last line, the summary, nothing on standard error."""
        fits = self.lines[-1:] == [ENDS.get(self.status)] and self.text("summary.txt").splitlines() == self.lines and not self.errors
        return self.status if fits else (self.status, self.lines, self.errors)


# ---- the script

def run_passes(results, room):
    room.run("--plan", room.calm_secret, "--policy", RULES, "--evidence")
    results.add("passes", room.ended(), 0)
    results.add("passes: its lines", room.lines[:-1], [
        "check-network: collect: a bundle, notes 0 (collect.log)", "check-network: plan: applied",
        "check-network: changes: nothing is known to open or close", "check-network: evidence: made (evidence/)",
        "check-network: policy: ok 11 fail 0 unknown 0 (policy.txt)"])
    results.add("passes: files", room.files(), [
        "after.json", "bundle.json", "changes-told.txt", "changes.svg", "changes.txt", "collect.log", "evidence", "policy-told.txt",
        "policy.rules", "policy.txt", "summary.txt"])
    results.add("passes: the bundle", edited(os.path.join(room.to, "bundle.json"), "del(.Collected)", room.path("one")) and json.loads(read(room.path("one"))) == json.loads(read(SHOP)), True)
    results.add("passes: the picture", room.text("changes.svg")[:11], "<svg xmlns=")
    results.add("passes: sentences", room.text("policy-told.txt").splitlines()[0][:9], "11 rules ")
    results.add("passes: the evidence", subprocess.run(["sh", os.path.join(room.to, "evidence", "verify.sh"), os.path.join(room.checkout, "vpc")], capture_output=True, check=False).returncode, 0)
    others = subprocess.run(["find", room.to, "-perm", "/077"], capture_output=True, text=True, check=True)
    results.add("passes: for nobody else", others.stdout, "")
    kept = "".join(read(os.path.join(folder, it)) for folder, _, files in os.walk(room.to) for it in files) + "".join(room.lines) + room.errors
    results.add("passes: no secrets", [it for it in (*SECRETS.values(), PASSWORD) if it in kept], [])
    room.run("--after", room.fewer, "--bundle", SHOP)
    results.add("closes alone", (room.ended(), bool(re.match(r"rows that open 0, move 0, close [1-9]\d*, lead to what isn't followed 0 ", room.line("changes")[0]))), (0, True))
    results.add("with a bundle nothing is collected", (read(room.calls), room.files()), ("", ["after.json", "bundle.json", "changes-told.txt", "changes.svg", "changes.txt", "summary.txt"]))
    room.run("--policy", RULES, "--", "--region", "us-east-1", "--profile", "shop", "--vpc", "vpc-shop")
    results.add("the account as it is, of these words", (room.ended(), room.files()), (0, ["bundle.json", "collect.log", "policy-told.txt", "policy.rules", "policy.txt", "summary.txt"]))
    results.add("each call has them", {it.startswith("aws --profile shop --region us-east-1 --output json ") for it in read(room.calls).splitlines()}, {True})
    room.run("--bundle", os.path.join(PLANS, "third-before.json"), "--plan", os.path.join(PLANS, "third.json"))
    results.add("a plan that Terraform made", room.ended(), 0)
    room.run("--policy", RULES, FAILS="describe-vpn-gateways")
    results.add("a list that may be wanting is told", (room.ended(), room.line("collect")), (0, ["a bundle, notes 1 (collect.log)"]))


def run_fails(results, room):
    room.run("--plan", OPENS, "--policy", RULES, "--evidence")
    results.add("opens, and a rule fails", (room.ended(), room.line("changes"), room.line("policy"), "evidence" in room.files()), (
        1, ["rows that open 2, move 0, close 0, lead to what isn't followed 0 (changes.txt)"], ["ok 10 fail 1 unknown 0 (policy.txt)"], True))
    results.add("the rule", room.text("policy.txt").splitlines()[0], "line 14 reachable tcp 10.0.1.10 10.0.3.10 0 5432")
    room.run("--plan", OPENS, "--bundle", SHOP)
    results.add("opens", room.ended(), 1)
    approved = shutil.copy(os.path.join(room.to, "changes.txt"), room.path("approved.txt"))
    room.run("--after", room.anew, "--bundle", SHOP)
    results.add("what is another host", (room.ended(), room.line("changes")), (1, ["rows that open 38, move 1, close 38, lead to what isn't followed 0 (changes.txt)"]))
    room.run("--policy", room.fails, "--bundle", SHOP)
    results.add("a rule fails", room.ended(), 1)
    room.run("--policy", room.fails, "--plan", room.calm, "--bundle", SHOP)
    results.add("a rule fails, and nothing opens", room.ended(), 1)
    room.run("--plan", OPENS, "--bundle", SHOP, "--approved", approved)
    results.add("approved", (room.ended(), room.line("changes")[1:]), (0, ["exactly what was approved"]))
    room.run("--plan", OPENS, "--bundle", SHOP, "--approved", approved, "--policy", RULES)
    results.add("approved, and a rule fails", room.ended(), 1)
    other = write(room.path("other.txt"), read(approved).replace("5432-5432", "5433-5433"))
    room.run("--plan", OPENS, "--bundle", SHOP, "--approved", other)
    results.add("something else was approved", room.ended(), 1)
    # (as check would: it is true of less)
    part = write(room.path("part.txt"), subprocess.run([os.path.join(room.checkout, "vpc"), "diff", SHOP, SHOP, "from", "internet"], capture_output=True, text=True, check=True).stdout)
    room.run("--plan", OPENS, "--bundle", SHOP, "--approved", part)
    results.add("less was approved", room.ended(), 1)
    room.run("--plan", OPENS, "--bundle", SHOP, "--ask", "from internet to eni-db sport 1024-65535")
    results.add("asked about less", (room.ended(), room.text("changes.txt").splitlines()[1]), (0, "query from internet to eni-db sport 1024-65535"))


def run_unknown(results, room):
    hub = [os.path.join(EXAMPLES, it) for it in ("hub.json", "hub.rules")]
    room.run("--bundle", hub[0], "--policy", hub[1])
    results.add("rules aren't known", (room.ended(), room.line("policy")), (9, ["ok 14 fail 0 unknown 3 (policy.txt)"]))
    first = ("--bundle", os.path.join(PLANS, "first-before.json"), "--plan", os.path.join(PLANS, "first.json"))
    room.run(*first)
    results.add("a plan that isn't applied in full", (room.ended(), room.line("plan"), room.text("plan.log")[:13]), (9, ["1 changes not applied (plan.log)"], "not applied: "))
    room.run("--after", room.lost, "--bundle", SHOP)
    results.add("it leads to what isn't followed", room.ended(), 9)
    lost = shutil.copy(os.path.join(room.to, "changes.txt"), room.path("lost.txt"))
    room.run("--after", room.lost, "--bundle", SHOP, "--approved", lost)
    results.add("that is approved", room.ended(), 0)
    room.run("--after", room.lost, "--bundle", SHOP, "--policy", room.fails)
    results.add("a rule fails besides", room.ended(), 1)
    room.run(*first, "--policy", write(room.path("none.rules"), "reachable from internet to eni-none\n"))
    results.add("no answer besides", room.ended(), 2)


def no_answer(results, name, room, step, begins):
    found = room.line(step)[-1:]
    results.add(f"no answer: {name}", (room.ended(), found[0][:len(begins)] if found else room.lines), (2, begins))


def run_no_answer(results, room):
    run_steps_without(results, room)
    kept, room.script = room.script, room.quickly()
    run_odd_steps(results, room)
    room.script = kept


def run_steps_without(results, room):
    room.run("--plan", room.calm, "--policy", RULES, FAILS="describe-subnets")
    no_answer(results, "aws fails", room, "collect", "no answer, status 1: collect-bundle: aws ec2 describe-subnets failed; nothing is printed")
    results.add("no answer: aws fails: files", room.files(), ["collect.log", "summary.txt"])
    room.run("--policy", RULES, "--", "--vpc", "sg-1")
    no_answer(results, "wrong words of collect-bundle", room, "collect", "no answer, status 2: collect-bundle: the id of a VPC")
    room.run("--bundle", SHOP, "--plan", SHOP, "--policy", RULES)
    no_answer(results, "no plan", room, "plan", "no answer, status 2: plan-bundle: ")
    results.add("no answer: no plan: files", room.files(), ["bundle.json", "plan.log", "summary.txt"])
    room.run("--bundle", os.path.join(PLANS, "second-before.json"), "--plan", os.path.join(PLANS, "second.json"), "--evidence")
    no_answer(results, "a bundle that is refused", room, "changes", "no answer, status 3: refused description MissingReference ")
    results.add("no answer: no evidence of what isn't one", (room.line("evidence"), room.files()), ([], ["after.json", "bundle.json", "changes.txt", "summary.txt"]))
    room.run("--bundle", SHOP, "--plan", OPENS, "--ask", "max 1")
    no_answer(results, "more changes than are told", room, "changes", "no answer, status 5: more changes")
    room.run("--bundle", SHOP, "--plan", OPENS, "--ask", "from *")
    no_answer(results, "wrong words of diff", room, "changes", "no answer, status 4: refused query ")
    room.run("--bundle", SHOP, "--policy", write(room.path("bad.rules"), "blocked from internet to eni-db\nblock all\n"))
    no_answer(results, "no policy", room, "policy", "no answer, status 4: refused rules 2")
    room.run("--bundle", SHOP, "--policy", write(room.path("empty.rules"), "# all is well\n\n"))
    no_answer(results, "a policy without rules", room, "policy", "no answer: it has no rules")
    room.run("--bundle", SHOP, "--plan", OPENS, "--policy", room.path("bad.rules"))
    no_answer(results, "and something opens", room, "policy", "no answer, status 4: refused rules 2")
    results.add("no answer: and something opens: it is told", room.line("changes")[0][:16], "rows that open 2")


def run_odd_steps(results, room):
    calm = ("--bundle", SHOP, "--after", SHOP, "--policy", RULES)
    for of, step in (("diff", "changes"), ("expect", "policy")):
        room.run(*calm, "--seconds", "1", ODD=of, ODD_SECONDS="30")
        no_answer(results, f"{of} takes long", room, step, "no answer, status 124: it takes longer than 1 seconds")
        for status in (2, 3, 4, 6, 7, 8, 125, 137):
            room.run(*calm, ODD=of, ODD_STATUS=str(status), ODD_TEXT="a line\\nanother\\n", ODD_SAYS="vpc: a reason\\n")
            no_answer(results, f"{of} ends with {status}", room, step, f"no answer, status {status}: a line (vpc: a reason)")
    for rows, status in (("moved b c", 1), ("opened b request Unmodelled", 1), ("closed b request GroupsIn", 0), ("closed b reply Unmodelled", 9), ("closed opened Unmodelled moved", 0)):
        room.run(*calm, ODD="diff", ODD_STATUS="1", ODD_TEXT=f"vpc-diff 1\\nquery\\nrow 1 a {rows} x -\\nend 1\\n")
        results.add(f"a row {rows}", room.ended(), status)
    # A status that says something, and a text that doesn't.
    for text in ("", "vpc-diff 1\\nquery\\nend 0\\n", "vpc-diff 2\\nquery\\nrow 1 a opened b\\nend 1\\n", "vpc-diff 1\\nquery\\nrow 1 a widened b\\nend 1\\n"):
        room.run(*calm, ODD="diff", ODD_STATUS="1", ODD_TEXT=text)
        no_answer(results, f"of diff: {text}", room, "changes", "no answer, status 1: ")
    for status in (0, 1, 9):
        room.run(*calm, ODD="expect", ODD_STATUS=str(status), ODD_TEXT="")
        no_answer(results, f"expect says nothing, and {status}", room, "policy", f"no answer, status {status}: ")
    room.run("--bundle", SHOP, "--after", room.lost, "--evidence", ODD="check", ODD_STATUS="1", ODD_TEXT="no untrue 1\\n")
    no_answer(results, "what diff printed isn't true", room, "evidence", "no answer, status 1: evidence: changes.txt isn't shown to be true")
    room.run(*calm, ODD="diff", ODD_STATUS="3", ODD_TEXT="##[error]::warning::\\033[2J\\001\\n::error::x\\n", ODD_SAYS="section_start:\\033[0K\\n")
    results.add("no answer: one line of visible letters", [it for it in room.lines if re.search(r"[^ -~]|#|^:", it)], [])
    results.add("no answer: of each step", len(room.lines), 3)
    made = room.path("limited")
    ran = subprocess.run(["sh", "-c", 'ulimit -f 8 && exec "$@"', "sh", room.script, "--to", made, "--bundle", SHOP, "--policy", RULES], cwd=room.folder, env=room.env(), capture_output=True, text=True, check=False)
    results.add("no answer: no room for the bundle", (ran.returncode, ran.stdout), (2, ""))
    with open("/dev/full", "w", encoding="utf-8") as full:
        ran = subprocess.run([room.script, "--to", room.path("full"), "--bundle", SHOP, "--policy", RULES], cwd=room.folder, env=room.env(), stdout=full, stderr=subprocess.DEVNULL, check=False)
    results.add("no answer: nothing can be printed", ran.returncode, 2)


def run_without_readers(results, room):
    """Picture and sentences are for readers: where they can't be made, nothing else is otherwise."""
    bare = room.path("bare")
    shutil.copytree(room.quick, bare)
    for it in ("picture", "explain"):
        write(os.path.join(bare, it), "#!/bin/sh\necho half\nexit 2\n", 0o755)
    kept, room.script = room.script, os.path.join(bare, "check-network")
    room.run("--bundle", SHOP, "--plan", OPENS, "--policy", RULES)
    results.add("no picture and no sentences", (room.ended(), room.files()), (1, ["after.json", "bundle.json", "changes.txt", "policy.rules", "policy.txt", "summary.txt"]))
    link = room.path("link")
    os.symlink(kept, link)
    room.script = link
    room.run("--bundle", SHOP, "--policy", RULES)
    results.add("by a link", room.ended(), 0)
    room.script = kept


def run_words(results, room):
    there = room.path("there")
    os.mkdir(there)
    for name, words in {
        "none": [], "no folder": ["--policy", RULES], "nothing to judge": ["--to", "made"], "a word": ["--to", "made", "policy"],
        "no value": ["--policy", RULES, "--to"], "an empty one": ["--policy", RULES, "--to", ""], "a folder that is there": ["--policy", RULES, "--to", there],
        "a file that isn't there": ["--to", "made", "--policy", "none"], "a folder for a file": ["--to", "made", "--policy", there],
        "a plan and a bundle": ["--to", "made", "--plan", OPENS, "--after", SHOP], "words of diff without a change": ["--to", "made", "--policy", RULES, "--ask", "from internet"],
        "approved without a change": ["--to", "made", "--policy", RULES, "--approved", RULES], "evidence without a change": ["--to", "made", "--policy", RULES, "--evidence"],
        "seconds": ["--to", "made", "--policy", RULES, "--seconds", "1m"], "no seconds": ["--to", "made", "--policy", RULES, "--seconds", "0"],
        "a bundle, and words to collect one": ["--to", "made", "--policy", RULES, "--bundle", SHOP, "--", "--region", "x"],
        "an odd word": ["--to", "made", "\n::error::#\033[2J"],
    }.items():
        ran = subprocess.run([room.script, *words], cwd=room.folder, env=room.env(), capture_output=True, text=True, check=False)
        results.add(f"words: {name}", (ran.returncode, ran.stdout, bool(re.fullmatch("check-network: [ -\"$-~]+; --help says more\n", ran.stderr)), os.path.exists(room.path("made"))), (2, "", True, False))
    ran = subprocess.run([room.script, "--help"], capture_output=True, text=True, check=False)
    results.add("help", (ran.returncode, ran.stdout[:21], ran.stderr), (0, "usage: check-network ", ""))
    shutil.copy(RULES, room.path("-rules"))
    ran = subprocess.run([room.script, "--to", "-made", "--policy", "-rules", "--bundle", SHOP], cwd=room.folder, env=room.env(), capture_output=True, text=True, check=False)
    results.add("names that begin with a dash", (ran.returncode, os.path.exists(room.path("-made"))), (0, True))


def run_shells(results, room):
    kept, room.script = room.script, room.quickly()
    for shell in ("dash", "bash", "busybox"):
        if not shutil.which(shell):
            results.skip(f"there is no {shell}")
            continue
        words = [shutil.which(shell), "sh"] if shell == "busybox" else [shutil.which(shell)]
        if shell == "busybox":
            words = [write(room.path("busybox-sh"), f'#!/bin/sh\nexec {words[0]} sh "$@"\n', 0o755)]
        found = []
        for plan, rules in ((room.calm, RULES), (OPENS, RULES), (os.path.join(PLANS, "first.json"), None), (SHOP, RULES)):
            bundle = SHOP if rules else os.path.join(PLANS, "first-before.json")
            room.run("--bundle", bundle, "--plan", plan, *(["--policy", rules] if rules else []), shell=words[0])
            found.append(room.ended())
        results.add(f"under {shell}", found, [0, 1, 9, 2])
        results.add(f"{shell} -n", subprocess.run([*words, "-n", room.script], capture_output=True, text=True, check=False).stderr, "")
    room.script = kept
    if not shutil.which("shellcheck"):
        results.skip("there is no shellcheck")
        return
    ran = subprocess.run(["shellcheck", "-s", "sh", room.script], capture_output=True, text=True, check=False)
    results.add("shellcheck", (ran.returncode, ran.stdout), (0, ""))


# ---- the jobs

TERRAFORM = """#!/bin/sh
[ "$1" = -chdir=terraform ] || exit 1
echo "$2 as ${AWS_ROLE_ARN-}" >>"$CALLS"
case $2 in
plan) for it in "$@"; do case $it in -out=*) : >"${it#-out=}" ;; esac; done; echo "PASSWORD" ;;
show) cat "$PLAN" ;;
esac
"""
OTHERS = {
    "apt-get": "exit 0",
    "curl": 'while [ "$1" != -o ]; do shift; done; printf zip >"$2"',
    "unzip": 'while [ "$1" != -d ]; do shift; done; cp "$STANDS_IN/terraform" "$2/terraform"',
    "git": 'case $1 in clone) for last in "$@"; do :; done; [ "$last" = vpc ] && ln -s "$CHECKOUT" "$last" ;; -C) [ "$*" = "-C vpc checkout --quiet --detach COMMIT" ] ;; *) exit 1 ;; esac',
    "gh": 'printf "%s\\n" "$*" >>"$CALLS"',
}
# A plan and a policy for each outcome, and what the account's collection fails at.
OUTCOMES = {0: ("calm.json", "shop.rules", ""), 1: ("plan.json", "shop.rules", ""), 9: ("calm.json", "unknown.rules", ""), 2: ("calm.json", "shop.rules", "describe-vpcs")}
# (what goes from here to an address that isn't followed)
UNKNOWN = "blocked from eni-web to internet dst 198.51.100.7/32 port 443-443\n"


def is_laid_out(text):
    """Whether lines are indented as YAML wants it: by twos and without tabs, deeper only below what opens a block."""
    before, opens, block = 0, True, None
    for line in text.splitlines():
        if not line.strip() or line.lstrip().startswith("#"):
            continue
        depth = len(line) - len(line.lstrip(" "))
        if block is not None and depth > block:
            continue
        block = None
        if "\t" in line or depth % 2 or (depth > before and not opens) or line != line.rstrip():
            return False
        item = re.match(r" *(?:- )+", line)
        before = len(item[0]) if item else depth
        opens = bool(re.search(r":$|: \|$", line.split(" #")[0].rstrip()))
        if re.search(r"(: |- )\|$", line):
            block = depth
        # (members of an item's own mapping stand as deep as its first)
        opens = opens or bool(item)
    return True


class Workspace:
    """A folder as a runner has it, with the files of a project, and stand-ins in PATH."""

    def __init__(self, room, status):
        self.room = room
        self.folder = tempfile.mkdtemp(dir=room.folder)
        plan, rules, self.fails = OUTCOMES[status]
        for it in ("work", "work/network", "work/terraform", "runner", "tools"):
            os.mkdir(os.path.join(self.folder, it))
        self.work, self.runner, tools = (os.path.join(self.folder, it) for it in ("work", "runner", "tools"))
        self.plan = room.calm if plan == "calm.json" else OPENS
        bundle_rules = UNKNOWN if rules == "unknown.rules" else read(RULES)
        write(os.path.join(self.work, "network", "policy.rules"), bundle_rules)
        write(os.path.join(tools, "terraform"), TERRAFORM.replace("PASSWORD", PASSWORD), 0o755)
        for name, text in OTHERS.items():
            write(os.path.join(tools, name), f"#!/bin/sh\n{text}\n", 0o755)
        # (of one, the public table leads to what isn't followed)
        self.account = room.lost if status == 9 else SHOP
        self.path = os.pathsep.join([tools, os.environ["PATH"]])
        self.tools = tools

    def run(self, words, script, **env):
        write(self.room.calls, "")
        mine = self.room.env(
            PATH=self.path, PLAN=self.plan, FAILS=self.fails, ACCOUNT=self.account, CHECKOUT=self.room.quick, STANDS_IN=self.tools, RUNNER_TEMP=self.runner,
            GITHUB_OUTPUT=os.path.join(self.runner, "output"), TMPDIR=self.runner, **env)
        return subprocess.run([*words, script], cwd=self.work, env=mine, capture_output=True, text=True, timeout=120, check=False)


def run_github(results, room, job):
    results.add("github: what triggers it", sorted(job[True]), ["pull_request", "schedule"])
    results.add("github: permissions", job["permissions"], {"id-token": "write", "contents": "read"})
    results.add("github: of each job", {name: it.get("permissions") for name, it in job["jobs"].items()}, {"network": None, "not-known": {"checks": "write"}})
    network = job["jobs"]["network"]
    steps = network["steps"]
    uses = [it["uses"] for it in steps if "uses" in it]
    results.add("github: actions by version", [it for it in uses if not re.fullmatch(r"[\w-]+/[\w-]+@v\d+\.\d+\.\d+", it)], [])
    results.add("github: no token stays in a checkout", [it["with"].get("persist-credentials") for it in steps if it.get("uses", "").startswith("actions/checkout@")], [False, False])
    results.add("github: what is kept, and how long", [(it["if"], it["with"]["path"], it["with"]["retention-days"]) for it in steps if it.get("uses", "").startswith("actions/upload-artifact@")], [("always()", "${{ runner.temp }}/network-answers", 3)])
    results.add("github: no text of others stands in a shell's words", [it["run"] for it in [*steps, *job["jobs"]["not-known"]["steps"]] if "${{" in it.get("run", "")], [])
    results.add("github: it ends in time", all("timeout-minutes" in it for it in job["jobs"].values()), True)
    results.add("github: the steps of plans", [it.get("name") or it["uses"].split("@")[0] for it in steps if it.get("if") == "github.event_name == 'pull_request'"], ["hashicorp/setup-terraform", "aws-actions/configure-aws-credentials", "Plan"])
    results.add("github: the second job", (job["jobs"]["not-known"]["needs"], job["jobs"]["not-known"]["if"], network["outputs"]), ("network", "needs.network.outputs.status == '9'", {"status": "${{ steps.check.outputs.status }}"}))
    shell = ["bash", "--noprofile", "--norc", "-e"]
    for event, outcomes in (("pull_request", (0, 1, 9, 2)), ("schedule", (0, 9, 2))):
        for status in outcomes:
            name = f"github: {event}, {status}"
            space = Workspace(room, status)
            os.symlink(room.quick, os.path.join(space.work, "vpc"))
            ended, printed = [], ""
            for it in steps:
                if "run" in it and (event == "pull_request" or "if" not in it):
                    ran = space.run(shell, write(os.path.join(space.runner, "step.sh"), it["run"]), GITHUB_EVENT_NAME=event)
                    ended.append(ran.returncode)
                    printed += ran.stdout + ran.stderr
            results.add(name, ended, [*([0] if event == "pull_request" else []), 0 if status == 9 else status])
            results.add(f"{name}: told to the next", read(os.path.join(space.runner, "output")), f"status={status}\n")
            results.add(f"{name}: warnings", printed.count("\n::warning title=Network::It is not known "), int(status == 9))
            results.add(f"{name}: the script's line", ENDS[status] in printed.splitlines(), True)
            results.add(f"{name}: nothing of the plan or the bundle", [it for it in (PASSWORD, "10.0.", "eni-") if it in printed], [])
            results.add(f"{name}: what is kept", os.path.exists(os.path.join(space.runner, "network-answers", "summary.txt")), True)
            results.add(f"{name}: changes", os.path.exists(os.path.join(space.runner, "network-answers", "changes.svg")), event == "pull_request" and status != 2)
    space = Workspace(room, 1)
    os.symlink(room.quick, os.path.join(space.work, "vpc"))
    shutil.copy(room.path("approved.txt"), os.path.join(space.work, "network", "approved.txt"))
    write(os.path.join(space.work, "network", "policy.rules"), "blocked from internet to eni-db\n")
    shutil.copy(OPENS, os.path.join(space.runner, "plan.json"))
    check = [it["run"] for it in steps if it.get("id") == "check"][0]
    ran = space.run(shell, write(os.path.join(space.runner, "step.sh"), check), GITHUB_EVENT_NAME="pull_request")
    results.add("github: what was approved", (ran.returncode, "check-network: changes: exactly what was approved" in ran.stdout), (0, True))
    os.remove(os.path.join(space.runner, "plan.json"))
    shutil.rmtree(os.path.join(space.runner, "network-answers"))
    ran = space.run(shell, write(os.path.join(space.runner, "step.sh"), check), GITHUB_EVENT_NAME="pull_request")
    results.add("github: without a plan", ran.returncode, 2)
    ran = space.run(shell, write(os.path.join(space.runner, "step.sh"), job["jobs"]["not-known"]["steps"][0]["run"]), GITHUB_REPOSITORY="a/b", HEAD="c")
    results.add("github: a neutral check", (ran.returncode, " conclusion=neutral " in read(room.calls), read(room.calls).startswith("api repos/a/b/check-runs ")), (0, True, True))


def run_gitlab(results, room, job):
    network = job["network"]
    results.add("gitlab: jobs", sorted(job), ["network"])
    results.add("gitlab: what isn't known", network["allow_failure"], {"exit_codes": 9})
    results.add("gitlab: what is kept, for whom and how long", [network["artifacts"][it] for it in ("when", "paths", "access", "expire_in")], ["always", ["network-answers/"], "developer", "3 days"])
    results.add("gitlab: when", [it["if"] for it in network["rules"]], ['$CI_PIPELINE_SOURCE == "merge_request_event"', '$CI_PIPELINE_SOURCE == "schedule"'])
    results.add("gitlab: the token", network["id_tokens"], {"AWS_TOKEN": {"aud": "https://gitlab.com"}})
    script = "\n".join([*network["before_script"], *network["script"]])
    own = {**network["variables"], "TERRAFORM_SHA256": hashlib.sha256(b"zip").hexdigest(), "AWS_TOKEN": "secret-token-of-gitlab"}
    for event, outcomes in (("merge_request_event", (0, 1, 9, 2)), ("schedule", (0, 9, 2))):
        for status in outcomes:
            name = f"gitlab: {event}, {status}"
            space = Workspace(room, status)
            shell = ["bash", "--noprofile", "--norc", "-eo", "pipefail"]
            ran = space.run(shell, write(os.path.join(space.runner, "job.sh"), script), CI_PIPELINE_SOURCE=event, **own)
            results.add(name, (ran.returncode, ENDS[status] in ran.stdout.splitlines()), (status, True))
            results.add(f"{name}: nothing of the plan, the bundle or the token", [it for it in (PASSWORD, "10.0.", "eni-", own["AWS_TOKEN"]) if it in ran.stdout + ran.stderr], [])
            kept = [os.path.join(folder, it) for folder, _, files in os.walk(os.path.join(space.work, "network-answers")) for it in files]
            results.add(f"{name}: what is kept", [os.path.join(space.work, "network-answers", "summary.txt") in kept, any(own["AWS_TOKEN"] in read(it) or PASSWORD in read(it) for it in kept)], [True, False])
            plans = [it for it in read(room.calls).splitlines() if it.endswith(f" as {own['PLAN_ROLE']}")]
            results.add(f"{name}: plans by its role", [it.split()[0] for it in plans], ["init", "plan", "show"] if event == "merge_request_event" else [])
    space = Workspace(room, 0)
    ran = space.run(shell, write(os.path.join(space.runner, "job.sh"), script), CI_PIPELINE_SOURCE="merge_request_event", **{**own, "TERRAFORM_SHA256": "0" * 64})
    results.add("gitlab: another Terraform than is named", (ran.returncode not in (0, 9), os.path.exists(os.path.join(space.work, "network-answers"))), (True, False))


def run_jobs(results, room):
    names = ("github.yml", "gitlab-ci.yml")
    results.add("files", sorted(os.listdir(CI)), sorted(names))
    texts = {it: read(os.path.join(CI, it)) for it in names}
    for name, text in texts.items():
        results.add(f"{name}: its layout", is_laid_out(text), True)
        results.add(f"{name}: the layout of what is indented otherwise", is_laid_out(text.replace("\n  network:" if name == "github.yml" else "\n  stage:", "\n   network:")), False)
    if not yaml:
        results.skip("there is no PyYAML: the jobs aren't run")
        return
    run_github(results, room, yaml.safe_load(texts["github.yml"]))
    run_gitlab(results, room, yaml.safe_load(texts["gitlab-ci.yml"]))


def main(words):
    if len(words) != 1:
        sys.exit(__doc__)
    results = Results()
    with tempfile.TemporaryDirectory() as folder:
        room = Room(folder, os.path.abspath(words[0]))
        for part in (run_passes, run_fails, run_unknown, run_no_answer, run_without_readers, run_words, run_shells, run_jobs):
            part(results, room)
    print(f"{results.passed} passed, {results.failed} failed, {results.skipped} skipped")
    return 1 if results.failed else 0


if __name__ == "__main__":
    sys.exit(main(sys.argv[1:]))
