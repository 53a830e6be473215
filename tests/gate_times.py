"""What each crate takes of a gate, and by which crates its longest chain goes.

    python3 tests/gate_times.py run LOG [COMMAND ..]    runs the gate, `rt ci` where no COMMAND is given, and writes LOG
    python3 tests/gate_times.py table LOG ..            prints the table of docs/PROOFS.md; of a gate that went on over what an earlier run
                                                        had kept, the logs of all its runs

Each second the processor time of every prover that runs is read from /proc, with its crate and what it does: the proof of the crate, its
tests, its must-fail edits (with the proof that they begin with), or building a program of what is proved. LOG has a line of JSON for
each prover that has ended, and last one for the whole run: its wall time, and the processor time of all that it started. The table is in
processor seconds, so it hardly depends on how many provers run side by side; a gate that is to be told of runs from nothing, with nothing
beside it. What a prover does in its last second is missed.
"""

import json
import os
import resource
import subprocess
import sys
import threading
import time

import check

TICK = os.sysconf("SC_CLK_TCK")
KINDS = ("proof", "tests", "edits", "build")


def is_below(pid, ancestor):
    """Whether a process was started by another, or by one that was."""
    while pid not in ("0", "1", str(ancestor)):
        try:
            with open(f"/proc/{pid}/stat", encoding="utf-8") as file:
                pid = file.read().rpartition(")")[2].split()[1]
        except OSError:
            return False
    return pid == str(ancestor)


def provers(gate):
    """The provers that a gate runs now: what each works at, and its processor seconds, by its number and the time of its start."""
    found = {}
    for pid in filter(str.isdigit, os.listdir("/proc")):
        try:
            if os.readlink(f"/proc/{pid}/exe") != f"{check.KIT}/bin/rattle" or not is_below(pid, gate):
                continue
            with open(f"/proc/{pid}/cmdline", encoding="utf-8", errors="replace") as file:
                words = file.read().split("\0")
            with open(f"/proc/{pid}/stat", encoding="utf-8") as file:
                fields = file.read().rpartition(")")[2].split()
            folder = os.readlink(f"/proc/{pid}/cwd")
        except OSError:
            # (it has just ended, or is another user's)
            continue
        if "--crate-name" in words:
            crate = words[words.index("--crate-name") + 1]
            found[pid, fields[19]] = (crate, kind_of(words, folder), (int(fields[11]) + int(fields[12])) / TICK)
    return found


def kind_of(words, folder):
    if os.path.basename(folder).startswith("rt-edit-"):
        return "edits"
    if "--crate-checked" in words:
        return "build"
    return "tests" if "--test" in words else "proof"


def watch(gate, log, has_ended):
    """Writes a line for each prover that has ended, until the run has."""
    seen = {}
    while True:
        is_last, now = has_ended.wait(1), time.time()
        running = {} if is_last else provers(gate)
        for key in [it for it in seen if it not in running]:
            crate, kind, begun, seconds, last = seen.pop(key)
            print(json.dumps({"crate": crate, "kind": kind, "wall": round(last - begun, 1), "seconds": round(seconds, 1)}), file=log, flush=True)
        for key, (crate, kind, seconds) in running.items():
            seen[key] = (crate, kind, seen[key][2] if key in seen else now, seconds, now)
        if is_last:
            return


def run(path, command):
    begun, has_ended = time.time(), threading.Event()
    with open(path, "w", encoding="utf-8") as log:
        gate = subprocess.Popen(command, cwd=check.TOP)
        watcher = threading.Thread(target=watch, args=(gate.pid, log, has_ended))
        watcher.start()
        status = gate.wait()
        has_ended.set()
        watcher.join()
        used = resource.getrusage(resource.RUSAGE_CHILDREN)
        whole = {"wall": round(time.time() - begun), "seconds": round(used.ru_utime + used.ru_stime), "status": status, "processors": os.cpu_count()}
        print(json.dumps(whole), file=log)
    return status


def longest_chain(seconds):
    """The crates whose proofs, one after another, take longest, and how long; of a program with what its build takes."""
    crates, ends = check.crates(), {}

    def end_of(crate):
        if crate not in ends:
            before = max((end_of(it) for it in crates[crate] if it in crates), key=lambda it: it[0], default=(0, []))
            own = seconds.get((crate, "proof"), 0) + seconds.get((crate, "build"), 0)
            ends[crate] = (before[0] + own, [*before[1], crate])
        return ends[crate]

    return max((end_of(it) for it in crates), key=lambda it: it[0])


def reckoned(seconds, processors):
    """How long a gate takes where each of so many processors works at one thing at a time, and always at the one with most behind it."""
    crates = check.crates()
    above = {crate: [it for it in crates if crate in crates[it]] for crate in crates}
    behind = {}

    def behind_of(crate):
        if crate not in behind:
            behind[crate] = seconds.get((crate, "proof"), 0) + max(
                [behind_of(it) for it in above[crate]] + [seconds.get((crate, kind), 0) for kind in KINDS[1:]], default=0)
        return behind[crate]

    ready = [(behind_of(crate), crate, "proof") for crate in crates if not any(it in crates for it in crates[crate])]
    proved, running, now = set(), [], 0
    while ready or running:
        ready.sort()
        while ready and len(running) < processors:
            _, crate, kind = ready.pop()
            running.append((now + seconds.get((crate, kind), 0), crate, kind))
        running.sort(reverse=True)
        now, crate, kind = running.pop()
        if kind == "proof":
            proved.add(crate)
            ready += [(behind_of(it), it, "proof") for it in above[crate] if all(low in proved or low not in crates for low in crates[it])]
            ready += [(seconds[crate, it], crate, it) for it in KINDS[1:] if (crate, it) in seconds]
    return now


def read_log(path):
    """The seconds of each crate and kind, and the line of the whole run, if it came to its end."""
    with open(path, encoding="utf-8") as file:
        lines = [json.loads(line) for line in file]
    taken = {}
    for it in (line for line in lines if "crate" in line):
        taken[it["crate"], it["kind"]] = taken.get((it["crate"], it["kind"]), 0) + it["seconds"]
    return taken, next((line for line in lines if "processors" in line), None)


def most(tables):
    """What was begun in one run and done in another counts once, by the longer of the two."""
    return {key: max(it.get(key, 0) for it in tables) for key in {key for it in tables for key in it}}


def table(paths):
    logs = [read_log(path) for path in paths]
    taken = most([it[0] for it in logs])
    print(f"| crate | {' | '.join(KINDS)} |\n|---|{'---:|' * len(KINDS)}")
    for crate in check.crates():
        cells = [f"{taken[crate, kind]:.0f}" if (crate, kind) in taken else "" for kind in KINDS]
        print(f"| {crate} | {' | '.join(cells)} |")
    sums = [sum(seconds for (_, kind), seconds in taken.items() if kind == it) / 60 for it in KINDS]
    print(f"| all, in minutes | {' | '.join(f'{it:.0f}' for it in sums)} |\n")
    whole = logs[0][1] if len(logs) == 1 else None
    if whole:
        other = whole["seconds"] / 60 - sum(sums)
        print(f"Wall time {whole['wall'] / 60:.0f} minutes on {whole['processors']} processors, processor time {whole['seconds'] / 60:.0f} minutes, of which {other:.0f} are no prover's; status {whole['status']}.")
    seconds, chain = longest_chain(taken)
    parts = ", ".join(f"{it} {(taken.get((it, 'proof'), 0) + taken.get((it, 'build'), 0)) / 60:.1f}" for it in chain)
    print(f"Longest chain, by processor time: {seconds / 60:.1f} minutes, by {parts}.")
    print(f"Reckoned from it: {', '.join(f'{reckoned(taken, it) / 60:.0f} minutes on {it} processors' for it in (2, 4))}.")


def main():
    words = sys.argv[1:]
    if len(words) >= 2 and words[0] == "run":
        sys.exit(run(words[1], words[2:] or ["rt", "ci"]))
    if len(words) >= 2 and words[0] == "table":
        return table(words[1:])
    return sys.exit(__doc__)


if __name__ == "__main__":
    main()
