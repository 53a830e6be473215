"""Proves the crates of this checkout, lowest first, some at a time, over what earlier calls kept.

    python3 tests/prove.py [--at-once N] [CRATE..]       these crates and what stands below them; all where none is named

For those who prove, where every gate begins from nothing: the first call takes as long as the gate's proofs, a call after a change what
that changed. A crate that isn't proved is told with its first error, what stands on it waits, and all others go on; `bench/out/check/NAME.log` has
the whole of what was said. It gives no verdict for the gate: what it keeps is trusted, and tests aren't run. tests/edits.py tries
edits over it.
"""

import hashlib
import os
import subprocess
import sys
from concurrent.futures import FIRST_COMPLETED, ThreadPoolExecutor, wait

import check

PARTS = ("src", "specs", "proofs")


def sources(crate):
    """A checksum of a crate's files."""
    told = hashlib.sha256()
    for part in PARTS:
        for at, folders, names in os.walk(os.path.join(check.TOP, "crates", crate, part)):
            folders.sort()
            for name in sorted(names):
                path = os.path.join(at, name)
                with open(path, "rb") as file:
                    told.update(path.encode() + b"\0" + file.read())
    return told.hexdigest()


def has_tests(crate):
    source = os.path.join(check.TOP, "crates", crate, "src")
    return any("#[test]" in open(os.path.join(at, it), encoding="utf-8").read() for at, _, names in os.walk(source) for it in names)


def stamp_of(crate):
    return os.path.join(check.KEPT, f"{crate}.stamp")


def is_proved(crate, stamp):
    try:
        with open(stamp_of(crate), encoding="utf-8") as file:
            return file.read() == stamp
    except OSError:
        return False


def stamps_of(names):
    """What the proof of each of these crates stands on: checksums of its files and of those below it."""
    all_crates = check.crates()
    below = {name: check.below(all_crates, name) for name in names}
    own = {it: sources(it) for it in {*names, *(low for lower in below.values() for low in lower)}}
    return {name: " ".join([own[name], *[own[low] for low in below[name]]]) for name in names}


def prove(crate, stamp):
    """Whether the crate is proved, and its tests where it has some; what isn't is told."""
    os.makedirs(check.KEPT, exist_ok=True)
    for flags in [[], *[["--test"]] * has_tests(crate)]:
        with open(os.path.join(check.KEPT, f"{crate}.log"), "w+", encoding="utf-8", errors="replace") as log:
            words = check.command(check.KEPT, crate, flags)
            status = subprocess.call(words, cwd=os.path.join(check.TOP, "crates", crate), stdin=subprocess.DEVNULL, stdout=log, stderr=log)
            log.seek(0)
            if status:
                first = next((line.strip() for line in log if ": error" in line or line.startswith("rattle")), "no error is told")
                print(f"FAILED: {crate}{' (tests)' * bool(flags)}: {first}", flush=True)
                return False
    with open(stamp_of(crate), "w", encoding="utf-8") as file:
        file.write(stamp)
    print(f"{crate} proved", flush=True)
    return True


def prove_all(names, at_once):
    all_crates = check.crates()
    unknown = [it for it in names if it not in all_crates]
    if unknown:
        sys.exit(f"crates.txt has no {unknown[0]}")
    wanted = []
    for name in names or all_crates:
        wanted += [it for it in [*check.below(all_crates, name), name] if it not in wanted]
    stamps = stamps_of(wanted)
    given = {it: True for it in wanted if is_proved(it, stamps[it])}
    left, running = [it for it in wanted if it not in given], {}
    with ThreadPoolExecutor(at_once) as pool:
        while left or running:
            for crate in list(left):
                lower = [given.get(it) for it in check.below(all_crates, crate)]
                if False in lower:
                    left.remove(crate)
                    given[crate] = False
                elif None not in lower and len(running) < at_once:
                    left.remove(crate)
                    running[pool.submit(prove, crate, stamps[crate])] = crate
            for it in wait(running, return_when=FIRST_COMPLETED).done if running else []:
                given[running.pop(it)] = it.result()
    return sum(given.values()), sum(not it for it in given.values())


def main():
    words, at_once = sys.argv[1:], os.cpu_count()
    if words[:1] == ["--at-once"] and len(words) > 1 and words[1].isdigit():
        at_once, words = int(words[1]), words[2:]
    if any(it.startswith("-") for it in words):
        sys.exit(__doc__)
    os.environ.setdefault("JOBS", "1")
    passed, failed = prove_all(words, max(at_once, 1))
    print(f"{passed} passed, {failed} failed")
    sys.exit(1 if failed else 0)


if __name__ == "__main__":
    main()
