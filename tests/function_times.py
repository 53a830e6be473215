"""What proofs spend their time on: the times of the files that a check keeps, by kind and by function.

    python3 tests/function_times.py [FOLDER] [CRATE ..]

A check with one job (JOBS=1, as tests/prove.py has it) writes a file for each module that it has proved, one after the other: the time
between two files is what the later one took. Of each crate below FOLDER (bench/out/check, where tests/prove.py and tests/check.py keep
their work) the newest files tell; a crate that was checked again over kept files tells too little. Printed are a table of kinds, of all
crates together, the crates with what their kinds take, and the forty dearest files.
"""

import collections
import os
import sys

import check

# What a module of a proof holds, by the last part of its name.
KINDS = {
    "Lts": "lifetimes",
    "Layout": "layouts",
    "Proof": "proofs of functions",
    "Answers": "answers",
    "Invariants": "answers",
    "Mir": "code",
    "Code": "code",
    "Tie": "ties of code and contract",
    "Reads": "reads",
    "Kinds": "kinds",
}
DEAREST = 40


def files_of(folder):
    """The files that a check of a crate kept, in the order in which they were written, with their times in seconds."""
    found = []
    for at, _, names in os.walk(folder):
        if os.path.basename(at) != "records":
            found += [(os.stat(os.path.join(at, it)).st_mtime_ns / 1e9, it.removesuffix(".oantt")) for it in names if it.endswith(".oantt")]
    return sorted(found)


def kind_of(name):
    parts = name.split(".")
    if parts[0].endswith("-specs"):
        return "definitions and contracts"
    if parts[-1] in KINDS:
        return KINDS[parts[-1]]
    is_page = parts[0].endswith("-proofs") and len(parts) > 1 and parts[1][:1].isupper() and not parts[1].startswith(("The", "Destruct"))
    return "lemmas" if is_page else "the rest"


def main():
    words = sys.argv[1:]
    folder = words.pop(0) if words and os.path.isdir(words[0]) else check.KEPT
    kinds, numbers, dearest, rows = collections.Counter(), collections.Counter(), [], []
    for crate in words or check.crates():
        files, own = files_of(os.path.join(folder, crate, "checks")), collections.Counter()
        for (before, _), (after, name) in zip(files, files[1:]):
            own[kind_of(name)] += after - before
            numbers[kind_of(name)] += 1
            dearest.append((after - before, crate, name.partition(".")[2]))
        kinds += own
        if files:
            rows.append((crate, own))
    print("| kind | files | seconds |\n|---|---:|---:|")
    for kind, seconds in kinds.most_common():
        print(f"| {kind} | {numbers[kind]} | {seconds:.0f} |")
    print(f"| all | {sum(numbers.values())} | {sum(kinds.values()):.0f} |\n")
    for crate, own in rows:
        print(f"{crate}: {sum(own.values()):.0f} s: {', '.join(f'{kind} {seconds:.0f}' for kind, seconds in own.most_common(5))}")
    print()
    for seconds, crate, name in sorted(dearest, reverse=True)[:DEAREST]:
        print(f"{seconds:.1f} s: {crate} {name}")


if __name__ == "__main__":
    main()
