"""Proves one crate of this checkout over the libraries that a gate built, without proving what stands below it again.

    python3 tests/check.py GATE CRATE [FLAG..]
    python3 tests/check.py sources CRATE --only PATH [FLAG..]

GATE is another clone of this repository in which `rt ci` runs or ran; what it built of the crates below stands in its out/ folders.
Where nothing is built yet, `sources` takes the crates below as they are written, unproved: what `--only` names is then proved over their
statements, within a minute or two.
Only what changed in CRATE since the last call is checked: a change costs seconds where `rt ci CRATE` takes minutes. A library that is
proved is kept in bench/out/check, and the crates above take it from there in place of the gate's. FLAGs are those of `rattle check`:
`--allow-holes` tells of every open goal, `--fix-imports` drops unused imports, `--test` checks the tests too. It gives no verdict for the gate.
Two functions are checked at a time, or JOBS of the environment: with JOBS=1 the times of the kept files, one after the other, tell what each takes.
"""

import os
import subprocess
import sys

TOP = os.path.dirname(os.path.dirname(os.path.abspath(__file__)))
KEPT = os.path.join(TOP, "bench", "out", "check")
KIT = "/opt/rattle"
# with these, rattle checks and builds nothing
CHECKS = {"--allow-holes", "--fix-imports", "--test", "--only"}


def crates():
    """The crates of crates.txt, each with those that its line names."""
    with open(os.path.join(TOP, "crates.txt"), encoding="utf-8") as file:
        lines = [line for line in file if ":" in line and not line.startswith("#")]
    return {name: below.split() for name, below in (line.split(":") for line in lines)}


def library(gate, name):
    """The built library of a crate, this checkout's own first."""
    for path in (f"{KEPT}/{name}/{name}.rlib", f"{gate}/crates/{name}/out/rlib/{name}.rlib"):
        if os.path.exists(path):
            return path
    return None


def below(all_crates, name):
    """The crates below one, each after those that it uses."""
    found = []
    for it in all_crates[name]:
        if it in all_crates:
            found += [each for each in (*below(all_crates, it), it) if each not in found]
    return found


def over_sources(all_crates, name):
    """The words that give the crates below as sources, each with what it uses."""
    lower = below(all_crates, name)
    of_kit = {it for each in (*lower, name) for it in all_crates[each] if it not in all_crates}
    words = [word for it in sorted(of_kit | {"core"}) for word in ("--extern", f"{it}={KIT}/rlibs/{it}.rlib")]
    for it in lower:
        words += ["--lib", f"{it}:{','.join(['core', 'std', *all_crates[it]])}={TOP}/crates/{it}/src/lib.rt"]
    return words


def over_libraries(all_crates, gate, name):
    """The words that give the crates below as libraries, of this checkout or of the gate."""
    words = []
    for it in all_crates[name]:
        found = library(gate, it) if it in all_crates else f"{KIT}/rlibs/{it}.rlib"
        if found is None:
            sys.exit(f"no library of {it} yet")
        words += ["--extern", f"{it}={found}"]
    for other in all_crates:
        found = library(gate, other) if other != name else None
        if found:
            words += ["-L", f"dependency={os.path.dirname(found)}"]
    return words


def command(gate, name, flags):
    all_crates = crates()
    is_over_sources = gate == "sources"
    words = ["--extern", f"std={KIT}/rlibs/std.rlib", "-L", f"dependency={KIT}/rlibs"]
    words += over_sources(all_crates, name) if is_over_sources else over_libraries(all_crates, os.path.abspath(gate), name)
    is_program = not os.path.exists(f"{TOP}/crates/{name}/src/lib.rt")
    checks = is_program or any(flag.split("=")[0] in CHECKS for flag in flags)
    store = f"{KEPT}/{name}/{'sources' if is_over_sources else 'tests' if '--test' in flags else 'checks'}"
    os.makedirs(store, exist_ok=True)
    built = [] if checks else ["-o", f"{KEPT}/{name}/{name}.rlib"]
    logic = ["--antt-project", f"{KIT}/rattle/logic/antt-project.json", "--logic-built", f"{KIT}/logic_built"]
    return [f"{KIT}/bin/rattle", "check" if checks else "build", "--crate-name", name, "src/main.rt" if is_program else "src/lib.rt",
            *words, *logic, "--links", f"{name}=", "--jobs", os.environ.get("JOBS", "2"), "--incremental", store, *built, *flags]


def main():
    if len(sys.argv) < 3:
        sys.exit(__doc__)
    gate, name, *flags = sys.argv[1:]
    words = command(gate, name, flags)
    sys.exit(subprocess.call(words, cwd=os.path.join(TOP, "crates", name)))


if __name__ == "__main__":
    main()
