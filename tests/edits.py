"""Tries the must-fail edits that the gate leaves out: the prover must refuse each.

    python3 tests/edits.py [--over GATE] NAME ..    those of the crates NAME, which a change touched
    python3 tests/edits.py [--over GATE] --all      those of every crate
    python3 tests/edits.py --due      proves nothing: the crates whose sources or edits have changed since all their edits were refused
    python3 tests/edits.py --apply    proves nothing: whether each edit, of the gate too, still finds the lines that it changes

The gate tries the edits of some ten crates (crates/NAME/must-fail), where a wrong body would be a wrong answer. All others stand in
tests/edits/NAME. They are tried over one proof of the crate, which tests/prove.py may have kept; the crates below it are those that
tests/prove.py proved here, or those of GATE, a clone where `rt ci` runs or ran. tests/edits/refused.txt keeps for each crate the
checksum of its sources and edits when all of them were last refused.

A function is proved by the contracts of what it calls, never by their bodies. So edits of different functions, of which none calls
another, are tried together: each is refused where its own function is not proved, whatever became of the others. One that this does
not show is tried alone, and so is one that changes no body. The last line is 'N passed, M failed'.
"""

import hashlib
import os
import re
import shutil
import subprocess
import sys
import tempfile
from concurrent.futures import ThreadPoolExecutor

import check
import prove

TOP = os.path.dirname(os.path.dirname(os.path.abspath(__file__)))
EDITS = os.path.join(TOP, "tests", "edits")
REFUSED = os.path.join(EDITS, "refused.txt")
PARTS = ("src", "specs", "proofs")
FUNCTION = re.compile(r"^(\s*)(?:pub(?:\([a-z]+\))? )?(?:const )?(?:unsafe )?fn (\w+)")


def edits_in(folder):
    return sorted(name for name in os.listdir(folder) if name.endswith(".edit")) if os.path.isdir(folder) else []


# ---- what an edit changes


def read_edit(path):
    """The changes of an edit: the file, the text that stands there and the one that takes its place."""
    changes, file, old = [], None, None
    with open(path, encoding="utf-8") as lines:
        for line in lines.read().split("\n"):
            if line.startswith("file: "):
                file = line[len("file: ") :].strip()
            elif line.startswith("old: "):
                old = line[len("old: ") :]
            elif line.startswith("new:") and file and old:
                changes.append((file, old, re.sub(r"\A ", "", line[len("new:") :])))
                old = None
    return changes


def text_of(path):
    with open(path, encoding="utf-8") as file:
        return file.read()


def changed(folder, changes, texts=None):
    """The texts of a crate's files after these changes, over those that earlier ones made; or why they can't be made."""
    made = dict(texts or {})
    for file, old, new in changes:
        path = os.path.join(folder, file)
        if not os.path.isfile(path):
            return None, f"no file {file}"
        text = made.get(file) or text_of(path)
        if text.count(old) != 1:
            return None, f"'{old.strip()}' stands {text.count(old)} times"
        made[file] = text.replace(old, new)
    return (made, None) if changes else (None, "no pair of lines 'old:' and 'new:'")


def function_at(text, place):
    """The name of the function whose body holds a place of a source file, with its first and last line; None where there is none."""
    lines, number = text.split("\n"), text.count("\n", 0, place)
    for first in range(number, -1, -1):
        found = FUNCTION.match(lines[first])
        if found and len(found[1]) < len(lines[number]) - len(lines[number].lstrip()):
            ends = [at for at in range(first + 1, len(lines)) if lines[at].startswith(found[1] + "}")]
            opens = [at for at in range(first, len(lines)) if lines[at].startswith(found[1] + "{") or at == first and lines[at].endswith("{")]
            is_inside = ends and opens and opens[0] < number < ends[0]
            return (found[2], first + 1, ends[0] + 1) if is_inside else None
    return None


def place_of(folder, changes):
    """The file and the function whose body alone an edit changes; None where it changes more."""
    places = set()
    for file, old, _ in changes:
        text = text_of(os.path.join(folder, file))
        found = function_at(text, text.index(old)) if file.startswith("src/") and old in text else None
        places.add((file, *found) if found else None)
    return places.pop() if len(places) == 1 else None


def rounds_of(folder, edits):
    """The edits in rounds: those of one round change bodies of functions with different names, of which none names another."""
    rounds = []
    for name, changes in edits:
        place = place_of(folder, changes)
        if place is None:
            rounds.append([(name, changes, None)])
            continue
        for others in rounds:
            if all(it[2] and are_apart(folder, place, it[2]) for it in others):
                others.append((name, changes, place))
                break
        else:
            rounds.append([(name, changes, place)])
    return rounds


def are_apart(folder, one, other):
    """Whether two functions have different names, and neither names the other."""

    def names(place, name):
        lines = text_of(os.path.join(folder, place[0])).split("\n")[place[2] - 1 : place[3]]
        return re.search(rf"\b{name}\b", "\n".join(lines)) is not None

    return one[1] != other[1] and not names(one, other[1]) and not names(other, one[1])


# ---- tries


def tried(words, folder, room, texts):
    """What the prover says of a copy of a crate with these texts in place of its own."""
    copy = os.path.join(room, "copy")
    for part in PARTS:
        if os.path.isdir(os.path.join(folder, part)):
            shutil.copytree(os.path.join(folder, part), os.path.join(copy, part))
    for file, text in texts.items():
        with open(os.path.join(copy, file), "w", encoding="utf-8") as it:
            it.write(text)
    ran = subprocess.run(words, cwd=copy, stdin=subprocess.DEVNULL, stdout=subprocess.PIPE, stderr=subprocess.STDOUT, text=True, errors="replace", check=False)
    shutil.rmtree(copy)
    return ran.returncode, ran.stdout


def reached_the_prover(status, said):
    return status == 1 and said.rstrip().split("\n")[-1].startswith("logic=not-proved")


def is_not_proved(said, place):
    """Whether what was said names a goal of the function at a place, and not only one of what it calls."""
    file, name, first, last = place
    for line in said.split("\n"):
        goal = re.match(r"(?:note: )?(?:\./)?(src/\S+?):(\d+):\d+: (?:it is not proved|.*error)", line)
        if goal and goal[1] == file and first <= int(goal[2]) <= last:
            return True
        if re.match(rf"fn \S*\b{name}: no proof", line) or re.match(rf"(?:\./)?proofs/(?:\S+/)?{name}/\w+\.antt:\d+:\d+: error", line):
            return True
    return False


def try_alone(words, folder, room, changes):
    """Why an edit is not refused, or None."""
    texts, why = changed(folder, changes)
    if why:
        return why
    status, said = tried(words, folder, room, texts)
    if reached_the_prover(status, said):
        return None
    return "it is still proved" if status == 0 else f"it did not reach the prover: {said.strip().split(chr(10))[0][:200]}"


def try_round(words, folder, room, edits):
    """Why each edit of a round is not refused, or None, by its name."""
    texts, together, told = {}, [], {}
    for name, changes, place in edits:
        made, why = changed(folder, changes, texts)
        if why is None and len(edits) > 1:
            texts, together = made, [*together, (name, place)]
    status, said = tried(words, folder, room, texts) if len(together) > 1 else (0, "")
    is_told = reached_the_prover(status, said)
    for name, changes, _ in edits:
        shown = is_told and any(it == name and is_not_proved(said, place) for it, place in together)
        told[name] = None if shown else try_alone(words, folder, room, changes)
    return told


def prove_crate(gate, crate):
    """Whether the crate is proved over what stands below it, which the tries begin with; tests/prove.py may have done it."""
    if gate == check.KEPT and prove.is_proved(crate, prove.stamps_of([crate])[crate]):
        return True
    words = check.command(gate, crate, [])
    ran = subprocess.run(words, cwd=os.path.join(TOP, "crates", crate), stdin=subprocess.DEVNULL, stdout=subprocess.PIPE, stderr=subprocess.STDOUT, check=False)
    return ran.returncode == 0


def link_or_copy(one, other):
    """The prover writes such a file anew and changes none, so a second name serves; the others are copied."""
    return os.link(one, other) if one.endswith(".oantt") else shutil.copy2(one, other)


def try_crate(gate, crate):
    """How many edits of a crate are refused, and how many aren't."""
    folder, home = os.path.join(TOP, "crates", crate), os.path.join(EDITS, crate)
    names, sum_before = edits_in(home), sum_of(crate)
    if not prove_crate(gate, crate):
        print(f"FAILED: {crate} is not proved", flush=True)
        return 0, len(names)
    kept = os.path.join(check.KEPT, crate, "checks")
    with tempfile.TemporaryDirectory(prefix="edits-", dir=check.KEPT) as room:
        shutil.copytree(kept, os.path.join(room, "kept"), copy_function=link_or_copy)
        words = [os.path.join(room, "kept") if it == kept else it for it in check.command(gate, crate, ["--only", ""])]
        words = [it for at, it in enumerate(words) if "--only" not in (it, words[at - 1])]
        told = {}
        for edits in rounds_of(folder, [(name, read_edit(os.path.join(home, name))) for name in names]):
            told.update(try_round(words, folder, room, edits))
    for name in names:
        print(f"FAILED: {crate}/{name}: {told[name]}" if told[name] else f"{crate}/{name} refused", flush=True)
    failed = sum(it is not None for it in told.values())
    if not failed and sum_of(crate) == sum_before:
        note_refused(crate, sum_before)
    return len(names) - failed, failed


# ---- which were tried


def sum_of(crate):
    """A checksum of a crate's sources and of its edits that the gate leaves out."""
    told = hashlib.sha256()
    folders = [os.path.join("crates", crate, part) for part in PARTS] + [os.path.join("tests", "edits", crate)]
    for folder in folders:
        for at, inner, names in os.walk(os.path.join(TOP, folder)):
            inner.sort()
            for name in sorted(names):
                path = os.path.join(at, name)
                with open(path, "rb") as file:
                    told.update(os.path.relpath(path, TOP).encode() + b"\0" + hashlib.sha256(file.read()).digest())
    return told.hexdigest()


def sums_noted():
    lines = text_of(REFUSED).split("\n") if os.path.exists(REFUSED) else []
    return dict(line.split(" ") for line in lines if line)


def note_refused(crate, its_sum):
    sums = {name: it for name, it in {**sums_noted(), crate: its_sum}.items() if os.path.isdir(os.path.join(EDITS, name))}
    with open(f"{REFUSED}.new", "w", encoding="utf-8") as file:
        file.writelines(f"{name} {sums[name]}\n" for name in sorted(sums))
    os.replace(f"{REFUSED}.new", REFUSED)


def homes():
    return sorted(name for name in os.listdir(EDITS) if edits_in(os.path.join(EDITS, name)))


def due():
    noted = sums_noted()
    return [name for name in homes() if noted.get(name) != sum_of(name)]


def apply():
    passed, failed = 0, 0
    crates = sorted(os.listdir(os.path.join(TOP, "crates")))
    for crate in sorted({*crates, *homes()}):
        folder = os.path.join(TOP, "crates", crate)
        for home in (os.path.join(folder, "must-fail"), os.path.join(EDITS, crate)):
            for name in edits_in(home):
                _, why = changed(folder, read_edit(os.path.join(home, name)))
                passed, failed = passed + (why is None), failed + (why is not None)
                if why:
                    print(f"FAILED: {crate}/{name}: {why}")
    return passed, failed


def try_crates(gate, names):
    unknown = [name for name in names if name not in homes()]
    if unknown:
        sys.exit(f"tests/edits has nothing of {', '.join(unknown)}")
    os.environ.setdefault("JOBS", "1")
    os.makedirs(check.KEPT, exist_ok=True)
    with ThreadPoolExecutor(max(1, (os.cpu_count() or 1) // int(os.environ["JOBS"]))) as pool:
        counts = list(pool.map(lambda name: try_crate(gate, name), names))
    return sum(it[0] for it in counts), sum(it[1] for it in counts)


def main():
    words, gate = sys.argv[1:], check.KEPT
    if words[:1] == ["--over"] and len(words) > 2:
        gate, words = os.path.abspath(words[1]), words[2:]
    if words == ["--due"]:
        print("\n".join(due() or ["none is due"]))
        sys.exit(1 if due() else 0)
    if not words or any(it.startswith("-") for it in words if it not in ("--all", "--apply")):
        sys.exit(__doc__)
    passed, failed = apply() if words == ["--apply"] else try_crates(gate, homes() if words == ["--all"] else words)
    print(f"{passed} passed, {failed} failed")
    sys.exit(1 if failed else 0)


if __name__ == "__main__":
    main()
