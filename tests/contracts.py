"""Compares the pages for readers of the code with the sources.

    python3 tests/contracts.py                  compares
    python3 tests/contracts.py --write          writes the two lists of docs/CONTRACTS.md anew
    python3 tests/contracts.py --calls CRATE    prints all that a crate hands out, as lines of that page

docs/CONTRACTS.md lists calls by crate. Which ones is written on the page, in the order of crates.txt; each crate that hands out
any has one, and `*` stands for all of a crate, by their number. What a call promises is read from crates/*/src: the name of each
clause, and the definitions of this repository that it names, each told where the call names it first. The list by command is
made of crates/vpc_commands/specs.

Of docs/DESIGN.md the picture and the table are compared with crates.txt, in which no group may stand on a higher one and no
crate on a later one. Of docs/DEFINITIONS.md each name must be declared on the page of specs that it is said to stand on.
"""

import os
import re
import sys

TOP = os.path.dirname(os.path.dirname(os.path.abspath(__file__)))
CONTRACTS = os.path.join("docs", "CONTRACTS.md")
NOT_CODE = re.compile(r"""//[^\n]*|b?"(?:\\.|[^"\\])*"|b?'(?:\\[^']*|[^'\\])'""")
CALL = re.compile(r"(?P<pub>pub )?(?:const )?fn (?P<name>\w+)")
OWNER = re.compile(r"^(?P<pub>pub )?(?P<kind>trait|impl)\b(?P<head>[^{;]*)\{", re.M)
SIGNATURE = re.compile(r"\b(?:ensures|requires)\b|[(){};\[\]]")
CLAUSE = re.compile(r"\s*(ensures|requires)\s*(\w+)?\s*(?=\{)")
IMPORT = re.compile(r"ghost use Rattle\.(\w+)\.specs\.(?!declared\b)[\w.]*\{([^}]*)\}")
MEMBER = re.compile(r"ghost (?!use\b)(\w+) = (?=\{)")
DECLARED = re.compile(r"ghost (\w+): ")
# What only leads from one thing to another, as to a row by its number or to the header of an image. It isn't listed.
LEADING = set(
    "CutLists Rose acl_at all_cuts appliances_of asked at_place field_of header_at low_of moment_at moment_of peering_at "
    "sent table_at tgw_table_at told_rows".split()
)


def read(*path):
    with open(os.path.join(TOP, *path), encoding="utf-8") as file:
        return file.read()


def crates():
    """The groups, lowest first, each with its crates, and what each crate stands on."""
    groups, below = {}, {}
    for line in read("crates.txt").splitlines():
        name, colon, uses = line.partition(":")
        if line.startswith("#"):
            groups[line[1:].strip()] = []
        elif colon:
            groups[list(groups)[-1]].append(name)
            below[name] = uses.split()
    return groups, below


# ---- what a crate hands out


def closed(text, at):
    """Where the braces end that are opened at a place."""
    depth = 0
    while True:
        depth += {"{": 1, "}": -1}.get(text[at], 0)
        at += 1
        if not depth:
            return at


def clauses_from(text, at):
    """The clauses of the call whose name ends at a place: whether it is promised, its name, and what it says."""
    depth, found = 0, SIGNATURE.search(text, at)
    while depth or found.group() in ("(", "[", ")", "]"):
        depth += {"(": 1, "[": 1, ")": -1, "]": -1}.get(found.group(), 0)
        found = SIGNATURE.search(text, found.end())
    clauses, at = [], found.start()
    while (clause := CLAUSE.match(text, at)):
        at = closed(text, clause.end())
        clauses.append((clause.group(1) == "ensures", clause.group(2), text[clause.end():at]))
    return clauses


def told(clauses, known):
    """A cell of the list: the names of clauses, and the definitions that each is the first to name."""
    cell, seen = [], set()
    for name, text in clauses:
        names = [it for it in dict.fromkeys(re.findall(r"\w+", text)) if it in known - LEADING and it not in seen]
        seen.update(names)
        if not name and not names:
            names = [" ".join(text.strip("{}").split())]
        cell.append(" ".join(([name] if name else []) + [it for it in names if it != name]))
    return ", ".join(cell) or "-"


def line_of(call, cell):
    """A line of the list; without a cell where one definition has the call's own name."""
    own = call.rpartition("::")[2]
    return f"  {call}" if cell in (own, own.title().replace("_", "")) else f"  {call}: {cell}"


def calls_of(path, own):
    """What the file of a crate hands out or may hand out, by its name, and what it promises."""
    text = NOT_CODE.sub(lambda it: "" if it.group().startswith("//") else '""', read(path))
    known = {name.strip() for crate, names in IMPORT.findall(text) if crate in own for name in names.split(",")}
    owners = [(it, it.end() - 1, closed(text, it.end() - 1)) for it in OWNER.finditer(text)]
    found = {}
    for it in CALL.finditer(text):
        owner = next((owner for owner, begins, ends in owners if begins < it.start() < ends), None)
        is_trait = bool(owner and owner["kind"] == "trait")
        if not (owner["pub"] if is_trait else it["pub"]):
            continue
        words = re.sub(r"<.*", "", re.sub(r"^<[^>]*>", "", owner["head"].strip())).strip() if owner else ""
        terms = known | set(DECLARED.findall(text, owner.end(), closed(text, owner.end() - 1))) if is_trait else known
        promised = [(name, said) for is_promised, name, said in clauses_from(text, it.end()) if is_promised]
        found[f"{words.split(':')[0].strip()}::{it['name']}" if words else it["name"]] = told(promised, terms)
    for owner, begins, ends in owners:
        trait, is_for, name = owner["head"].partition(" for ")
        name = re.sub(r"<.*", "", name).strip()
        if is_for and not re.match(r"(?:<.*> *)?(?:Drop|Model|Clone|Copy|From|PartialEq)\b", trait.strip()):
            members = [(it[1], text[it.end():closed(text, it.end())]) for it in MEMBER.finditer(text, begins, ends)]
            if members:
                cell = told(members, known)
                found[name] = ", ".join([found[name], cell] if name in found else [cell])
    return found


def handed_out(crate, own):
    """All that a crate hands out: by its name, what it promises."""
    found, folder = {}, os.path.join("crates", crate, "src")
    if not os.path.exists(os.path.join(TOP, folder, "lib.rt")):
        return found
    lib = re.sub(r"//[^\n]*", "", read(folder, "lib.rt"))
    names = set()
    for module, one, many in re.findall(r"pub use ([\w:]+)::(?:(\w+)|\{([^}]*)\});", lib):
        if not module.split("::")[0] in own:
            names.update(it.strip() for it in (one or many).split(","))
    modules = set(re.findall(r"pub mod (\w+);", lib))
    for path, _, files in os.walk(os.path.join(TOP, folder)):
        for file in sorted(files):
            if not file.endswith(".rt"):
                continue
            stem, inner = file[:-3], os.path.relpath(os.path.join(path, file), TOP)
            for call, cell in calls_of(inner, own).items():
                if call.split("::")[0] in names or stem == "lib":
                    found[call] = cell
                elif stem in modules:
                    found[f"{stem}::{call}"] = cell
    return found


# ---- the list of contracts


def by_command():
    """The rows of the table by command: what is due, and what decides the status."""
    due, complete = (read("crates", "vpc_commands", "specs", it) for it in ("Due.antt", "Complete.antt"))
    named = re.compile(r"\b(?:Is|Are)\w+")
    rows = []
    for name, said in re.findall(r"^IsAnswered commands\.(\w+) ([^=]*=(?:\n? [^\n]*)+)", due, re.M):
        of_files = ("IsAnsweredIn", "IsAnsweredAfter", "IsAnsweredTo")
        terms = [it for it in named.findall(said) if it not in of_files]
        field = re.sub(r"(?<=[a-z])(?=[A-Z])", "_", name).lower()
        decided = re.findall(rf"^  pub {field} : .*?\b(Is\w+Decided)\b", complete, re.M | re.S)
        rows.append(f"| {field.replace('_', ' ').replace('check diff', 'check, of `diff`')} "
                    f"| {', '.join(f'`{it}`' for it in terms)} | {f'`{decided[0]}`' if decided else '-'} |")
    return rows


def listed_anew(block, faults):
    """The list of calls as the sources have it: a line for each crate, and below it, after two blanks, its calls."""
    groups, below = crates()
    own, order = set(below), [it for group in groups.values() for it in group]
    lines, listed, known = [], [], {}
    for line in block.splitlines():
        if line.startswith("  "):
            call = line.strip().partition(": ")[0]
            if call != "*" and call not in known:
                faults.append(f"{listed[-1]} hands out no {call}")
            line = line_of(call, f"{len(known)} calls" if call == "*" else known.get(call, "-"))
        else:
            known = handed_out(line, own) if line in own else {}
            listed.append(line)
        lines.append(line)
    if listed != [it for it in order if it in listed]:
        faults.append("the crates of CONTRACTS don't stand as in crates.txt")
    faults += [f"{it} stands not in CONTRACTS" for it in order if it not in listed and handed_out(it, own)]
    return "".join(f"{it}\n" for it in lines)


def written(page, faults):
    """The page of contracts as the sources have it."""
    head, commands, rest = re.split(r"(?<=\|---\|---\|---\|\n)((?:\|.*\n)*)", page, maxsplit=1)
    before, block, after = re.split(r"(?<=```text\n)(.*?)(?=```)", rest, maxsplit=1, flags=re.S)
    commands = "".join(f"{it}\n" for it in by_command())
    return head + commands + before + listed_anew(block, faults) + after


# ---- the pages of design and of definitions


def reached(arrows, start):
    """All groups that arrows lead to."""
    found, left = set(), [start]
    while left:
        for it in arrows.get(left.pop(), ()):
            if it not in found:
                found.add(it)
                left.append(it)
    return found


def groups_are_right(faults):
    """That no group stands on a higher one, and that DESIGN shows the groups and the crates as crates.txt has them."""
    groups, below = crates()
    group_of = {crate: group for group, its in groups.items() for crate in its}
    rank, number = {it: k for k, it in enumerate(groups)}, {it: k for k, it in enumerate(group_of)}
    stands_on = {it: set() for it in groups}
    for crate, uses in below.items():
        for it in uses:
            if it not in below:
                continue
            if rank[group_of[it]] > rank[group_of[crate]]:
                faults.append(f"{crate} of {group_of[crate]} stands on {it} of {group_of[it]}")
            if number[it] > number[crate]:
                faults.append(f"{crate} stands on {it}, which crates.txt has later")
            stands_on[group_of[crate]].add(group_of[it])
    page = read("docs", "DESIGN.md")
    picture = re.search(r"```mermaid\n(.*?)```", page, re.S)[1]
    names = dict(re.findall(r"(\w+)\[\"([^<\"]*)", picture))
    arrows = {}
    for one, other in re.findall(r"^ *(\w+) --> (\w+)$", picture, re.M):
        arrows.setdefault(names[one], []).append(names[other])
    if sorted(names.values()) != sorted(groups):
        faults.append(f"the picture of DESIGN has the groups {sorted(names.values())}")
    for group, its in stands_on.items():
        for it in set(arrows.get(group, ())) - its:
            faults.append(f"the picture of DESIGN has an arrow from {group} to {it}, and crates.txt none")
        for it in its - reached(arrows, group) - {group}:
            faults.append(f"the picture of DESIGN has no way from {group} to {it}")
    table = re.findall(r"^\| (?:`(\w+)`|\*\*([^*]+)\*\*) \|", page.partition("| Crate |")[2], re.M)
    wanted = [it for group, its in groups.items() for it in [("", group), *((crate, "") for crate in its)]]
    for one, other in zip(table + [None] * len(wanted), wanted):
        if one != other:
            faults.append(f"the table of DESIGN has {one} where crates.txt has {other}")
            break


def definitions_are_there(faults):
    """That each name of DEFINITIONS is declared on the page that stands before it; how many names there are."""
    count, folder, page, text = 0, None, None, ""
    for line in read("docs", "DEFINITIONS.md").splitlines():
        if not line.startswith("|"):
            found = re.match(r"Pages stand in `(crates/[\w/]+/)`", line)
            folder = found[1] if found else folder
            continue
        for it, is_page in re.findall(r"`([^`]*)`(:?)", line.strip("| ").rpartition(" | ")[2]):
            if is_page:
                page, text = f"{it if it.startswith('crates/') else folder + it}.antt", ""
                if os.path.exists(os.path.join(TOP, page)):
                    text = read(page)
                continue
            count += 1
            if not re.search(rf"^(?:(?:abbrev|record|data|unfoldable|pub) )*{re.escape(it)}\b", text, re.M):
                faults.append(f"DEFINITIONS: {page} declares no {it}")
    return count


def main(words):
    faults, own = [], set(crates()[1])
    if words[:1] == ["--calls"] and len(words) == 2:
        for call, cell in handed_out(words[1], own).items():
            print(line_of(call, cell))
        return 0
    page = read(CONTRACTS)
    made = written(page, faults)
    rows = made.count("\n  ") + len(by_command())
    if words == ["--write"]:
        with open(os.path.join(TOP, CONTRACTS), "w", encoding="utf-8") as file:
            file.write(made)
    elif made != page:
        faults.append(next(
            (f"CONTRACTS has {old!r} where the sources give {new!r}"
             for old, new in zip(page.splitlines(), made.splitlines()) if old != new),
            "CONTRACTS has other lines than the sources give",
        ))
    groups_are_right(faults)
    rows += definitions_are_there(faults)
    print(*faults, sep="\n", end="\n" if faults else "")
    print(f"{rows - len(faults)} passed, {len(faults)} failed")
    return 1 if faults else 0


if __name__ == "__main__":
    sys.exit(main(sys.argv[1:]))
