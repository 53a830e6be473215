"""Runs each command of README.md and of the pages of docs/, and compares what it prints with what the page says of it.

    python3 tests/readme.py [--program PROGRAM] [--checkout FOLDER] [PAGE..]

A line that begins with four blanks and `$` is a command; it goes on after a `\\` at its end, and while a quotation is
open. The lines below it, up to the next command or an empty line, are what it prints on standard output.

A row of a table with the columns Question, Command and Answer has a command in backquotes, with `\\|` for each `|`. Its answer is
the exit status and lines in backquotes that are printed, in this order; of one that ends with ` ..` the words before are its first
ones, and `nothing` is the whole answer where nothing is printed.

The commands of one page run in turn in one folder, which has what stands at the top of a checkout for its users, but no tests/:
copies of the scripts and examples, and the program. What they write goes to a folder `try` there, and nothing else is changed or
left. They find nothing in PATH but jq, a shell, what every Linux has and Python, which the scripts name: no kit, and no aws. For
collect-bundle alone there is a stand-in for the command line of AWS. The program must be built, or taken from prebuilt/; with
--program, PROGRAM stands in the place of `vpc`. With --checkout the pages and scripts are those of FOLDER.

Without PAGE it also wants that README, THIRD_PARTY and docs/PROVED.md name the kit that made the program of prebuilt/.
"""

import os
import re
import shlex
import shutil
import subprocess
import sys
import tempfile

HERE = os.path.dirname(os.path.abspath(__file__))
# What stands at the top of a checkout for its users, beside the scripts.
FOLDERS = ("completion", "examples", "scripts")
# What a reader has, beside the program; and Python, which the scripts name.
AT_HAND = (
    "jq sh bash awk cat chmod cmp cp cut date dirname env find getconf grep gzip head id ln ls mkdir mkfifo mktemp mv nproc paste printf readlink rm sed "
    "seq sha256sum sleep sort stat tail timeout tr uname uniq wc xargs"
).split()
# The pages that name the kit.
OF_THE_KIT = ("README.md", "THIRD_PARTY.md", "docs/PROVED.md")
HEADER = ["Question", "Command", "Answer"]
# A page's own folder.
OWN = "try"


def is_unfinished(text):
    """Whether a command goes on in the next line."""
    try:
        shlex.split(text)
    except ValueError:
        return True
    return text.endswith("\\")


def commands(page):
    """The commands of a page: the number of the line, the text, and the lines that it is to print."""
    found, is_open, goes_on = [], False, False
    with open(page, encoding="utf-8") as file:
        for number, line in enumerate(file, 1):
            line = line.rstrip("\n")
            if not line.startswith("    "):
                is_open = goes_on = False
                continue
            line = line[4:]
            if goes_on:
                found[-1][1].append(line)
            elif line.startswith("$ "):
                found.append((number, [line[2:]], []))
                is_open = True
            elif is_open:
                found[-1][2].append(line)
                continue
            goes_on = is_open and is_unfinished("\n".join(found[-1][1]))
    return [(number, "\n".join(text), printed) for number, text, printed in found]


def rows(page):
    """The commands of a page's tables of questions: the number of the line, the text, and the cell of its answer."""
    found, is_open = [], False
    with open(page, encoding="utf-8") as file:
        for number, line in enumerate(file, 1):
            cells = [it.strip() for it in re.split(r"(?<!\\)\|", line.strip())[1:-1]]
            if not is_open:
                is_open = cells == HEADER
            elif not cells:
                is_open = False
            elif not re.fullmatch("-+", cells[0]):
                command, answer = (it.replace("\\|", "|") for it in cells[1:])
                found.append((number, command[1:-1], answer))
    return found


def is_answer(told, status, printed):
    """Whether a cell tells the exit status and lines that were printed."""
    parts = re.fullmatch(r"([0-9]+): (nothing|`[^`]+`(?:, `[^`]+`)*)", told)
    if not parts or int(parts[1]) != status:
        return False
    if parts[2] == "nothing":
        return not printed
    lines = iter(printed)
    return all(
        any(it.startswith(wanted[:-2]) if wanted.endswith(" ..") else it == wanted for it in lines)
        for wanted in re.findall("`([^`]+)`", parts[2])
    )


def fill(room, tools, checkout, program):
    """Puts into a folder what a user's checkout has, and into another one what a user has."""
    for name in os.listdir(checkout):
        path = os.path.join(checkout, name)
        if name in FOLDERS:
            shutil.copytree(path, os.path.join(room, name), ignore=shutil.ignore_patterns("__pycache__"))
        elif name != "vpc" and os.path.isfile(path) and os.access(path, os.X_OK):
            shutil.copy(path, room)
    os.symlink(program, os.path.join(room, "vpc"))
    for name in AT_HAND:
        found = shutil.which(name)
        if found:
            os.symlink(found, os.path.join(tools, name))
    # (the interpreter itself: what is found by its name may be a script that wants an environment)
    os.symlink(os.path.realpath(sys.executable), os.path.join(tools, "python3"))


def state(room):
    """What stands in a folder but for what a page's commands may write."""
    found = {}
    for folder, names, files in os.walk(room):
        names[:] = [it for it in names if it != "__pycache__" and (folder != room or it != OWN)]
        for it in files:
            path = os.path.join(folder, it)
            found[path] = os.readlink(path) if os.path.islink(path) else open(path, "rb").read()
    return found


def run(page, checkout, program):
    """Runs the commands of a page, and gives how many printed what they should and how many did not."""
    results = []
    with tempfile.TemporaryDirectory() as room, tempfile.TemporaryDirectory() as tools:
        fill(room, tools, checkout, program)
        before = state(room)

        def ran(text):
            path = [tools, os.path.join(HERE, "account")] if "./collect-bundle" in text else [tools]
            env = {**os.environ, "PATH": os.pathsep.join(path), "PYTHONDONTWRITEBYTECODE": "1"}
            return subprocess.run(["bash", "-c", text], cwd=room, env=env, capture_output=True, text=True)

        def told(number, text, wanted, is_right, it):
            results.append(is_right)
            if not is_right:
                print(f"{os.path.relpath(page, checkout)}:{number}: {text}", "-- wanted:", *wanted, sep="\n")
                print(f"-- printed, with status {it.returncode}:", it.stdout + it.stderr, sep="\n")

        for number, text, wanted in sorted(commands(page) + rows(page)):
            it = ran(text)
            printed = it.stdout.splitlines()
            if isinstance(wanted, str):
                told(number, text, [wanted], is_answer(wanted, it.returncode, printed), it)
            else:
                told(number, text, wanted, printed == wanted, it)
        after = state(room)
        for path in sorted(it for it in before.keys() | after.keys() if before.get(it) != after.get(it)):
            results.append(False)
            print(f"{os.path.relpath(page, checkout)}: its commands write {os.path.relpath(path, room)}, outside of {OWN}/")
    return results.count(True), results.count(False)


def kit_is_named(checkout):
    """How many pages name the kit that made the program of prebuilt/, and how many do not."""
    stamp = os.path.join(checkout, "prebuilt", "stamp")
    if not os.path.exists(stamp):
        return 0, 0
    with open(stamp, encoding="utf-8") as file:
        kit = file.readline().rstrip("\n")
    passed, failed = 0, 0
    for page in OF_THE_KIT:
        with open(os.path.join(checkout, page), encoding="utf-8") as file:
            if f"`{kit}`" in file.read():
                passed += 1
                continue
        failed += 1
        print(f"{page} doesn't name `{kit}`, which made the program of prebuilt/")
    return passed, failed


def main(words):
    options = {"--checkout": os.path.dirname(HERE), "--program": None}
    while words[:1] and words[0] in options and len(words) > 1:
        options[words[0]], words = os.path.abspath(words[1]), words[2:]
    checkout = options["--checkout"]
    program = options["--program"] or os.path.join(checkout, "vpc")
    docs = os.path.join(checkout, "docs")
    pages = [os.path.abspath(it) for it in words] or [
        os.path.join(checkout, "README.md"),
        *sorted(os.path.join(docs, it) for it in os.listdir(docs) if it.endswith(".md")),
    ]
    results = [run(it, checkout, program) for it in pages]
    if not words:
        results.append(kit_is_named(checkout))
    passed, failed = (sum(it) for it in zip(*results))
    print(f"{passed} passed, {failed} failed")
    # (a page whose commands are no longer found would pass)
    return 0 if passed and not failed else 1


if __name__ == "__main__":
    sys.exit(main(sys.argv[1:]))
