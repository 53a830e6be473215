#!/usr/bin/env python3
"""What all scripts share: tests/package.py

The words of scripts/words.py are those of the program's sources, and what has a row for each of them has no other and lacks none.
The scripts are of Python 3.9, of at most 100 columns and of short functions; mypy --strict and ruff, or flake8 where there is no
ruff, find nothing, and are skipped where they aren't there. No file of the repository has the marks of a merge that was left half
done. Each command starts from any folder, by a link, and in the one file of scripts/make-zipapp. The last line is 'N passed, M failed, K skipped'.
"""

import ast
import glob
import os
import re
import shutil
import subprocess
import sys
import tempfile

TOP = os.path.dirname(os.path.dirname(os.path.abspath(__file__)))
sys.path.insert(0, TOP)

from scripts import explain_stops, explain_told, explain_words, grammar, headers, picture_walks, texts, words
from scripts.bundles import LISTS
from scripts.commands import COMMANDS

SOURCES = [os.path.relpath(it, TOP) for it in sorted(glob.glob(os.path.join(TOP, "scripts", "*.py")))] + ["scripts/make-zipapp", *COMMANDS]
COLUMNS, MOST_LINES = 100, 40
SHOP = os.path.join(TOP, "examples", "shop.json")
TEXT = b"hop 1 out eni-web tcp 10.0.1.99 10.0.3.10 1 5432\nstopped SourceCheck eni-web -\n"
# Each command, as it is called here, and what begins its output.
CALLS = {
    "explain": ([SHOP], "The packet is tcp from 10.0.1.99 port 1 to 10.0.3.10 port 5432."),
    "lines": ([], '{"text":"trace","line":"hop","n":1,'),
    "picture": ([], "<svg xmlns="),
    "plan-bundle": ([os.path.join(TOP, "examples", "plan.json"), SHOP], '{"PrefixList'),
    "survey": ([SHOP], "not followed: "),
}


class Results:
    def __init__(self):
        self.passed = self.failed = self.skipped = 0

    def add(self, name, found, wanted):
        if found == wanted:
            self.passed += 1
            return
        self.failed += 1
        print(f"FAILED: {name}\n  wanted: {wanted}\n  found:  {found}")

    def skip(self, why):
        self.skipped += 1
        print(f"skipped: {why}")


def source(path):
    with open(os.path.join(TOP, path), encoding="utf-8") as file:
        return file.read()


# ---- words

def function(text, name):
    """The lines of a function of a source of the program, or of an enum."""
    return re.search(rf"^pub (?:fn|enum) {name}\b.*?^}}", text, re.M | re.S)[0]


def bytes_in(text):
    return re.findall(r'b"([^"]+)"', text)


def run_words(results):
    names = source("crates/vpc_model/specs/Names.antt")
    results.add("stops, by their definition", re.findall(r'codes "(\w+)"', names), words.STOPS)
    results.add("stops, as they are printed", bytes_in(function(source("crates/block_report/src/names.rt"), "name_text")), words.STOPS)
    results.add("places", bytes_in(function(source("crates/block_report/src/places.rt"), "place_kind")), words.PLACES)
    protocols = re.findall(r'(\d+) => put\(out, b"(\w+)"\)', source("crates/block_report/src/words.rt"))
    results.add("protocols", {int(number): name for number, name in protocols}, words.PROTOCOLS)
    lists = re.findall(r"^    (\w+),$", function(source("crates/vpc_model/src/refusals.rt"), "ListName"), re.M)
    results.add("lists that are counted", lists, words.COUNTED_LISTS)
    results.add("lists of a bundle", set(words.COUNTED_LISTS) - set(LISTS), set())
    results.add("sides", len(words.SIDES), len(headers.LAST))
    sides = re.search(r"^fn side_name\b.*?^}", source("crates/block_report/src/trees.rt"), re.M | re.S)[0]
    results.add("sides of cuts", tuple(bytes_in(sides)), words.CUT_SIDES)


def run_tables(results):
    """What has a row for each stop or place."""
    told = {it for it in explain_stops.SENTENCES} | {it for it in words.STOPS if hasattr(explain_stops.Why, f"stop_{it.lower()}")}
    results.add("stops with sentences", told, set(words.STOPS))
    homes = " ".join(explain_told.HOMES.values()).split()
    results.add("homes of stops", (len(homes), set(homes) - set(words.STOPS)), (len(set(homes)), set()))
    results.add("endings", set(explain_stops.ENDINGS) - set(words.STOPS), set())
    results.add("drawn places", set(picture_walks.KINDS), set(words.PLACES))
    results.add("icons", {icon for icon, _ in picture_walks.KINDS.values()}, set(picture_walks.ICONS))
    results.add("told places", set(explain_words.PLACE_NAMES), set(words.PLACES))
    results.add("places of stops", {it[3:].replace("_", "-") for it in dir(explain_told.Way) if it.startswith("at_")}, set(words.PLACES))
    results.add("places with components", {*explain_told.PLACE_HOMES, "internet"}, set(words.PLACES))
    results.add("places where something decides", set(texts.DECIDED_AT) - set(words.PLACES), set())
    results.add("texts with readers", set(texts.READERS), set(grammar.FORMS))
    # (a list of stops elsewhere would have most of them in a few lines)
    several = [path for path in SOURCES if path != "scripts/words.py" for it in re.findall(r'"[\w ]{200,}"', source(path)) if len(set(it.strip('"').split()) & set(words.STOPS)) > 5]
    results.add("other lists of stops", several, [])


# ---- sources

def functions(tree):
    return [it for it in ast.walk(tree) if isinstance(it, (ast.FunctionDef, ast.AsyncFunctionDef))]


def run_sources(results):
    for path in SOURCES:
        text = source(path)
        tree = ast.parse(text, feature_version=(3, 9))
        long = [number for number, it in enumerate(text.splitlines(), 1) if len(it) > COLUMNS]
        results.add(f"{path}: long lines", long, [])
        results.add(f"{path}: long functions", [it.name for it in functions(tree) if it.end_lineno - it.lineno >= MOST_LINES], [])
        taken = {it.split(".")[0] for node in ast.walk(tree) for it in ([node.module] if isinstance(node, ast.ImportFrom) else [name.name for name in node.names] if isinstance(node, ast.Import) else [])}
        results.add(f"{path}: what it takes", sorted(taken - set(sys.stdlib_module_names) - {"scripts"}), [])


def run_tool(results, name, *options):
    ran = subprocess.run([name, *options, "scripts", "scripts/make-zipapp", *COMMANDS], cwd=TOP, capture_output=True, text=True, check=False)
    results.add(name, (ran.returncode, ran.stdout[-2000:] if ran.returncode else ""), (0, ""))


def run_tools(results, folder):
    if shutil.which("mypy"):
        run_tool(results, "mypy", "--strict", "--python-version", "3.9", "--scripts-are-modules", "--cache-dir", folder)
    else:
        results.skip("there is no mypy")
    if shutil.which("ruff"):
        run_tool(results, "ruff", "check", "--no-cache", "--line-length", str(COLUMNS), "--target-version", "py39")
    elif shutil.which("flake8"):
        # (blanks before colons and breaks beside operators are as the lines read best)
        run_tool(results, "flake8", "--max-line-length", str(COLUMNS), "--extend-ignore", "E203,W503,W504")
    else:
        results.skip("there is no ruff and no flake8")


# ---- files of the repository


def run_merges(results):
    """The marks that git leaves where a merge was left half done: no line begins so, in no file that git keeps."""
    if not shutil.which("git") or not os.path.exists(os.path.join(TOP, ".git")):
        results.skip("there is no git, or this is no checkout of it: no marks of merges are looked for")
        return
    words = ["git", "-C", TOP, "grep", "-n", "-I", "-E", r"^(<{7}|>{7}|[|]{7}) "]
    ran = subprocess.run(words, capture_output=True, text=True, check=False)
    results.add("marks of merges", (ran.returncode, ran.stdout, ran.stderr), (1, "", ""))


# ---- how commands start

def called(results, name, command, folder, env=None):
    """Calls a command, and whether it begins as it should."""
    more, begins = CALLS[name.split(" ")[0]]
    ran = subprocess.run([*command, *more], cwd=folder, input=TEXT, env=env, capture_output=True, check=False)
    text = ran.stdout.decode()
    results.add(f"{name} {folder and os.path.basename(folder)}", (text[: len(begins)], ran.returncode in (0, 1), b"Traceback" in ran.stderr), (begins, True, False))


def run_starts(results, folder):
    away = os.path.join(folder, "away")
    os.mkdir(away)
    # (a folder of this name elsewhere, which isn't the one that is meant)
    os.mkdir(os.path.join(away, "scripts"))
    with open(os.path.join(away, "scripts", "commands.py"), "w", encoding="utf-8") as file:
        file.write("raise SystemExit('another')\n")
    for name in COMMANDS:
        path, link = os.path.join(TOP, name), os.path.join(away, name)
        os.symlink(path, link)
        called(results, f"{name} by its path,", [path], away)
        called(results, f"{name} by Python,", [sys.executable, path], away)
        called(results, f"{name} by a link,", [link], away)
        called(results, f"{name} by PATH,", [name], away, {**os.environ, "PATH": away + os.pathsep + os.environ["PATH"]})
        called(results, f"{name} here,", [f"./{name}"], TOP)
        called(results, f"{name} as a module,", [sys.executable, "-m", "scripts", name], TOP)
        alone = os.path.join(folder, name)
        shutil.copy(path, alone)
        ran = subprocess.run([alone], cwd=folder, capture_output=True, text=True, check=False)
        results.add(f"{name} alone", (ran.returncode, ran.stdout, ran.stderr), (2, "", f"{name}: there is no folder scripts of vpc beside it\n"))


def run_zipapp(results, folder):
    one = os.path.join(folder, "one.pyz")
    ran = subprocess.run([os.path.join(TOP, "scripts", "make-zipapp"), one], cwd=folder, capture_output=True, text=True, check=False)
    results.add("made", (ran.returncode, ran.stdout, ran.stderr), (0, "", ""))
    for name in COMMANDS:
        called(results, f"{name} of one file,", [one, name], folder)
        link = os.path.join(folder, "links", name)
        os.makedirs(os.path.dirname(link), exist_ok=True)
        os.symlink(one, link)
        called(results, f"{name} of one file by a link,", [link], folder)
        own = subprocess.run([os.path.join(TOP, name), "--help"], capture_output=True, check=False)
        ran = subprocess.run([one, name, "--help"], capture_output=True, check=False)
        results.add(f"{name} of one file, --help", (ran.returncode, ran.stdout), (0, own.stdout))
    for more, status in (([], 2), (["fly"], 2), (["--help"], 0)):
        ran = subprocess.run([one, *more], capture_output=True, text=True, check=False)
        results.add(f"one file {more}", (ran.returncode, (ran.stdout + ran.stderr).count("\n"), "explain, lines, picture, plan-bundle, survey" in ran.stdout + ran.stderr), (status, 1, True))
    for more, status in ((["--help"], 0), (["a", "b"], 2), (["--all"], 2), ([os.path.join(folder, "none", "x")], 1)):
        ran = subprocess.run([os.path.join(TOP, "scripts", "make-zipapp"), *more], cwd=folder, capture_output=True, text=True, check=False)
        results.add(f"make-zipapp {more}", (ran.returncode, ran.stderr.count("\n"), "Traceback" in ran.stderr), (status, int(status > 0), False))


def main(words_of_call):
    if words_of_call:
        sys.exit(__doc__)
    results = Results()
    run_words(results)
    run_tables(results)
    run_sources(results)
    run_merges(results)
    with tempfile.TemporaryDirectory() as folder:
        run_tools(results, os.path.join(folder, "mypy"))
        run_starts(results, folder)
        run_zipapp(results, folder)
    print(f"{results.passed} passed, {results.failed} failed, {results.skipped} skipped")
    return 1 if results.failed else 0


if __name__ == "__main__":
    sys.exit(main(sys.argv[1:]))
