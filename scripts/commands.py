"""What the commands have in common: how they start and read files, and what they say on standard
error."""

from __future__ import annotations

import gc
import importlib
import io
import os
import signal
import sys
from typing import Optional

from scripts.bundles import NoBundle, Row, harmless, json_in, objects_of

COMMANDS = {
    "explain": "scripts.explain",
    "lines": "scripts.lines",
    "picture": "scripts.picture",
    "plan-bundle": "scripts.plan_bundle",
    "survey": "scripts.survey",
}
# What a file that isn't what it should be may end a reading with, or what is done with it.
ODD = (
    ArithmeticError, AssertionError, AttributeError, LookupError, MemoryError, RecursionError,
    TypeError, ValueError,
)
USAGE = f"one of these is meant: {', '.join(COMMANDS)}; NAME --help says more of each"


class Refused(Exception):
    """Why a command does nothing."""


def start(name: str) -> None:
    """Runs a command with the words of the process, and ends the process with its status."""
    # (a reader that has enough, as head, ends it)
    signal.signal(signal.SIGPIPE, signal.SIG_DFL)
    signal.signal(signal.SIGINT, signal.SIG_DFL)
    # (nothing here refers in circles, and looking for circles takes time with large texts)
    gc.disable()
    if isinstance(sys.stdout, io.TextIOWrapper):
        sys.stdout.reconfigure(encoding="utf-8")
    main = importlib.import_module(COMMANDS[name]).main
    sys.exit(main(sys.argv[1:]))


def start_named() -> None:
    """Runs the command that the process is called by, or that its first word names."""
    name, words = os.path.basename(sys.argv[0]), sys.argv[1:]
    if name not in COMMANDS:
        name = sys.argv.pop(1) if words and words[0] in COMMANDS else ""
    if not name:
        is_help = words in (["--help"], ["-h"])
        print(USAGE, file=sys.stdout if is_help else sys.stderr)
        sys.exit(0 if is_help else 2)
    start(name)


def read(path: Optional[str]) -> bytes:
    """A file, or standard input."""
    if path is None:
        return sys.stdin.buffer.read()
    try:
        with open(path, "rb") as file:
            return file.read()
    except OSError as error:
        raise Refused(f"{path} can't be read: {error.strerror}") from None


def read_objects(path: str) -> list[Row]:
    """The objects of a bundle."""
    try:
        return objects_of(json_in(path))
    except OSError as error:
        raise Refused(f"{path} can't be read: {error.strerror}") from None
    except NoBundle as why:
        raise Refused(f"{path} is no bundle: {why}") from None


def refuse(name: str, why: object) -> int:
    """Tells why a command does nothing, in one line; its status."""
    print(f"{name}: {harmless(str(why), 'name')}", file=sys.stderr)
    return 2
