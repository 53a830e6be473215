"""Asks the program that stands beside the scripts why a packet fares as it does."""

from __future__ import annotations

import os
import subprocess
from typing import Optional

from scripts import texts
from scripts.commands import Refused
from scripts.headers import Header
from scripts.texts import NoText, Walk, Why

LAUNCHER = os.path.join(os.path.dirname(os.path.dirname(os.path.abspath(__file__))), "vpc")
# How many packets are asked about, and how many seconds one may take.
MOST_ASKED, MOST_SECONDS = 60, 60


class Program:
    """What `vpc why` tells of packets in one bundle. Where there is no program, or it doesn't know
    the command, it tells nothing."""

    def __init__(self, bundle: str) -> None:
        self.bundle = bundle
        # (what is no file can be read once alone)
        is_there = os.path.isfile(bundle) and os.access(LAUNCHER, os.X_OK)
        self.is_there, self.left = is_there, MOST_ASKED

    def why(self, label: str, start: str, header: Header) -> Optional[Why]:
        """The walk of a packet, with what decided at each hop."""
        if not self.is_there or not self.left:
            return None
        self.left -= 1
        found = self.read(self.printed([label, "from", start, *header.words()]))
        self.is_there = bool(found)
        return found

    def printed(self, words: list[str]) -> bytes:
        """What the program prints; nothing where it refuses the command or its words."""
        # (without a kit in PATH the launcher builds nothing)
        path = os.environ.get("PATH", os.defpath).split(os.pathsep)
        kept = [it for it in path if not os.access(os.path.join(it, "rt"), os.X_OK)]
        call = [LAUNCHER, "why", self.bundle, *words]
        try:
            ran = subprocess.run(
                call, env={**os.environ, "PATH": os.pathsep.join(kept)}, timeout=MOST_SECONDS,
                stdin=subprocess.DEVNULL, capture_output=True, check=False,
            )
        except (OSError, subprocess.SubprocessError):
            return b""
        if ran.returncode == 3:
            raise Refused(f"{self.bundle} is no bundle that vpc accepts")
        return ran.stdout if ran.returncode in (0, 1) else b""

    def read(self, text: bytes) -> Optional[Why]:
        try:
            found = texts.read_record(text, ("why", "trace"), "answer", "walk", "")
        except NoText:
            return None
        # (where nothing is told of any hop the text is that of trace)
        if isinstance(found, Walk):
            return Why(found, [[] for _ in found.hops])
        return found if isinstance(found, Why) else None
