"""How long the launcher takes beyond the program that it starts, on an unchanged checkout.

    python3 bench/start.py

A packet of the example one-subnet.json, asked of the built program itself and of ./vpc. In the last row a source is touched before each
start, so that its times differ and checksums are compared, as in a checkout that can't be written to and was copied.
"""

import os
import statistics
import subprocess
import time

from measuring import TOP

RUNS = 200
WORDS = ["trace", os.path.join(TOP, "examples/one-subnet.json"), "open", "from", "eni-a"]
WORDS += ["tcp", "10.0.1.10", "10.0.1.20", "5000", "443"]


def took(program, before=None):
    """The milliseconds of each run, least first."""
    found = []
    for _ in range(RUNS if before is None else RUNS // 10):
        if before:
            before()
        start = time.perf_counter()
        subprocess.run([program, *WORDS], stdout=subprocess.DEVNULL, check=True)
        found.append(1000 * (time.perf_counter() - start))
    return sorted(found)


def main():
    launcher, built = os.path.join(TOP, "vpc"), os.path.join(TOP, "out/vpc")
    source = os.path.join(TOP, "crates/vpc_base/src/lib.rt")
    subprocess.run([launcher, *WORDS], stdout=subprocess.DEVNULL, check=True)
    time.sleep(3)
    subprocess.run([launcher, *WORDS], stdout=subprocess.DEVNULL, check=True)
    print("| Start | least (ms) | median (ms) |\n|---|---:|---:|")
    for name, found in (
        ("the program itself", took(built)),
        ("`./vpc`, nothing changed", took(launcher)),
        ("`./vpc`, checksums compared", took(launcher, lambda: os.utime(source))),
    ):
        print(f"| {name} | {found[0]:.1f} | {statistics.median(found):.1f} |")


if __name__ == "__main__":
    main()
