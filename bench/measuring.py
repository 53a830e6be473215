"""Wall time and peak memory of a command, and the file of a description."""

import json
import os
import sys
import time

TOP = os.path.dirname(os.path.dirname(os.path.abspath(__file__)))
OUT = os.path.join(TOP, "bench", "out")
RUNS = 7


def program():
    """The program to measure: the first word, or the one that ./vpc builds."""
    return sys.argv[1] if len(sys.argv) > 1 else os.path.join(TOP, "out/vpc")


def written(name, make, count, **form):
    """What is made of the count, as a JSON file in bench/out, in the form that json.dump is told. A child makes it,
    since a process that is started is first counted with the memory of the one that starts it."""
    os.makedirs(OUT, exist_ok=True)
    path = os.path.join(OUT, name)
    child = os.fork()
    if child == 0:
        with open(path, "w") as file:
            json.dump(make(count), file, **form)
        os._exit(0)
    os.waitpid(child, 0)
    return path


def measured(words, code=0):
    """The least wall time in seconds of some runs that end with this code, and the greatest peak memory in MiB."""
    best, peak = None, 0
    for _ in range(RUNS):
        start = time.perf_counter()
        child = os.posix_spawn(
            words[0],
            words,
            os.environ,
            file_actions=[(os.POSIX_SPAWN_OPEN, 1, os.devnull, os.O_WRONLY, 0)],
        )
        _, status, usage = os.wait4(child, 0)
        took = time.perf_counter() - start
        if os.waitstatus_to_exitcode(status) != code:
            sys.exit(f"failed: {' '.join(words)}")
        best = took if best is None else min(best, took)
        peak = max(peak, usage.ru_maxrss / 1024)
    return best, peak


def loaded(path):
    """The time that python3's json.load takes for the file, less the start of python3, and its peak memory."""
    empty, _ = measured([sys.executable, "-c", "import json"])
    took, peak = measured([sys.executable, "-c", f"import json; json.load(open({path!r}))"])
    return took - empty, peak
