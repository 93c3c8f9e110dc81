#!/usr/bin/env python3
"""Measures how `check` and `parse` of the Python package scale: how many calls a second some threads make together, and
some processes, and how many times the calls of one these are. A call lets other threads run while it is in the library.
There are up to `--workers` workers, the processors of this process unless given; each makes `--calls` calls on
`--bytes` bytes of queries, and of `--rounds` rounds the best one counts. Other work on the machine spoils the table, so
its load is printed, too."""

import multiprocessing
import os
import subprocess
import sys
import threading
import time

from programs import HERE, TOP, arguments

sys.path.insert(0, str(TOP / "bindings/python"))
import dumyroke  # noqa: E402

WORKERS = {
    "threads": (threading.Thread, threading.Barrier),
    "processes": (multiprocessing.get_context("fork").Process, multiprocessing.get_context("fork").Barrier),
}


def work(call, text, calls, barrier):
    """What a worker does between the moments at which all are ready and all are done."""
    call(text)
    barrier.wait()
    for _ in range(calls):
        call(text)
    barrier.wait()


def rate(kind, count, call, text, calls):
    """The calls a second that this number of workers make."""
    worker, meeting = WORKERS[kind]
    barrier = meeting(count + 1)
    workers = [worker(target=work, args=(call, text, calls, barrier)) for _ in range(count)]
    for each in workers:
        each.start()
    barrier.wait()
    started = time.perf_counter()
    barrier.wait()
    seconds = time.perf_counter() - started
    for each in workers:
        each.join()
    return count * calls / seconds


def main():
    given = arguments(__doc__, workers=len(os.sched_getaffinity(0)), calls=100, bytes=200_000, rounds=5)
    text = subprocess.run(
        [sys.executable, HERE / "text.py", "queries", str(given.bytes)], stdout=subprocess.PIPE, check=True
    ).stdout
    counts = range(1, given.workers + 1)
    print(f"load {os.getloadavg()[0]:.1f} on {os.cpu_count()} processors, {len(text)} bytes\n")
    print("| workers | " + " | ".join(map(str, counts)) + " |\n|" + "---|" * (len(counts) + 1))
    for name, call in (("check", dumyroke.check), ("parse", dumyroke.parse)):
        for kind in WORKERS:
            best = [max(rate(kind, count, call, text, given.calls) for _ in range(given.rounds)) for count in counts]
            print(
                f"| `{name}`, {kind} | " + " | ".join(f"{each:.0f} ({each / best[0]:.2f})" for each in best) + " |",
                flush=True,
            )


if __name__ == "__main__":
    main()
