#!/usr/bin/env python3
"""Measures the example query_log.py over a log of generated queries: the seconds and the queries a second with one
worker of Dask and with four, and without Dask.

    bench/query_log.py [QUERIES [FOLDER]]   as many queries, 100,000 if none is said, a million of them different;
                                            FOLDER keeps the log, which is made if it is not there

It needs a python3 with `distributed` (Debian: python3-distributed)."""

import json
import random
import shutil
import subprocess
import sys
import tempfile
import time
from pathlib import Path

from programs import TOP

EXAMPLE = TOP / "bindings/python/examples/query_log.py"
IN_ONE_FILE = 1_000_000
FIELDS = (
    "id name title email createdAt updatedAt status price currency quantity sku description imageUrl rating city"
    " country".split()
)
OBJECTS = "viewer order customer product cart lineItem address review payment shipment category seller".split()


def fields(dice, levels):
    """The selections of a set, with objects in one another."""
    found = dice.sample(FIELDS, dice.randint(2, 5))
    if levels:
        found += [f"{name} {{ {fields(dice, levels - 1)} }}" for name in dice.sample(OBJECTS, dice.randint(0, 2))]
    return " ".join(found)


def query(dice, number):
    """A query of some 200 bytes: one in a hundred breaks a rule, one in two thousand is no document, one in ten
    thousand has a chain of fragments."""
    kind = dice.randrange(10_000)
    if kind == 0:
        return (
            "{ ...F0 } "
            + " ".join(f"fragment F{n} on T {{ ...F{n + 1} ...F{n + 1} }}" for n in range(20))
            + " fragment F20 on T { a b }"
        )
    body = f"{dice.choice(OBJECTS)}(id: $id) {{ {fields(dice, 2)} ...Part }}"
    if kind < 6:
        body = body.replace("(id: ", "(id ")
    unused = ", $first: Int" if kind < 60 else ""
    part = "Parts" if 60 <= kind < 100 else "Part"
    return (
        f"query Q{number % 500}($id: ID!{unused}) {{ {body} }} fragment {part} on Node {{ id"
        f" {dice.choice(FIELDS[1:])} }}"
    )


def made(folder, count):
    """Writes a log of that number of queries: each million is a file with the text of the first."""
    dice, first = random.Random(1), folder / "0.jsonl"
    with first.open("w") as log:
        for number in range(min(count, IN_ONE_FILE)):
            log.write(json.dumps({"query": query(dice, number)}) + "\n")
    for number in range(1, count // IN_ONE_FILE):
        (folder / f"{number}.jsonl").hardlink_to(first)


def interpreter():
    """A python3 that has Dask's workers."""
    for python in [sys.executable, "/usr/bin/python3"]:
        if (
            shutil.which(python)
            and not subprocess.run([python, "-c", "import distributed"], capture_output=True).returncode
        ):
            return python
    sys.exit("query_log.py: no python3 here has distributed")


def main():
    count = int(sys.argv[1]) if len(sys.argv) > 1 else 100_000
    python = interpreter()
    with tempfile.TemporaryDirectory() as room:
        folder = Path(sys.argv[2] if len(sys.argv) > 2 else room)
        folder.mkdir(exist_ok=True)
        if not list(folder.glob("*.jsonl")):
            made(folder, count)
        size = sum(file.stat().st_size for file in folder.glob("*.jsonl"))
        print(f"{count:,} queries, {size / count:.0f} bytes a line")
        answers = set()
        for words in [["--workers", "4"], ["--workers", "1"], []]:
            start = time.monotonic()
            ran = subprocess.run(
                [python, EXAMPLE, folder, *words],
                env={"PYTHONPATH": str(TOP / "bindings/python")},
                capture_output=True,
                check=True,
            )
            seconds = time.monotonic() - start
            answers.add(ran.stdout)
            print(
                f"{' '.join(words) or 'without Dask':>12}: {seconds:8.1f} s, {count / seconds:8,.0f} queries/s",
                flush=True,
            )
        if len(answers) != 1:
            sys.exit("query_log.py: the answers differ")
        print(answers.pop().decode(), end="")


main()
