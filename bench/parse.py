#!/usr/bin/env python3
"""Measures `gqlcst`, and lexer, parser and a walk over the typed tree through the Rust crate, where there is cargo, and
the original beside them in the same run, if it is built (bench/original/README.md). Prints the tables of docs/SPEED.md:
best and median, and how many times as fast as the original.

A run counts only on a processor at rest (calm.py). The number of those that did not count is printed."""

import shutil
import statistics
import tempfile
from pathlib import Path

from calm import Processors
from programs import ORIGINAL, Run, arguments, built, made_text, over_the_crate


def rounds_of(processors, commands, path, count):
    """The runs of each command, one of each in turn."""
    return list(zip(*([processors.once(Run, command, path) for command in commands] for _ in range(count))))


def figures(values, digits=1):
    return f"{min(values):.{digits}f}, {statistics.median(values):.{digits}f}"


def row(name, ours, theirs):
    """A line of a table: milliseconds of ours, of the original where there are some, and how many times as fast ours
    are."""
    cells = [name, figures(ours)]
    if theirs:
        times = min(theirs) / min(ours), statistics.median(theirs) / statistics.median(ours)
        cells += [figures(theirs), f"{times[0]:.2f}, {times[1]:.2f}"]
    print("| " + " | ".join(cells) + " |")


def steps(runs, step):
    """The milliseconds of a step, in all runs."""
    lines = [line.split() for run in runs for line in run.told.splitlines()]
    return [int(micros) / 1000 for name, micros in lines if name == step]


def table(processors, kind, path, count, crate):
    """The table of a text. `crate` has the programs over the Rust crate: to measure, to parse once, and to walk."""
    print(
        f"\n| {path.stat().st_size / 1e6:.1f} MB of {kind} | Dumyroke |"
        + (" original | times |" if ORIGINAL else "")
        + "\n|---|---|"
        + "---|---|" * bool(ORIGINAL)
    )
    if crate:
        ours, *theirs = rounds_of(processors, [[crate[0]]] + [[ORIGINAL / "measure"]] * bool(ORIGINAL), path, count)
        for name, step in [("the lexer's items", "lex"), ("parse", "parse")]:
            row(name, steps(ours, step), steps([run for runs in theirs for run in runs], step))
    peaks = []
    for mode in ["check", "tokens", "tree"]:
        ours, *theirs = rounds_of(
            processors, [[built("gqlcst"), mode]] + [[ORIGINAL / "gqlcst", mode]] * bool(ORIGINAL), path, count
        )
        row(
            f"`gqlcst {mode}`",
            [1000 * run.seconds for run in ours],
            [1000 * run.seconds for runs in theirs for run in runs],
        )
        peaks.append(f"{mode} " + peak([ours, *theirs]))
    if crate:
        peaks.append(
            "a parse through the Rust crate "
            + peak(rounds_of(processors, [[crate[1], 1]] + [[ORIGINAL / "small", 1]] * bool(ORIGINAL), path, count))
        )
    print(f"\nPeak memory in MB: {', '.join(peaks)}")


def peak(programs):
    """The greatest memory of each program's runs, in megabytes."""
    return " and ".join(f"{max(run.memory for run in runs) / 1e6:.0f}" for runs in programs)


def walk(processors, path, count, crate):
    """The megabytes a second of the walks, best and median."""
    programs = {"the Rust crate": [crate[2]]}
    if ORIGINAL:
        programs["the original"] = [ORIGINAL / "walk"]
    speeds = [
        [int(run.told.split()[0]) for run in runs] for runs in rounds_of(processors, programs.values(), path, count)
    ]
    print(
        "\nThe walk in MB/s: "
        + "; ".join(f"{name} {max(each)}, {statistics.median(each):.0f}" for name, each in zip(programs, speeds))
    )


def main():
    given = arguments(__doc__, rounds=15)
    processors = Processors()
    if not ORIGINAL:
        print("the original is not built (bench/original/README.md): it is left out")
    with tempfile.TemporaryDirectory() as name:
        folder = Path(name)
        crate = over_the_crate(folder, "measure", "small", "walk") if shutil.which("cargo") else []
        for kind, text in [("queries", "queries"), ("type definitions", "schema")]:
            table(processors, kind, made_text(folder / text, text), given.rounds, crate)
        if crate:
            walk(processors, made_text(folder / "orders", "orders"), given.rounds, crate)
    print(f"\n{processors.summary()}")


main()
