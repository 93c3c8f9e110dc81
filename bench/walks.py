#!/usr/bin/env python3
"""Measures walks of the Rust crate that go backwards, count siblings, or lead from a place of the text to an element
(bindings/rust/examples/walks.rs): the best time of `--rounds`, in milliseconds, for texts of `--definitions`. `growth`
is how many times more the last text takes a definition than the first one: 1 for linear time, and for quadratic time as
many times as the text is longer. Ends with status 1 where a walk grows by more than half of that."""

import os
import subprocess
import sys

from programs import TOP, arguments

RUST = TOP / "bindings/rust"


def measured(sizes):
    """The microseconds of each walk for each size."""
    ended = subprocess.run(
        [RUST / "target/release/examples/walks", *map(str, sizes)], stdout=subprocess.PIPE, check=True, text=True
    )
    lines = (line.split("\t") for line in ended.stdout.splitlines())
    return {name: list(map(int, times)) for name, *times in lines}


def main():
    given = arguments(__doc__, definitions=[5_000, 20_000, 80_000], rounds=5)
    there = {**os.environ, "DUMYROKE_LIB_DIR": str(TOP / "build")}
    subprocess.run(
        ["cargo", "build", "--quiet", "--release", "--offline", "--example", "walks"], cwd=RUST, env=there, check=True
    )
    rounds = [measured(given.definitions) for _ in range(given.rounds)]
    longer, steep = given.definitions[-1] / given.definitions[0], []
    print(
        "| definitions | "
        + " | ".join(f"{size:,}" for size in given.definitions)
        + " | growth |\n|"
        + "---|" * (len(given.definitions) + 2)
    )
    for name in rounds[0]:
        best = [min(times) for times in zip(*(made[name] for made in rounds))]
        growth = best[-1] / max(best[0], 1) / longer
        print(f"| {name} | " + " | ".join(f"{time / 1000:.1f}" for time in best) + f" | {growth:.1f} |")
        steep += [name] if growth > longer / 2 else []
    if steep:
        sys.exit(f"these take quadratic time: {', '.join(steep)}")


main()
