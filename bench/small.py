#!/usr/bin/env python3
"""Measures queries as a gateway gets them, each parsed many times through C, the Rust crate and Python, as
`./do bindings` has built them, and beside them by the original, if it is built (bench/original/README.md), and by
graphql-core and graphql-js, where they are installed. Prints microseconds a parse, best and median of `--rounds` runs
in turn, which make `--parses` parses each. The slow ones make fewer: Python a tenth, graphql-core and graphql-js a
fiftieth. The last lines are walks over the typed tree.

A run counts only on a processor at rest (calm.py). The number of those that did not count is printed."""

import os
import re
import shutil
import statistics
import subprocess
import sys
import tempfile
import time
from pathlib import Path

from calm import Processors
from programs import HERE, ORIGINAL, TOP, arguments, over_the_crate

sys.path.insert(0, str(TOP / "bindings/python"))
import dumyroke  # noqa: E402

HERO = """query Hero($id: ID!, $first: Int = 10) {
    hero(id: $id) {
        id
        name
        friends(first: $first, after: null) @include(if: true) {
            edges {
                node {
                    ...Card
                    name
                }
            }
        }
        homeworld { name }
    }
}
"""
CARD = """fragment Card_%d on Product {
    id
    name
    price(currency: EUR, digits: 2) @include(if: $priced)
    image(width: 320) {
        url
        alt
    }
    reviews(first: 3, orderBy: {field: RATING, direction: DESC}) {
        edges {
            node {
                rating
                author {
                    name
                }
            }
        }
    }
    seller { id name country }
}
"""
# What a slow way divides the number of parses by.
SLOWER = {"python": 10, "graphql": 50}


def without_blanks(text):
    """A text without strings and comments, as programs send it: blanks are only between words."""
    return re.sub(r"\s*([^\w\s$])\s*", r"\1", re.sub(r"\s+", " ", text.replace(",", " "))).strip()


def texts():
    cards = "".join(CARD % number for number in range(7))
    return [without_blanks(HERO), HERO, without_blanks(cards), cards]


def compiled(folder):
    """The program for C."""
    flags = subprocess.run(
        [TOP / "release/bindings/run", "flags"], stdout=subprocess.PIPE, check=True, text=True
    ).stdout.split()
    subprocess.run(["gcc", "-O2", HERE / "small.c", *flags, "-o", folder / "small"], check=True)
    return folder / "small"


def by_program(*command):
    """How a program is run: the microseconds of a parse."""
    there = {**os.environ, "LD_LIBRARY_PATH": str(TOP / "build")}

    def run(text, parses):
        ended = subprocess.run(
            [*command, str(parses)], input=text, capture_output=True, check=True, text=True, env=there
        )
        nanoseconds, errors = map(int, ended.stdout.partition(":")[0].split())
        if errors:
            sys.exit(f"{command[0]} finds errors")
        return nanoseconds / parses / 1000

    return run


def in_python(parse):
    """The same for a call."""

    def run(text, parses):
        started = time.perf_counter()
        for _ in range(parses):
            parse(text)
        return 1e6 * (time.perf_counter() - started) / parses

    return run


def ways(folder):
    """Who parses: how one run is made, and what divides its number of parses."""
    found = {"C: `dumyroke_tree_parse`": (by_program(compiled(folder)), 1)}
    walks = {}
    if shutil.which("cargo"):
        parse, walk = over_the_crate(folder, "small", "walk")
        found["Rust: `Parser::parse`"], walks["Rust: a walk"] = (by_program(parse), 1), (by_program(walk), 1)
    if ORIGINAL:
        found["apollo-parser 0.8.7"] = by_program(ORIGINAL / "small"), 1
        walks["apollo-parser 0.8.7: a walk"] = by_program(ORIGINAL / "walk"), 1
    found[f"Python {sys.version.split()[0]}: `parse`"] = in_python(dumyroke.parse), SLOWER["python"]
    try:
        import graphql

        version = getattr(graphql, "version", None) or ".".join(map(str, graphql.VERSION[:3]))
        found[f"graphql-core {version}: `parse`"] = in_python(graphql.parse), SLOWER["graphql"]
    except ImportError:
        print("graphql-core is not installed here")
    if shutil.which("node") and Path(os.environ.get("GRAPHQL", "/usr/share/nodejs/graphql")).exists():
        found["graphql-js: `parse`"] = by_program("node", HERE / "small.js"), SLOWER["graphql"]
    else:
        print("node or graphql-js is not installed here")
    return {**found, **walks}


def main():
    given = arguments(__doc__, rounds=10, parses=10_000)
    processors = Processors()
    with tempfile.TemporaryDirectory() as name:
        found, all_texts = ways(Path(name)), texts()
        print("| bytes | " + " | ".join(str(len(text)) for text in all_texts) + " |\n|---|" + "---|" * len(all_texts))
        times = {}
        for number, text in enumerate(all_texts):
            for _ in range(given.rounds):
                for way, (run, fewer) in found.items():
                    times.setdefault((way, number), []).append(
                        processors.once(run, text, max(given.parses // fewer, 1))
                    )
        for way in found:
            cells = (times[way, number] for number in range(len(all_texts)))
            print(
                f"| {way} | " + " | ".join(f"{min(each):.2f}, {statistics.median(each):.2f}" for each in cells) + " |"
            )
    print(f"\n{processors.summary()}")


main()
