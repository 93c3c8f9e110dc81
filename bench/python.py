#!/usr/bin/env python3
"""Measures the Python package, and graphql-core where it is installed: the best and the median processor time in
milliseconds, of `--rounds` calls in turn, on the file `--text`, or on `text.py queries` unless it is given.
graphql-core before 3 reads no block strings and no `null`: both are replaced in its text."""

import re
import statistics
import subprocess
import sys
import time
from pathlib import Path

from programs import HERE, TOP, arguments

sys.path.insert(0, str(TOP / "bindings/python"))
import dumyroke  # noqa: E402


def nodes_below(node):
    """How many nodes a recursive walk finds."""
    return 1 + sum(map(nodes_below, node.children))


def ours(text):
    """The calls of the package that are measured, by their names."""
    tree = dumyroke.parse(text)
    print(
        f"{len(tree)} elements, {nodes_below(tree.root)} nodes, {len(tree.find(dumyroke.nodes.Field))} fields,"
        f" {len(tree.errors)} errors"
    )
    return {
        "dumyroke: errors (`check`)": lambda: dumyroke.check(text),
        "dumyroke: tree and errors (`parse`)": lambda: dumyroke.parse(text),
        "dumyroke: all nodes, by recursion over `children`": lambda: nodes_below(tree.root),
        "dumyroke: all nodes, by `descendants`": lambda: sum(1 for _ in tree.root.descendants),
        "dumyroke: the names of all fields, by `find`": lambda: [
            it.name.text for it in tree.find(dumyroke.nodes.Field)
        ],
    }


def theirs(text):
    """Those of graphql-core."""
    try:
        import graphql
        from graphql.language.visitor import Visitor, visit
    except ImportError:
        print("graphql-core is not installed here")
        return {}
    version = getattr(graphql, "version", None) or ".".join(map(str, graphql.VERSION[:3]))
    if version.startswith("2."):
        text = re.sub(r'"""[^"]*"""', '"text"', text).replace("null", "nil")

    class Counting(Visitor):
        nodes = 0

        def enter(self, *_):
            self.nodes += 1

    def walk():
        visitor = Counting()
        visit(document, visitor)
        return visitor.nodes

    document = graphql.parse(text)
    print(f"{walk()} nodes of graphql-core")
    return {
        f"graphql-core {version}: tree (`parse`)": lambda: graphql.parse(text),
        f"graphql-core {version}: all nodes, by its visitor": walk,
    }


def in_turn(calls, rounds):
    """Prints the times of the calls, which are made in turn."""
    times = {name: [] for name in calls}
    for _ in range(rounds):
        for name, call in calls.items():
            started = time.process_time()
            call()
            times[name].append(1000 * (time.process_time() - started))
    for name, found in times.items():
        print(f"| {name} | {min(found):,.0f} | {statistics.median(found):,.0f} |")


def main():
    given = arguments(__doc__, text=None, rounds=5)
    made = [sys.executable, HERE / "text.py", "queries"]
    text = (
        Path(given.text).read_bytes() if given.text else subprocess.run(made, stdout=subprocess.PIPE, check=True).stdout
    ).decode()
    print(f"{len(text.encode())} bytes, Python {sys.version.split()[0]}")
    in_turn({**ours(text), **theirs(text)}, given.rounds)


main()
