#!/usr/bin/env python3
"""Runs `--program`, which is `gqlcst check` unless given, or `gqlfmt` or `gqlcheck`, on hostile texts of some bytes, of
twice as many, and so on, and prints a table: at each size the program's own seconds and those that the kernel takes for
it, how many times the program's own are those of the size before, and the peak memory at the last. The kernel's go with
the memory: it hands out and clears each page.

There are `--sizes` sizes from `--bytes` on, and `--rounds` runs of each in turn, more where they are short. A run
counts only on a processor at rest (calm.py). A size that would take more than `--gigabytes`, by the memory of the size
before, is left out. `--text` is the only text that is run. Ends with status 1 where twice a text takes more than 2.2
times the program's own seconds, if the text takes a hundredth of a second or more.

With `--within` it prints another table, of texts of `--bytes` alone: the shortest, the middle and the longest of
`--rounds` runs by the clock, and the memory. Every run counts. Ends with status 1 where one takes more than that many
seconds.

What a run takes in all is exact. Which part of it is the program's own the kernel finds out by samples, so a single
short run says little of that: the seconds are those of the shortest run, divided as the sums of all runs are."""

import os
import sys
import tempfile
import time

from calm import Processors
from programs import Run, arguments, built

TEXTS = {
    "braces": lambda n: "{" * n,
    "quotes": lambda n: '"' * n,
    "backslashes in a string": lambda n: '"' + "\\" * n + '"',
    "a long string": lambda n: '{a(b:"' + "x" * n + '")}',
    "a long string without an end": lambda n: '"' + "x" * n,
    "dots": lambda n: "." * n,
    "commas after ...": lambda n: "{..." + "," * n + "a}",
    "names with commas between": lambda n: "{" + "a," * (n // 2) + "}",
    "[ in a value": lambda n: "{a(b:" + "[" * n + ")}",
    "NUL bytes": lambda n: "\0" * n,
    'escaped """ in a block string': lambda n: '"""' + '\\"""' * (n // 4) + '"""',
    "unclosed block strings": lambda n: '"""a" ' * (n // 6),
    "#": lambda n: "#" * n,
    "# on each line": lambda n: "#\n" * (n // 2),
    "-": lambda n: "-" * n,
    "operations in one line": lambda n: "".join(f"query Q{number:07}{{a}}" for number in range(n // 16)),
    "errors in one line": lambda n: "# é\n" + "query é{!}" * (n // 12),
    "wrapped types": lambda n: ("query(" + "$a:" + "[" * 400 + "T" + "]!" * 400 + "){a}\n") * (n // 1220),
}
# The words of each program. `gqlcheck` puts a line and a column in front of each operation's figures.
PROGRAMS = {"gqlcst": ["check"], "gqlfmt": [], "gqlcheck": ["--figures"]}
# Runs of a text are made for this number of seconds, and one that does not count is made again this number of times.
SHORT = 12
TRIES = 3
# The kernel's samples are 4 ms apart, so less than this is not compared.
LEAST = 0.01
# Texts that nest deeper than the default limit, and the limit with which they are read: 8 MB of stack hold it
# (bench/stack.py).
DEPTH = 10_000
NESTED_TEXTS = {
    "nested selections": lambda n: ("{a" * DEPTH + "}" * DEPTH + "\n") * (n // (3 * DEPTH + 1)),
    "nested list types": lambda n: ("query($a:" + "[" * DEPTH + "T" + "]" * DEPTH + "){a}\n") * (n // (2 * DEPTH + 15)),
}


def run(command, text):
    """The command's own seconds, the kernel's for it, and the greatest memory that it held in gigabytes."""
    made = Run(command, text)
    return made.own, made.kernel, made.memory / 1e9


def seconds(own, kernel):
    """The program's own seconds and the kernel's, of several runs."""
    total = min(mine + its for mine, its in zip(own, kernel))
    share = sum(own) / (sum(own) + sum(kernel))
    return total * share, total * (1 - share)


def measured(processors, command, texts, rounds, most):
    """The seconds at each size, the command's own and the kernel's; and the memory at the last."""
    runs, started = [[] for _ in texts], time.monotonic()
    while len(runs[0]) < rounds or time.monotonic() - started < SHORT:
        for path, before, results in zip(texts, [None, *runs], runs):
            if before and 2 * before[0][2] > most:
                break
            results.append(processors.once(run, command, path, tries=TRIES))
    runs = [list(zip(*results)) for results in runs if results]
    return [seconds(own, kernel) for own, kernel, _ in runs], runs[-1][2][0]


def written(folder, make, sizes):
    """Files with a text of each size."""
    texts = [os.path.join(folder, str(size)) for size in sizes]
    for path, size in zip(texts, sizes):
        with open(path, "w") as target:
            target.write(make(size))
    return texts


def within(command, most, size, rounds, only):
    """Prints the seconds by the clock and the memory of each text of some bytes. Whether no run took more seconds than
    `most`."""
    slow = False
    print("| | shortest | middle | longest | memory |\n|" + "---|" * 5)
    with tempfile.TemporaryDirectory() as folder:
        for name, make in TEXTS.items():
            if only not in (None, name):
                continue
            (path,) = written(folder, make, [size])
            runs = sorted((Run(command, path) for _ in range(rounds)), key=lambda made: made.seconds)
            slow |= runs[-1].seconds > most
            cells = " | ".join(f"{made.seconds:.2f}" for made in (runs[0], runs[rounds // 2], runs[-1]))
            print(f"| {name} | {cells} | {max(made.memory for made in runs) / 1e9:.2f} GB |", flush=True)
    return not slow


def main():
    given = arguments(
        __doc__, bytes=6_250_000, sizes=4, rounds=5, gigabytes=10, text=None, program="gqlcst", within=0.0
    )
    program = [built(given.program), *PROGRAMS[given.program]]
    if given.within:
        sys.exit(0 if within(program, given.within, given.bytes, given.rounds, given.text) else 1)
    sizes = [given.bytes * 2**i for i in range(given.sizes)]
    print(
        "| | "
        + " | ".join(f"{size / 1e6:g} MB" for size in sizes)
        + " | times | memory |\n|"
        + "---|" * (len(sizes) + 3)
    )
    slow, processors = False, Processors()
    with tempfile.TemporaryDirectory() as folder:
        for name, make in (TEXTS | NESTED_TEXTS).items():
            if given.text not in (None, name):
                continue
            command = [*program, *(["--recursion", str(DEPTH)] if name in NESTED_TEXTS else [])]
            took, memory = measured(processors, command, written(folder, make, sizes), given.rounds, given.gigabytes)
            times = [after / max(before, 0.001) for (before, _), (after, _) in zip(took, took[1:])]
            slow |= any(ratio > 2.2 and before >= LEAST for ratio, (before, _) in zip(times, took))
            cells = [f"{own:.3f} + {kernel:.3f}" for own, kernel in took] + [""] * (len(sizes) - len(took))
            ratios = ", ".join(f"{ratio:.2f}" for ratio in times)
            print(f"| {name} | " + " | ".join(cells) + f" | {ratios} | {memory:.2f} GB |", flush=True)
    print(f"\n{processors.summary()}")
    sys.exit(1 if slow else 0)


main()
