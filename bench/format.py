#!/usr/bin/env python3
"""Measures gqlfmt from standard input to standard output, and graphql-js's parse and print beside it in the same run.
Prints tables for docs/SPEED.md.

The texts are those of text.py, of 5, 10 and 20 MB, and hostile ones of 1, 2 and 4 MB, each `--rounds` times in turn.
graphql-js is run on those of 5 MB, three times at most; it needs node, and print.js says where graphql-js is looked
for. Without node its columns are empty. Ends with status 1 where twice a text takes more than 2.2 times as much
processor time."""

import os
import shutil
import statistics
import subprocess
import sys
import tempfile

from programs import HERE, Run, arguments, built, made_text

# Each with N bytes.
HOSTILE = {
    "one line": lambda n: "{" + "a " * (n // 2) + "}",
    "arguments of one field": lambda n: "{a(" + "b:1 " * (n // 4) + ")}",
    "one list value": lambda n: "{a(b:[" + "1 " * (n // 2) + "])}",
    "nested lists": lambda n: ("{a(b:" + "[" * 400 + "]" * 400 + ")}\n") * (n // 810),
    "nested lists with a comment": lambda n: ("{a(b:" + "[" * 100 + "#\n" + "]" * 100 + ")}\n") * (n // 212),
    "nested selections": lambda n: ("{a" * 100 + "}" * 100 + "\n") * (n // 301),
    "comments": lambda n: "{a\n" + "#\n" * (n // 2) + "}",
    "trailing comments": lambda n: "{" + "a#\n" * (n // 3) + "}",
    "one comment": lambda n: "{a}#" + "x" * n,
    "block string of one line": lambda n: '"""' + "x" * n + '"""type T',
    "block string of many lines": lambda n: '"""' + "\n  x" * (n // 4) + '"""type T',
    "block strings": lambda n: "{a(" + 'b:"""x\ny"""' * (n // 12) + ")}",
    "quotes in a block string": lambda n: '"""' + '\\"""' * (n // 4) + ' """type T',
    "empty lines": lambda n: "{a" + "\n" * n + "}",
    "commas": lambda n: "{a" + "," * n + "}",
}


def made(path, words):
    """The file, with the output of this script for these words. It holds no long text itself, since that would count as
    memory of those that it starts."""
    with open(path, "w") as target:
        subprocess.run([sys.executable, __file__, *words], stdout=target, check=True)
    return path


# Indents make some hostile texts longer than gqlfmt writes unless it is allowed to.
UNBOUNDED = ["--max-output", str(2**32)]


def timed(command, path):
    """A run, which has to end well."""
    run = Run(command, path)
    if run.status:
        sys.exit(f"{command[0]} on {path}: status {run.status}\n{run.told}")
    return run


def written(program, path):
    """How many bytes the program writes."""
    with open(path) as source:
        process = subprocess.Popen([program, *UNBOUNDED], stdin=source, stdout=subprocess.PIPE)
        return int(subprocess.run(["wc", "-c"], stdin=process.stdout, stdout=subprocess.PIPE, check=True).stdout)


def milliseconds(seconds):
    return f"{1000 * seconds:.0f} ms"


def row(kind, length, ours, theirs):
    """A line of the first table."""
    seconds = [each.seconds for each in ours]
    best, median = min(seconds), statistics.median(seconds)
    cells = [
        f"{kind}, {length / 1e6:.1f} MB",
        milliseconds(best),
        milliseconds(median),
        milliseconds(min(each.processor for each in ours)),
    ]
    cells += [
        f"{length / 1e6 / best:.0f}",
        f"{length / 1e6 / median:.0f}",
        f"{max(each.memory for each in ours) / length:.1f}",
    ]
    if theirs:
        cells += [
            milliseconds(min(each.seconds for each in theirs)),
            milliseconds(min(float(each.told) for each in theirs) / 1000),
        ]
        cells += [f"{max(each.memory for each in theirs) / length:.0f}"]
    return "| " + " | ".join(cells + [""] * (10 - len(cells))) + " |"


def ordinary(program, folder, rounds):
    """The table of the texts of text.py."""
    print(
        "| text | best | median | processor | MB/s, best | median | memory a byte | graphql-js | parse and print alone"
        " | memory a byte |\n|"
        + "---|" * 10
    )
    node = shutil.which("node")
    for kind in ["queries", "schema"]:
        for size in [5_000_000, 10_000_000, 20_000_000]:
            path = made_text(f"{folder}/{kind}", kind, size)
            ours, theirs = [], []
            for turn in range(rounds):
                ours.append(timed([program], path))
                if node and size == 5_000_000 and turn < 3:
                    theirs.append(timed([node, f"{HERE}/print.js"], path))
            print(row(kind, os.path.getsize(path), ours, theirs), flush=True)


def hostile(program, folder, rounds):
    """The table of the hostile texts. Answers how many take more than 2.2 times the processor time at twice the
    size."""
    sizes = [1_000_000, 2_000_000, 4_000_000]
    names = " | ".join(f"{size // 1_000_000} MB" for size in sizes)
    print(f"\n| text | {names} | processor time, times | written at the last | memory |\n|" + "---|" * (len(sizes) + 4))
    slow = 0
    for name in HOSTILE:
        paths = [made(f"{folder}/{size}", ["--hostile", name, str(size)]) for size in sizes]
        runs = list(zip(*[[timed([program, *UNBOUNDED], path) for path in paths] for _ in range(rounds)]))
        processor = [min(each.processor for each in each_size) for each_size in runs]
        times = [after / before for before, after in zip(processor, processor[1:])]
        slow += max(times) > 2.2
        cells = (
            [name]
            + [milliseconds(min(each.seconds for each in each_size)) for each_size in runs]
            + [", ".join(f"{ratio:.2f}" for ratio in times)]
        )
        cells += [
            f"{written(program, paths[-1]) / 1e6:.0f} MB",
            f"{max(each.memory for each in runs[-1]) / 1e6:.0f} MB",
        ]
        print("| " + " | ".join(cells) + " |", flush=True)
    return slow


def main():
    if sys.argv[1:2] == ["--hostile"]:
        sys.stdout.write(HOSTILE[sys.argv[2]](int(sys.argv[3])))
        return
    rounds, program = arguments(__doc__, rounds=15).rounds, built("gqlfmt")
    with tempfile.TemporaryDirectory() as folder:
        ordinary(program, folder, rounds)
        slow = hostile(program, folder, rounds)
    sys.exit(1 if slow else 0)


main()
