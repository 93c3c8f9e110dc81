#!/usr/bin/env python3
"""Finds how deep a text may nest until `gqlcst check` runs out of stack, and prints a table: for each shape of text the
levels that each stack holds, and the bytes of a level.

`--stacks` are the stacks in MB."""

import resource
import subprocess

from programs import arguments, built

SHAPES = {
    "selection sets": lambda n: "{a" * n + "}" * n,
    "inline fragments": lambda n: "{" + "...{" * (n - 1) + "a" + "}" * n,
    "selection sets of a fragment": lambda n: "fragment F on T" + "{a" * n + "}" * n,
    "list values": lambda n: "{a(b:" + "[" * n + "]" * n + ")}",
    "object values": lambda n: "{a(b:" + "{c:" * n + "1" + "}" * n + ")}",
    "list values by default": lambda n: "query($a:T=" + "[" * n + "]" * n + "){a}",
    "list types": lambda n: "query($a:" + "[" * n + "T" + "]" * n + "){a}",
    "list types of fields": lambda n: "type A{a:" + "[" * n + "T" + "]" * n + "}",
}
NO_LIMIT = "18446744073709551615"


def holds(program, text, stack):
    """Whether the program reads the text with this number of bytes of stack."""

    def set_stack():
        resource.setrlimit(resource.RLIMIT_STACK, (stack, resource.RLIM_INFINITY))

    ended = subprocess.run(
        [program, "check", "--recursion", NO_LIMIT], input=text.encode(), capture_output=True, preexec_fn=set_stack
    )
    return ended.stdout == b"clean\n"


def deepest(program, shape, stack):
    """The most levels that the stack holds."""
    low, high = 1, 2
    while holds(program, shape(high), stack):
        low, high = high, 2 * high
    while high - low > 1:
        middle = (low + high) // 2
        low, high = (middle, high) if holds(program, shape(middle), stack) else (low, middle)
    return low


def main():
    stacks, program = arguments(__doc__, stacks=[1, 8, 64]).stacks, built("gqlcst")
    print("| | " + " | ".join(f"{size} MB" for size in stacks) + " | bytes a level |\n|" + "---|" * (len(stacks) + 2))
    for name, shape in SHAPES.items():
        levels = [deepest(program, shape, size * 2**20) for size in stacks]
        # the bytes that the largest stack has more than the smallest
        more = (
            (stacks[-1] - stacks[0]) * 2**20 / (levels[-1] - levels[0])
            if len(stacks) > 1
            else stacks[0] * 2**20 / levels[0]
        )
        print(f"| {name} | " + " | ".join(f"{count:,}" for count in levels) + f" | {more:.0f} |", flush=True)


main()
