#!/usr/bin/env python3
"""Validates hostile documents against hostile schemas by `crates/tests_queries`, and prints a table: of each text the
seconds at `--bytes` and at twice as many, and how many times as long the second takes. The seconds are the program's
own, with the parse of both texts, and the least of `--rounds` runs.

Ends with status 1 where twice a text takes more than 2.6 times as long, if it takes a tenth of a second or more: a look
in a table of n names takes log n comparisons."""

import sys
import tempfile

from programs import Run, arguments, built

TYPES = "type Query { a: N b(x: Int): Int }\ntype N { n: N "
FIELDS = TYPES + " ".join(f"f{number}: Int" for number in range(100)) + " }"


def nested(size, depth):
    """Leaves below this number of nested fields."""
    return "{ a {" + " n {" * depth + " f7" * (size // 3) + " }" * (depth + 2)


# For a number of bytes, a schema and a document.
TEXTS = {
    "leaves at depth 1": lambda size: (FIELDS, nested(size, 1)),
    "leaves at depth 240": lambda size: (FIELDS, nested(size, 240)),
    "unknown fields": lambda size: (FIELDS, "{ a {" + " zz" * (size // 3) + " } }"),
    "fields of a type with a long name": lambda size: (
        FIELDS.replace("N", "N" * (size // 2)),
        "{ a {" + " n { f1 }" * (size // 18) + " } }",
    ),
    "a type with as many fields": lambda size: (
        TYPES + " ".join(f"f{number}: Int" for number in range(size // 30)) + " }",
        "{ a {" + " ".join(f"f{number}" for number in range(size // 30)) + " } }",
    ),
    "arguments that a field has and is given": lambda size: (
        "type Query { a(" + " ".join(f"x{number}: Int!" for number in range(size // 40)) + "): Int }",
        "{ a(" + " ".join(f"x{number}: 1" for number in range(size // 40)) + ") }",
    ),
    "arguments that a field has and is not given": lambda size: (
        "type Query { a(" + " ".join(f"x{number}: Int!" for number in range(size // 20)) + "): Int }",
        "{ a }",
    ),
    "extensions of one type": lambda size: (
        "type Query { a: Int }" + "".join(f" extend type Query {{ f{number}: Int }}" for number in range(size // 40)),
        "{ a }",
    ),
    "unknown types": lambda size: (FIELDS, "{ a {" + " ... on Zz { b }" * (size // 17) + " } }"),
    "directives of a field": lambda size: (FIELDS, "{ b" + " @zz" * (size // 4) + " }"),
}


def seconds(program, folder, texts, rounds):
    """The program's own seconds on a record of a schema and a document: the least of some runs."""
    path = f"{folder}/record"
    with open(path, "w") as record:
        record.write("== 1000\n{}\n%%%%\n{}\n".format(*texts))
    return min(Run([program], path).own for _ in range(rounds))


def main():
    given, failed = arguments(__doc__, bytes=1_000_000, rounds=3, program=None), False
    program = given.program or built("tests_queries")
    print("| text | seconds | of twice as much | times |")
    print("|---|---|---|---|")
    with tempfile.TemporaryDirectory() as folder:
        for name, texts in TEXTS.items():
            once, twice = (
                seconds(program, folder, texts(size), given.rounds) for size in (given.bytes, 2 * given.bytes)
            )
            print(f"| {name} | {once:.2f} | {twice:.2f} | {twice / max(once, 0.001):.1f} |", flush=True)
            failed = failed or (once >= 0.1 and twice > 2.6 * once)
    return 1 if failed else 0


if __name__ == "__main__":
    sys.exit(main())
