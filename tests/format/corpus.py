"""Texts that gqlfmt and the libraries are tried with: the examples of docs/FORMAT.md, in which a text and its layout
follow one another; the documents below, each with its layout; the texts of crates/tests_parser, without a layout; and
documents at random."""

import random
import re
import sys
from pathlib import Path

from documents import Documents, commented, shaken

TOP = Path(__file__).resolve().parent.parent.parent
DOCUMENT = re.compile(
    r'[\s,\ufeff]*(["#{]|'
    r"(query|mutation|subscription|fragment|extend|schema|scalar|type|interface|union|enum|input|directive)\b)"
)
WIDE = "語" * 31
# How many documents at random have no comments, and the seed of their numbers.
COUNT, SEED = 80, 1

# What a page can't show, or what random documents seldom have: why, the text, and its layout by docs/FORMAT.md.
NAMED = {
    "three sorts of line ends, and a blank line of each": (
        "{a\r\nb\rc\n\nd\r\n\r\ne\r\rf}",
        "{\n  a\n  b\n  c\n\n  d\n\n  e\n\n  f\n}\n",
    ),
    "commas and byte order marks are white space": (
        "\ufeff{a,,b(c:[1,\ufeff2,,]),\ufeff}\ufeff",
        "{\n  a\n  b(c: [1, 2])\n}\n",
    ),
    "keywords as names": (
        "type type implements interface&union{input(enum:[scalar!]!=query):on@repeatable true:extend}",
        "type type implements interface & union {\n"
        "  input(enum: [scalar!]! = query): on @repeatable\n  true: extend\n}\n",
    ),
    "80 columns fit": (
        f"query Q($a:Int=1){{{'a' * 58}(b:$a,c:$a,d:1)}}",
        f"query Q($a: Int = 1) {{\n  {'a' * 58}(b: $a, c: $a, d: 1)\n}}\n",
    ),
    "81 columns do not": (
        f"query Q($a:Int=1){{{'a' * 59}(b:$a,c:$a,d:1)}}",
        f"query Q($a: Int = 1) {{\n  {'a' * 59}(\n    b: $a\n    c: $a\n    d: 1\n  )\n}}\n",
    ),
    "a wide character takes two columns": (
        f'{{a(b:"{WIDE}",c:123)}}',
        f'{{\n  a(b: "{WIDE}", c: 123)\n}}\n',
    ),
    "a wide character takes two columns, and one more is too many": (
        f'{{a(b:"{WIDE}",c:1234)}}',
        f'{{\n  a(\n    b: "{WIDE}"\n    c: 1234\n  )\n}}\n',
    ),
    "the indent of a block string is not its own": (
        '{a(b:"""\r\n      x\r\n        y\r\n    """)}',
        '{\n  a(\n    b: """\n    x\n      y\n    """\n  )\n}\n',
    ),
    "a block string that ends with a quote, and one with a backslash": (
        '"""x "\n"""scalar A"""y\\\n"""scalar B',
        '"""\nx "\n"""\nscalar A\n"""\ny\\\n"""\nscalar B\n',
    ),
    "an empty block string": ('""""""scalar A', '"""\n"""\nscalar A\n'),
    "the sign before a first member goes where the members fit, and comes where they do not": (
        f"union A=|B|C\n\nunion D={'E' * 40}|{'F' * 40}",
        f"union A = B | C\n\nunion D =\n  | {'E' * 40}\n  | {'F' * 40}\n",
    ),
    "of groups in groups the outer one breaks first, and an inner one that then fits does not": (
        f"{{a(b:[[{'1 ' * 20}],[{'2 ' * 10}]])}}",
        f"{{\n  a(\n    b: [\n      [{', '.join('1' * 20)}]\n      [{', '.join('2' * 10)}]\n    ]\n  )\n}}\n",
    ),
}


def read(path):
    return path.read_bytes().decode()


def examples():
    """The examples of the page on the layout: each a text and its layout."""
    blocks = re.findall(r"^```graphql\n(.*?)^```$", read(TOP / "docs/FORMAT.md"), re.DOTALL | re.MULTILINE)
    if len(blocks) % 2:
        sys.exit("docs/FORMAT.md: a text has no layout")
    return list(zip(blocks[::2], blocks[1::2]))


def tested():
    """The texts of crates/tests_parser that are parsed as documents and written in one piece, each once."""
    texts = {}
    for text in read(TOP / "crates/tests_parser/stdin").split("\n== ")[1:]:
        head, _, source = text.partition("\n--\n")[0].partition("\n")
        mode, *words = head.split()
        if mode in ("document", "tree", "values", "definitions") and len(words) < 3:
            texts[source] = True
    return [text for text in texts if DOCUMENT.match(text)]


def known():
    """The texts whose layout is known: each a title, the text and its layout."""
    return [*(("docs/FORMAT.md", *pair) for pair in examples()), *((title, *pair) for title, pair in NAMED.items())]


def at_random():
    """Documents at random with white space at random, and a third as many with comments too."""
    numbers = random.Random(SEED)
    made = Documents(numbers)
    plain = [shaken(made.document(), numbers) for _ in range(COUNT)]
    return plain + [commented(shaken(made.document(), numbers), numbers) for _ in range(COUNT // 3)]


def layouts():
    """All texts, each with its title and its layout, or an empty one where none is known."""
    unknown = {"crates/tests_parser": tested(), "at random": at_random()}
    return [*known(), *((title, text, "") for title, found in unknown.items() for text in found)]


def texts():
    return [text for _, text, _ in layouts()]
