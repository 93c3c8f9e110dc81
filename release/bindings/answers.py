"""Compares platforms: on the same texts all calls have to answer the same, byte for byte."""

import filecmp
import random
import struct

from .shared import BUILD, C, INCLUDE, LIMITS, numbers_of, run, stop, texts

# The number that is no limit.
NO_LIMIT = 2**64 - 1
# How many texts are made at random.
MADE = 20000
CALLS = ["parse", "parse_selection_set", "parse_type", "lex", "string_value", "format", "validate", "measure"]


def slip(source, text, given):
    """A text in which some bytes are those of another text, or one is any byte."""
    other = source.choice(given)
    start, at = source.randrange(len(other) + 1), source.randrange(len(text) + 1)
    put = other[start : start + source.randrange(60)] if source.randrange(8) else bytes([source.randrange(256)])
    return text[:at] + put + text[at + source.randrange(20) :]


def made(count):
    """This number of texts, each time the same: the beginnings of the tests' texts with slips."""
    source, given = random.Random(count), [text[:1000] for text in texts()]
    found = [source.choice(given) for _ in range(count)]
    for _ in range(4):
        found = [slip(source, text, given) for text in found]
    return found


def records():
    """What `bindings/c/tests/answers.c` reads: the tests' texts with each pair of limits, and those that are made with
    the usual ones."""
    cases = [(text, limits) for text in texts() for limits in LIMITS] + [(text, ()) for text in made(MADE)]
    return b"".join(record(text, *numbers_of(limits)) for text, limits in cases)


def record(text, recursion, tokens):
    return struct.pack("<3Q", recursion, NO_LIMIT if tokens is None else tokens, len(text)) + text


def answered(command, calls, given, answers):
    """Has a program answer calls on the texts in a file, into another file."""
    with given.open("rb") as source, answers.open("wb") as written:
        run(*command, *calls, stdin=source, stdout=written, timeout=1800)


def compare(name, command, folder, calls=CALLS):
    """What a program answers is what bindings/c/tests/answers.c answers over the static library of this platform."""
    if not (BUILD / "libdumyroke.a").exists():
        stop("there is no library to compare with: `./do bindings build` comes first")
    given, ours, theirs, program = (folder / name for name in ("texts", "ours", "theirs", "reference"))
    given.write_bytes(records())
    run("gcc", "-O2", f"-I{INCLUDE}", "-o", program, C / "tests/answers.c", f"-L{BUILD}", "-l:libdumyroke.a")
    answered([program], calls, given, theirs)
    answered(command, calls, given, ours)
    if not filecmp.cmp(ours, theirs, shallow=False):
        stop(f"{name} and the library of this platform answer {' or '.join(calls)} otherwise")
    print(f"{name} and the library of this platform answer the same {theirs.stat().st_size} bytes")
