#!/usr/bin/env python3
"""Deletes one punctuator at each of 500 places of schemas and queries, and counts the errors that the server shows:
slips.py PROGRAM [SEED].

In the median it has to be one, in nine of ten cases at most three, and the first has to be the first of gqlcst where
that is built. Without a `}` and with a definition before the first error, that error has to name a brace of the
definition that lacks it."""
import random
import re
import subprocess
import sys
from pathlib import Path

from client import Client, Text, errors_of

ROOT = Path(__file__).resolve().parent.parent.parent
GQLCST = ROOT / "crates/gqlcst/out/gqlcst"
TOKEN = re.compile(
    r'"""(?:\\"""|(?!""").)*"""|"(?:\\.|[^"\\\n])*"|#[^\n]*|\.\.\.|[{}()\[\]:!|&=@$]|[^"#{}()\[\]:!|&=@$.]+|.',
    re.DOTALL,
)


DEFINITION = re.compile(
    r"^(?:query|mutation|subscription|fragment|schema|scalar|type|interface|union|enum|input|directive|extend)\b",
    re.MULTILINE,
)


def texts():
    for kind in ["queries", "orders", "schema", "described"]:
        yield subprocess.run(
            [sys.executable, ROOT / "bench/text.py", kind, "6000"], stdout=subprocess.PIPE, text=True, check=True
        ).stdout


def slip(chance, text):
    """The text without one of its punctuators, where that was, and which one it was."""
    places = [it.span() for it in TOKEN.finditer(text) if re.fullmatch(r"\.\.\.|[{}()\[\]:!|&=@$]", it.group())]
    start, end = chance.choice(places)
    return text[:start] + text[end:], start, text[start:end]


def first_offset(text):
    report = subprocess.run([GQLCST, "check"], input=text.encode(), stdout=subprocess.PIPE).stdout
    return int(re.search(rb"^ERROR@(\d+):", report, re.MULTILINE).group(1))


def lacks_its_brace(text, place, error):
    """Whether an error that a `}` missing at an offset makes behind the next definition names no brace of the
    definition without it; None without such an error."""
    shown, begins = Text(text, "utf-16"), [it.start() for it in DEFINITION.finditer(text)]
    if not any(place <= begin <= shown.offset(error["range"]["start"]) for begin in begins):
        return None
    named = [shown.offset(it["location"]["range"]["start"]) for it in error.get("relatedInformation", [])]
    return [text[it] for it in named if max(begin for begin in begins if begin < place) < it < place] != ["{"]


def main():
    chance, client, counts, wrong = (
        random.Random(int(sys.argv[2]) if len(sys.argv) > 2 else 54),
        Client(sys.argv[1]),
        [],
        0,
    )
    lacking = []
    client.initialize(related=True)
    documents = list(texts())
    for number in range(500):
        text, place, mark = slip(chance, documents[number % len(documents)])
        errors = errors_of(client.open("file:///slip", text))
        if errors:
            counts.append(len(errors))
            lacking.append(lacks_its_brace(text, place, errors[0]) if mark == "}" else None)
            if GQLCST.exists():
                offset = len(text.encode()[:first_offset(text)].decode())
                wrong += errors[0]["range"]["start"] != Text(text, "utf-16").position(offset)
    counts.sort()
    median, ninth = counts[len(counts) // 2], counts[len(counts) * 9 // 10]
    print(
        f"slips: {len(counts)} of 500 texts have errors; shown in the median {median}, in nine of ten at most {ninth},"
        f" at most {counts[-1]}; {wrong} with another first error; {lacking.count(True)} of"
        f" {len(lacking) - lacking.count(None)} without the brace that is never closed"
    )
    sys.exit(
        0 if median == 1 and ninth <= 3 and wrong == 0 and lacking.count(True) == 0 and lacking.count(False) > 0 else 1
    )


main()
