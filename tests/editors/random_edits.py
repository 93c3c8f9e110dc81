#!/usr/bin/env python3
"""Makes random edits in many documents, and checks the server's messages after each: random_edits.py PROGRAM [EDITS]
[SEED].

The texts and positions are the client's own. The errors that are published have to be those of the same text opened
anew in another server, which knows no other document, and, where gqlcst is built, be at the offsets that it gives; a
text without definitions has none. Then it requests one of the other features, and its answer has to be as the protocol
wants it (answers.py)."""
import bisect
import random
import re
import subprocess
import sys
from pathlib import Path

import answers
from client import Client, Text, errors_of

GQLCST = Path(__file__).resolve().parent.parent.parent / "crates/gqlcst/out/gqlcst"
TEMPLATES = Path(__file__).resolve().parent / "templates"
PIECES = [
    "`", "gql`", "${", "\\", "😀", "é", "a", " ", "\n", "{", "}", '"', '"""', "# x", "1 ", "type T { a: B }\n", "\r",
    "漢", "\r\n", "query ($a: [Int!] = [1]) { b }", "@d", "...", "fragment on A { b }",
]
LANGUAGES = ["graphql", "graphql", "typescript", "python"]
TEXTS = {
    "graphql": [
        'type A {\n  "😀 é" a(x: Int): B! \n  b: A }\r\n"""\n漢 \\"""\r"""\renum E { A B }\n',
        'query Q($id: ID = "😀") @d {\r\n  a(id: $id, o: {x: [1, 2.5]}) { ...F }\r\n}\rfragment F on A { b c: d }\n',
        "",
    ],
    "typescript": [(TEMPLATES / "pets.ts").read_text(), "const a = <p>{gql`{ a }`}</p>\r\n"],
    "python": [(TEMPLATES / "pets.py").read_text()],
}
# One line of 1 MB takes a while, so it gets few of the edits, and no other request.
LONG = "type L { " + "a: B " * 210_000 + "}"
SHORT = 10_000


class Run:
    """A conversation with a server, and how many edits were made and how many were answered wrongly."""

    def __init__(self, program, seed, encoding):
        self.client, self.other = Client(program), Client(program)
        self.encoding = encoding
        self.random = random.Random(seed)
        self.edits = self.documents = self.wrong = 0
        for client in [self.client, self.other]:
            assert client.initialize(encoding)["positionEncoding"] == encoding

    def edit(self, text, language):
        """One to three changes, each to the text that the one before left, and the last text."""
        changes = []
        for _ in range(self.random.choice([1, 1, 1, 2, 3])):
            new = "".join(self.random.choice(PIECES) for _ in range(self.random.randint(0, 4)))
            if self.random.random() < 0.1 and len(text.text) < SHORT:
                new += self.random.choice(TEXTS[language])
                changes.append({"text": new})
                text = Text(new, self.encoding)
            else:
                start = self.random.randint(0, len(text.text))
                end = min(len(text.text), start + self.random.choice([0, 0, 1, 2, 8]))
                start, end = text.boundary(start), text.boundary(end)
                changes.append({"range": text.range(start, end), "text": new})
                text = Text(text.text[:start] + new + text.text[end:], self.encoding)
        return changes, text

    def fault(self, uri, text, language, notification):
        """The fault in the server's messages about a document, or nothing."""
        anew = self.other.open(uri, text.text, language)["diagnostics"]
        self.other.close(uri)
        if notification["diagnostics"] != anew:
            return "other diagnostics than the text opened anew"
        if language == "graphql" and GQLCST.exists() and not at_their_offsets(text, errors_of(notification)):
            return "other offsets of errors than gqlcst's"
        offset = text.boundary(self.random.randint(0, len(text.text)))
        feature = self.random.choice(answers.ALL)
        if len(text.text) < SHORT and not feature(answers.View(self.client, uri, text, language, offset)):
            return f"{feature.__name__} at {text.position(offset)}"
        return None

    def document(self, text, edits, language="graphql"):
        """Opens a document, edits it, and closes it."""
        uri = f"file:///{self.documents}"
        self.documents += 1
        text = Text(text, self.encoding)
        self.client.open(uri, text.text, language)
        for version in range(1, edits + 1):
            changes, text = self.edit(text, language)
            said = self.client.change(uri, version, changes)
            fault = "the version" if said["version"] != version else self.fault(uri, text, language, said)
            self.edits += 1
            if fault:
                self.wrong += 1
                print(f"random_edits: {self.encoding}, {language}: {fault}: {text.text[:300]!r}")
        self.client.close(uri)


def at_their_offsets(text, errors):
    """Whether the errors are the first that gqlcst finds in each definition, up to the ends of their lines: a hundred
    at most, and then how many more there are. An error belongs to the last definition that begins before it. A text
    without definitions, of white space, commas and comments alone, has none."""
    if answers.has_no_definitions(text.text):
        return not errors
    data = text.text.encode()
    report = subprocess.run([GQLCST, "tree"], input=data, stdout=subprocess.PIPE).stdout
    starts = [int(start) for start in re.findall(rb"^    - \w+@(\d+)\.\.\d+$", report, re.MULTILINE)]
    first = {}
    for start, end in re.findall(rb'^- ERROR@(\d+):(\d+) "', report, re.MULTILINE):
        first.setdefault(
            bisect.bisect_left(starts, int(start)),
            (int(start), int(start) + len(re.split(rb"[\r\n]", data[int(start) : int(end)])[0])),
        )
    wanted = [
        text.range(*(text.boundary(len(data[:offset].decode())) for offset in part))
        for part in list(first.values())[:100]
    ]
    more = len(first) - 100
    if more > 0:
        wanted.append(text.range(0, 0))
    return [it["range"] for it in errors] == wanted and (
        more <= 0 or errors[100]["message"] == f"{more} more error{'s' if more > 1 else ''}"
    )


def main():
    program, edits = sys.argv[1], int(sys.argv[2]) if len(sys.argv) > 2 else 2000
    seed = int(sys.argv[3]) if len(sys.argv) > 3 else 5
    runs = [Run(program, seed, "utf-16"), Run(program, seed + 1, "utf-8")]
    for run in runs:
        run.document(LONG, max(edits // 200, 1))
        while run.edits < edits // 2:
            language = run.random.choice(LANGUAGES)
            run.document(
                run.random.choice(TEXTS[language]) * run.random.randint(1, 3), min(25, edits // 2 - run.edits), language
            )
        assert run.client.end() == run.other.end() == 0
    edits, documents, wrong = (sum(getattr(run, what) for run in runs) for what in ["edits", "documents", "wrong"])
    if not GQLCST.exists():
        print(f"random_edits: {GQLCST} isn't built, so no offsets were compared with its own")
    print(f"random_edits: {edits} edits in {documents} documents, {wrong} of them answered wrongly")
    sys.exit(1 if wrong else 0)


main()
