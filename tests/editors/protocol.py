#!/usr/bin/env python3
"""Tests what the protocol says of a server's states, errors and answers: protocol.py PROGRAM. The expected values are
those of JSON-RPC 2.0, of the Language Server Protocol 3.17 and of the texts here, counted by hand."""
import json
import re
import subprocess
import sys
import tempfile
import urllib.parse
from pathlib import Path

from client import Client, Text, errors_of

PROGRAM = sys.argv[1]
URI = "file:///a.graphql"
DOCUMENT = {"uri": URI}
OPTIONS = {"tabSize": 2, "insertSpaces": True}
REQUEST_FAILED = -32803
VERSION = (Path(__file__).resolve().parent.parent.parent / "VERSION").read_text().strip()
# Line 1 has a character of two units of UTF-16 and of four bytes.
TEXT = """query Find($id: ID) {
  pet(name: "😀", id: $id) { ...parts }
}
fragment parts on Pet { name }
"A pet."
type Pet {
  "What it is called."
  name: String
}
"""
FEATURES = [
    "documentSymbol", "foldingRange", "selectionRange", "semanticTokens/full", "semanticTokens/range", "formatting",
    "rangeFormatting", "definition", "references", "documentHighlight", "rename", "hover", "completion",
    "signatureHelp",
]
failed = 0


def expect(what, found, wanted):
    global failed
    if found != wanted:
        failed += 1
        print(f"protocol: {what}: {found!r}, not {wanted!r}")


def span(line, start, end):
    return {"start": {"line": line, "character": start}, "end": {"line": line, "character": end}}


def lines(start, end):
    """The range from the front of a line to the front of another."""
    return {"start": {"line": start, "character": 0}, "end": {"line": end, "character": 0}}


def at(line, character):
    return {"position": {"line": line, "character": character}}


def edit(line, column, new):
    """One that puts a text at a position."""
    return {"range": span(line, column, column), "newText": new}


def started(*encodings):
    client = Client(PROGRAM)
    client.initialize(*encodings)
    return client


def opened(text, *encodings):
    client = started(*encodings)
    client.open(URI, text)
    return client


def code(answer):
    return answer["error"]["code"]


# ---- states and errors


def states():
    client = Client(PROGRAM)
    expect(
        "a request before initialize", code(client.ask("textDocument/hover", textDocument=DOCUMENT, **at(0, 0))), -32002
    )
    expect("shutdown before initialize", code(client.ask("shutdown")), -32002)
    client.notify("textDocument/didOpen", textDocument={**DOCUMENT, "languageId": "graphql", "version": 0, "text": "{"})
    client.initialize()
    expect("a second initialize", code(client.ask("initialize", capabilities={})), -32600)
    for method in ["workspace/executeCommand", "textDocument/codeAction", "$/other", ""]:
        expect(f"the method {method}", code(client.ask(method)), -32601)
    for feature in [*FEATURES, "prepareRename"]:
        expect(f"{feature} of a document that isn't open", client.ask_about(URI, feature, **at(0, 0)), None)
        expect(f"{feature} of no document", code(client.ask(f"textDocument/{feature}", **at(0, 0))), -32602)
    expect("no parameters", code(client.ask("textDocument/hover")), -32602)
    for method in [
        "$/cancelRequest", "$/other", "workspace/didChangeConfiguration", "textDocument/didSave",
        "textDocument/didChange", "textDocument/didClose", "other",
    ]:
        client.notify(method, textDocument={**DOCUMENT, "version": 1}, contentChanges=[{"text": "{"}])
    expect("nothing is said until shutdown", client.ask("shutdown")["result"], None)
    expect("a request after shutdown", code(client.ask("textDocument/hover")), -32600)
    client.notify("exit")
    expect("the status after shutdown", client.process.wait(10), 0)


def statuses_without_shutdown():
    for client in [started(), Client(PROGRAM)]:
        client.notify("exit")
        expect("the status without shutdown", client.process.wait(10), 1)
    client = started()
    client.process.stdin.close()
    expect("the status at the end of the input", client.process.wait(10), 1)


def faulty_messages():
    client = opened("{a}")
    for body in [b"", b"{", b'{"a":1,}', b"\xff", b'{"jsonrpc":"2.0","method":"x","params":"\\ud800"}', b"[" * 100_000]:
        client.send(body)
        answer = client.read()
        expect(f"the answer to {body[:60]}", (answer["id"], code(answer)), (None, -32700))
    client.send(b'{"jsonrpc":"2.0","id":7}')
    for body in [b"[]", b"1", b"{}"]:
        client.send(body)
        answer = client.read()
        expect(f"the answer to {body}", (answer["id"], code(answer)), (None, -32600))
    for number in ["12", '"twelve"', "-3", '"\\u00e9 \\n"', "12345678901234567890123456789"]:
        client.send(b'{"jsonrpc":"2.0","id":%s,"method":"x"}' % number.encode())
        expect("an id", client.read()["id"], json.loads(number))
    lost = json.dumps({"jsonrpc": "2.0", "method": "textDocument/didChange", "params": {
        "textDocument": {"uri": URI, "version": 1}, "contentChanges": [{"text": "{\ud800"}]}}).encode()
    client.send(lost)
    expect("a change with a lone surrogate", code(client.read()), -32700)
    expect(
        "the next full text", client.change(URI, 2, [{"text": "{b}"}]), {"uri": URI, "version": 2, "diagnostics": []}
    )
    client.write(b"Content-Length: x\r\n\r\nContent-Length 3\r\n\r\nabc\r\n\xff\x00")
    expect(
        "the message after malformed heads",
        client.ask("textDocument/hover", textDocument=DOCUMENT, **at(0, 0))["result"],
        None,
    )
    expect("the end", client.end(), 0)


def pieces_of_input():
    client = started()
    body = json.dumps({"jsonrpc": "2.0", "id": 9, "method": "x"}).encode()
    frame = b"content-length: %d\r\nContent-Type: x\r\n\r\n" % len(body) + body
    for byte in frame:
        client.write(bytes([byte]))
    expect("a message a byte at a time", client.read()["id"], 9)
    client.write(frame * 3 + frame[:-1])
    expect("three messages and a part at once", [client.read()["id"] for _ in range(3)], [9, 9, 9])
    client.write(frame[-1:])
    expect("the rest of the part", client.read()["id"], 9)
    expect("the end", client.end(), 0)


def capabilities():
    offers = [
        ([], "utf-16"),
        (["utf-16"], "utf-16"),
        (["utf-8"], "utf-8"),
        (["utf-32"], "utf-16"),
        (["utf-32", "utf-8", "utf-16"], "utf-8"),
    ]
    for offered, wanted in offers:
        client = Client(PROGRAM)
        found = client.initialize(*offered)
        expect(f"the encoding for {offered}", found["positionEncoding"], wanted)
        expect("the end", client.end(), 0)
    expect(
        "changes by ranges", (found["textDocumentSync"]["openClose"], found["textDocumentSync"]["change"]), (True, 2)
    )
    tokens = found["semanticTokensProvider"]
    expect("all tokens and some", (tokens["full"], tokens["range"]), (True, True))
    names = {
        "semanticTokens/full": "semanticTokens", "semanticTokens/range": "semanticTokens",
        "formatting": "documentFormatting", "rangeFormatting": "documentRangeFormatting",
    }
    providers = {names.get(feature, feature) + "Provider" for feature in FEATURES}
    expect(
        "the features",
        {name for name in found if name.endswith("Provider")},
        providers | {"workspaceSymbolProvider", "signatureHelpProvider"},
    )
    for prepares, wanted in [(None, True), (False, True), (True, {"prepareProvider": True})]:
        client = Client(PROGRAM)
        answer = client.ask("initialize", capabilities={"textDocument": {"rename": {"prepareSupport": prepares}}})
        answer = answer["result"]
        expect(f"renaming for a client that asks first: {prepares}", answer["capabilities"]["renameProvider"], wanted)
        expect("the server", answer["serverInfo"], {"name": "gqlls", "version": VERSION})


# ---- changes and errors


def changes():
    client = opened("{\r\n  a\r}\n")
    many = [
        {"range": span(1, 2, 3), "text": "b😀"},
        {"range": span(1, 3, 5), "text": "c {\nd"},
        {"range": {"start": {"line": 2, "character": 1}, "end": {"line": 3, "character": 0}}, "text": "}"},
    ]
    expect("three changes", client.change(URI, 1, many)["diagnostics"], [])
    symbols = client.ask_about(URI, "documentSymbol")
    expect(
        "what they left",
        symbols[0]["children"][0],
        {
            "name": "bc",
            "kind": 8,
            "range": {"start": {"line": 1, "character": 2}, "end": {"line": 2, "character": 2}},
            "selectionRange": span(1, 2, 4),
            "children": [
                {"name": "d", "kind": 8, "range": span(2, 0, 1), "selectionRange": span(2, 0, 1), "children": []}
            ],
        },
    )
    far = [{"range": {"start": {"line": 2, "character": 3}, "end": {"line": 900, "character": 7}}, "text": "!"}]
    expect(
        "a change up to a line that isn't there", client.change(URI, 2, far)["diagnostics"][-1]["range"], span(2, 3, 4)
    )
    expect("no range is the whole text", client.change(URI, 3, [{"range": None, "text": "{e}"}])["diagnostics"], [])
    client.notify("textDocument/didSave", textDocument=DOCUMENT)
    expect("the end", client.end(), 0)


def positions():
    """Positions that a text doesn't have: the line's end, the text's end, the front of the character. Long lines, whose
    columns differ in each encoding."""
    text = '"""\n\u00e9\U0001F600b\r\n\rend\n"""\nscalar A'
    for encoding, line, column, wanted in [
        ("utf-16", 1, 99, "é😀bX\n\nend"),
        ("utf-16", 2, 5, "é😀b\nX\nend"),
        ("utf-16", 1, 2, "éX😀b\n\nend"),
        ("utf-8", 1, 1, "Xé😀b\n\nend"),
        ("utf-8", 1, 5, "éX😀b\n\nend"),
        ("utf-8", 1, 6, "é😀Xb\n\nend"),
        ("utf-16", 3, 3, "é😀b\n\nendX"),
    ]:
        client = opened(text, encoding)
        client.change(URI, 1, [{"range": span(line, column, column), "text": "X"}])
        expect(
            f"line {line}, column {column} in {encoding}",
            client.ask_about(URI, "hover", **at(5, 7))["contents"]["value"],
            f"```graphql\nscalar A\n```\n\n{wanted}",
        )
        client.end()
    client = opened(text)
    client.change(URI, 1, [{"range": span(900, 0, 0), "text": "BC"}])
    expect("a line beyond the last", client.ask_about(URI, "documentSymbol")[0]["name"], "ABC")
    client.end()
    for encoding, width in [("utf-16", 3), ("utf-8", 6)]:
        client = opened('{a(b:"' + "é😀" * 100 + '"!)}', encoding)
        wide = 6 + 100 * width + 1
        expect(
            f"an error after a long string in {encoding}",
            client.change(URI, 1, [])["diagnostics"][0]["range"],
            span(0, wide, wide + 1),
        )
        expect(
            f"taken away in {encoding}",
            client.change(URI, 2, [{"range": span(0, wide, wide + 1), "text": ""}])["diagnostics"],
            [],
        )
        client.end()


def open_braces():
    """The first error names the brace that is never closed, if a line begins with a definition's keyword inside it."""
    client, silent = Client(PROGRAM), started()
    client.initialize(related=True)
    missing = [
        ("query A {\n  a\n\nquery B {\n  b\n}\n", 0, 8),
        ("{ a\nfragment F on T { b }", 0, 0),
        ("mutation {\n  a {\n    b\n}\n\nmutation B($c: D) {\n  b(c: $c)\n}\n", 0, 9),
        ("# 😀\rsubscription A { # {\r\n  a\rquery {b}", 1, 15),
        ("query A {\n  a {\n    b\n\nquery B {\n  b\n}\n", 1, 4),
        ("type A {\n  a: B\n\ntype B {\n  b: C\n}\n", 0, 7),
        ('interface A {\n  a: B\n\n"""\n}\n"""\nextend union B = C', 0, 12),
        ("enum A {\n  B\n\ndirective @a on FIELD", 0, 7),
        ("schema {\n  query: A\nscalar A", 0, 7),
        ("scalar A\ninput B {\n  a: A\nenum C {\n  D\n}\n", 1, 8),
        ("type A { a: B }\ntype B {\n  b: C\n\ninterface D { e: F }", 1, 7),
        ("type A {\n  a: B!!\n\ntype B {\n  b: C\n}\n", 0, 7),
        ("query A {\n  a: $\n\nquery B { b }", 0, 8),
        ("type A {\n  a: $\n\ntype B {\n  b: C\n\ntype D {\n  e: F\n", 0, 7),
    ]
    for text, line, place in missing:
        first, *others = client.open(URI, text)["diagnostics"]
        named = first.pop("relatedInformation", None)
        expect(
            f"the brace in {text!r}",
            named,
            [{"location": {"uri": URI, "range": span(line, place, place + 1)}, "message": "this { is never closed"}],
        )
        expect(f"the same without it, in {text!r}", silent.open(URI, text)["diagnostics"], [first, *others])
    # no definition follows, none begins a line, the braces are closed, or the error is in front of the brace
    for text in [
        "query A {\n  a\n",
        "query A {\n  a\n  query B { b }",
        "query A {\n  a: $\n}\nquery B { b }",
        "{\na {\ntype\n}\nb(",
        "type A {\ntype: B\nc D\n}",
        "query A($) { a }\nquery B {\n  b\n\nquery C { c }",
    ]:
        expect(f"no brace in {text!r}", "relatedInformation" in client.open(URI, text)["diagnostics"][0], False)
    client.end()
    silent.end()


def violations():
    """Rules of validation, in the words of graphql-js: a warning where something isn't used or may be in another file,
    and else an error."""
    def found(text):
        return [
            (it["range"], it["severity"], it["code"], it["message"]) for it in client.open(URI, text)["diagnostics"]
        ]

    client = started()
    expect("a valid document", found("query Q($a: Int) { b(c: $a) ...F }\nfragment F on A { d }"), [])
    expect("unused things", found("query Q($a: Int, $b: Int) { c(d: $b) }\nfragment F on A { e }"),
           [(span(0, 8, 10), 2, "NoUnusedVariables", 'Variable "$a" is never used in operation "Q".'),
            (span(1, 9, 10), 2, "NoUnusedFragments", 'Fragment "F" is never used.')])
    expect(
        "an unknown fragment", found("{ ...F }"), [(span(0, 5, 6), 2, "KnownFragmentNames", 'Unknown fragment "F".')]
    )
    expect(
        "a repeated argument",
        found("{ a(b: 1, b: 2) }"),
        [(span(0, 10, 11), 1, "UniqueArgumentNames", 'There can be only one argument named "b".')],
    )
    expect(
        "a repeated field",
        found("type A { b: C b: D }"),
        [(span(0, 14, 15), 1, "UniqueFieldDefinitionNames", 'Field "A.b" can only be defined once.')],
    )
    expect("a type beside an operation", found("{ a }\ntype B { c: D }"),
           [(span(1, 5, 6), 2, "ExecutableDefinitions", 'The "B" definition is not executable.')])
    expect("as many as a hundred", len(found("{ " + "...F " * 200 + "}")), 100)
    client.end()


def fragments_of_others():
    """A fragment that another open document defines is known, and one that another spreads is used (5.5.1.4 and
    5.5.2.1, with all open documents as one)."""
    def codes(notification):
        return [it["code"] for it in notification["diagnostics"]]

    client = started()
    other = "file:///b.graphql"
    expect("no fragment of this name", codes(client.open(URI, "{ ...F }")), ["KnownFragmentNames"])
    expect(
        "a fragment that another document spreads",
        codes(client.open(other, "fragment F on A { ...G }")),
        ["KnownFragmentNames"],
    )
    expect("a fragment that another document defines", codes(client.change(URI, 1, [])), [])
    expect(
        "a fragment that no other spreads",
        codes(client.open(other, "fragment F on A { a } fragment G on A { a }")),
        ["NoUnusedFragments"],
    )
    expect("spread by it", codes(client.change(URI, 2, [{"text": "{ ...F ...G }"}])), [])
    expect("both used", codes(client.change(other, 1, [])), [])
    expect(
        "two errors elsewhere",
        codes(client.open("file:///c.graphql", "{ ...F ...H a(b: 1, b: 2) }")),
        ["KnownFragmentNames", "UniqueArgumentNames"],
    )
    expect("in a file with a syntax error", codes(client.open(other, "fragment F on A { a } {")), ["syntax"])
    expect("F is known, and G is not", codes(client.change(URI, 3, [])), ["KnownFragmentNames"])
    client.close(other)
    expect("none of them", codes(client.change(URI, 4, [])), ["KnownFragmentNames"] * 2)
    client.open("file:///d.graphql", "{ " + "".join(f"...F{n} " for n in range(200)) + "}")
    text = "".join(f"fragment F{n} on A {{ a }}\n" for n in range(300))
    expect(
        "a hundred of which no other has a use",
        len(codes(client.open("file:///e.graphql", text + "query Q($a: A) { a }"))),
        100,
    )
    expect(
        "two hundred that another uses",
        codes(client.open("file:///e.graphql", "".join(text.splitlines(True)[:200]) + "query Q($a: A) { a }")),
        ["NoUnusedVariables"],
    )
    client.end()


def diagnostics():
    def found(text):
        return [
            (it["range"], it["severity"], it["source"], it["message"]) for it in client.open(URI, text)["diagnostics"]
        ]

    client = started()
    expect(
        "two errors in one definition",
        found("{ hero(id) { name }"),
        [(span(0, 9, 10), 1, "gqlls", "expected : (1 more error before the next definition)")],
    )
    expect("an error in each of two definitions", found("{ a(b: ) }\n{ c"),
           [(span(0, 7, 8), 1, "gqlls", "expected a valid Value"), (span(1, 3, 3), 1, "gqlls", "expected }")])
    shared = found("directive @a(x: ) on\ntype B { b: Int }")
    expect(
        "an error where a definition begins is the earlier one's",
        [(it[0], it[3].partition("(")[2]) for it in shared],
        [(span(0, 16, 17), "1 more error before the next definition)")],
    )
    expect("a string that runs over its line", found('{ a(b: "c) }\n}')[0][0], span(0, 7, 12))
    expect("an error at the end", client.open(URI, "{ a")["diagnostics"][0]["range"], span(0, 3, 3))
    expect(
        "tokens that belong to no definition",
        found("! " * 300),
        [(span(0, 0, 1), 1, "gqlls", "expected a definition (299 more errors before the next definition)")],
    )
    published = client.open(URI, "{} " * 300)["diagnostics"]
    expect("how many are published", len(published), 101)
    expect("where the hundredth is", published[99]["range"], span(0, 298, 299))
    expect("the last one", (published[100]["range"], published[100]["message"]), (span(0, 0, 0), "200 more errors"))
    for text in ["", " \n,\n", "# nothing yet\n"]:
        expect(f"no definitions in {text!r}", found(text), [])
    expect("bad text alone", [it[0] for it in found("# nothing\n%")], [span(1, 0, 1)])
    expect("a hundred", len(client.open(URI, "{} " * 100)["diagnostics"]), 100)
    expect("closing", client.close(URI), {"uri": URI, "diagnostics": []})
    client.notify("textDocument/didChange", textDocument={"uri": URI, "version": 3}, contentChanges=[{"text": "{"}])
    client.notify("textDocument/didClose", textDocument=DOCUMENT)
    expect("a closed document", client.ask_about(URI, "documentSymbol"), None)
    expect("nothing is published after closing", client.end(), 0)


# ---- features


def names(encoding, far):
    """The answers on TEXT. `far` is by how many columns the emoji is wider than in UTF-16."""
    client = opened(TEXT, encoding)
    use, definition = span(1, 23 + far, 25 + far), span(0, 12, 14)
    expect("a variable", client.ask_about(URI, "definition", **at(1, 24 + far)), {"uri": URI, "range": definition})
    found = client.ask_about(URI, "references", context={"includeDeclaration": True}, **at(0, 13))
    expect("its uses", [it["range"] for it in found], [definition, use])
    found = client.ask_about(URI, "references", context={"includeDeclaration": False}, **at(0, 13))
    expect("its uses alone", [it["range"] for it in found], [use])
    expect(
        "the same, marked",
        client.ask_about(URI, "documentHighlight", **at(0, 13)),
        [{"range": definition}, {"range": use}],
    )
    expect("another name", client.ask_about(URI, "rename", newName="key", **at(0, 13)),
           {"changes": {URI: [{"range": definition, "newText": "key"}, {"range": use, "newText": "key"}]}})
    expect(
        "another name for a bracket",
        code(client.ask("textDocument/rename", textDocument=DOCUMENT, newName="key", **at(2, 1))),
        REQUEST_FAILED,
    )
    expect("whether it may have one", client.ask_about(URI, "prepareRename", **at(2, 1)), None)
    expect(
        "the name that may be another",
        client.ask_about(URI, "prepareRename", **at(0, 13)),
        {"range": definition, "placeholder": "id"},
    )
    expect("a fragment", client.ask_about(URI, "definition", **at(1, 33 + far))["range"], span(3, 9, 14))
    expect("a type", client.ask_about(URI, "definition", **at(3, 19))["range"], span(5, 5, 8))
    expect("what is no name", client.ask_about(URI, "definition", **at(2, 1)), None)
    expect("no uses", client.ask_about(URI, "references", **at(2, 1)), [])
    expect("hover on a type", client.ask_about(URI, "hover", **at(3, 19)),
           {"contents": {"kind": "markdown", "value": "```graphql\ntype Pet\n```\n\nA pet."}, "range": span(3, 18, 21)})
    expect(
        "hover on a field",
        client.ask_about(URI, "hover", **at(7, 3))["contents"]["value"],
        "```graphql\nname: String\n```\n\nWhat it is called.",
    )
    expect("hover on a bracket", client.ask_about(URI, "hover", **at(2, 0)), None)
    expect("the end", client.end(), 0)


def markups():
    """What is shown of a name is in the first markup that a client lists and that the protocol has."""
    markdown, plain = "```graphql\ntype Pet\n```\n\nA pet.", "type Pet\n\nA pet."
    for listed, kind, wanted in [
        (None, "markdown", markdown),
        ([], "markdown", markdown),
        (["markdown", "plaintext"], "markdown", markdown),
        (["plaintext"], "plaintext", plain),
        (["other", "plaintext", "markdown"], "plaintext", plain),
    ]:
        client = Client(PROGRAM)
        client.ask(
            "initialize", capabilities={"textDocument": {"hover": {} if listed is None else {"contentFormat": listed}}}
        )
        client.open(URI, TEXT)
        expect(
            f"hover for {listed}",
            client.ask_about(URI, "hover", **at(3, 19))["contents"],
            {"kind": kind, "value": wanted},
        )
        expect(
            f"hover without a description, for {listed}",
            client.ask_about(URI, "hover", **at(3, 10))["contents"]["value"].strip("`\n"),
            "fragment parts on Pet" if kind == "plaintext" else "graphql\nfragment parts on Pet",
        )
        client.end()


def other_documents():
    """A name that is defined in another open document, and built-in ones."""
    client = started()
    client.open("file:///schema", '"A pet."\ntype Pet {\n  name: ID\n}\ndirective @d on FIELD\n')
    client.open(URI, "fragment F on Pet { name @d @skip(if: true) }\nquery Q($a: Int) { b(c: $a) ...F }\n")
    expect(
        "a type of another document",
        client.ask_about(URI, "definition", **at(0, 14)),
        {"uri": "file:///schema", "range": span(1, 5, 8)},
    )
    expect(
        "a directive of another document",
        client.ask_about(URI, "definition", **at(0, 26)),
        {"uri": "file:///schema", "range": span(4, 11, 12)},
    )
    expect("hover on it", client.ask_about(URI, "hover", **at(0, 14)),
           {"contents": {"kind": "markdown", "value": "```graphql\ntype Pet\n```\n\nA pet."}, "range": span(0, 14, 17)})

    def heading(line, character):
        return client.ask_about(URI, "hover", **at(line, character))["contents"]["value"].split("\n")[1]

    expect("hover on a fragment", heading(1, 31), "fragment F on Pet")
    expect("hover on a variable", heading(1, 25), "$a: Int")
    expect("hover on a built-in type", heading(1, 13), "scalar Int")
    expect(
        "hover on a built-in directive",
        heading(0, 29),
        "directive @skip(if: Boolean!) on FIELD | FRAGMENT_SPREAD | INLINE_FRAGMENT",
    )
    labels = [it["label"] for it in client.ask_about(URI, "completion", **at(0, 17))]
    expect("types of another document", labels, ["Pet", "Boolean", "Float", "ID", "Int", "String"])
    expect(
        "another name for it",
        client.ask_about(URI, "rename", newName="Cat", **at(0, 14)),
        {
            "changes": {
                URI: [{"range": span(0, 14, 17), "newText": "Cat"}],
                "file:///schema": [{"range": span(1, 5, 8), "newText": "Cat"}],
            }
        },
    )
    for feature in ["rename", "prepareRename"]:
        refused = client.ask(f"textDocument/{feature}", textDocument=DOCUMENT, newName="Cat", **at(1, 13))["error"]
        expect(
            f"{feature} of a built-in type",
            refused,
            {"code": REQUEST_FAILED, "message": "no document defines this name"},
        )
    expect(
        "too many positions",
        code(
            client.ask(
                "textDocument/selectionRange", textDocument=DOCUMENT, positions=[{"line": 0, "character": 0}] * 101
            )
        ),
        -32602,
    )
    expect("the end", client.end(), 0)


def files_of_the_folder():
    """Names are looked for in the GraphQL files of the folder that the client opens: not in hidden ones, and in an open
    one as the client has it."""
    with tempfile.TemporaryDirectory(prefix="a folder é ") as folder:
        folder = Path(folder)
        schema = folder / "types" / "schema.graphqls"
        schema.parent.mkdir()
        schema.write_text("type Query {\n  pet: Pet\n}\ntype Pet {\n  name: ID\n}\n")
        (folder / ".hidden.graphql").write_text("type Hidden { a: ID }\n")
        (folder / "other.txt").write_text("type Other { a: ID }\n")
        (folder / "bytes.graphql").write_bytes(b"\xff")
        (folder / "parts.graphql").write_text("fragment parts on Pet { name }\n{ ...mine }\n")
        (folder / "query.graphql").write_text("{ ...stored }\n")
        query = (folder / "query.graphql").as_uri()

        def fields(client):
            return [
                it["label"]
                for it in client.ask_about(query, "completion", **at(0, 8))
                if not it["label"].startswith("__")
            ]

        def notify(client, *paths):
            client.notify(
                "workspace/didChangeWatchedFiles", changes=[{"uri": path.as_uri(), "type": 2} for path in paths]
            )

        for lets, way in [
            (False, {"rootUri": folder.as_uri()}),
            (True, {"workspaceFolders": [{"uri": folder.as_uri(), "name": "a"}], "rootUri": None}),
        ]:
            client = Client(PROGRAM)
            client.ask(
                "initialize",
                capabilities={"workspace": {"didChangeWatchedFiles": {"dynamicRegistration": lets}}},
                **way,
            )
            client.notify("initialized")
            if lets:
                asked = client.read()
                expect(
                    "registration",
                    asked,
                    {
                        "jsonrpc": "2.0",
                        "id": "files",
                        "method": "client/registerCapability",
                        "params": {
                            "registrations": [
                                {
                                    "id": "files",
                                    "method": "workspace/didChangeWatchedFiles",
                                    "registerOptions": {"watchers": [{"globPattern": "**/*.{graphql,graphqls,gql}"}]},
                                }
                            ]
                        },
                    },
                )
                client.send({"jsonrpc": "2.0", "id": asked["id"], "result": None})
            found = client.open(
                query,
                (
                    "{ pet { ...parts ...stored } }\nfragment mine on Query { a }\nfragment stored on Query { a"
                    " }\nfragment other on Query { a }\n"
                ),
            )
            expect("fragments of files", [it["range"]["start"]["line"] for it in found["diagnostics"]], [3])
            found = client.change(query, 1, [{"text": "fragment stored on Pet { name }\n"}])
            expect(
                "not of the stored text of an open one",
                [it["code"] for it in found["diagnostics"]],
                ["NoUnusedFragments"],
            )
            client.change(query, 2, [{"text": "{ pet { name } }\n"}])
            expect("fields of a file", fields(client), ["name"])
            found = client.ask_about(query, "definition", **at(0, 8))
            expect("a field's definition in a file", (found["uri"], found["range"]), (schema.as_uri(), span(4, 2, 6)))
            expect(
                "references in a file",
                [it["uri"] for it in client.ask_about(query, "references", **at(0, 8))],
                [query, (folder / "parts.graphql").as_uri()],
            )
            symbols = client.ask("workspace/symbol", query="")["result"]
            expect(
                "symbols of files",
                [it["name"] for it in symbols if it["location"]["uri"] != query],
                ["parts", "query", "Query", "Pet"],
            )
            client.open(schema.as_uri(), "type Query {\n  pet: Pet\n}\ntype Pet {\n  born: ID\n}\n")
            expect("an open file counts as the client has it", fields(client), ["born"])
            notify(client, schema)
            expect("though it has changed", fields(client), ["born"])
            client.close(schema.as_uri())
            expect("a closed one as it is stored", fields(client), ["name"])
            text = schema.read_text()
            schema.write_text(text.replace("name", "weight"))
            notify(client, schema)
            expect("a file that has changed", fields(client), ["weight"])
            schema.unlink()
            notify(client, schema)
            expect("a file that is gone", fields(client), [])
            schema.write_text(text)
            notify(client, schema)
            expect("a file that was made", fields(client), ["name"])
            expect("the end", client.end(), 0)


def own_files():
    """An open document's own stored text mends nothing, however the client spells the document and the folder."""
    with tempfile.TemporaryDirectory(prefix="a folder é ") as parent:
        parent = Path(parent)
        folder = parent / "project"
        folder.mkdir()
        stored = folder / "a.graphql"
        stored.write_text("fragment F on Query { a }\nquery { ...F }\n")
        (folder / "b.graphql").write_text("fragment G on Query { a }\n")
        (parent / "linked").symlink_to(folder)
        plain, path = folder.as_uri(), urllib.parse.quote(str(stored))
        roots = [plain, plain + "/", plain + "//", parent.as_uri() + "/./project", (parent / "linked").as_uri()]
        documents = [
            stored.as_uri(),
            "file:" + path,
            "FILE://" + path,
            "file://LOCALHOST" + path,
            (parent / "linked" / "a.graphql").as_uri(),
        ]
        for root, document in (
            [(root, stored.as_uri()) for root in roots]
            + [(plain, document) for document in documents]
            + [(roots[-1], documents[-1])]
        ):
            client = Client(PROGRAM)
            client.ask("initialize", capabilities={}, rootUri=root)
            client.notify("initialized")
            found = client.open(document, "query R { ...F ...G }\n")
            expect(
                f"{document} is not mended by its own file in {root}",
                [it["message"] for it in found["diagnostics"]],
                ['Unknown fragment "F".'],
            )
            expect(
                f"no F is known beside {document} in {root}", client.ask("workspace/symbol", query="F")["result"], []
            )
            client.close(document)
            found = client.open("file:///elsewhere.graphql", "query S { ...F }\n")
            expect(f"{document} counts as it is stored in {root} once it is closed", found["diagnostics"], [])
            expect("the end", client.end(), 0)


def parts(encoding, far):
    client = opened(TEXT, encoding)
    symbols = client.ask_about(URI, "documentSymbol")
    expect("symbols", [(it["name"], it["kind"]) for it in symbols], [("Find", 12), ("parts", 12), ("Pet", 5)])
    expect(
        "a field", [(it["name"], it["kind"], it["detail"]) for it in symbols[2]["children"]], [("name", 8, "String")]
    )
    expect(
        "a variable of the query",
        [(it["name"], it["kind"]) for it in symbols[0]["children"]],
        [("$id", 13), ("pet", 8)],
    )
    folds = client.ask_about(URI, "foldingRange")
    expect("folds", [(it["startLine"], it["endLine"], it.get("kind")) for it in folds], [(0, 1, None), (5, 7, None)])
    selection = client.ask_about(URI, "selectionRange", positions=[{"line": 3, "character": 19}])[0]
    expect("a selection", (selection["range"], selection["parent"]["range"]), (span(3, 18, 21), span(3, 15, 21)))
    ranges = []
    while selection:
        ranges.append(selection["range"])
        selection = selection.get("parent")
    expect("the last selection", ranges[-2:], [span(3, 0, 30), lines(0, 9)])
    tokens = client.ask_about(URI, "semanticTokens/range", range=span(3, 0, 30))["data"]
    expect("tokens of a line", tokens, [3, 0, 8, 1, 0, 0, 9, 5, 10, 0, 0, 6, 2, 1, 0, 0, 3, 3, 6, 0, 0, 6, 4, 7, 0])
    tokens = client.ask_about(URI, "semanticTokens/full")["data"]
    expect(
        "the second line",
        tokens[30:70],
        [
            1, 2, 3, 7, 0, 0, 4, 4, 8, 0, 0, 4, 1, 4, 0, 0, 2, 4 + far, 2, 0, 0, 6 + far, 2, 8, 0, 0, 2, 1, 4, 0, 0, 2,
            1, 5, 0, 0, 1, 2, 5, 0,
        ],
    )
    expect("the end", client.end(), 0)


# The types of the query below, in another document.
TYPES = """schema { query: Root }
type Root {
  "A hero."
  hero(episode: Episode, like: Like): Hero
  search: [Thing!]!
}
type Hero { name: String friends: [Hero] }
union Thing = Hero
enum Episode { "Four." HOPE JEDI }
input Like { episode: Episode, other: Like }
extend type Hero { height: Int }
directive @d(at: Episode) on FIELD
"""
OPEN = """type Hero {
  "The hero
  name: String
}
{ hero(id: "é) {
  name } }
type Query { hero: Hero }
{ hero { """


def open_quotes():
    """A string that its line leaves open takes no more than that line from colours, outline, folds and completion; the
    errors are those of the text."""
    client = opened(OPEN)
    expect(
        "the outline",
        [it["name"] for it in client.ask_about(URI, "documentSymbol")],
        ["Hero", "query", "Query", "query"],
    )
    expect("folds", client.ask_about(URI, "foldingRange")[0], {"startLine": 0, "endLine": 2})
    data = client.ask_about(URI, "semanticTokens/full")["data"]
    expect("colours of the first lines", data[:30],
           [0, 0, 4, 1, 0, 0, 5, 4, 6, 0, 1, 2, 9, 2, 0, 1, 2, 4, 7, 0, 0, 4, 1, 4, 0, 0, 2, 6, 6, 0])
    expect("words after it", [it["label"] for it in client.ask_about(URI, "completion", **at(7, 9))], ["name", *META])
    expect("an error that runs over the line", client.open(URI, OPEN)["diagnostics"][0]["range"], span(1, 2, 11))
    client.end()


TEMPLATES = Path(__file__).resolve().parent / "templates"
# files in other languages, what they define in templates, and where one has an error
SOURCES = [
    ("typescript", (TEMPLATES / "pets.ts").read_text(), ["Find", "parts", "Pet"], None),
    ("python", (TEMPLATES / "pets.py").read_text(), ["Find", "parts", "Other"], "'😀"),
    ("javascriptreact", "const a = <p>it's</p>\r\nconst q = gql`query Q { é }`\r\n", ["Q"], "é"),
    ("javascript", "const a = gql``, b = 1 / 2 / gql ` `", [], None),
    ("typescriptreact", "const é = { a: 1 }", [], None),
    ("python", "a = gql('query Y { y(a: ) }', \"{ a\")\n", ["Y"], ")"),
]


def templates():
    """In files of other languages only what is in templates is GraphQL, but for code in it, and positions are those of
    the file."""
    for encoding in ["utf-16", "utf-8"]:
        client = started(encoding)
        for language, source, names, wrong in SOURCES:
            text, what = Text(source, encoding), f"{encoding}, {source!r}"
            found = errors_of(client.open(URI, source, language))
            expect(
                f"errors, {what}",
                [it["range"]["start"] for it in found],
                [text.position(source.index(wrong))] if wrong else [],
            )
            found = client.ask_about(URI, "documentSymbol")
            expect(f"the outline, {what}", [text.of(it["selectionRange"]) for it in found], names)
            for feature in ["formatting", "rangeFormatting"]:
                expect(
                    f"no {feature}, {what}",
                    client.ask_about(URI, feature, options=OPTIONS, range=text.range(0, len(source))),
                    None,
                )
            for feature in ["completion", "signatureHelp", "hover"]:
                expect(f"no {feature} in code, {what}", client.ask_about(URI, feature, position=text.position(3)), None)
        client.end()


def changed_templates():
    """Changes and answers in a file of another language."""
    source = (TEMPLATES / "pets.ts").read_text()
    for encoding in ["utf-16", "utf-8"]:
        client, text = started(encoding), Text(source, encoding)
        client.open(URI, source, "typescript")
        place = source.index("parts }")
        found = client.ask_about(URI, "definition", position=text.position(place))
        expect("the definition in another template", text.part(found["range"])[0], source.index("parts on"))
        found = client.ask_about(URI, "rename", position=text.position(place), newName="all")
        expect(
            "a text with another name",
            text.changed(found["changes"][URI]),
            source.replace("parts }", "all }").replace("parts on", "all on"),
        )
        client.open("file:///types", "type Query { pet(id: ID): Pet } type Pet { name: String }")
        place = source.index("...parts")
        found = client.ask_about(URI, "completion", position=text.position(place))
        expect("words in a template", [it["label"] for it in found if it["kind"] != 14], ["name", *META])
        found = client.ask_about(URI, "signatureHelp", position=text.position(source.index("id: $id")))
        expect("a signature in a template", found and found["signatures"][0]["label"], "pet(id: ID): Pet")
        expect(
            "no hover in code of a template",
            client.ask_about(URI, "hover", position=text.position(source.index("a: `}`"))),
            None,
        )
        for place, wrong in [
            (source.index("parts on"), "1"),
            (source.index("a: `}`"), "}"),
            (source.index("const"), "/* "),
            (source.index("; // gql"), "😀"),
        ]:
            new = source[:place] + wrong + source[place:]
            change = {"range": text.range(place, place), "text": wrong}
            found = client.change(URI, 1, [change])["diagnostics"]
            expect(
                f"{wrong} in a template or code",
                found,
                client.open("file:///anew.ts", new, "typescript")["diagnostics"],
            )
            client.close("file:///anew.ts")
            client.open(URI, source, "typescript")
        client.end()


# Names that have their meaning by the types of their places, and where TYPES defines them.
QUERY = """query Q($e: Episode = JEDI) {
  hero(episode: HOPE, like: { other: { episode: JEDI } }) @d(at: HOPE) { friends { name } ...F }
  search { ... on Hero { height } }
}
fragment F on Hero { nick: name __typename unknown }
"""
PLACES = [
    ("JEDI) {", (8, 28)),
    ("hero(", (3, 2)),
    ("episode: H", (3, 7)),
    ("HOPE, ", (8, 23)),
    ("like", (3, 25)),
    ("other", (9, 31)),
    ("episode: J", (9, 13)),
    ("JEDI }", (8, 28)),
    ("at: ", (11, 13)),
    ("HOPE)", (8, 23)),
    ("friends", (6, 25)),
    ("name }", (6, 12)),
    ("search", (4, 2)),
    ("height", (10, 19)),
    ("name __", (6, 12)),
    ("nick", None),
    ("__typename", None),
    ("unknown", None),
]


# what may be selected from each type
META = ["__typename"]


def types_of_the_document():
    """Of two types with one name, the one in the document that is asked about comes first."""
    client = started()
    client.open("file:///0.graphql", "type Query { other: ID }\n")
    client.open(URI, "type Query { own: ID }\n{ own }\n")
    found = [it["label"] for it in client.ask_about(URI, "completion", **at(1, 2)) if not it["label"].startswith("__")]
    expect("its fields come first", found, ["own", "other"])
    expect(
        "the definition of one", client.ask_about(URI, "definition", **at(1, 3)), {"uri": URI, "range": span(0, 13, 16)}
    )
    found = client.ask_about(URI, "references", context={"includeDeclaration": True}, **at(1, 3))
    expect("its uses", [it["range"] for it in found], [span(0, 13, 16), span(1, 2, 5)])
    expect(
        "in the other document",
        client.ask_about("file:///0.graphql", "documentHighlight", **at(0, 14)),
        [{"range": span(0, 13, 18)}],
    )
    expect("the end", client.end(), 0)


def members():
    """Fields, arguments, input fields and values, by the types of another document."""
    def place(text, name):
        before = text[:text.index(name)].split("\n")
        return at(len(before) - 1, len(before[-1]) + 1)

    client = started()
    client.open("file:///types", TYPES)
    client.open(URI, QUERY)
    for name, wanted in PLACES:
        found = client.ask_about(URI, "definition", **place(QUERY, name))
        found = found and (found["uri"], *found["range"]["start"].values())
        expect(f"the definition of {name}", found, wanted and ("file:///types", *wanted))
    for name, heading in [
        ("hero(", "hero(episode: Episode, like: Like): Hero\n```\n\nA hero."),
        ("HOPE, ", "HOPE\n```\n\nFour."),
        ("at: ", "at: Episode\n```\n\n"),
    ]:
        expect(
            f"hover on {name}",
            client.ask_about(URI, "hover", **place(QUERY, name))["contents"]["value"],
            f"```graphql\n{heading}",
        )
    expect("hover on an unknown field", client.ask_about(URI, "hover", **place(QUERY, "unknown")), None)

    def words(text):
        client.change(URI, 1, [{"text": text}])
        lines = text.split("\n")
        return [
            it["label"]
            for it in client.ask_about(URI, "completion", **at(len(lines) - 1, len(lines[-1])))
            if it["kind"] != 14
        ]

    for text, wanted in [
        ("{ ", ["hero", "search", *META, "__schema", "__type"]),
        ("{ hero { na", ["name", "friends", "height", *META]),
        ("{ hero(", ["episode", "like"]),
        ("{ hero(episode: ", ["HOPE", "JEDI"]),
        ("{ hero(like: {other: {", ["episode", "other"]),
        ("{ hero(like: {episode: ", ["HOPE", "JEDI"]),
        ("query ($e: Episode = ", ["HOPE", "JEDI"]),
        ("{ hero @d(", ["at"]),
        ("{ hero @d(at: ", ["HOPE", "JEDI"]),
        ("fragment F on Hero { friends { ", ["name", "friends", "height", *META]),
        ("{ search { ... on Hero { ", ["name", "friends", "height", *META]),
        ("{ search { ... { ", META),
        ("{ other { ", []),
        ("mutation { ", META),
    ]:
        expect(f"members after {text}", words(text), wanted)
    client.change(URI, 1, [{"text": "{ "}])
    found = client.ask_about(URI, "completion", **at(0, 2))
    expect(
        "their types",
        [(it["label"], it.get("detail")) for it in found if it["kind"] != 14],
        [
            ("hero", "Hero"),
            ("search", "[Thing!]!"),
            ("__typename", "String!"),
            ("__schema", "__Schema!"),
            ("__type", "__Type"),
        ],
    )
    ordered = sorted((it for it in found if it["kind"] != 14), key=lambda it: it.get("sortText", it["label"]))
    expect("those of the standard come last", [it["label"] for it in ordered][:2], ["hero", "search"])
    found = client.ask("workspace/symbol", query="HER")["result"]
    expect(
        "symbols of all documents",
        [(it["name"], it["kind"], it["location"]) for it in found],
        [
            ("Hero", 5, {"uri": "file:///types", "range": span(6, 5, 9)}),
            ("Hero", 5, {"uri": "file:///types", "range": span(10, 12, 16)}),
        ],
    )
    expect("all symbols", len(client.ask("workspace/symbol", query="")["result"]), 9)
    client.end()


# Two documents: the names in «» mean the same, which is defined by the name in ‹›. Others are spelled alike. The last
# word says whether it is renamed.
USES = [
    (
        (
            "type Root { ‹hero›(hero: ID): Hero search: [Thing!]! } schema { query: Root } type Hero { hero: [Hero] }"
            " union Thing = Hero extend type Root { other: Root }"
        ),
        (
            "{ «hero» { hero { hero } } hero: «hero»(hero: 1) { hero } search { ... on Hero { hero } } other { «hero»"
            " ...F } } fragment F on Root { ... @skip(if: true) { «hero» } hero: other { «hero» } }"
        ),
        True,
    ),
    (
        "extend type Hero { ‹height›: Int } type Hero { name: Int } type Query { hero: Hero height: Int }",
        "{ height hero { name «height» } } mutation { height }",
        True,
    ),
    (
        (
            "type Query { a(b: [E] = [«HOPE»], i: I = { e: «HOPE», f: HOPE }): Int } enum E { ‹HOPE› JEDI } enum F {"
            " HOPE } input I { e: E = «HOPE» f: F = HOPE } directive @d(e: E, f: F) on FIELD"
        ),
        (
            "query ($e: E = «HOPE», $f: F = HOPE @d(e: «HOPE»)) { a(b: [«HOPE», JEDI], i: { e: «HOPE» }) @d(e: «HOPE»,"
            " f: HOPE) HOPE a(b: HOPE_) }"
        ),
        True,
    ),
    (
        "type Query { a(i: I, other: I): Int } input I { ‹other›: I episode: Int = 1 }",
        "query ($i: I = { «other»: null }) { a(other: { «other»: { episode: 1 «other»: {} } }) }",
        True,
    ),
    (
        "type Query { a(‹id›: ID, b: ID): Query  b(id: ID): Query } directive @d(id: ID) on FIELD",
        "query ($id: ID) { a(«id»: 1) { b(id: 1) @d(id: 2) { a(b: 1, «id»: $id) } } id }",
        True,
    ),
    (
        "type Query { a(id: ID): Query } directive @d(‹id›: ID) on FIELD | SCALAR scalar ID @d(«id»: 1)",
        "{ a(id: 1) @d(«id»: 2) } fragment F on Query @d(«id»: 3) { a(id: 1) @e(id: 1) }",
        True,
    ),
    (
        "interface Named { ‹name›: Int } type Pet implements Named { name: Int } type Query { pet: Pet named: Named }",
        "{ named { «name» } pet { name ... on Named { «name» } } }",
        False,
    ),
    (
        (
            "interface Named { name: Int } type Pet { ‹name›: Int } extend type Pet implements Named type Query { pet:"
            " Pet named: Named }"
        ),
        "{ named { name ... on Pet { «name» } } pet { «name» } }",
        False,
    ),
    (
        "type ‹Pet› { Pet: «Pet» } directive @Pet on FIELD extend type «Pet» { a: Int }",
        "fragment Pet on «Pet» { a @Pet ...Pet } query ($Pet: «Pet») { ... on «Pet» { Pet } }",
        True,
    ),
    ("directive @‹d› on FIELD type d { d: Int @«d» }", "{ d @«d» ... @«d» { d } }", True),
    ("fragment ‹F› on Query { ...«F» }", "{ ...«F» F }", True),
    ("type ‹T› { a: «T» }", "type T { a: T } { T }", True),
    ("query Q { a }", "query ‹Q› { Q ...Q } fragment Q on Q { a }", True),
    ("{ a }", "query ($‹a›: Int) { a(a: $«a») } query ($a: Int) { a(a: $a) }", True),
    ("type Query { a: Int }", "{ a @include(«if»: true) @skip(if: true) ... @include(«if»: true) { a } }", False),
]


def marked(text):
    """A text without its marks, and the ranges of the names that are marked as uses and as definitions."""
    plain, uses, definitions = "", [], []
    for before, use, definition in re.findall("([^«‹]*)(?:«(.*?)»|‹(.*?)›|$)", text):
        start = len(plain) + len(before)
        plain += before + use + definition
        (uses if use else definitions).extend([(start, len(plain))] if use or definition else [])
    return Text(plain, "utf-16"), uses, definitions


def uses_of_names():
    """References, marks and new names, across two documents."""
    types = "file:///types"
    for schema, document, is_renamed in USES:
        client = started()
        texts = {URI: marked(document), types: marked(schema)}
        for uri, (text, _, _) in texts.items():
            client.open(uri, text.text)
        uses = [{"uri": uri, "range": text.range(*it)} for uri, (text, found, _) in texts.items() for it in found]
        both = [
            {"uri": uri, "range": text.range(*it)}
            for uri, (text, *found) in texts.items()
            for it in sorted(sum(found, []))
        ]
        for place in both:
            uri, here = place["uri"], {"position": place["range"]["start"]}
            for wanted, with_definition in [(uses, False), (both, True)]:
                found = client.ask_about(uri, "references", context={"includeDeclaration": with_definition}, **here)
                expect(
                    f"the uses of {place}, its own document's first",
                    found,
                    sorted(wanted, key=lambda it: it["uri"] != uri),
                )
            expect(
                f"the marks of {place}",
                client.ask_about(uri, "documentHighlight", **here),
                [{"range": it["range"]} for it in both if it["uri"] == uri],
            )
            changes = {}
            for it in both:
                changes.setdefault(it["uri"], []).append({"range": it["range"], "newText": "fresh"})
            renamed, prepared = (
                client.ask(f"textDocument/{it}", textDocument={"uri": uri}, newName="fresh", **here)
                for it in ["rename", "prepareRename"]
            )
            expect(f"a new name for {place}", renamed.get("result"), {"changes": changes} if is_renamed else None)
            expect(
                f"whether {place} may have one",
                prepared.get("result", {}).get("range"),
                place["range"] if is_renamed else None,
            )
            if not is_renamed:
                expect(f"why {place} has no new name", [code(renamed), code(prepared)], [REQUEST_FAILED] * 2)
        client.end()


# A text with the name that is renamed, a new name for it, and whether the grammar allows that (GraphQL, October 2021,
# sections 2.8 and 2.9.6).
NEW_NAMES = [
    ("query Q { ...«F» } fragment «F» on T { a }", "on", False),
    ("query Q { ...«F» } fragment «F» on T { a }", "true", True),
    ("enum E { «V» W } type T { a(b: E = «V»): E }", "true", False),
    ("enum E { «V» W }", "false", False),
    ("enum E { «V» W }", "null", False),
    ("enum E { «V» W }", "on", True),
    ("type T { «a»: Int }", "true", True),
    ("query «Q» { a }", "on", True),
    ("type «T» { a: Int }", "on", True),
    ("query ($«a»: Int) { b(c: $«a») }", "null", True),
]


def forbidden_names():
    """A new name that would be a syntax error is refused."""
    for source, name, is_allowed in NEW_NAMES:
        text, places, _ = marked(source)
        client = opened(text.text)
        answer = client.ask(
            "textDocument/rename", textDocument=DOCUMENT, newName=name, position=text.range(*places[0])["start"]
        )
        wanted = (
            {"changes": {URI: [{"range": text.range(*it), "newText": name} for it in places]}} if is_allowed else None
        )
        expect(f"{name} for a name of {source}", answer.get("result"), wanted)
        if not is_allowed:
            expect(
                f"why {name} is no name for it",
                answer["error"],
                {"code": -32602, "message": "the grammar does not allow this name here"},
            )
        client.end()


def names_of_symbols():
    client = started()
    for text in [
        "fragment on X { a }", "type { a: B }", "scalar", "enum { A }", "{ a: }", "extend type { a: B }",
        "directive @ on FIELD",
    ]:
        client.open(URI, text)
        found = client.ask_about(URI, "documentSymbol")
        expect(f"a name in {text}", all(it["name"].strip() for it in found), True)
    client.open(URI, "scalar")
    expect("a scalar is no query", client.ask_about(URI, "documentSymbol")[0]["name"], "scalar")
    client.end()


def more_folds():
    text = '"""\nd\n"""\nschema {\n query: Q\n}\nextend schema {\n mutation: Q\n}\n{ a(\n b: [\n 1\n ]\n )\n}\n'
    client = opened(text)
    found = [(it["startLine"], it["endLine"], it.get("kind")) for it in client.ask_about(URI, "foldingRange")]
    expect(
        "folds in their order",
        sorted(found),
        [(0, 2, "comment"), (3, 4, None), (6, 7, None), (9, 12, None), (9, 13, None), (10, 11, None)],
    )
    client.end()


# Places of a directive, by their locations (GraphQL, October 2021, section 3.13).
LOCATIONS = [
    ("QUERY", "query Q "),
    ("MUTATION", "mutation "),
    ("SUBSCRIPTION", "subscription "),
    ("FIELD", "{ a "),
    ("FRAGMENT_DEFINITION", "fragment F on A "),
    ("FRAGMENT_SPREAD", "{ ...F "),
    ("INLINE_FRAGMENT", "{ ... "),
    ("VARIABLE_DEFINITION", "query ($a: A "),
    ("SCHEMA", "schema "),
    ("SCALAR", "extend scalar A "),
    ("OBJECT", "type A "),
    ("FIELD_DEFINITION", "type A { a: A "),
    ("ARGUMENT_DEFINITION", "type A { a(b: A "),
    ("INTERFACE", "interface A "),
    ("UNION", "extend union A "),
    ("ENUM", "enum A "),
    ("ENUM_VALUE", "enum A { B "),
    ("INPUT_OBJECT", "input A "),
    ("INPUT_FIELD_DEFINITION", "input A { b: A "),
]


def completion():
    def items(text, line, character):
        client = opened(text)
        found = client.ask_about(URI, "completion", **at(line, character))
        client.end()
        return found

    def labels(text):
        return [it["label"] for it in items(text, 0, len(text))]

    expect(
        "after $i",
        items("query ($id: ID) { a(b: $i", 0, 25),
        [{"label": "id", "kind": 6, "detail": "ID", "textEdit": {"range": span(0, 24, 25), "newText": "id"}}],
    )
    expect(
        "after $",
        items('query ($id: ID) {a(b:"😀" c:$', 0, 29),
        [{"label": "id", "kind": 6, "detail": "ID", "textEdit": {"range": span(0, 29, 29), "newText": "id"}}],
    )
    expect(
        "a variable as a value",
        items("query ($id: [ID!]!) { a(b: ", 0, 27)[0],
        {"label": "$id", "kind": 6, "detail": "[ID!]!", "textEdit": {"range": span(0, 27, 27), "newText": "$id"}},
    )
    expect("a variable in a list", labels("query ($id: ID) { a(b: {c: [1 ")[0], "$id")
    expect("of the operation alone", labels("query ($other: ID) { a } query ($id: ID) { a(b: $"), ["id"])
    expect(
        "of all operations in a fragment",
        labels("query ($other: ID) { a } query ($id: ID) { a } fragment f on T { a(b: $"),
        ["other", "id"],
    )
    expect(
        "of the operation as values",
        [it for it in labels("query ($other: ID) { a } query ($id: ID) { a(b: ") if it.startswith("$")],
        ["$id"],
    )
    for text in [
        "query ($id: ID, $other: ID = ", "query ($id: ID) @d(a: $id) { a(b: 1) ", "query ($id: ID) { a(", "query (",
        "query ($id: ID) { b } type A { c: D @e(f: ",
    ]:
        expect(f"no variable after {text}", [it for it in labels(text) if it.startswith("$")], [])
    expect("after a type's name", "implements" in labels("type T "), True)
    expect(
        "after on", [it for it in labels("directive @a on F") if it.startswith("FIELD")], ["FIELD", "FIELD_DEFINITION"]
    )
    expect("after @", labels("directive @mine on FIELD {a @"), ["mine", "include", "skip"])
    for location, text in LOCATIONS:
        others = " ".join(f"directive @of_{it} on {it}" for it, _ in LOCATIONS if it != location)
        expect(
            f"directives of {location}",
            [
                it
                for it in labels(f"directive @mine on FIELD | {location} {others} {text}@")
                if it == "mine" or it.startswith("of_")
            ],
            ["mine"],
        )
    expect("after a colon", labels("type T {a: "), ["T", "Boolean", "Float", "ID", "Int", "String"])
    expect("after a fragment's name", labels("fragment F "), ["on"])
    expect("after dots", labels("fragment F on T {a} {..."), ["on", "F"])
    expect("in a comment", labels("# typ"), [])
    expect("in a string", labels('"typ'), [])
    expect("after an error", labels("type ! "), [])
    expect("after an empty selection set", "a" in labels("type Query { a: Query } { a { } a { "), True)
    expect("after an error in a selection set", labels("type Query { a: Query } { a(b: ) { } a { "), [])


def layout():
    text = "{a b}\n\ntype T{a:B}\n\ntype U{a:B}"
    client = opened(text)
    wanted = "{\n  a\n  b\n}\n\ntype T {\n  a: B\n}\n\ntype U {\n  a: B\n}\n"
    definition = [edit(2, 6, " "), edit(2, 7, "\n  "), edit(2, 9, " "), edit(2, 10, "\n")]
    found = client.ask_about(URI, "formatting", options=OPTIONS)
    expect("layout", found[:7], [edit(0, 1, "\n  "), edit(0, 2, "\n "), edit(0, 4, "\n"), *definition])
    expect("the text after it", Text(text, "utf-16").changed(found), wanted)
    for what, range in [("a part", span(2, 0, 4)), ("a line", lines(2, 3)), ("a cursor", span(2, 5, 5))]:
        expect(f"layout of {what}", client.ask_about(URI, "rangeFormatting", range=range, options=OPTIONS), definition)
    client.change(URI, 1, [{"text": wanted}])
    expect("the same layout", client.ask_about(URI, "formatting", options=OPTIONS), [])
    expect(
        "layout of no definition", client.ask_about(URI, "rangeFormatting", range=lines(4, 4), options=OPTIONS), None
    )
    # the text of a comment or a string stays, and so do a CR LF that is whole and a wide character
    for before, after in [("{a,,b}\n", "{\n  a\n  b\n}\n"), ("type A {\r\n  a: B\r\n}\r\n", "type A {\n  a: B\n}\n"),
                          ('{ a(b: "😀  ,", c: 1) # 😀  ,\n}', '{\n  a(b: "😀  ,", c: 1) # 😀  ,\n}\n')]:
        client.change(URI, 2, [{"text": before}])
        found = client.ask_about(URI, "formatting", options=OPTIONS)
        expect(f"the layout of {before!r}", Text(before, "utf-16").changed(found), after)
        expect(
            f"small edits of {before!r}", max(len(Text(before, "utf-16").of(it["range"])) for it in found) <= 2, True
        )
    client.change(URI, 2, [{"text": "{"}])
    expect("layout of a text with errors", client.ask_about(URI, "formatting", options=OPTIONS), None)
    client.end()


def long_layout():
    """A level of selections takes a line of its own, twice, with two blanks for each level around it: a text of 499
    levels gets half a megabyte."""
    client = opened(("{a" * 499 + "}" * 499 + "\n") * 140)
    expect(
        "a layout of 70 MB", code(client.ask("textDocument/formatting", textDocument=DOCUMENT, options=OPTIONS)), -32803
    )
    expect(
        "the same, of a part",
        code(client.ask("textDocument/rangeFormatting", textDocument=DOCUMENT, range=lines(0, 140), options=OPTIONS)),
        -32803,
    )
    expect(
        "the layout of one of them",
        client.ask_about(URI, "rangeFormatting", range=lines(0, 1), options=OPTIONS) is not None,
        True,
    )
    client.end()


def layout_of_long_lines():
    """A line that gets many line ends gets them by few edits, and the lines beside it by small ones, as ever."""
    fields = 2000
    text = "{a}\n\n{" + "b(c:1)" * fields + "}\n\n{d}"
    for encoding in ["utf-16", "utf-8"]:
        client = opened(text, encoding)
        found = client.ask_about(URI, "formatting", options=OPTIONS)
        wanted = "{\n  a\n}\n\n{\n" + "  b(c: 1)\n" * fields + "}\n\n{\n  d\n}\n"
        expect("the text after the layout of a long line", Text(text, encoding).changed(found) == wanted, True)
        expect("few edits of a long line", sum(it["range"]["start"]["line"] == 2 for it in found) <= 101, True)
        expect(
            "small edits of the next line",
            [it for it in found if it["range"]["start"]["line"] == 4],
            [edit(4, 1, "\n  "), edit(4, 2, "\n"), edit(4, 3, "\n")],
        )
        client.end()


# ---- the words of the command line


def limits():
    def errors(text, *words):
        client = Client(PROGRAM, *words)
        client.initialize()
        found = client.open(URI, text)["diagnostics"]
        layout = client.ask_about(URI, "formatting", options=OPTIONS)
        client.end()
        return [it["message"] for it in found], layout is None

    expect("a level too deep", errors("{a{b}}", "--recursion", "1"), (["parser recursion limit reached"], True))
    expect("as deep as allowed", errors("{a{b}}", "--recursion", "2"), ([], False))
    # four tokens, the end among them, and seven with white space
    expect("a token too many", errors("{a}", "--tokens", "3"), (["token limit reached, aborting lexing"], True))
    expect("a layout with too many tokens", errors("{a}", "--stdio", "--tokens", "4"), ([], True))
    expect("as many as allowed", errors("{a}", "--tokens=7", "--stdio", "--recursion", "1"), ([], False))


def refused_words():
    usage = "usage: gqlls [--recursion N] [--tokens N] [--stdio]"
    twice = "is given twice, or beside an option that excludes it"
    for words, about in [
        ("x", "x is no option"),
        ("--tokens", "--tokens has no value"),
        ("--tokens x", "--tokens takes a number"),
        ("--recursion=-1", "--recursion=-1 takes a number"),
        ("--recursion 1 --recursion 1", f"--recursion {twice}"),
        ("--stdio=1", "unknown option --stdio=1"),
        ("-- --stdio", "unknown option --"),
    ]:
        ended = subprocess.run([PROGRAM, *words.split()], stdin=subprocess.DEVNULL, capture_output=True, timeout=10)
        expect(
            f"the words {words}",
            (ended.returncode, ended.stdout, ended.stderr.decode().splitlines()),
            (2, b"", [f"gqlls: {about}", usage]),
        )
    for word in ["-V", "--version"]:
        ended = subprocess.run([PROGRAM, word], stdin=subprocess.DEVNULL, capture_output=True, timeout=10)
        expect(f"the word {word}", (ended.returncode, ended.stdout.split()[0]), (0, b"gqlls"))


# ---- the standard, signatures, many changes


def standard():
    """The types, directives and meta-fields that need no definition (GraphQL, October 2021, sections 3.5, 3.13, 4.1 and
    4.2)."""
    client = started()
    client.open("file:///types", TYPES)

    def asked(feature, text, place):
        client.open(URI, text)
        return client.ask_about(URI, feature, **at(0, place))

    def words(text):
        return [it["label"] for it in asked("completion", text, len(text)) if it["kind"] != 14]

    for text, wanted in [
        ("{ hero @include(", ["if"]),
        ("{ hero @skip(i", ["if"]),
        ("type A { a: B @deprecated(", ["reason"]),
        ("scalar A @specifiedBy(", ["url"]),
        ("{ __schema { directives { ", ["name", "description", "locations", "args", "isRepeatable", *META]),
        ("{ __type(", ["name"]),
        ("subscription { hero { ", []),
        ("fragment F on __Type { fields(", ["includeDeprecated"]),
    ]:
        expect(f"words of the standard after {text}", words(text), wanted)
    for text, place, heading in [
        ("{ __typename }", 4, "__typename: String!"),
        ("{ search { __typename } }", 12, "__typename: String!"),
        ("{ __schema { types { name } } }", 4, "__schema: __Schema!"),
        ("{ __type(name: 1) { name } }", 9, "name: String!"),
        ("{ a @skip(if: true) }", 10, "if: Boolean!"),
        ("{ a @include(if: true) }", 13, "if: Boolean!"),
        ('type A { a: B @deprecated(reason: "") }', 27, 'reason: String = "No longer supported"'),
        ("scalar A @specifiedBy(url: 1)", 22, "url: String!"),
        ("scalar A @specifiedBy(url: 1)", 11, "directive @specifiedBy(url: String!) on SCALAR"),
        ("query ($a: ID) { a }", 12, "scalar ID"),
    ]:
        found = asked("hover", text, place)
        expect(f"hover in {text}", found and found["contents"]["value"].split("\n")[1], heading)
        expect(f"no place of it, in {text}", asked("definition", text, place), None)
    expect("no meta-field of a field's own type", asked("hover", "{ hero { __schema } }", 10), None)
    client.end()


def signatures():
    client = started()
    client.open("file:///types", TYPES)
    client.open(
        "file:///more",
        'extend type Root {\n  "Finds."\n  find(id: ID!, in: [Episode!] = [] @d\n by: String): [Hero!]!\n}\n',
    )
    hero = {
        "label": "hero(episode: Episode, like: Like): Hero",
        "documentation": "A hero.",
        "parameters": [{"label": "episode: Episode"}, {"label": "like: Like"}],
    }
    find = {"label": "find(id: ID!, in: [Episode!] = [], by: String): [Hero!]!", "documentation": "Finds.",
            "parameters": [{"label": "id: ID!"}, {"label": "in: [Episode!] = []"}, {"label": "by: String"}]}
    skip = {
        "label": "skip(if: Boolean!)",
        "documentation": "Leaves the selection out if the argument is true.",
        "parameters": [{"label": "if: Boolean!"}],
    }
    for text, wanted, active in [
        ("{ hero(|", hero, 0),
        ("{ hero(like: |", hero, 1),
        ("{ hero(like: {episode: JEDI}, |", hero, 0),
        ("{ hero(episode: A like: {}, |", hero, 2),
        ("{ hero(epi|) { name } }", hero, 0),
        ("{ find(id: 1, in: [A, |]) }", find, 1),
        ("{ find(in: A, |) }", find, 0),
        ("{ find(id: 1, by: |) }", find, 2),
        ("query @skip(|", skip, 0),
        ("{ hero @skip(if: |true)", skip, 0),
        ("{ find(id: 1) @skip(|", skip, 0),
        ("{ hero|", None, 0),
        ("{ hero(episode: A) |", None, 0),
        ("{ nothing(|", None, 0),
        ("type T { a(|", None, 0),
    ]:
        place = text.index("|")
        client.open(URI, text.replace("|", ""))
        found = client.ask_about(URI, "signatureHelp", **at(0, place))
        expect(
            f"the signature at {text}",
            found,
            wanted and {"signatures": [wanted], "activeSignature": 0, "activeParameter": active},
        )
    client.end()


def many_changes():
    """Changes of one message, each of the text that the one before it left: the errors are those of the last text."""
    lines = [f"type T{i} {{ é: [A!]! # 😀" + ("\r\n}" if i % 3 else "\n}") for i in range(300)]
    for encoding in ["utf-16", "utf-8"]:
        for order in [1, -1]:
            text = Text("\n".join(lines), encoding)
            client = opened(text.text, encoding)
            sent = []
            for number in range(0, 300, 7)[::order]:
                start = text.text.index(f"T{number} ")
                for new in ["\n", "é\r", f"T{number}9\n"]:
                    change = {"range": text.range(text.boundary(start), text.boundary(start + 1)), "text": new}
                    sent.append(change)
                    text = Text(text.changed([{"range": change["range"], "newText": new}]), encoding)
            client.change(URI, 1, sent)
            expect(
                f"the outline after many changes, {encoding}, {order}",
                client.ask_about(URI, "documentSymbol"),
                opened(text.text, encoding).ask_about(URI, "documentSymbol"),
            )
            client.end()


TESTS = [
    states, statuses_without_shutdown, faulty_messages, pieces_of_input, capabilities, changes, positions, diagnostics,
    open_braces, violations, fragments_of_others, lambda: names("utf-16", 0), lambda: names("utf-8", 2), markups,
    other_documents, files_of_the_folder, own_files, types_of_the_document, members, uses_of_names, forbidden_names,
    open_quotes, templates, changed_templates, lambda: parts("utf-16", 0), lambda: parts("utf-8", 2), names_of_symbols,
    more_folds, completion, layout, long_layout, layout_of_long_lines, limits, refused_words, standard, signatures,
    many_changes,
]
for test in TESTS:
    test()
print(f"protocol: {len(TESTS)} tests, {failed} differences")
sys.exit(1 if failed else 0)
