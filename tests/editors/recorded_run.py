#!/usr/bin/env python3
"""Writes the conversation that `rt ci` has with gqlls: crates/gqlls/stdin, and what it has to answer,
crates/gqlls/stdout. With --check it writes nothing, and ends with status 1 where the files differ. The answers are
written by hand, from the protocol and the texts; their members are in the order in which the server writes them."""
import json
import sys
from pathlib import Path

TOP = Path(__file__).resolve().parent.parent.parent
CRATE = TOP / "crates/gqlls"
VERSION = (TOP / "VERSION").read_text().strip()
URI = "file:///a.graphql"
DOCUMENT = {"uri": URI}
# The errors of this text are those in README.md.
FAULTY = "{ hero(id) { name }"
# An emoji takes two units of UTF-16, so the type of b is at column 10.
TEXT = 'type A { # 😀\n  "😀" b: C }\n'
TYPES = [
    "comment", "keyword", "string", "number", "operator", "variable", "type", "property", "parameter", "enumMember",
    "function", "decorator",
]
SERVED = [
    "documentSymbolProvider", "foldingRangeProvider", "selectionRangeProvider", "documentFormattingProvider",
    "documentRangeFormattingProvider", "definitionProvider", "referencesProvider", "documentHighlightProvider",
    "hoverProvider", "workspaceSymbolProvider",
]
# Two folds of brackets, and one of a description.
FOLDED = '{ a(\n b: 1\n )\n}\n"""\nd\n"""\nscalar S\n'
# The keywords with which a definition begins.
DEFINITIONS = [
    "query", "mutation", "subscription", "fragment", "extend", "schema", "scalar", "type", "interface", "union", "enum",
    "input", "directive",
]
CAPABILITIES = {
    "positionEncoding": "utf-16",
    "renameProvider": True,
    **{name: True for name in SERVED},
    "textDocumentSync": {"openClose": True, "change": 2, "save": True},
    "completionProvider": {"triggerCharacters": ["$", "@", ".", ":", "(", "{"]},
    "signatureHelpProvider": {"triggerCharacters": ["(", ","]},
    "semanticTokensProvider": {"full": True, "range": True, "legend": {"tokenModifiers": [], "tokenTypes": TYPES}},
}


def at(line, character):
    return {"line": line, "character": character}


def span(line, start, end):
    return {"start": at(line, start), "end": at(line, end)}


def frame(body):
    if not isinstance(body, bytes):
        body = json.dumps(body, ensure_ascii=False, separators=(",", ":")).encode()
    return b"Content-Length: %d\r\n\r\n" % len(body) + body


def request(number, method, **params):
    return frame({"jsonrpc": "2.0", "id": number, "method": method, "params": params})


def notification(method, **params):
    return frame({"jsonrpc": "2.0", "method": method, "params": params})


def result(number, value):
    return frame({"jsonrpc": "2.0", "id": number, "result": value})


def error(number, code, message):
    return frame({"jsonrpc": "2.0", "id": number, "error": {"code": code, "message": message}})


def published(version, *diagnostics):
    return notification(
        "textDocument/publishDiagnostics",
        uri=URI,
        **({} if version is None else {"version": version}),
        diagnostics=list(diagnostics),
    )


def diagnostic(start, end, message):
    return {"range": span(0, start, end), "code": "syntax", "severity": 1, "source": "gqlls", "message": message}


def warning(range, rule, message):
    return {"range": range, "code": rule, "severity": 2, "source": "gqlls", "message": message}


def symbol(name, kind, detail, range, chosen, *children):
    found = {"name": name, "kind": kind, **({} if detail is None else {"detail": detail})}
    return {**found, "range": range, "selectionRange": chosen, "children": list(children)}


def word(label, kind, range):
    return {"label": label, "kind": kind, "textEdit": {"range": range, "newText": label}}


def selection(smallest, *others):
    return {"range": smallest, **({"parent": selection(*others)} if others else {})}


CONVERSATION = [
    (request(0, "textDocument/hover", textDocument=DOCUMENT), error(0, -32002, "not initialized")),
    (
        request(1, "initialize", capabilities={}),
        result(1, {"capabilities": CAPABILITIES, "serverInfo": {"name": "gqlls", "version": VERSION}}),
    ),
    (notification("initialized"), b""),
    (
        notification(
            "textDocument/didOpen", textDocument={"uri": URI, "languageId": "graphql", "version": 1, "text": FAULTY}
        ),
        published(1, diagnostic(9, 10, "expected : (1 more error before the next definition)")),
    ),
    (
        notification(
            "textDocument/didChange",
            textDocument={"uri": URI, "version": 2},
            contentChanges=[{"text": TEXT}, {"range": span(1, 10, 11), "text": "A"}],
        ),
        published(2),
    ),
    # a malformed range
    (
        notification(
            "textDocument/didChange",
            textDocument={"uri": URI, "version": 3},
            contentChanges=[{"range": [], "text": ""}],
        ),
        b"",
    ),
    (request(2, "textDocument/hover", textDocument=DOCUMENT), error(2, -32602, "no such place")),
    (
        request("three", "textDocument/definition", textDocument=DOCUMENT, position=at(1, 10)),
        result("three", {"uri": URI, "range": span(0, 5, 6)}),
    ),
    (
        request(4, "textDocument/hover", textDocument=DOCUMENT, position=at(1, 7)),
        result(4, {"contents": {"kind": "markdown", "value": "```graphql\nb: A\n```\n\n😀"}, "range": span(1, 7, 8)}),
    ),
    (
        request(5, "textDocument/semanticTokens/full", textDocument=DOCUMENT),
        result(
            5,
            {
                "data": [
                    0, 0, 4, 1, 0, 0, 5, 1, 6, 0, 0, 4, 4, 0, 0, 1, 2, 4, 2, 0, 0, 5, 1, 7, 0, 0, 1, 1, 4, 0, 0, 2, 1,
                    6, 0,
                ]
            },
        ),
    ),
    (
        request(6, "textDocument/formatting", textDocument=DOCUMENT),
        result(6, [{"range": span(1, 6, 6), "newText": "\n "}, {"range": span(1, 11, 12), "newText": "\n"}]),
    ),
    (
        request(7, "textDocument/documentSymbol", textDocument=DOCUMENT),
        result(
            7,
            [
                symbol(
                    "A",
                    5,
                    None,
                    {"start": at(0, 0), "end": at(1, 13)},
                    span(0, 5, 6),
                    symbol("b", 8, "A", span(1, 2, 11), span(1, 7, 8)),
                )
            ],
        ),
    ),
    (
        request(8, "textDocument/selectionRange", textDocument=DOCUMENT, positions=[at(1, 10)]),
        result(
            8,
            [
                selection(
                    span(1, 10, 11),
                    span(1, 2, 11),
                    {"start": at(0, 7), "end": at(1, 13)},
                    {"start": at(0, 0), "end": at(1, 13)},
                    {"start": at(0, 0), "end": at(2, 0)},
                )
            ],
        ),
    ),
    (
        request(
            9, "textDocument/references", textDocument=DOCUMENT, position=at(0, 5), context={"includeDeclaration": True}
        ),
        result(9, [{"uri": URI, "range": span(0, 5, 6)}, {"uri": URI, "range": span(1, 10, 11)}]),
    ),
    (
        request("highlight", "textDocument/documentHighlight", textDocument=DOCUMENT, position=at(0, 5)),
        result("highlight", [{"range": span(0, 5, 6)}, {"range": span(1, 10, 11)}]),
    ),
    (
        request("rename", "textDocument/rename", textDocument=DOCUMENT, position=at(1, 10), newName="B"),
        result(
            "rename",
            {"changes": {URI: [{"range": span(0, 5, 6), "newText": "B"}, {"range": span(1, 10, 11), "newText": "B"}]}},
        ),
    ),
    (
        request("no name", "textDocument/rename", textDocument=DOCUMENT, position=at(1, 10), newName="1"),
        error("no name", -32602, "no name of GraphQL"),
    ),
    (
        request(10, "textDocument/rangeFormatting", textDocument=DOCUMENT, range=span(0, 0, 1)),
        result(10, [{"range": span(1, 6, 6), "newText": "\n "}, {"range": span(1, 11, 12), "newText": "\n"}]),
    ),
    (
        request(11, "textDocument/completion", textDocument=DOCUMENT, position=at(2, 0)),
        result(11, [word(keyword, 14, span(2, 0, 0)) for keyword in DEFINITIONS]),
    ),
    (
        request(12, "textDocument/completion", textDocument=DOCUMENT, position=at(1, 11)),
        result(12, [word(name, 7, span(1, 10, 11)) for name in ["A", "Boolean", "Float", "ID", "Int", "String"]]),
    ),
    (
        request(13, "textDocument/semanticTokens/range", textDocument=DOCUMENT, range=span(1, 0, 13)),
        result(13, {"data": [1, 2, 4, 2, 0, 0, 5, 1, 7, 0, 0, 1, 1, 4, 0, 0, 2, 1, 6, 0]}),
    ),
    (
        notification(
            "textDocument/didChange", textDocument={"uri": URI, "version": 3}, contentChanges=[{"text": FOLDED}]
        ),
        published(3, warning(span(7, 7, 8), "ExecutableDefinitions", 'The "S" definition is not executable.')),
    ),
    (
        request(14, "textDocument/foldingRange", textDocument=DOCUMENT),
        result(
            14,
            [
                {"startLine": 0, "endLine": 2},
                {"startLine": 0, "endLine": 1},
                {"startLine": 4, "endLine": 6, "kind": "comment"},
            ],
        ),
    ),
    (request(15, "textDocument/definition", textDocument=DOCUMENT, position=at(0, 2)), result(15, None)),
    (frame(b'{"jsonrpc":"2.0","id":16,'), error(None, -32700, "not JSON")),
    (b"Content-Length: two\r\n\r\n", b""),
    (request(17, "workspace/executeCommand"), error(17, -32601, "method not found")),
    (
        request("search", "workspace/symbol", query="s"),
        result("search", [{"name": "S", "kind": 26, "location": {"uri": URI, "range": span(7, 7, 8)}}]),
    ),
    (notification("textDocument/didClose", textDocument=DOCUMENT), published(None)),
    (request(18, "textDocument/hover", textDocument=DOCUMENT, position=at(0, 0)), result(18, None)),
    (request(19, "shutdown"), result(19, None)),
    (notification("exit"), b""),
]


def main():
    wrong = False
    for name, part in [("stdin", 0), ("stdout", 1)]:
        file, wanted = CRATE / name, b"".join(turn[part] for turn in CONVERSATION)
        if sys.argv[1:] != ["--check"]:
            file.write_bytes(wanted)
        elif file.read_bytes() != wanted:
            wrong = True
            print(f"recorded_run: crates/gqlls/{name} is not what tests/editors/recorded_run.py writes")
    sys.exit(1 if wrong else 0)


main()
