#!/usr/bin/env python3
"""Measures gqlls on input that comes all at once: requests for a long answer, changes in one message, and bytes that
are no message. Prints a row for each, with the seconds of the processor and the greatest memory. --program is the
server, if it isn't the one that `rt ci` has built."""

import json
import tempfile
from pathlib import Path

from programs import Run, arguments, built

URI = "file:///schema.graphql"
TYPE = "type T%d { field%d(argument: Int): String other: [T%d!]! }\n"


def frame(**message):
    body = json.dumps({"jsonrpc": "2.0", **message}).encode()
    return b"Content-Length: %d\r\n\r\n" % len(body) + body


def text(size):
    return "".join(TYPE % (i, i, i) for i in range(size // 60))


def opened(source):
    return frame(
        method="textDocument/didOpen",
        params={"textDocument": {"uri": URI, "languageId": "graphql", "version": 0, "text": source}},
    )


def outlines(count):
    asked = [
        frame(id=number, method="textDocument/documentSymbol", params={"textDocument": {"uri": URI}})
        for number in range(count)
    ]
    return opened(text(240_000)) + b"".join(asked)


def changes(count):
    source = text(1_000_000)
    lines = [number * source.count("\n") // count for number in range(count)]
    place = [{"line": line, "character": 4} for line in reversed(lines)]
    made = [{"range": {"start": at, "end": at}, "text": " "} for at in place]
    return opened(source) + frame(
        method="textDocument/didChange", params={"textDocument": {"uri": URI, "version": 1}, "contentChanges": made}
    )


ROWS = [(f"{count} outlines of 240 KB", outlines(count)) for count in [25, 100]]
ROWS += [(f"{count} changes of 1 MB in a message", changes(count)) for count in [250, 1000]]
ROWS += [(f"{size / 1e6:g} MB of `X`", b"X" * size + b"\r\n") for size in [500_000, 2_000_000]]


def main():
    program = arguments(__doc__, program=None).program or built("gqlls")
    print("| all at once | processor, s | memory, MB |\n|---|---|---|")
    with tempfile.TemporaryDirectory() as folder:
        path = Path(folder) / "input"
        for name, data in ROWS:
            path.write_bytes(
                frame(id=-1, method="initialize", params={"capabilities": {}}) + data + frame(method="exit")
            )
            run = Run([program], path)
            assert run.status == 256, run.status
            print(f"| {name} | {run.processor:.2f} | {run.memory / 1e6:.0f} |")


main()
