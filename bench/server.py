#!/usr/bin/env python3
"""Measures gqlls on a schema of 1 MB, in many lines and in one: the time from an edit to its errors, the memory, and
the times of the requests. Prints two tables for docs/SPEED.md.

There are `--edits` edits in the middle of the schema; every second one makes errors, and the next takes them away. Ends
with status 1 where the median of the times is above 60 milliseconds, or the memory above 40 bytes for each byte of the
text. A time is from the first byte that is sent to the last that is received: the client makes JSON of a message
before, and reads it after. The server's own time is on the processor, so no other work of the machine lengthens it."""

import json
import statistics
import sys
import time

from programs import TOP, arguments, built

sys.path.insert(0, str(TOP / "tests/editors"))
from client import Client  # noqa: E402

MOST_MILLISECONDS = 60
MOST_BYTES = 40
URI = "file:///schema.graphql"
TYPE = '''"""Doc %d"""
type T%d implements N & M @key(fields: "id") {
  id:ID!
  name(first: Int = 10, after: String): [String!]! @deprecated(reason: "no")
  other: T%d
}
'''


def at(line, character):
    return {"line": line, "character": character}


def memory(client):
    """The greatest memory of the server so far, in bytes."""
    with open(f"/proc/{client.process.pid}/status") as status:
        found = next(line for line in status if line.startswith("VmHWM:"))
    return int(found.split()[1]) * 1024


def processor(client):
    """The server's time on the processor so far, in milliseconds."""
    with open(f"/proc/{client.process.pid}/schedstat") as times:
        return int(times.read().split()[0]) / 1e6


def timed(client, method, **params):
    """How many milliseconds pass from a message to the server's reply, and the reply."""
    message = {"jsonrpc": "2.0", "method": f"textDocument/{method}", "params": params}
    if not method.startswith("did"):
        message["id"] = 1
    body = json.dumps(message).encode()
    started = time.perf_counter()
    client.send(body)
    said = client.receive()
    return (time.perf_counter() - started) * 1000, json.loads(said)


def edits(client, line, character, count):
    """The time of each edit at a place, and the server's own."""
    times, own = [], []
    for version in range(1, count + 1):
        is_fault = version % 2
        change = {
            "range": {"start": at(line, character), "end": at(line, character + 1 - is_fault)},
            "text": "!" * is_fault,
        }
        before = processor(client)
        spent, said = timed(client, "didChange", textDocument={"uri": URI, "version": version}, contentChanges=[change])
        assert said["params"]["version"] == version and bool(said["params"]["diagnostics"]) == bool(is_fault)
        times.append(spent)
        own.append(processor(client) - before)
    return times, own


def requests(client, line, character):
    """The features with their times, for a type's name at a place, or for a screen of lines there."""
    place = {"position": at(line, character)}
    part = {"range": {"start": at(line, 0), "end": at(line + 60, 0)}}
    asked = [
        ("documentSymbol", {}),
        ("foldingRange", {}),
        ("semanticTokens/full", {}),
        ("semanticTokens/range", part),
        ("selectionRange", {"positions": [at(line, character)]}),
        ("definition", place),
        ("references", {**place, "context": {"includeDeclaration": True}}),
        ("hover", place),
        ("completion", place),
        ("rangeFormatting", part),
        ("formatting", {}),
    ]
    for feature, params in asked:
        answers = [timed(client, feature, textDocument={"uri": URI}, **params) for _ in range(5)]
        assert all(answer.get("result") for _, answer in answers)
        yield feature, statistics.median(spent for spent, _ in answers)


def measured(program, name, text, line, character, count):
    """A server that has the text open, the row of its edits, and whether it keeps the limits."""
    client = Client(program)
    client.initialize()
    before = memory(client)
    opened, said = timed(
        client, "didOpen", textDocument={"uri": URI, "languageId": "graphql", "version": 0, "text": text}
    )
    assert said["params"]["diagnostics"] == []
    times, own = edits(client, line, character, count)
    median, used = statistics.median(times), (memory(client) - before) / len(text.encode())
    row = (
        f"| {name}, {len(text) / 1e6:.2f} MB | {opened:.0f} | {median:.0f} | {max(times):.0f} | {max(own):.0f} |"
        f" {used:.1f} |"
    )
    return client, before, row, median <= MOST_MILLISECONDS and used <= MOST_BYTES


def main():
    count, program = arguments(__doc__, edits=30).edits // 2 * 2, built("gqlls")
    many = "\n".join(TYPE % (i, i, i) for i in range(6400))
    one = many.replace("\n", " ")
    # before the name in "  other: T3200"
    line, character = 3200 * 7 + 4, 9
    client, before, first, is_fast = measured(program, "many lines", many, line, character, count)
    other, _, second, is_fast_too = measured(program, "one line", one, 0, one.index(" T3200 "), count)
    other.end()
    print(
        f"| | to open it | an edit, median of {count} | longest | longest of its own | memory, bytes a byte of text"
        " |\n|---|---|---|---|---|---|"
    )
    print(f"{first}\n{second}")
    print("\n| request | |\n|---|---|")
    for feature, spent in requests(client, line, character):
        print(f"| {feature} | {spent:.0f} |")
    print(f"\nmemory with these requests: {(memory(client) - before) / len(many):.1f} bytes a byte of text")
    client.end()
    sys.exit(0 if is_fast and is_fast_too else 1)


main()
