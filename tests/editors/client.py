"""A client of the Language Server Protocol over a pipe, and the positions of the texts that it has open."""
import bisect
import json
import os
import re
import subprocess


def errors_of(notification):
    """The syntax errors in a notification of diagnostics: a violation of a rule of validation has the rule's name as
    its code."""
    return [it for it in notification["diagnostics"] if it["code"] == "syntax"]


class Client:
    """A server that runs, and what is sent to it and read from it."""

    def __init__(self, program, *words):
        self.process = subprocess.Popen([program, *words], stdin=subprocess.PIPE, stdout=subprocess.PIPE, bufsize=0)
        self.answers = os.fdopen(os.dup(self.process.stdout.fileno()), "rb")
        self.last_id = 0

    def write(self, data):
        view = memoryview(data)
        while view:
            view = view[self.process.stdin.write(view):]

    def send(self, message):
        """Sends a message: bytes as they are, anything else as JSON."""
        body = message if isinstance(message, bytes) else json.dumps(message, ensure_ascii=False).encode()
        self.write(b"Content-Length: %d\r\n\r\n" % len(body) + body)

    def receive(self):
        """The bytes of the next message, or None at the end."""
        length = None
        while True:
            line = self.answers.readline()
            if not line:
                return None
            if line == b"\r\n":
                break
            name, _, value = line.partition(b":")
            if name.lower() == b"content-length":
                length = int(value)
        return self.answers.read(length)

    def read(self):
        """The next message, or None at the end."""
        body = self.receive()
        return None if body is None else json.loads(body)

    def notify(self, method, **params):
        self.send({"jsonrpc": "2.0", "method": method, "params": params})

    def ask(self, method, **params):
        """The whole answer to a request."""
        self.last_id += 1
        self.send({"jsonrpc": "2.0", "id": self.last_id, "method": method, "params": params})
        answer = self.read()
        assert answer["id"] == self.last_id, answer
        return answer

    def ask_about(self, uri, feature, **params):
        """The result of a request about a document."""
        return self.ask(f"textDocument/{feature}", textDocument={"uri": uri}, **params)["result"]

    def initialize(self, *encodings, related=False):
        """Offers these encodings of positions, takes related information or doesn't, and gives the server's
        capabilities."""
        general = {"positionEncodings": list(encodings)} if encodings else {}
        answer = self.ask(
            "initialize",
            capabilities={"general": general, "textDocument": {"publishDiagnostics": {"relatedInformation": related}}},
        )
        self.notify("initialized")
        return answer["result"]["capabilities"]

    def open(self, uri, text, language="graphql"):
        """Opens a document, and gives what is published of it."""
        document = {"uri": uri, "languageId": language, "version": 0, "text": text}
        self.notify("textDocument/didOpen", textDocument=document)
        return self.read()["params"]

    def change(self, uri, version, changes):
        self.notify("textDocument/didChange", textDocument={"uri": uri, "version": version}, contentChanges=changes)
        return self.read()["params"]

    def close(self, uri):
        self.notify("textDocument/didClose", textDocument={"uri": uri})
        return self.read()["params"]

    def end(self):
        """Shuts the server down, and gives its exit status."""
        assert self.ask("shutdown")["result"] is None
        self.notify("exit")
        return self.process.wait(10)


def width(text, encoding):
    """How many units of the encoding a text has."""
    return len(text.encode()) if encoding == "utf-8" else len(text.encode("utf-16-le")) // 2


class Text:
    """A text as a client has it: LF, CR LF and CR end its lines, and columns count units of an encoding. Offsets count
    characters."""

    def __init__(self, text, encoding):
        self.text = text
        self.encoding = encoding
        ends = list(re.finditer("\r\n|\r|\n", text))
        self.starts = [0, *(end.end() for end in ends)]
        self.ends = [*(end.start() for end in ends), len(text)]

    def boundary(self, offset):
        """The offset, or between CR and LF the offset of the line's end."""
        return min(offset, self.ends[bisect.bisect_right(self.starts, offset) - 1])

    def position(self, offset):
        line = bisect.bisect_right(self.starts, offset) - 1
        return {"line": line, "character": width(self.text[self.starts[line]:offset], self.encoding)}

    def range(self, start, end):
        return {"start": self.position(start), "end": self.position(end)}

    def offset(self, position):
        """The offset of a position, or None where the text has no such position."""
        if position["line"] >= len(self.starts):
            return None
        start, end = self.starts[position["line"]], self.ends[position["line"]]
        units = position["character"]
        for offset in range(start, end + 1):
            if units <= 0:
                return offset if units == 0 else None
            units -= width(self.text[offset:offset + 1], self.encoding)
        return None

    def part(self, range):
        """The part of the text that a range is, as two offsets, or None where it is not a range."""
        start, end = self.offset(range["start"]), self.offset(range["end"])
        return None if start is None or end is None or end < start else (start, end)

    def of(self, range):
        part = self.part(range)
        return None if part is None else self.text[part[0]:part[1]]

    def changed(self, edits):
        """The text after edits, none of which overlap."""
        text = self.text
        for start, end, new in sorted((*self.part(edit["range"]), edit["newText"]) for edit in edits)[::-1]:
            text = text[:start] + new + text[end:]
        return text
