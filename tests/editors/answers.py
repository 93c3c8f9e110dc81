"""What the Language Server Protocol wants of any answer about a document, whatever its text is. Each function asks
about a `View` and says whether the answer is right."""
import re

from client import errors_of

OPTIONS = {"tabSize": 2, "insertSpaces": True}


class View:
    """A document that a client has open, its text and language, and an offset in it."""

    def __init__(self, client, uri, text, language, offset):
        self.client = client
        self.uri = uri
        self.text = text
        self.language = language
        self.offset = offset

    def ask(self, feature, **params):
        return self.client.ask_about(self.uri, feature, **params)

    def position(self):
        return self.text.position(self.offset)


def nested(symbols):
    for symbol in symbols:
        yield symbol
        yield from nested(symbol["children"])


def symbols(view):
    """No name is blank, and what is selected lies in the symbol."""
    for symbol in nested(view.ask("documentSymbol")):
        whole, name = view.text.part(symbol["range"]), view.text.part(symbol["selectionRange"])
        if not symbol["name"].strip() or not whole or not name or name[0] < whole[0] or whole[1] < name[1]:
            return False
    return True


def folds(view):
    """Each fold has more than one line, and its lines are in the document."""
    return all(0 <= fold["startLine"] < fold["endLine"] < len(view.text.starts) for fold in view.ask("foldingRange"))


def selections(view):
    """There is one for each offset. It holds the offset, and each part lies in its parent."""
    found = view.ask("selectionRange", positions=[view.position(), view.text.position(0)])
    part = view.text.part(found[0]["range"])
    if len(found) != 2 or not part or not part[0] <= view.offset <= part[1]:
        return False
    outer = found[0].get("parent")
    while outer:
        inner, part, outer = part, view.text.part(outer["range"]), outer.get("parent")
        if not part or part == inner or inner[0] < part[0] or part[1] < inner[1]:
            return False
    return True


def parts_of_tokens(text, data):
    """The parts of the text that the tokens take, or None where they overlap, go backward or go over the end of a
    line."""
    found, line, column = [], 0, 0
    for at in range(0, len(data), 5):
        lines, columns, length, kind, modifiers = data[at:at + 5]
        line, column = line + lines, columns if lines else column + columns
        part = text.part(
            {"start": {"line": line, "character": column}, "end": {"line": line, "character": column + length}}
        )
        if not part or length == 0 or not 0 <= kind < 12 or modifiers or found and part[0] < found[-1][1]:
            return None
        found.append(part)
    return found


def tokens(view):
    """Those of a part of the text are those of the whole text that lie in it, and maybe more of the whole."""
    end = view.text.boundary(min(len(view.text.text), view.offset + 20))
    whole = parts_of_tokens(view.text, view.ask("semanticTokens/full")["data"])
    part = parts_of_tokens(view.text, view.ask("semanticTokens/range", range=view.text.range(view.offset, end))["data"])
    if whole is None or part is None:
        return False
    return set(part) <= set(whole) and {it for it in whole if it[0] < end and view.offset < it[1]} <= set(part)


def names(view):
    """What is found of a name in the document has that name. The uses are among the uses and definitions, and one of
    these is at the offset."""
    at = view.position()
    definition, hover = view.ask("definition", position=at), view.ask("hover", position=at)
    uses, found = (
        [
            it["range"]
            for it in view.ask("references", position=at, context={"includeDeclaration": wanted})
            if it["uri"] == view.uri
        ]
        for wanted in (False, True)
    )
    parts = [view.text.part(it) for it in found]
    if None in parts or parts and not any(start <= view.offset <= end for start, end in parts):
        return False
    defined = [definition["range"]] if definition and definition["uri"] == view.uri else []
    texts = {view.text.of(it) for it in [*found, *defined, *([hover["range"]] if hover else [])]}
    return len(texts) <= 1 and None not in texts and all(it in found for it in [*uses, *defined])


def completions(view):
    """No label is blank, and what each replaces is the end of the line's text before the offset. In code there are
    none."""
    found = view.ask("completion", position=view.position())
    if found is None:
        return view.language != "graphql"
    for item in found:
        part = view.text.part(item["textEdit"]["range"])
        if (
            not item["label"].strip()
            or not part
            or part[1] != view.offset
            or view.text.position(part[0])["line"] != view.position()["line"]
        ):
            return False
    return True


def has_no_definitions(text):
    """Whether a text is white space, commas and comments alone."""
    return re.fullmatch(r"(?:[ \t\r\n,\ufeff]|#[^\r\n]*)*", text) is not None


def layout(view):
    """A text in GraphQL gets a layout exactly where it has definitions and no errors; then it still has none, and keeps
    its layout."""
    if view.language != "graphql":
        return view.ask("formatting", options=OPTIONS) is None
    has_errors = errors_of(view.client.open("file:///anew", view.text.text)) != []
    view.client.close("file:///anew")
    edits = view.ask("formatting", options=OPTIONS)
    if has_errors or edits is None:
        return edits is None and has_errors != has_no_definitions(view.text.text)
    errors = errors_of(view.client.open("file:///anew", view.text.changed(edits)))
    again = view.client.ask_about("file:///anew", "formatting", options=OPTIONS)
    view.client.close("file:///anew")
    return errors == again == []


ALL = [symbols, folds, selections, tokens, names, completions, layout]
