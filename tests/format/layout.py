"""A second printer, for texts without comments, over graphql-core's tree. It reads its rules in the two tables of
docs/FORMAT.md. Here are groups, blank lines, strings, and what is between two definitions. The trial compares gqlfmt
with it.

A document of the printer is a string, a list of documents, or a tuple: ("end", count) is that number of line ends;
("either", flat, broken) is the text `flat`, or the document `broken` where the group around it breaks; ("indent",
document); ("group", document, breaks)."""

import re
import unicodedata
from pathlib import Path

from graphql import parse

PAGE = Path(__file__).resolve().parent.parent.parent / "docs/FORMAT.md"
WIDTH = 80
BLANK_LINE = re.compile(r"(\r\n|\n|\r(?!\n))[ \t\ufeff]*[\r\n]")
LINE_END = re.compile(r"[\n\r]")
END = ("end", 1)
# Parts of the standard's productions that graphql-core names otherwise.
ATTRIBUTES = {
    "OperationType": "operation", "NamedType": "type", "EnumValue": "name", "ArgumentsDefinition": "arguments",
    "ImplementsInterfaces": "interfaces", "FieldsDefinition": "fields", "InputFieldsDefinition": "fields",
    "EnumValuesDefinition": "values", "UnionMemberTypes": "types", "DirectiveLocations": "locations",
    "RootOperationTypeDefinitions": "operation_types",
}
# And constructs.
CONSTRUCTS = {"operation_type_definition": "RootOperationTypeDefinition"}


def rows(head):
    """The rows of a table of the page: each the names in its first cell, and the other cells."""
    lines = PAGE.read_text().partition(f"\n| {head} |")[2].splitlines()[2:]
    for line in lines[: lines.index("")]:
        names, *cells = [cell.replace("\\|", "|") for cell in re.split(r" (?<!\\)\| ?", line[2:])[:-1]]
        yield names.split(", "), [cell.strip("`") for cell in cells]


def ended(text):
    """A text of the page as a document."""
    first, *others = text.split("⏎")
    return [first, *([END, other] for other in others)]


def broken(text, count=1):
    """What is written for a text of the page with a line end where a group breaks: its end that many times."""
    before, _, after = text.partition("⏎")
    return [before, ("end", count), after.lstrip(" ")]


class Items:
    """The layout of some items: a row of the second table."""

    def __init__(self, flat, wide, blank):
        words = re.compile(r"(.*)\ba\b(.*)\bb\b(.*)")
        self.flat, self.wide = ([*re.fullmatch(words, it).groups()] if it != "never" else None for it in (flat, wide))
        self.is_indented = self.wide and "⏎  " in self.wide[0]
        self.keeps_blanks = blank == "stays"

    def part(self, number, count=1):
        """What is before the first item, between two, or after the last."""
        if not self.wide:
            return self.flat[number]
        wide = broken(self.wide[number], count) if "⏎" in self.wide[number] else self.wide[number]
        return ("either", self.flat[number], wide) if self.flat else wide

    def of(self, printed, counts):
        """The document of the items, with that number of line ends between each two neighbours."""
        if not printed:
            return (self.flat[0] + self.flat[2]).replace(" ", "")
        counts = counts if self.keeps_blanks else [1] * len(counts)
        pairs = zip(counts, printed[1:])
        doc = [self.part(0), printed[0], *(part for count, it in pairs for part in (self.part(1, count), it))]
        doc = [("indent", doc) if self.is_indented else doc, self.part(2)]
        return group(*doc) if self.flat and self.wide else doc


FORMS = {name: layout for names, [layout] in rows("Construct") for name in names}
ITEMS = {name: Items(*cells) for names, cells in rows("Items") for name in names}


def ends_line(doc):
    """Whether a line always ends in a document."""
    if isinstance(doc, list):
        return any(map(ends_line, doc))
    kind = "text" if isinstance(doc, str) else doc[0]
    return kind == "end" or (kind == "group" and doc[2]) or (kind == "indent" and ends_line(doc[1]))


def group(*parts):
    return ("group", list(parts), ends_line(list(parts)))


def columns(text):
    return sum(0 if unicodedata.combining(c) else 2 if unicodedata.east_asian_width(c) in "WF" else 1 for c in text)


def fits(doc, rest, width):
    """Whether a document in one line has room, and the rest up to where a line may end."""
    todo = [(is_broken, part) for _, is_broken, part in rest] + [(False, doc)]
    while todo and width >= 0:
        is_broken, doc = todo.pop()
        if isinstance(doc, str):
            width -= columns(doc)
        elif isinstance(doc, list):
            todo += [(is_broken, part) for part in reversed(doc)]
        elif doc[0] == "end":
            return True
        elif doc[0] == "either":
            todo.append((is_broken, doc[2] if is_broken else doc[1]))
        else:
            todo.append((is_broken or (doc[0] == "group" and doc[2]), doc[1]))
    return width >= 0


def printed(doc):
    """The text of a document."""
    text, indent_to_come, column, todo = "", "", 0, [(0, True, doc)]
    while todo:
        spaces, is_broken, doc = todo.pop()
        if isinstance(doc, str):
            if doc:
                text, indent_to_come, column = text + indent_to_come + doc, "", column + columns(doc)
        elif isinstance(doc, list):
            todo += [(spaces, is_broken, part) for part in reversed(doc)]
        elif doc[0] == "end":
            # an empty line has no indent
            text, indent_to_come, column = text + "\n" * doc[1], " " * spaces, spaces
        elif doc[0] == "either":
            todo.append((spaces, is_broken, doc[2] if is_broken else doc[1]))
        elif doc[0] == "indent":
            todo.append((spaces + 2, is_broken, doc[1]))
        else:
            todo.append((spaces, doc[2] or (is_broken and not fits(doc[1], todo, WIDTH - column)), doc[1]))
    return text


def snake(name):
    return re.sub(r"(?<!^)(?=[A-Z])", "_", name).lower()


def camel(kind):
    return "".join(word.capitalize() for word in kind.split("_"))


class Layout:
    """The layout of the nodes of a text."""

    def __init__(self, text):
        self.text = text

    def of(self, node):
        special = getattr(self, node.kind, None)
        return special(node) if special else self.construct(node)

    def construct(self, node):
        """By the first table."""
        kind, extend = node.kind, ""
        if kind.endswith("_extension"):
            kind, extend = kind.replace("_extension", "_definition"), "extend "
        name = CONSTRUCTS.get(kind, camel(kind))
        if name == "OperationDefinition" and self.begins(node.loc.start_token, "{"):
            name += " in its short form"
        elif name == "OperationDefinition" and not node.name:
            name += " without a name"
        texts, parts = re.split(r"\{.*?\}", FORMS[name]), re.findall(r"\{(.*?)\}", FORMS[name])
        return [extend, texts[0], *([self.part(node, part), text] for part, text in zip(parts, texts[1:]))]

    def part(self, node, words):
        """What is in braces of a row: the part of a node, with the text around it, or nothing where it lacks it."""
        match = re.search(r"[A-Z]\w*", words)
        if not match:
            return words if getattr(node, words.strip()) else ""
        child = getattr(node, ATTRIBUTES.get(match[0], snake(match[0])), None)
        if not child:
            return ""
        doc = self.items(node, match[0], child) if match[0] in ITEMS else self.child(child)
        return [ended(words[: match.start()]), doc, ended(words[match.end() :])]

    def child(self, child):
        return self.of(child) if hasattr(child, "kind") else child.value

    def items(self, node, name, nodes):
        """By the second table."""
        row = ITEMS.get(f"{name} of {camel(node.kind)}", ITEMS[name])
        nodes = nodes if isinstance(nodes, (list, tuple)) else nodes.selections
        printed = [*map(self.of, nodes)]
        if name == "ImplementsInterfaces" and node.name.value == "implements":
            # after a type of this name the sign stays
            printed[0] = ["& " if self.begins(nodes[0].loc.start_token.prev, "&") else "", printed[0]]
        return row.of(printed, [self.blank(left, right) for left, right in zip(nodes, nodes[1:])])

    def begins(self, token, sign):
        """Whether the sign is the token."""
        return self.text[token.start : token.end] == sign

    def blank(self, left, right):
        """Two where a blank line is between two nodes, and else one."""
        return 2 if BLANK_LINE.search(self.text[left.loc.end : right.loc.start]) else 1

    def document(self, node):
        def between(left, right):
            gap = self.text[left.loc.end : right.loc.start]
            has_braces = "}" in (self.text[left.loc.end - 1], self.text[right.loc.end - 1])
            return 2 if BLANK_LINE.search(gap) or (has_braces and not LINE_END.search(gap)) else 1

        first, *others = node.definitions
        pairs = zip(node.definitions, others)
        return [self.of(first), *([("end", between(left, right)), self.of(right)] for left, right in pairs), END]

    def name(self, node):
        return node.value

    def written(self, node):
        return self.text[node.loc.start : node.loc.end]

    int_value = float_value = boolean_value = null_value = enum_value = written

    def string_value(self, node):
        words = self.written(node)
        begins_white = node.value[:1] in (" ", "\t") and "\n" not in node.value
        if not node.block or (begins_white and not LINE_END.search(words)):
            return words
        lines = [part.replace('"""', '\\"""') for part in node.value.split("\n")] if node.value else []
        first = lines.pop(0) if begins_white else ""
        return ['"""', first, [[END, part] for part in lines], END, '"""']

    def list_value(self, node):
        return self.items(node, "ListValue", node.values)

    def object_value(self, node):
        return self.items(node, "ObjectValue", node.fields)


def laid_out(text):
    """The layout of a text without comments and without errors."""
    return printed(Layout(text).of(parse(text)))
