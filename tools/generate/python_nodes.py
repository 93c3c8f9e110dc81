"""The typed nodes of the Python package: bindings/python/dumyroke/nodes.py.

There is a class for each kind of node, with a property for each accessor of the typed tree that gives nodes. A node
that is no more than a list also gives its parent a property with its items, as `fields`; where the two names are the
same, that one takes the place of the node. """

import textwrap

from . import typed_docs
from .accessors import accessors
from .grammar import type_case
from .layout import TOP, mark
from .places import ENUMS

FOLDER = TOP / "bindings/python/dumyroke"
SOURCE = "the rows of the grammar"

# The nodes that are lists, with the name of their items for their parents.
LISTS = {
    "SELECTION_SET": "selections",
    "ARGUMENTS": "arguments",
    "DIRECTIVES": "directives",
    "VARIABLE_DEFINITIONS": "variable_definitions",
    "IMPLEMENTS_INTERFACES": "interfaces",
    "FIELDS_DEFINITION": "fields",
    "ARGUMENTS_DEFINITION": "arguments",
    "UNION_MEMBER_TYPES": "types",
    "ENUM_VALUES_DEFINITION": "values",
    "INPUT_FIELDS_DEFINITION": "fields",
    "DIRECTIVE_LOCATIONS": "locations",
}

# The accessors that have another name here: one that avoids a reserved word of Rust, and one that is the standard's.
RENAMED = {"ty": "type", "object_fields": "fields"}

# The enums that have another name here.
CHOICES = {"Ty": "Type"}

# The functions of values.py that give the value of a node, with the type of the value.
VALUES = {
    "INT_VALUE": ("int", "integer"),
    "FLOAT_VALUE": ("float", "floating"),
    "STRING_VALUE": ("str", "string"),
    "BOOLEAN_VALUE": ("bool", "boolean"),
    "ENUM_VALUE": ("str", "name"),
    "DESCRIPTION": ("str", "description"),
}


def rows(names):
    """Names with commas after them, in indented lines."""
    return (
        textwrap.fill(
            "".join(f"{name}, " for name in names).strip(), 110, initial_indent="    ", subsequent_indent="    "
        )
        + "\n"
    )


def choice_name(enum):
    return CHOICES.get(enum, enum)


def type_of(accessor):
    return choice_name(accessor.target)


def kinds_of(accessor):
    """The kinds of the children that an accessor gives, as an expression."""
    if accessor.target in ENUMS:
        return ENUMS[accessor.target].listed.upper()
    return f"({accessor.kinds[0]},)"


def property_text(name, answer, doc, body):
    # the calls that search for a child have no type of their own, so a name with the type has their answer
    lines = f"node: {answer} = {body}\n        return node" if body.startswith("self._first") else f"return {body}"
    return f'''
    @property
    def {name}(self) -> {answer}:
        """{doc}"""
        {lines}
'''


def accessor_text(kind, accessor, grammar):
    """The property of an accessor, and before it the property of the list which it leads to."""
    name = RENAMED.get(accessor.name, accessor.name)
    doc = typed_docs.accessor_doc(kind, accessor).replace("`", "")
    if accessor.gives_all:
        return property_text(name, f"list[{type_of(accessor)}]", doc, f"self._all({kinds_of(accessor)})")
    node = property_text(name, f"{type_of(accessor)} | None", doc, f"self._first({kinds_of(accessor)})")
    if accessor.kinds[0] not in LISTS:
        return node
    listed = list_text(accessor.kinds[0], grammar)
    return listed if name == LISTS[accessor.kinds[0]] else node + listed


def list_text(kind, grammar):
    """The property with the items of a list, for the parents of the list."""
    items = [accessor for accessor in accessors(grammar, kind) if accessor.gives_all]
    if len(items) != 1:
        raise SystemExit(
            f"python_nodes.py: {kind} is in LISTS, and its row has no single accessor that gives all nodes"
        )
    what = typed_docs.SEVERAL.get(kind) or items[0].name.replace("_", " ")
    doc = f"The {what}, in order. There are none if there is no {type_case(kind)} node."
    return property_text(LISTS[kind], f"list[{type_of(items[0])}]", doc, f"self._all_in({kind}, {kinds_of(items[0])})")


def name_text(kind, grammar):
    """The property `name` of a node with a FRAGMENT_NAME, and of a definition that has no name, so that each definition
    has the property."""
    parts = [accessor.name for accessor in accessors(grammar, kind)]
    if "fragment_name" in parts:
        doc = "The name of the fragment. None only if the parse reported errors."
        return property_text("name", "Name | None", doc, "self._first_in(FRAGMENT_NAME, (NAME,))")
    if "name" not in parts and kind in grammar.lists["Definitions"]:
        return property_text("name", "None", "None: a schema has no name.", "None")
    return ""


def type_text(kind, grammar):
    """The property `type` of a node that has one of several types, each of which has an accessor of its own."""
    parts = [
        accessor for accessor in accessors(grammar, kind) if accessor.kinds[0] in grammar.lists[ENUMS["Ty"].listed]
    ]
    if len(parts) < 2:
        return ""
    kinds = ", ".join(accessor.kinds[0] for accessor in parts)
    answer = " | ".join(type_of(accessor) for accessor in parts)
    return property_text(
        "type", f"{answer} | None", "The type. None only if the parse reported errors.", f"self._first(({kinds}))"
    )


def class_text(kind, grammar):
    """The class of a kind."""
    what, *production = grammar.documentation[kind]
    lines = [what.replace("(section", "(GraphQL October 2021, section"), *production]
    doc = "\n".join(f"    {line}" if line else "" for line in lines).strip()
    doc = doc.replace("\\", "\\\\").replace('"""', '\\"\\"\\"')
    end = "\n    " if len(lines) > 1 else ""
    body = "".join(accessor_text(kind, one, grammar) for one in accessors(grammar, kind) if one.target is not None)
    body += name_text(kind, grammar) + type_text(kind, grammar)
    if kind in VALUES:
        answer, function = VALUES[kind]
        body += property_text(
            "value",
            f"{answer} | None",
            "Its value. None only if the parse reported errors.",
            f"values.{function}(self)",
        )
    return f'''

class {type_case(kind)}(Node, kind="{kind}"):
    """{doc}{end}"""

    __slots__ = ()
{body}'''


def choices_text(grammar):
    """The kinds of each choice, and after the classes its type."""
    kinds = "".join(
        f"{choice.listed.upper()} = (\n{rows(grammar.lists[choice.listed])})\n" for choice in ENUMS.values()
    )
    types = ""
    for enum, choice in ENUMS.items():
        members = "".join(f"    {type_case(kind)},\n" for kind in grammar.lists[choice.listed])
        number, title = choice.section
        types += (
            f'\n{choice_name(enum)} = Union[\n{members}]\n"""{choice.what} (GraphQL October 2021, section {number},'
            f' "{title}")."""\n'
        )
    return kinds, types


def nodes_text(grammar):
    """nodes.py: the classes."""
    kinds, types = choices_text(grammar)
    classes = "".join(class_text(kind, grammar) for kind in grammar.nodes)
    used = [
        kind
        for kind in grammar.kinds
        if f"({kind}," in classes or any(kind in grammar.lists[choice.listed] for choice in ENUMS.values())
    ]
    return f'''{mark("#", SOURCE)}"""A class for each kind of node. A property gives a part of the node, which may be missing in a faulty text.

The children that are tokens have no properties: `child("COLON")` gives one. Where a property gives what is in a list, as `arguments` does, the node of
the list itself is `child(nodes.Arguments)`.
"""

from __future__ import annotations

from typing import Union

from . import values
from .kinds import (
{rows(used)})
from .tree import Node

{kinds}{classes}
{types}'''


def outputs(grammar):
    """The text of each file, by its path."""
    for kind in (*LISTS, *VALUES):
        if kind not in grammar.nodes:
            raise SystemExit(f"python_nodes.py: {kind} is no kind of node")
    return {FOLDER / "nodes.py": nodes_text(grammar)}
