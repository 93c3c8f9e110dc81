"""The words of the documentation of the typed nodes: what parts are called, and when an accessor gives none.

What a node is, its section and its production are in the documentation of its kind, in document_grammar/src/kind.rt.
"""

import re

from .grammar import PUNCTUATORS, type_case
from .places import ENUMS

# Which call gives the value of a node. The words of a node's own documentation are those of its kind.
VALUES = {
    "STRING_VALUE": "`to_string_in` gives the value.",
    "INT_VALUE": "`i32::try_from` gives the value.",
    "BOOLEAN_VALUE": "`bool::try_from` gives the value.",
}

# What a part is called when it is at most one child. When no words are given, they are the kind's, as "default value".
PARTS = {
    "FRAGMENT_NAME": "name of the fragment",
    "IMPLEMENTS_INTERFACES": "interfaces that it implements",
    "FIELDS_DEFINITION": "definitions of its fields",
    "INPUT_FIELDS_DEFINITION": "definitions of its fields",
    "ARGUMENTS_DEFINITION": "definitions of its arguments",
    "ENUM_VALUES_DEFINITION": "definitions of its values",
    "UNION_MEMBER_TYPES": "member types",
    "DIRECTIVE_LOCATIONS": "locations",
    "STRING_VALUE": "string",
    "Value": "value",
    "Ty": "type",
}

# What the children are called when there may be several, by the kind of their parent. When no words are given, they are
# the accessor's.
SEVERAL = {
    "OBJECT_VALUE": "fields",
    "VARIABLE_DEFINITIONS": "definitions of the variables",
    "SCHEMA_DEFINITION": "types of the root operations",
    "SCHEMA_EXTENSION": "types of the root operations",
    "IMPLEMENTS_INTERFACES": "interfaces",
    "FIELDS_DEFINITION": "definitions of the fields",
    "ARGUMENTS_DEFINITION": "definitions of the arguments",
    "UNION_MEMBER_TYPES": "member types",
    "ENUM_VALUES_DEFINITION": "definitions of the values",
    "INPUT_FIELDS_DEFINITION": "definitions of the fields",
    "DIRECTIVE_LOCATIONS": "locations",
}

# The accessors that the rule of `accessor_doc` does not describe well.
BRACES = "`None` only if the parse reported errors, or read a selection set alone that has no braces."
SPECIAL = {
    ("SELECTION_SET", "L_CURLY"): f"The `{{`. {BRACES}",
    ("SELECTION_SET", "R_CURLY"): f"The `}}`. {BRACES}",
    (
        "OPERATION_DEFINITION",
        "OPERATION_TYPE",
    ): "The operation type, or `None` when the query is a selection set alone.",
    ("NON_NULL_TYPE", "NAMED_TYPE"): "The named type, or `None` when it is a list type.",
    ("NON_NULL_TYPE", "LIST_TYPE"): "The list type, or `None` when it is a named type.",
}

NEVER = "only if the parse reported errors"


def doc(lines, indent=""):
    return "".join(f"{indent}/// {line}\n" if line else f"{indent}///\n" for line in lines)


def struct_doc(grammar, kind):
    """The documentation of a struct: its kind's, which names the section without the standard."""
    what, *production = grammar.documentation[kind]
    value = ["", VALUES[kind]] if kind in VALUES else []
    return doc([what.replace("(section", "(GraphQL October 2021, section"), *production, *value])


def enum_doc(grammar, enum):
    """The documentation of an enum."""
    choice = ENUMS[enum]
    number, title = choice.section
    forms = choice.forms or [form(grammar, kind) for kind in grammar.lists[choice.listed]]
    head = f'{choice.what} (GraphQL October 2021, section {number}, "{title}").'
    return doc([head, "", f"*{choice.production}*:"] + [f"- {one}" for one in forms])


def form(grammar, kind):
    """A kind as one form of a production. A constant place has no variable; what has a parameter itself gets the
    production's."""
    name = type_case(kind)
    if kind == "VARIABLE":
        return f"[if not Const] {name}"
    has_parameter = any(line.startswith(f"*{name}[Const]*") for line in grammar.documentation[kind])
    return f"{name}[?Const]" if has_parameter else name


def leaf_name(kind):
    """A leaf as it is spelled, or what it is."""
    if kind in PUNCTUATORS:
        return f"`{PUNCTUATORS[kind]}`"
    if kind.endswith("_KW"):
        return f"keyword `{kind.removesuffix('_KW')}`"
    return {"IDENT": "word of the name", "STRING": "string, with its quotes"}.get(kind, "number")


def is_plural(what):
    """Whether the name of a part is plural, by its noun: definitions of its fields."""
    noun = re.split(" of | that ", what)[0]
    return noun.endswith("s") and noun != "alias"


def accessor_doc(parent, accessor):
    """Which part an accessor gives, and when it gives none."""
    kind, number = accessor.kinds[0], accessor.number
    if (parent, kind) in SPECIAL:
        return SPECIAL[parent, kind]
    if accessor.gives_all:
        least = f" There are none {NEVER}." if number == "at_least_one" else ""
        children = SEVERAL.get(parent) or accessor.name.replace("_", " ")
        return f"The {children}, in order.{least}"
    if accessor.target is None:
        what = leaf_name(kind)
    else:
        what = PARTS.get(accessor.target) or PARTS.get(kind) or kind.lower().replace("_", " ")
    if number == "exactly_one":
        return f"The {what}. `None` {NEVER}."
    if accessor.is_choice:
        return f"The {what}, or `None` when it is another one."
    first = "first " if number == "any_number" else ""
    are = "are" if is_plural(what) else "is"
    return f"The {first}{what}, or `None` when there {are} none."
