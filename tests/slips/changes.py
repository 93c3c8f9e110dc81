"""Slips: changes of one document as people make them by mistake.

`SORTS` has the name of each sort with a function, which takes dice and a document. It gives the replacements that make
up one slip, each with its start, its end and the new text. It raises NoPlace where the document has no place for one.
"""

from dataclasses import dataclass

from graphql import Node, TypeInfo, TypeInfoVisitor, Visitor, parse, visit
from graphql.language import (
    ArgumentNode,
    BooleanValueNode,
    DirectiveNode,
    EnumValueNode,
    FieldNode,
    FloatValueNode,
    FragmentDefinitionNode,
    FragmentSpreadNode,
    InlineFragmentNode,
    IntValueNode,
    ListValueNode,
    NamedTypeNode,
    NonNullTypeNode,
    ObjectFieldNode,
    OperationDefinitionNode,
    StringValueNode,
    VariableDefinitionNode,
    VariableNode,
)
from graphql.type import (
    is_composite_type,
    is_input_type,
    is_interface_type,
    is_leaf_type,
    is_non_null_type,
    is_object_type,
)
from graphql.type import get_named_type as named

from project import USES


class NoPlace(Exception):
    pass


@dataclass
class Site:
    """A node with the nodes around it, the outermost first."""

    node: Node
    around: list
    # the type of a field, and the type that a value should have, by the schema
    type: object
    input_type: object


class Sites(Visitor):
    def __init__(self, info):
        super().__init__()
        self.info, self.found = info, []

    def enter(self, node, key, parent, path, ancestors):
        around = [it for it in ancestors if isinstance(it, Node)]
        self.found.append(Site(node, around, self.info.get_type(), self.info.get_input_type()))


class Document:
    """A document with operations or fragments, and the schema that it is written by."""

    def __init__(self, schema, text):
        self.schema, self.text = schema, text
        info = TypeInfo(schema)
        visitor = Sites(info)
        self.tree = parse(text)
        visit(self.tree, TypeInfoVisitor(info, visitor))
        self.sites = visitor.found

    def choose(self, dice, kinds, fits=lambda site: True):
        """A site whose node is of one of these kinds, and that fits."""
        fitting = [site for site in self.sites if isinstance(site.node, kinds) and fits(site)]
        if not fitting:
            raise NoPlace
        return dice.choice(fitting)

    def source(self, node):
        return self.text[node.loc.start : node.loc.end]


def replaced(node, text):
    return [(node.loc.start, node.loc.end, text)]


def inserted(at, text):
    return [(at, at, text)]


def without(document, node, others):
    """Takes a node out of a list in parentheses, with these when it is the only one."""
    start, end = node.loc.start, node.loc.end
    if len(others) == 1:
        start, end = document.text.rindex("(", 0, start), document.text.index(")", end) + 1
    return [(start, end, "")]


def place_of_directive(node):
    """The offset where a directive of this node may be: before its selections, or at its end."""
    below = getattr(node, "selection_set", None)
    return below.loc.start if below else node.loc.end


# ---- names


def misspelled(dice, name):
    """The name with one letter lost, doubled, or swapped with the next one."""
    at = dice.randrange(len(name) - 1)
    lost, doubled = name[:at] + name[at + 1 :], name[:at] + name[at] + name[at:]
    swapped = name[:at] + name[at + 1] + name[at] + name[at + 2 :]
    return dice.choice([lost, doubled, swapped])


def letter_in_name(*kinds):
    def slip(dice, document):
        name = document.choose(dice, kinds, lambda site: len(site.node.name.value) > 1).node.name
        return replaced(name, misspelled(dice, name.value))

    return slip


def letter_in_enum_value(dice, document):
    node = document.choose(dice, EnumValueNode).node
    return replaced(node, misspelled(dice, node.value))


# ---- fields and selections


def field_of_another_type(dice, document):
    types = [it for it in document.schema.type_map.values() if is_object_type(it) or is_interface_type(it)]
    node = document.choose(dice, FieldNode).node
    return replaced(node.name, dice.choice(list(dice.choice(types).fields)))


def selections_forgotten(dice, document):
    return replaced(document.choose(dice, FieldNode, lambda site: site.node.selection_set).node.selection_set, "")


def selections_added(dice, document):
    site = document.choose(dice, FieldNode, lambda site: is_leaf_type(named(site.type)))
    return inserted(site.node.loc.end, " { id }")


def selection_forgotten(dice, document):
    kinds = FieldNode, FragmentSpreadNode, InlineFragmentNode
    return replaced(document.choose(dice, kinds, lambda site: len(site.around[-1].selections) > 1).node, "")


def wrong_condition(dice, document):
    node = document.choose(dice, (InlineFragmentNode, FragmentDefinitionNode)).node
    types = [it.name for it in document.schema.type_map.values() if is_composite_type(it) or dice.random() < 0.1]
    return replaced(node.type_condition, dice.choice(types))


# ---- arguments, input fields and values


def another_value(other, *kinds):
    """Writes the value of an argument or an input field in another way, one of these kinds or any one."""

    def slip(dice, document):
        owners = ArgumentNode, ObjectFieldNode
        value = document.choose(dice, owners, lambda site: isinstance(site.node.value, kinds or Node)).node.value
        return replaced(value, other(document.source(value)))

    return slip


def argument_left_out(dice, document):
    site = document.choose(dice, ArgumentNode)
    return without(document, site.node, site.around[-1].arguments)


def argument_moved(dice, document):
    site = document.choose(dice, ArgumentNode, lambda site: isinstance(site.around[-1], FieldNode))
    field, moved = site.around[-1], document.source(site.node)
    other = document.choose(dice, FieldNode, lambda site: site.node is not field).node
    if other.arguments:
        new = inserted(other.arguments[0].loc.start, f"{moved}, ")
    else:
        new = inserted(other.name.loc.end, f"({moved})")
    return without(document, site.node, field.arguments) + new


def input_field_left_out(dice, document):
    return replaced(document.choose(dice, ObjectFieldNode, lambda site: is_non_null_type(site.input_type)).node, "")


def one_for_a_list(dice, document):
    node = document.choose(dice, ListValueNode, lambda site: site.node.values).node
    return replaced(node, document.source(node.values[0]))


# ---- variables


def variable_of_another_type(dice, document):
    types = [it.name for it in document.schema.type_map.values() if is_input_type(it)]
    new = dice.choice(dice.choice([types, ["Int", "Float", "String", "Boolean", "ID"]]))
    node = document.choose(dice, VariableDefinitionNode).node
    named_type = document.choose(dice, NamedTypeNode, lambda site: node in site.around).node
    whole = document.source(node.type)
    return dice.choice([replaced(named_type, new), replaced(node.type, new), replaced(node.type, f"[{whole}]")])


def nullable_variable(dice, document):
    kinds = VariableDefinitionNode
    end = document.choose(dice, kinds, lambda site: isinstance(site.node.type, NonNullTypeNode)).node.type.loc.end
    return [(end - 1, end, "")]


def variable_not_declared(dice, document):
    site = document.choose(dice, VariableDefinitionNode)
    return without(document, site.node, site.around[-1].variable_definitions)


def variable_not_used(dice, document):
    new = dice.choice([", $limit: Int", ", $cursor: String", ", $withOwner: Boolean!"])
    return inserted(document.choose(dice, VariableDefinitionNode).node.loc.end, new)


# ---- directives


def directive_at_a_wrong_place(dice, document):
    node = document.choose(dice, tuple(LOCATIONS)).node
    names = [use.split("(")[0] for use in USES[LOCATIONS[type(node)](node)]]
    others = [use for uses in USES.values() for use in uses if use.split("(")[0] not in names]
    return inserted(place_of_directive(node), f" {dice.choice([*others, '@deprecated'])} ")


def directive_twice(dice, document):
    node = document.choose(dice, DirectiveNode).node
    return inserted(node.loc.end, f" {document.source(node)}")


LOCATIONS = {
    OperationDefinitionNode: lambda node: node.operation.name,
    VariableDefinitionNode: lambda node: "VARIABLE_DEFINITION",
    FieldNode: lambda node: "FIELD",
    FragmentSpreadNode: lambda node: "FRAGMENT_SPREAD",
    InlineFragmentNode: lambda node: "INLINE_FRAGMENT",
    FragmentDefinitionNode: lambda node: "FRAGMENT_DEFINITION",
}

# ---- fragments


def fragment_not_there(dice, document):
    node = document.choose(dice, FieldNode).node
    return inserted(node.loc.end, f" ...{node.name.value}{dice.choice(['Fields', 'Parts'])}")


def fragment_taken_out(dice, document):
    return replaced(document.choose(dice, FragmentDefinitionNode).node, "")


def fragment_not_used(dice, document):
    types = [it.name for it in document.schema.type_map.values() if is_object_type(it) and "id" in it.fields]
    name = dice.choice(types)
    return inserted(len(document.text), f"\nfragment {name}Fields on {name} {{ id }}\n")


SORTS = {
    "a letter in a field's name": letter_in_name(FieldNode),
    "a letter in an argument's name": letter_in_name(ArgumentNode),
    "a letter in a type's name": letter_in_name(NamedTypeNode),
    "a letter in an enum value's name": letter_in_enum_value,
    "a letter in a fragment's name": letter_in_name(FragmentSpreadNode, FragmentDefinitionNode),
    "a letter in a variable's name": letter_in_name(VariableNode),
    "a letter in a directive's name": letter_in_name(DirectiveNode),
    "a letter in an input field's name": letter_in_name(ObjectFieldNode),
    "a field of another type": field_of_another_type,
    "selections forgotten below a field": selections_forgotten,
    "selections added below a field": selections_added,
    "a selection forgotten": selection_forgotten,
    "a wrong condition": wrong_condition,
    "an argument left out": argument_left_out,
    "an argument moved to another field": argument_moved,
    "an input field left out": input_field_left_out,
    "a number as a string": another_value(lambda text: f'"{text}"', IntValueNode, FloatValueNode),
    "an enum value as a string": another_value(lambda text: f'"{text}"', EnumValueNode),
    "a Boolean as a string": another_value(lambda text: f'"{text}"', BooleanValueNode),
    "a number for a string": another_value(lambda text: "7", StringValueNode),
    "null for a value": another_value(lambda text: "null"),
    "a list for one": another_value(lambda text: f"[{text}]"),
    "one for a list": one_for_a_list,
    "a variable of another type": variable_of_another_type,
    "a nullable variable": nullable_variable,
    "a variable not declared": variable_not_declared,
    "a variable not used": variable_not_used,
    "a directive at a wrong place": directive_at_a_wrong_place,
    "a directive twice": directive_twice,
    "a fragment that is not there": fragment_not_there,
    "a fragment taken out": fragment_taken_out,
    "a fragment not used": fragment_not_used,
}


def slipped(dice, sort, document):
    """The text of a document after a slip of a sort. Raises NoPlace where it has no place for one."""
    text = document.text
    for start, end, new in sorted(SORTS[sort](dice, document), reverse=True):
        text = text[:start] + new + text[end:]
    if text == document.text:
        raise NoPlace
    return text
