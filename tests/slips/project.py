"""A project as a team of a shop may have it: a schema of 460 types in five files, fragments in files of their own, and
40 operations. `texts(dice)` makes it. All choices are those of the dice, so one seed means one project."""

import re

from graphql import build_schema, parse, print_ast
from graphql.type import (
    is_abstract_type,
    is_enum_type,
    is_input_object_type,
    is_leaf_type,
    is_list_type,
    is_non_null_type,
    is_required_input_field,
    is_scalar_type,
    is_union_type,
)
from graphql.type import get_named_type as named

# Each is an object, with eight types more that are about it.
THINGS = """
    Account Address Album Answer Article Author Badge Basket Branch Budget Calendar Category Channel Comment Company
    Contract Country Course Customer Delivery Device Discount Document Employee Event Folder Group Holiday Invoice Issue
    Label Lesson Machine Member Message Order Package Payment Person Picture Product Project Refund Report Review
    Session Supplier Ticket Vehicle Warehouse
""".split()
OPERATIONS = 40
STATES = "OPEN CLOSED PENDING ARCHIVED DRAFT BLOCKED EXPIRED SHIPPED REJECTED ACCEPTED".split()
LEAVES = [
    "title: String!", "count: Int!", "weight: Float", "isActive: Boolean!", "createdAt: DateTime!", "code: ID",
    "notes: [String!]", "ranks: [[Int!]!]", 'price(currency: String = "EUR"): Money', "share(of: Float!): Float",
    "summary(length: Int = 80, plain: Boolean): String", 'size(unit: String!, round: Boolean! = true): Float',
]
FILTERS = [
    "name: String", "ids: [ID!]", "least: Int", "most: Float", "isActive: Boolean", "since: DateTime",
    "words: [String!]", "nearby: [[Float!]!]",
]
INPUTS = [
    "count: Int!", "weight: Float = 1.5", "code: ID!", "isActive: Boolean! = true", "tags: [String!]! = []",
    "sizes: [Int!]!", "price: Money", "dueAt: DateTime!",
]
ROOT = """
interface Node { id: ID! }
interface Named { name: String! }
scalar DateTime
scalar Money
type PageInfo { hasNextPage: Boolean!, endCursor: String }
directive @cached(seconds: Int! = 60, scope: String) on QUERY | FIELD
directive @client on FIELD | FRAGMENT_SPREAD
directive @label(name: String!) repeatable on FIELD | INLINE_FRAGMENT | FRAGMENT_SPREAD
directive @live(every: Int!) on QUERY | SUBSCRIPTION
directive @audit(level: Int!, by: ID) on MUTATION
directive @mask on FRAGMENT_SPREAD | FRAGMENT_DEFINITION
directive @private on VARIABLE_DEFINITION
type Query { node(id: ID!): Node, owner(of: ID!): Owner, search(text: String!, first: Int = 10): [SearchResult!]! }
type Mutation { touch(id: ID!): Node }
type Subscription { touched(ids: [ID!]!): Node }
"""
# How each directive is used, with its place in an operation and in other definitions.
USES = {
    "QUERY": ["@cached(seconds: 5)", "@live(every: 30)"],
    "MUTATION": ["@audit(level: 2)"],
    "SUBSCRIPTION": ["@live(every: 30)"],
    "VARIABLE_DEFINITION": ["@private"],
    "FIELD": ["@include(if: true)", "@skip(if: false)", "@client", "@cached", '@label(name: "first")'],
    "FRAGMENT_SPREAD": ["@include(if: true)", "@mask", "@client", '@label(name: "second")'],
    "INLINE_FRAGMENT": ["@skip(if: false)", '@label(name: "third")'],
    "FRAGMENT_DEFINITION": ["@mask"],
}
LITERALS = {
    "Int": ["1", "20", "-7"],
    "Float": ["2", "0.5", "1e3"],
    "String": ['"red"', '"on the way"', '"A"'],
    "Boolean": ["true", "false"],
    "ID": ["7", '"a1"'],
    "DateTime": ['"2026-01-31"'],
    "Money": ['"9.50 EUR"', "9.5"],
}


def lower(name):
    return name[0].lower() + name[1:]


def upper(name):
    return name[0].upper() + name[1:]


def plural(name):
    return f"{lower(name)[:-1]}ies" if re.search("[^aeiou]y$", name) else f"{lower(name)}s"


# ---- the schema


def types_of(dice, thing):
    """The definitions about a thing, by the file that has them."""
    first, second, third, fourth = dice.sample([it for it in THINGS if it != thing], 4)
    states = dice.sample(STATES, 5)
    page = "first: Int = 10, after: String"
    return {
        "objects": f"""
type {thing} implements Node & Named {{
  id: ID!, name: String!, state: {thing}State!, {", ".join(dice.sample(LEAVES, 5))}
  {lower(first)}: {first}, {lower(second)}(at: DateTime, state: {second}State): {second}!
}}
type {thing}Payload {{ {lower(thing)}: {thing}, errors: [String!]!, state: {thing}State }}
extend type Query {{
  {lower(thing)}(id: ID!): {thing}
  {plural(thing)}({page}, filter: {thing}Filter, sort: [{thing}Sort!] = [NAME]): {thing}Connection!
}}
extend type Mutation {{
  create{thing}(input: Create{thing}Input!): {thing}Payload
  update{thing}(id: ID!, input: Update{thing}Input!, notify: Boolean! = false): {thing}Payload
}}
extend type Subscription {{ {lower(thing)}Changed(id: ID!, states: [{thing}State!]): {thing} }}
""",
        "connections": f"""
type {thing}Connection {{ edges: [{thing}Edge!]!, nodes: [{thing}]!, pageInfo: PageInfo!, totalCount: Int! }}
type {thing}Edge {{ cursor: String!, node: {thing} }}
extend type {thing} {{
  owner: Owner
  {plural(third)}({page}, filter: {third}Filter, sort: [{third}Sort!]): {third}Connection!
  related(states: [{thing}State!]! = [{states[0]}], most: Int): [SearchResult!]!
}}
""",
        "inputs": f"""
input {thing}Filter {{
  states: [{thing}State!], all: [{thing}Filter!], none: {thing}Filter, {", ".join(dice.sample(FILTERS, 4))}
}}
extend input {thing}Filter {{ {lower(fourth)}: {fourth}Filter }}
input Create{thing}Input {{
  name: String!, state: {thing}State!, {", ".join(dice.sample(INPUTS, 4))}, {lower(fourth)}: Create{fourth}Input
}}
input Update{thing}Input {{ name: String, state: {thing}State = {states[1]}, where: {thing}Filter! }}
""",
        "enums": f"""
enum {thing}State {{ {" ".join(states[:4])} }}
extend enum {thing}State {{ {states[4]} }}
enum {thing}Sort {{ NAME {" ".join(dice.sample(["CREATED_AT", "COUNT", "WEIGHT", "PRICE", "STATE"], 2))} }}
""",
    }


def schema_texts(dice):
    """The five files of the schema, by their names."""
    found = {name: [] for name in ("root", "objects", "connections", "inputs", "enums")}
    found["root"] = [ROOT, f"union Owner = {' | '.join(dice.sample(THINGS, 3))}"]
    found["root"] += [f"union SearchResult = {' | '.join(dice.sample(THINGS[:25], 4))}"]
    found["connections"] = [f"extend union SearchResult = {' | '.join(dice.sample(THINGS[25:], 2))}"]
    for thing in THINGS:
        for name, text in types_of(dice, thing).items():
            found[name].append(text)
    return {f"schema/{name}.graphql": laid_out("\n".join(parts)) for name, parts in found.items()}


def laid_out(text):
    return print_ast(parse(text)) + "\n"


# ---- operations and fragments


class Writer:
    """Writes one operation or fragment. It keeps the definitions of its variables, and the types whose fragments it
    spreads: those of `fragments`, and of each type at least the first time. Names of variables begin with `prefix`."""

    def __init__(self, dice, schema, fragments, most_variables, prefix=""):
        self.dice, self.schema, self.fragments = dice, schema, list(fragments)
        self.most_variables, self.prefix = most_variables, prefix
        self.variables, self.spread = {}, []

    def use(self, location):
        return f" {self.dice.choice(USES[location])}" if self.dice.random() < 0.07 else ""

    def variable(self, of, name):
        """A new variable where a value of this type is wanted."""
        name = lower(f"{self.prefix}{upper(name)}")
        if name in self.variables:
            name += str(len(self.variables) + 1)
        wanted, default = str(of), ""
        if self.dice.random() < 0.3 and not is_input_object_type(named(of)):
            wanted = wanted.rstrip("!")
            default = f" = {self.literal(of, name, True)}"
        elif self.dice.random() < 0.3:
            wanted = wanted.rstrip("!") + "!"
        self.variables[name] = f"${name}: {wanted}{default}{self.use('VARIABLE_DEFINITION')}"
        return f"${name}"

    def value(self, of, name, is_const=False, depth=0):
        """A value of a type, for an argument or an input field with this name."""
        if not is_const and len(self.variables) < self.most_variables and self.dice.random() < 0.3:
            return self.variable(of, name)
        return self.literal(of, name, is_const, depth)

    def literal(self, of, name, is_const, depth=0):
        if is_non_null_type(of):
            return self.literal(of.of_type, name, is_const, depth)
        if is_list_type(of):
            count = self.dice.randint(1, 2)
            return f"[{', '.join(self.value(of.of_type, name, is_const, depth + 1) for _ in range(count))}]"
        if is_enum_type(of):
            return self.dice.choice(list(of.values))
        if is_input_object_type(of):
            return f"{{{self.given(of.fields, is_const, depth + 1)}}}"
        return self.dice.choice(LITERALS[of.name])

    def given(self, wanted, is_const=False, depth=0):
        """Values for some arguments or input fields: for one at least, and for all that are required."""
        required = [it for it in wanted if is_required_input_field(wanted[it])]
        others = [it for it in wanted if it not in required]
        if depth == 3:
            others = [it for it in others if not is_input_object_type(named(wanted[it].type))]
        chosen = required + self.dice.sample(others, min(len(others), self.dice.randint(0 if required else 1, 2)))
        return ", ".join(f"{it}: {self.value(wanted[it].type, it, is_const, depth)}" for it in chosen)

    def arguments(self, field):
        has_some = any(map(is_required_input_field, field.args.values())) or self.dice.random() < 0.6
        given = self.given(field.args) if has_some and field.args else ""
        return f"({given})" if given else ""

    def field(self, name, field, path, depth):
        """A field with its selections. In a fragment its alias begins with the path there, unless all fields with this
        name are alike. So no two fields with one response name differ (section 5.3.2)."""
        of = named(field.type)
        given, below = self.arguments(field), "" if is_leaf_type(of) else self.selections(of, path, depth + 1)
        is_alike = is_scalar_type(of) and not field.args
        alias = f"{lower(path + upper(name))}: " if path and not is_alike else ""
        if not alias and self.dice.random() < 0.08:
            alias = f"the{upper(name)}: "
        return f"{alias}{name}{given}{self.use('FIELD')}{below}"

    def conditions(self, of, path, depth):
        """Inline fragments on two of the types that a value of an abstract type may have."""
        chosen = self.dice.sample(self.schema.get_possible_types(of), 2)
        return [
            f"... on {it.name}{self.use('INLINE_FRAGMENT')}{self.selections(it, path + it.name, depth + 1)}"
            for it in chosen
        ]

    def spreads(self, of):
        if of.name not in self.fragments or (of.name in self.spread and self.dice.random() < 0.5):
            return []
        self.spread.append(of.name)
        return [f"...{of.name}Parts{self.use('FRAGMENT_SPREAD')}"]

    def selections(self, of, path, depth):
        """The selections of a composite type in braces."""
        fields = {} if is_union_type(of) else of.fields
        leaves = [it for it in fields if is_leaf_type(named(fields[it].type))]
        others = [it for it in fields if it not in leaves] if depth < 4 else []
        names = self.dice.sample(leaves, min(len(leaves), self.dice.randint(2, 4)))
        names += self.dice.sample(others, min(len(others), self.dice.randint(1, 2)))
        found = [self.field(it, fields[it], path, depth) for it in names] or ["__typename"]
        found += self.spreads(of)
        found += self.conditions(of, path, depth) if is_abstract_type(of) and depth < 4 else []
        return f" {{ {' '.join(found)} }}"


def fragment(dice, schema, type_name, fragments):
    """The fragment on a type: its text, the definitions of its variables, and the types whose fragments it spreads."""
    name = f"{type_name}Parts"
    writer = Writer(dice, schema, fragments, dice.choice([0, 0, 1]), name)
    below = writer.selections(schema.type_map[type_name], lower(name), 2)
    text = f"fragment {name} on {type_name}{writer.use('FRAGMENT_DEFINITION')}{below}"
    return text, writer.variables, writer.spread


def operation(dice, schema, type_name, fragments, number):
    """The name of an operation that spreads the fragment on a type, and its text."""
    words = ["query"] * 5 + (["mutation"] * 3 + ["subscription"] if type_name in THINGS else [])
    word, writer = dice.choice(words), Writer(dice, schema, fragments, dice.randint(2, 7))
    fields = getattr(schema, f"{word}_type").fields
    name = dice.choice([it for it in fields if named(fields[it].type).name in (type_name, f"{type_name}Payload")])
    below = writer.field(name, fields[name], "", 0)
    variables, reached = writer.variables, list(writer.spread)
    for it in reached:
        _, others, spread = fragments[it]
        variables |= others
        reached += [other for other in spread if other not in reached]
    title = f"{upper(name)}{number}"
    head = f"({', '.join(variables.values())})" if variables else ""
    return title, f"{word} {title}{head}{writer.use(word.upper())} {{ {below} }}"


def texts(dice):
    """The project's texts by the paths of their files."""
    found, fragments = schema_texts(dice), {}
    schema = build_schema("".join(found.values()))
    for type_name in ["Node", "Owner", *dice.sample(THINGS, 16)]:
        fragments[type_name] = fragment(dice, schema, type_name, fragments)
        found[f"fragments/{type_name}Parts.graphql"] = laid_out(fragments[type_name][0])
    for number in range(OPERATIONS):
        type_name = list(fragments)[number % len(fragments)]
        name, text = operation(dice, schema, type_name, fragments, number)
        found[f"operations/{name}.graphql"] = laid_out(text)
    return found
