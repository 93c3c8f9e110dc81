"""The tests of the Python package: python3 test_dumyroke.py. They import the package that Python finds."""

import ast
import concurrent.futures
import copy
import doctest
import multiprocessing
import os
import pickle
import random
import subprocess
import sys
import tempfile
import threading
import unittest
from pathlib import Path

import dumyroke
from dumyroke import nodes

HERO = "{ hero(id) { name }"
SCHEMA = '''"A hero" type Hero implements Node & Being @key(fields: "id") {
  id: ID!
  friends(first: Int = 10, after: String): [Hero] @deprecated
}
extend schema @link
union Result = Hero | Human
enum Episode { NEW_HOPE, JEDI }
input Filter { name: String = "é", deep: [[Int!]] }
directive @link repeatable on SCHEMA | FIELD
'''
QUERY = (
    'query Q($id: ID! = 1) { hero: character(id: $id, tags: ["a", true, 1.5, null, JEDI, {x: 2}]) { ...F @skip(if:'
    " true) ... on Hero { name } } }"
)


def names(elements):
    return [element.name.text for element in elements]


def chain(count):
    """A text and the operations in it. Each declares a variable without a use, and spreads the first of as many
    fragments. Each fragment spreads the next one. So an operation takes a step for itself and for each fragment, and
    one for each spread in these: 2 * count + 1 steps."""
    operations = [f"query Q{number}($v: T) {{ ...F0 }}" for number in range(count)]
    bodies = [f"...F{number + 1}" for number in range(count - 1)] + ["a"]
    fragments = [f"fragment F{number} on T {{ {body} }}" for number, body in enumerate(bodies)]
    return "\n".join(line for pair in zip(operations, fragments) for line in pair), operations


class Trees(unittest.TestCase):
    def test_tree(self):
        tree = dumyroke.parse("scalar")
        self.assertEqual(
            [repr(it) for it in tree.root.descendants_with_tokens],
            ["<DOCUMENT 0..6>", "<SCALAR_TYPE_DEFINITION 0..6>", "<scalar_KW 0..6>"],
        )
        self.assertEqual([str(error) for error in tree.errors], ["1:7: expected a Name"])
        self.assertEqual((len(tree), tree.recursion_high, tree.root), (3, 0, tree.document))

    def test_empty(self):
        tree = dumyroke.parse("")
        self.assertEqual(
            (len(tree), tree.text, tree.root.children, tree.root.parent, len(tree.errors)), (1, "", [], None, 1)
        )

    def test_no_errors(self):
        self.assertEqual([*dumyroke.parse(SCHEMA).errors, *dumyroke.parse(QUERY).errors], [])
        self.assertEqual(dumyroke.check(QUERY.encode()), [])

    def test_relations(self):
        for text in (HERO, SCHEMA, QUERY, "} é { # ü"):
            tree = dumyroke.parse(text)
            for element in tree.root.descendants_with_tokens:
                self.assertEqual(tree.text[slice(*element.span)], element.text)
                self.assertEqual(tree.text.encode()[slice(*element.range)].decode(), str(element))
                if isinstance(element, dumyroke.Node):
                    children = element.children_with_tokens
                    self.assertTrue(all(child.parent == element for child in children))
                    self.assertEqual(
                        element.children, [child for child in children if isinstance(child, dumyroke.Node)]
                    )
                    self.assertEqual("".join(child.text for child in children), element.text)

    def test_descendants(self):
        tree = dumyroke.parse(SCHEMA)

        def walked(node):
            return [node, *(below for child in node.children for below in walked(child))]

        self.assertEqual(list(tree.root.descendants), walked(tree.root))
        kinds = [element.kind for element in tree.root.descendants_with_tokens]
        self.assertEqual(len(tree.find("IDENT")), kinds.count("IDENT"))
        self.assertEqual(tree.find("NAME"), tree.find(nodes.Name))
        self.assertEqual(tree.document.definitions[0].find(nodes.FieldDefinition), tree.find(nodes.FieldDefinition))
        self.assertEqual(tree.document.definitions[1].find(nodes.FieldDefinition), [])

    def test_unchanged(self):
        """An element stays the one that it is."""
        field = dumyroke.parse("{a}").find(nodes.Field)[0]
        for name, value in (("index", 5), ("tree", dumyroke.parse("{b}")), ("kind", "NAME"), ("other", 1)):
            self.assertRaises(AttributeError, setattr, field, name, value)
        self.assertEqual((field.kind, field.text), ("FIELD", "a"))

    def test_equality(self):
        tree, other = dumyroke.parse("{a}"), dumyroke.parse("{a}")
        self.assertEqual(len({tree.root, tree.root, other.root}), 2)
        self.assertNotEqual(tree.root, other.root)
        self.assertRaises(ValueError, tree.find, "FIELDS")
        self.assertRaises(ValueError, tree.root.child, "field")

    def test_lossless(self):
        choose = random.Random(7).choice
        parts = [
            "{", "}", "a ", '"', "é", "(", ")", ":", "$", "#x\n", "...", "on ", "1", ",", '"""', "type ", "@", "𝄞",
            "\r\n", "\0",
        ]
        for _ in range(200):
            text = "".join(choose(parts) for _ in range(40))
            tree = dumyroke.parse(text)
            tokens = [element for element in tree.root.descendants_with_tokens if isinstance(element, dumyroke.Token)]
            self.assertEqual("".join(token.text for token in tokens), text)
            self.assertEqual(list(map(str, dumyroke.check(text))), list(map(str, tree.errors)))


class Parts(unittest.TestCase):
    def test_selection_sets(self):
        for text, whole in (("{ a b { c } } d", "{ a b { c } }"), ("a b { c } } d", "a b { c }")):
            tree = dumyroke.parse_selection_set(text)
            self.assertEqual((tree.errors, tree.text.rstrip(), type(tree.root)), ([], whole, nodes.SelectionSet))
            self.assertEqual(names(tree.root.selections), ["a", "b"])
        self.assertTrue(dumyroke.parse_selection_set("{ a { b } }", recursion_limit=1).errors[0].is_limit)

    def test_types(self):
        tree = dumyroke.parse_type("[Int!]! = 3")
        self.assertEqual((tree.errors, type(tree.root), tree.root.list_type.text), ([], nodes.NonNullType, "[Int!]"))
        self.assertEqual(
            (type(tree.root.type), tree.root.type, tree.root.type.type.type.name.text),
            (nodes.ListType, tree.root.list_type, "Int"),
        )
        self.assertEqual(
            [str(error) for error in dumyroke.parse_type("[Int").errors], ["1:5: expected R_BRACK, got EOF"]
        )
        self.assertTrue(dumyroke.parse_type("[[A]]", token_limit=2).errors[0].is_limit)

    def test_no_type(self):
        tree = dumyroke.parse_type(") Int")
        (leaf,) = tree.root.children_with_tokens
        self.assertEqual((type(tree.root), tree.root.kind, len(tree.errors)), (dumyroke.Node, "ERROR", 1))
        self.assertEqual((type(leaf), leaf.text, leaf.parent), (dumyroke.Token, ")", tree.root))
        self.assertEqual(
            (type(leaf.parent), list(tree.root.descendants), tree.find("ERROR")), (dumyroke.Node, [tree.root], [leaf])
        )


class Items(unittest.TestCase):
    def test_items(self):
        text = 'query{é ..,"x"1 1.5#c'
        items = dumyroke.lex(text)
        self.assertEqual(
            [item.kind for item in items],
            "IDENT L_CURLY ERROR WHITESPACE ERROR COMMA STRING INT WHITESPACE FLOAT COMMENT".split(),
        )
        self.assertEqual("".join(map(str, items)), text)
        self.assertEqual([item.text for item in items if item.error], ["é", ".."])
        self.assertTrue(
            all((item.text, item.range) == (item.error.data, item.error.range) for item in items if item.error)
        )
        self.assertEqual(
            (items[3].range, items[3].span, items[3].position), ((8, 9), (7, 8), dumyroke.Position(1, 8, 9))
        )

    def test_limits(self):
        self.assertEqual(dumyroke.lex(""), [])
        self.assertEqual(
            list(map(repr, dumyroke.lex("{a}", token_limit=4))), ["<L_CURLY 0..1>", "<IDENT 1..2>", "<R_CURLY 2..3>"]
        )
        *items, limit = dumyroke.lex("{a}", token_limit=2)
        self.assertEqual(
            (list(map(str, items)), limit.kind, limit.range, limit.error.is_limit), (["{", "a"], "ERROR", (2, 2), True)
        )

    def test_many(self):
        self.assertEqual(len(dumyroke.lex("é" * 5000)), 5000)


class Nodes(unittest.TestCase):
    def test_types(self):
        hero, extension, union, enum, filter, directive = dumyroke.parse(SCHEMA).document.definitions
        self.assertEqual(
            (hero.name.text, hero.description.value, names(hero.interfaces)), ("Hero", "A hero", ["Node", "Being"])
        )
        self.assertEqual((names(hero.fields), names(hero.directives)), (["id", "friends"], ["key"]))
        identity, friends = hero.fields
        self.assertEqual(
            (identity.type.kind, identity.type.named_type.text, identity.arguments), ("NON_NULL_TYPE", "ID", [])
        )
        self.assertEqual(
            (names(friends.arguments), friends.arguments[0].default_value.value.value), (["first", "after"], 10)
        )
        self.assertIsNone(friends.arguments[1].default_value)
        self.assertEqual((friends.type.type.name.text, names(friends.directives)), ("Hero", ["deprecated"]))
        self.assertEqual(
            (names(union.types), [it.enum_value.value for it in enum.values]), (["Hero", "Human"], ["NEW_HOPE", "JEDI"])
        )
        self.assertEqual((names(filter.fields), filter.fields[0].default_value.value.value), (["name", "deep"], "é"))
        self.assertEqual((directive.name.text, [it.text for it in directive.locations]), ("link", ["SCHEMA", "FIELD"]))
        self.assertEqual((names(extension.directives), extension.root_operation_type_definitions), (["link"], []))

    def test_operations(self):
        (operation,) = dumyroke.parse(QUERY).document.definitions
        (hero,) = operation.selections
        self.assertEqual(
            (operation.operation_type.text, operation.name.text, hero.alias.name.text, hero.name.text),
            ("query", "Q", "hero", "character"),
        )
        self.assertEqual([it.variable.name.text for it in operation.variable_definitions], ["id"])
        spread, inline = hero.selections
        self.assertEqual(
            (spread.name, spread.name.text, inline.type_condition.named_type.name.text),
            (spread.fragment_name.name, "F", "Hero"),
        )
        self.assertEqual((names(inline.selections), names(spread.directives[0].arguments)), (["name"], ["if"]))
        values = hero.arguments[1].value.values
        self.assertEqual(
            [getattr(value, "value", value.kind) for value in values],
            ["a", True, 1.5, "NULL_VALUE", "JEDI", "OBJECT_VALUE"],
        )
        self.assertEqual(values[5].fields[0].value.value, 2)
        self.assertEqual(hero.child(nodes.Arguments).child("L_PAREN").text, "(")

    def test_names(self):
        text = "schema { query: Q } extend schema @a fragment F on T { a } { b } query P { c } scalar S"
        definitions = dumyroke.parse(text).document.definitions
        self.assertEqual([it.name and it.name.text for it in definitions], [None, None, "F", None, "P", "S"])

    def test_strings(self):
        tree = dumyroke.parse('{ a(b: "\\u00e9\\n", c: """\n  x\n    y\n""", d: "") }')
        self.assertEqual([it.value for it in tree.find(nodes.StringValue)], ["é\n", "x\n  y", ""])

    def test_digits(self):
        """Python itself reads no longer number."""
        (number,) = dumyroke.parse("{ a(b: %s) }" % ("1" * 4301)).find(nodes.IntValue)
        self.assertRaises(ValueError, lambda: number.value)

    def test_missing_parts(self):
        (definition,) = dumyroke.parse("type { a }").find(nodes.ObjectTypeDefinition)
        self.assertEqual((definition.name, names(definition.fields), definition.fields[0].type), (None, ["a"], None))


class Errors(unittest.TestCase):
    def test_errors(self):
        first, last = dumyroke.parse(HERO).errors
        self.assertEqual(
            (first.message, first.data, first.range, first.is_eof, first.is_limit),
            ("expected COLON, got )", ")", (9, 10), False, False),
        )
        self.assertEqual(
            (last.message, last.data, last.range, last.is_eof), ("expected R_CURLY, got EOF", "", (19, 19), True)
        )

    def test_positions(self):
        line = 'type B @d(a: "é𝄞" '
        text = f"type A\r\n# é\r{line}]"
        error = dumyroke.check(text)[0]
        self.assertEqual(error.position, dumyroke.Position(3, len(line) + 1, len(line.encode()) + 1))
        self.assertEqual((error.line, error.column, error.byte_column), error.position)
        self.assertEqual((error.range[0], error.span[0], error.data), (text.encode().index(b"]"), text.index("]"), "]"))

    def test_long_line(self):
        text = "é𝄞a" * 100
        for error in dumyroke.check(text):
            before = len(text.encode()[: error.range[0]].decode())
            self.assertEqual(
                (error.line, error.column, error.byte_column, error.span[0]),
                (1, before + 1, error.range[0] + 1, before),
            )

    def test_limits(self):
        tree = dumyroke.parse("{a{b}}", recursion_limit=1)
        self.assertTrue(tree.errors[0].is_limit and tree.recursion_high == 2 and tree.text == "{a{b}}")
        tree = dumyroke.parse("{a{b}}", token_limit=3)
        self.assertTrue(tree.errors[0].is_limit and tree.token_high == 4 and tree.text == "{a{")
        self.assertEqual(len(dumyroke.check("{a{b}}", recursion_limit=2, token_limit=7)), 0)
        self.assertEqual(dumyroke.check("{a}", recursion_limit=10**30, token_limit=10**30), [])

    def test_not_unicode(self):
        for call in (
            dumyroke.parse, dumyroke.check, dumyroke.format, dumyroke.lex, dumyroke.parse_selection_set,
            dumyroke.parse_type,
        ):
            self.assertRaises(UnicodeDecodeError, call, b"{\xff}")
            self.assertRaises(UnicodeEncodeError, call, '{a(b:"\ud800")}')
            for wrong in (5, None, ["{a}"]):
                self.assertRaisesRegex(TypeError, "a text is a str or a bytes-like object", call, wrong)

    def test_many(self):
        self.assertEqual(dumyroke.check("!" * 5000), dumyroke.parse("!" * 5000).errors)
        self.assertGreater(len(dumyroke.check("!" * 5000)), 16)

    def test_sequence(self):
        """Errors are made when they are looked at, also after other calls have written to the shared buffers."""
        for text in (HERO, "!" * 5000):
            errors, again = dumyroke.check(text), dumyroke.check(text)
            dumyroke.check("{ a(b) !")
            self.assertEqual(
                (list(errors), errors[0], errors[-1:], hash(errors[0])),
                (list(again), again[0], [again[-1]], hash(again[0])),
            )
            self.assertNotEqual(errors, dumyroke.check("{ a(b) !"))
        self.assertEqual((dumyroke.check("{a}"), repr(dumyroke.check("{a}"))), ([], "[]"))

    def test_words(self):
        with self.assertRaises(dumyroke.NotADocument) as caught:
            dumyroke.format("!" * 5000)
        lines = str(caught.exception).splitlines()
        self.assertEqual((len(lines), lines[-1]), (21, f"and {len(caught.exception.errors) - 20} more"))

    def test_subclasses(self):
        class Longer(bytes):
            def __len__(self):
                return 1 << 26

        class Other(str):
            def encode(self, *_):
                return b"{"

        self.assertEqual([dumyroke.parse(Longer(b"{a}")).text, dumyroke.parse(Other("{a}")).text], ["{a}", "{a}"])

    def test_bytes_likes(self):
        """What has a buffer of bytes is a text. It may change later."""
        source = bytearray('{ a(b: "é") }'.encode())
        for text in (
            source, memoryview(source), memoryview(bytes(source))[:], memoryview(bytes(reversed(source)))[::-1],
        ):
            tree = dumyroke.parse(text)
            self.assertEqual(
                (tree.text, tree.errors, dumyroke.check(text), len(dumyroke.measure(text))),
                ('{ a(b: "é") }', [], [], 1),
            )
            self.assertEqual(dumyroke.format(text), '{\n  a(b: "é")\n}\n')
        tree = dumyroke.parse(source)
        source[:] = b"changed"
        self.assertEqual(tree.text, '{ a(b: "é") }')


class Validation(unittest.TestCase):
    # A document for each rule, with the message of graphql-core 3.2.8, which has single quotes, as graphql-js once had.
    BROKEN = {
        "ExecutableDefinitions": ("{a} type T {a: B}", "The 'T' definition is not executable."),
        "UniqueOperationNames": ("query Q {a} query Q {b}", "There can be only one operation named 'Q'."),
        "LoneAnonymousOperation": ("{a} query Q {b}", "This anonymous operation must be the only defined operation."),
        "UniqueArgumentNames": ("{a(b: 1, b: 2)}", "There can be only one argument named 'b'."),
        "UniqueFragmentNames": (
            "{...F} fragment F on T {a} fragment F on T {b}",
            "There can be only one fragment named 'F'.",
        ),
        "NoUnusedFragments": ("{a} fragment F on T {a}", "Fragment 'F' is never used."),
        "KnownFragmentNames": ("{...F}", "Unknown fragment 'F'."),
        "NoFragmentCycles": ("{...F} fragment F on T {a ...F}", "Cannot spread fragment 'F' within itself."),
        "UniqueInputFieldNames": ("{a(b: {c: 1, c: 2})}", "There can be only one input field named 'c'."),
        "UniqueVariableNames": ("query Q($a: B, $a: B) {c(d: $a)}", "There can be only one variable named '$a'."),
        "NoUndefinedVariables": ("query Q {a(b: $c)}", "Variable '$c' is not defined by operation 'Q'."),
        "NoUnusedVariables": ("query Q($a: B) {c}", "Variable '$a' is never used in operation 'Q'."),
    }

    def test_rules(self):
        for rule, (text, message) in self.BROKEN.items():
            (found,) = (violation for violation in dumyroke.validate(text) if violation.rule == rule)
            self.assertEqual(found.message, message.replace("'", '"'))
        self.assertEqual(dumyroke.validate("query Q($a: B) {c(d: $a) ...F} fragment F on T {e}"), [])
        (repeated,) = dumyroke.validate("type T { a: B a: C }")
        self.assertEqual(str(repeated), '1:15: Field "T.a" can only be defined once.')
        (member,) = dumyroke.validate("union U = A | B | A")
        self.assertEqual(
            (member.rule, str(member)), ("UniqueUnionMemberTypes", "1:19: Union type U can only include type A once.")
        )
        (interface,) = dumyroke.validate("interface I implements J & J { a: B }")
        self.assertEqual(
            (interface.rule, str(interface)), ("UniqueImplementedInterfaces", "1:28: Type I can only implement J once.")
        )

    def test_places(self):
        text = "query E {a}\nquery Q($b: B) { c }"
        (unused,) = dumyroke.validate(text)
        self.assertEqual(
            (unused.rule, text[slice(*unused.span)], text[slice(*unused.other.span)]),
            ("NoUnusedVariables", "$b: B", "query Q($b: B) { c }"),
        )
        self.assertEqual((unused.position, repr(unused)), (dumyroke.Position(2, 9, 9), "<NoUnusedVariables 20..25>"))
        (unknown,) = dumyroke.validate("{...F}")
        self.assertIsNone(unknown.other)

    def test_many(self):
        text = "{%s}" % " ".join(f"...F{number}" for number in range(2000))
        self.assertEqual([len(dumyroke.validate(text, most)) for most in (0, 1, 17, 5000)], [0, 1, 17, 2000])
        self.assertEqual(len(dumyroke.validate(text)), 1000)

    def test_steps(self):
        text, operations = chain(3)
        for steps, end in ((0, 0), (1, 1), (7, 1), (8, 2), (14, 2)):
            with self.assertRaises(dumyroke.Undecided) as caught:
                dumyroke.validate(text, max_steps=steps)
            error = caught.exception
            self.assertEqual(text[slice(*error.operation.span)], operations[end])
            self.assertEqual([text[slice(*found.other.span)] for found in error.violations], operations[:end])
            line = f"{1 + 2 * end}:1: too much to validate: the steps were used up before this operation"
            self.assertEqual(str(error), line)
        for steps in (15, 21, 2**64 - 1, 2**64, None):
            self.assertEqual(len(dumyroke.validate(text, max_steps=steps)), 3)
        self.assertEqual(len(dumyroke.validate(text, most=2, max_steps=8)), 2, "a list that is full is no error")
        self.assertEqual(dumyroke.validate(text, most=0, max_steps=0), [])

    def test_too_much(self):
        text, operations = chain(1000)
        end = -(-(1_000_000 + 10 * len(text)) // 2001)
        with self.assertRaises(dumyroke.Undecided) as caught:
            dumyroke.validate(text, most=None)
        self.assertEqual(text[slice(*caught.exception.operation.span)], operations[end])
        self.assertEqual(len(caught.exception.violations), end)

    def test_figures(self):
        text = "{ a a } query Q { b: a @d { b ...F } } fragment F on T { c d }"
        first, second = dumyroke.measure(text)
        self.assertEqual(
            (first.name, second.name, text[slice(*second.span)]), (None, "Q", "query Q { b: a @d { b ...F } }")
        )
        self.assertEqual(first.figures, (1, 2, 2, 0, 0, 1, 1))
        self.assertEqual(second.figures, (2, 4, 1, 1, 1, 4, 1))
        self.assertEqual(len(dumyroke.measure(" ".join(f"query Q{number} {{a}}" for number in range(100)))), 100)

    def test_bomb(self):
        """Each of 1,000 fragments spreads the one after it twice: 2**1000 fields."""
        text = (
            "{...F0}"
            + " ".join(f"fragment F{n} on T {{a ...F{n + 1} ...F{n + 1}}}" for n in range(1000))
            + "fragment F1000 on T {a}"
        )
        self.assertEqual(dumyroke.measure(text)[0].figures.fields, 2**64 - 1)

    def test_no_figures(self):
        cases = [
            ("{a} fragment F on T {a} fragment F on T {b}", "1:25: two fragments have one name"),
            ("{...F} fragment F on T {...F}", "1:25: a cycle of fragments"),
            ("{\n ...F}", "2:2: a spread of no fragment"),
        ]
        for text, words in cases:
            with self.assertRaises(dumyroke.NoFigures) as caught:
                dumyroke.measure(text)
            self.assertEqual((str(caught.exception), bool(caught.exception.other)), (words, "one name" in words))

    def test_limits(self):
        text = "query A {a} query B {a{b{c}}}"
        self.assertIsNone(dumyroke.check_limits(text, max_depth=3, max_fields=3))
        self.assertIsNone(dumyroke.check_limits(text, operation="A", max_depth=2))
        exceeded = dumyroke.check_limits(text, max_fields=2, max_depth=2)
        self.assertEqual((exceeded.operation.name, exceeded.limit, exceeded.most, exceeded.found), ("B", "depth", 2, 3))
        self.assertEqual(str(exceeded), "1:13: depth is 3, and at most 2 is allowed")
        self.assertEqual(
            dumyroke.check_limits("{a a}", max_root_fields=1, max_distinct_root_fields=1).limit, "root_fields"
        )

    def test_refused(self):
        for call in (dumyroke.validate, dumyroke.measure, dumyroke.check_limits):
            with self.assertRaises(dumyroke.NotADocument) as caught:
                call("{a(b)}")
            self.assertEqual(caught.exception.errors[0].line, 1)
            self.assertRaises(dumyroke.NotADocument, call, "{a{b}}", recursion_limit=1)
            self.assertRaises(UnicodeDecodeError, call, b"\xff")


# The borders at which a number of C may become another one, and their neighbours.
LARGE = [2**power + step for power in (31, 32, 53, 63, 64) for step in (-1, 0, 1)] + [10**30, None]
# What is no count.
WRONG = [
    (-1, ValueError),
    (-(2**64), ValueError),
    (1.5, TypeError),
    (1.0, TypeError),
    (float("nan"), TypeError),
    (float("inf"), TypeError),
    ("1", TypeError),
]


class Numbers(unittest.TestCase):
    """Each number that a call takes is itself, or no limit, or an error."""

    TWO = "{ ...F ...G a { b } }"
    CALLS = {
        "recursion_limit": (
            dumyroke.parse, dumyroke.parse_selection_set, dumyroke.parse_type, dumyroke.check, dumyroke.format,
        ),
        "token_limit": (
            dumyroke.parse, dumyroke.parse_selection_set, dumyroke.parse_type, dumyroke.lex, dumyroke.check,
            dumyroke.format,
        ),
        "max_output": (dumyroke.format,),
    }

    def test_large(self):
        for number in LARGE:
            self.assertEqual(len(dumyroke.validate(self.TWO, most=number, max_steps=number)), 2)
            for name, calls in self.CALLS.items():
                for call in calls:
                    self.assertEqual(str(call("{a{b}}", **{name: number})), str(call("{a{b}}")), (call, name, number))
            for call in (dumyroke.validate, dumyroke.measure):
                self.assertEqual(str(call("{a{b}}", recursion_limit=number, token_limit=number)), str(call("{a{b}}")))
            for figure in dumyroke.Figures._fields:
                self.assertIsNone(dumyroke.check_limits("{a{b}}", **{f"max_{figure}": number}))

    def test_small(self):
        self.assertEqual([len(dumyroke.validate(self.TWO, most)) for most in (0, 1, 2, True)], [0, 1, 2, 1])
        self.assertEqual(
            [len(dumyroke.check("{a{b}}", recursion_limit=limit)) > 0 for limit in (0, 1, 2)], [True, True, False]
        )
        self.assertEqual([len(dumyroke.lex("{a}", token_limit=limit)) for limit in (0, 1, 2, 3, 4)], [1, 2, 3, 4, 3])

    def test_wrong(self):
        """Also after a call with an equal number that is right, since limits are kept from call to call."""
        dumyroke.parse("{a}", 1, 1)
        for number, error in WRONG:
            self.assertRaises(error, dumyroke.validate, self.TWO, most=number)
            self.assertRaises(error, dumyroke.validate, self.TWO, max_steps=number)
            for name, calls in self.CALLS.items():
                for call in calls:
                    self.assertRaises(error, call, "{a}", **{name: number})
            for call in (dumyroke.validate, dumyroke.measure, dumyroke.check_limits):
                self.assertRaises(error, call, "{a}", recursion_limit=number)
                self.assertRaises(error, call, "{a}", token_limit=number)
            for figure in dumyroke.Figures._fields:
                self.assertRaises(error, dumyroke.check_limits, "{a}", **{f"max_{figure}": number})
        self.assertRaisesRegex(ValueError, "^most is below 0: -1$", dumyroke.validate, "{a}", most=-1)
        self.assertRaisesRegex(
            TypeError, "^max_depth is an int or None, and not float$", dumyroke.check_limits, "{a}", max_depth=1.5
        )

    def test_offsets(self):
        tree = dumyroke.parse("{a}")
        self.assertEqual(tree.position(3), dumyroke.Position(1, 4, 4))
        for offset in (-1, 4, 2**64):
            self.assertRaises(ValueError, tree.position, offset)


def no_document(call, text):
    """The exception that a call raises."""
    try:
        call(text)
    except ValueError as error:
        return error
    raise AssertionError(f"{call} raises nothing")


class Copies(unittest.TestCase):
    """What a call gives or raises is the same in a copy, and in another process."""

    CYCLE = "{...F}\nfragment F on T {...F}"
    SAME = "{a} fragment F on T {a} fragment F on T {b}"
    WAYS = [
        copy.copy,
        copy.deepcopy,
        *(
            lambda it, version=version: pickle.loads(pickle.dumps(it, version))
            for version in range(2, pickle.HIGHEST_PROTOCOL + 1)
        ),
    ]

    def test_not_a_document(self):
        for call in (dumyroke.format, dumyroke.measure, dumyroke.validate):
            error = no_document(call, "{ é( } !")
            error.request = 7
            for way in self.WAYS:
                same = way(error)
                self.assertEqual(
                    (type(same), str(same), same.args, same.errors, same.request),
                    (dumyroke.NotADocument, str(error), error.args, error.errors, 7),
                )
                self.assertEqual([str(one) for one in same.errors], [str(one) for one in error.errors])

    def test_no_figures(self):
        for text in (self.CYCLE, self.SAME, "{...F}"):
            error = no_document(dumyroke.measure, text)
            for way in self.WAYS:
                same = way(error)
                self.assertEqual(
                    (type(same), str(same), same.reason, same.place.span),
                    (dumyroke.NoFigures, str(error), error.reason, error.place.span),
                )
                self.assertEqual(same.other and same.other.position, error.other and error.other.position)

    def test_undecided(self):
        text, operations = chain(3)
        with self.assertRaises(dumyroke.Undecided) as caught:
            dumyroke.validate(text, max_steps=14)
        error = caught.exception
        for way in self.WAYS:
            same = way(error)
            self.assertEqual((type(same), str(same)), (dumyroke.Undecided, str(error)))
            self.assertEqual(text[slice(*same.operation.span)], operations[2])
            self.assertEqual([str(found) for found in same.violations], [str(found) for found in error.violations])

    def test_process_pool(self):
        """An exception of a process is raised here, and the pool goes on."""
        try:
            processes = concurrent.futures.ProcessPoolExecutor(1, multiprocessing.get_context("spawn"))
        except (ImportError, NotImplementedError, OSError) as error:
            self.skipTest(f"this system has no pools of processes: {error}")
        with processes as pool:
            with self.assertRaises(dumyroke.NoFigures) as caught:
                pool.submit(dumyroke.measure, self.CYCLE).result()
            self.assertEqual(str(caught.exception), "2:18: a cycle of fragments")
            with self.assertRaises(dumyroke.NotADocument) as refused:
                pool.submit(dumyroke.format, "{").result()
            self.assertEqual(refused.exception.errors, dumyroke.check("{"))
            self.assertEqual(pool.submit(dumyroke.check, "{a}").result(), [])
            self.assertEqual(names(pool.submit(dumyroke.parse, "query Q {a}").result().document.definitions), ["Q"])

    def test_results(self):
        results = [
            dumyroke.check(HERO)[0], dumyroke.lex("é")[0], dumyroke.validate("{...F}")[0], dumyroke.measure("{a}")[0],
        ]
        for result in results:
            for way in self.WAYS:
                same = way(result)
                self.assertEqual(
                    (type(same), str(same), same.position, same.span),
                    (type(result), str(result), result.position, result.span),
                )

    def test_trees(self):
        for call, text in (
            (dumyroke.parse, HERO + " é"),
            (dumyroke.parse, "{a}" * 20_000),
            (dumyroke.parse_type, ")"),
            (dumyroke.parse_selection_set, "a {b} }"),
        ):
            tree = call(text)
            for way in self.WAYS if len(text) < 1000 else self.WAYS[-1:]:
                same = way(tree)
                self.assertEqual(
                    (same.text, same.errors, len(same), same.token_high),
                    (tree.text, tree.errors, len(tree), tree.token_high),
                )
                self.assertEqual(
                    list(map(repr, same.root.descendants_with_tokens)),
                    list(map(repr, tree.root.descendants_with_tokens)),
                )
                last = list(tree.root.descendants_with_tokens)[-1]
                self.assertEqual((repr(way(last)), way(last).parent.kind), (repr(last), last.parent.kind))


class Calls(unittest.TestCase):
    def test_format(self):
        self.assertEqual(dumyroke.format("{a,c:b}"), "{\n  a\n  c: b\n}\n")
        self.assertEqual(dumyroke.format(b"{a}"), "{\n  a\n}\n")
        self.assertEqual(dumyroke.format("{a{b{c{d{e}}}}}").count("\n"), 11)
        self.assertEqual(dumyroke.format("{a}", max_output=8), "{\n  a\n}\n")
        for most in (0, 7):
            self.assertRaisesRegex(
                ValueError, "the formatted text has more than", dumyroke.format, "{a}", max_output=most
            )
        # 270 times its length, so the first calls have too little room
        opened = "".join("  " * depth + "a {\n" for depth in range(1, 400))
        closed = "".join("  " * depth + "}\n" for depth in reversed(range(400)))
        self.assertEqual(dumyroke.format("{a" * 400 + "}" * 400), "{\n" + opened + "  " * 400 + "a\n" + closed)
        with self.assertRaises(dumyroke.NotADocument) as caught:
            dumyroke.format(HERO)
        self.assertEqual([error.line for error in caught.exception.errors], [1, 1])

    def test_buffers(self):
        """Calls share buffers, also after one that raised, and one that had too little room; a tree is its own."""
        texts = [HERO, "{a b}" * 20000, QUERY, "{" * 3000, "scalar"]
        trees = [dumyroke.parse(text) for text in texts]
        with self.assertRaises(UnicodeDecodeError):
            dumyroke.parse(b"\xff")
        for text, tree in zip(texts, trees):
            self.assertEqual(
                "".join(token.text for token in tree.root.descendants_with_tokens if isinstance(token, dumyroke.Token)),
                text,
            )
            self.assertEqual("".join(item.text for item in dumyroke.lex(text)), text)
            self.assertEqual([str(error) for error in tree.errors], [str(error) for error in dumyroke.check(text)])

    def test_memory(self):
        """A token limit bounds the room for elements, and positions take little. The text has 20 million bytes, of
        which a copy is made."""
        code = [
            "import resource, dumyroke",
            "peak = lambda: resource.getrusage(resource.RUSAGE_SELF).ru_maxrss // 1024",
            "text = 'é,' * 6_666_666",
            "before = peak()",
            "print(dumyroke.parse(text, token_limit=100).errors[0].position.column, peak() - before)",
        ]
        environment = {**os.environ, "PYTHONPATH": str(Path(dumyroke.__file__).parent.parent)}
        column, megabytes = map(
            int, subprocess.check_output([sys.executable, "-c", "\n".join(code)], env=environment).split()
        )
        self.assertEqual(column, 1)
        self.assertLess(megabytes, 40)

    def test_threads(self):
        wrong = []

        def parse():
            for _ in range(200):
                if names(dumyroke.parse(QUERY).find(nodes.Variable)) != ["id", "id"]:
                    wrong.append(1)

        threads = [threading.Thread(target=parse) for _ in range(2)]
        for thread in threads:
            thread.start()
        for thread in threads:
            thread.join()
        self.assertEqual(wrong, [])

    def test_program(self):
        def checked(*files):
            ended = subprocess.run(
                [sys.executable, "-m", "dumyroke", *files],
                stdout=subprocess.PIPE,
                stderr=subprocess.DEVNULL,
                env=environment,
            )
            return ended.returncode, ended.stdout.decode()

        environment = {**os.environ, "PYTHONPATH": str(Path(dumyroke.__file__).parent.parent)}
        with tempfile.TemporaryDirectory() as folder:
            good, bad, binary = (f"{folder}/{name}" for name in ("good", "bad", "binary"))
            Path(good).write_text("{a}")
            Path(bad).write_text("{a\n!")
            Path(binary).write_bytes(b"\xff")
            Path(escapes := f"{folder}/escapes").write_text('{a "\033[31m\u202e\u2028é"}')
            self.assertEqual(checked("check", good), (0, ""))
            status, printed = checked("check", good, bad)
            self.assertEqual((status, printed.splitlines()[0].startswith(f"{bad}:2:1: ")), (1, True))
            for encoding, shown in (("utf-8", "é"), ("ascii", "\\xe9")):
                environment["PYTHONIOENCODING"] = encoding
                status, printed = checked("check", escapes)
                self.assertEqual((status, f"\\x1b[31m\\u202e\\u2028{shown}" in printed), (1, True))
            self.assertEqual(
                [checked("check", binary)[0], checked("check", f"{folder}/none")[0], checked("check")[0], checked()[0]],
                [2, 2, 2, 2],
            )

    def test_version(self):
        self.assertRegex(dumyroke.__version__, r"^\d+\.\d+\.\d+$")

    def test_documentation(self):
        found = doctest.testmod(dumyroke)
        self.assertEqual((found.failed, found.attempted), (0, 6))

    def test_typed(self):
        folder = Path(dumyroke.__file__).parent
        self.assertTrue((folder / "py.typed").exists())
        for path in folder.glob("*.py"):
            ast.parse(path.read_text(), feature_version=(3, 9))


if __name__ == "__main__":
    unittest.main()
