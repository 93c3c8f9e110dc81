"""The generator's own tests: `tools/generate/run --test` runs them. Each puts one mistake into a copy of the
generator's input, and wants the message that names the file and the kind."""

import importlib
import shutil
import subprocess
import sys
import tempfile
from pathlib import Path

from .grammar import Grammar, type_case
from .layout import CRATES, TOP
from .about import LINES as MANIFESTS
from .version import PLACES as VERSION_PLACES

KINDS = "crates/document_grammar/src/kind.rt"
ROWS = "crates/document_grammar/specs/Rows.antt"
CHOICES = "crates/document_grammar/specs/Choices.antt"
DERIVATION = "crates/document_grammar/specs/Derivation.antt"
RULES = "crates/parser_rules/specs/Rules.antt"
LOCATIONS = "crates/apollo_grammar/src/grammar/directive.rt"
LOCATION_TEXT = "crates/apollo_cst_type_system/src/location.rt"
STANDARD = "crates/type_system/src/standard.rt"
LOCATION_PLACES = "crates/type_system/src/locations.rt"
SYMBOLS = "tools/generate/symbols.py"
PLACES = "tools/generate/places.py"
WORDS = "tools/generate/typed_docs.py"
# The crates that have generated files.
WRITTEN = (
    *(
        "document_grammar", "grammar_machine", "parser_rules", "apollo_grammar", "apollo_document", "apollo_parser",
        "gqlcst_run", "gqlfmt_run", "gqlcheck_run",
    ),
    *(
        "apollo_tree",
        "validation_rules",
        "c_parsing",
        "c_validation",
        "gqlls_program",
        "gqlls_server",
        "schema_members",
        "type_system",
        *(path.name for path in CRATES.glob("apollo_cst_*")),
    ),
)

# The file with the mistake, a text that is in it once, what is there in its place, and the message.
MISTAKES = [
    (KINDS, "    ALIAS,\n", "    ALIAS,\n    ALIAS,\n", "kind.rt: the kind ALIAS is there twice"),
    (
        KINDS,
        "    ALIAS,\n",
        "    ALIAS\n",
        "kind.rt: the line `ALIAS` of the enum is neither documentation nor a kind with a comma after it",
    ),
    (KINDS, "    ALIAS,\n", "    ALIAS,\n    MADE_UP,\n", "Rows.antt: the kind MADE_UP has no row"),
    (
        KINDS,
        "    ALIAS,\n",
        "    ALIAS,\n    but_KW,\n",
        "kind.rt: the keyword but_KW is not between STRING and DOCUMENT, where the keywords are",
    ),
    (
        KINDS,
        "    repeatable_KW,\n",
        "    REPEATABLE,\n",
        "kind.rt: REPEATABLE is between STRING and DOCUMENT, where the keywords are, and does not end with _KW",
    ),
    (KINDS, "    PIPE,\n", "    PIPE,\n    TILDE,\n", "grammar.py: PUNCTUATORS does not say how TILDE is spelled"),
    (KINDS, "    STRING,\n", "", "kind.rt: there is no kind STRING"),
    (
        KINDS,
        '(section 2.7, "Field Alias")',
        "of 2.7",
        'kind.rt: the documentation of ALIAS does not end its first line with (section NUMBER, "TITLE").',
    ),
    (
        KINDS,
        '2.7, "Field Alias"',
        '4.1, "Schema Introspection"',
        'places.py: no module has section 4.1, "Schema Introspection", of ALIAS',
    ),
    (ROWS, "(ALIAS, one NAME", "(ALIAS, one NAMEE", "Rows.antt: NAMEE is no kind, in the row of ALIAS"),
    (
        ROWS,
        "(FIELD, optional ALIAS",
        "(FIELD, optionl ALIAS",
        "Rows.antt: no pattern is called optionl, in the row of FIELD",
    ),
    (
        ROWS,
        "parts_with part = (one",
        "parts_with part = parts_with part or_else (one",
        "Rows.antt: the pattern parts_with has itself in it, in the row of",
    ),
    (
        ROWS,
        "(DOCUMENT, some (any_of Definitions))",
        "(DOCUMENT, some (any_of Parts))",
        "Rows.antt: no list of kinds is called Parts, in the row of DOCUMENT",
    ),
    (
        ROWS, "(DOCUMENT, some (any_of Definitions))", "(DOCUMENT, any_of Definitions)",
        "Rows.antt: the row of DOCUMENT is not",
    ),
    (ROWS, "    ∷ (NAME, one IDENT)\n", "", "Rows.antt: the kind NAME has no row"),
    (ROWS, "(NAME, one IDENT)", "(NAMES, one IDENT)", "Rows.antt: NAMES is no kind"),
    (
        ROWS,
        "(NAME, one IDENT)",
        "(IDENT, one IDENT)",
        "Rows.antt: IDENT has a row, and comes before DOCUMENT in kind.rt, where the leaves are",
    ),
    (ROWS, "(NAME, one IDENT)", "(NAME, one IDENT)\n    ∷ (NAME, one INT)", "Rows.antt: NAME has two rows"),
    (ROWS, "(NAME, one IDENT)", "(NAME, one IDENT", "Rows.antt: expected ), found ∷"),
    (ROWS, "(NAME, one IDENT)", "(NAME, one NAME)", "Rows.antt: no row has the leaf IDENT"),
    (
        ROWS,
        "(ALIAS, one NAME then one COLON)",
        "(ALIAS, one ALIAS then one COLON)",
        "Rows.antt: no ALIAS has an end: each has another one in it",
    ),
    (
        ROWS,
        "(ALIAS, one NAME then one COLON)",
        "(ALIAS, one NAME)",
        "Rows.antt: FIELD, state 0: two tokens do not tell NAME from ALIAS",
    ),
    (
        ROWS,
        "(DIRECTIVES, some (one DIRECTIVE))",
        "(DIRECTIVES, many (one DIRECTIVE))",
        "Rows.antt: the row of DIRECTIVES fits no children at all",
    ),
    (ROWS, "optional repeatable_KW then ", "", "Rows.antt: no row has the leaf repeatable_KW"),
    (ROWS, "(FIELD, optional ALIAS then ", "(FIELD, ", "Rows.antt: no row has the kind ALIAS"),
    (
        ROWS,
        "any_of (query_KW ∷ mutation_KW",
        "any_of (query_KW ∷ QUERY_KW ∷ mutation_KW",
        "Rows.antt: two accessors of OPERATION_TYPE would be called query_token",
    ),
    (
        CHOICES,
        "Selections = FIELD ∷",
        "Selections = FIELDD ∷",
        "Choices.antt: the list Selections has FIELDD, which is no kind",
    ),
    (
        CHOICES,
        "Selections = FIELD ∷",
        "Selections = FIELD ∷ FIELD ∷",
        "Choices.antt: the list Selections has FIELD twice",
    ),
    (
        CHOICES,
        "LIST_TYPE ∷ NON_NULL_TYPE ∷ []",
        "LIST_TYPE ∷ NON_NULL_TYPE",
        "Choices.antt: the list Types does not end with ∷ []",
    ),
    (CHOICES, "pub Values :", "pub Value :", "Choices.antt: there is no list Values"),
    (
        CHOICES,
        "Selections = FIELD",
        "Selections = ERROR ∷ FIELD",
        "Choices.antt: the list Selections, which has the enum Selection, has the leaf ERROR",
    ),
    (
        CHOICES,
        "-- The values (section 2.9).\n",
        "abbrev pub Names : List ℕ\nNames = NAME ∷ ALIAS ∷ []\n\n",
        "places.py: ENUMS has no enum for the list Names of Choices.antt",
    ),
    (
        DERIVATION,
        "    ∷ FIELD_DEFINITION\n",
        "",
        "Derivation.antt: the list HasConstantDirectives lacks FIELD_DEFINITION: it is no selection",
    ),
    (
        DERIVATION,
        "    ∷ FIELD_DEFINITION\n",
        "    ∷ FIELD_DEFINITION\n    ∷ FIELD\n",
        "Derivation.antt: the list HasConstantDirectives has FIELD, which has no constant",
    ),
    (
        DERIVATION,
        "    VARIABLE_DEFINITION\n    ∷ SCHEMA_DEFINITION\n",
        "    SCHEMA_DEFINITION\n    ∷ VARIABLE_DEFINITION\n",
        "Derivation.antt: the list HasConstantDirectives has SCHEMA_DEFINITION where VARIABLE_DEFINITION should be",
    ),
    (
        DERIVATION,
        "    ∷ INTERFACE_TYPE_DEFINITION\n    ∷ ENUM_TYPE_DEFINITION\n",
        "    ∷ ENUM_TYPE_DEFINITION\n",
        "Derivation.antt: the list Braced lacks INTERFACE",
    ),
    (
        DERIVATION,
        "Braced =\n    OBJECT_TYPE_DEFINITION\n",
        "Braced =\n    OBJECT_TYPE_DEFINITION\n    ∷ UNION_TYPE_DEFINITION\n",
        "Derivation.antt: the list Braced has UNION_TYPE_DEFINITION, which has no block",
    ),
    (
        DERIVATION,
        "Blocks = FIELDS_DEFINITION ∷ ",
        "Blocks = ",
        "Derivation.antt: the list Blocks lacks FIELDS_DEFINITION",
    ),
    (
        DERIVATION,
        "Blocks = FIELDS_DEFINITION",
        "Blocks = UNION_MEMBER_TYPES ∷ FIELDS_DEFINITION",
        "Derivation.antt: the list Blocks has UNION_MEMBER_TYPES",
    ),
    (
        RULES,
        "inside Alias = Child Name > Do (Bump kind.COLON)\n",
        "",
        "Rules.antt: the kind ALIAS has no rule: no clause `inside Alias = ..`",
    ),
    (RULES, "inside Alias = ", "inside Aliass = ", "Rules.antt: the node Aliass has no kind ALIASS"),
    (
        RULES,
        "inside NamedType",
        "inside Alias = Skip\ninside NamedType",
        "Rules.antt: inside has two clauses for Alias",
    ),
    (
        RULES,
        "Child Alias > Call RequiredName",
        "Child Aliass > Call RequiredName",
        "Rules.antt: Aliass is used, and inside has no clause for it",
    ),
    (RULES, "Child Alias > Call RequiredName", "Child Name > Call RequiredName", "Rules.antt: no rule uses Alias"),
    (
        RULES,
        "body Document = want Ready message.UnexpectedEof > While Ready (Call Definition)",
        "body Document = Call Definitions",
        "Rules.antt: Definitions is used, and body has no",
    ),
    (
        RULES,
        "inside Alias = Child Name > Do (Bump kind.COLON)",
        "inside Alias = Child Name > Do (Bump kind.COLUMN)",
        "Rules.antt: COLUMN is no kind",
    ),
    (
        RULES,
        "inside (ObjectValue c)",
        "inside ObjectValue",
        "Rules.antt: ObjectValue has no parameter `c`, and symbols.py has OBJECT_VALUE_CONST",
    ),
    (
        RULES,
        "inside Alias =",
        "inside (Alias c) =",
        "symbols.py: NODES lacks ALIAS_CONST, and the rule of Alias has a parameter for constant places",
    ),
    (
        SYMBOLS,
        '    ("OBJECT_FIELD_CONST", "OBJECT_FIELD", "OBJECT_FIELD in a constant place"),\n',
        "",
        (
            "symbols.py: NODES lacks OBJECT_FIELD_CONST: OBJECT_FIELD may be in a constant OBJECT_VALUE, and a VARIABLE"
            " below it"
        ),
    ),
    (
        SYMBOLS,
        '"OBJECT_FIELD_CONST", "OBJECT_FIELD"',
        '"OBJECT_FIELD_CONST", "OBJECT_ITEM"',
        "symbols.py: the symbol OBJECT_FIELD_CONST is shown as OBJECT_ITEM",
    ),
    (
        CHOICES,
        "    ∷ UNION_KW\n    ∷ ENUM_KW\n",
        "    ∷ ENUM_KW\n    ∷ UNION_KW\n",
        "document_grammar/src/kind.rt: the enum of kinds has UNION_KW where ENUM_KW should be",
    ),
    (
        LOCATIONS,
        "    SyntaxKind::SCALAR_KW,\n    SyntaxKind::OBJECT_KW,\n",
        "    SyntaxKind::OBJECT_KW,\n    SyntaxKind::SCALAR_KW,\n",
        "apollo_grammar/src/grammar/directive.rt: LOCATIONS has OBJECT_KW where SCALAR_KW should be",
    ),
    (
        LOCATION_PLACES,
        'DirectiveLocation::EnumValue => "ENUM_VALUE"',
        'DirectiveLocation::EnumValue => "ENUM_VALUES"',
        "type_system/src/locations.rt: name has ENUM_VALUES where ENUM_VALUE should be",
    ),
    (
        LOCATION_PLACES,
        "DirectiveLocation::EnumValue,\n    ),\n",
        "DirectiveLocation::Enum,\n    ),\n",
        "type_system/src/locations.rt: no node has the directive location EnumValue",
    ),
    (
        LOCATION_PLACES,
        "    (SyntaxKind::UNION_TYPE_DEFINITION, DirectiveLocation::Union),\n",
        "",
        "type_system/src/locations.rt: LOCATIONS has the length 21, and 20 rows",
    ),
    (PLACES, '"fragments": ["2.8"]', '"fragments": ["2.8", "2.4"]', "places.py: CRATES has 2.4 twice"),
    (
        PLACES,
        '"fragments": ["2.8"]',
        '"fragments": ["2.8"], "subscriptions": ["2.15"]',
        "places.py: nothing is in the module subscriptions of apollo_cst_executable",
    ),
    (PLACES, '"2.9.6", "VARIABLE"', '"2.9.6", "VARIABEL"', "places.py: CRATES has VARIABEL, which is no kind of node"),
    (
        PLACES,
        '"document": ["2.2"]',
        '"document": ["2.2", "FIELD"]',
        "places.py: the enum Selection is in a crate before the crate of FIELD",
    ),
    (
        PLACES,
        '"document": ["2.2"]',
        '"document": ["2.2", "ALIAS"]',
        "places.py: FIELD is in apollo_cst_executable, and has a part Alias, whose crate comes after it",
    ),
    (
        PLACES,
        'Enum("Selections"',
        'Enum("Selected"',
        "places.py: ENUMS has Selection for the list Selected, which Choices.antt lacks",
    ),
    (PLACES, '"Values", "value"', '"Values", None', "places.py: Value has no name for `one` child, which the row of"),
    (
        WORDS,
        '"FRAGMENT_NAME": "name',
        '"FRAGMENT_NAMES": "name',
        "typed_docs.py: PARTS has FRAGMENT_NAMES, which is no kind of node",
    ),
]

def of_locations():
    """The same for the directive locations, whose last word and number are of the standard's edition."""
    listed = Grammar().lists["DirectiveLocations"]
    last, before, count = listed[-1], listed[-2], len(listed)
    word = last.removesuffix("_KW")
    return [
        (
            KINDS,
            f"    {last},\n",
            f"    {last},\n    ELSEWHERE_KW,\n",
            "Rows.antt: no row has the leaf ELSEWHERE_KW. A directive location is in the list DirectiveLocations of"
            " Choices.antt",
        ),
        (
            RULES,
            f"    ∷ kind.{last}\n",
            "",
            f"parser_rules/specs/Rules.antt: executable_locations with type_system_locations lacks {last}",
        ),
        (
            LOCATIONS,
            f"[SyntaxKind; {count}]",
            f"[SyntaxKind; {count + 1}]",
            f"apollo_grammar/src/grammar/directive.rt: LOCATIONS has the length {count + 1}, and the list"
            f" DirectiveLocations of Choices.antt has {count} words",
        ),
        (
            LOCATION_TEXT,
            f"number <= SyntaxKind::{last}",
            f"number <= SyntaxKind::{before}",
            f"apollo_cst_type_system/src/location.rt: is_location goes from QUERY_KW to {before}",
        ),
        (
            STANDARD,
            f"{word}\n}}\n",
            f"{word} ELSEWHERE\n}}\n",
            "type_system/src/standard.rt: __DirectiveLocation has ELSEWHERE, which is not in the list",
        ),
    ]


# The same for the rows of the C library, which the header has too.
HEADERS = [
    (
        "bindings/c/include/dumyroke.h",
        "    uint32_t is_eof;\n",
        "    uint64_t is_eof;\n",
        "dumyroke.h: the struct dumyroke_error has not the fields of ErrorRow",
    ),
    (
        "bindings/c/include/dumyroke.h",
        "DUMYROKE_NOT_A_STRING = 4",
        "DUMYROKE_NOT_A_STRING = 6",
        "dumyroke.h: its statuses are not those of rows.rt",
    ),
]


class Copy:
    """A copy of the generator's input and output, and of the generator, in a folder that Python imports from."""

    def __init__(self, folder):
        self.folder = folder
        unneeded = shutil.ignore_patterns("out", "must-fail", "data")
        for crate in WRITTEN:
            shutil.copytree(CRATES / crate, folder / "crates" / crate, ignore=unneeded)
        shutil.copytree(TOP / "tools", folder / "tools")
        shutil.copytree(TOP / "bindings", folder / "bindings", ignore=shutil.ignore_patterns("target"))
        shutil.copytree(TOP / "editors", folder / "editors")
        shutil.copytree(TOP / "bench", folder / "bench", ignore=shutil.ignore_patterns("out", "target"))
        for name in ("VERSION", "about.json"):
            shutil.copy(TOP / name, folder)
        sys.path.insert(0, str(folder / "tools"))
        self.unchanged, self.mistakes = self.package("unchanged"), 0

    def package(self, name, file=None, text=None):
        """The generator under another name, perhaps with another text of one of its files."""
        shutil.copytree(TOP / "tools/generate", self.folder / "tools" / name)
        if file:
            (self.folder / "tools" / name / Path(file).name).write_text(text)
        importlib.invalidate_caches()
        return importlib.import_module(f"{name}.checks"), importlib.import_module(f"{name}.table")

    def refusal(self, file, text):
        """The message with which the generator ends where the file has this text, or None."""
        if file.startswith("tools"):
            self.mistakes += 1
            return refused(lambda: self.package(f"mistake_{self.mistakes}", file, text))
        (self.folder / file).write_text(text)
        message = refused(lambda: self.unchanged)
        shutil.copyfile(TOP / file, self.folder / file)
        return message


def refused(package):
    """The message with which a generator refuses what it reads, or None."""
    try:
        checks, table = package()
        table.outputs(checks.checked_grammar())
    except SystemExit as end:
        return end.code


def mistake_is_refused(made, file, old, new, message):
    """What is wrong, or None."""
    text = (TOP / file).read_text()
    if text.count(old) != 1:
        return f"{file} has this text {text.count(old)} times: {old}"
    found = made.refusal(file, text.replace(old, new))
    if not str(found).startswith(message):
        return f"{file} with {new!r} for {old!r}: wanted {message!r}, got {found!r}"


def run(folder):
    """The status and the output of `tools/generate/run --check` in a copy."""
    made = subprocess.run([sys.executable, folder / "tools/generate/run", "--check"], capture_output=True, text=True)
    return made.returncode, made.stdout + made.stderr


def only_the_changed_file_differs(made):
    """Of an unchanged input the generator would write what is there; a file that is otherwise it names, with status
    1."""
    changed = "crates/document_grammar/specs/Numbering.antt"
    text = (made.folder / changed).read_text()
    (made.folder / changed).write_text(text.replace("number ALIAS = ", "number ALIAS = 1"))
    found = run(made.folder)
    return None if found == (1, f"differs: {changed}\n") else f"{changed} was changed: {found}"


def a_new_version_goes_everywhere(made):
    """Each file that has the version differs when VERSION has another one."""
    (made.folder / "VERSION").write_text("12.3.45\n")
    status, said = run(made.folder)
    (made.folder / "VERSION").write_text((TOP / "VERSION").read_text())
    wanted = {f"differs: {path.relative_to(TOP)}" for path in VERSION_PLACES}
    return None if status == 1 and wanted <= set(said.splitlines()) else f"VERSION was changed: {status}, {said}"


def what_about_says_goes_everywhere(made):
    """Each manifest differs when about.json has another keyword."""
    said = (TOP / "about.json").read_text()
    (made.folder / "about.json").write_text(said.replace('"parser"', '"lexer"'))
    status, differing = run(made.folder)
    (made.folder / "about.json").write_text(said)
    wanted = {f"differs: {path.relative_to(TOP)}" for path in MANIFESTS}
    return (
        None
        if status == 1 and wanted <= set(differing.splitlines())
        else f"about.json was changed: {status}, {differing}"
    )


def the_header_has_the_rows(made):
    """A header that lacks a field of a row, or a status, is refused."""
    for file, old, new, message in HEADERS:
        text = (TOP / file).read_text()
        (made.folder / file).write_text(text.replace(old, new))
        found = run(made.folder)
        (made.folder / file).write_text(text)
        if text.count(old) != 1 or found != (1, f"{message}\n"):
            return f"{file} with {new!r} for {old!r}: {found}"
    return None


# A file of functions, what is in it once, and what may not be there in its place: no production, another one, and one
# above a function that has none.
PRODUCTIONS = [
    ("name.rt", "///     Alias (2.7) : Name :\n", ""),
    ("name.rt", "///     Alias (2.7) : Name :\n", "///     Alias (2.7) : Name\n"),
    (
        "name.rt",
        "/// A field's name, with its alias.\n",
        "/// A field's name, with its alias.\n///     Field (2.5) : Name\n",
    ),
]


def a_wrong_production_differs(made, name, old, new):
    """A production that is missing, wrong or too much is found, and written as Rules.antt has it."""
    changed = f"crates/apollo_grammar/src/grammar/{name}"
    text = (TOP / changed).read_text()
    if text.count(old) != 1:
        return f"{changed} has this text {text.count(old)} times: {old}"
    (made.folder / changed).write_text(text.replace(old, new))
    found = run(made.folder)
    subprocess.run([sys.executable, made.folder / "tools/generate/run"], stdout=subprocess.DEVNULL)
    if (made.folder / changed).read_text() != text:
        return f"{changed} with {new!r} for {old!r}: the production is not written"
    return None if found == (1, f"differs: {changed}\n") else f"{changed} with {new!r} for {old!r}: {found}"


def a_mistake_ends_with_status_1(made):
    file, old, new, message = MISTAKES[0]
    (made.folder / file).write_text((TOP / file).read_text().replace(old, new))
    found = run(made.folder)
    return None if found == (1, f"{message}\n") else f"{file} with {new!r} for {old!r}: {found}"


def each_struct_is_cast():
    """The answers on casts, which are written by hand, have a line for each kind of node."""
    lines = (CRATES / "tests_parser/stdout").read_text().splitlines()
    missing = [kind for kind in Grammar().nodes if f"{type_case(kind)} Some({kind})" not in lines]
    return f"tests_parser/stdout has no line for {', '.join(missing)}" if missing else None


def main():
    with tempfile.TemporaryDirectory() as name:
        made = Copy(Path(name))
        found = [mistake_is_refused(made, *mistake) for mistake in [*MISTAKES, *of_locations()]]
        found += [a_wrong_production_differs(made, *production) for production in PRODUCTIONS]
        found += [
            only_the_changed_file_differs(made), a_new_version_goes_everywhere(made),
            what_about_says_goes_everywhere(made), the_header_has_the_rows(made),
        ]
        found += [a_mistake_ends_with_status_1(made), each_struct_is_cast()]
    wrong = [what for what in found if what]
    print(*wrong, f"generator: {len(found)} tests, {len(wrong)} failed", sep="\n")
    sys.exit(1 if wrong else 0)
