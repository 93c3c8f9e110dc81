"""The enums of typed nodes, and which crate and module has each struct and enum: by its section of the standard."""

from dataclasses import dataclass

from .grammar import type_case

# The crates, from low to high, with the sections that their modules hold: by number, with the sections below it, or by
# the last word of the title. A kind that is named goes elsewhere than its section.
CRATES = {
    "apollo_cst_executable": {
        "names": ["2.1.9", "2.9.6", "VARIABLE"],
        "values": ["2.9", "DEFAULT_VALUE"],
        "directives": ["2.6", "2.12", "Descriptions"],
        "types": ["2.11"],
        "operations": ["2.3", "2.10"],
        "selections": ["2.4", "2.5", "2.7"],
        "fragments": ["2.8"],
    },
    "apollo_cst_type_system": {
        "schema": ["Schema", "3.5"],
        "objects": ["3.6", "3.7"],
        "fields": ["3.6.1", "FIELDS_DEFINITION", "FIELD_DEFINITION"],
        "unions": ["3.8"],
        "enums": ["3.9"],
        "inputs": ["3.10"],
        "document": ["2.2"],
        "directives": ["3.13"],
        "extensions": ["Extension", "Extensions"],
    },
}
PLACES = {key: (crate, module) for crate, modules in CRATES.items() for module, keys in modules.items() for key in keys}


@dataclass
class Enum:
    """`listed` is the enum's list of kinds in Choices.antt. `one` and `several` are the accessor's names where one
    child, or any number, may be there. `forms` are those of the production where they are not the kinds."""

    listed: str
    one: str | None
    several: str | None
    what: str
    section: tuple[str, str]
    production: str
    forms: tuple[str, ...] = ()


ENUMS = {
    "Definition": Enum(
        "Definitions",
        None,
        "definitions",
        "A definition or an extension",
        ("2.2", "Document"),
        "Definition",
        ("ExecutableDefinition", "TypeSystemDefinitionOrExtension"),
    ),
    "Selection": Enum("Selections", None, "selections", "A selection", ("2.4", "Selection Sets"), "Selection"),
    "Value": Enum("Values", "value", "values", "A value", ("2.9", "Input Values"), "Value[Const]"),
    "Ty": Enum("Types", "ty", None, "A type", ("2.11", "Type References"), "Type"),
}


def place(number, title, kind=None):
    """The crate and the module of a section."""
    parts = number.split(".")
    sections = [".".join(parts[:length]) for length in range(len(parts), 0, -1)]
    for key in [kind, title.split()[-1], *sections]:
        if key in PLACES:
            return PLACES[key]
    raise SystemExit(f'places.py: no module has section {number}, "{title}"' + (f", of {kind}" if kind else ""))


def crate_of(place):
    """The number of a place's crate, from low to high."""
    return list(CRATES).index(place[0])


def place_of_kind(kind, grammar):
    return place(*grammar.section(kind), kind)


def home(target, grammar):
    """The crate and the module of a struct or an enum, by its name."""
    if target in ENUMS:
        return place(*ENUMS[target].section)
    return place_of_kind(next(kind for kind in grammar.nodes if type_case(kind) == target), grammar)


def kinds_in(crate, module, grammar):
    """The kinds whose structs a module has, in order."""
    return [kind for kind in grammar.nodes if place_of_kind(kind, grammar) == (crate, module)]


def enums_in(crate, module):
    return [enum for enum, choice in ENUMS.items() if place(*choice.section) == (crate, module)]
