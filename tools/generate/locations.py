"""The words of the places where a directive may be (section 3.13). The list `DirectiveLocations` of Choices.antt has
them, and so have six other files: the enum of kinds and five that are written by hand. Each of these has to have the
same words in the same order."""

import re

from .layout import CRATES

LISTED = "DirectiveLocations"
RULES = "parser_rules/specs/Rules.antt"
FUNCTION = "apollo_grammar/src/grammar/directive.rt"
TEXT = "apollo_cst_type_system/src/location.rt"
INTROSPECTION = "type_system/src/standard.rt"
PLACES = "type_system/src/locations.rt"


def is_one(kind):
    """Whether a kind is spelled as a directive location is: a keyword in capital letters."""
    return kind.endswith("_KW") and kind.isupper()


def found_in(path, pattern, word):
    """The words in the parts of a file that the pattern finds."""
    text = (CRATES / path).read_text()
    return [found for part in re.findall(pattern, text, re.DOTALL | re.MULTILINE) for found in re.findall(word, part)]


def differing(path, what, found, wanted):
    """The first word that a list lacks, or has where another one should be."""
    for place, kind in enumerate(wanted):
        if place == len(found) or found[place] != kind:
            there = f"has {found[place]} where {kind} should be" if place < len(found) else f"lacks {kind}"
            yield f"{path}: {what} {there}: it has the list {LISTED} of Choices.antt, in that order"
            return
    if len(found) > len(wanted):
        yield f"{path}: {what} has {found[len(wanted)]}, which is not in the list {LISTED} of Choices.antt"


def faults(grammar):
    """What the other files have otherwise. Each message names the file and the word."""
    wanted = list(grammar.lists[LISTED])
    words = [kind.removesuffix("_KW") for kind in wanted]
    yield from differing(
        "document_grammar/src/kind.rt", "the enum of kinds", [kind for kind in grammar.kinds if is_one(kind)], wanted
    )
    yield from differing(
        RULES,
        "executable_locations with type_system_locations",
        found_in(RULES, r"^\w+_locations =\n(.*?)\[\]", r"kind\.(\w+)"),
        wanted,
    )
    yield from differing(
        FUNCTION, "LOCATIONS", found_in(FUNCTION, r"^static LOCATIONS.*?\[\n(.*?)\];", r"SyntaxKind::(\w+)"), wanted
    )
    counts = found_in(FUNCTION, r"^static LOCATIONS: \[SyntaxKind; \d+\]", r"\d+")
    if counts != [str(len(wanted))]:
        yield (
            f"{FUNCTION}: LOCATIONS has the length {' '.join(counts)}, and the list {LISTED} of Choices.antt has"
            f" {len(wanted)} words"
        )
    ends = found_in(TEXT, r"^fn is_location.*?^}", r"SyntaxKind::(\w+)")
    if ends != [wanted[0], wanted[-1]]:
        yield (
            f"{TEXT}: is_location goes from {' to '.join(ends)}, and the list {LISTED} of Choices.antt from"
            f" {wanted[0]} to {wanted[-1]}"
        )
    yield from differing(
        INTROSPECTION,
        "__DirectiveLocation",
        found_in(INTROSPECTION, r"^enum __DirectiveLocation \{(.*?)\}", r"\w+"),
        words,
    )
    yield from differing(PLACES, "name", found_in(PLACES, r"^    pub fn name.*?^    }", r'"(\w+)"'), words)
    rows = found_in(PLACES, r"^pub\(crate\) const LOCATIONS.*?^\];", r"SyntaxKind::\w+,\s+DirectiveLocation::(\w+)")
    counts = found_in(PLACES, r"^pub\(crate\) const LOCATIONS: \[[^;]*; \d+\]", r"\d+")
    if counts != [str(len(rows))]:
        yield f"{PLACES}: LOCATIONS has the length {' '.join(counts)}, and {len(rows)} rows"
    variants = found_in(PLACES, r"^pub enum DirectiveLocation \{.*?^}", r"(\w+),")
    at = rows + found_in(PLACES, r"^fn \w+_location.*?^}", r"DirectiveLocation::(\w+)")
    for variant in variants:
        if variant not in at:
            yield f"{PLACES}: no node has the directive location {variant}"
