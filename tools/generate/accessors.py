"""The accessors of the typed nodes."""

from .grammar import type_case
from .places import ENUMS

# The kinds of leaves that have a type.
LEAVES = ["IDENT", "STRING", "INT", "FLOAT", "COMMENT", "WHITESPACE"]


def choices(pattern):
    """The lists of kinds that are in a pattern, each once, in order."""
    if pattern[0] == "any_of":
        return [pattern[1]]
    found = []
    for part in pattern[1:]:
        found += [kinds for kinds in choices(part) if kinds not in found]
    return found


def bounds(pattern, kinds):
    """The least and the greatest number of children of these kinds; 2 means any greater number too."""
    if pattern[0] == "any_of":
        return int(all(kind in kinds for kind in pattern[1])), int(any(kind in kinds for kind in pattern[1]))
    if pattern[0] == "nothing":
        return 0, 0
    if pattern[0] == "many":
        return 0, min(2, 2 * bounds(pattern[1], kinds)[1])
    (least, most), (other_least, other_most) = bounds(pattern[1], kinds), bounds(pattern[2], kinds)
    if pattern[0] == "then":
        return least + other_least, min(2, most + other_most)
    return min(least, other_least), max(most, other_most)


def number_of(pattern, kinds):
    """How many children of these kinds there are, as a word."""
    least, most = bounds(pattern, kinds)
    if most > 1:
        return "at_least_one" if least else "any_number"
    return "exactly_one" if least else "at_most_one"


class Accessor:
    """`number` is the multiplicity of the children; `target` is the struct or enum of the answer, None for a leaf. Of a
    choice that is no enum each kind has an accessor, which gives a child only where the choice is this kind."""

    def __init__(self, name, kinds, number, target, is_choice=False):
        self.name, self.kinds, self.number, self.target, self.is_choice = name, kinds, number, target, is_choice
        self.gives_all = target is not None and number in ("at_least_one", "any_number")


def accessors(grammar, kind):
    """The accessors of the row of a kind: one for each symbol, in order.

    The accessor of a node that is there at most once has the name of its kind, in lower case; the accessor of one that
    may repeat has an `s` after it. The choices have the names of `ENUMS`. A leaf's has the name of its kind, without
    `_KW`, and then `_token`. A choice that is no enum has one accessor for each kind.
    """
    found, pattern = [], grammar.rows[kind]
    enum_of = {tuple(grammar.lists[choice.listed]): enum for enum, choice in ENUMS.items()}
    for kinds in choices(pattern):
        if kinds in enum_of:
            found.append(enum_accessor(enum_of[kinds], kinds, number_of(pattern, kinds), kind))
        else:
            found += [kind_accessor(grammar, one, number_of(pattern, [one]), len(kinds) > 1) for one in kinds]
    names = [accessor.name for accessor in found]
    for name in names:
        if names.count(name) > 1:
            raise SystemExit(f"Rows.antt: two accessors of {kind} would be called {name}")
    return found


def enum_accessor(enum, kinds, number, parent):
    accessor = Accessor(None, kinds, number, enum)
    accessor.name = ENUMS[enum].several if accessor.gives_all else ENUMS[enum].one
    if accessor.name is None:
        children = "`several` children" if accessor.gives_all else "`one` child"
        raise SystemExit(f"places.py: {enum} has no name for {children}, which the row of {parent} has")
    return accessor


def kind_accessor(grammar, kind, number, is_choice):
    if grammar.is_leaf(kind):
        return Accessor(kind.removesuffix("_KW").lower() + "_token", [kind], number, None, is_choice)
    accessor = Accessor(kind.lower(), [kind], number, type_case(kind), is_choice)
    accessor.name += "s" if accessor.gives_all else ""
    return accessor
