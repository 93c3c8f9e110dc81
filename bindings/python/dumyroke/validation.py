"""Rules of validation that need no schema, and how large operations are."""

from __future__ import annotations

import ctypes
from typing import Any, NamedTuple, Sequence

from . import library
from .calls import NotADocument, Text, check, given
from .library import number
from .positions import Placed, Positions
from .rows import (
    CYCLE, NOT_A_DOCUMENT, OK, RULES, SAME_NAME, UNDECIDED, UNDEFINED, MeasureCounts, OperationRow, ViolationCounts,
    ViolationRow,
)

# Room for a first call, which is enough for most texts.
_FEW_ROWS = 16
_FEW_MESSAGE_BYTES = 1024


class Violation(Placed):
    """A place at which a document breaks a rule. `range` is the node that breaks it. `str(violation)` is
    `LINE:COLUMN: message`."""

    __slots__ = ("rule", "message", "other")

    rule: str
    """The name that graphql-js gives the rule, as "NoUnusedVariables"."""
    message: str
    """What is wrong."""
    other: Placed | None
    """The other party: the first of the name, the operation whose variables are meant, or another operation or
    fragment."""

    def __init__(self, row: ViolationRow, message: str, positions: Positions):
        super().__init__((row.start, row.end), positions)
        self.rule, self.message = RULES[row.rule], message
        self.other = Placed((row.other_start, row.other_end), positions) if row.has_other else None

    def __str__(self) -> str:
        return f"{self.position.line}:{self.position.column}: {self.message}"

    def __repr__(self) -> str:
        return f"<{self.rule} {self.range[0]}..{self.range[1]}>"


class Undecided(ValueError):
    """Too much to validate: the steps were used up before an operation. Its words are `LINE:COLUMN: REASON`."""

    operation: Placed
    """The operation. Its variables and those of later operations are not judged."""
    violations: list[Violation]
    """The violations that were found."""

    def __init__(self, operation: Placed, violations: list[Violation]):
        at = operation.position
        super().__init__(f"{at.line}:{at.column}: too much to validate: the steps were used up before this operation")
        self.operation, self.violations = operation, violations

    def __reduce__(self) -> tuple[Any, ...]:
        """As that of `NotADocument`."""
        return type(self), (self.operation, self.violations), self.__dict__


def validate(
    text: Text,
    most: int | None = 1000,
    recursion_limit: int | None = 500,
    token_limit: int | None = None,
    max_steps: int | None = None,
) -> list[Violation]:
    """The places at which a document breaks a rule of the standard's section 5 that needs no schema, in the order of
    the text: at most so many, or all with None. No two are the same. If there are fewer, they are all, and unless
    `most` is 0 there are none exactly if it keeps all these rules. A document of the type system is judged only by what
    one definition may not have twice: fields, arguments, input fields, enum values, union members and interfaces of one
    name.

    `max_steps` is how many steps the rules on variables may take. By default they may take 1,000,000, and 10 more for
    each byte of the text. These rules judge one operation after another. An operation takes a step for each definition
    that it reaches, for each spread of a fragment in these, and for each name of a variable that one of these uses. A
    definition that uses a variable which the operation does not declare takes a step for each use, too.

    Raises `NotADocument` with the errors if the text is none within both limits; `Undecided` if the operations before
    one took all steps, unless `most` violations were found; and else as `parse` does."""
    source, limits = given(text, recursion_limit, token_limit)
    at_most = number("most", most)
    steps = library.default_steps(len(source)) if max_steps is None else number("max_steps", max_steps)
    rows, room = _FEW_ROWS, _FEW_MESSAGE_BYTES
    while True:
        found, messages, counts = (ViolationRow * rows)(), bytearray(room), ViolationCounts()
        words = library.place(messages), room, ctypes.byref(counts)
        status = library.validate(source, len(source), limits, at_most, steps, ctypes.byref(found), rows, *words)
        _raise_for(status, source, recursion_limit, token_limit)
        if counts.violations <= rows and counts.message_bytes <= room:
            break
        rows, room = counts.violations, max(counts.message_bytes, 1)
    positions = Positions(source)
    violations = [
        Violation(row, messages[row.message : row.message + row.message_length].decode(), positions)
        for row in found[: counts.violations]
    ]
    if status == UNDECIDED:
        raise Undecided(Placed((counts.undecided_start, counts.undecided_end), positions), violations)
    return violations


class Figures(NamedTuple):
    """How large an operation is with the selections of its fragment in place of each fragment spread. A figure stops at
    2**64 - 1."""

    depth: int
    """The greatest number of fields in one another: 2 for `{a{b}}`."""
    fields: int
    """The number of fields, `__typename` among them."""
    root_fields: int
    """The number of fields that no field encloses."""
    aliases: int
    """The number of aliases."""
    directives: int
    """The number of directives: of the operation, its variables, its selections, and its fragments at each of their
    spreads."""
    height: int
    """The number of fields, where each selection set, also of a fragment, counts a response name once. Apollo Router
    limits it as `max_height`."""
    distinct_root_fields: int
    """The number of root fields, counted like `height`."""


class Operation(Placed):
    """An operation of a document, with its figures."""

    __slots__ = ("name", "figures")

    name: str | None
    """Its name, if it has one."""
    figures: Figures
    """How large it is."""

    def __init__(self, row: OperationRow, source: bytes, positions: Positions):
        super().__init__((row.start, row.end), positions)
        self.name = source[row.name_start : row.name_end].decode() or None
        self.figures = Figures(*(getattr(row, name) for name in Figures._fields))

    def __repr__(self) -> str:
        return f"<Operation {self.range[0]}..{self.range[1]}>"


class NoFigures(ValueError):
    """The operations of a document have no figures. Its words are `LINE:COLUMN: REASON`."""

    reason: str
    """Why: "two fragments have one name"; or an operation leads to "a cycle of fragments" or to "a spread of no
    fragment"."""
    place: Placed
    """The second fragment of the name, or the spread."""
    other: Placed | None
    """The first fragment of the name."""

    def __init__(self, reason: str, place: Placed, other: Placed | None):
        super().__init__(f"{place.position.line}:{place.position.column}: {reason}")
        self.reason, self.place, self.other = reason, place, other

    def __reduce__(self) -> tuple[Any, ...]:
        """As that of `NotADocument`."""
        return type(self), (self.reason, self.place, self.other), self.__dict__


_REASONS = {
    SAME_NAME: "two fragments have one name",
    CYCLE: "a cycle of fragments",
    UNDEFINED: "a spread of no fragment",
}


def _no_figures(counts: MeasureCounts, positions: Positions) -> NoFigures:
    other = Placed((counts.other_start, counts.other_end), positions) if counts.other_end else None
    return NoFigures(_REASONS[counts.status], Placed((counts.start, counts.end), positions), other)


def measure(text: Text, recursion_limit: int | None = 500, token_limit: int | None = None) -> list[Operation]:
    """The operations of a document, in order, with their figures. It takes no longer for a document that expands to
    very many fields.

    Raises `NotADocument` with the errors if the text is none within both limits; `NoFigures` if two fragments have one
    name, or if an operation leads to a cycle of fragments or to a spread of no fragment; and else as `parse` does."""
    source, limits = given(text, recursion_limit, token_limit)
    rows, positions = _FEW_ROWS, Positions(source)
    while True:
        found, counts = (OperationRow * rows)(), MeasureCounts()
        status = library.measure(source, len(source), limits, ctypes.byref(found), rows, ctypes.byref(counts))
        _raise_for(status, source, recursion_limit, token_limit)
        if status != OK:
            raise _no_figures(counts, positions)
        if counts.operations <= rows:
            return [Operation(row, source, positions) for row in found[: counts.operations]]
        rows = counts.operations


class Exceeded(NamedTuple):
    """A limit that an operation exceeds. `str(exceeded)` is
    `LINE:COLUMN: LIMIT is FOUND, and at most MOST is allowed`."""

    operation: Operation
    limit: str
    """The figure that is limited, as "depth"."""
    most: int
    """The greatest number that is allowed."""
    found: int
    """The operation's number, which is greater."""

    def __str__(self) -> str:
        position = self.operation.position
        return f"{position.line}:{position.column}: {self.limit} is {self.found}, and at most {self.most} is allowed"


def check_limits(
    text: Text,
    *,
    operation: str | None = None,
    max_depth: int | None = None,
    max_fields: int | None = None,
    max_root_fields: int | None = None,
    max_aliases: int | None = None,
    max_directives: int | None = None,
    max_height: int | None = None,
    max_distinct_root_fields: int | None = None,
    recursion_limit: int | None = 500,
    token_limit: int | None = None,
) -> Exceeded | None:
    """The first operation that exceeds a limit, and the first limit that it exceeds, in the order of `Figures`; None if
    all are within the limits.

    With `operation` only the operations of that name count, since a gateway executes one of several. A limit of 2**64 -
    1 or more is none, as None is, since a figure stops there. Exceptions are those of `measure`, and `ValueError` for a
    limit below 0."""
    given_limits = (
        max_depth, max_fields, max_root_fields, max_aliases, max_directives, max_height, max_distinct_root_fields,
    )
    most = [number(f"max_{figure}", limit) for figure, limit in zip(Figures._fields, given_limits)]
    measured = measure(text, recursion_limit, token_limit)
    return first_exceeded([found for found in measured if operation in (None, found.name)], most)


def first_exceeded(operations: Sequence[Operation], most: Sequence[int]) -> Exceeded | None:
    """The first of the operations that exceeds a limit, and the first limit that it exceeds. The limits are in the
    order of `Figures`."""
    for operation in operations:
        for limit, allowed, found in zip(Figures._fields, most, operation.figures):
            if found > allowed:
                return Exceeded(operation, limit, allowed, found)
    return None


def _raise_for(status: int, source: bytes, recursion_limit: int | None, token_limit: int | None) -> None:
    library.raise_for(status, source)
    if status == NOT_A_DOCUMENT:
        raise NotADocument(check(source, recursion_limit, token_limit))
