"""From the byte offsets of a text to the characters of a str, and to lines and columns."""

from __future__ import annotations

import re
from array import array
from bisect import bisect_right
from itertools import accumulate
from typing import NamedTuple

# The bytes of UTF-8 that do not begin a character.
_CONTINUATIONS = bytes(range(0x80, 0xC0))
_LINE_END = re.compile(rb"\r\n|\n|\r")
# How many bytes lie between two offsets whose characters are counted ahead.
_STEP = 64


class Position(NamedTuple):
    """A position in a text. All count from 1: the line, the column in characters of the str, and the column in bytes of
    UTF-8. Lines end with LF, CR or CR LF, as GraphQL has it."""

    line: int
    column: int
    byte_column: int


class Positions:
    """The positions of a text, which is read when one is needed."""

    __slots__ = ("_source", "_is_ascii", "_marks", "_line_starts")

    def __init__(self, source: bytes):
        self._source = source
        self._is_ascii = source.isascii()
        self._marks: array[int] | None = None
        self._line_starts: array[int] | None = None

    def character(self, offset: int) -> int:
        """The number of characters before a byte offset."""
        if self._is_ascii:
            return offset
        if self._marks is None:
            parts = (self._source[start : start + _STEP] for start in range(0, len(self._source), _STEP))
            self._marks = array(
                "Q", accumulate((len(part.translate(None, _CONTINUATIONS)) for part in parts), initial=0)
            )
        mark = offset // _STEP
        return self._marks[mark] + len(self._source[mark * _STEP : offset].translate(None, _CONTINUATIONS))

    def position(self, offset: int) -> Position:
        """The position of a byte offset."""
        if self._line_starts is None:
            self._line_starts = array("Q", [0])
            self._line_starts.extend(found.end() for found in _LINE_END.finditer(self._source))
        line = bisect_right(self._line_starts, offset)
        start = self._line_starts[line - 1]
        return Position(line, self.character(offset) - self.character(start) + 1, offset - start + 1)


class Placed:
    """A part of a text."""

    __slots__ = ("range", "_positions")

    range: tuple[int, int]
    """Its bytes in UTF-8: the first, and the one after the last."""

    def __init__(self, range: tuple[int, int], positions: Positions):
        self.range = range
        self._positions = positions

    @property
    def span(self) -> tuple[int, int]:
        """The same as `range` in indices of the `str`."""
        return self._positions.character(self.range[0]), self._positions.character(self.range[1])

    @property
    def position(self) -> Position:
        """Where it begins: its line and its columns."""
        return self._positions.position(self.range[0])
