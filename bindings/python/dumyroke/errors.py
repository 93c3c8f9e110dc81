"""The errors of a text."""

from __future__ import annotations

from typing import Any, Sequence, overload

from .positions import Placed, Positions
from .rows import ErrorRow


class Error(Placed):
    """An error in a text. `range` is what it is about. `str(error)` is `LINE:COLUMN: message`."""

    __slots__ = ("message", "data", "is_limit", "is_eof")

    message: str
    """What is wrong."""
    data: str
    """The text that the error is about. It is empty for the end of the text and for a limit."""
    is_limit: bool
    """Whether the recursion limit or the token limit was met."""
    is_eof: bool
    """Whether the error is about the end of the text."""


    def __init__(
        self, message: str, data: str, range: tuple[int, int], is_limit: bool, is_eof: bool, positions: Positions
    ):
        super().__init__(range, positions)
        self.message, self.data = message, data
        self.is_limit, self.is_eof = is_limit, is_eof

    @property
    def line(self) -> int:
        """The line, from 1."""
        return self.position.line

    @property
    def column(self) -> int:
        """The column in characters of the `str`, from 1."""
        return self.position.column

    @property
    def byte_column(self) -> int:
        """The column in bytes of UTF-8, from 1."""
        return self.position.byte_column

    def __str__(self) -> str:
        return f"{self.line}:{self.column}: {self.message}"

    def __repr__(self) -> str:
        return f"<Error {self.range[0]}..{self.range[1]} {self.message!r}>"

    def _key(self) -> tuple[Any, ...]:
        return self.message, self.data, self.range, self.is_limit, self.is_eof

    def __eq__(self, other: object) -> bool:
        if not isinstance(other, Error):
            return NotImplemented
        return self._key() == other._key()

    def __hash__(self) -> int:
        return hash(self._key())


class Errors(Sequence[Error]):
    """The errors of a text, in the order in which they were found. Each is made when it is looked at: a text may have
    three for each of its bytes."""

    __slots__ = ("_source", "_rows", "_messages", "_positions")

    def __init__(self, source: bytes, rows: Sequence[ErrorRow], messages: bytes | bytearray, positions: Positions):
        self._source, self._rows, self._messages, self._positions = source, rows, messages, positions

    def __len__(self) -> int:
        return len(self._rows)

    @overload
    def __getitem__(self, index: int) -> Error: ...
    @overload
    def __getitem__(self, index: slice) -> list[Error]: ...
    def __getitem__(self, index: int | slice) -> Error | list[Error]:
        if isinstance(index, slice):
            return list(map(self._made, self._rows[index]))
        return self._made(self._rows[index])

    def _made(self, row: ErrorRow) -> Error:
        message = self._messages[row.message : row.message + row.message_length].decode()
        data = self._source[row.start : row.end].decode()
        return Error(message, data, (row.start, row.end), bool(row.is_limit), bool(row.is_eof), self._positions)

    def __eq__(self, other: object) -> bool:
        if not isinstance(other, (Errors, list)):
            return NotImplemented
        return list(self) == list(other)

    __hash__ = None  # type: ignore[assignment]

    def __repr__(self) -> str:
        return repr(list(self))
