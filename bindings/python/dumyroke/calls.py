"""The calls of the package."""

from __future__ import annotations

import ctypes
import functools
import mmap
import struct
from typing import Any, Union

from . import library, nodes
from .errors import Errors
from .items import Item
from .kinds import NAMES
from .library import number
from .positions import Positions
from .rows import ELEMENT_SIZE, ITEM_SIZE, NOT_A_DOCUMENT, OK, Counts, ErrorRow, ItemRow, Limits
from .tree import Node, Tree


Text = Union[str, bytes, bytearray, memoryview]
"""A text: a str, or UTF-8 in bytes or in another object that has a buffer of bytes."""


class NotADocument(ValueError):
    """A text is not a document: it has `errors`. Its words are the first twenty of them."""

    def __init__(self, errors: Errors):
        words = [*map(str, errors[:_SAID_ERRORS])]
        if len(errors) > _SAID_ERRORS:
            words.append(f"and {len(errors) - _SAID_ERRORS} more")
        super().__init__("\n".join(words))
        self.errors = errors

    def __reduce__(self) -> tuple[Any, ...]:
        """An exception is made again of its words unless it says of what else, so copies and other processes would have
        no errors."""
        return type(self), (self.errors,), self.__dict__


_SAID_ERRORS = 20


# The bytes of a spare buffer for rows, enough for a text of 87 kB, and room for errors that is enough for most texts.
_SPARE_BYTES = 1 << 20
_FEW_ERRORS = 16
_FEW_MESSAGE_BYTES = 1024


# A number of 32 bits; and its highest byte without the highest bit, which a node's start has.
_WORD = struct.Struct("I")
_WITHOUT_NODE = bytes(byte & 127 for byte in range(256))


def _pages(size: int) -> mmap.mmap:
    """Memory that the system clears page by page, when it is written to. A process that is forked from this one has a
    copy."""
    try:
        return mmap.mmap(-1, size, flags=mmap.MAP_PRIVATE | mmap.MAP_ANONYMOUS)
    except OSError:
        raise MemoryError(f"{size} bytes were refused") from None


class _Buffers:
    """Room for so many bytes of rows, errors and bytes of messages."""

    def __init__(self, row_bytes: int, errors: int = _FEW_ERRORS, message_bytes: int = _FEW_MESSAGE_BYTES):
        self.row_bytes, self.error_room, self.message_room = row_bytes, errors, message_bytes
        self.rows = _pages(row_bytes + _WORD.size)
        self.errors = (ErrorRow * max(errors, 1))()
        self.messages = bytearray(max(message_bytes, 1))
        self.counts = Counts()
        # made once, since that takes as long as a small parse
        self._places = (
            library.place(self.rows), ctypes.byref(self.errors), library.place(self.messages),
            ctypes.byref(self.counts),
        )

    def fill(self, call: Any, source: bytes, limit: Limits | int, row_size: int) -> bool:
        """Has one of the library's calls fill the buffers, and says whether there was room for all. With a row size of
        0 rows are left out."""
        rows, errors, messages, place_of_counts = self._places
        row_room = self.row_bytes // row_size if row_size else 0
        call(
            source, len(source), limit, rows, row_room, errors, self.error_room, messages, self.message_room,
            place_of_counts,
        )
        counts = self.counts
        library.raise_for(counts.status, source)
        has_rows = not row_size or counts.elements <= row_room
        return bool(has_rows and counts.errors <= self.error_room and counts.message_bytes <= self.message_room)

    def elements_of(self) -> bytes | memoryview:
        """The rows of elements that were written, with starts that say no more whether it is a node, since kinds do;
        and after them one more start, the end of the text."""
        size = self.counts.elements * ELEMENT_SIZE
        self.rows[3:size:ELEMENT_SIZE] = self.rows[3:size:ELEMENT_SIZE].translate(_WITHOUT_NODE)
        _WORD.pack_into(self.rows, size, self.counts.text_bytes)
        return (
            self.rows[: size + _WORD.size]
            if self.row_bytes == _SPARE_BYTES
            else memoryview(self.rows)[: size + _WORD.size]
        )

    def rows_of(self, row_size: int) -> bytes | memoryview:
        """The rows that were written, as a copy if other calls write to the buffer."""
        size = self.counts.elements * row_size
        return self.rows[:size] if self.row_bytes == _SPARE_BYTES else memoryview(self.rows)[:size]

    def errors_of(self, source: bytes, positions: Positions) -> Errors:
        """The errors that were written, as a copy if other calls write to the buffer."""
        rows: Any = self.errors
        if self.error_room == _FEW_ERRORS:
            rows = rows.__class__.from_buffer_copy(rows) if self.counts.errors else ()
        return Errors(source, rows[: self.counts.errors], self.messages[: self.counts.message_bytes], positions)


# The buffers that no call is using, each of `_SPARE_BYTES`: as many as threads that called at once.
_spare: list[_Buffers] = []


def _taken(row_bytes: int) -> _Buffers:
    """Buffers with so many bytes for rows at least, or with none where that was refused. A call that raises never gives
    them back."""
    try:
        return _spare.pop() if row_bytes <= _SPARE_BYTES else _Buffers(row_bytes)
    except IndexError:
        return _Buffers(_SPARE_BYTES)
    except MemoryError:
        return _Buffers(0)


def _give_back(buffers: _Buffers) -> None:
    if buffers.row_bytes == _SPARE_BYTES:
        _spare.append(buffers)


def _filled(call: Any, source: bytes, limit: Limits | int, row_size: int) -> _Buffers:
    """Buffers with all that a call gives of a text, to be given back. With a row size of 0 rows are left out.

    The first call has room for a row for each byte and 64 more: none of the texts that the project is tried with has
    more. A text may have five for each token: then a second call has room for all."""
    guess = (
        min(len(source), 5 * (limit if isinstance(limit, int) else limit.tokens), 2**28) + 64
        if len(source) < 2**31
        else 0
    )  # a longer text has no rows
    buffers = _taken(guess * row_size)
    while not buffers.fill(call, source, limit, row_size):
        small, counts = buffers, buffers.counts
        buffers = _Buffers(counts.elements * row_size, counts.errors, counts.message_bytes)
        _give_back(small)
    return buffers


# typed, since 1.0 equals 1 and is refused
@functools.lru_cache(typed=True)
def _limits(recursion_limit: int | None, token_limit: int | None) -> Limits:
    return Limits(number("recursion_limit", recursion_limit), number("token_limit", token_limit))


def _bytes_of(text: Text) -> bytes:
    """The UTF-8 of a text. Of a subclass, which may say another length, it is the text itself; of what can change, a
    copy."""
    if isinstance(text, str):
        return str.encode(text)
    if isinstance(text, bytes):
        return bytes.__getitem__(text, slice(None))
    try:
        return memoryview(text).tobytes()
    except TypeError:
        raise TypeError(f"a text is a str or a bytes-like object, and not {type(text).__name__}") from None


def given(text: Text, recursion_limit: int | None, token_limit: int | None) -> tuple[bytes, Limits]:
    """A text and limits as the library takes them."""
    return _bytes_of(text), _limits(recursion_limit, token_limit)


def _parsed(call: Any, text: Text, recursion_limit: int | None, token_limit: int | None) -> Tree[Any]:
    """The tree that one of the library's calls gives for a text."""
    source, limits = given(text, recursion_limit, token_limit)
    buffers, positions = _filled(call, source, limits, ELEMENT_SIZE), Positions(source)
    errors, counts = buffers.errors_of(source, positions), buffers.counts
    tree: Tree[Any] = Tree(
        text, source, buffers.elements_of(), errors, counts.recursion_high, counts.token_high, positions
    )
    _give_back(buffers)
    return tree


def parse(text: Text, recursion_limit: int | None = 500, token_limit: int | None = None) -> Tree[nodes.Document]:
    """The tree of a text, which there is for any text, and its errors.

    `recursion_limit` is how deep selection sets, types and values may nest; parsing takes 80 to 192 bytes of the
    thread's stack for each level.
    `token_limit` is how many tokens are read at most, ignored ones and the end among them. None is no limit for either.
    Without a limit on nesting, a text that nests deeper than the stack holds ends the process.

    Raises `UnicodeDecodeError` or `UnicodeEncodeError` for a text that is not Unicode, `MemoryError`, and `ValueError`
    for one of 2**31 bytes, or for a limit below 0.
    """
    return _parsed(library.parse, text, recursion_limit, token_limit)


def parse_selection_set(
    text: Text, recursion_limit: int | None = 500, token_limit: int | None = None
) -> Tree[nodes.SelectionSet]:
    """The tree of a selection set, with its outer braces or with both left away. What follows it is not in the tree.
    Else as `parse`."""
    return _parsed(library.parse_selection_set, text, recursion_limit, token_limit)


def parse_type(text: Text, recursion_limit: int | None = 500, token_limit: int | None = None) -> Tree[Node]:
    """The tree of a type: a NAMED_TYPE, a LIST_TYPE or a NON_NULL_TYPE; or a node of kind "ERROR", where the text
    begins neither with a name nor with `[`. What follows it is not in the tree. Else as `parse`."""
    return _parsed(library.parse_type, text, recursion_limit, token_limit)


def lex(text: Text, token_limit: int | None = None) -> list[Item]:
    """The items of a text in order, tokens and bad text, which join to it. If there are more than the limit allows, the
    end of the text counted, the limit is the last item. Exceptions are those of `parse`."""
    source, limits = given(text, 0, token_limit)
    buffers, positions = _filled(library.lex, source, limits.tokens, ITEM_SIZE), Positions(source)
    errors, rows = iter(buffers.errors_of(source, positions)), buffers.rows_of(ITEM_SIZE)
    _give_back(buffers)
    found = []
    for row in (ItemRow * (len(rows) // ITEM_SIZE)).from_buffer_copy(rows):
        error = next(errors) if row.is_error else None
        found.append(
            Item(NAMES[row.kind], source[row.start : row.end].decode(), (row.start, row.end), error, positions)
        )
    if not found[-1].error:
        found.pop()  # the end
    return found


def check(text: Text, recursion_limit: int | None = 500, token_limit: int | None = None) -> Errors:
    """The errors of a text. There are none exactly if it is a document within both limits. Limits and exceptions are
    those of `parse`."""
    source, limits = given(text, recursion_limit, token_limit)
    buffers = _filled(library.parse, source, limits, 0)
    errors = buffers.errors_of(source, Positions(source))
    _give_back(buffers)
    return errors


def format(
    text: Text, recursion_limit: int | None = 500, token_limit: int | None = None, max_output: int | None = None
) -> str:
    """A document in the layout of the program gqlfmt.

    `max_output` is how many bytes the formatted text may have, if not given 64 MiB, or 16 for each byte of the text, if
    that is more: lists that nest deeply grow to hundreds of times their length.

    Raises `NotADocument` with the errors if it is none, `ValueError` if the formatted text has more bytes, and else as
    `parse` does."""
    source, limits = given(text, recursion_limit, token_limit)
    most = max(1 << 26, 16 * len(source)) if max_output is None else number("max_output", max_output)
    room = min(2 * len(source) + 64, most)
    while True:
        formatted, size = bytearray(max(room, 1)), ctypes.c_size_t()
        status = library.format_document(
            source, len(source), limits, library.place(formatted), room, ctypes.byref(size)
        )
        library.raise_for(status, source)
        if status == NOT_A_DOCUMENT:
            raise NotADocument(check(source, recursion_limit, token_limit))
        if status == OK:
            return formatted[: size.value].decode()
        if room == most:
            raise ValueError(f"the formatted text has more than {most} bytes")
        room = min(4 * room, most)
