"""The C library, as bindings/c/include/dumyroke.h declares it. A call lets other threads run."""

from __future__ import annotations

import ctypes
import operator
import os
import sys
from ctypes import POINTER, c_char, c_char_p, c_size_t, c_uint32, c_void_p
from mmap import mmap
from typing import Any, SupportsIndex

from .rows import NO_MEMORY, NOT_A_STRING, NOT_UTF8, TOO_LONG, Counts, Limits, MeasureCounts, ViolationCounts

NO_LIMIT = c_size_t(-1).value

_FILES = {"darwin": "libdumyroke.dylib", "win32": "dumyroke.dll"}
_library = ctypes.CDLL(os.path.join(os.path.dirname(__file__), _FILES.get(sys.platform, "libdumyroke.so")))

parse = _library.dumyroke_parse
parse_selection_set = _library.dumyroke_parse_selection_set
parse_type = _library.dumyroke_parse_type
for _call in (parse, parse_selection_set, parse_type):
    _call.restype = c_uint32
    _call.argtypes = [
        c_char_p, c_size_t, Limits, c_void_p, c_size_t, c_void_p, c_size_t, c_void_p, c_size_t, POINTER(Counts),
    ]

lex = _library.dumyroke_lex
lex.restype = c_uint32
lex.argtypes = [
    c_char_p, c_size_t, c_size_t, c_void_p, c_size_t, c_void_p, c_size_t, c_void_p, c_size_t, POINTER(Counts),
]

string_value = _library.dumyroke_string_value
string_value.restype = c_uint32
string_value.argtypes = [c_char_p, c_size_t, c_void_p, c_size_t, POINTER(c_size_t)]

format_document = _library.dumyroke_format
format_document.restype = c_uint32
format_document.argtypes = [c_char_p, c_size_t, Limits, c_void_p, c_size_t, POINTER(c_size_t)]

default_steps = _library.dumyroke_default_steps
default_steps.restype = c_size_t
default_steps.argtypes = [c_size_t]

validate = _library.dumyroke_validate
validate.restype = c_uint32
validate.argtypes = [
    c_char_p, c_size_t, Limits, c_size_t, c_size_t, c_void_p, c_size_t, c_void_p, c_size_t, POINTER(ViolationCounts),
]

measure = _library.dumyroke_measure
measure.restype = c_uint32
measure.argtypes = [c_char_p, c_size_t, Limits, c_void_p, c_size_t, POINTER(MeasureCounts)]


def number(name: str, value: SupportsIndex | None) -> int:
    """A number that a caller gives as an argument of this name. None is no limit, and so is one that needs more than 64
    bits, which ctypes would cut off.

    Raises `TypeError` if it is no int, and `ValueError` if it is below 0."""
    if value is None:
        return NO_LIMIT
    try:
        whole = operator.index(value)
    except TypeError:
        raise TypeError(f"{name} is an int or None, and not {type(value).__name__}") from None
    if whole < 0:
        raise ValueError(f"{name} is below 0: {whole}")
    return min(whole, NO_LIMIT)


def place(buffer: bytearray | mmap) -> Any:
    """A pointer to a buffer that is not empty. The buffer can't be resized while the pointer is there."""
    return ctypes.byref(c_char.from_buffer(buffer))


def raise_for(status: int, source: bytes) -> None:
    """Raises what a status means, except OK and the statuses of one call alone."""
    if status == NOT_UTF8:
        source.decode()  # this says where
        raise ValueError("the text is not UTF-8")
    if status == TOO_LONG:
        raise ValueError("the text is too long: it has 2**31 bytes or more, or its tree 2**28 elements")
    if status == NO_MEMORY:
        raise MemoryError("the parser was refused memory")


def value_of_string(literal: str) -> str:
    """The value of a string literal, which is given with its quotes. Raises ValueError if it is none."""
    source = literal.encode()
    value, size = bytearray(len(source) + 1), c_size_t()
    status = string_value(source, len(source), place(value), len(source), ctypes.byref(size))
    raise_for(status, source)
    if status == NOT_A_STRING:
        raise ValueError("not a string literal")
    return value[: size.value].decode()
