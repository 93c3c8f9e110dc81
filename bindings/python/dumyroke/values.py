"""The values of literals. Each is None where the token is missing, which needs an error in the text."""

from __future__ import annotations

from typing import TYPE_CHECKING

from .kinds import STRING_VALUE
from .library import value_of_string

if TYPE_CHECKING:
    from .tree import Node


def _token_text(node: Node, kind: str) -> str | None:
    token = node.child(kind)
    return token.text if token else None


def integer(node: Node) -> int | None:
    """Python reads numbers of at most 4,300 digits, and raises ValueError for longer ones
    (`sys.set_int_max_str_digits`)."""
    text = _token_text(node, "INT")
    return None if text is None else int(text)


def floating(node: Node) -> float | None:
    text = _token_text(node, "FLOAT")
    return None if text is None else float(text)


def string(node: Node) -> str | None:
    text = _token_text(node, "STRING")
    return None if text is None else value_of_string(text)


def boolean(node: Node) -> bool | None:
    if node.child("true_KW"):
        return True
    return False if node.child("false_KW") else None


def name(node: Node) -> str | None:
    return _token_text(node, "NAME")


def description(node: Node) -> str | None:
    literal = node._first((STRING_VALUE,))
    return string(literal) if literal else None
