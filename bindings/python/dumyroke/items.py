"""The items that a text is cut into."""

from __future__ import annotations

from .errors import Error
from .positions import Placed, Positions


class Item(Placed):
    """A token of a text, bad text, or the token limit where it was met."""

    __slots__ = ("kind", "text", "error")

    kind: str
    """The kind of a token, as "L_CURLY", which its leaf has in a tree: "IDENT" for each name. "ERROR" for bad text and
    for the limit."""
    text: str
    """Its text, which is empty for the limit."""
    error: Error | None
    """What is wrong with bad text, or that the limit was met. A token has none."""

    def __init__(self, kind: str, text: str, range: tuple[int, int], error: Error | None, positions: Positions):
        super().__init__(range, positions)
        self.kind, self.text, self.error = kind, text, error

    def __str__(self) -> str:
        return self.text

    def __repr__(self) -> str:
        return f"<{self.kind} {self.range[0]}..{self.range[1]}>"
