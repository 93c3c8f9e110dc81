"""Trees, and what nodes and tokens have in common.

A tree is one array of numbers that the library filled. Nodes and tokens are made when they are looked at: each is a
reference to the tree and an index, and two of the same element are equal. The class of a node says its kind; the
classes are in `nodes`.
"""

from __future__ import annotations

from array import array
from typing import TYPE_CHECKING, Any, Generic, Iterator, TypeVar, overload

from .errors import Errors
from .kinds import FIRST_NODE, NAMES, NUMBERS
from .positions import Position, Positions
from .rows import ELEMENT_SIZE, KIND_AT

if TYPE_CHECKING:
    from .calls import Text
    from .nodes import Document

N = TypeVar("N", bound="Node")
R = TypeVar("R", bound="Node")


class Element:
    """A node or a token of a tree."""

    __slots__ = ("_tree", "_index")

    def __init__(self, tree: Tree[Any], index: int):
        self._tree = tree
        self._index = index

    @property
    def tree(self) -> Tree[Any]:
        """The tree that it is an element of."""
        return self._tree

    @property
    def index(self) -> int:
        """Its number in document order. The root has 0."""
        return self._index

    @property
    def kind(self) -> str:
        """Its kind, as "FIELD" or "L_CURLY"."""
        return _NAMES[self._tree._kinds[self._index]]

    @property
    def text(self) -> str:
        """Its text."""
        tree, index = self._tree, self._index
        return tree._text_of(tree._starts[index], tree._starts[index + (tree._sizes[index] >> 4)])

    @property
    def range(self) -> tuple[int, int]:
        """The bytes of its text in UTF-8: the first, and the one after the last."""
        starts, index = self._tree._starts, self._index
        return starts[index], starts[index + (self._tree._sizes[index] >> 4)]

    @property
    def span(self) -> tuple[int, int]:
        """The same in indices of the `str`, so that `tree.text[slice(*element.span)] == element.text`."""
        start, end = self.range
        return self._tree._positions.character(start), self._tree._positions.character(end)

    @property
    def position(self) -> Position:
        """Where it begins: its line and its columns."""
        return self._tree._positions.position(self._tree._starts[self._index])

    @property
    def parent(self) -> Node | None:
        """The node that it is a child of. The root has none."""
        return self._tree._node(self._index - self._tree._parent_distance(self._index)) if self._index else None

    def __eq__(self, other: object) -> bool:
        return isinstance(other, Element) and self._tree is other._tree and self._index == other._index

    def __hash__(self) -> int:
        return hash((id(self._tree), self._index))

    def __str__(self) -> str:
        return self.text

    def __repr__(self) -> str:
        return f"<{self.kind} {self.range[0]}..{self.range[1]}>"


class Token(Element):
    """A token: white space, a comment, a comma, a punctuator, a word, a number, a string, or text that was refused
    (kind ERROR)."""

    __slots__ = ()

    @property
    def text(self) -> str:
        """Its text."""
        tree, index = self._tree, self._index
        return tree._text_of(tree._starts[index], tree._starts[index + 1])


class Node(Element):
    """A node."""

    __slots__ = ()

    KIND = ""
    """The kind of the nodes of this class."""

    def __init_subclass__(cls, kind: str = "") -> None:
        if kind:
            cls.KIND = kind
            _CLASSES[NUMBERS[kind]] = cls

    @property
    def children(self) -> list[Node]:
        """Its children that are nodes, in document order."""
        tree = self._tree
        sizes, kinds, classes = tree._sizes, tree._kinds, _CLASSES
        index, end, found = self._index + 1, self._end(), []
        while index < end:
            kind = kinds[index]
            if kind < FIRST_NODE:
                index += 1
            else:
                found.append(classes[kind](tree, index))
                index += sizes[index] >> 4
        return found

    @property
    def children_with_tokens(self) -> list[Element]:
        """All of its children, in document order."""
        return [self._tree._node(index) for index in self._child_indices()]

    @property
    def descendants(self) -> Iterator[Node]:
        """The node itself and all nodes below it, in document order."""
        tree, classes = self._tree, _CLASSES
        for index, kind in enumerate(tree._kinds[self._index : self._end()], self._index):
            if kind >= FIRST_NODE:
                yield classes[kind](tree, index)

    @property
    def descendants_with_tokens(self) -> Iterator[Element]:
        """The node itself and all elements below it, in document order."""
        tree, classes = self._tree, _CLASSES
        for index, kind in enumerate(tree._kinds[self._index : self._end()], self._index):
            yield classes[kind](tree, index)

    @overload
    def find(self, kind: type[N]) -> list[N]: ...
    @overload
    def find(self, kind: str) -> list[Element]: ...
    def find(self, kind: type[Node] | str) -> Any:
        """All elements of a kind, the node itself and those below it, in document order. A kind is a class of `nodes`,
        or a name as "IDENT"."""
        tree, number = self._tree, _number_of(kind)
        made, kinds, end = _CLASSES[number], tree._kinds, self._end()
        index, found = kinds.find(number, self._index, end), []
        while index != -1:
            found.append(made(tree, index))
            index = kinds.find(number, index + 1, end)
        return found

    @overload
    def child(self, kind: type[N]) -> N | None: ...
    @overload
    def child(self, kind: str) -> Element | None: ...
    def child(self, kind: type[Node] | str) -> Any:
        """Its first child of a kind, or None."""
        return self._first((_number_of(kind),))

    def _end(self) -> int:
        """The index after the node and all below it."""
        return self._index + (self._tree._sizes[self._index] >> 4)

    def _child_indices(self) -> Iterator[int]:
        kinds, sizes = self._tree._kinds, self._tree._sizes
        index, end = self._index + 1, self._end()
        while index < end:
            yield index
            index += 1 if kinds[index] < FIRST_NODE else sizes[index] >> 4

    def _first(self, kinds: tuple[int, ...]) -> Any:
        """The first child whose kind is one of these, or None."""
        tree, index, end = self._tree, self._index + 1, self._end()
        all_kinds, sizes = tree._kinds, tree._sizes
        while index < end:
            kind = all_kinds[index]
            if kind in kinds:
                return _CLASSES[kind](tree, index)
            index += 1 if kind < FIRST_NODE else sizes[index] >> 4
        return None

    def _all(self, kinds: tuple[int, ...]) -> list[Any]:
        """The children whose kind is one of these."""
        tree = self._tree
        return [tree._node(index) for index in self._child_indices() if tree._kinds[index] in kinds]

    def _first_in(self, kind: int, kinds: tuple[int, ...]) -> Any:
        """The first child whose kind is one of these, of the first child of a kind, or None."""
        node = self._first((kind,))
        return node._first(kinds) if node else None

    def _all_in(self, kind: int, kinds: tuple[int, ...]) -> list[Any]:
        """The children whose kind is one of these, of the first child of a kind. There are none if there is no such
        child."""
        node: Node | None = self._first((kind,))
        return node._all(kinds) if node else []


# Only the root where no type starts is a node of a kind of tokens, of ERROR. Here it has a number of its own.
_ERROR_NODE = len(NAMES)
_NAMES = (*NAMES, "ERROR")
# The class of each kind. `nodes` puts its own here.
_CLASSES: list[Any] = [Token] * FIRST_NODE + [Node] * (len(_NAMES) - FIRST_NODE)


def _number_of(kind: type[Node] | str) -> int:
    name = kind if isinstance(kind, str) else kind.KIND
    if name not in NUMBERS:
        raise ValueError(f"there is no kind {name!r}")
    return NUMBERS[name]


class Tree(Generic[R]):
    """The tree of a text and its errors. It keeps each byte of the text, also when there are errors. `R` is the class
    of its root."""

    __slots__ = (
        "errors", "recursion_high", "token_high", "_source", "_string", "_positions", "_starts", "_sizes", "_parents",
        "_kinds",
    )

    errors: Errors
    """The errors of the text. There are none exactly if it is a document within both limits."""
    recursion_high: int
    """The deepest level of nesting that was tried, which is one above the limit where that was met."""
    token_high: int
    """How many tokens were counted, the end of the text among them: one above the limit where that was met."""


    def __init__(
        self, text: Text, source: bytes, elements: bytes | memoryview, errors: Errors, recursion_high: int,
        token_high: int, positions: Positions,
    ):
        self.errors, self.recursion_high, self.token_high = errors, recursion_high, token_high
        self._source, self._positions = source, positions
        # where offsets of bytes are those of characters; a subclass of str may have other slices
        self._string = (text if type(text) is str else source.decode()) if source.isascii() else None
        # the columns of the rows (`dumyroke_element` of dumyroke.h), which a start follows; a walk reads sizes and
        # kinds, so these are copied
        words = memoryview(elements).cast("I")
        self._starts, sizes, self._parents = (words[column :: ELEMENT_SIZE // 4] for column in range(3))
        self._sizes = array("I", sizes.tobytes())
        self._kinds = bytes(elements[KIND_AT::ELEMENT_SIZE])
        if self._kinds[0] < FIRST_NODE:
            self._kinds = bytes([_ERROR_NODE]) + self._kinds[1:]

    def __reduce__(self) -> tuple[Any, ...]:
        """The rows are views, which have no copies, so they are handed on as bytes: those of the elements, and the
        start after them."""
        rows = memoryview(self._starts.obj)[: len(self) * ELEMENT_SIZE + self._starts.itemsize].tobytes()
        return type(self), (
            self._source, self._source, rows, self.errors, self.recursion_high, self.token_high, self._positions,
        )

    @property
    def text(self) -> str:
        """The text of the tree: all of the text, or its first tokens if the token limit was met."""
        return self.root.text

    @property
    def root(self) -> R:
        """The root. From `parse` it is a DOCUMENT."""
        root: R = self._node(0)
        return root

    @property
    def document(self) -> Document:
        """The same as `root`, in a tree from `parse`."""
        root: Document = self._node(0)
        return root

    @overload
    def find(self, kind: type[N]) -> list[N]: ...
    @overload
    def find(self, kind: str) -> list[Element]: ...
    def find(self, kind: type[Node] | str) -> Any:
        """All elements of a kind, in document order. A kind is a class of `nodes`, or a name as "IDENT"."""
        return self.root.find(kind)

    def position(self, offset: int) -> Position:
        """The line and the columns of a byte offset. Raises `ValueError` for one outside the text."""
        if not 0 <= offset <= len(self._source):
            raise ValueError(f"the offset {offset} is outside the text")
        return self._positions.position(offset)

    def __len__(self) -> int:
        """How many elements there are."""
        return len(self._kinds)

    def __repr__(self) -> str:
        return f"<Tree of {len(self)} elements, {len(self.errors)} errors>"

    def _parent_distance(self, index: int) -> int:
        """How many elements before an element its parent is."""
        return self._parents[index] & 0xFFFFFF | (self._sizes[index] & 15) << 24

    def _node(self, index: int) -> Any:
        return _CLASSES[self._kinds[index]](self, index)

    def _text_of(self, start: int, end: int) -> str:
        if self._string is not None:
            return self._string[start:end]
        return self._source[start:end].decode()
