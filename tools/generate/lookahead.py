"""What each symbol begins with, what may follow it, and how each row can be brought to its end.

A class is the number of a leaf: a Name that is a keyword has the class of the keyword. The end of the tokens has class
0.
"""

import heapq
from functools import cached_property
from itertools import combinations

from .automata import rows
from .grammar import word

# In place of the class of a second token, where the symbol has no second token.
ALONE = None
END = 0
# The symbols that a parse begins with, and after which the tokens may end.
STARTS = ("DOCUMENT", "TYPE", "BARE_SELECTIONS", "SELECTION_SET")


class Lookahead:
    """What the table says beside the rows. Sets of classes are sets of numbers."""

    def __init__(self, symbols):
        self.symbols = symbols
        self.number = symbols.number
        self.rows = rows(symbols)
        self.classes = set(range(self.number["DOCUMENT"]))
        self.names = {self.number[name] for name in ["IDENT", *symbols.grammar.keywords]}
        self.pairs = {leaf: {(a, ALONE) for a in self.accepted(leaf)} for leaf in symbols.leaves}
        self.close_pairs()

    def accepted(self, leaf):
        """The classes of tokens that the leaf reads."""
        without = {
            "IDENT": (),
            "IDENT_FOR_FRAGMENT": ("on_KW",),
            "IDENT_FOR_ENUM": ("true_KW", "false_KW", "null_KW"),
        }
        if leaf not in without:
            return {self.number[leaf]}
        return self.names - {self.number[keyword] for keyword in without[leaf]}

    def close_pairs(self):
        """The classes of the first two tokens of each node, from those of its children, until nothing changes."""
        self.pairs |= {name: set() for name in self.rows}
        changed = True
        while changed:
            changed = False
            for name, states in self.rows.items():
                new = {pair for arc in states[0].arcs for pair in self.pairs_along(states, arc)}
                changed |= not new <= self.pairs[name]
                self.pairs[name] |= new

    def pairs_along(self, states, arc):
        """The pairs with which a row begins whose first child is the arc's."""
        symbol, target = arc
        seconds = self.begins(states[target]) | ({ALONE} if states[target].ends else set())
        for first, second in self.pairs[symbol]:
            if second is ALONE:
                yield from ((first, following) for following in seconds)
            else:
                yield first, second

    def begins(self, state):
        """The classes of the first tokens that may come in the state."""
        return {first for symbol, _ in state.arcs for first in self.first(symbol)}

    def first(self, symbol):
        """The classes of the first token of a symbol."""
        return {first for first, _ in self.pairs[symbol]}

    @cached_property
    def by_two(self):
        """The symbols that the first token does not distinguish from all others of a state, each with the class of that
        token."""
        found = set()
        for state in (state for states in self.rows.values() for state in states):
            for (symbol, _), (other, _) in combinations(state.arcs, 2):
                shared = self.first(symbol) & self.first(other)
                found |= {(name, first) for name in (symbol, other) for first in shared}
        return found

    def entries(self, name):
        """Triples: classes of the first token, classes of the second, and whether the first may be all. When the first
        token alone distinguishes the symbol from others, the second may be of any class."""
        seconds = {}
        for first, second in self.pairs.get(name, ()):
            seconds.setdefault(first, set()).add(second)
        found = {}
        for first in sorted(seconds):
            second = frozenset(seconds[first])
            if second != {ALONE} and (name, first) not in self.by_two:
                second = frozenset(self.classes | {ALONE})
            found.setdefault(second, set()).add(first)
        return [(firsts, set(second - {ALONE}), ALONE in second) for second, firsts in found.items()]

    def exits(self, name):
        """What the symbol can add to its parent's state."""
        return sorted({state.exit for state in self.rows[name] if state.ends}) if name in self.rows else [0]

    @cached_property
    def follow(self):
        """The classes that may follow a symbol, by the symbol and what it adds to its parent's state."""
        found = {(name, exit): set() for name in self.symbols.names for exit in (0, 1)}
        for name in STARTS:
            found[name, 0].add(END)
        changed = True
        while changed:
            changed = False
            for name, states in self.rows.items():
                for symbol, exit, after in self.children(name, states):
                    new = self.begins(after) | (found[name, after.exit] if after.ends else set())
                    changed |= not new <= found[symbol, exit]
                    found[symbol, exit] |= new
        return found

    def children(self, name, states):
        """Each symbol that may be a child, with its addition to its parent's state, and the state after it."""
        for state in states:
            for symbol, target in state.arcs:
                for exit in self.exits(symbol):
                    yield symbol, exit, states[target + (exit if name == "DOCUMENT" else 0)]

    def check(self):
        """Two tokens decide which child comes next, and whether the row ends; this says where they do not."""
        for name, states in self.rows.items():
            for index, state in enumerate(states):
                both = self.begins(state) & self.follow[name, state.exit] if state.ends else None
                if both:
                    raise SystemExit(
                        f"Rows.antt: {name}, state {index}: the row may end, or go on, before {self.class_names(both)}"
                    )
                for later, arc in enumerate(state.arcs):
                    for other, _ in state.arcs[:later]:
                        if self.overlap(name, states, arc, other):
                            raise SystemExit(
                                f"Rows.antt: {name}, state {index}: two tokens do not tell {arc[0]} from {other}"
                            )

    def overlap(self, name, states, arc, other):
        """Whether tokens with which the other symbol begins may also begin the arc's, before its successors in the
        row."""
        symbol, target = arc
        after = set()
        for exit in self.exits(symbol):
            state = states[target + (exit if name == "DOCUMENT" else 0)]
            after |= self.begins(state) | (self.follow[name, state.exit] if state.ends else set())
        for first, second, alone in self.entries(symbol):
            seconds = second | (after if alone else set())
            for other_first, other_second, other_alone in self.entries(other):
                if first & other_first and (other_alone or seconds & other_second):
                    return True
        return False

    def class_names(self, classes):
        """A set of classes in words."""
        if classes >= self.classes:
            return "anything"
        kinds = self.symbols.grammar.leaves
        found = []
        if len(classes & self.names) > len(self.names) // 2:
            missing = [word(kinds[a]) for a in sorted(self.names - classes)]
            found.append("Names but " + " ".join(missing) if missing else "Names")
            classes = classes - self.names
        return ", ".join(found + ["the end" if a == END else word(kinds[a]) for a in sorted(classes)]) or "nothing"

    @cached_property
    def endings(self):
        """For each state of a row symbols that end it: those of the least height, and then the fewest."""
        height = {leaf: 0 for leaf in self.symbols.leaves}
        changed = True
        while changed:
            changed = False
            for name, states in self.rows.items():
                best = self.ending(states, 0, height)
                if best and height.get(name, best[0] + 2) > best[0] + 1:
                    height[name] = best[0] + 1
                    changed = True
        for name in self.rows:
            if name not in height:
                raise SystemExit(f"Rows.antt: no {self.symbols.label[name]} has an end: each has another one in it")
        return {
            name: [self.ending(states, index, height)[1] for index in range(len(states))]
            for name, states in self.rows.items()
        }

    def ending(self, states, start, height):
        """The least height of symbols that end the row from the state, and those symbols; None where no heights are
        known yet."""
        heap = [(0, 0, (), (), start)]
        while heap:
            highest, length, numbers, word, index = heapq.heappop(heap)
            if states[index].ends:
                return highest, word
            for symbol, target in states[index].arcs:
                if symbol in height and length < len(states):
                    longer = (*numbers, self.number[symbol])
                    heapq.heappush(heap, (max(highest, height[symbol]), length + 1, longer, (*word, symbol), target))
        return None
