"""The row of each symbol as an automaton with as few states as possible, which are patterns of the children that may
still come."""

from dataclasses import dataclass

from .patterns import NEVER, derivative, nullable, symbols


@dataclass
class State:
    """Whether the row may end here, what the node then adds to its parent's state, and the arcs: each a symbol and the
    state after it."""

    ends: bool
    exit: int
    arcs: list


def automaton(pattern):
    """Pairs of `ends` and `arcs` for each state; the first is the one in which a row begins."""
    alphabet = symbols(pattern)
    patterns, arcs = [pattern], []
    while len(arcs) < len(patterns):
        here = []
        for symbol in alphabet:
            after = derivative(patterns[len(arcs)], symbol)
            if after == NEVER:
                continue
            if after not in patterns:
                patterns.append(after)
            here.append((symbol, patterns.index(after)))
        arcs.append(here)
    return fewest([nullable(pattern) for pattern in patterns], arcs)


def fewest(ends, arcs):
    """The same automaton with equivalent states merged into one, in the order in which they are first reached."""
    groups = [int(end) for end in ends]
    while True:
        seen = [
            (groups[index], [(symbol, groups[target]) for symbol, target in here]) for index, here in enumerate(arcs)
        ]
        finer = [seen.index(one) for one in seen]
        if len(set(finer)) == len(set(groups)):
            break
        groups = finer
    order = sorted(set(finer))
    return [(ends[index], [(symbol, order.index(finer[target])) for symbol, target in arcs[index]]) for index in order]


def document(states):
    """The brace rule: after a definition that lacks its block, in a third state, no query comes that is a selection set
    alone."""
    start, more = states
    return [start, more, (True, [arc for arc in more[1] if arc[0] != "SHORT_QUERY"])]


def rows(table):
    """The states of each symbol that has a row."""
    found = {}
    for name, pattern in table.pattern.items():
        states = automaton(pattern)
        if name == "DOCUMENT":
            states = document(states)
        found[name] = [State(ends, lacks_block(name, ends, arcs, table.grammar.lists), arcs) for ends, arcs in states]
    return found


def lacks_block(name, ends, arcs, lists):
    """1 where a definition that may have a block ends before it, else 0."""
    return int(name in lists["Braced"] and ends and any(symbol in lists["Blocks"] for symbol, _ in arcs))
