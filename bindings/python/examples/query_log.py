"""Goes over a log of GraphQL queries: which are invalid, which are the costliest, and how their costs are spread.

    query_log.py FOLDER                      in this process
    query_log.py FOLDER --workers N          in N processes, by Dask
    query_log.py FOLDER --scheduler ADDRESS  on the workers of a Dask scheduler, which all have the folder and the
                                             package dumyroke

The folder has files NAME.jsonl with a JSON object in each line; its field `query` is a document. The cost of a document
is the number of fields of its largest operation, with all fragments expanded. A query is given as NAME.jsonl and the
byte at which its line begins."""

from __future__ import annotations

import argparse
import functools
import heapq
import json
from collections import Counter
from dataclasses import dataclass, field
from pathlib import Path
from typing import Any, Iterator

import dumyroke

CHUNK_BYTES = 1 << 22
MOST_SHOWN = 10


@dataclass(frozen=True)
class Summary:
    """Of some queries: how many there are, how many break which rule first and one of each, how many have a cost with
    how many binary digits, and the costliest with their places."""

    queries: int = 0
    invalid: Counter[str] = field(default_factory=Counter)
    examples: dict[str, str] = field(default_factory=dict)
    digits: Counter[int] = field(default_factory=Counter)
    costliest: list[tuple[int, int, str]] = field(default_factory=list)


def fault_of(query: str) -> str | None:
    """The first rule that a document breaks, or "syntax", or "too much to validate"; None if it keeps all."""
    try:
        violations = dumyroke.validate(query, most=1)
    except (dumyroke.NotADocument, UnicodeError):
        return "syntax"
    except dumyroke.Undecided:
        return "too much to validate"
    return violations[0].rule if violations else None


def lines_in(file: Path, start: int) -> Iterator[tuple[int, bytes]]:
    """The lines that begin in a chunk of a file, each with the byte at which it begins."""
    with file.open("rb") as lines:
        if start:
            lines.seek(start - 1)
            lines.readline()
        while (at := lines.tell()) < start + CHUNK_BYTES and (line := lines.readline()):
            yield at, line


def summary_of(chunk: tuple[Path, int]) -> Summary:
    """The summary of a chunk of a file."""
    file, start = chunk
    queries, invalid, examples, digits, costs = 0, Counter(), {}, Counter(), []
    for at, line in lines_in(file, start):
        queries += 1
        query = json.loads(line)["query"]
        fault = fault_of(query)
        if fault:
            invalid[fault] += 1
            examples.setdefault(fault, f"{file.name}:{at}")
            continue
        figures = [operation.figures for operation in dumyroke.measure(query)]
        cost, depth = max((found.fields for found in figures), default=0), max(
            (found.depth for found in figures), default=0
        )
        digits[cost.bit_length()] += 1
        costs.append((cost, depth, f"{file.name}:{at}"))
    return Summary(queries, invalid, examples, digits, heapq.nlargest(MOST_SHOWN, costs))


def joined(one: Summary, other: Summary) -> Summary:
    """The summary of the queries of both."""
    costliest = heapq.nlargest(MOST_SHOWN, one.costliest + other.costliest)
    examples = {**other.examples, **one.examples}
    return Summary(
        one.queries + other.queries, one.invalid + other.invalid, examples, one.digits + other.digits, costliest
    )


def chunks(folder: Path) -> list[tuple[Path, int]]:
    """The files of a folder in chunks: each file with the byte at which one begins."""
    return [
        (file, start) for file in sorted(folder.glob("*.jsonl")) for start in range(0, file.stat().st_size, CHUNK_BYTES)
    ]


def by_dask(parts: list[tuple[Path, int]], place: Any) -> Summary:
    """The summary of chunks, made on the workers of a scheduler."""
    import dask.bag
    from distributed import Client

    with Client(place):
        return (
            dask.bag.from_sequence(parts, npartitions=max(len(parts), 1))
            .map(summary_of)
            .fold(joined, initial=Summary())
            .compute()
        )


def summarized(folder: Path, workers: int | None, scheduler: str | None) -> Summary:
    """The summary of all files of a folder, by Dask if there are workers or a scheduler."""
    if scheduler:
        return by_dask(chunks(folder), scheduler)
    if workers:
        from distributed import LocalCluster

        with LocalCluster(n_workers=workers, threads_per_worker=1) as cluster:
            return by_dask(chunks(folder), cluster)
    return functools.reduce(joined, map(summary_of, chunks(folder)), Summary())


def main() -> None:
    parser = argparse.ArgumentParser(description=__doc__, formatter_class=argparse.RawDescriptionHelpFormatter)
    parser.add_argument("folder", type=Path)
    parser.add_argument("--workers", type=int)
    parser.add_argument("--scheduler")
    words = parser.parse_args()
    found = summarized(words.folder.resolve(), words.workers, words.scheduler)
    print(f"{found.queries} queries, {sum(found.invalid.values())} of them invalid")
    for rule, count in found.invalid.most_common():
        print(f"{count:>12} {rule}, as {found.examples[rule]}")
    print("fields of the largest operation, and how many queries")
    for digits, count in sorted(found.digits.items()):
        print(f"{1 << max(digits - 1, 0) if digits else 0:>12} and more: {count}")
    print("the costliest: fields, depth, place")
    for cost, depth, place in found.costliest:
        print(f"{cost:>12} {depth:>4} {place}")


if __name__ == "__main__":
    main()
