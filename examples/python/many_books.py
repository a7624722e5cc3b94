"""Many books by several processes: a row of each book, with the figures of `daybook table`.

`rows` takes the books of a part one after another and keeps nothing between them, so that it is also what a Spark job
hands its parts to, with the module and its shared object on every machine:

    sparkContext.binaryFiles("books").mapPartitions(rows).collect()

Here the parts are spread over the processes of one machine:

    PYTHONPATH=python python3 examples/python/many_books.py BOOK..
"""

from __future__ import annotations

import concurrent.futures
import sys
from collections.abc import Iterable, Iterator
from pathlib import Path

import daybook

PART = 16


def rows(books: Iterable[tuple[str, bytes]]) -> Iterator[tuple[str, int, int, int, int]]:
    """Of each book its name, the number it is refused with or 0, and of its run reductions, MWh and worth in cents."""
    operator = daybook.Operator()
    for name, book in books:
        try:
            run = operator.run(book)
        except daybook.Refused as refused:
            yield name, refused.number, 0, 0, 0
        else:
            yield name, 0, run.reductions, run.mwh, run.worth


def part(names: list[str]) -> list[tuple[str, int, int, int, int]]:
    """The rows of one part, read where it is worked on."""
    return list(rows((name, Path(name).read_bytes()) for name in names))


def main(names: list[str]) -> None:
    parts = [names[at : at + PART] for at in range(0, len(names), PART)]
    print("book,number,reductions,mwh,worth_cents")
    with concurrent.futures.ProcessPoolExecutor() as pool:
        for told in pool.map(part, parts):
            for row in told:
                print(*row, sep=",")


if __name__ == "__main__":
    main(sys.argv[1:])
