"""One field of all forms in a folder, drawn from the disk by itself: column.py FIELD FOLDER

Of each form (*.gdf) nothing is read but the 8 bytes that tell version and counts, and the column of the
field. NumPy adds up the numbers where it is installed, from the bytes as they were read; else Python
does. A form of a version that has not the field is passed over.

    PYTHONPATH=python python3 examples/python/column.py blocked archive
"""

from __future__ import annotations

import io
import sys
from pathlib import Path
from typing import Iterator

import daybook

try:
    import numpy
except ImportError:
    numpy = None


class Drawn(io.FileIO):
    """A file without a buffer, and how many bytes were drawn from all of them."""

    bytes = 0

    def read(self, size: int = -1) -> bytes:
        data = super().read(size)
        Drawn.bytes += len(data)
        return data


def columns(field: str, folder: Path) -> Iterator[memoryview]:
    """The field of each form in the folder."""
    for path in sorted(folder.glob("*.gdf")):
        with Drawn(path) as file:
            try:
                yield daybook.read_column(file, field)
            except KeyError:
                continue


def figures(column: memoryview) -> tuple[int, int]:
    """The sum and the largest number of a column that has one."""
    if numpy is None:
        return sum(column), max(column)
    numbers = numpy.frombuffer(column, column.format)
    return int(numbers.sum()), int(numbers.max())


def told(field: str, folder: Path) -> str:
    """What the folder's forms have in a field, and what that took."""
    of_forms = list(columns(field, folder))
    found = [figures(column) for column in of_forms if len(column) > 0]
    total, largest = sum(total for total, _ in found), max((largest for _, largest in found), default=0)
    there = sum(path.stat().st_size for path in folder.glob("*.gdf"))
    count = sum(len(column) for column in of_forms)
    return (
        f"{field}: {count:,} numbers of {len(of_forms):,} forms, sum {total:,}, largest {largest:,}; "
        f"{Drawn.bytes:,} of {there:,} bytes drawn"
    )


if __name__ == "__main__":
    if len(sys.argv) != 3 or sys.argv[1] not in daybook.FIELDS:
        sys.exit(f"usage: column.py FIELD FOLDER, with one of {', '.join(daybook.FIELDS)}")
    print(told(sys.argv[1], Path(sys.argv[2])))
