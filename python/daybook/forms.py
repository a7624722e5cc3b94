"""The field-wise form of a book, and where each field stands in it."""

from __future__ import annotations

from collections.abc import Mapping
from dataclasses import dataclass
from typing import BinaryIO, Dict, Iterator, NamedTuple, Optional, Union

from .archive import Part, answered, lent, library
from .fields import HEADER_SIZES, Bytes

_USER_FIELDS = {
    "id": "I", "role": "B", "user_zeros": None, "physical_PVB": "i", "physical_TVB": "i", "physical_AVB": "i",
    "position_PVB": "i", "position_TVB": "i", "position_AVB": "i", "charges": "q", "assigned": "Q", "blocked": "Q",
}
_MANAGER_FIELDS = {"manager_PVB": "I", "manager_TVB": "I", "manager_AVB": "I"}
_TRADE_FIELDS = {
    "seller": "I", "buyer": "I", "area": "B", "kind": "B", "day": "B", "trade_zero": "B", "notified": "I", "standing": "I",
}
_WIDTHS = {"B": 1, "I": 4, "i": 4, "Q": 8, "q": 8, None: 3}

FIELDS: Dict[str, Optional[str]] = {**_USER_FIELDS, **_MANAGER_FIELDS, **_TRADE_FIELDS}
"""The fields of a form in the order of their columns, each with the format of its numbers, as `struct`
and NumPy have it; the three zero bytes of a user are no number. Version 3 alone has managers."""

COUNTS_LENGTH = 8
"""Bytes at the front of a form that tell version and counts."""


class Column(NamedTuple):
    """Where a field of all records stands in a form: `count` numbers of `width` bytes from `offset` on."""

    offset: int
    width: int
    count: int

    @property
    def end(self) -> int:
        """The place behind its last byte."""
        return self.offset + self.width * self.count


@dataclass(frozen=True)
class Columns(Mapping):
    """The columns of a form by the names of `FIELDS`, told by version and counts alone.

    >>> columns = Columns(version=3, users=30, trades=90)
    >>> columns["blocked"]
    Column(offset=1480, width=8, count=30)
    >>> "manager_PVB" in columns, "manager_PVB" in Columns(2, 30, 90)
    (True, False)
    """

    version: int
    users: int
    trades: int

    @classmethod
    def of(cls, form: Bytes) -> Columns:
        """The columns of a form, of which the first 8 bytes are enough; a `ValueError` where they are
        none of a form. `Form` asks whether all of it is one."""
        counts = bytes(form[:COUNTS_LENGTH])
        if len(counts) < COUNTS_LENGTH or counts[:3] != b"GDF":
            raise ValueError("no form: it does not begin with its mark, version and counts")
        return cls(int.from_bytes(counts[3:5], "little"), counts[5], int.from_bytes(counts[6:8], "little"))

    def _places(self) -> Dict[str, Column]:
        end = HEADER_SIZES.get(self.version)
        if end is None:
            return {}
        managers = _MANAGER_FIELDS if self.version == 3 else {}
        places = {}
        for fields, count in (({**_USER_FIELDS, **managers}, self.users), (_TRADE_FIELDS, self.trades)):
            for name, kind in fields.items():
                places[name] = Column(end, _WIDTHS[kind], count)
                end = places[name].end
        return places

    def __getitem__(self, field: str) -> Column:
        return self._places()[field]

    def __iter__(self) -> Iterator[str]:
        return iter(self._places())

    def __len__(self) -> int:
        return len(self._places())


def typed(field: str, column: Bytes) -> memoryview:
    """The bytes of a field's column as its numbers, without a copy."""
    kind = FIELDS[field]
    view = memoryview(column)
    return view if kind is None else view.cast(kind)


class Form(Mapping):
    """The field-wise form of a book: by the names of `FIELDS` a view of the numbers of all records, which
    NumPy takes without a copy (`numpy.frombuffer(view, view.format)`). Bytes that no book yields raise
    `Refused` with 29.

    >>> import daybook
    >>> with open("../samples/day-3.gdb", "rb") as file:
    ...     form = daybook.Operator().form(file.read())
    >>> list(form["id"]), list(form["position_PVB"])
    ([101, 102, 103], [-45000, 40000, -3000])
    >>> form["charges"].format, form.columns["charges"]
    ('q', Column(offset=136, width=8, count=3))
    """

    def __init__(self, form: Bytes) -> None:
        restore(form)
        self._view = memoryview(form).toreadonly()
        self.columns = Columns.of(self._view)

    @property
    def bytes(self) -> bytes:
        """The bytes of the form, to be kept."""
        return bytes(self._view)

    def __getitem__(self, field: str) -> memoryview:
        column = self.columns[field]
        return typed(field, self._view[column.offset : column.end])

    def __iter__(self) -> Iterator[str]:
        return iter(self.columns)

    def __len__(self) -> int:
        return len(self.columns)


def restore(form: Union[Form, Bytes]) -> bytes:
    """The book of a form; bytes that no book yields raise `Refused` with 29."""
    given = form.bytes if isinstance(form, Form) else form
    lent_form = lent("form", given)
    part = Part("book", bytes(lent_form[1]))
    answered(library.daybook_raw_restore(*lent_form, *part.arguments))
    return part.bytes


def read_column(file: BinaryIO, field: str) -> memoryview:
    """One field of all records of a form in a file: nothing is read but its first 8 bytes and the
    column, where the file is opened without a buffer (`open(path, "rb", buffering=0)`). The form is not
    judged, since it is not read: a `ValueError` where it does not begin as a form or ends before the
    column, a `KeyError` where its version has not the field."""
    file.seek(0)
    column = Columns.of(file.read(COUNTS_LENGTH))[field]
    file.seek(column.offset)
    numbers = file.read(column.end - column.offset)
    if len(numbers) != column.end - column.offset:
        raise ValueError(f"no form: it ends before the column of {field} does")
    return typed(field, numbers)
