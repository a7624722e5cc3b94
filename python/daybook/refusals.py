"""Refusals: the questions of documents 01 and 02, by their numbers."""

from __future__ import annotations

from typing import Optional, Tuple, Union

from .faults import Fault, faults, faults_of_fields
from .fields import Book

QUESTIONS = {
    1: "at least 32 bytes, starting with the mark?",
    2: "version 1, 2 or 3?",
    3: "counts in range and length exactly 32 (versions 2 and 3: 40) + 56 (version 3: 68) × users + 20 × trades?",
    4: "date, prices, tolls and selling tariffs in range?",
    5: "every user field valid, managers too, positions apart?",
    6: "every trade valid?",
    7: "every position as defined?",
    8: "id in the book?",
    9: "a shipper?",
    10: "area 0 to 2, and the new physical entry within ±1,000,000?",
    11: "level − blocked > 1,000,000 (with a store, its figure), and, but for the morning call, user called in?",
    12: "assigned ≥ level?",
    13: "assigned < level?",
    14: "has the user an eligible trade?",
    15: "at most 512 lines, columns and places of one count?",
    16: "is the store well formed?",
    17: "has the store a set in force on the book's date?",
    18: "has the log an entry?",
    19: "is the log one for the book?",
    20: "has the log room for one more entry?",
    21: "is no information lost?",
    22: "is the output long enough?",
    23: "is the target version known?",
    24: "are all eligible trades together worth the target?",
    25: "1 to 65,535 tries?",
    26: "may the party make this call?",
    27: "every balance within ±500,000,000 kWh?",
    28: "at most 64 users?",
    29: "does the form yield an accepted book?",
    30: "is the output long enough?",
}
"""The questions by their numbers."""


Refusable = Union[bytes, Book]
"""What was refused: a book, or the fields that were to be written."""


class Refused(Exception):
    """A refusal: the number of the first question that is answered by no, and the question in words. Of a
    book, or of fields that are none, it has the faults too: which fields of which records fail the question.

    >>> import daybook
    >>> from dataclasses import replace
    >>> with open("../samples/day.gdb", "rb") as file:
    ...     book = daybook.Operator().read(file.read())
    >>> first, *others = book.users
    >>> try:
    ...     daybook.write(replace(book, users=(replace(first, role=2), *others)))
    ... except daybook.Refused as refused:
    ...     number, fault = refused.number, refused.faults[0]
    >>> number, fault.record, fault.place, fault.field
    (5, 'user', 0, 'role')
    >>> print(fault)
    user 1, id 101: role 2 is neither 0 (shipper) nor 1 (clearing house)
    """

    def __init__(self, number: int, given: Optional[Refusable] = None) -> None:
        self.number = number
        self.question = QUESTIONS.get(number, "")
        self._given = given
        super().__init__(number)

    @property
    def faults(self) -> Tuple[Fault, ...]:
        """The fields that fail the question, in the order of the book; none of a question that is not one of
        the first seven. They are looked for when they are asked for."""
        given = self._given
        if isinstance(given, Book):
            return faults_of_fields(given, self.number)
        return () if given is None else faults(given, self.number)

    def __str__(self) -> str:
        told = [str(fault) for fault in self.faults]
        more = f" (and {len(told) - 1} more)" if len(told) > 1 else ""
        return f"refused by question {self.number}: {self.question}" + "".join(f" {first}{more}" for first in told[:1])

    def __reduce__(self) -> Tuple[object, ...]:
        return Refused, (self.number, self._given)


# Told by the name that a caller has for it.
Refused.__module__ = "daybook"
