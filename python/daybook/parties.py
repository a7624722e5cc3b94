"""Who acts on a book: the operator, who has every call, and a shipper, who is told of itself."""

from __future__ import annotations

import ctypes
from typing import Callable, Optional, Sequence, Tuple

from .answers import Cancellation, GuaranteeCall, Posting, PostingList, Reduction, Run, UserLevels, Withdrawal
from .archive import NUMBERS, OPERATOR, Log, Part, answered, id_argument, in_range, lent, library, store_arguments
from .fields import (
    BILATERAL, HEADER, HEADER_SIZES, IMAGE, MOST_TRADES, MOST_USERS, TRADE, TRADES_AT, USER, USER_SIZES, Book, Bytes,
    Trade, User,
)
from .forms import Form

_LOG_FULL = 20
_Image = ctypes.c_char * IMAGE
_STATES = ("clear", "short", "call", "quiet")


class _Party:
    """What both have: a number that tells who acts, a store of parameter sets or none, and the queries."""

    def __init__(self, party: int, store: Optional[Bytes]) -> None:
        self._party, self.store = party, store

    def _called(
        self, function: Callable[..., int], book: Bytes, arguments: Sequence[object], numbers: int
    ) -> tuple[list[int], bytes]:
        """Makes a call that may change a book on a copy of it: the numbers of its answer, and the book after it."""
        part = Part("book", book)
        answer = NUMBERS[numbers]()
        taken = (answer, numbers) if numbers else ()
        number = function(*part.arguments, self._party, *store_arguments(self.store), *arguments, *taken)
        if number != 0:
            answered(number, bytes(book))
        return list(answer)[:numbers], part.bytes

    def _asked(self, function: Callable[..., int], book: Bytes, arguments: Sequence[object], numbers: int) -> list[int]:
        """Makes a call that leaves the book, on its own bytes: the numbers of its answer."""
        given, length = lent("book", book)
        answer = NUMBERS[numbers]()
        taken = (answer, numbers) if numbers else ()
        number = function(given, length, self._party, *store_arguments(self.store), *arguments, *taken)
        if number != 0:
            answered(number, given)
        return list(answer)

    def _number(self, function: Callable[..., int], book: Bytes, id: int) -> int:
        """The answer of a query with one number."""
        return self._asked(function, book, (id_argument(id),), 1)[0]

    def _user(self, book: Bytes, id: int) -> User:
        record = Part("record", bytes(USER.size))
        self._asked(library.daybook_raw_show, book, (id_argument(id), *record.arguments), 0)
        return User._unpacked(record.bytes)[0]

    def _user_picked(self, morning: Bytes, afternoon: Bytes, afternoon_picked: bool, id: int) -> User:
        record = Part("record", bytes(USER.size))
        books = lent("morning", morning), lent("afternoon", afternoon)
        number = library.daybook_raw_show_picked(
            *books[0], *books[1], self._party, *store_arguments(self.store), bool(afternoon_picked),
            id_argument(id), *record.arguments,
        )
        answered(number, books[bool(afternoon_picked)][0])
        return User._unpacked(record.bytes)[0]

    def _trade(self, book: Bytes, id: int, ordinal: int) -> Optional[Trade]:
        """None past the last."""
        part = Part("record", bytes(TRADE.size))
        arguments = (id_argument(id), in_range("ordinal", ordinal, 0, 2**32 - 1), *part.arguments)
        (length,) = self._asked(library.daybook_raw_trade, book, arguments, 1)
        return Trade._unpacked(part.bytes)[0] if length else None

    def _trades(self, book: Bytes, id: int) -> list[Trade]:
        count = self._number(library.daybook_raw_trade_count, book, id)
        trades = (self._trade(book, id, ordinal) for ordinal in range(count))
        return [trade for trade in trades if trade is not None]


class Shipper(_Party):
    """A shipper, by its id: its own record, levels and flag, and the trades that it may see, which are its
    own and, in an area where it manages others, theirs. Nothing tells where they stand in the book. An id
    that is no shipper's of the book is refused with 26. A store of parameter sets is bytes, or none.

    >>> import daybook
    >>> with open("../samples/day.gdb", "rb") as file:
    ...     book = file.read()
    >>> shipper = daybook.Shipper(102)
    >>> shipper.afternoon_level(book), shipper.flag(book), shipper.trades(book)[0].seller
    (10000000, False, 101)
    >>> daybook.Shipper(103).flag(book)
    Traceback (most recent call last):
        ...
    daybook.Refused: refused by question 26: may the party make this call?
    """

    def __init__(self, id: int, store: Optional[Bytes] = None) -> None:
        super().__init__(id_argument(id), store)
        self.id = id

    def __repr__(self) -> str:
        return f"Shipper({self.id})"

    def record(self, book: Bytes) -> User:
        """Its record."""
        return self._user(book, self.id)

    def record_picked(self, morning: Bytes, afternoon: Bytes, afternoon_picked: bool) -> User:
        """Its record of the picked one of two books; only that one is questioned."""
        return self._user_picked(morning, afternoon, afternoon_picked, self.id)

    def morning_level(self, book: Bytes) -> int:
        """Its morning level, in cents."""
        return self._number(library.daybook_raw_morning_level, book, self.id)

    def afternoon_level(self, book: Bytes) -> int:
        """Its afternoon level, in cents."""
        return self._number(library.daybook_raw_afternoon_level, book, self.id)

    def flag(self, book: Bytes) -> bool:
        """Whether it is flagged."""
        return self._number(library.daybook_raw_flag, book, self.id) != 0

    def trade_count(self, book: Bytes) -> int:
        """How many trades it may see."""
        return self._number(library.daybook_raw_trade_count, book, self.id)

    def trade(self, book: Bytes, ordinal: int) -> Optional[Trade]:
        """The trade of this ordinal, from 0, among those that it may see; None past the last."""
        return self._trade(book, self.id, ordinal)

    def trades(self, book: Bytes) -> list[Trade]:
        """All trades that it may see, in the order of the book."""
        return self._trades(book, self.id)


class Operator(_Party):
    """The operator, who has every call on a book. A store of parameter sets is bytes, or none."""

    def __init__(self, store: Optional[Bytes] = None) -> None:
        super().__init__(OPERATOR, store)

    def __repr__(self) -> str:
        return "Operator()"

    def read(self, book: Bytes) -> Book:
        """The fields of a book. No store is looked at."""
        return Book._of_image(self._image(book))

    def _image(self, book: Bytes) -> bytes:
        """The fields of a book as the engine's image has them."""
        (given, length), image = lent("book", book), _Image()
        answered(library.daybook_raw_read(given, length, self._party, image, IMAGE), given)
        return image.raw

    def convert(self, book: Bytes, version: int) -> bytes:
        """The book as a version, 1, 2 or 3, its own too. Fields that its version has not are 0; where one
        that is not 0 would be lost, a selling tariff or a manager, it is refused with 21. No store is looked
        at."""
        number, image, (given, length) = in_range("version", version, 0, 2**32 - 1), _Image(), lent("book", book)
        answered(library.daybook_raw_convert(given, length, self._party, number, image, IMAGE), given)
        users, trades = given[5], int.from_bytes(given[6:8], "little")
        return image.raw[: HEADER_SIZES[version] + USER_SIZES[version] * users + TRADE.size * trades]

    def form(self, book: Bytes) -> Form:
        """The field-wise form of a book: its header with the mark GDF, all ids, all roles, and so on. No
        store is looked at."""
        given, length = lent("book", book)
        part = Part("form", bytes(length))
        answered(library.daybook_raw_form(given, length, self._party, *part.arguments), given)
        return Form(part.bytes)

    def record(self, book: Bytes, id: int) -> User:
        """The record of a user."""
        return self._user(book, id)

    def record_picked(self, morning: Bytes, afternoon: Bytes, afternoon_picked: bool, id: int) -> User:
        """The record of a user of the picked one of two books; only that one is questioned."""
        return self._user_picked(morning, afternoon, afternoon_picked, id)

    def posting(self, book: Bytes, id: int, area: int, amount: int, log: Optional[Bytes] = None) -> Posting:
        """Adds a signed amount of MWh to a user's physical entry and position in an area."""
        noted = Log(log)
        arguments = (
            *noted.arguments,
            id_argument(id),
            in_range("area", area, 0, 2**32 - 1),
            in_range("amount", amount, -(2**63), 2**63 - 1),
        )
        _, after = self._called(library.daybook_raw_posting, book, arguments, 0)
        return Posting(after, noted.bytes)

    def posting_list(
        self, book: Bytes, lines: Sequence[Tuple[int, int, int]], log: Optional[Bytes] = None
    ) -> PostingList:
        """Makes the postings of a list of id, area and amount one after another, at most 512."""
        ids = [in_range("id", line[0], 0, 2**32 - 1) for line in lines]
        areas = [in_range("area", line[1], 0, 2**32 - 1) for line in lines]
        amounts = [in_range("amount", line[2], -(2**63), 2**63 - 1) for line in lines]
        count, room = len(lines), max(len(lines), 1)
        places = (ctypes.c_uint32 * room)()
        noted = Log(log)
        arguments = (
            *noted.arguments,
            (ctypes.c_uint32 * room)(*ids), count, (ctypes.c_uint32 * room)(*areas), count,
            (ctypes.c_int64 * room)(*amounts), count, places, count,
        )
        _, after = self._called(library.daybook_raw_list, book, arguments, 0)
        return PostingList(tuple(places[:count]), after, noted.bytes)

    def morning_level(self, book: Bytes, id: int) -> int:
        """The morning level of a shipper, in cents."""
        return self._number(library.daybook_raw_morning_level, book, id)

    def afternoon_level(self, book: Bytes, id: int) -> int:
        """The afternoon level of a shipper, in cents; in versions 2 and 3 less the credit for long positions."""
        return self._number(library.daybook_raw_afternoon_level, book, id)

    def levels(self, book: Bytes) -> list[UserLevels]:
        """Id, state, morning and afternoon level of every user, in the order of the book, after one asking
        of its questions: each as the calls for its id tell."""
        numbers, _ = self._called(library.daybook_raw_levels, book, (), 4 * MOST_USERS)
        rows = (numbers[place : place + 4] for place in range(0, 4 * MOST_USERS, 4))
        return [UserLevels(id, _STATES[state], *levels) for id, state, *levels in rows if id]

    def level_table(self, book: Bytes) -> list[tuple[int, int, int]]:
        """Id, morning and afternoon level of every shipper of the book."""
        return [(id, morning, afternoon) for id, state, morning, afternoon in self.levels(book) if state != "clear"]

    def morning_call(self, book: Bytes, id: int, log: Optional[Bytes] = None) -> GuaranteeCall:
        """Raises a shipper's blocked guarantee to the morning level."""
        return self._guarantee_call(library.daybook_raw_morning_call, book, id, log)

    def afternoon_call(self, book: Bytes, id: int, log: Optional[Bytes] = None) -> GuaranteeCall:
        """Raises a shipper's blocked guarantee to the afternoon level."""
        return self._guarantee_call(library.daybook_raw_afternoon_call, book, id, log)

    def _guarantee_call(
        self, function: Callable[..., int], book: Bytes, id: int, log: Optional[Bytes]
    ) -> GuaranteeCall:
        noted = Log(log)
        (level, added), after = self._called(function, book, (*noted.arguments, id_argument(id)), 2)
        return GuaranteeCall(level, added, after, noted.bytes)

    def warning(self, book: Bytes, id: int) -> bool:
        """Whether a shipper is warned at midday."""
        return self._number(library.daybook_raw_warning, book, id) != 0

    def flag(self, book: Bytes, id: int) -> bool:
        """Whether a shipper is flagged."""
        return self._number(library.daybook_raw_flag, book, id) != 0

    def trade_count(self, book: Bytes, id: int) -> int:
        """How many trades a shipper may see."""
        return self._number(library.daybook_raw_trade_count, book, id)

    def trade(self, book: Bytes, id: int, ordinal: int) -> Optional[Trade]:
        """The trade of this ordinal, from 0, among those that a shipper may see; None past the last."""
        return self._trade(book, id, ordinal)

    def trades(self, book: Bytes, id: int) -> list[Trade]:
        """All trades that a shipper may see, in the order of the book."""
        return self._trades(book, id)

    def reduction(self, book: Bytes, id: int, log: Optional[Bytes] = None) -> Reduction:
        """Cuts a shipper's bilateral sales of the day until the level is covered."""
        noted = Log(log)
        numbers, after = self._called(library.daybook_raw_reduction, book, (*noted.arguments, id_argument(id)), 5)
        return Reduction(*numbers, after, noted.bytes)

    def cancellation(self, book: Bytes, id: int, tries: int = 65_535) -> Cancellation:
        """Whole trades of a shipper that cover what a reduction would be asked for."""
        marks = (ctypes.c_uint8 * MOST_TRADES)()
        arguments = (id_argument(id), in_range("tries", tries, 0, 2**32 - 1), marks, MOST_TRADES)
        excess, made, complete = self._asked(library.daybook_raw_cancellation, book, arguments, 3)
        trades = tuple(place for place, mark in enumerate(marks) if mark)
        return Cancellation(trades, excess, made, complete != 0)

    def run(self, book: Bytes, log: Optional[Bytes] = None) -> Run:
        """Reduces the lowest id that is short of cover and has an eligible trade, while there is one, or
        until the log is full, which is `log_full` and no refusal."""
        part, noted, answer = Part("book", book), Log(log), NUMBERS[3]()
        number = library.daybook_raw_run(
            *part.arguments, self._party, *store_arguments(self.store), *noted.arguments, answer, 3
        )
        if number not in (0, _LOG_FULL):
            answered(number, bytes(book))
        return Run(*answer, part.bytes, noted.bytes, number == _LOG_FULL)

    def withdrawal(self, book: Bytes, log: Bytes) -> Withdrawal:
        """Withdraws the last reduction that the log has noted."""
        part = Part("log", log)
        (mwh, worth), after = self._called(library.daybook_raw_withdrawal, book, part.arguments, 2)
        return Withdrawal(mwh, worth, after, part.bytes)

    def most_reductions(self, book: Bytes) -> int:
        """The most reductions that a run of this book can report: the MWh standing in its bilateral
        trades for d."""
        image = self._image(book)
        trades = image[TRADES_AT : TRADES_AT + TRADE.size * int.from_bytes(image[6:8], "little")]
        return sum(standing for *_, kind, day, _, standing in TRADE.iter_unpack(trades) if kind == BILATERAL and day == 0)
