"""What is made of a book's fields, or of a book, without an acting party: its bytes, and a log."""

from __future__ import annotations

import struct
from dataclasses import replace
from typing import Tuple

from .archive import Part, answered, lent, library
from .faults import defined_positions
from .fields import (
    HEADER, HEADER_SIZES, IMAGE, MOST_TRADES, MOST_USERS, TRADE, TRADES_AT, USER_SIZES, Areas, Book, Bytes, wrong,
)

LOG_LENGTH = 271_668


def write(book: Book) -> bytes:
    """The bytes of a book's fields. A number that its field cannot hold raises a `ValueError`, and what is no
    number a `TypeError`, both with the names of record and field."""
    users, trades = len(book.users), len(book.trades)
    image = bytearray(IMAGE)
    image[: HEADER.size] = _header(book)
    user_records = b"".join(user._packed(place) for place, user in enumerate(book.users[:MOST_USERS]))
    image[HEADER.size : HEADER.size + len(user_records)] = user_records
    trade_records = b"".join(trade._packed(place) for place, trade in enumerate(book.trades[:MOST_TRADES]))
    image[TRADES_AT : TRADES_AT + len(trade_records)] = trade_records
    start, user_size = HEADER_SIZES.get(book.version, 0), USER_SIZES.get(book.version, 0)
    part = Part("book", bytes(start + user_size * users + TRADE.size * trades))
    answered(library.daybook_raw_write(*lent("image", image), *part.arguments), book)
    return part.bytes


def _header(book: Book) -> bytes:
    prices = book.prices
    numbers = (
        book.version, min(len(book.users), 255), min(len(book.trades), 65535), book.date,
        prices.p, prices.q, prices.l, prices.x, prices.i, prices.s, prices.u,
    )
    try:
        return HEADER.pack(b"GDB", *numbers)
    except struct.error:
        names = ["version", "users", "trades", "date", "P", "Q", "L", "X", "I", "S", "U"]
        raise wrong("header: ", names, numbers, HEADER) from None


def positions(book: Book) -> Tuple[Areas, ...]:
    """The positions of the users of a book by area, as document 01 defines them: the physical entry, and what
    stands bought for d less what stands sold. The positions in the book are not looked at.

    >>> import daybook
    >>> with open("../samples/day.gdb", "rb") as file:
    ...     book = daybook.Operator().read(file.read())
    >>> daybook.positions(book)
    ((-40000, 0, 0), (30000, 0, 0))
    """
    return defined_positions(book)


def with_positions(book: Book) -> Book:
    """The book with the positions as they are defined, so that nobody has to add them up to make one.

    >>> import daybook
    >>> users = (daybook.User(101, physical=(-500, 0, 0)), daybook.User(102))
    >>> trade = daybook.Trade(101, 102, daybook.PVB, daybook.BILATERAL, day=0, notified=300, standing=300)
    >>> book = daybook.Book(20260318, daybook.Prices(2_000, 2_100), users, (trade,))
    >>> [user.position for user in with_positions(book).users]
    [(-800, 0, 0), (300, 0, 0)]
    """
    users = zip(book.users, defined_positions(book))
    return replace(book, users=tuple(replace(user, position=position) for user, position in users))


def start_log(book: Bytes) -> bytes:
    """A log of reductions that holds this book and has no entry."""
    log = Part("log", bytes(LOG_LENGTH))
    answered(library.daybook_raw_start_log(*log.arguments, *lent("book", book)))
    return log.bytes
