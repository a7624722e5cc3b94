"""Where a book fails a question, and why, in words.

The number is the engine's. What is said here is the place that goes with it: the fields that fail the question of
that number. The tests hold it to the engine: a book has such a field exactly for the number that it is refused with,
and none for a number before it. The words are those of the program daybook.
"""

from __future__ import annotations

import calendar
from typing import Callable, Dict, Iterator, List, NamedTuple, Optional, Sequence, Tuple

from .fields import (
    AREAS, BILATERAL, CLEARING_HOUSE, HEADER, HEADER_SIZES, MOST_TRADES, MOST_USERS, TRADE, USER, USER_SIZES, Areas,
    Book, Prices, Trade, User,
)
from .words import counted, date, euros, grouped

_MOST_MONEY = 10**12
_MOST_ENTRY = 1_000_000
_MOST_PRICE = 100_000
_MOST_NOTIFIED = 100_000
_SHORT_HEADER = 32
PRICES = ("P", "Q", "L", "X", "I", "S", "U")
"""The names of the prices, in the order of the header: those that every version has, then the selling tariffs."""
COMMON_PRICES = 5
FIRST_LINES = "`daybook 1`, `daybook 2` or `daybook 3`"


class Fault(NamedTuple):
    """A field that fails a question, and why: the record, which is `header`, `user` or `trade`; its place among
    those, from 0, None for the header; the field's name; what a reader knows the record by, which is the user's id
    or the trade's parties; the reason."""

    record: str
    place: Optional[int]
    field: str
    known_by: str
    reason: str

    def __str__(self) -> str:
        if self.place is None:
            return f"header: {self.reason}"
        return f"{self.record} {self.place + 1}, {self.known_by}: {self.reason}"


def faults(book: bytes, number: int) -> Tuple[Fault, ...]:
    """The fields of these bytes that fail the question of a number from 1 to 7, in the order of the book; none for
    any other number."""
    asked: Dict[int, Callable[[bytes], List[Fault]]] = {1: _mark, 2: _version, 3: _counts_and_length}
    if number in asked:
        return tuple(asked[number](book))
    if number not in (4, 5, 6, 7) or _mark(book) or _version(book) or _counts_and_length(book):
        return ()
    found = list(_of_fields(_fields(book), number))
    if number in (5, 6):
        found += _zero_bytes(book, "user" if number == 5 else "trade")
        found.sort(key=lambda fault: fault.place or 0)
    return tuple(found)


def faults_of_fields(book: Book, number: int) -> Tuple[Fault, ...]:
    """The same for fields that are not in bytes yet, whose mark and zero bytes are as they have to be."""
    if number == 2:
        return tuple(_version_of(book.version))
    if number == 3:
        return tuple(_counts(len(book.users), len(book.trades)))
    return tuple(_of_fields(book, number))


def _of_fields(book: Book, number: int) -> Iterator[Fault]:
    asked = {4: _date_and_prices, 5: _users, 6: _trades, 7: _positions}
    return asked[number](book) if number in asked else iter(())


def _fields(book: bytes) -> Book:
    """The fields of bytes with counts and a length of their own, accepted or not."""
    version, users = int.from_bytes(book[3:5], "little"), book[5]
    start, size = HEADER_SIZES[version], USER_SIZES[version]
    header = HEADER.unpack(book[:start].ljust(HEADER.size, b"\0"))
    records = (book[start + size * place : start + size * (place + 1)] for place in range(users))
    user_records = b"".join(record.ljust(USER.size, b"\0") for record in records)
    trades = Trade._unpacked(book[start + size * users :])
    return Book(header[4], Prices(*header[5:]), User._unpacked(user_records), trades, version)


def _in_header(field: str, reason: str) -> Fault:
    return Fault("header", None, field, "", reason)


def _mark(book: bytes) -> List[Fault]:
    """Question 1."""
    found = []
    if len(book) < _SHORT_HEADER:
        found.append(_in_header("length", f"{counted(len(book), 'byte')}, a header has at least {_SHORT_HEADER}"))
    if not book.startswith(b"GDB"):
        hint = ""
        if book.startswith(b"GDF"):
            hint = "; it is field-wise, and `daybook fields FORM -o BOOK` gives its book"
        elif book and all(byte in b"\t\n\x0c\r" or 0x20 <= byte < 0x7F for byte in book[:64]):
            hint = f"; a text starts with the line {FIRST_LINES}"
        start = " ".join(f"{byte:02x}" for byte in book[:3])
        found.append(_in_header("mark", f"starts with [{start}] instead of the mark GDB [47 44 42]{hint}"))
    return found


def _version(book: bytes) -> List[Fault]:
    """Question 2."""
    return _version_of(int.from_bytes(book[3:5], "little")) if len(book) >= 5 else []


def _version_of(version: int) -> List[Fault]:
    known = version in HEADER_SIZES
    return [] if known else [_in_header("version", f"version {version}, the engine knows versions 1, 2 and 3")]


def _counts_and_length(book: bytes) -> List[Fault]:
    """Question 3."""
    if len(book) < 8:
        return []
    version, users, trades = int.from_bytes(book[3:5], "little"), book[5], int.from_bytes(book[6:8], "little")
    found = _counts(users, trades)
    length = HEADER_SIZES.get(version, _SHORT_HEADER) + USER_SIZES.get(version, USER_SIZES[1]) * users + TRADE.size * trades
    if not found and length != len(book):
        of = f"a version {version} book of {counted(users, 'user')} and {counted(trades, 'trade')}"
        found.append(_in_header("length", f"{counted(len(book), 'byte')}, but {of} has {counted(length, 'byte')}"))
    return found


def _counts(users: int, trades: int) -> List[Fault]:
    found = []
    if not 1 <= users <= MOST_USERS:
        found.append(_in_header("user count", f"{counted(users, 'user')}, a book has 1 to {MOST_USERS}"))
    if trades > MOST_TRADES:
        found.append(_in_header("trade count", f"{counted(trades, 'trade')}, a book has at most {MOST_TRADES}"))
    return found


def _date_fault(number: int) -> Optional[str]:
    """Why a date is no real day of 2020 to 2099."""
    year, month, day = number // 10_000, number // 100 % 100, number % 100
    shown = date(number)
    if not 2020 <= year <= 2099:
        return f"date {shown} is not of the years 2020 to 2099"
    if not 1 <= month <= 12:
        return f"date {shown} has no month {month}"
    days = calendar.monthrange(year, month)[1]
    return None if 1 <= day <= days else f"date {shown} is no day, its month has {days}"


def prices_of(book: Book) -> Sequence[int]:
    """The prices that a book of its version has, in the order of the header."""
    given = book.prices
    listed = (given.p, given.q, given.l, given.x, given.i, given.s, given.u)
    return listed if book.version in (2, 3) else listed[:COMMON_PRICES]


def _date_and_prices(book: Book) -> Iterator[Fault]:
    """Question 4."""
    reason = _date_fault(book.date)
    if reason:
        yield _in_header("date", reason)
    for name, price in zip(PRICES, prices_of(book)):
        least = 1 if name in ("P", "Q") else 0
        if not least <= price <= _MOST_PRICE:
            within = f"{euros(least)} to {euros(_MOST_PRICE)} EUR/MWh"
            yield _in_header(name, f"{name} {euros(price)} EUR/MWh is not within {within}")


def _users(book: Book) -> Iterator[Fault]:
    """Question 5, but for the zero bytes."""
    for place, user in enumerate(book.users):
        for field, reason in _user_faults(book, place, user):
            yield Fault("user", place, field, f"id {user.id}", reason)


def _user_faults(book: Book, place: int, user: User) -> Iterator[Tuple[str, str]]:
    before = book.users[place - 1].id if place else 0
    if user.id == 0:
        yield "id", "an id is not 0"
    elif place and user.id <= before:
        twins = [twin for twin, other in enumerate(book.users[:place]) if other.id == user.id]
        yield "id", f"the id of user {twins[0] + 1}" if twins else f"not above the id before it, {before}"
    if user.role > CLEARING_HOUSE:
        yield "role", f"role {user.role} is neither 0 (shipper) nor 1 (clearing house)"
    for area, entry in zip(AREAS, user.physical):
        if abs(entry) > _MOST_ENTRY:
            reason = f"physical {area} {grouped(entry)} MWh is not within ±{grouped(_MOST_ENTRY)} MWh"
            yield f"physical {area}", reason
    if abs(user.charges) > _MOST_MONEY:
        yield "charges", f"charges {euros(user.charges)} EUR are not within ±{euros(_MOST_MONEY)} EUR"
    if user.assigned > _MOST_MONEY:
        yield "assigned", f"assigned {euros(user.assigned)} EUR exceeds {euros(_MOST_MONEY)} EUR"
    if user.blocked > user.assigned:
        yield "blocked", f"blocked {euros(user.blocked)} EUR exceeds assigned {euros(user.assigned)} EUR"
    if book.version == 3:
        for area, name in enumerate(AREAS):
            why = _manager_fault(book, user, area)
            if why:
                yield f"manager {name}", f"manager {name} {user.managers[area]} {why}"


def _manager_fault(book: Book, user: User, area: int) -> Optional[str]:
    id_ = user.managers[area]
    found = next((other for other in book.users if other.id == id_), None)
    if id_ == 0:
        return None
    if user.role == CLEARING_HOUSE:
        return "is given to a clearing house; shippers alone are managed"
    if id_ == user.id:
        return "is the user itself"
    if found is None:
        return "is no user of the book"
    if found.role == CLEARING_HOUSE:
        return "is a clearing house; a manager is a shipper"
    other = found.managers[area]
    return f"is itself managed there, by {other}" if other else None


def _zero_bytes(book: bytes, record: str) -> Iterator[Fault]:
    """The bytes of users, or of trades, that have to be 0 and are not."""
    version, users = book[3], book[5]
    start, size = HEADER_SIZES[version], USER_SIZES[version]
    at, size, zeros = (start, size, (5, 6, 7)) if record == "user" else (start + size * users, TRADE.size, (11,))
    count = users if record == "user" else int.from_bytes(book[6:8], "little")
    for place in range(count):
        bytes_of = book[at + size * place : at + size * (place + 1)]
        first = next((zero for zero in zeros if bytes_of[zero] != 0), None)
        if first is not None:
            ids = [int.from_bytes(bytes_of[4 * part : 4 * part + 4], "little") for part in (0, 1)]
            known_by = f"id {ids[0]}" if record == "user" else f"{ids[0]} to {ids[1]}"
            yield Fault(record, place, "zero bytes", known_by, f"byte {first} of the record is {bytes_of[first]} instead of 0")


def _trades(book: Book) -> Iterator[Fault]:
    """Question 6, but for the zero bytes."""
    ids = {user.id for user in book.users}
    for place, trade in enumerate(book.trades):
        for field, reason in _trade_faults(ids, trade):
            yield Fault("trade", place, field, f"{trade.seller} to {trade.buyer}", reason)


def _trade_faults(ids: "set[int]", trade: Trade) -> Iterator[Tuple[str, str]]:
    for field, id_ in (("seller", trade.seller), ("buyer", trade.buyer)):
        if id_ not in ids:
            yield field, f"{field} {id_} is no user of the book"
    if trade.seller == trade.buyer:
        yield "buyer", "seller and buyer are the same"
    if trade.area > 2:
        yield "area", f"area {trade.area} is none of 0 (PVB), 1 (TVB), 2 (AVB)"
    if trade.kind > 2:
        yield "kind", f"kind {trade.kind} is none of 0 (bilateral), 1 (platform), 2 (central counterparty)"
    if trade.day > 1:
        yield "day", f"day {trade.day} is neither 0 (d) nor 1 (d+1)"
    notified, standing = grouped(trade.notified), grouped(trade.standing)
    if not 1 <= trade.notified <= _MOST_NOTIFIED:
        yield "notified", f"notified {notified} MWh is not within 1 to {grouped(_MOST_NOTIFIED)} MWh"
    if trade.standing > trade.notified:
        yield "standing", f"standing {standing} MWh exceeds notified {notified} MWh"
    if trade.standing < trade.notified and (trade.kind, trade.day) != (BILATERAL, 0):
        below = f"standing {standing} MWh is below notified {notified} MWh"
        yield "standing", f"{below}, and only a bilateral trade for d may"


def _dealt(book: Book) -> Dict[Tuple[int, int], Tuple[int, int]]:
    """What each user bought and sold for d in an area, all kinds, at standing, by id and area."""
    dealt: Dict[Tuple[int, int], Tuple[int, int]] = {}
    for trade in book.trades:
        if trade.day == 0:
            bought, sold = dealt.get((trade.buyer, trade.area), (0, 0))
            dealt[trade.buyer, trade.area] = bought + trade.standing, sold
            bought, sold = dealt.get((trade.seller, trade.area), (0, 0))
            dealt[trade.seller, trade.area] = bought, sold + trade.standing
    return dealt


def defined_positions(book: Book) -> Tuple[Areas, ...]:
    """The positions of the users as document 01 defines them."""
    dealt = _dealt(book)

    def position(user: User, area: int) -> int:
        bought, sold = dealt.get((user.id, area), (0, 0))
        return user.physical[area] + bought - sold

    return tuple((position(user, 0), position(user, 1), position(user, 2)) for user in book.users)


def _positions(book: Book) -> Iterator[Fault]:
    """Question 7."""
    dealt = _dealt(book)
    for place, (user, defined) in enumerate(zip(book.users, defined_positions(book))):
        for area, name in enumerate(AREAS):
            if user.position[area] != defined[area]:
                bought, sold = dealt.get((user.id, area), (0, 0))
                physical = grouped(user.physical[area])
                added = f"{physical} physical + {grouped(bought)} bought - {grouped(sold)} sold for d"
                is_not = f"{grouped(user.position[area])} MWh is not {grouped(defined[area])}"
                yield Fault("user", place, f"position {name}", f"id {user.id}", f"position {name} {is_not} = {added}")
