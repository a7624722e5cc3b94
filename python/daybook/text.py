"""A book as text: a line for each user and each trade, as the program daybook has it (docs/TOOL.md)."""

from __future__ import annotations

import re
from dataclasses import replace
from typing import Any, Dict, List, Optional, Sequence, Set, Tuple, Union

from .drafts import (
    I32, I64, MOST_MISTAKES, U16, U32, U64, Draft, Mistake, Range, Unreadable, code, limits, lines_of, no_manager,
    no_selling_tariff, short, too_long, word_of,
)
from .faults import COMMON_PRICES, FIRST_LINES, PRICES, prices_of
from .fields import AREAS, DAYS, KINDS, ROLES, Areas, Book, Trade, User
from .words import date, euros, grouped, read_date, read_euros, read_whole

_FIRST = "daybook"
_WORD = re.compile(r"[^ \t\r]+")
_AMOUNT = re.compile("[-+.,\u2212]*[0-9]")


def write_text(book: Book, positions: bool = False) -> str:
    """The text of an accepted book; with the positions, which follow from the rest, or without.

    >>> import daybook
    >>> with open("../samples/day.gdb", "rb") as file:
    ...     print(daybook.write_text(daybook.Operator().read(file.read())), end="")
    daybook 1
    date 2024-02-29
    prices P 20.00 Q 21.00 L 3.00 X 1.00 I 0.50
    <BLANKLINE>
    user 101 shipper physical PVB -10,000 assigned 500,000.00 blocked 100,000.00
    user 102 shipper                      assigned 100,000.00 blocked 100,000.00
    <BLANKLINE>
    trade 101 to 102 PVB bilateral d 30,000
    """
    prices = " ".join(f"{name} {euros(price)}" for name, price in zip(PRICES, prices_of(book)))
    text = f"{_FIRST} {book.version}\ndate {date(book.date)}\nprices {prices}\n"
    for rows in ([_user_cells(user, positions) for user in book.users], [_trade_cells(trade) for trade in book.trades]):
        text += "\n" + _aligned(rows) if rows else ""
    return text


def read_text(text: Union[str, bytes]) -> Book:
    """The fields of a text. Positions that it does not write are those that document 01 defines. What cannot be
    read raises `Unreadable` with each mistake's line and column; whether the fields are a book's `write` asks.

    >>> import daybook
    >>> with open("../samples/reduction.txt", "rb") as file:
    ...     book = daybook.read_text(file.read())
    >>> book.date, [user.position for user in book.users]
    (20260318, [(-40000, 0, 0), (30000, 0, 0)])
    >>> daybook.read_text("daybook 1\\ndate 18.3.2026")
    Traceback (most recent call last):
        ...
    daybook.Unreadable: 2:6: the date is written as 2026-03-18, not `18.3.2026`
    """
    long = too_long("", text)
    if long:
        raise Unreadable([long])
    lines = _decoded(text)
    reader = _Reader()
    mistakes: List[Mistake] = []
    for number, line in enumerate(lines_of(lines), start=1):
        words = _Words(line, number)
        if words.is_done():
            continue
        try:
            reader.statement(words)
        except _Stop as stop:
            words.mistakes.append(stop.mistake)
        mistakes += words.mistakes
        if len(mistakes) >= MOST_MISTAKES:
            raise Unreadable(mistakes[:MOST_MISTAKES])
    for name in (_FIRST, "date", "prices"):
        if not mistakes and name not in reader.read:
            mistakes.append(_after(lines, f"the text has no line `{name}`"))
    if mistakes:
        raise Unreadable(mistakes)
    return reader.draft.book(reader.draft.users)


def _decoded(text: Union[str, bytes]) -> str:
    if isinstance(text, str):
        return text[1:] if text.startswith("\ufeff") else text
    data = text[3:] if text.startswith(b"\xef\xbb\xbf") else text
    try:
        return data.decode("utf-8")
    except UnicodeDecodeError as error:
        before = data[: error.start].decode("utf-8")
        raise Unreadable([_after(before, "the text is not in UTF-8 here")]) from None


def _after(text: str, reason: str) -> Mistake:
    """A mistake at the place after a text."""
    return Mistake("", text.count("\n") + 1, len(text.rsplit("\n", 1)[-1]) + 1, reason)


class _Stop(Exception):
    """A mistake after which the rest of a line is not read."""

    def __init__(self, mistake: Mistake) -> None:
        self.mistake = mistake


class _Words:
    """The words of a line up to its comment, each with its column."""

    def __init__(self, line: str, number: int) -> None:
        content = line.split("#", 1)[0]
        self._words = [(found.group(), found.start() + 1) for found in _WORD.finditer(content)]
        self._line, self._end, self._at = number, len(content) + 1, 0
        self.mistakes: List[Mistake] = []

    def is_done(self) -> bool:
        return self._at == len(self._words)

    def peek(self) -> Optional[str]:
        return None if self.is_done() else self._words[self._at][0]

    def stop(self, reason: str, column: Optional[int] = None) -> _Stop:
        """A mistake at a column, or where the next word stands or would."""
        next_at = self._end if self.is_done() else self._words[self._at][1]
        return _Stop(Mistake("", self._line, column or next_at, reason))

    def next(self, name: str) -> Tuple[str, int]:
        if self.is_done():
            raise self.stop(f"{name} is missing")
        self._at += 1
        return self._words[self._at - 1]

    def exactly(self, wanted: str) -> None:
        word, column = self.next(f"`{wanted}`")
        if word != wanted:
            raise self.stop(f"`{short(word)}` instead of `{wanted}`", column)

    def fitting(self, name: str, within: Range) -> int:
        """A whole number that its field can hold."""
        word, column = self.next(name)
        return self._amount(word, column, name, read_whole(word), within, "is a whole number")

    def money(self, name: str, within: Range) -> int:
        """Euros with two decimals, in cents that their field can hold."""
        word, column = self.next(name)
        return self._amount(word, column, name, read_euros(word), within, "is euros with two decimals, as 1,234.50")

    def _amount(self, word: str, column: int, name: str, read: Optional[int], within: Range, what: str) -> int:
        """One that looks like an amount and is none is noted, and the line goes on; any other word may belong to
        what follows."""
        if read is not None and within[0] <= read <= within[1]:
            return read
        reason = f"{name} {what}, not `{short(word)}`"
        if read is not None:
            reason = f"{name} {short(word)} is not within {limits(name)}"
        mistake = self.stop(reason, column)
        if not _AMOUNT.match(word):
            raise mistake
        self.mistakes.append(mistake.mistake)
        return 0

    def code(self, name: str, among: Sequence[str]) -> int:
        word, column = self.next(name)
        found = code(among, word)
        if found is None:
            raise self.stop(f"{name} is one of {', '.join(among)}, not `{short(word)}`", column)
        return found


class _Reader:
    """The lines of a text, and what they have told so far."""

    def __init__(self) -> None:
        self.draft = Draft()
        self.read: Set[str] = set()
        self._first = True

    def statement(self, words: _Words) -> None:
        """One line that is not empty."""
        first, self._first = self._first, False
        word, column = words.next("a line")
        if first and word != _FIRST:
            raise words.stop(f"a text starts with the line {FIRST_LINES}", column)
        if word in (_FIRST, "date", "prices"):
            if word in self.read:
                raise words.stop(f"a second line `{word}`", column)
            if word != "prices":
                self.read.add(word)
        if word == _FIRST:
            self.draft.version = words.fitting("the version", U16)
        elif word == "date":
            told, at = words.next("the date")
            number = read_date(told)
            if number is None:
                raise words.stop(f"the date is written as 2026-03-18, not `{short(told)}`", at)
            self.draft.date = number
        elif word == "prices":
            self._prices(words)
        elif word == "user":
            self._user(words)
        elif word == "trade":
            self._trade(words)
        else:
            raise words.stop(f"`{short(word)}`: a line starts with `date`, `prices`, `user` or `trade`", column)
        rest = words.peek()
        if rest is not None:
            raise words.stop(f"`{short(rest)}` after the line's end")

    def _prices(self, words: _Words) -> None:
        """The prices, each once, those that a book of the text's version has; of a version that is not known with
        the selling tariffs or without."""
        version = self.draft.version
        read: Dict[str, int] = {}
        while not words.is_done():
            name, column = words.next("a price")
            if name not in PRICES:
                known = PRICES[:COMMON_PRICES] if version == 1 else PRICES
                raise words.stop(f"`{short(name)}`: a price is one of {', '.join(known)}", column)
            if name in PRICES[COMMON_PRICES:] and version == 1:
                raise words.stop(no_selling_tariff(name, version), column)
            if name in read:
                raise words.stop(f"a second {name}", column)
            read[name] = words.money(name, U32)
            if name == "P":
                self.read.add("prices")
        for name in PRICES if version in (2, 3) else PRICES[:COMMON_PRICES]:
            if name not in read:
                raise words.stop(f"{name} is missing")
        self.draft.prices = [read.get(name, 0) for name in PRICES]

    def _user(self, words: _Words) -> None:
        version = self.draft.version
        id_, role = words.fitting("the id", U32), words.code("the role", ROLES)
        by_area: Dict[str, Dict[int, int]] = {"physical": {}, "position": {}, "manager": {}}
        money: Dict[str, int] = {}
        ranges = {"charges": I64, "assigned": U64, "blocked": U64}
        while not words.is_done():
            name, column = words.next("a field")
            if name == "manager" and version in (1, 2):
                raise words.stop(no_manager(name, version), column)
            if name in by_area:
                self._areas(words, name, by_area[name])
            elif name in ranges:
                if name in money:
                    raise words.stop(f"a second {name}", column)
                money[name] = words.money(name, ranges[name])
            else:
                more = "`assigned` or `blocked`" if version in (1, 2) else "`assigned`, `blocked` or `manager`"
                known = f"a field is `physical`, `position`, `charges`, {more}"
                raise words.stop(f"`{short(name)}`: {known}", column)
        user = User(
            id_, role, _three(by_area["physical"]), _three(by_area["position"]), money.get("charges", 0),
            money.get("assigned", 0), money.get("blocked", 0), _three(by_area["manager"]),
        )
        self.draft.users.append((user, set(by_area["position"])))

    @staticmethod
    def _areas(words: _Words, name: str, numbers: Dict[int, int]) -> None:
        """Areas, each with what follows it; at least one. A manager is an id, or the word for none."""
        more = True
        while more:
            column = words.stop("").mistake.column
            area = words.code("the area", AREAS)
            if area in numbers:
                raise words.stop(f"a second {name} {AREAS[area]}", column)
            if name == "manager" and words.peek() == "none":
                words.next(name)
                numbers[area] = 0
            else:
                numbers[area] = words.fitting(f"{name} {AREAS[area]}", U32 if name == "manager" else I32)
            more = code(AREAS, words.peek() or "") is not None

    def _trade(self, words: _Words) -> None:
        seller = words.fitting("the seller's id", U32)
        words.exactly("to")
        buyer = words.fitting("the buyer's id", U32)
        area, kind, day = words.code("the area", AREAS), words.code("the kind", KINDS), words.code("the day", DAYS)
        notified = words.fitting("the MWh notified", U32)
        trade = Trade(seller, buyer, area, kind, day, notified, notified)
        if not words.is_done():
            words.exactly("standing")
            trade = replace(trade, standing=words.fitting("the MWh standing", U32))
        self.draft.trades.append(trade)


def _three(numbers: Dict[int, int]) -> Areas:
    return numbers.get(0, 0), numbers.get(1, 0), numbers.get(2, 0)


def _in_areas(name: str, numbers: Sequence[int], every: bool, shown: Any = grouped) -> str:
    words = [f"{area} {shown(number)}" for area, number in zip(AREAS, numbers) if every or number != 0]
    return " ".join([name, *words]) if words else ""


def _user_cells(user: User, positions: bool) -> List[str]:
    return [
        "user", str(user.id), word_of(ROLES, user.role), _in_areas("physical", user.physical, False),
        _in_areas("position", user.position, True) if positions else "",
        f"charges {euros(user.charges)}" if user.charges else "", "assigned", euros(user.assigned), "blocked",
        euros(user.blocked), _in_areas("manager", user.managers, False, str),
    ]


def _trade_cells(trade: Trade) -> List[str]:
    return [
        "trade", str(trade.seller), "to", str(trade.buyer), word_of(AREAS, trade.area), word_of(KINDS, trade.kind),
        word_of(DAYS, trade.day), grouped(trade.notified),
        "" if trade.standing == trade.notified else f"standing {grouped(trade.standing)}",
    ]


def _aligned(rows: Sequence[Sequence[str]]) -> str:
    """The rows as lines, each column as wide as its widest cell, one that is empty in every row left out; amounts
    stand at the right of their column."""
    widths = [max(map(len, column)) for column in zip(*rows)]
    text = ""
    for row in rows:
        cells = ((cell, width) for cell, width in zip(row, widths) if width)
        line = (cell.rjust(width) if re.match("[0-9-]", cell) else cell.ljust(width) for cell, width in cells)
        text += " ".join(line).rstrip() + "\n"
    return text
