"""What texts and tables have in common: mistakes with their places, codes in words, the range of each field, and a
book's fields on their way to be one."""

from __future__ import annotations

from dataclasses import replace
from typing import List, NamedTuple, Optional, Sequence, Set, Tuple, Union

from .faults import COMMON_PRICES, PRICES, defined_positions
from .fields import MOST_TRADES, MOST_USERS, Book, Prices, Trade, User

MOST_MISTAKES = 20
"""After so many mistakes of one input reading stops."""
_LONGEST = 1 << 20
_LONGEST_WORD = 40

_LIMITS = (
    ("version", "1 to 3"), ("manager", "1 to 4,294,967,295"), ("seller", "1 to 4,294,967,295"),
    ("buyer", "1 to 4,294,967,295"), ("notified", "1 to 100,000 MWh"), ("standing", "0 MWh to what is notified"),
    ("physical", "-1,000,000 to 1,000,000 MWh"), ("position", "-26,600,000 to 26,600,000 MWh"),
    ("charges", "-10,000,000,000.00 to 10,000,000,000.00 EUR"), ("assigned", "0.00 to 10,000,000,000.00 EUR"),
    ("blocked", "0.00 EUR to what is assigned"), ("MWh", "-2,000,000 to 2,000,000 MWh"), ("area", "0 to 2"),
    ("id", "1 to 4,294,967,295"), ("P", "0.01 to 1,000.00 EUR/MWh"), ("Q", "0.01 to 1,000.00 EUR/MWh"),
)


class Mistake(NamedTuple):
    """What cannot be read, and where: the file of a folder, or none for a text; line and column count from 1."""

    file: str
    line: int
    column: int
    reason: str

    def __str__(self) -> str:
        return f"{self.file and self.file + ':'}{self.line}:{self.column}: {self.reason}"


class Unreadable(ValueError):
    """A text or table that is none of a book: its mistakes, in the order of the lines."""

    def __init__(self, mistakes: Sequence[Mistake]) -> None:
        self.mistakes = tuple(mistakes)
        super().__init__("\n".join(map(str, self.mistakes)))

    def __reduce__(self) -> Tuple[object, ...]:
        return Unreadable, (self.mistakes,)


# Told by the name that a caller has for it.
Unreadable.__module__ = "daybook"

Range = Tuple[int, int]
U16, U32, I32 = (0, 2**16 - 1), (0, 2**32 - 1), (-(2**31), 2**31 - 1)
U64, I64 = (0, 2**64 - 1), (-(2**63), 2**63 - 1)


def too_long(file: str, data: Union[str, bytes]) -> Optional[Mistake]:
    """Why a text is not read at all."""
    reason = f"the text is longer than {_LONGEST >> 20} MB, and no book, list or store is"
    return Mistake(file, 1, 1, reason) if len(data) > _LONGEST else None


def lines_of(text: str) -> List[str]:
    """The lines of a text, which end in one way or the other."""
    lines = text.split("\n")
    if lines[-1] == "":
        lines.pop()
    return [line[:-1] if line.endswith("\r") else line for line in lines]


def limits(name: str) -> str:
    """The range of a field in words; its name may have more words."""
    for known, told in _LIMITS:
        if name == known if len(known) == 1 else known in name:
            return told
    return "0.00 to 1,000.00 EUR/MWh" if len(name) == 1 else "what its bytes can hold"


def short(word: str) -> str:
    """A word as it is quoted in a message: not more than 40 characters of it."""
    known = {"\0": "\\0", "\t": "\\t", "\n": "\\n", "\r": "\\r", "'": "\\'", '"': '\\"', "\\": "\\\\"}
    shown = (known.get(it) or (it if it.isprintable() else f"\\u{{{ord(it):x}}}") for it in word[:_LONGEST_WORD])
    return "".join(shown) + (".." if len(word) > _LONGEST_WORD else "")


def code(among: Sequence[str], word: str) -> Optional[int]:
    """The code of a word, in whatever case."""
    lower = word.encode("utf-8", "replace").lower()
    return next((place for place, known in enumerate(among) if known.encode().lower() == lower), None)


def word_of(among: Sequence[str], number: int) -> str:
    """The word of a code, or the number itself where there is none."""
    return among[number] if 0 <= number < len(among) else str(number)


def no_selling_tariff(name: str, version: int) -> str:
    return f"{name}: version {version} has no place for selling tariffs; versions 2 and 3 have S and U"


def no_manager(name: str, version: int) -> str:
    return f"{name}: version {version} has no place for managers; version 3 has them"


def prices_by_name(numbers: Sequence[int]) -> Prices:
    """The prices in the order of the header."""
    return Prices(*numbers, *[0] * (len(PRICES) - len(numbers)))


class Draft:
    """The fields as they were read. A position that is not written is the one that document 01 defines."""

    def __init__(self) -> None:
        self.version = 0
        self.date = 0
        self.prices: List[int] = [0] * COMMON_PRICES
        self.users: List[Tuple[User, Set[int]]] = []
        """With the areas whose positions are written."""
        self.trades: List[Trade] = []

    def book(self, users: Sequence[Tuple[User, Set[int]]]) -> Book:
        """The fields of these users, in their order, and of all else that was read."""
        prices = prices_by_name(self.prices)
        book = Book(self.date, prices, tuple(user for user, _ in users), tuple(self.trades), self.version)
        if len(users) > MOST_USERS or len(self.trades) > MOST_TRADES:
            return book  # refused whatever the positions are
        filled = []
        for (user, written), defined in zip(users, defined_positions(book)):
            # One beyond 32 bits comes of amounts that are refused before it.
            fitting = [number if I32[0] <= number <= I32[1] else 0 for number in defined]
            three = [user.position[area] if area in written else fitting[area] for area in range(3)]
            filled.append(replace(user, position=(three[0], three[1], three[2])))
        return replace(book, users=tuple(filled))
