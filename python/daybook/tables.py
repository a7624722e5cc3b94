"""A book as three CSV files that a spreadsheet opens: header.csv, users.csv and trades.csv, each with the names of its
columns first, as the program daybook has them (docs/TOOL.md).

Reading takes what spreadsheets write back: columns and ids in any order, other columns, which are skipped with a
warning, fields in quotes, semicolons or tabs for commas, euros whose last zeros were dropped, empty fields for 0.
"""

from __future__ import annotations

import os
from pathlib import Path
from typing import Dict, List, Mapping, Sequence, Tuple, Union

from .drafts import I32, I64, U16, U32, U64, Draft, Mistake, Unreadable, no_manager, no_selling_tariff, word_of
from .faults import COMMON_PRICES, PRICES, prices_of
from .fields import AREAS, DAYS, KINDS, ROLES, Book, Trade, User
from .rows import Row, read_file
from .words import date, euros, read_whole

FILES = ("header.csv", "users.csv", "trades.csv")
_HEADER = ("version", "date", *PRICES)
_PHYSICAL, _POSITION, _MANAGER = (tuple(f"{name}_{area}" for area in AREAS) for name in ("physical", "position", "manager"))
_USER = ("id", "role", *_PHYSICAL, *_POSITION, "charges", "assigned", "blocked", *_MANAGER, "name")
_TRADE = ("seller", "buyer", "area", "kind", "day", "notified", "standing")
_OPTIONAL = {*PRICES[COMMON_PRICES:], *_POSITION, *_MANAGER, "name", "standing"}
_CORRECTION = ("id", "area", "MWh")

Files = Mapping[str, Union[str, bytes]]
Folder = Union[str, "os.PathLike[str]"]


def write_csv(book: Book, folder: Folder, semicolons: bool = False) -> None:
    """Writes the three files of an accepted book to a folder, which is made where it is none; files that are there
    already are written over. With semicolons it is what spreadsheets in Spanish or German take: a decimal comma,
    and a byte order mark."""
    path = Path(folder)
    path.mkdir(parents=True, exist_ok=True)
    for name, text in csv_files(book, semicolons).items():
        with open(path / name, "w", encoding="utf-8", newline="") as file:
            file.write(text)


def csv_files(book: Book, semicolons: bool = False) -> Dict[str, str]:
    """The three files of an accepted book, by their names.

    >>> import daybook
    >>> with open("../samples/day.gdb", "rb") as file:
    ...     print(daybook.csv_files(daybook.Operator().read(file.read()))["trades.csv"], end="")
    seller,buyer,area,kind,day,notified,standing
    101,102,PVB,bilateral,d,30000,30000
    """
    def money(cents: int) -> str:
        return euros(cents, commas=False).replace(".", "," if semicolons else ".")

    def file(names: Sequence[str], rows: Sequence[Sequence[str]]) -> str:
        lines = ((";" if semicolons else ",").join(row) for row in (names, *rows))
        return ("\ufeff" if semicolons else "") + "".join(f"{line}\n" for line in lines)

    def user_row(user: User) -> List[str]:
        numbers = [str(number) for number in (*user.physical, *user.position)]
        amounts = [money(user.charges), money(user.assigned), money(user.blocked)]
        managers = [str(id_) if id_ else "" for id_ in user.managers]
        return [str(user.id), word_of(ROLES, user.role), *numbers, *amounts, *managers][:width]

    def trade_row(trade: Trade) -> List[str]:
        codes = [word_of(AREAS, trade.area), word_of(KINDS, trade.kind), word_of(DAYS, trade.day)]
        return [str(trade.seller), str(trade.buyer), *codes, str(trade.notified), str(trade.standing)]

    header = [str(book.version), date(book.date), *map(money, prices_of(book))]
    width = len(_USER) - (4 if book.version in (1, 2) else 1)
    texts = (
        file(_HEADER[: len(header)], [header]), file(_USER[:width], [user_row(user) for user in book.users]),
        file(_TRADE, [trade_row(trade) for trade in book.trades]),
    )
    return dict(zip(FILES, texts))


def read_csv(files: Union[Folder, Files], day_first: bool = False) -> Book:
    """The fields of three files, of a folder or by their names; users come in the order of their ids. A date is
    written as 2026-03-18 or 18.03.2026, and as 18/03/2026 where the day is said to stand first. What cannot be read
    raises `Unreadable`, with file, line and column; whether the fields are a book's `write` asks."""
    if not isinstance(files, Mapping):
        folder = Path(files)
        files = {name: (folder / name).read_bytes() for name in FILES}
    draft = Draft()
    mistakes: List[Mistake] = []
    headers: List[Row] = []

    def header(row: Row) -> None:
        if headers:
            row.mistake("version", "a second row; a book has one header")
        else:
            headers.append(row)
            _read_header(draft, row, day_first)

    mistakes += read_file(FILES[0], files[FILES[0]], _HEADER, header, _OPTIONAL)
    if not mistakes and not headers:
        mistakes.append(Mistake(FILES[0], 2, 1, "the row of the header is missing"))
    mistakes += read_file(FILES[1], files[FILES[1]], _USER, lambda row: _read_user(draft, row), _OPTIONAL)
    mistakes += read_file(FILES[2], files[FILES[2]], _TRADE, lambda row: _read_trade(draft, row), _OPTIONAL)
    if mistakes:
        raise Unreadable(mistakes)
    return draft.book(sorted(draft.users, key=lambda pair: pair[0].id))


def read_corrections(data: Union[str, bytes]) -> List[Tuple[int, int, int]]:
    """The corrections of a CSV file with the columns id, area and MWh, as `Operator.posting_list` takes them; an
    area is written by its name or its number.

    >>> read_corrections("id,area,MWh\\n101,TVB,-500\\n102,0,1200\\n")
    [(101, 1, -500), (102, 0, 1200)]
    """
    lines: List[Tuple[int, int, int]] = []

    def correction(row: Row) -> None:
        area = read_whole(row.text("area"))
        number = area if area is not None and 0 <= area < 2**32 else row.code("area", AREAS)
        lines.append((row.whole("id", U32), number, row.whole("MWh", I64)))

    mistakes = read_file("", data, _CORRECTION, correction)
    if mistakes:
        raise Unreadable(mistakes)
    return lines


def _read_header(draft: Draft, row: Row, day_first: bool) -> None:
    draft.version, draft.date = row.whole("version", U16), row.date("date", day_first)
    draft.prices = [0] * len(PRICES)
    for place, name in enumerate(PRICES):
        given = row.text(name) != ""
        if place >= COMMON_PRICES:
            if draft.version == 1 and given:
                row.mistake(name, no_selling_tariff(name, draft.version))
            elif draft.version in (2, 3) and not given:
                row.mistake(name, f"{name} is missing, which version {draft.version} has")
            if not given or draft.version == 1:
                continue
        draft.prices[place] = row.money(name, U32)


def _read_user(draft: Draft, row: Row) -> None:
    id_, role = row.whole("id", U32), row.code("role", ROLES)
    charges, assigned, blocked = row.money("charges", I64), row.money("assigned", U64), row.money("blocked", U64)
    written = {area for area, name in enumerate(_POSITION) if row.text(name) != ""}
    physical, position, managers = [0, 0, 0], [0, 0, 0], [0, 0, 0]
    for area in range(3):
        physical[area] = row.whole(_PHYSICAL[area], I32, or_0=True)
        position[area] = row.whole(_POSITION[area], I32) if area in written else 0
    for area, name in enumerate(_MANAGER):
        if row.text(name) != "":
            if draft.version in (1, 2):
                row.mistake(name, no_manager(name, draft.version))
            else:
                managers[area] = row.whole(name, U32)
    user = User(
        id_, role, (physical[0], physical[1], physical[2]), (position[0], position[1], position[2]), charges, assigned,
        blocked, (managers[0], managers[1], managers[2]),
    )
    draft.users.append((user, written))


def _read_trade(draft: Draft, row: Row) -> None:
    # Of fields that a row lacks the first that is asked for is told, as in the program.
    notified, seller, buyer = row.whole("notified", U32), row.whole("seller", U32), row.whole("buyer", U32)
    codes = row.code("area", AREAS), row.code("kind", KINDS), row.code("day", DAYS)
    standing = row.whole("standing", U32) if row.text("standing") != "" else notified
    draft.trades.append(Trade(seller, buyer, *codes, notified, standing))
