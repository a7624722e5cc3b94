"""A CSV file row by row, its fields asked for by the names over the columns. A row is read to its end: each of its
fields that cannot be read is told.

How a file writes its amounts goes by what stands between its columns: with commas 1234.50, with semicolons 1234,50 and
1.234,50 and 1234.50, with tabs any of these, where 1.234 and 1,234 alone may mean two things, and are none.
"""

from __future__ import annotations

import re
import warnings
from typing import AbstractSet, Callable, List, Optional, Sequence, Set, Tuple, Union

from .drafts import MOST_MISTAKES, Mistake, Range, Unreadable, code, limits, lines_of, short, too_long
from .words import read_date, read_euros, read_whole


def _lower(text: str) -> bytes:
    return text.encode("utf-8", "replace").lower()


def _decoded(data: Union[str, bytes]) -> str:
    """The text of a file: in UTF-8, in UTF-16 where its mark says so, else in the 8 bits of an older spreadsheet."""
    if isinstance(data, str):
        return data[1:] if data.startswith("\ufeff") else data
    if data.startswith((b"\xff\xfe", b"\xfe\xff")):
        return data[2:].decode("utf-16-le" if data[0] == 0xFF else "utf-16-be", "replace")
    data = data[3:] if data.startswith(b"\xef\xbb\xbf") else data
    try:
        return data.decode("utf-8")
    except UnicodeDecodeError:
        return data.decode("latin-1")


def read_file(
    file: str, data: Union[str, bytes], names: Sequence[str], take: Callable[[Row], None], optional: AbstractSet[str] = frozenset()
) -> List[Mistake]:
    """Gives each row of a file to a function, which may do without the optional columns; the mistakes, at most 20."""
    long = too_long(file, data)
    if long:
        return [long]
    text = _decoded(data)
    if "\0" in text:
        return [Mistake(file, 1, 1, "the file is no text: it has bytes of 0 (UTF-16 without its mark?)")]
    lines = lines_of(text)
    first = next((line for line in lines if line.strip()), "")
    separator = ";" if ";" in first else "\t" if "\t" in first else ","
    columns: Optional[Columns] = None
    mistakes: List[Mistake] = []
    for number, line in enumerate(lines, start=1):
        if not line.strip().strip(separator):
            continue
        try:
            cells = cells_of(file, number, line, separator)
            if columns is None:
                columns = Columns(cells, file, number, names, optional)
                continue
        except Unreadable as unreadable:
            mistakes += unreadable.mistakes
            if columns is None:
                return mistakes
            continue
        row = Row(columns, cells, file, number, separator)
        if row.ends():
            take(row)
        mistakes += row.mistakes
        if len(mistakes) >= MOST_MISTAKES:
            return mistakes[:MOST_MISTAKES]
    if columns is None:
        mistakes.append(Mistake(file, 1, 1, f"the first line has the names {','.join(names)}"))
    return mistakes


Cell = Tuple[str, int]


def cells_of(file: str, number: int, line: str, separator: str) -> List[Cell]:
    """The fields of a line with their columns. A field in quotes may have the separator in it, and a quote twice."""
    cells: List[Cell] = []
    cell, start, quoted, place = "", 1, False, 0
    while place < len(line):
        it = line[place]
        if it == '"' and quoted and line[place + 1 : place + 2] == '"':
            cell, place = cell + it, place + 1
        elif it == '"':
            quoted = not quoted
        elif it == separator and not quoted:
            cells.append((cell.strip(), start))
            cell, start = "", place + 2
        else:
            cell += it
        place += 1
    if quoted:
        raise Unreadable([Mistake(file, number, start, "the field's closing quote is missing")])
    return [*cells, (cell.strip(), start)]


class Columns:
    """The columns under the names that the file's first line has; the others are skipped."""

    def __init__(self, cells: Sequence[Cell], file: str, number: int, names: Sequence[str], optional: AbstractSet[str]) -> None:
        known = {_lower(name) for name in names}
        seen: Set[bytes] = set()
        unknown = [cell for cell in cells if cell[0] and _lower(cell[0]) not in known]
        for text, column in cells:
            if _lower(text) in known and _lower(text) in seen:
                raise Unreadable([Mistake(file, number, column, f"a second column {short(text)}")])
            seen.add(_lower(text))
        others = ", ".join(short(text[:24]) for text, _ in unknown[:3])
        others += f" and {len(unknown) - 3} more" if len(unknown) > 3 else ""
        of = {_lower(text): place for place, (text, _) in reversed(list(enumerate(cells)))}
        self.of = {name: of.get(_lower(name)) for name in names}
        for name, place in self.of.items():
            if place is None and name not in optional:
                told = f"; none of the names: {others}" if unknown else ""
                raise Unreadable([Mistake(file, number, 1, f"the column {name} is missing{told}")])
        if unknown:
            plural = ("", "is") if len(unknown) == 1 else ("s", "are")
            skipped = f"the column{plural[0]} {others} {plural[1]} skipped"
            warnings.warn(str(Mistake(file, number, unknown[0][1], skipped)), stacklevel=4)
        self.count = max((place + 1 for place, (text, _) in enumerate(cells) if text), default=0)


class Row:
    """A row, asked for by the names of its columns."""

    def __init__(self, columns: Columns, cells: Sequence[Cell], file: str, number: int, separator: str) -> None:
        self._columns, self.cells_of, self._file, self._line, self._separator = columns, cells, file, number, separator
        self.mistakes: List[Mistake] = []

    def _cell(self, name: str) -> Optional[Cell]:
        place = self._columns.of.get(name)
        return self.cells_of[place] if place is not None and place < len(self.cells_of) else None

    def text(self, name: str) -> str:
        cell = self._cell(name)
        return cell[0] if cell else ""

    def mistake(self, name: str, reason: str) -> None:
        """Notes a mistake in a field; of fields that the row lacks, the first alone."""
        cell = self._cell(name)
        column = cell[1] if cell else 1
        if cell or all(mistake.column != column for mistake in self.mistakes):
            self.mistakes.append(Mistake(self._file, self._line, column, reason))

    def ends(self) -> bool:
        """Whether no field stands past the last column; else it is a mistake."""
        rest = self.cells_of[self._columns.count :]
        if not any(text for text, _ in rest):
            return True
        hint = "; a comma within an amount? Euros are written as 1234.50" if self._separator == "," else ""
        reason = f"{len(self.cells_of)} fields in {self._columns.count} columns{hint}"
        self.mistakes.append(Mistake(self._file, self._line, rest[0][1], reason))
        return False

    def _fitting(self, name: str, read: Optional[int], within: Range, what: str) -> int:
        if read is not None and within[0] <= read <= within[1]:
            return read
        told = what if read is None else f"is within {limits(name)}"
        self.mistake(name, f"{name} {told}, not `{short(self.text(name))}`")
        return 0

    def _is_left_empty(self, name: str) -> bool:
        cell = self._cell(name)
        return cell is not None and cell[0] == ""

    def whole(self, name: str, within: Range, or_0: bool = False) -> int:
        if or_0 and self._is_left_empty(name):
            return 0
        pointed = _pointed(self.text(name), self._separator)
        return self._fitting(name, None if pointed is None else read_whole(pointed), within, "is a whole number")

    def money(self, name: str, within: Range) -> int:
        """Euros with at most two decimals, in cents; 0 for an empty field."""
        if self._is_left_empty(name):
            return 0
        text = self.text(name)
        cents, example = euros_of(text, self._separator), {",": "1234.50", ";": "1234,50", "\t": "1234.50 or 1234,50"}
        told = example[self._separator]
        if self._separator == "," and "," in text and euros_of(text, ";") is not None:
            told = "1234.50, or 1234,50 with semicolons between the columns"
        return self._fitting(name, cents, within, f"is euros, as {told}")

    def date(self, name: str, day_first: bool) -> int:
        text = self.text(name)
        read = date_of(text, day_first)
        if read is None:
            hint = "; `day_first` reads day/month/year" if "/" in text else ""
            self.mistake(name, f"{name} is written as 2026-03-18 or 18.03.2026, not `{short(text)}`{hint}")
        return read or 0

    def code(self, name: str, among: Sequence[str]) -> int:
        found = code(among, self.text(name))
        if found is None:
            self.mistake(name, f"{name} is one of {', '.join(among)}, not `{short(self.text(name))}`")
        return found or 0


def _has_decimals(text: str, mark: str) -> bool:
    """Whether the one such mark of an amount stands before one or two digits, its last."""
    return text.count(mark) == 1 and len(text.rsplit(mark, 1)[1]) in (1, 2)


def _pointed(text: str, separator: str) -> Optional[str]:
    """An amount with a decimal point, and commas before every three digits; none where it may mean two things."""
    turned = False
    if separator == ";":
        turned = "," in text or not _has_decimals(text, ".")
    elif separator == "\t" and "." in text and "," in text:
        turned = text.rfind(".") < text.rfind(",")
    elif separator == "\t" and ("." in text or "," in text):
        mark = "." if "." in text else ","
        decimals = _has_decimals(text, mark)
        if text.count(mark) == 1 and not decimals:
            return None
        turned = decimals == (mark == ",")
    return text.translate({44: 46, 46: 44}) if turned else text


def euros_of(text: str, separator: str) -> Optional[int]:
    """Euros in cents; spreadsheets drop zeros at the end."""
    pointed = _pointed(text, separator)
    if pointed is None:
        return None
    whole, point, decimals = pointed.partition(".")
    return read_euros(pointed + ("0" if len(decimals) == 1 else "") if point else pointed + ".00")


def date_of(text: str, day_first: bool) -> Optional[int]:
    """2026-03-18, 18.03.2026, and, where the day is known to stand first, 18/03/2026 and 18/03/26."""
    mark = "." if "." in text else "/" if day_first and "/" in text else None
    if mark is None:
        return read_date(text)
    years = r"\d{4}|\d\d" if day_first else r"\d{4}"
    found = re.fullmatch(rf"(\d\d?){re.escape(mark)}(\d\d?){re.escape(mark)}({years})", text, re.ASCII)
    if found is None:
        return None
    year = int(found[3]) + (2000 if len(found[3]) == 2 else 0)
    return year * 10_000 + int(found[2]) * 100 + int(found[1])
