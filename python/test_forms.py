"""Tests of field-wise forms: the outside vectors' books there and back, each column, an archive of a thousand forms."""

from __future__ import annotations

import importlib.util
import io
import subprocess
import sys
import tempfile
import unittest
from pathlib import Path

import daybook

OPERATOR = daybook.Operator()

ROOT = Path(__file__).resolve().parent.parent
EXAMPLE = ROOT / "examples" / "python" / "column.py"
AREAS = {"PVB": 0, "TVB": 1, "AVB": 2}


def books() -> list[bytes]:
    """The samples, and the accepted books of the outside vectors, of every version."""
    found = []
    for folder in ("samples", "rust/vectors", "rust/vectors/version-1", "rust/vectors/version-2", "rust/vectors/asks"):
        for file in sorted((ROOT / folder).glob("*.gdb")):
            try:
                OPERATOR.read(file.read_bytes())
            except daybook.Refused:
                continue
            found.append(file.read_bytes())
    return found


def numbers(book: daybook.Book, field: str) -> list[int]:
    """A field of all records, as reading the book tells it."""
    if field in ("user_zeros", "trade_zero"):
        return [0] * (3 * len(book.users) if field == "user_zeros" else len(book.trades))
    name, _, area = field.partition("_")
    if area:
        name = "managers" if name == "manager" else name
        return [getattr(user, name)[AREAS[area]] for user in book.users]
    records = book.users if hasattr(book.users[0], name) else book.trades
    return [getattr(record, name) for record in records]


def placed(told: str, n: int, m: int) -> int:
    """An offset as a document has it, `40 + 56 n + 4 m`."""
    times = {"n": n, "m": m}
    return sum(int(term.split()[0]) * times.get(term.split()[-1], 1) for term in told.split(" + "))


class Forms(unittest.TestCase):
    def test_there_and_back(self) -> None:
        versions = set()
        for book in books():
            form = OPERATOR.form(book)
            self.assertEqual((form.bytes[:8], len(form.bytes)), (b"GDF" + book[3:8], len(book)))
            self.assertEqual((daybook.restore(form), daybook.restore(form.bytes)), (book, book))
            self.assertEqual(daybook.Form(form.bytes).bytes, form.bytes)
            versions.add(form.columns.version)
        self.assertEqual(versions, {1, 2, 3})

    def test_each_field_of_all_records(self) -> None:
        for book in books():
            fields, form = OPERATOR.read(book), OPERATOR.form(book)
            managers = {"manager_PVB", "manager_TVB", "manager_AVB"}
            self.assertEqual(list(form), [name for name in daybook.FIELDS if fields.version == 3 or name not in managers])
            for name, view in form.items():
                self.assertEqual(view.tolist(), numbers(fields, name), name)
                self.assertTrue(view.readonly)
                self.assertEqual(view.format, daybook.FIELDS[name] or "B")

    def test_columns_stand_one_after_the_other(self) -> None:
        for version, header, user in [(1, 32, 56), (2, 40, 56), (3, 40, 68)]:
            for users, trades in [(1, 0), (2, 1), (64, 256)]:
                columns, end = daybook.Columns(version, users, trades), header
                for column in columns.values():
                    self.assertEqual(column.offset, end)
                    end = column.end
                self.assertEqual(end, header + user * users + 20 * trades)
        self.assertEqual(len(daybook.Columns(4, 2, 1)), 0)
        with self.assertRaises(KeyError):
            daybook.Columns(2, 2, 1)["manager_PVB"]

    def test_the_documents_table(self) -> None:
        """docs/FORMS.md has the offset of each column by version, for n users and m trades."""
        rows = {}
        for line in (ROOT / "docs" / "FORMS.md").read_text().splitlines():
            cells = [cell.strip(" `") for cell in line.strip("|").split("|")]
            if len(cells) == 7 and cells[0] in daybook.FIELDS:
                rows[cells[0]] = cells
        self.assertEqual(list(rows), list(daybook.FIELDS))
        for name, (_, _, format, width, *offsets) in rows.items():
            self.assertEqual(format, daybook.FIELDS[name] or "")
            for version, told in enumerate(offsets, 1):
                for n, m in [(1, 0), (7, 5), (64, 256)]:
                    columns = daybook.Columns(version, n, m)
                    place = [int(width), placed(told, n, m)] if told else None
                    self.assertEqual([columns[name].width, columns[name].offset] if name in columns else None, place)

    def test_what_is_no_form(self) -> None:
        book = (ROOT / "samples" / "day-3.gdb").read_bytes()
        form = OPERATOR.form(book)
        position = bytearray(form.bytes)
        position[form.columns["position_TVB"].offset] ^= 1
        for wrong in (b"", book, form.bytes[:-1], form.bytes + b"\0", position, bytes(20_000)):
            for call in (daybook.restore, daybook.Form):
                with self.assertRaises(daybook.Refused) as caught:
                    call(wrong)
                self.assertEqual(caught.exception.number, 29)
        with self.assertRaises(daybook.Refused) as caught:
            OPERATOR.form(form.bytes)
        self.assertEqual(caught.exception.number, 1)
        for kind in (bytearray, memoryview):
            self.assertEqual(daybook.Form(kind(form.bytes))["id"].tolist(), [101, 102, 103])
            self.assertEqual(OPERATOR.form(kind(book)).bytes, form.bytes)

    def test_a_column_of_a_file(self) -> None:
        form = OPERATOR.form((ROOT / "samples" / "day.gdb").read_bytes())
        self.assertEqual(daybook.read_column(io.BytesIO(form.bytes), "position_PVB").tolist(), [-40_000, 30_000])
        for data, error in [(b"", ValueError), (b"GDB" + form.bytes[3:], ValueError), (form.bytes[:75], ValueError)]:
            self.assertRaises(error, daybook.read_column, io.BytesIO(data), "position_PVB")
        self.assertRaises(KeyError, daybook.read_column, io.BytesIO(form.bytes), "manager_PVB")
        self.assertRaises(KeyError, daybook.read_column, io.BytesIO(form.bytes), "level")


class Archive(unittest.TestCase):
    """The example over a folder of a thousand forms."""

    def setUp(self) -> None:
        folder = tempfile.TemporaryDirectory()
        self.addCleanup(folder.cleanup)
        self.folder = Path(folder.name)
        given = books()
        self.forms = [OPERATOR.form(given[place % len(given)]) for place in range(1000)]
        for place, form in enumerate(self.forms):
            (self.folder / f"{place:04}.gdf").write_bytes(form.bytes)

    def told(self, field: str, python: str = sys.executable) -> str:
        given = {"PYTHONPATH": str(ROOT / "python"), "PYTHONDONTWRITEBYTECODE": "1"}
        command = [python, str(EXAMPLE), field, str(self.folder)]
        return subprocess.run(command, env=given, capture_output=True, text=True, check=True).stdout.strip()

    def expected(self, field: str) -> str:
        views = [form[field] for form in self.forms if field in form]
        found = [number for view in views for number in view]
        drawn, there = 8 * len(self.forms) + sum(view.nbytes for view in views), sum(len(form.bytes) for form in self.forms)
        return (
            f"{field}: {len(found):,} numbers of {len(views):,} forms, sum {sum(found):,}, largest {max(found):,}; "
            f"{drawn:,} of {there:,} bytes drawn"
        )

    def test_one_field_of_a_thousand_forms(self) -> None:
        for field in ("blocked", "position_TVB", "manager_PVB", "standing"):
            self.assertEqual(self.told(field), self.expected(field))

    def test_nothing_else_is_drawn(self) -> None:
        """The reads that the system was asked for, with their places and lengths."""
        places = []

        class Noted(io.FileIO):
            def read(self, size: int = -1) -> bytes:
                places.append((self.tell(), size))
                return super().read(size)

        for place, form in enumerate(self.forms):
            with Noted(self.folder / f"{place:04}.gdf") as file:
                self.assertEqual(daybook.read_column(file, "blocked"), form["blocked"])
            column = form.columns["blocked"]
            self.assertEqual(places[2 * place :], [(0, 8), (column.offset, 8 * column.count)])

    @unittest.skipUnless(importlib.util.find_spec("numpy"), "NumPy is not installed")
    def test_numpy_takes_a_field_without_a_copy(self) -> None:
        import numpy

        for form in self.forms[:40]:
            whole = numpy.frombuffer(form._view, "B")
            for name, view in form.items():
                for array in (numpy.frombuffer(view, view.format), numpy.asarray(view)):
                    self.assertEqual(array.tolist(), view.tolist())
                    self.assertEqual(numpy.shares_memory(array, whole), len(view) > 0, name)
                    self.assertEqual(array.dtype, numpy.dtype(view.format))


if __name__ == "__main__":
    unittest.main()
