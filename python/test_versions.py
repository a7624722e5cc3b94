"""Tests of books as other versions: there and back, what would be lost, the order of the questions."""

from __future__ import annotations

import unittest
from dataclasses import replace
from pathlib import Path

import daybook
from test_forms import OPERATOR, books

SAMPLES = Path(__file__).resolve().parent.parent / "samples"


def bare(book: bytes) -> daybook.Book:
    """The fields of a book without what an earlier version has not."""
    fields = OPERATOR.read(book)
    users = tuple(replace(user, managers=(0, 0, 0)) for user in fields.users)
    return replace(fields, prices=replace(fields.prices, s=0, u=0), users=users)


class Versions(unittest.TestCase):
    def refused(self, number: int, book: bytes, version: int) -> None:
        with self.assertRaises(daybook.Refused) as caught:
            OPERATOR.convert(book, version)
        self.assertEqual(caught.exception.number, number)

    def test_each_version_as_each(self) -> None:
        for book in books():
            first = bare(book)
            own = daybook.write(first)
            for version in (1, 2, 3):
                converted = OPERATOR.convert(own, version)
                self.assertEqual(converted, daybook.write(replace(first, version=version)))
                self.assertEqual(OPERATOR.convert(converted, first.version), own)

    def test_what_would_be_lost(self) -> None:
        versions = set()
        for book in books():
            fields = OPERATOR.read(book)
            tariffs = (fields.prices.s, fields.prices.u) != (0, 0)
            managers = any(user.managers != (0, 0, 0) for user in fields.users)
            for version in (1, 2, 3):
                if (version < 2 and tariffs) or (version < 3 and managers):
                    self.refused(21, book, version)
                    versions.add((fields.version, version))
                else:
                    converted = OPERATOR.convert(book, version)
                    self.assertEqual(OPERATOR.read(converted), replace(fields, version=version))
                    self.assertEqual(OPERATOR.convert(converted, fields.version), book)
        self.assertEqual(versions, {(2, 1), (3, 1), (3, 2)})

    def test_upwards_every_answer_stays(self) -> None:
        for book in books():
            for version in range(OPERATOR.read(book).version, 4):
                converted = OPERATOR.convert(book, version)
                self.assertEqual(OPERATOR.level_table(converted), OPERATOR.level_table(book))
                own, other = OPERATOR.run(book), OPERATOR.run(converted)
                self.assertEqual((own.reductions, own.mwh, own.worth), (other.reductions, other.mwh, other.worth))
                self.assertEqual(OPERATOR.convert(own.book, version), other.book)

    def test_refusals(self) -> None:
        book = (SAMPLES / "day-3.gdb").read_bytes()
        for version in (0, 4, 257, 65_537, 2**32 - 1):
            self.refused(23, book, version)
            self.refused(3, book[:-1], version)
        self.refused(21, book, 1)
        self.refused(1, b"", 3)
        for version in (-1, 2**32):
            self.assertRaises(ValueError, OPERATOR.convert, book, version)
        for kind in (bytearray, memoryview):
            self.assertEqual(OPERATOR.convert(kind(book), 3), book)


if __name__ == "__main__":
    unittest.main()
