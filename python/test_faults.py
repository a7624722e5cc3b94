"""Tests of what is told of a refusal: the fields at fault, held to the engine's number; names of fields in errors."""

from __future__ import annotations

import array
import pickle
import unittest
from dataclasses import replace
from pathlib import Path

import daybook
from daybook.faults import faults

OPERATOR = daybook.Operator()
ROOT = Path(__file__).resolve().parent.parent
SAMPLES = [ROOT / "samples" / name for name in ("day.gdb", "day-2.gdb", "day-3.gdb", "group.gdb")]


def refusal(book: bytes) -> daybook.Refused | None:
    try:
        OPERATOR.read(book)
    except daybook.Refused as refused:
        return refused
    return None


class Faults(unittest.TestCase):
    def agree(self, book: bytes) -> int:
        """A refused book has a field at fault for its number, and none for a number before it."""
        refused = refusal(book)
        number = refused.number if refused else 8
        for before in range(1, number):
            self.assertEqual(faults(book, before), (), (before, number, book.hex()))
        if refused:
            self.assertTrue(refused.faults, book.hex())
            self.assertIn(str(refused.faults[0]), str(refused))
        return number

    def test_vectors(self) -> None:
        files = sorted((ROOT / "rust" / "vectors").rglob("*.gdb"))
        numbers = {self.agree(file.read_bytes()) for file in files}
        self.assertEqual(numbers, set(range(1, 9)))

    def test_each_byte_changed(self) -> None:
        numbers = set()
        for file in SAMPLES:
            book = bytearray(file.read_bytes())
            for place, byte in enumerate(book):
                for other in (byte ^ 1, byte ^ 0x80, 0xFF):
                    book[place] = other
                    numbers.add(self.agree(bytes(book)))
                book[place] = byte
        self.assertEqual(numbers, set(range(1, 9)))

    def test_lengths(self) -> None:
        for file in SAMPLES:
            book = file.read_bytes()
            for length in range(len(book)):
                self.assertIn(self.agree(book[:length]), (1, 3))
            self.assertEqual(self.agree(book + b"\0"), 3)
        self.assertEqual(self.agree(b"daybook 1\n"), 1)

    def test_fields_that_are_no_book(self) -> None:
        """Each damage of the fields, with the fault that it is."""
        book = OPERATOR.read(SAMPLES[2].read_bytes())
        first, second, third = book.users
        trade, *others = book.trades

        def users(*changed: daybook.User) -> daybook.Book:
            return replace(book, users=changed)

        def sale(**changes: int) -> daybook.Book:
            return replace(book, trades=(replace(trade, **changes), *others))

        for wrong, number, record, place, field in [
            (replace(book, version=4), 2, "header", None, "version"),
            (replace(book, users=book.users * 30), 3, "header", None, "user count"),
            (replace(book, trades=book.trades * 200), 3, "header", None, "trade count"),
            (replace(book, date=20_260_230), 4, "header", None, "date"),
            (replace(book, prices=replace(book.prices, u=100_001)), 4, "header", None, "U"),
            (users(first, replace(second, id=first.id), third), 5, "user", 1, "id"),
            (users(replace(first, physical=(1_000_001, 0, 0)), second, third), 5, "user", 0, "physical PVB"),
            (users(first, second, replace(third, blocked=third.assigned + 1)), 5, "user", 2, "blocked"),
            (users(replace(first, managers=(0, 0, 7)), second, third), 5, "user", 0, "manager AVB"),
            (users(replace(first, managers=(third.id, 0, 0)), second, third), 5, "user", 0, "manager PVB"),
            (sale(buyer=7), 6, "trade", 0, "buyer"),
            (sale(kind=1, standing=trade.notified - 1), 6, "trade", 0, "standing"),
            (users(replace(first, position=(0, 0, 1)), second, third), 7, "user", 0, "position PVB"),
        ]:
            with self.assertRaises(daybook.Refused) as caught:
                daybook.write(wrong)
            refused = caught.exception
            self.assertEqual((refused.number, refused.faults[0][:3]), (number, (record, place, field)), refused)
            again = pickle.loads(pickle.dumps(refused))
            self.assertEqual((again.number, again.faults, str(again)), (number, refused.faults, str(refused)))

    def test_a_refusal_without_faults(self) -> None:
        with self.assertRaises(daybook.Refused) as caught:
            OPERATOR.afternoon_level(SAMPLES[0].read_bytes(), 7)
        self.assertEqual((caught.exception.faults, str(caught.exception)), ((), "refused by question 8: id in the book?"))

    def test_every_call_tells_the_faults(self) -> None:
        book = SAMPLES[0].read_bytes()[:-1]
        shipper = daybook.Shipper(101)
        for call in [
            lambda: OPERATOR.read(book), lambda: OPERATOR.form(book), lambda: OPERATOR.convert(book, 2),
            lambda: OPERATOR.record(book, 101), lambda: OPERATOR.record_picked(b"", book, True, 101),
            lambda: OPERATOR.posting(bytearray(book), 101, 0, 1), lambda: OPERATOR.run(memoryview(book)),
            lambda: OPERATOR.cancellation(book, 101), lambda: OPERATOR.posting_list(book, []),
            lambda: shipper.flag(book), lambda: shipper.trade(book, 0), lambda: OPERATOR.most_reductions(book),
            lambda: OPERATOR.level_table(book),
        ]:
            with self.assertRaises(daybook.Refused) as caught:
                call()
            self.assertEqual([fault.field for fault in caught.exception.faults], ["length"])


class Positions(unittest.TestCase):
    def test_positions_of_accepted_books(self) -> None:
        for file in sorted((ROOT / "rust" / "vectors").rglob("*.gdb")):
            book = file.read_bytes()
            if refusal(book) is None:
                fields = OPERATOR.read(book)
                self.assertEqual(daybook.positions(fields), tuple(user.position for user in fields.users))
                blank = replace(fields, users=tuple(replace(user, position=(9, 9, 9)) for user in fields.users))
                self.assertEqual(daybook.write(daybook.with_positions(blank)), book)


class Names(unittest.TestCase):
    """What is no number, or none that its field holds, is told with the names of record and field."""

    def test_fields(self) -> None:
        book = OPERATOR.read(SAMPLES[2].read_bytes())
        first, *users = book.users
        trade, *trades = book.trades

        def user(**changes: object) -> daybook.Book:
            return replace(book, users=(replace(first, **changes), *users))  # type: ignore[arg-type]

        def sale(**changes: object) -> daybook.Book:
            return replace(book, trades=(replace(trade, **changes), *trades))  # type: ignore[arg-type]

        for wrong, error, told in [
            (user(id="101"), TypeError, "user 1, id 101: id is '101', not a whole number"),
            (user(charges=1.5), TypeError, "user 1, id 101: charges is 1.5, not a whole number"),
            (user(physical=(1, 2)), ValueError, "user 1, id 101: physical has 2 numbers, not three"),
            (user(position=5), TypeError, "user 1, id 101: position is 5, not three numbers"),
            (user(managers=(0, None, 0)), TypeError, "user 1, id 101: manager TVB is None, not a whole number"),
            (user(blocked=-1), ValueError, "user 1, id 101: blocked -1 is not within 0 to 18446744073709551615"),
            (user(position=(0, 0, 2**31)), ValueError, "position AVB 2147483648 is not within -2147483648 to 2147483647"),
            (sale(kind=256), ValueError, "trade 1, 101 to 102: kind 256 is not within 0 to 255"),
            (sale(standing=None), TypeError, "trade 1, 101 to 102: standing is None, not a whole number"),
            (replace(book, version=-1), ValueError, "header: version -1 is not within 0 to 65535"),
            (replace(book, prices=replace(book.prices, x="1")), TypeError, "header: X is '1', not a whole number"),
        ]:
            with self.assertRaises(error) as caught:
                daybook.write(wrong)
            self.assertIn(told, str(caught.exception))

    def test_arguments(self) -> None:
        book = SAMPLES[0].read_bytes()
        for call, told in [
            (lambda: OPERATOR.read("day.gdb"), "book is str, not bytes"),
            (lambda: OPERATOR.run(9), "book is int, not bytes"),
            (lambda: OPERATOR.run(book, log="log"), "log is str, not bytes"),
            (lambda: daybook.Operator([1]).run(book), "store is list, not bytes"),
            (lambda: OPERATOR.afternoon_level(book, "101"), "id is '101', not a whole number"),
            (lambda: OPERATOR.posting(book, 101, 0, 1.5), "amount is 1.5, not a whole number"),
            (lambda: daybook.restore("form"), "form is str, not bytes"),
        ]:
            with self.assertRaisesRegex(TypeError, told):
                call()  # type: ignore[no-untyped-call]


class Records(unittest.TestCase):
    """Records that are made when they are asked for are those that were made at once."""

    def test_read_books(self) -> None:
        data = SAMPLES[2].read_bytes()
        book, other = OPERATOR.read(data), OPERATOR.read(bytearray(data))
        made = daybook.Book(book.date, book.prices, book.users, book.trades, book.version)
        self.assertEqual((book, hash(book), repr(book)), (made, hash(made), repr(made)))
        self.assertEqual(pickle.loads(pickle.dumps(other)), book)
        self.assertEqual((other.users[0], other.trades), (made.users[0], made.trades))
        self.assertIs(book.users, book.users)
        with self.assertRaises(AttributeError):
            book.names  # type: ignore[attr-defined]
        with self.assertRaises(AttributeError):
            book.users[0].id = 7  # type: ignore[misc]
        self.assertEqual(daybook.Book(20_260_318, daybook.Prices(1, 1)).users, ())

    def test_bytes_of_any_kind(self) -> None:
        data = SAMPLES[0].read_bytes()
        for kind in (bytearray(data), memoryview(data), array.array("B", data)):
            self.assertEqual(OPERATOR.afternoon_level(kind, 101), 80_000_000)  # type: ignore[arg-type]
            self.assertEqual(OPERATOR.run(kind).mwh, 15_000)  # type: ignore[arg-type]

    def test_what_is_lent_is_left(self) -> None:
        """A book that can be changed is copied once; the call sees it as it was."""
        data = bytearray(SAMPLES[0].read_bytes())
        book = OPERATOR.read(data)
        data[:3] = b"XXX"
        self.assertEqual(daybook.write(book), SAMPLES[0].read_bytes())


if __name__ == "__main__":
    unittest.main()
