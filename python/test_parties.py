"""Tests of who may see and do what: a shipper's calls, who is refused, and that no call goes without a party."""

from __future__ import annotations

import unittest
from dataclasses import replace
from pathlib import Path

import daybook

OPERATOR = daybook.Operator()
SAMPLES = Path(__file__).resolve().parent.parent / "samples"
DAY, GROUP = (SAMPLES / "day.gdb").read_bytes(), (SAMPLES / "day-3.gdb").read_bytes()


class Parties(unittest.TestCase):
    def test_a_shipper_is_told_what_the_operator_is_told(self) -> None:
        for book in (DAY, GROUP):
            fields = OPERATOR.read(book)
            for id in (user.id for user in fields.users):
                shipper = daybook.Shipper(id)
                self.assertEqual(shipper.record(book), OPERATOR.record(book, id))
                self.assertEqual(shipper.record_picked(b"", book, True), OPERATOR.record(book, id))
                self.assertEqual(shipper.morning_level(book), OPERATOR.morning_level(book, id))
                self.assertEqual(shipper.afternoon_level(book), OPERATOR.afternoon_level(book, id))
                row = next(row for row in OPERATOR.levels(book) if row.id == id)
                self.assertEqual(row[2:], (shipper.morning_level(book), shipper.afternoon_level(book)))
                self.assertEqual(shipper.flag(book), OPERATOR.flag(book, id))
                managed = {(user.id, area) for user in fields.users for area in range(3) if user.managers[area] == id}
                seen = [
                    trade
                    for trade in fields.trades
                    if id in (trade.seller, trade.buyer)
                    or {(trade.seller, trade.area), (trade.buyer, trade.area)} & managed
                ]
                self.assertEqual((shipper.trades(book), OPERATOR.trades(book, id)), (seen, seen))
                self.assertEqual((shipper.trade_count(book), OPERATOR.trade_count(book, id)), (len(seen),) * 2)
                self.assertEqual([shipper.trade(book, it) for it in range(len(seen))], seen)
                self.assertIsNone(shipper.trade(book, len(seen)))
                self.assertIsNone(OPERATOR.trade(book, id, 2**32 - 1))
        self.assertEqual(len(daybook.Shipper(101).trades(GROUP)), 3)

    def test_who_may_not(self) -> None:
        house = replace(OPERATOR.read(DAY).users[0], id=103, role=daybook.CLEARING_HOUSE, assigned=0, blocked=0)
        house = replace(house, physical=(0, 0, 0), position=(0, 0, 0))
        fields = OPERATOR.read(DAY)
        book = daybook.write(replace(fields, users=(*fields.users, house)))
        malformed = b""
        for id in (0, 100, 103, 104, 2**32 - 1):
            shipper = daybook.Shipper(id, malformed)
            for call in (
                shipper.record, shipper.morning_level, shipper.afternoon_level, shipper.flag, shipper.trade_count,
                shipper.trades, lambda book: shipper.trade(book, 0), lambda book: shipper.record_picked(book, b"", False),
            ):
                with self.assertRaises(daybook.Refused) as caught:
                    call(book)
                self.assertEqual(caught.exception.number, 26)
        with self.assertRaises(daybook.Refused) as caught:
            daybook.Shipper(101, malformed).flag(book)
        self.assertEqual(caught.exception.number, 16)
        for name in ("run", "read", "warning", "posting", "reduction", "form", "withdrawal", "level_table"):
            self.assertFalse(hasattr(daybook.Shipper(101), name), name)
        self.assertEqual((repr(OPERATOR), repr(daybook.Shipper(101))), ("Operator()", "Shipper(101)"))

    def test_no_call_without_a_party(self) -> None:
        for name in ("run", "read", "afternoon_level", "posting", "level_table", "withdrawal", "form", "flag"):
            self.assertFalse(hasattr(daybook, name), name)


if __name__ == "__main__":
    unittest.main()
