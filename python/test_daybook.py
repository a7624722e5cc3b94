"""Tests of the module daybook: the outside vectors of rust/vectors, hostile arguments."""

from __future__ import annotations

import hashlib
import struct
import unittest
from dataclasses import replace
from pathlib import Path
from typing import Callable

import daybook

OPERATOR = daybook.Operator()
VECTORS = Path(__file__).resolve().parent.parent / "rust" / "vectors"


def sha(data: bytes) -> str:
    return hashlib.sha256(data).hexdigest()


def printed_books() -> list[Path]:
    """The books of versions 1 and 2 that have a printed day."""
    folders = [VECTORS, VECTORS / "version-1", VECTORS / "version-2"]
    return [file for folder in folders for file in sorted(folder.glob("*.gdb"))]


def answered(call: Callable[[], tuple[list[str], bytes]], book: bytes, fields: list[str]) -> tuple[list[str], bytes]:
    """The number, the fields in words and the book after a call; a refusal has every field 0."""
    try:
        told, after = call()
    except daybook.Refused as refused:
        return [str(refused.number), *fields], book
    return ["0", *told], after


def calls(name: str, words: list[str], book: bytes, store: bytes | None = None) -> tuple[list[str], bytes]:
    """One line of calls.txt: the words of its answer, and the book after it."""
    id = int(words[0]) if words else 0
    operator = daybook.Operator(store)

    def level(of: Callable[..., int]) -> tuple[list[str], bytes]:
        return [str(of(book, id))], book

    def call(of: Callable[..., daybook.GuaranteeCall]) -> tuple[list[str], bytes]:
        level, added, after, _ = of(book, id)
        return [str(level), str(added)], after

    def posted() -> tuple[list[str], bytes]:
        return [], operator.posting(book, id, int(words[1]), int(words[2])).book

    def shown() -> tuple[list[str], bytes]:
        record = operator.record(book, id)._packed()
        return [record[: 68 if book[3] == 3 else 56].hex()], book

    def reduced() -> tuple[list[str], bytes]:
        *figures, after, _ = operator.reduction(book, id)
        return [str(figure) for figure in figures], after

    def run() -> tuple[list[str], bytes]:
        *figures, after, _, _ = operator.run(book)
        return [str(figure) for figure in figures], after

    def warned() -> tuple[list[str], bytes]:
        return [str(int(operator.warning(book, id)))], book

    def mlevel() -> tuple[list[str], bytes]:
        return level(operator.morning_level)

    def alevel() -> tuple[list[str], bytes]:
        return level(operator.afternoon_level)

    def mcall() -> tuple[list[str], bytes]:
        return call(operator.morning_call)

    def acall() -> tuple[list[str], bytes]:
        return call(operator.afternoon_call)

    made = {
        "post": (posted, 0), "show": (shown, 0), "mlevel": (mlevel, 1), "alevel": (alevel, 1), "mcall": (mcall, 2),
        "acall": (acall, 2), "warn": (warned, 1), "reduce": (reduced, 5), "run": (run, 3),
    }
    function, zeros = made[name]
    return answered(function, book, ["-"] if name == "show" else ["0"] * zeros)


class Vectors(unittest.TestCase):
    """What an independent implementation says of books."""

    def test_calls(self) -> None:
        book, count = b"", 0
        for line in (VECTORS / "calls.txt").read_text().splitlines():
            if line.startswith(("#", "read", "write", "show2")):
                continue
            asked, told = line.split(" -> ")
            name, file, *words = asked.split()
            book = book if file == "=" else (VECTORS / file).read_bytes()
            with self.subTest(line):
                *answer, after = told.split()
                got, book = calls(name, words, book)
                self.assertEqual((got, sha(book)), (answer, after))
            count += 1
        self.assertGreaterEqual(count, 1971)

    def test_calls_with_stores(self) -> None:
        self.assertGreaterEqual(self.calls_of("version-1"), 2906)

    def test_calls_of_version_2(self) -> None:
        self.assertGreaterEqual(self.calls_of("version-2"), 2253)

    def calls_of(self, folder: str) -> int:
        """Makes the calls of a folder of vectors; how many there were."""
        names = {
            "posting": "post", "show": "show", "morning_level": "mlevel", "afternoon_level": "alevel",
            "morning_call": "mcall", "afternoon_call": "acall", "midday_warning": "warn", "reduction": "reduce",
            "run": "run",
        }
        count = 0
        for line in (VECTORS / folder / "calls.txt").read_text().splitlines():
            asked, told = line.split(" -> ")
            name, *pairs = asked.split()
            if name not in names:
                continue
            given = dict(pair.split("=", 1) for pair in pairs)
            book = (VECTORS / folder / given.pop("book")).read_bytes()
            bytes_of_store = given.pop("store")
            store = None if bytes_of_store == "-" else bytes.fromhex(bytes_of_store[2:])
            with self.subTest(asked[:90]):
                *answer, after = (pair.split("=", 1)[1] or "-" for pair in told.split())
                got, book = calls(names[name], list(given.values()), book, store)
                self.assertEqual((got, sha(book)), (answer, after))
            count += 1
        return count

    def test_printed_days(self) -> None:
        for file in printed_books():
            printed = file.with_suffix(".out").read_text()
            with self.subTest(file.name):
                self.assertEqual(self.day(file.read_bytes()), printed.split("\n")[0])

    @staticmethod
    def day(book: bytes) -> str:
        try:
            day = OPERATOR.run(book)
        except daybook.Refused as refused:
            return f"refused {refused.number}"
        return f"run {day.reductions} {day.mwh} {day.worth}"

    def test_shrinkage(self) -> None:
        for line in (VECTORS / "shrinkage.txt").read_text().splitlines():
            asked, told = line.split(" -> ")
            answer = dict(pair.split("=") for pair in told.split())
            argument = asked.split("=")[1]
            with self.subTest(asked[:60]):
                if asked.startswith("days"):
                    days = ",".join(map(str, daybook.over_days(int(argument))))
                    self.assertEqual(days, answer["days"])
                    continue
                balances = [int(word) for word in argument.split(",") if word]
                try:
                    got = daybook.shrinkage_return(balances)
                except daybook.Refused as refused:
                    self.assertEqual(str(refused.number), answer["number"])
                    continue
                self.assertEqual([str(got.half), str(got.odd), str(got.rest)], [answer[key] for key in ("half", "odd", "rest")])
                self.assertEqual(",".join(str(share.kwh) for share in got.shares), answer["shares"])
                self.assertEqual(",".join(str(share.remainder) for share in got.shares), answer["remainders"])


class Books(unittest.TestCase):
    def setUp(self) -> None:
        self.book = (VECTORS / "00000-document-example.gdb").read_bytes()

    def test_read_and_write(self) -> None:
        for file in printed_books():
            book = file.read_bytes()
            try:
                fields = OPERATOR.read(book)
            except daybook.Refused:
                continue
            self.assertEqual(daybook.write(fields), book)
        fields = OPERATOR.read(self.book)
        self.assertEqual(OPERATOR.most_reductions(self.book), 30_000)
        crowded = replace(fields, users=fields.users * 200, trades=fields.trades * 70_000)
        for wrong, number in [
            (replace(fields, version=9), 2), (crowded, 3), (replace(fields, date=20_260_230), 4),
            (replace(fields, users=(replace(fields.users[0], role=7), fields.users[1])), 5),
        ]:
            with self.assertRaises(daybook.Refused) as caught:
                daybook.write(wrong)
            self.assertEqual(caught.exception.number, number)
        with self.assertRaisesRegex(ValueError, "header: date 4294967296 is not within"):
            daybook.write(replace(fields, date=2**32))

    def test_books_of_version_2(self) -> None:
        """The credit of 102, long by 30,000 MWh in PVB, which its morning level has not; the fields
        of versions 1 and 2 there and back, version 1 without the selling tariffs."""
        fields = OPERATOR.read(self.book)
        first, second = fields.users
        owing = replace(second, charges=80_000_000)
        tariffs = replace(fields.prices, s=1_500, u=1_900)
        one = replace(fields, users=(first, owing), prices=tariffs)
        two = replace(one, version=2)
        old, new = daybook.write(one), daybook.write(two)
        self.assertEqual((len(old), len(new)), (len(self.book), len(self.book) + 8))
        self.assertEqual(new[32:40], struct.pack("<II", 1_500, 1_900))
        self.assertEqual(OPERATOR.read(new), two)
        self.assertEqual(OPERATOR.read(old), replace(one, prices=fields.prices))
        self.assertEqual(old, daybook.write(replace(one, prices=fields.prices)))
        self.assertEqual(OPERATOR.level_table(old)[1], (102, 80_000_000, 80_000_000))
        self.assertEqual(OPERATOR.level_table(new)[1], (102, 80_000_000, 80_000_000 - 30_000 * 1_500))
        self.assertEqual(OPERATOR.level_table(old)[0], OPERATOR.level_table(new)[0])
        for wrong, number in [
            (replace(two, prices=replace(tariffs, s=100_001)), 4),
            (replace(two, prices=replace(tariffs, u=100_001)), 4),
            (replace(two, version=4), 2),
        ]:
            with self.assertRaises(daybook.Refused) as caught:
                daybook.write(wrong)
            self.assertEqual(caught.exception.number, number)
        for cut in (new[:39], new[:-1], new[:32] + new[40:]):
            with self.assertRaises(daybook.Refused) as caught:
                OPERATOR.read(cut)
            self.assertEqual(caught.exception.number, 3)

    def test_books_of_version_3(self) -> None:
        """The example with 102 as a member of 101 in PVB: what the two have there together, and the
        sale between them for nobody; the managers of versions 1 and 2 are not written."""
        fields = OPERATOR.read(self.book)
        first, second = fields.users
        member = replace(second, managers=(101, 0, 0))
        three = replace(fields, version=3, users=(first, member))
        alone, book = daybook.write(replace(fields, version=3)), daybook.write(three)
        self.assertEqual((len(alone), len(book)), (len(self.book) + 8 + 2 * 12,) * 2)
        self.assertEqual(book[40 + 68 :][:68], member._packed())
        self.assertEqual(book[40 + 68 + 56 :][:12], struct.pack("<III", 101, 0, 0))
        self.assertEqual((OPERATOR.read(book), OPERATOR.record(book, 102)), (three, member))
        self.assertEqual(OPERATOR.level_table(alone), OPERATOR.level_table(self.book))
        self.assertEqual(OPERATOR.level_table(book), [(101, 20_000_000, 20_000_000), (102, 10_000_000, 10_000_000)])
        self.assertEqual((OPERATOR.run(alone).mwh, OPERATOR.run(book)), (15_000, (0, 0, 0, book, None, False)))
        self.assertEqual((OPERATOR.warning(alone, 102), OPERATOR.warning(book, 102)), (True, False))
        for version in (1, 2):
            old = replace(three, version=version)
            self.assertEqual(daybook.write(old), daybook.write(replace(old, users=fields.users)))
            self.assertEqual(OPERATOR.read(daybook.write(old)).users, fields.users)
        house = replace(second, role=daybook.CLEARING_HOUSE)
        for users in [
            (first, replace(second, managers=(102, 0, 0))),
            (first, replace(second, managers=(0, 103, 0))),
            (replace(first, managers=(102, 0, 0)), member),
            (replace(first, managers=(0, 0, 102)), house),
            (first, replace(house, managers=(0, 101, 0))),
        ]:
            with self.assertRaises(daybook.Refused) as caught:
                daybook.write(replace(three, users=users))
            self.assertEqual(caught.exception.number, 5)
        daybook.write(replace(three, users=(replace(first, managers=(0, 102, 0)), member)))
        for cut in (book[:39], book[:-12], book[:40] + book[52:]):
            with self.assertRaises(daybook.Refused) as caught:
                OPERATOR.read(cut)
            self.assertEqual(caught.exception.number, 3)

    def test_the_book_that_is_given_stays(self) -> None:
        for kind in (bytes, bytearray, memoryview):
            book = kind(self.book)
            self.assertNotEqual(OPERATOR.run(book).book, self.book)
            self.assertEqual(bytes(book), self.book)

    def test_picked(self) -> None:
        self.assertEqual(OPERATOR.record_picked(b"", self.book, True, 102), OPERATOR.record(self.book, 102))
        with self.assertRaises(daybook.Refused) as caught:
            OPERATOR.record_picked(b"", self.book, False, 102)
        self.assertEqual(caught.exception.number, 1)

    @staticmethod
    def store(date: int, least: int) -> bytes:
        return b"GPS\x01\x00\x01" + struct.pack("<IIQQ", date, 30_000, 1_000_000, least)

    def test_stores(self) -> None:
        date = OPERATOR.read(self.book).date
        self.assertEqual(daybook.Operator(self.store(date, 12)).afternoon_level(self.book, 102), 12)
        for given, number in [(self.store(20_991_231, 12), 17), (self.store(20_260_230, 12), 16), (b"", 16)]:
            with self.assertRaises(daybook.Refused) as caught:
                daybook.Operator(given).afternoon_level(self.book, 102)
            self.assertEqual(caught.exception.number, number)

    def test_lists(self) -> None:
        lines = [(101, 0, 500), (7, 0, 1), (102, 3, 1), (102, 2, -20)]
        posted = OPERATOR.posting_list(self.book, lines)
        self.assertEqual(posted.numbers, (0, 8, 10, 0))
        after = OPERATOR.posting(self.book, 101, 0, 500).book
        self.assertEqual(posted.book, OPERATOR.posting(after, 102, 2, -20).book)
        self.assertEqual(OPERATOR.posting_list(self.book, []), ((), self.book, None))
        with self.assertRaises(daybook.Refused) as caught:
            OPERATOR.posting_list(self.book, lines * 129)
        self.assertEqual(caught.exception.number, 15)

    def test_cancellations(self) -> None:
        self.assertEqual(OPERATOR.cancellation(self.book, 101), ((0,), 30_000_000, 2, True))
        self.assertEqual(OPERATOR.cancellation(self.book, 101, 1), ((0,), 30_000_000, 1, False))
        for id, tries, number in [(102, 1, 11), (101, 0, 25), (101, 65_536, 25)]:
            with self.assertRaises(daybook.Refused) as caught:
                OPERATOR.cancellation(self.book, id, tries)
            self.assertEqual(caught.exception.number, number)

    def test_logs(self) -> None:
        """From the start to the first bytes again, and what empties a log."""
        log = daybook.start_log(self.book)
        self.assertEqual(len(log), 271_668)
        self.assertEqual(log[:12], struct.pack("<4sII", b"GDL", 0, len(self.book)))
        cut = OPERATOR.reduction(self.book, 101, log=log)
        run = OPERATOR.run(self.book, log=log)
        self.assertEqual((run.book, run.log, run.log_full), (cut.book, cut.log, False))
        for kind in (bytes, bytearray, memoryview):
            back = OPERATOR.withdrawal(run.book, kind(run.log))
            self.assertEqual(back, (15_000, 30_000_000, self.book, log))
        self.assertEqual(daybook.Operator(self.store(OPERATOR.read(self.book).date, 12)).withdrawal(run.book, run.log), back)
        self.assertIsNone(OPERATOR.run(self.book).log)
        posted = OPERATOR.posting(run.book, 101, 0, 5, log=run.log)
        listed = OPERATOR.posting_list(run.book, [(101, 0, 5)], log=run.log)
        self.assertEqual((posted.log, listed.log), (daybook.start_log(posted.book),) * 2)
        called = OPERATOR.afternoon_call(run.book, 101, log=run.log)
        self.assertEqual(called.log, daybook.start_log(called.book))
        called = OPERATOR.morning_call(run.book, 101, log=run.log)
        self.assertEqual(called.log, daybook.start_log(called.book))

    def test_refused_logs(self) -> None:
        cut = OPERATOR.reduction(self.book, 101, log=daybook.start_log(self.book))
        full = bytearray(daybook.start_log(self.book))
        full[4:8] = struct.pack("<I", 256)
        run = OPERATOR.run(self.book, log=full)
        self.assertEqual(run, (0, 0, 0, self.book, bytes(full), True))
        for call, number in [
            (lambda: OPERATOR.withdrawal(self.book, daybook.start_log(self.book)), 18),
            (lambda: OPERATOR.withdrawal(self.book, b""), 19),
            (lambda: OPERATOR.withdrawal(self.book, cut.log), 19),
            (lambda: OPERATOR.run(cut.book, log=cut.log[:-1]), 19),
            (lambda: OPERATOR.posting(cut.book, 101, 0, 1, log=cut.log + b"\0"), 19),
            (lambda: daybook.start_log(bytes(9_513)), 19),
            (lambda: OPERATOR.reduction(self.book, 101, log=full), 20),
        ]:
            with self.assertRaises(daybook.Refused) as caught:
                call()
            self.assertEqual(caught.exception.number, number)

    def test_arguments_are_not_cut_off(self) -> None:
        for call in (
            lambda: OPERATOR.record(self.book, 2**32 + 101),
            lambda: OPERATOR.record(self.book, -1),
            lambda: OPERATOR.posting(self.book, 101, 2**32, 1),
            lambda: OPERATOR.posting(self.book, 101, 0, 2**63),
            lambda: daybook.Shipper(2**32),
            lambda: daybook.Shipper(101).trade(self.book, -1),
            lambda: daybook.over_days(-1),
            lambda: daybook.shrinkage_return([2**63]),
        ):
            self.assertRaises(ValueError, call)

    def test_any_bytes_are_answered(self) -> None:
        for length in range(0, len(self.book), 7):
            with self.assertRaises(daybook.Refused):
                OPERATOR.run(self.book[:length])
        for place in range(len(self.book)):
            changed = bytearray(self.book)
            changed[place] ^= 0x80
            try:
                OPERATOR.run(changed)
            except daybook.Refused as refused:
                self.assertIn(refused.number, range(1, 8))


if __name__ == "__main__":
    unittest.main()
