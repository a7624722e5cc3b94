"""Tests of books as text and as CSV files: there and back, what spreadsheets write, and what cannot be read."""

from __future__ import annotations

import ast
import pickle
import re
import tempfile
import unittest
import warnings
from pathlib import Path

import daybook

OPERATOR = daybook.Operator()
ROOT = Path(__file__).resolve().parent.parent
RUST = ROOT / "rust" / "daybook-text" / "tests"
START = "daybook 1\ndate 2026-03-18\nprices P 20.00 Q 21.00 L 3.00 X 1.00 I 0.50\n"
HEADER = "version,date,P,Q,L,X,I\n1,2026-03-18,20,21,3,1,0.5\n"
USERS = "id,role,physical_PVB,physical_TVB,physical_AVB,charges,assigned,blocked\n"
TRADES = "seller,buyer,area,kind,day,notified\n"


def accepted() -> list[tuple[bytes, daybook.Book]]:
    found = []
    for file in [*sorted((ROOT / "samples").glob("*.gdb")), *sorted((ROOT / "rust" / "vectors").rglob("*.gdb"))]:
        try:
            found.append((file.read_bytes(), OPERATOR.read(file.read_bytes())))
        except daybook.Refused:
            continue
    return found


def told(text: str | bytes) -> list[str]:
    """The mistakes of a text, as the tests of Rust have them."""
    try:
        daybook.read_text(text)
    except daybook.Unreadable as unreadable:
        return [f":{mistake}" for mistake in unreadable.mistakes]
    return []


def book(header: str = HEADER, users: str = USERS, trades: str = TRADES, day_first: bool = False) -> daybook.Book:
    return daybook.read_csv({"header.csv": header, "users.csv": users, "trades.csv": trades}, day_first)


def table(name: str, start: str) -> list[tuple[str, ...]]:
    """The rows of a table of a test in Rust, which Python can read: so both have the same words."""
    text = (RUST / name).read_text(encoding="utf-8")
    rows = re.search(rf"for \({start}, told\) in \[\n(.*?)\n    \] \{{", text, re.S)
    assert rows is not None
    literal = re.sub(r'&format!\("\{users\}', '("' + USERS[:-1] + r"\\n", rows[1])
    return list(ast.literal_eval(f"[{literal}]"))


class Texts(unittest.TestCase):
    def test_there_and_back(self) -> None:
        versions = set()
        for data, fields in accepted():
            for positions in (False, True):
                text = daybook.write_text(fields, positions)
                self.assertEqual(daybook.write(daybook.read_text(text)), data)
            self.assertEqual(daybook.read_text(b"\xef\xbb\xbf" + text.replace("\n", "\r\n").encode()), fields)
            versions.add(fields.version)
        self.assertEqual(versions, {1, 2, 3})

    def test_the_samples(self) -> None:
        for file in sorted((ROOT / "samples").glob("*.txt")):
            if b"\ndaybook " not in file.read_bytes():
                continue
            fields = daybook.read_text(file.read_bytes())
            if file.name == "refused.txt":
                with self.assertRaises(daybook.Refused) as caught:
                    daybook.write(fields)
                self.assertTrue(caught.exception.faults)
            else:
                self.assertEqual(OPERATOR.read(daybook.write(fields)), fields, file.name)
                self.assertEqual(daybook.read_text(daybook.write_text(fields)), fields)
        example = OPERATOR.run(daybook.write(daybook.read_text((ROOT / "samples" / "reduction.txt").read_bytes())))
        self.assertEqual((example.reductions, example.mwh, example.worth), (1, 15_000, 30_000_000))

    def test_mistakes(self) -> None:
        lines, texts = table("forms.rs", "line"), table("forms.rs", "text")
        self.assertGreater(len(lines) + len(texts), 25)
        for line, wanted in lines:
            self.assertEqual(told(f"{START}{line}\n"), [wanted], line)
        for text, wanted in texts:
            self.assertEqual(told(text)[0], wanted, text)
        self.assertEqual(told(b"daybook 1\n# \xff"), [":2:3: the text is not in UTF-8 here"])
        many = told(START + "user x shipper\n" * 3 + "user 1 shipper\n" + "trade\n" * 30)
        self.assertEqual((len(many), many[3]), (20, ":8:6: the seller's id is missing"))
        self.assertEqual(told(b"#" * (2**20 + 1)), [":1:1: the text is longer than 1 MB, and no book, list or store is"])

    def test_versions(self) -> None:
        for text, wanted in [
            (START.replace("I 0.50", "I 0.50 S 1.00"), ":3:45: S: version 1 has no place for selling tariffs; versions 2 and 3 have S and U"),
            (START.replace("daybook 1", "daybook 2"), ":3:44: S is missing"),
            (START + "user 1 shipper manager PVB 2", ":4:16: manager: version 1 has no place for managers; version 3 has them"),
        ]:
            self.assertEqual(told(text), [wanted])
        three = START.replace("daybook 1", "daybook 3").replace("I 0.50", "I 0.50 S 1.00 U 2.00")
        managed = daybook.read_text(three + "user 1 shipper\nuser 2 shipper manager PVB 1 TVB none avb 1\n")
        self.assertEqual((managed.users[1].managers, managed.prices.s, managed.prices.u), ((1, 0, 1), 100, 200))

    def test_a_mistake_is_a_value_error(self) -> None:
        with self.assertRaises(ValueError) as caught:
            daybook.read_text("daybook 1\nuser 1\nuser 2\n")
        again = pickle.loads(pickle.dumps(caught.exception))
        self.assertEqual(again.mistakes, caught.exception.mistakes)  # type: ignore[attr-defined]
        self.assertEqual(str(again), "2:7: the role is missing\n3:7: the role is missing")


class Tables(unittest.TestCase):
    def test_there_and_back(self) -> None:
        for data, fields in accepted():
            for semicolons in (False, True):
                files = daybook.csv_files(fields, semicolons)
                self.assertEqual(daybook.write(daybook.read_csv(files)), data)
        with tempfile.TemporaryDirectory() as folder:
            for semicolons in (False, True):
                daybook.write_csv(fields, Path(folder) / "new", semicolons)
                self.assertEqual(daybook.read_csv(Path(folder) / "new"), fields)
                self.assertEqual(daybook.read_csv(f"{folder}/new"), fields)

    def test_what_spreadsheets_write(self) -> None:
        users = USERS + "1,shipper,-1500,0,,1234.5,2000,1000.01\n2,clearing-house,0,0,0,0,0,0\n"
        trades = TRADES + "1,2,PVB,bilateral,d,30000\n"
        wanted = book(HEADER, users, trades)
        self.assertEqual(wanted.users[0].position, (-31_500, 0, 0))
        self.assertEqual((wanted.users[0].charges, wanted.users[0].assigned, wanted.users[0].blocked), (123_450, 200_000, 100_001))
        semicolons = users.replace(",", ";").replace(".", ",").replace("-1500", "-1.500")
        tabs = users.replace(",", "\t")
        quoted = users.replace("1234.5", '"1,234.5"').replace("shipper", '"Shipper"')
        ids = "\n".join([users.split("\n")[0], users.split("\n")[2], users.split("\n")[1], ",,", ""])
        turned = "\n".join(",".join(reversed(line.split(","))) for line in users.split("\n"))
        for other in (semicolons, tabs, quoted, ids, turned, users.replace("\n", "\r\n"), "\ufeff" + users):
            self.assertEqual(book(HEADER, other, trades), wanted, other)
        coded = {"header.csv": HEADER.encode("utf-16"), "users.csv": users.encode("utf-16"), "trades.csv": trades.encode()}
        self.assertEqual(daybook.read_csv(coded), wanted)
        named = users.replace("blocked\n", "blocked,name\n").replace("1000.01", "1000.01,Peña").encode("latin-1")
        self.assertEqual(daybook.read_csv({**coded, "users.csv": named}), wanted)

    def test_dates(self) -> None:
        for text, day_first, wanted in [
            ("18.03.2026", False, 20_260_318), ("8.3.2026", False, 20_260_308), ("18/03/2026", True, 20_260_318),
            ("18/03/26", True, 20_260_318), ("18.03.26", True, 20_260_318),
        ]:
            self.assertEqual(book(HEADER.replace("2026-03-18", text), day_first=day_first).date, wanted, text)
        for text, day_first in [("18/03/2026", False), ("18.03.26", False), ("2026/03/18", True), ("18/03/126", True)]:
            with self.assertRaises(daybook.Unreadable):
                book(HEADER.replace("2026-03-18", text), day_first=day_first)

    def test_amounts(self) -> None:
        """As the tests of Rust have them, by commas, semicolons and tabs."""
        for text, cents in [
            ("1234.50", (123_450, 123_450, 123_450)), ("1234.5", (123_450, 123_450, 123_450)), ("-7", (-700, -700, -700)),
            ('"1,234.50"', (123_450, None, 123_450)), ('"1.234,50"', (None, 123_450, 123_450)),
            ('"-1.234.567,8"', (None, -123_456_780, -123_456_780)), ('"1,234,567"', (123_456_700, None, 123_456_700)),
            ("1.234.567", (None, 123_456_700, 123_456_700)), ("1.234", (None, 123_400, None)),
            ('"1,234"', (123_400, None, None)), ("1.23.456", (None, None, None)), (".5", (None, None, None)),
            ("1 234.50", (None, None, None)), ("1.", (None, None, None)),
        ]:
            for separator, wanted in zip(",;\t", cents):
                rows = USERS.replace(",", separator) + separator.join(["1", "shipper", "0", "0", "0", text, "0", "0"])
                try:
                    got = book(users=rows).users[0].charges
                except daybook.Unreadable:
                    got = None
                self.assertEqual(got, wanted, (text, separator))

    def test_mistakes(self) -> None:
        rows = table("tables.rs", "place, file")
        self.assertGreater(len(rows), 10)
        names = ("header.csv", "users.csv", "trades.csv")
        for place, file, wanted in rows:
            files = dict(zip(names, (HEADER, USERS, TRADES)))
            files[names[int(place)]] = file
            with self.assertRaises(daybook.Unreadable) as caught, warnings.catch_warnings():
                warnings.simplefilter("ignore")
                daybook.read_csv(files)
            wanted = wanted.replace("`daybook from-csv --dates dmy`", "`day_first`")
            self.assertEqual(f"/{caught.exception.mistakes[0]}", wanted)

    def test_other_columns_are_told(self) -> None:
        with self.assertWarnsRegex(UserWarning, "users.csv:1:1: the column note is skipped"):
            book(users="note," + USERS + "x,1,shipper,0,0,0,0,0,0\n")

    def test_corrections(self) -> None:
        lines = daybook.read_corrections("MWh;id;area\n-1.500;101;pvb\n7;102;2\n")
        self.assertEqual(lines, [(101, 0, -1500), (102, 2, 7)])
        sample = (ROOT / "samples" / "day.gdb").read_bytes()
        self.assertEqual(OPERATOR.posting_list(sample, lines).numbers, (0, 0))
        with self.assertRaisesRegex(daybook.Unreadable, "2:5: area is one of PVB, TVB, AVB, not `xvb`"):
            daybook.read_corrections("id,area,MWh\n101,xvb,1\n")


if __name__ == "__main__":
    unittest.main()
