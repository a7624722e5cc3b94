"""Holds the module's readers of texts and tables to the program's, on hostile inputs: hostile.py PROGRAM SAMPLES [INPUTS [SEED]]

Texts and tables of the samples with words, lines and characters put in, taken out, changed and doubled are given to both. An input has to be accepted by both, refused by both
with the same number and the same faults, or told by both with the same mistakes at the same places. The tests of the program hold it to the engine (rust/cli/tests/hostile.rs).
"""
from __future__ import annotations

import random
import re
import subprocess
import sys
import tempfile
import warnings
from pathlib import Path
from typing import Callable, List, Tuple, Union

import daybook

WORDS = ["user", "trade", "PVB", "tvb", "shipper", "physical", "manager", "none", "1.00", "-5", "99999999999", "d+1", "ä", "#", '"', '""', "standing", "S", "prices", "daybook", "date"]
WORDS += ["0", "1,000", "position", "\t", "blocked", "100001", "4294967296", "", "x", "1.5", "1,5", '"1,234.50"', "1.234,50", "bilateral", "name", "30.000", "18.03.2026", "18/03/2026"]
CODES = ["utf-8", "utf-8", "utf-8", "utf-16", "latin-1"]
Told = Tuple[str, List[str]]


def changed(text: str, separator: str, by: random.Random) -> str:
    """A text with one to three changes, in whose lines words stand between separators."""
    for _ in range(by.randint(1, 3)):
        lines = text.split("\n")
        place = by.randrange(len(lines))
        words = lines[place].split(separator)
        way = by.randrange(7)
        if way == 0:
            words[by.randrange(len(words))] = by.choice(WORDS)
        elif way == 1:
            words.insert(by.randrange(len(words) + 1), by.choice(WORDS))
        elif way == 2:
            words.pop(by.randrange(len(words)))
        elif way == 3:
            by.shuffle(words)
        elif way == 4:
            lines.insert(by.randrange(len(lines)), by.choice(lines))
        lines[min(place, len(lines) - 1)] = separator.join(words)
        text = "\n".join(lines)
        at = by.randrange(len(text) + 1)
        if way == 5:
            text = text[:at] + text[at + by.randint(1, 6) :]
        elif way == 6:
            text = text[:at] + by.choice('0123456789 .,-\nabPVBTA;"#') + text[at + 1 :]
    return text


def by_module(read: Callable[[], daybook.Book]) -> Told:
    """What the module says: accepted, the number and the faults, or the mistakes."""
    try:
        daybook.write(read())
    except daybook.Unreadable as unreadable:
        return "", [str(mistake).replace("`day_first`", "`daybook from-csv --dates dmy`") for mistake in unreadable.mistakes]
    except daybook.Refused as refused:
        # The program adds the line of an id's twin.
        return f"refused by question {refused.number}: ", [str(fault) for fault in refused.faults]
    return ": accepted: ", []


def tried(program: str, folder: Path, books: "list[daybook.Book]", by: random.Random) -> "tuple[str, bool]":
    """One input for both: what the module says, and whether the program says the same."""
    book = by.choice(books)
    if by.random() < 0.5:
        data = changed(daybook.write_text(book, by.random() < 0.3), " ", by).encode("utf-8")
        given = folder / "text.txt"
        given.write_bytes(data)
        head, told = by_module(lambda: daybook.read_text(data))
        if not re.match(rb"(?:[ \t\r]*(?:#[^\n]*)?\n)*[ \t\r]*daybook(?:\s|$)", data):
            return "no text", True  # the program takes it for another kind of file
    else:
        separator = by.choice([",", ";", "\t"])
        written = {name: text.replace(",", "\t") if separator == "\t" else text for name, text in daybook.csv_files(book, separator == ";").items()}
        name = by.choice(list(written))
        written[name] = changed(written[name], separator, by)
        given = folder / "tables"
        files: dict[str, Union[str, bytes]] = {}
        for name, text in written.items():
            files[name] = text.encode("utf-8" if text.startswith("\ufeff") else by.choice(CODES), "replace")
            (given / name).write_bytes(files[name])  # type: ignore[arg-type]
        head, told = by_module(lambda: daybook.read_csv(files))
    done = subprocess.run([program, "check", str(given)], capture_output=True, encoding="utf-8")
    out = done.stdout + done.stderr
    kind = "accepted" if head.startswith(":") else "refused" if head else "told"
    # The program tells the first twenty of many faults.
    return kind, head in out and all(line in out for line in told[:20])


def main() -> None:
    program, samples = sys.argv[1], Path(sys.argv[2])
    inputs = int(sys.argv[3]) if len(sys.argv) > 3 else 200
    seed = int(sys.argv[4]) if len(sys.argv) > 4 else 1
    by, counts = random.Random(seed), {"accepted": 0, "refused": 0, "told": 0, "no text": 0}
    texts = [path.read_bytes() for path in sorted(samples.glob("*.txt"))]
    books = [daybook.read_text(text) for text in texts if b"\ndaybook " in text]
    warnings.simplefilter("ignore")
    with tempfile.TemporaryDirectory() as work:
        (Path(work) / "tables").mkdir()
        for number in range(inputs):
            kind, same = tried(program, Path(work), books, by)
            counts[kind] += 1
            if not same:
                sys.exit(f"hostile.py: input {number} of seed {seed}: the program says something else")
    print(f"hostile.py: {inputs} inputs of seed {seed}: " + ", ".join(f"{count} {kind}" for kind, count in counts.items()))


if __name__ == "__main__":
    main()
