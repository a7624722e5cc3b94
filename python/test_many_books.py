"""Tests of many books by several processes: the rows of the parts are those of the books one by one."""

from __future__ import annotations

import concurrent.futures
import importlib.util
import multiprocessing
import pickle
import sys
import unittest
from pathlib import Path

import daybook

ROOT = Path(__file__).resolve().parent.parent
NAMES = sorted(str(path) for folder in ("samples", "rust/vectors") for path in (ROOT / folder).glob("*.gdb"))


def example():
    """The example as a module, which the processes of a pool find by its name."""
    spec = importlib.util.spec_from_file_location("many_books", ROOT / "examples/python/many_books.py")
    module = importlib.util.module_from_spec(spec)
    sys.modules["many_books"] = module
    spec.loader.exec_module(module)
    return module


many_books = example()


def one_by_one(name: str) -> tuple[str, int, int, int, int]:
    try:
        run = daybook.Operator().run(Path(name).read_bytes())
    except daybook.Refused as refused:
        return name, refused.number, 0, 0, 0
    return name, 0, run.reductions, run.mwh, run.worth


class ManyBooks(unittest.TestCase):
    def setUp(self) -> None:
        self.wanted = [one_by_one(name) for name in NAMES]
        self.parts = [NAMES[at : at + 7] for at in range(0, len(NAMES), 7)]
        self.assertGreater(len(NAMES), 50)
        self.assertTrue(any(number for _, number, *_ in self.wanted))

    def test_parts(self) -> None:
        """Whatever the parts are, empty ones too; a part is drawn on as its rows are, and the function can be sent."""
        rows = pickle.loads(pickle.dumps(many_books.rows))
        self.assertEqual(list(rows(iter(()))), [])
        self.assertEqual(list(rows((name, Path(name).read_bytes()) for name in NAMES)), self.wanted)
        drawn = []
        books = (drawn.append(name) or (name, Path(name).read_bytes()) for name in NAMES)
        next(rows(books))
        self.assertEqual(drawn, NAMES[:1])

    def test_processes(self) -> None:
        """By the two kinds of pools that the standard library has."""
        context = multiprocessing.get_context("fork")
        with context.Pool(2) as pool:
            told = pool.map(many_books.part, self.parts)
        self.assertEqual([row for part in told for row in part], self.wanted)
        with concurrent.futures.ProcessPoolExecutor(2, mp_context=context) as pool:
            told = list(pool.map(many_books.part, self.parts))
        self.assertEqual([row for part in told for row in part], self.wanted)


if __name__ == "__main__":
    unittest.main()
