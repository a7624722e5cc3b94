"""Tests of what is written about the module: its examples, those of the documents, types and texts of what is public."""

from __future__ import annotations

import doctest
import inspect
import itertools
import os
import typing
import unittest
from pathlib import Path

import daybook

ROOT = Path(__file__).resolve().parent.parent


def load_tests(loader: unittest.TestLoader, tests: unittest.TestSuite, pattern: object) -> unittest.TestSuite:
    """The examples of the module are tests, too."""
    for module in (daybook, daybook.books, daybook.forms, daybook.parties, daybook.refusals, daybook.shrinkage, daybook.tables, daybook.text, daybook.words):
        tests.addTests(doctest.DocTestSuite(module))
    return tests


class Documents(unittest.TestCase):
    def test_documents(self) -> None:
        """The examples of every document that has some, which begin at the root."""
        pages = [ROOT / "README.md", ROOT / "CONTRIBUTING.md", *sorted((ROOT / "docs").glob("*.md"))]
        texts = {page.name: page.read_text(encoding="utf-8") for page in pages}
        shown = {name: text for name, text in texts.items() if ">>> " in text}
        self.assertLessEqual({"CALLS.md", "FORMS.md", "TOOL.md"}, set(shown))
        here = os.getcwd()
        os.chdir(ROOT)
        try:
            for name, text in shown.items():
                lines = text[text.rindex("\n", 0, text.index(">>> import daybook")) + 1 :].splitlines()
                block = "\n".join(line[4:] for line in itertools.takewhile(lambda line: line.startswith("    "), lines))
                self.assertEqual(text.count(">>> "), block.count(">>> "), f"{name}: an example outside its block")
                example = doctest.DocTestParser().get_doctest(block + "\n", {}, name, name, 0)
                told = doctest.DocTestRunner(verbose=False).run(example)
                self.assertEqual((told.failed, told.attempted > 3), (0, True), name)
        finally:
            os.chdir(here)

    def test_everything_public_is_typed_and_documented(self) -> None:
        for name in daybook.__all__:
            thing = getattr(daybook, name)
            if not callable(thing):
                continue
            self.assertTrue(inspect.getdoc(thing), name)
            functions = [thing] if inspect.isfunction(thing) else []
            if thing in (daybook.Operator, daybook.Shipper):
                functions = [function for _, function in inspect.getmembers(thing, inspect.isfunction)]
            for function in functions:
                hints = typing.get_type_hints(function)
                parameters = set(inspect.signature(function).parameters) - {"self"}
                self.assertEqual(set(hints), parameters | {"return"}, function.__qualname__)
                self.assertTrue(inspect.getdoc(function) or function.__name__.startswith("_"), function.__qualname__)


if __name__ == "__main__":
    unittest.main()
