"""Amounts and dates in words: how they are written, and how they are read back."""

from __future__ import annotations

import re
from typing import Optional

_WHOLE = re.compile(r"-?(\d+|\d{1,3}(,\d{3})+)", re.ASCII)
_EUROS = re.compile(r"(-?)(\d+|\d{1,3}(?:,\d{3})+)\.(\d\d)", re.ASCII)
_DATE = re.compile(r"(\d{4})-(\d\d)-(\d\d)", re.ASCII)
_MOST_DIGITS = 30


def grouped(number: int) -> str:
    """A whole number with a comma before every three digits.

    >>> grouped(-1234567)
    '-1,234,567'
    """
    return f"{number:,}"


def euros(cents: int, commas: bool = True) -> str:
    """Cents as euros with two decimals, with commas before every three digits or without.

    >>> euros(-123450), euros(5, commas=False)
    ('-1,234.50', '0.05')
    """
    whole, part = divmod(abs(cents), 100)
    sign = "-" if cents < 0 else ""
    return f"{sign}{whole:,}.{part:02}" if commas else f"{sign}{whole}.{part:02}"


def date(number: int) -> str:
    """A date as year-month-day; a number that is no such date may look odd.

    >>> date(20260318)
    '2026-03-18'
    """
    return f"{number // 10_000:04}-{number // 100 % 100:02}-{number % 100:02}"


def counted(count: int, one: str) -> str:
    """`1 user`, `2 users`."""
    return f"{grouped(count)} {one}{'' if count == 1 else 's'}"


def read_whole(text: str) -> Optional[int]:
    """A whole number, with or without commas; none for any other text, and for one of more than 30 digits."""
    digits = text.replace(",", "")
    return int(digits) if _WHOLE.fullmatch(text) and len(digits.lstrip("-")) <= _MOST_DIGITS else None


def read_euros(text: str) -> Optional[int]:
    """Euros with two decimals, in cents."""
    found = _EUROS.fullmatch(text)
    if found is None or len(found[2].replace(",", "")) > _MOST_DIGITS:
        return None
    cents = int(found[2].replace(",", "")) * 100 + int(found[3])
    return -cents if found[1] else cents


def read_date(text: str) -> Optional[int]:
    """A date as year-month-day, as the number of the book. It need not be a real day."""
    found = _DATE.fullmatch(text)
    return int(found[1]) * 10_000 + int(found[2]) * 100 + int(found[3]) if found else None
