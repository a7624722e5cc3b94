"""The return of retained shrinkage, in kWh and without a book."""

from __future__ import annotations

import ctypes
from typing import NamedTuple, Sequence, Tuple

from .archive import answered, in_range, library
from .fields import MOST_USERS


class Share(NamedTuple):
    """What a user gets of a return in kWh, and the remainder of its division."""

    kwh: int
    remainder: int


class Return(NamedTuple):
    """A return of shrinkage in kWh: H, the odd kWh, each user's share, the rest."""

    half: int
    odd: int
    shares: Tuple[Share, ...]
    rest: int


def shrinkage_return(balances: Sequence[int]) -> Return:
    """The return of retained shrinkage for the users' balances in kWh.

    >>> shrinkage_return([-100, 50, -25])
    Return(half=37, odd=1, shares=(Share(kwh=29, remainder=75), Share(kwh=0, remainder=0), Share(kwh=7, remainder=50)), rest=1)
    """
    for balance in balances:
        in_range("balance", balance, -(2**63), 2**63 - 1)
    lent = (ctypes.c_int64 * max(len(balances), 1))(*balances)
    answer = (ctypes.c_uint64 * (3 + 2 * MOST_USERS))()
    answered(library.daybook_raw_shrinkage_return(lent, len(balances), answer, len(answer)))
    half, odd, rest, *users = answer
    shares = zip(users[: len(balances)], users[MOST_USERS:])
    return Return(half, odd, tuple(Share(*share) for share in shares), rest)


def over_days(share: int) -> list[int]:
    """A share over 30 days.

    >>> over_days(31)[:3]
    [2, 1, 1]
    """
    days = (ctypes.c_uint64 * 30)()
    whole = in_range("share", share, 0, 2**64 - 1)
    answered(library.daybook_raw_shrinkage_days(whole, days, len(days)))
    return list(days)
