"""The answers of the calls that have more than one number."""

from __future__ import annotations

from typing import NamedTuple, Optional, Tuple


class Posting(NamedTuple):
    """An accepted posting: the book after it, and the log after it where one was given."""

    book: bytes
    log: Optional[bytes] = None


class PostingList(NamedTuple):
    """An accepted list of postings: the number of each line, 0 where it was posted; book and log after it."""

    numbers: Tuple[int, ...]
    book: bytes
    log: Optional[bytes] = None


class Cancellation(NamedTuple):
    """Whole trades to cancel, by their places in the book from 0; by how much their worth exceeds
    the target, the tries made, and whether no other set has a smaller excess."""

    trades: Tuple[int, ...]
    excess: int
    tries: int
    complete: bool


class UserLevels(NamedTuple):
    """A user's id, its state, which is clear, short, call or quiet as on the printed day, and its two
    levels in cents, which are 0 of a clearing house."""

    id: int
    state: str
    morning: int
    afternoon: int


class GuaranteeCall(NamedTuple):
    """An accepted guarantee call: the level, what was added to blocked, book and log after it."""

    level: int
    added: int
    book: bytes
    log: Optional[bytes] = None


class Reduction(NamedTuple):
    """An accepted reduction: MWh cut, their worth, the target T, by how much the worth is
    short of it or over it, book and log after it."""

    mwh: int
    worth: int
    target: int
    short: int
    over: int
    book: bytes
    log: Optional[bytes] = None


class Run(NamedTuple):
    """An accepted run: reductions, MWh cut, their worth, book and log after it, and whether it
    stopped at a full log while one more reduction was due."""

    reductions: int
    mwh: int
    worth: int
    book: bytes
    log: Optional[bytes] = None
    log_full: bool = False


class Withdrawal(NamedTuple):
    """A withdrawn reduction: its MWh, their worth, book and log after it."""

    mwh: int
    worth: int
    book: bytes
    log: bytes
