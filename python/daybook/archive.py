"""The shared object of the engine, and how arguments are lent to its functions."""

from __future__ import annotations

import ctypes
import os
from pathlib import Path
from typing import Optional

from .fields import MOST_USERS, Bytes
from .refusals import Refusable, Refused

INTERFACE = 7

OPERATOR = 1 << 32
"""The operator as an acting party, a number that no id has; a shipper is its id."""

FUNCTIONS = """
interface()
read(book: &[u8], party: u64, image: &mut [u8])
write(image: &[u8], out: &mut [u8])
convert(book: &[u8], party: u64, version: u32, out: &mut [u8])
form(book: &[u8], party: u64, out: &mut [u8])
restore(form: &[u8], out: &mut [u8])
show(book: &[u8], party: u64, with_store: u32, store: &[u8], id: u32, record: &mut [u8])
show_picked(morning: &[u8], afternoon: &[u8], party: u64, with_store: u32, store: &[u8], afternoon_picked: u32, id: u32, record: &mut [u8])
posting(book: &mut [u8], party: u64, with_store: u32, store: &[u8], with_log: u32, log: &mut [u8], id: u32, area: u32, amount: i64)
list(book: &mut [u8], party: u64, with_store: u32, store: &[u8], with_log: u32, log: &mut [u8], ids: &[u32], areas: &[u32], amounts: &[i64], places: &mut [u32])
morning_level(book: &[u8], party: u64, with_store: u32, store: &[u8], id: u32, answer: &mut [u64])
afternoon_level(book: &[u8], party: u64, with_store: u32, store: &[u8], id: u32, answer: &mut [u64])
levels(book: &[u8], party: u64, with_store: u32, store: &[u8], answer: &mut [u64])
morning_call(book: &mut [u8], party: u64, with_store: u32, store: &[u8], with_log: u32, log: &mut [u8], id: u32, answer: &mut [u64])
afternoon_call(book: &mut [u8], party: u64, with_store: u32, store: &[u8], with_log: u32, log: &mut [u8], id: u32, answer: &mut [u64])
warning(book: &[u8], party: u64, with_store: u32, store: &[u8], id: u32, answer: &mut [u64])
flag(book: &[u8], party: u64, with_store: u32, store: &[u8], id: u32, answer: &mut [u64])
trade_count(book: &[u8], party: u64, with_store: u32, store: &[u8], id: u32, answer: &mut [u64])
trade(book: &[u8], party: u64, with_store: u32, store: &[u8], id: u32, ordinal: u32, trade: &mut [u8], answer: &mut [u64])
reduction(book: &mut [u8], party: u64, with_store: u32, store: &[u8], with_log: u32, log: &mut [u8], id: u32, answer: &mut [u64])
cancellation(book: &[u8], party: u64, with_store: u32, store: &[u8], id: u32, tries: u32, marks: &mut [u8], answer: &mut [u64])
run(book: &mut [u8], party: u64, with_store: u32, store: &[u8], with_log: u32, log: &mut [u8], answer: &mut [u64])
start_log(log: &mut [u8], book: &[u8])
withdrawal(book: &mut [u8], party: u64, with_store: u32, store: &[u8], log: &mut [u8], answer: &mut [u64])
shrinkage_return(balances: &[i64], answer: &mut [u64])
shrinkage_days(share: u64, answer: &mut [u64])
"""
"""The exported functions without `daybook_raw_`, as crates/exports_c has them; each returns a number of 32
bits. A part between brackets is a pointer and a length."""

_TYPES = {"u32": ctypes.c_uint32, "u64": ctypes.c_uint64, "i64": ctypes.c_int64}


def _declared(library: ctypes.CDLL) -> None:
    """Gives each function its arguments' types, so that another number of them is told."""
    for line in FUNCTIONS.split("\n"):
        if line:
            name, arguments = line.rstrip(")").split("(")
            function = getattr(library, f"daybook_raw_{name}")
            function.restype, function.argtypes = ctypes.c_uint32, []
            for argument in arguments.split(", ") if arguments else []:
                kind = argument.split(": ")[1]
                part = [ctypes.c_void_p, ctypes.c_size_t]
                function.argtypes += part if kind.startswith("&") else [_TYPES[kind]]


def _opened() -> ctypes.CDLL:
    """The shared object, whose interface has to be the one that this module is written for: inside
    the module, as a wheel has it, else where python/build puts it."""
    inside = Path(__file__).resolve().with_name("libdaybook.so")
    built = Path(__file__).resolve().parents[2] / "target" / "python" / "libdaybook.so"
    path = os.environ.get("DAYBOOK_LIBRARY") or str(inside if inside.exists() else built)
    if not os.path.exists(path):
        raise ImportError(f"no {path}: run python/build, or name the shared object in DAYBOOK_LIBRARY")
    library = ctypes.CDLL(os.path.abspath(path))
    interface = getattr(library, "daybook_raw_interface", None)
    if interface is None or interface() != INTERFACE:
        raise ImportError(f"{path} has another interface than {INTERFACE}: run python/build")
    _declared(library)
    return library


library = _opened()

_NO_STORE = (False, b"", 0)
_NO_LOG = (False, ctypes.create_string_buffer(1), 0)


NUMBERS = {count: ctypes.c_uint64 * max(count, 1) for count in (*range(6), 4 * MOST_USERS)}
"""The types of an answer with so many numbers: the levels of all users have four for each place of a book."""


def lent(name: str, data: Bytes) -> tuple[bytes, int]:
    """Bytes that a call only reads, as two arguments of a C function: the bytes themselves, or a copy where
    they can be changed meanwhile. The memory of `bytes` is never null. What has no bytes is told by its name."""
    if isinstance(data, bytes):
        return data, len(data)
    try:
        copied = bytes(memoryview(data))
    except TypeError:
        raise TypeError(f"{name} is {type(data).__name__}, not bytes") from None
    return copied, len(copied)


class Part:
    """Bytes that a call may change: a copy of its own that is never null, with its length."""

    def __init__(self, name: str, data: Bytes) -> None:
        given, self.length = lent(name, data)
        self.memory = ctypes.create_string_buffer(given, max(self.length, 1))

    @property
    def bytes(self) -> bytes:
        return self.memory.raw[: self.length]

    @property
    def arguments(self) -> tuple[object, ...]:
        return (self.memory, self.length)


def store_arguments(store: Optional[Bytes]) -> tuple[object, ...]:
    """A store, or none, as the three arguments of a C function."""
    return _NO_STORE if store is None else (True, *lent("store", store))


class Log:
    """A log, or none, as the three arguments of a C function, and as the call leaves it."""

    def __init__(self, log: Optional[Bytes]) -> None:
        self.part = None if log is None else Part("log", log)

    @property
    def arguments(self) -> tuple[object, ...]:
        return _NO_LOG if self.part is None else (True, *self.part.arguments)

    @property
    def bytes(self) -> Optional[bytes]:
        return None if self.part is None else self.part.bytes


def in_range(name: str, number: int, least: int, most: int) -> int:
    """A number that its argument can hold; nothing is cut off."""
    if not hasattr(number, "__index__"):
        raise TypeError(f"{name} is {number!r}, not a whole number")
    if not least <= number <= most:
        raise ValueError(f"{name} {number} is not within {least} to {most}")
    return number


def id_argument(number: int) -> int:
    return in_range("id", number, 0, 2**32 - 1)


def answered(number: int, given: Optional[Refusable] = None) -> None:
    """Raises the refusal of a number other than 0, with the book that was given, or its fields."""
    if number != 0:
        raise Refused(number, given)
