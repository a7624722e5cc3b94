"""A book's fields, and how their bytes are laid out."""

from __future__ import annotations

import re
import struct
from dataclasses import dataclass, field
from operator import index
from typing import TYPE_CHECKING, Any, Callable, Sequence, Tuple, Union

PVB, TVB, AVB = 0, 1, 2
"""The areas."""

SHIPPER, CLEARING_HOUSE = 0, 1
"""The roles of a user."""

BILATERAL, PLATFORM, COUNTERPARTY = 0, 1, 2
"""The kinds of a trade."""

AREAS = ("PVB", "TVB", "AVB")
ROLES = ("shipper", "clearing-house")
KINDS = ("bilateral", "platform", "counterparty")
DAYS = ("d", "d+1")
"""Their names, as texts and tables have them, and those of a trade's days."""

Bytes = Union[bytes, bytearray, memoryview]
Areas = Tuple[int, int, int]

HEADER = struct.Struct("<3sHBH8I")
HEADER_SIZES = {1: 32, 2: HEADER.size, 3: HEADER.size}
USER = struct.Struct("<IB3x6iqQQ3I")
USER_SIZES = {1: 56, 2: 56, 3: USER.size}
TRADE = struct.Struct("<IIBBBxII")
_FORMAT = re.compile(r"(\d*)([a-zA-Z])")
MOST_USERS = 64
MOST_TRADES = 256
TRADES_AT = HEADER.size + MOST_USERS * USER.size
IMAGE = TRADES_AT + MOST_TRADES * TRADE.size

_new: Callable[..., Any] = object.__new__


def wrong(where: str, names: Sequence[str], values: Sequence[object], layout: struct.Struct) -> Exception:
    """Why numbers do not fit the fields of a record: the first that is none, or that its field cannot hold."""
    least_and_most = {"B": (0, 255), "H": (0, 2**16 - 1), "I": (0, 2**32 - 1), "i": (-(2**31), 2**31 - 1)}
    least_and_most.update({"q": (-(2**63), 2**63 - 1), "Q": (0, 2**64 - 1)})
    kinds = [kind for count, kind in _FORMAT.findall(layout.format) for _ in range(int(count or 1)) if kind in least_and_most]
    for name, value, kind in zip(names, values, kinds):
        least, most = least_and_most[kind]
        if not hasattr(value, "__index__"):
            return TypeError(f"{where}{name} is {value!r}, not a whole number")
        if not least <= index(value) <= most:  # type: ignore[arg-type]
            return ValueError(f"{where}{name} {value} is not within {least} to {most}")
    return TypeError(f"{where}a field is not of its type")


def by_area(where: str, name: str, numbers: object) -> Tuple[Any, ...]:
    """The three numbers of a field by area."""
    try:
        three: Tuple[Any, ...] = tuple(numbers)  # type: ignore[arg-type, var-annotated]
    except TypeError:
        raise TypeError(f"{where}{name} is {numbers!r}, not three numbers") from None
    if len(three) != 3:
        raise ValueError(f"{where}{name} has {len(three)} numbers, not three")
    return three


@dataclass(frozen=True)
class Prices:
    """Prices in cents per MWh: the tariffs P and Q, the tolls L, X and I, and the selling tariffs
    S of PVB and U of TVB and AVB, which versions 2 and 3 have; version 1 reads them as 0 and has no
    bytes for them."""

    p: int
    q: int
    l: int = 0
    x: int = 0
    i: int = 0
    s: int = 0
    u: int = 0


@dataclass(frozen=True)
class User:
    """A user's record. What it has by area stands in the order PVB, TVB, AVB. `managers` are the ids
    of the shippers that bear its risk, 0 for none, which version 3 has; versions 1 and 2 read them
    as 0 and have no bytes for them."""

    id: int
    role: int = SHIPPER
    physical: Areas = (0, 0, 0)
    position: Areas = (0, 0, 0)
    charges: int = 0
    assigned: int = 0
    blocked: int = 0
    managers: Areas = (0, 0, 0)

    @classmethod
    def _unpacked(cls, records: Bytes) -> Tuple[User, ...]:
        """The users of records one after the other. Their fields are put in place as they are, since none has
        anything to be made of it."""
        users = []
        for id_, role, a, b, c, d, e, f, charges, assigned, blocked, g, h, i in USER.iter_unpack(records):
            user = _new(cls)
            user.__dict__.update(
                id=id_, role=role, physical=(a, b, c), position=(d, e, f), charges=charges, assigned=assigned,
                blocked=blocked, managers=(g, h, i),
            )
            users.append(user)
        return tuple(users)

    def _packed(self, place: int = 0) -> bytes:
        """Its record; what does not fit is told with its place, from 0, and its id."""
        try:
            if len(self.physical) == len(self.position) == len(self.managers) == 3:
                return USER.pack(
                    self.id, self.role, *self.physical, *self.position, self.charges, self.assigned, self.blocked,
                    *self.managers,
                )
        except (struct.error, TypeError):
            pass
        raise self._wrong(f"user {place + 1}, id {self.id}: ")

    def _wrong(self, where: str) -> Exception:
        physical, position = by_area(where, "physical", self.physical), by_area(where, "position", self.position)
        managers = by_area(where, "managers", self.managers)
        numbers = (self.id, self.role, *physical, *position, self.charges, self.assigned, self.blocked, *managers)
        names = [f"{name} {area}" for name in ("physical", "position") for area in AREAS]
        last = [f"manager {area}" for area in AREAS]
        return wrong(where, ["id", "role", *names, "charges", "assigned", "blocked", *last], numbers, USER)


@dataclass(frozen=True)
class Trade:
    """A trade's record. `day` is 0 for the gas day d, 1 for d+1."""

    seller: int
    buyer: int
    area: int
    kind: int
    day: int
    notified: int
    standing: int

    @classmethod
    def _unpacked(cls, records: Bytes) -> Tuple[Trade, ...]:
        """The trades of records one after the other, as those of users."""
        trades = []
        for seller, buyer, area, kind, day, notified, standing in TRADE.iter_unpack(records):
            trade = _new(cls)
            trade.__dict__.update(
                seller=seller, buyer=buyer, area=area, kind=kind, day=day, notified=notified, standing=standing
            )
            trades.append(trade)
        return tuple(trades)

    def _packed(self, place: int = 0) -> bytes:
        """Its record; what does not fit is told with its place, from 0, and its parties."""
        numbers = (self.seller, self.buyer, self.area, self.kind, self.day, self.notified, self.standing)
        try:
            return TRADE.pack(*numbers)
        except struct.error:
            where = f"trade {place + 1}, {self.seller} to {self.buyer}: "
            names = ["seller", "buyer", "area", "kind", "day", "notified", "standing"]
            raise wrong(where, names, numbers, TRADE) from None


@dataclass(frozen=True)
class Book:
    """The fields of a book of version 1, 2 or 3. The date is year × 10,000 + month × 100 + day. The users and
    trades of a book that was read are made when they are first asked for."""

    date: int
    prices: Prices
    users: Tuple[User, ...] = field(default_factory=tuple)
    trades: Tuple[Trade, ...] = field(default_factory=tuple)
    version: int = 1

    @classmethod
    def _of_image(cls, image: bytes) -> Book:
        """The fields of an image that the engine filled in."""
        _, version, _, _, date, *prices = HEADER.unpack_from(image)
        book: Book = _new(cls)
        book.__dict__.update(date=date, prices=Prices(*prices), version=version, _image=image)
        return book

    if not TYPE_CHECKING:

        def __getattr__(self, name: str) -> object:
            image = self.__dict__.get("_image")
            if image is None or name not in ("users", "trades"):
                raise AttributeError(f"{type(self).__name__!r} object has no attribute {name!r}")
            _, _, users, trades, *_ = HEADER.unpack_from(image)
            if name == "users":
                records = User._unpacked(image[HEADER.size : HEADER.size + USER.size * users])
            else:
                records = Trade._unpacked(image[TRADES_AT : TRADES_AT + TRADE.size * trades])
            self.__dict__[name] = records
            return records
