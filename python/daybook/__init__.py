"""The proved engine's calls on a gas day's book, for analysts.

A book is its bytes. A call answers what documents 01 and 02 say, or raises
`Refused` with the number of the first question that is answered by no. Calls
that change a book leave the one they are given and hand back the book after
them. Money is in cents, gas in MWh; the return of shrinkage is in kWh.

A call on a book has an acting party: `Operator()` has every call, `Shipper(id)`
what it may be told of itself. There is no call without one, but for what only
gives what it is given in another form, `write`, `start_log` and `restore`, and the
return of shrinkage.

>>> import daybook
>>> from dataclasses import replace
>>> operator = daybook.Operator()
>>> with open("../samples/day.gdb", "rb") as file:
...     book = file.read()
>>> operator.afternoon_level(book, 101)
80000000
>>> day = operator.run(book)
>>> day.reductions, day.mwh, day.worth
(1, 15000, 30000000)
>>> [user.position for user in operator.read(day.book).users]
[(-25000, 0, 0), (15000, 0, 0)]
>>> operator.level_table(day.book)
[(101, 50000000, 50000000), (102, 10000000, 10000000)]
>>> operator.levels(day.book)[0]
UserLevels(id=101, state='call', morning=50000000, afternoon=50000000)
>>> operator.posting(book, 103, daybook.PVB, -500)
Traceback (most recent call last):
    ...
daybook.Refused: refused by question 8: id in the book?

A book of version 2 has the selling tariffs S and U, and its afternoon levels
have credit for long positions:

>>> with open("../samples/credit.gdb", "rb") as file:
...     credit = file.read()
>>> operator.read(credit).prices.u
1900
>>> operator.level_table(credit)[0]
(201, 126000000, 116500000)

A book of version 3 has group portfolios, too: a user has the id of its manager
in each area, or 0, and the manager bears its risk there. Here 201 manages 204
in PVB; 204 keeps its charges. Without a manager it bears its own risk:

>>> with open("../samples/group.gdb", "rb") as file:
...     group = operator.read(file.read())
>>> [user.managers for user in group.users]
[(0, 0, 0), (0, 0, 0), (0, 0, 0), (201, 0, 0)]
>>> operator.level_table(daybook.write(group))[::3]
[(201, 146000000, 136500000), (204, 12000000, 12000000)]
>>> *others, member = group.users
>>> alone = replace(group, users=(*others, replace(member, managers=(0, 0, 0))))
>>> operator.level_table(daybook.write(alone))[::3]
[(201, 130000000, 120500000), (204, 28000000, 28000000)]

A book of one version is written as another, unless something would be lost:

>>> operator.read(operator.convert(book, 3)).users[0].managers
(0, 0, 0)
>>> operator.convert(operator.convert(book, 3), 1) == book
True
>>> operator.convert(daybook.write(group), 2)
Traceback (most recent call last):
    ...
daybook.Refused: refused by question 21: is no information lost?

A log of reductions is bytes, too. Calls that may change a book take one as
`log=`, or none, and hand back the log after them beside the book; with it the
last reduction is withdrawn:

>>> day = operator.run(book, log=daybook.start_log(book))
>>> back = operator.withdrawal(day.book, day.log)
>>> back.mwh, back.worth, back.book == book
(15000, 30000000, True)
>>> operator.withdrawal(back.book, back.log)
Traceback (most recent call last):
    ...
daybook.Refused: refused by question 18: has the log an entry?

For archives a book is rearranged field by field. A form has a view of each
field over all records, which NumPy takes without a copy, and gives the book
back; `read_column` draws one field of a form from a file, and nothing else:

>>> form = operator.form(book)
>>> form["blocked"].tolist(), form["position_PVB"].format
([10000000, 10000000], 'i')
>>> daybook.restore(form) == book
True

A shipper has its own record, levels and flag, and the trades that it may see:

>>> shipper = daybook.Shipper(101)
>>> shipper.afternoon_level(book), shipper.flag(book), len(shipper.trades(book))
(80000000, True, 1)
>>> daybook.Shipper(103).trades(book)
Traceback (most recent call last):
    ...
daybook.Refused: refused by question 26: may the party make this call?

Both take a store of parameter sets in bytes, or none. The shared object that is called
is inside the module where a wheel was installed; in the repository `python/build` makes
it from the engine's archive. DAYBOOK_LIBRARY names another one.
"""

from .answers import Cancellation, GuaranteeCall, Posting, PostingList, Reduction, Run, UserLevels, Withdrawal
from .books import positions, start_log, with_positions, write
from .drafts import Mistake, Unreadable
from .faults import Fault
from .fields import (
    AVB, BILATERAL, CLEARING_HOUSE, COUNTERPARTY, PLATFORM, PVB, SHIPPER, TVB, Book, Prices, Trade, User,
)
from .forms import FIELDS, Column, Columns, Form, read_column, restore
from .parties import Operator, Shipper
from .refusals import QUESTIONS, Refused
from .shrinkage import Return, Share, over_days, shrinkage_return
from .tables import csv_files, read_corrections, read_csv, write_csv
from .text import read_text, write_text

__all__ = [
    "AVB", "BILATERAL", "Book", "CLEARING_HOUSE", "COUNTERPARTY", "Cancellation", "Column", "Columns", "FIELDS",
    "Fault", "Form", "GuaranteeCall", "Mistake", "Operator", "PLATFORM", "PVB", "Posting", "PostingList", "Prices",
    "QUESTIONS", "Reduction", "Refused", "Return", "Run", "SHIPPER", "Share", "Shipper", "TVB", "Trade", "Unreadable",
    "User", "UserLevels", "Withdrawal", "csv_files", "over_days", "positions", "read_column", "read_corrections",
    "read_csv", "read_text", "restore", "shrinkage_return", "start_log", "with_positions", "write", "write_csv", "write_text",
]
