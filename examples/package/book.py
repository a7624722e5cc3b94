"""Makes the book of document 01's example, checks it and runs its day. With the wheel of the package installed: python3 book.py"""
from daybook import BILATERAL, PVB, Book, Operator, Prices, Trade, User, write

seller = User(101, physical=(-10_000, 0, 0), position=(-40_000, 0, 0), assigned=50_000_000, blocked=10_000_000)
buyer = User(102, position=(30_000, 0, 0), assigned=10_000_000, blocked=10_000_000)
trade = Trade(101, 102, PVB, BILATERAL, day=0, notified=30_000, standing=30_000)
book = write(Book(20260318, Prices(2_000, 2_100, 300, 100, 50), users=(seller, buyer), trades=(trade,)))
operator = Operator()
operator.read(book)
day = operator.run(book)
print(f"number 0: {day.reductions} reduction, {day.mwh} MWh, {day.worth} cents")
