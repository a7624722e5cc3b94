"""Reads a book as text, tells the field at fault of one that is refused, runs its day and says what was cut: text.py SAMPLE"""
import sys
import daybook

with open(sys.argv[1], encoding="utf-8") as file:
    book = daybook.read_text(file.read())
try:
    day = daybook.Operator().run(daybook.write(book))
    print(f"{day.reductions} reductions, {day.mwh} MWh")
except daybook.Refused as refused:
    for fault in refused.faults:
        print(fault)
