"""Holds readings and decisions: entries with their numbers and lengths, and whatever cites them."""
import re

from repository import CHECKS, documents, fail, sources, text_of

# The documents of numbered entries, and the lines and characters of an entry.
RECORDS = ("docs/READINGS.md", "docs/DECISIONS.md")
MOST_OF_ENTRY, MOST_OF_LINE = 3, 200

def entries_of(document):
    """How many entries each section of a document has; holds their numbers and lengths."""
    sections, heading, lines = {}, None, 0
    for number, line in enumerate(text_of(document).split("\n"), 1):
        place = f"{document}:{number}"
        entry = re.match(r"(\d+)\. ", line)
        if line.startswith("#"):
            heading = line.lstrip("# ")
            if heading in sections:
                fail(place, heading, "a heading stands twice")
            sections[heading] = 0
        elif entry:
            sections[heading] += 1
            if int(entry.group(1)) != sections[heading]:
                fail(place, entry.group(1), f"entry {sections[heading]} of its section has another number")
        lines = 1 if entry else lines + 1 if lines and line.startswith("   ") else 0
        if lines > MOST_OF_ENTRY or lines and len(line) > MOST_OF_LINE:
            fail(place, sections[heading], f"an entry of more than {MOST_OF_ENTRY} lines of {MOST_OF_LINE} characters")
    return sections


CITED = re.compile(r'(docs/(?:READINGS|DECISIONS)\.md), "([^"]+)"(?:, (\d+))?')


def hold_cited(path, entries):
    """Is every entry there that a file cites?"""
    cited = CITED.findall(text_of(path))
    if path in RECORDS:
        cited += [(path, *own) for own in re.findall(r'\("([A-Z][^"]+)", (\d+)\)', text_of(path))]
    for document, section, number in cited:
        if section not in entries[document]:
            fail(path, f'{document}, "{section}"', "no such section")
        elif number and not 0 < int(number) <= entries[document][section]:
            fail(path, f'{document}, "{section}", {number}', "no such entry")


def hold():
    entries = {document: entries_of(document) for document in RECORDS}
    for path in sorted({*sources, *documents} - CHECKS):
        hold_cited(path, entries)
