"""The help pages of the program daybook, taken apart: what manual pages and completions are made of.

A page is its usage, lines up to the first empty one, and then blocks with an empty line between them: rows (two spaces, a word or an option, two spaces or more, what it
is about, which goes on in lines that stand further in), text as it is to be typed or printed (four spaces), and paragraphs.
"""
from __future__ import annotations

import re
import subprocess
from dataclasses import dataclass

OPTION = re.compile(r"(?<![\w-])(--?[a-z][a-z-]*)(?: ([A-Z]+(?:\.\.)?|dmy))?")
ROW = re.compile(r"  (\S(?:.*?\S)?)(?:  +(\S.*))?$")


@dataclass(frozen=True)
class Option:
    name: str
    # What it takes, as FILE; empty for a flag.
    value: str
    about: str


@dataclass(frozen=True)
class Page:
    name: str
    about: str
    usage: list[str]
    blocks: list[list[str]]

    @property
    def options(self) -> list[Option]:
        """Its options: those of rows, each with the first words about it, then those that only the usage has."""
        found: dict[str, Option] = {}
        for block in self.blocks:
            for head, text in rows(block) if is_rows(block) else []:
                option = OPTION.match(head)
                if option:
                    found.setdefault(option.group(1), Option(option.group(1), option.group(2) or "", first_words(text)))
        for name, value in OPTION.findall(" ".join(self.usage)):
            found.setdefault(name, Option(name, value, ""))
        return list(found.values())


def is_rows(block: list[str]) -> bool:
    return block[0].startswith("  ") and not block[0].startswith("   ")


def is_verbatim(block: list[str]) -> bool:
    return block[0].startswith("    ")


def rows(block: list[str]) -> list[tuple[str, str]]:
    """The rows of a block: their heads, and what they are about in one line."""
    found: list[tuple[str, str]] = []
    for line in block:
        row = None if line.startswith("   ") else ROW.match(line)
        if row:
            found.append((row.group(1), row.group(2) or ""))
        else:
            head, text = found[-1]
            found[-1] = (head, f"{text} {line.strip()}".strip())
    return found


def first_words(text: str) -> str:
    """What stands before the first comma, semicolon, colon or bracket: enough for a list of options."""
    return re.split(r"[,;:(]", text)[0].strip()


def blocks_of(lines: list[str]) -> list[list[str]]:
    blocks: list[list[str]] = [[]]
    for line in lines:
        if line.strip():
            blocks[-1].append(line)
        elif blocks[-1]:
            blocks.append([])
    return [block for block in blocks if block]


def page_of(name: str, about: str, text: str) -> Page:
    usage, *blocks = blocks_of(text.split("\n"))
    return Page(name, about, usage, blocks)


def told(program: str, *words: str) -> str:
    """What the program prints."""
    return subprocess.run([program, *words], check=True, capture_output=True, encoding="utf-8").stdout


def pages(program: str) -> tuple[Page, list[Page]]:
    """The overview of a program and the pages of its commands, by what it prints of itself."""
    first, rest = told(program, "help").split("\n", 1)
    name, about = first.split(" - ", 1)
    overview = page_of(name, about, rest.lstrip("\n"))
    listed = [block for block in overview.blocks if block[0] == "commands:"]
    commands = [page_of(head, text, told(program, "help", head)) for head, text in rows(listed[0][1:])]
    shown = [block for block in overview.blocks if block[0] != "commands:"]
    return Page(name, about, overview.usage, shown), commands
