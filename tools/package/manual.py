"""Manual pages (troff, macros man) of help pages."""
from __future__ import annotations

from pages import Page, is_rows, is_verbatim, rows


def escaped(text: str) -> str:
    """Text that troff prints as it is."""
    text = text.replace("\\", "\\e").replace("-", "\\-").replace("'", "\\(aq").replace("`", "\\(ga").replace("^", "\\(ha").replace("~", "\\(ti")
    return f"\\&{text}" if text.startswith(".") else text


def verbatim(lines: list[str], inset: int) -> list[str]:
    return [".EX", *(escaped(line[inset:]) for line in lines), ".EE"]


def body(blocks: list[list[str]]) -> list[str]:
    text: list[str] = []
    for block in blocks:
        if is_verbatim(block):
            text += [".PP", ".RS 4", *verbatim(block, 4), ".RE"]
        elif is_rows(block):
            for head, about in rows(block):
                text += [".TP", f".B {escaped(head)}", escaped(about)]
        else:
            text += [".PP", *map(escaped, block)]
    return text


def head(name: str, about: str, version: str) -> list[str]:
    return [
        f'.TH {name.upper()} 1 "" "daybook {version}" "Gas day books"',
        ".SH NAME",
        f"{escaped(name)} \\- {escaped(about)}",
        ".SH SYNOPSIS",
    ]


def command_page(page: Page, version: str) -> str:
    name = f"daybook-{page.name}"
    text = [*head(name, page.about, version), *verbatim(page.usage, 0), ".SH DESCRIPTION", *body(page.blocks), ".SH SEE ALSO", ".BR daybook (1)"]
    return "\n".join(text) + "\n"


def overview_page(overview: Page, commands: list[Page], version: str) -> str:
    usage = [line.removeprefix("usage: ") for line in overview.usage]
    shown = [block for block in overview.blocks if not block[0].startswith("`daybook help")]
    text = [*head(overview.name, overview.about, version), *verbatim(usage, 0), ".SH DESCRIPTION", *body(shown), ".SH COMMANDS"]
    for page in commands:
        text += [".TP", f".BR daybook\\-{escaped(page.name)} (1)", escaped(page.about)]
    return "\n".join(text) + "\n"


def manual(overview: Page, commands: list[Page], version: str) -> dict[str, str]:
    """The manual pages by their file names."""
    found = {f"daybook-{page.name}.1": command_page(page, version) for page in commands}
    return {"daybook.1": overview_page(overview, commands, version), **found}
