"""Holds the names that documents have to the repository; the head of tools/check-docs says which are meant."""
import fnmatch
import os
import re

from repository import base_names, crates, documents, fail, files, known, logic, logic_tokens, packages, parts, text_of, tokens

# The bytes of README.md.
MOST_OF_README = 6 * 1024
# Words that stand for any name.
PLACEHOLDERS = {"NAME", "CRATE", "EDIT", "FILE", "DIR", "NN", "PREFIX"}

NAME = r"[a-z][a-z0-9_]*"
SPAN = re.compile(r"`([^`]+)`")
TOP = re.compile(r"(?<![\w./-])((?:\.\./)*(?:crates|docs|rust|python|tools|examples|include|samples|\.ci)/[\w.*/-]*[\w*/-])")
IN_CRATE = re.compile(rf"(?<![\w./-])({NAME}/(?:specs|proofs|src|must-fail|edits)(?:/[\w./-]*[\w-])?)(?!\w)")
COMMAND = re.compile(rf"(?:\brt (?:ci|must-fail|check|verdict|lib|run|test|try|tidy|plant)|\btools/edits)((?: {NAME})+)|crates/({NAME})/out/\w|cd crates/({NAME})")
A_FILE = re.compile(r"[\w.-]+\.(?:rt|antt|rs|py|md|c|h|out|txt|toml|edit)")
A_WORD = re.compile(r"[^\W\d][\w'-]*|\d+_\w+")


def placeholder(path):
    return re.match(r"target/|crates/\w+/out(?:/|$)", path) or ".." in path.replace("../", "") or any(w in PLACEHOLDERS for w in re.split(r"[/._-]", path))


def exists(path, document):
    for start in ("", os.path.dirname(document) + "/", "crates/", "rust/"):
        full = os.path.normpath(start + path)
        if full in files or ("*" in full and fnmatch.filter(files, full)):
            return True
    return False


def hold_commands(line, place):
    for found in COMMAND.finditer(line):
        for name in (found.group(1) or found.group(2) or found.group(3)).split():
            if name not in crates:
                fail(place, name, "no such crate")


def hold_qualified(span, place):
    """`a::b`, `a::{b, c}`, `A::b`; returns what the names that follow in the list are held to."""
    head, rest = re.sub(r"\(.*\)$", "", span).split("::", 1)
    names = re.split(r",\s*", rest[1:-1]) if rest.startswith("{") else [rest]
    meant = parts(head)
    if head[0].isupper():
        meant = [p for ps in (crates, packages) for p in ps.values() if head in p.declared]
        names = [head + "::" + n for n in names]
    if not meant:
        fail(place, span, "no such crate, package or type")
    for n in names:
        if meant and not any(p.has(n.split("::")) for p in meant):
            fail(place, span, f"`{n.split('::')[-1]}` is not declared there")
    return (f"name of {head}", {n for p in meant for n in p.names}) if meant and head[0].islower() else None


def hold_path(span, place, document):
    """A path or `crate/edit`; returns what the names that follow in the list are held to."""
    if placeholder(span) or exists(span, document):
        return None
    edit = re.fullmatch(rf"({NAME})/([a-z0-9_*]+)", span)
    if not edit:
        fail(place, span, "no such file")
        return None
    crate = crates.get(edit.group(1))
    if not crate:
        fail(place, span, "no such crate or file")
        return None
    if not fnmatch.filter(crate.edits, edit.group(2)):
        fail(place, span, "no such edit")
    return (f"edit of {edit.group(1)}", crate.edits)


def hold_module(span, place):
    """`Rattle.crate.specs.File`, `Rattle.crate.proofs.File.name`."""
    _, crate, *path = span.split(".")
    starts = ["/".join(["crates", crate, *path[:n]]) for n in (len(path), len(path) - 1)]
    if starts[0] not in files and starts[0] + ".antt" not in files and path[-1] not in tokens.get(starts[1] + ".antt", ()):
        fail(place, span, "no such module or definition")


def hold_dotted(span, place):
    """`File.name`, `Record.field.field`."""
    first, *names = span.split(".")
    if not any(names[0] in tokens[f] for f in logic.get(first, [])) or not all(n in logic_tokens for n in names[1:]):
        fail(place, span, "no such definition")


def hold_word(span, before, after, place):
    """A single word, by what stands before and after it."""
    if span not in known:
        fail(place, span, "no such name in the repository")
        return
    is_name = re.fullmatch(NAME, span)
    file = re.match(r" ([A-Z][a-z]\w*)(?= \(`|:)", after) or (before.endswith("(") and re.match(r", ([A-Z][a-z]\w*)(?=\))", after))
    beside = re.match(r" `([^`]+)`", after)
    owner = re.match(rf" of `({NAME})`", after)
    if re.search(r"\b(?:crates? (?:`\w+`(?:, | and ))*|edits of )$", before) and span not in crates:
        fail(place, span, "no such crate")
    elif is_name and (beside or re.match(r" \d", after)) and not parts(span):
        fail(place, span, "no such crate or package")
    elif is_name and file and not any(file.group(1) in p.stems for p in parts(span)):
        fail(place, f"{span}, {file.group(1)}", "no such crate with such a file")
    elif beside and span in crates and A_WORD.fullmatch(beside.group(1)) and beside.group(1) not in crates[span].names:
        fail(place, f"{span} {beside.group(1)}", "no such name of this crate")
    elif owner and not any(span in p.names | p.edits | p.stems for p in parts(owner.group(1))):
        fail(place, f"{span} of {owner.group(1)}", "no such crate with such a name")


def hold_spans(line, place, document):
    follow = None  # what the names that follow in the same list are held to: a word for it, and the names
    end = 0
    for found in SPAN.finditer(line):
        span = found.group(1)
        if not re.fullmatch(r", |,? and ", line[end : found.start()]):
            follow = None
        end = found.end()
        if re.fullmatch(r"\w+::[\w:{}, ]+(\(.*\))?", span):
            follow = hold_qualified(span, place)
        elif re.fullmatch(r"[\w.*/-]+", span) and "/" in span:
            follow = hold_path(span, place, document)
        elif A_FILE.fullmatch(span):
            if not placeholder(span) and span not in base_names:
                fail(place, span, "no such file")
        elif re.fullmatch(rf"Rattle\.{NAME}\.(?:specs|proofs)(?:\.[\w'-]+)*", span):
            hold_module(span, place)
        elif re.fullmatch(r"[A-Z]\w*(?:\.[\w-]+)+", span) and not placeholder(span):
            hold_dotted(span, place)
        elif not A_WORD.fullmatch(span) or re.fullmatch(r"[A-Z][A-Z0-9]*|[a-z_]+_[A-Z]+", span):
            continue
        elif follow:
            if span not in follow[1] and span not in crates:
                fail(place, span, f"no such {follow[0]}")
        else:
            hold_word(span, line[: found.start()], line[found.end() :], place)


# ---- a document


def bare(line):
    """A line of code without what stands before it in a file or a comment."""
    return re.sub(r"^\s*(?://[/!] ?)?\s*", "", line).rstrip()


examples = ["\n".join(bare(line) for line in text_of(f).split("\n")) for f in files if re.match(r"(examples|rust|python)/.*\.(c|rs|py)$", f)]
first_words = {c.split("_")[0] for c in crates if "_" in c}


def hold_block(kind, code, place):
    if kind in ("c", "rust", "python") and not any("\n".join(map(bare, code)) in text for text in examples):
        fail(place, f"the block of {kind} above", "its lines stand in no file of examples/, rust/ or python/")
    if kind == "mermaid":
        for word in re.findall(r"[a-z]+_[a-z_]+", "\n".join(code)):
            if word.split("_")[0] in first_words and word not in crates:
                fail(place, word, "no such crate (in the block above)")


def hold_document(document):
    block = None  # the kind of the block that is open, and its lines
    in_table = False  # below a first cell "crate"
    for number, line in enumerate(text_of(document).split("\n"), 1):
        place = f"{document}:{number}"
        if line.startswith("```"):
            if block:
                hold_block(*block, place)
            block = None if block else (line[3:].strip(), [])
            continue
        for path in TOP.findall(line) + IN_CRATE.findall(line):
            if not placeholder(path) and not exists(path, document):
                fail(place, path, "no such file")
        if block:
            block[1].append(line)
            hold_commands(line, place)
            continue
        for link in re.findall(r"\]\(([^)#\s]+)[^)]*\)", line):
            if "://" not in link and not exists(link, document):
                fail(place, link, "no such file")
        for code in [line] if line.startswith("    ") else SPAN.findall(line):
            hold_commands(code, place)
        for span in re.findall(rf"\b{NAME}::\w+", line) if line.startswith("    ") else []:
            hold_qualified(span, place)
        cell = re.match(r"\| *([^|]*?) *\|", line)
        in_table = bool(cell) and (in_table or cell.group(1) == "crate")
        for name in SPAN.findall(cell.group(1)) if in_table else []:
            if name not in crates:
                fail(place, name, "no such crate")
        hold_spans(line, place, document)


def hold():
    for document in documents:
        hold_document(document)
    if os.path.getsize("README.md") > MOST_OF_README:
        fail("README.md", os.path.getsize("README.md"), f"more than {MOST_OF_README} bytes; docs/ has room")
