"""Holds the lengths of lines, what public functions promise, and that every law is named."""
import os
import re

from names import SPAN
from repository import TOKEN, documents, fail, files, sources, text_of

# The crates whose public functions are called from outside: each promises what it does, and asks nothing.
PUBLIC = {"daybook", "exports", "exports_c", "shrinkage"}

# The files of a function's own proof.
OF_A_FUNCTION = {"Answers.antt", "Invariants.antt", "Proof.antt"}

# ---- lengths of lines


def hold_lengths(path, most, contracts):
    """Is no line longer than `most`? Contracts, which may have several lines, and the definitions that a proof may look into are passed over where `contracts` says so."""
    depth = 0
    for number, line in enumerate(text_of(path).split("\n"), 1):
        if contracts and (depth > 0 or re.match(r"\s*(?:(?:requires|ensures)\b|#\[tactic\()", line)):
            depth += line.count("{") - line.count("}")
        elif len(line) > most:
            fail(f"{path}:{number}", f"{len(line)} characters", f"{most} are the most here")


# ---- what public functions promise

PUBLIC_FUNCTION = re.compile(r"^pub (?:extern \"C\" )?fn (\w+)(.*?)^\{", re.S | re.M)


def hold_promises(path):
    """Has every public function of a file `ensures`, and none `requires`?"""
    for found in PUBLIC_FUNCTION.finditer(text_of(path)):
        place = f"{path}:{text_of(path)[: found.start()].count(chr(10)) + 1}"
        if not re.search(r"^\s*ensures\b", found.group(2), re.M):
            fail(place, found.group(1), "a public function without `ensures`")
        if re.search(r"^\s*requires\b", found.group(2), re.M):
            fail(place, found.group(1), "a public function with `requires`")


# ---- laws that nothing names

LAW = re.compile(r"^( *)pub ([a-z][^\s:]*) :")
STATEMENT = re.compile(r"^ *(?:pub )?(?:abbrev pub )?(?:record )?([A-Z]\w*)\b.*\bType 0", re.M)
statements = {n for f in sources if "/specs/" in f and f.endswith(".antt") for n in STATEMENT.findall(sources[f])}
written = {t for d in documents for span in SPAN.findall(text_of(d)) for t in TOKEN.findall(span)}
in_files = {}  # how many source files have a word
for f in sources:
    for word in set(re.split(r"[\s(){},.:;`]+", sources[f])):
        in_files[word] = in_files.get(word, 0) + 1


def laws_of(path):
    """The public laws of a file of proofs, fields of records apart: line, name, the head of what the type ends in, and whether the file names it elsewhere."""
    lines = [re.sub(r"(^|\s)--.*", "", line) for line in text_of(path).split("\n")]
    record = None  # how far from the margin the record that is open begins
    for number, line in enumerate(lines, 1):
        margin = len(line) - len(line.lstrip())
        if record is not None and line.strip() and margin <= record:
            record = None
        if re.match(r" *(?:pub )?record ", line):
            record = margin
        law = LAW.match(line)
        if not law or record is not None:
            continue
        name = law.group(2)
        text = line[law.end() :]  # its type
        for more in lines[number:]:
            if not more.strip() or len(more) - len(more.lstrip()) <= margin:
                break
            text += " " + more
        ends_in = re.match(r"[({ ]*([\w·.]+)", re.split(r" → | in ", text)[-1])
        # its own lines begin with it, where its type does
        others = [re.sub(rf"^ {{{margin}}}(?:pub )?{re.escape(name)}(?![\w'-])", "", l) for l in lines]
        used = any(re.search(rf"(?<![\w'-]){re.escape(name)}(?![\w'-])", l) for l in others)
        yield number, name, ends_in.group(1).split(".")[-1] if ends_in else "", used


def hold_laws(path):
    own = set(STATEMENT.findall(sources[path]))
    for number, name, ends_in, used in laws_of(path):
        if not used and in_files.get(name, 0) < 2 and name not in written and ends_in not in statements | own:
            fail(f"{path}:{number}", name, "a public law that nothing names, and no statement")


def hold():
    for f in sorted(files):
        source = re.match(r"crates/(\w+)/src/.*\.rt$", f)
        proof = re.match(r"crates/\w+/proofs/.*\.antt$", f)
        if source:
            hold_lengths(f, 140, True)
        elif proof:
            hold_lengths(f, 300, False)
        if source and source.group(1) in PUBLIC:
            hold_promises(f)
        if proof and os.path.basename(f) not in OF_A_FUNCTION:
            hold_laws(f)
