"""What there is in the repository: files, sources without their comments, crates and Rust packages with their names; and what fails."""
import glob
import os
import re

# Words in backticks that are of the kit, the prover and the languages.
WORDS = {"elim", "ensures", "max", "min", "requires", "reserved-name", "return", "rt", "rw", "subst", "unfolding"}
# What reads or respells names is no place that has them.
CHECKS = {"tools/check-docs", "tools/respell", *glob.glob("tools/house/*.py")}

failures = []


def fail(place, name, why):
    failure = f"{place}: {name}: {why}"
    if failure not in failures:
        failures.append(failure)


def text_of(path):
    with open(path, encoding="utf-8") as file:
        return file.read()


def stem(path):
    return os.path.splitext(os.path.basename(path))[0]


DECLARED = re.compile(r"\b(?:const fn|fn|struct|enum|const|static|mod|type|trait|def|class)\s+(\w+)")
TOKEN = re.compile(r"[^\W\d][\w'-]*|\d\w+")


def all_files():
    """Every file and folder, from the root, but for what is made."""
    found = set()
    for folder, below, names in os.walk("."):
        made = ("out",) if re.fullmatch(r"\./crates/\w+", folder) else (".git", "target")
        below[:] = [b for b in below if b not in made]
        found.update(os.path.normpath(os.path.join(folder, n)) for n in names + below)
    return found


def source(path):
    """The text of a source file without its comments; None for other files."""
    script = path.startswith((".ci/", "tools/", "examples/", "python/")) and not path.endswith(".out") and path not in CHECKS
    if not os.path.isfile(path) or not (script or path.endswith((".rt", ".antt", ".rs", ".c", ".h", ".toml"))):
        return None
    if path.endswith(".antt"):
        return re.sub(r"(^|\s)--.*", "", text_of(path), flags=re.M)
    if path.endswith((".rt", ".rs", ".c", ".h")):
        return re.sub(r"//[^\n]*|/\*.*?\*/", "", text_of(path), flags=re.S)
    return text_of(path)


def declared_in(path, text):
    """The names that a source file declares; of .antt files also those that it has from the prover's libraries."""
    if path.endswith((".rt", ".rs", ".py")):
        fields = set(re.findall(r"^ *(?:pub )?(\w+):", text, re.M)) | set(re.findall(r"^ +([A-Z]\w*)\b", text, re.M))
        words = set(re.findall(r'"([\w-]+)"', text)) if path.endswith(".rs") else set()
        return set(DECLARED.findall(text)) | fields | words
    if path.endswith(".antt"):
        types = set(re.findall(r"\b(?:record|data|module) ([^\s({:]+)", text))
        taken = {n for names in re.findall(FROM_LIBRARIES, text, re.M) for n in re.split(r"[,\s]+", names)}
        return types | taken | {n for names in re.findall(r"^ *(?:unfoldable |abbrev )?(?:pub )?([^:=(){}]+?) :", text, re.M) for n in names.split()}
    return set(re.findall(r"\b\w*[A-Z_]\w*\b|[a-z]+(?=\()", text))


# The names that a file brings from the kit: its own libraries are Rattle.std and those without Rattle before them.
FROM_LIBRARIES = rf"^(?:pub )?use (?!Rattle\.(?:{'|'.join(sorted(os.listdir('crates')))})\.)[^{{\n]*\{{([^}}]*)\}}"

files = all_files()
base_names = {os.path.basename(f) for f in files}
sources = {f: text for f in files if (text := source(f)) is not None}
tokens = {f: set(TOKEN.findall(text)) for f, text in sources.items()}
logic = {}  # the .antt files of a name: those called so, and those with a record of the name
for f in sources:
    if f.endswith(".antt"):
        for name in {stem(f), *re.findall(r"\brecord (\w+)", sources[f])}:
            logic.setdefault(name, []).append(f)
logic_tokens = {t for fs in logic.values() for f in fs for t in tokens[f]}


class Part:
    """A crate or a Rust package: what its src/ declares, all of its names, the stems of its files, its edits."""

    def __init__(self, folder):
        mine = [f for f in sources if f.startswith(folder + "/")]
        self.declared = {n for f in mine if f.startswith(folder + "/src/") for n in DECLARED.findall(sources[f])}
        self.names = {t for f in mine for t in tokens[f]}
        self.stems = {stem(f) for f in mine}
        self.edits = {stem(e) for kind in ("must-fail", "edits") for e in glob.glob(f"{folder}/{kind}/*.edit")}
        self.program = f"{folder}/src/main.rt" in files

    def has(self, path):
        """Is a path of names, as Type::name, declared here? The variants of an enum are only named."""
        return path[0] in self.declared and all(n in self.declared or (path[0][0].isupper() and n in self.names) for n in path[1:])


crates = {c: Part(f"crates/{c}") for c in sorted(os.listdir("crates")) if os.path.isdir(f"crates/{c}")}
packages = {}
for manifest in glob.glob("rust/*/Cargo.toml"):
    for name in re.findall(r'^name = "([\w-]+)"', text_of(manifest), re.M)[:1]:
        packages[name.replace("-", "_")] = Part(os.path.dirname(manifest))

known = set(crates) | set(packages) | {p.replace("_", "-") for p in packages} | base_names | WORDS
known |= {stem(b) for b in base_names if b.endswith((".edit", ".antt", ".rt", ".rs", ".c", ".h", ".out", ".gdb"))}
known |= {n for f, text in sources.items() for n in declared_in(f, text)}


def parts(name):
    """The crate and the package of a name."""
    return [p[name] for p in (crates, packages) if name in p]

# Notes name what went.
NOTES = ("docs/landings/", "docs/PORT.md", "docs/DESIGN-PASS.md", "PORTING-LEFT.md")
documents = sorted(f for f in files if f.endswith(".md") and not f.startswith(NOTES))
