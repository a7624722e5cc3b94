"""Uses a package as a new user would, in an empty folder: unpacks and installs it, and makes, checks and runs a book with the program and from C, C++, Rust and Python.

What the machine lacks (pkg-config, a C++ compiler, cargo, pip) is told and left out. Nothing is fetched.
"""
from __future__ import annotations

import os
import shutil
import subprocess
import sys
from pathlib import Path

import pages

DAY = "number 0: 1 reduction, 15000 MWh, 30000000 cents\n"
FIVE = """daybook book {samples}/tiers.txt -o day.gdb
daybook check day.gdb
daybook run day.gdb -o after.gdb
daybook explain day.gdb
daybook report day.gdb -o day.html
"""


class Fault(Exception):
    """What the package does not do."""


class Place:
    """An empty folder with an installed package; nothing of the machine's own settings for it is seen."""

    def __init__(self, folder: Path, package: Path) -> None:
        self.folder = folder / "empty"
        self.prefix = self.folder / "prefix"
        self.folder.mkdir()
        hidden = ("DAYBOOK_", "PYTHON", "PKG_CONFIG", "LD_", "CARGO_TARGET")
        self.settings = {name: value for name, value in os.environ.items() if not name.startswith(hidden)}
        self.settings["PATH"] = f"{self.prefix}/bin:{self.settings.get('PATH', '')}"
        self.settings["PKG_CONFIG_PATH"] = f"{self.prefix}/lib/pkgconfig"
        self.examples = self.prefix / "share" / "daybook" / "examples"
        self.samples = self.prefix / "share" / "daybook" / "samples"
        self.run("tar", "-xzf", str(package))
        self.unpacked = self.folder / package.name.removesuffix(".tar.gz")

    def ran(self, *command: str) -> subprocess.CompletedProcess[str]:
        return subprocess.run(command, cwd=self.folder, env=self.settings, capture_output=True, encoding="utf-8", stdin=subprocess.DEVNULL)

    def run(self, *command: str) -> str:
        done = self.ran(*command)
        if done.returncode != 0:
            raise Fault(f"status {done.returncode} of {' '.join(command)}\n{done.stdout}{done.stderr}")
        return done.stdout

    def hold(self, wanted: str, *command: str) -> None:
        printed = self.run(*command)
        if printed != wanted:
            raise Fault(f"{' '.join(command)} prints\n{printed}and not\n{wanted}")

    def has(self, tool: str, for_what: str) -> bool:
        if shutil.which(tool, path=self.settings["PATH"]) is None:
            print(f"tools/dist: no {tool}, so {for_what} is not tried")
            return False
        return True


def installed(place: Place) -> None:
    """Installs; again, which changes nothing; over a file of another content, which is refused; a damaged package, which is refused."""
    install = ("sh", str(place.unpacked / "install.sh"), str(place.prefix))
    place.run(*install)
    place.run(*install)
    place.run("sh", str(place.unpacked / "install.sh"), "a folder")
    place.run("a folder/bin/daybook", "--version")
    header = place.prefix / "include" / "daybook.h"
    whole = header.read_bytes()
    header.write_bytes(b"another\n")
    if place.ran(*install).returncode != 1 or header.read_bytes() != b"another\n":
        raise Fault("install.sh writes over a file of another content")
    place.run(*install, "--force")
    if header.read_bytes() != whole:
        raise Fault("install.sh --force leaves a file of another content")
    with open(place.unpacked / "lib" / "libdaybook.a", "ab") as library:
        library.write(b"damage")
    other = place.folder / "none"
    if place.ran("sh", str(place.unpacked / "install.sh"), str(other)).returncode != 1 or other.exists():
        raise Fault("install.sh installs a damaged package")
    shutil.rmtree(place.unpacked)


def program(place: Place) -> None:
    """The five commands of README.md, and that every option that completions offer is one of its command."""
    place.run("sh", "-ec", FIVE.format(samples="prefix/share/daybook/samples"))
    if not (place.folder / "day.html").read_text(encoding="utf-8").startswith("<!"):
        raise Fault("daybook report writes no page")
    binary = str(place.prefix / "bin" / "daybook")
    for page in pages.pages(binary)[1]:
        for option in page.options:
            word = f"{option.name}=x" if option.value and option.name != "-o" else option.name
            if "no such option" in place.ran(binary, page.name, word).stderr:
                raise Fault(f"daybook {page.name} has no option {option.name}, which its page has")
    completion = place.prefix / "share" / "bash-completion" / "completions" / "daybook"
    asked = f". '{completion}'; COMP_WORDS=(daybook run --in); COMP_CWORD=2; _daybook; echo \"${{COMPREPLY[*]}}\""
    if place.has("bash", "the completion"):
        place.hold("--in-place\n", "bash", "-ec", asked)
    if place.has("groff", "the manual"):
        for path in sorted((place.prefix / "share" / "man" / "man1").iterdir()):
            told = place.ran("groff", "-man", "-ww", "-z", "-Tutf8", str(path))
            if told.returncode != 0 or told.stderr:
                raise Fault(f"{path.name}: {told.stderr}")


def compiled(place: Place) -> None:
    """C and C++ with the archive, and C by pkg-config with the shared object."""
    cc, cxx = os.environ.get("CC", "cc"), os.environ.get("CXX", "c++")
    for compiler, name in ((cc, "book.c"), (cxx, "book.cpp")):
        if place.has(compiler, name):
            place.run(compiler, "-Wall", "-Wextra", "-Werror", "-Iprefix/include", "-o", "compiled", f"{place.examples}/{name}", "prefix/lib/libdaybook.a")
            place.hold(DAY, "./compiled")
    if place.has(cc, "pkg-config") and place.has("pkg-config", "C by pkg-config"):
        place.run("sh", "-ec", f"{cc} -o shared '{place.examples}/book.c' $(pkg-config --cflags --libs daybook) -Wl,-rpath,$PWD/prefix/lib")
        place.hold(DAY, "./shared")


def rust(place: Place) -> None:
    if not place.has("cargo", "Rust"):
        return
    package = place.folder / "in_rust"
    (package / "src").mkdir(parents=True)
    shutil.copy(place.examples / "book.rs", package / "src" / "main.rs")
    (package / "src" / "bin").mkdir()
    shutil.copy(place.examples / "text.rs", package / "src" / "bin" / "text.rs")
    both = "".join(f'{name} = {{ path = "{place.prefix}/share/daybook/{folder}" }}\n' for name, folder in (("daybook", "rust"), ("daybook-text", "rust-text")))
    manifest = f'[package]\nname = "in_rust"\nversion = "0.1.0"\nedition = "2021"\n\n[dependencies]\n{both}'
    (package / "Cargo.toml").write_text(manifest, encoding="utf-8")
    place.run("cargo", "build", "--quiet", "--offline", "--manifest-path", "in_rust/Cargo.toml")
    place.hold(DAY, "in_rust/target/debug/in_rust")
    place.hold("reduction 1: user 101, 15000 MWh\n", "in_rust/target/debug/text", f"{place.samples}/reduction.txt")
    place.hold("".join(f":{fault}\n" for fault in faults(place)), "in_rust/target/debug/text", f"{place.samples}/refused.txt")
    # The documents of both can be made without the library.
    place.settings["DAYBOOK_ARCHIVE_DIR"] = str(place.folder)
    place.run("cargo", "doc", "--quiet", "--offline", "--no-deps", "--manifest-path", "in_rust/Cargo.toml", "-p", "daybook", "-p", "daybook-text")
    del place.settings["DAYBOOK_ARCHIVE_DIR"]


def python(place: Place) -> None:
    """The wheel into a folder of its own, so that the machine's Python stays as it is."""
    if place.ran(sys.executable, "-m", "pip", "--version").returncode != 0:
        print("tools/dist: no pip, so the wheel is not tried")
        return
    wheels = [str(path) for path in (place.prefix / "share" / "daybook").glob("*.whl")]
    pip = ("-m", "pip", "--isolated", "--quiet", "--disable-pip-version-check", "install", "--no-index", "--no-compile", "--target", "in_python")
    place.run(sys.executable, *pip, *wheels)
    place.settings["PYTHONPATH"] = "in_python"
    place.hold(DAY, sys.executable, "-B", f"{place.examples}/book.py")
    text = (sys.executable, "-B", f"{place.examples}/text.py")
    place.hold("1 reductions, 15000 MWh\n", *text, f"{place.samples}/reduction.txt")
    place.hold("".join(f"{fault.split(': ', 1)[1]}\n" for fault in faults(place)), *text, f"{place.samples}/refused.txt")
    same_files(place)
    if not (place.folder / "in_python" / "daybook" / "py.typed").exists():
        raise Fault("the wheel has no py.typed")


def faults(place: Place) -> list[str]:
    """What the program says of the sample that is refused: a line for each fault, from its line and column on."""
    told = place.ran("daybook", "check", f"{place.samples}/refused.txt").stdout.splitlines()
    found = [line.split("refused.txt:", 1)[1] for line in told if ": user " in line or ": trade " in line or ": header" in line]
    if not found:
        raise Fault("daybook check tells no fault of refused.txt")
    return found


def same_files(place: Place) -> None:
    """Texts and tables that the module writes are those of the program, for every sample that is a book, and both read hostile ones alike."""
    for book in sorted(place.samples.glob("*.gdb")):
        script = f"import daybook, sys; book = daybook.Operator().read(open({str(book)!r}, 'rb').read())"
        place.hold(place.run("daybook", "text", str(book)), sys.executable, "-B", "-c", f"{script}; sys.stdout.write(daybook.write_text(book))")
        place.run("daybook", "csv", str(book), f"{book.stem}-by-program")
        place.run(sys.executable, "-B", "-c", f"{script}; daybook.write_csv(book, {book.stem + '-by-module'!r})")
        place.run("diff", "-r", f"{book.stem}-by-program", f"{book.stem}-by-module")
    shutil.copy(Path(__file__).resolve().parents[2] / "python" / "hostile.py", place.folder)
    place.run(sys.executable, "-B", "hostile.py", str(place.prefix / "bin" / "daybook"), str(place.samples))


def tried(package: Path, folder: Path) -> None:
    place = Place(folder, package)
    for part in (installed, program, compiled, rust, python):
        part(place)
