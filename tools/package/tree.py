"""The files of a package, and an archive of them: the same files give the same bytes."""
from __future__ import annotations

import gzip
import hashlib
import io
import os
import tarfile
import tempfile
import zlib
from dataclasses import dataclass
from pathlib import Path

# The time of every file, 1 January 2020; an archive tells nothing of when it was made.
TIME = 1577836800
SUMS = "SHA256SUMS"


@dataclass(frozen=True)
class File:
    data: bytes
    mode: int = 0o644
    # Where a link leads, from its own folder; its bytes are then none.
    link: str = ""


Tree = dict[str, File]


def sha256(data: bytes) -> str:
    return hashlib.sha256(data).hexdigest()


def with_sums(tree: Tree) -> Tree:
    """The files, and a list of their sums as `sha256sum -c` reads it; links have none."""
    lines = [f"{sha256(file.data)}  {path}\n" for path, file in sorted(tree.items()) if not file.link]
    return {**tree, SUMS: File("".join(lines).encode())}


def archive(tree: Tree, top: str) -> bytes:
    """The files below one folder as a tar, compressed."""
    plain = io.BytesIO()
    folders = {str(parent) for path in tree for parent in Path(path).parents if str(parent) != "."}
    with tarfile.open(fileobj=plain, mode="w", format=tarfile.USTAR_FORMAT) as tar:
        for path in sorted({*tree, *folders, ""}):
            entry = tarfile.TarInfo(f"{top}/{path}" if path else top)
            entry.mtime = TIME
            file = tree.get(path)
            if file is None:
                entry.type, entry.mode = tarfile.DIRTYPE, 0o755
                tar.addfile(entry)
            elif file.link:
                entry.type, entry.mode, entry.linkname = tarfile.SYMTYPE, 0o777, file.link
                tar.addfile(entry)
            else:
                entry.size, entry.mode = len(file.data), file.mode
                tar.addfile(entry, io.BytesIO(file.data))
    packed = io.BytesIO()
    with gzip.GzipFile(filename="", mode="wb", compresslevel=9, fileobj=packed, mtime=0) as zipped:
        zipped.write(plain.getvalue())
    return packed.getvalue()


def opened(path: str) -> Tree:
    """The files of such an archive, without the folder above them."""
    tree: Tree = {}
    try:
        plain = io.BytesIO(gzip.decompress(Path(path).read_bytes()))
        with tarfile.open(fileobj=plain, mode="r:") as tar:
            for entry in tar:
                name = entry.name.partition("/")[2]
                if entry.issym():
                    tree[name] = File(b"", link=entry.linkname)
                elif entry.isfile():
                    part = tar.extractfile(entry)
                    tree[name] = File(part.read() if part else b"", entry.mode)
    except (gzip.BadGzipFile, EOFError, zlib.error, tarfile.TarError) as why:
        raise ValueError(f"{path} is no package: {why}") from None
    return tree


def faults(tree: Tree) -> list[str]:
    """What differs from the list of sums of a package, and links that lead nowhere in it."""
    if SUMS not in tree:
        return [f"no {SUMS}"]
    listed = {path: sum for sum, _, path in (line.partition("  ") for line in tree[SUMS].data.decode(errors="replace").splitlines())}
    there = {path: sha256(file.data) for path, file in tree.items() if path != SUMS and not file.link}
    found = [f"{path}: leads to {file.link}, which is not in the package" for path, file in tree.items() if file.link and str(Path(path).parent / file.link) not in there]
    for path in {*listed, *there}:
        if path not in listed or path not in there:
            found.append(f"{path}: in the {'package' if path in there else 'list of sums'} alone")
        elif listed[path] != there[path]:
            found.append(f"{path}: another sum than {SUMS} has")
    return sorted(found)


def put(path: Path, data: bytes) -> None:
    """Writes a file, whole or not at all."""
    path.parent.mkdir(parents=True, exist_ok=True)
    handle, new = tempfile.mkstemp(dir=path.parent, prefix=f".{path.name}.")
    try:
        with os.fdopen(handle, "wb") as file:
            file.write(data)
            file.flush()
            os.fsync(file.fileno())
        os.chmod(new, 0o644)
        os.replace(new, path)
    except BaseException:
        os.unlink(new)
        raise
