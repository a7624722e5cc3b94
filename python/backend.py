"""Makes a wheel of the module daybook, with the shared object inside, by the standard library alone; the build backend that pyproject.toml names.

A wheel is a zip with the module, what is told of it, and RECORD, which has the digest of every file. Names are sorted and times fixed, so that the same files give the same
bytes.
"""
from __future__ import annotations

import base64
import hashlib
import io
import os
import re
import subprocess
import zipfile
from pathlib import Path
from typing import Mapping, Optional

HERE = Path(__file__).resolve().parent
TAG = "py3-none-linux_x86_64"
TIME = (2020, 1, 1, 0, 0, 0)


def project() -> Mapping[str, str]:
    """The keys of pyproject.toml that are a text; Python before 3.11 has no reader of it."""
    return dict(re.findall(r'^([a-z-]+) = "(.*)"$', (HERE / "pyproject.toml").read_text(encoding="utf-8"), re.M))


def wheel_name() -> str:
    keys = project()
    return f"{keys['name']}-{keys['version']}-{TAG}.whl"


def told() -> Mapping[str, str]:
    """The files that tell of the wheel, RECORD apart."""
    keys = project()
    metadata = {"Metadata-Version": "2.1", "Name": keys["name"], "Version": keys["version"], "Summary": keys["description"], "Requires-Python": keys["requires-python"]}
    wheel = {"Wheel-Version": "1.0", "Generator": "daybook", "Root-Is-Purelib": "false", "Tag": TAG}
    return {name: "".join(f"{key}: {value}\n" for key, value in fields.items()) for name, fields in (("METADATA", metadata), ("WHEEL", wheel))}


def digest(data: bytes) -> str:
    return base64.urlsafe_b64encode(hashlib.sha256(data).digest()).rstrip(b"=").decode()


def wheel(library: bytes) -> bytes:
    """The bytes of the wheel with this shared object."""
    keys = project()
    info = f"{keys['name']}-{keys['version']}.dist-info"
    files = {f"daybook/{path.name}": path.read_bytes() for path in (HERE / "daybook").iterdir() if path.suffix in (".py", ".typed")}
    files["daybook/libdaybook.so"] = library
    told_files = {f"{info}/{name}": text.encode() for name, text in told().items()}
    ordered = [*sorted(files.items()), *sorted(told_files.items())]
    record = "".join(f"{name},sha256={digest(data)},{len(data)}\n" for name, data in ordered) + f"{info}/RECORD,,\n"
    out = io.BytesIO()
    with zipfile.ZipFile(out, "w", zipfile.ZIP_DEFLATED) as zipped:
        for name, data in [*ordered, (f"{info}/RECORD", record.encode())]:
            entry = zipfile.ZipInfo(name, TIME)
            entry.compress_type = zipfile.ZIP_DEFLATED
            entry.create_system = 3
            entry.external_attr = (0o100755 if name.endswith(".so") else 0o100644) << 16
            zipped.writestr(entry, data)
    return out.getvalue()


def build_wheel(wheel_directory: str, config_settings: Optional[object] = None, metadata_directory: Optional[str] = None) -> str:
    """What pip asks of a backend: makes the shared object of the archive, and the wheel in the folder."""
    subprocess.run([str(HERE / "build")], check=True)
    data = wheel((HERE.parent / "target" / "python" / "libdaybook.so").read_bytes())
    path = os.path.join(wheel_directory, wheel_name())
    with open(f"{path}.new", "wb") as file:
        file.write(data)
    os.replace(f"{path}.new", path)
    return wheel_name()


def build_sdist(sdist_directory: str, config_settings: Optional[object] = None) -> str:
    raise RuntimeError("the module is built from the repository, which has the engine; there is no source distribution")
