"""Builds the wheel of the package, for pip: the modules, and the shared library that the script `build` makes.

These are the hooks of PEP 517 that pip calls. The wheel of the same files is the same bytes each time.
"""

from __future__ import annotations

import base64
import hashlib
import pathlib
import re
import subprocess
import sysconfig
import zipfile
from typing import Optional

HERE = pathlib.Path(__file__).resolve().parent
PACKAGE = HERE / "nozhuiteca"
Settings = Optional[dict]


class UnsupportedOperation(Exception):
    """What is not built here."""


def build_wheel(wheel_directory: str, config_settings: Settings = None, metadata_directory: Optional[str] = None) -> str:
    """Builds the shared library, writes the wheel into a folder, and answers the wheel's name."""
    subprocess.run([HERE / "build"], check=True)
    built = HERE.parents[1] / "target/python/libmmtf.so"
    platform = sysconfig.get_platform().replace("-", "_").replace(".", "_")
    tag = f"py3-none-{platform}"
    information = f"nozhuiteca-{version()}.dist-info"
    files = {f"nozhuiteca/{path.name}": path.read_bytes() for path in sources()}
    files["nozhuiteca/libmmtf.so"] = built.read_bytes()
    files[f"{information}/METADATA"] = metadata().encode()
    lines = ["Wheel-Version: 1.0", "Generator: nozhuiteca", "Root-Is-Purelib: false", f"Tag: {tag}", ""]
    files[f"{information}/WHEEL"] = "\n".join(lines).encode()
    rows = [f"{name},sha256={digest(data)},{len(data)}\n" for name, data in files.items()]
    files[f"{information}/RECORD"] = "".join([*rows, f"{information}/RECORD,,\n"]).encode()
    wheel = f"nozhuiteca-{version()}-{tag}.whl"
    write(pathlib.Path(wheel_directory, wheel), files)
    return wheel


def build_sdist(sdist_directory: str, config_settings: Settings = None) -> str:
    """There is none: the library is built from the whole repository."""
    raise UnsupportedOperation("The package is built from the repository, not from a source archive of its own.")


def sources() -> list[pathlib.Path]:
    """The files of the package."""
    return sorted([*PACKAGE.glob("*.py"), PACKAGE / "py.typed"])


def version() -> str:
    """The version, from the one place where it stands."""
    return re.search(r'^VERSION = "(.*)"$', (PACKAGE / "_library.py").read_text(), re.MULTILINE)[1]


def metadata() -> str:
    """What the wheel says of itself: the lines of pyproject.toml, and the page for readers."""
    project = dict(re.findall(r'^([\w-]+) = "(.*)"$', (HERE / "pyproject.toml").read_text(), re.MULTILINE))
    return "\n".join([
        "Metadata-Version: 2.1",
        f"Name: {project['name']}",
        f"Version: {version()}",
        f"Summary: {project['description']}",
        f"Requires-Python: {project['requires-python']}",
        "Description-Content-Type: text/markdown",
        "",
        (HERE / project["readme"]).read_text(),
    ])


def digest(data: bytes) -> str:
    """A file's digest, as the wheel's record has it."""
    return base64.urlsafe_b64encode(hashlib.sha256(data).digest()).rstrip(b"=").decode()


def write(path: pathlib.Path, files: dict[str, bytes]) -> None:
    """Writes the files into an archive, all with the same time."""
    with zipfile.ZipFile(path, "w", zipfile.ZIP_DEFLATED) as wheel:
        for name, data in files.items():
            entry = zipfile.ZipInfo(name, (1980, 1, 1, 0, 0, 0))
            entry.external_attr = 0o644 << 16
            entry.compress_type = zipfile.ZIP_DEFLATED
            wheel.writestr(entry, data)
