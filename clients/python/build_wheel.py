"""Builds what `pip install` installs: a wheel of the client and the prompt.

pip calls the functions whose names begin with `build_`, as pyproject.toml says. The standard library is enough for them, so pip
takes nothing from the network. The same sources give the same bytes, at any time and on any machine."""

from __future__ import annotations

import ast
import base64
import gzip
import hashlib
import io
import re
import tarfile
import zipfile
from pathlib import Path
from typing import Any, Optional

HERE = Path(__file__).resolve().parent
# The modules that are installed, and what a package of sources has beside them.
FILES = (*sorted(path.relative_to(HERE).as_posix() for path in HERE.glob("mltx/*.py")), "mltx/py.typed")
SOURCES = ("README.md", "build_wheel.py", "mltx_shell.py", "pyproject.toml")
WHEEL = "Wheel-Version: 1.0\nGenerator: mltx\nRoot-Is-Purelib: true\nTag: py3-none-any\n"
# The time of each file: the first that a wheel can have.
TIME, SECONDS = (1980, 1, 1, 0, 0, 0), 315_532_800


def table(name: str) -> dict[str, str]:
    """The texts of a table of pyproject.toml, each of which stands on a line of its own."""
    text = (HERE / "pyproject.toml").read_text().partition(f"[{name}]\n")[2].partition("\n[")[0]
    return dict(re.findall(r'(?m)^([\w-]+) = "(.*)"$', text))


def listed(name: str) -> list[str]:
    """A list of texts of pyproject.toml."""
    found = re.findall(rf"(?ms)^{name} = (\[.*?\])$", (HERE / "pyproject.toml").read_text())[0]
    return [*map(str, ast.literal_eval(found))]


def version() -> str:
    """The version, which stands in the package."""
    found: list[str] = re.findall(r'(?m)^__version__ = "(.*)"$', (HERE / "mltx/__init__.py").read_text())
    return found[0]


def stem() -> str:
    """The name and the version, as names of files have them."""
    return f"{table('project')['name'].replace('-', '_')}-{version()}"


def licences() -> dict[str, bytes]:
    """The files of the licences that are there: at the top of the repository, or beside this file in a package of sources."""
    places = [folder / name for name in listed("license-files") for folder in (HERE.parents[1], HERE)]
    return {path.name: path.read_bytes() for path in places if path.is_file()}


def metadata() -> str:
    """What the package says of itself, with its page."""
    project = table("project")
    author = re.findall(r'(?m)^authors = \[\{ name = "(.*)" \}\]$', (HERE / "pyproject.toml").read_text())[0]
    rows = [
        ("Metadata-Version", "2.4"),
        ("Name", project["name"]),
        ("Version", version()),
        ("Summary", project["description"]),
        ("Author", author),
        ("License-Expression", project["license"]),
        *(("License-File", name) for name in licences()),
        ("Keywords", ",".join(listed("keywords"))),
        *(("Classifier", classifier) for classifier in listed("classifiers")),
        ("Requires-Python", project["requires-python"]),
        ("Description-Content-Type", "text/markdown"),
    ]
    return "".join(f"{key}: {value}\n" for key, value in rows) + "\n" + (HERE / project["readme"]).read_text()


def record(files: dict[str, bytes], name: str) -> str:
    """The list of all files, with their digests and lengths, and of the list itself."""
    lines = []
    for path, content in files.items():
        digest = base64.urlsafe_b64encode(hashlib.sha256(content).digest()).decode().rstrip("=")
        lines.append(f"{path},sha256={digest},{len(content)}\n")
    return "".join(lines) + f"{name},,\n"


def write_wheel(folder: str, files: dict[str, bytes]) -> str:
    """Writes a wheel of these files into a folder, and returns its name."""
    info = f"{stem()}.dist-info"
    scripts = "".join(f"{name} = {function}\n" for name, function in table("project.scripts").items())
    texts = {"METADATA": metadata(), "WHEEL": WHEEL, "entry_points.txt": f"[console_scripts]\n{scripts}"}
    files = {**files, **{f"{info}/{name}": text.encode() for name, text in texts.items()}}
    files.update({f"{info}/licenses/{name}": content for name, content in licences().items()})
    files[f"{info}/RECORD"] = record(files, f"{info}/RECORD").encode()
    name = f"{stem()}-py3-none-any.whl"
    # Nothing is compressed, since libraries differ in how they do that.
    with zipfile.ZipFile(Path(folder, name), "w", zipfile.ZIP_STORED) as wheel:
        for path, content in files.items():
            entry = zipfile.ZipInfo(path, TIME)
            entry.create_system, entry.external_attr = 3, 0o100644 << 16
            wheel.writestr(entry, content)
    return name


def build_wheel(
    wheel_directory: str, config_settings: Optional[Any] = None, metadata_directory: Optional[str] = None
) -> str:
    return write_wheel(wheel_directory, {name: (HERE / name).read_bytes() for name in FILES})


def build_editable(
    wheel_directory: str, config_settings: Optional[Any] = None, metadata_directory: Optional[str] = None
) -> str:
    """A wheel that has Python import from this folder."""
    return write_wheel(wheel_directory, {f"{table('project')['name']}.pth": f"{HERE}\n".encode()})


def build_sdist(sdist_directory: str, config_settings: Optional[Any] = None) -> str:
    """Writes a package of sources, from which the same wheel is built."""
    files = {name: (HERE / name).read_bytes() for name in (*SOURCES, *FILES)}
    files.update(licences(), **{"PKG-INFO": metadata().encode()})
    name, packed = f"{stem()}.tar.gz", io.BytesIO()
    with tarfile.open(fileobj=packed, mode="w", format=tarfile.PAX_FORMAT) as sources:
        for path, content in files.items():
            entry = tarfile.TarInfo(f"{stem()}/{path}")
            entry.size, entry.mtime = len(content), SECONDS
            sources.addfile(entry, io.BytesIO(content))
    Path(sdist_directory, name).write_bytes(gzip.compress(packed.getvalue(), mtime=0))
    return name
