"""Builds what `pip install` installs: a wheel of the two commands.

pip calls `build_wheel`, as pyproject.toml says. The standard library is enough for it, so pip takes nothing from the network."""

from __future__ import annotations

import base64
import hashlib
import re
import zipfile
from pathlib import Path
from typing import Any, Optional

HERE = Path(__file__).resolve().parent
# What is installed.
KINDS = (".py", ".css", ".js", ".typed")
FILES = sorted(path.relative_to(HERE).as_posix() for path in HERE.rglob("mltx_histories/**/*") if path.suffix in KINDS)
WHEEL = "Wheel-Version: 1.0\nGenerator: mltx\nRoot-Is-Purelib: true\nTag: py3-none-any\n"


def table(name: str) -> dict[str, str]:
    """The texts of a table of pyproject.toml, each of which stands on a line of its own."""
    text = (HERE / "pyproject.toml").read_text().partition(f"[{name}]\n")[2].partition("\n[")[0]
    return dict(re.findall(r'(?m)^([\w-]+) = "(.*)"$', text))


def version() -> str:
    """The version, which stands in the package."""
    found: list[str] = re.findall(r'(?m)^__version__ = "(.*)"$', (HERE / "mltx_histories/__init__.py").read_text())
    return found[0]


def metadata() -> str:
    """What the package says of itself, with its page."""
    project = table("project")
    rows = [
        ("Metadata-Version", "2.1"),
        ("Name", project["name"]),
        ("Version", version()),
        ("Summary", project["description"]),
        ("Requires-Python", project["requires-python"]),
        ("Description-Content-Type", "text/markdown"),
    ]
    return "".join(f"{key}: {value}\n" for key, value in rows) + "\n" + (HERE / project["readme"]).read_text()


def record(files: dict[str, bytes], name: str) -> str:
    """The list of all files, with their digests and lengths, and of the list itself."""
    lines = []
    for path, content in files.items():
        digest = base64.urlsafe_b64encode(hashlib.sha256(content).digest()).decode().rstrip("=")
        lines.append(f"{path},sha256={digest},{len(content)}\n")
    return "".join(lines) + f"{name},,\n"


def build_wheel(
    wheel_directory: str, config_settings: Optional[Any] = None, metadata_directory: Optional[str] = None
) -> str:
    """Writes the wheel into a folder, and answers the name of its file."""
    project = table("project")
    stem = f"{project['name'].replace('-', '_')}-{version()}"
    scripts = "".join(f"{name} = {function}\n" for name, function in table("project.scripts").items())
    files = {name: (HERE / name).read_bytes() for name in FILES}
    told = {"METADATA": metadata(), "WHEEL": WHEEL, "entry_points.txt": f"[console_scripts]\n{scripts}"}
    files.update({f"{stem}.dist-info/{name}": text.encode() for name, text in told.items()})
    name = f"{stem}-py3-none-any.whl"
    with zipfile.ZipFile(Path(wheel_directory, name), "w", zipfile.ZIP_DEFLATED) as wheel:
        for path, content in files.items():
            wheel.writestr(path, content)
        wheel.writestr(f"{stem}.dist-info/RECORD", record(files, f"{stem}.dist-info/RECORD"))
    return name
