"""Finds the program `mltx`."""
import shutil
from pathlib import Path

# Where the clone is in which the package stands, if it stands in one.
CLONE = Path(__file__).resolve().parents[2]


def found_program() -> Path:
    """The program of the clone, else that on the PATH; where neither is there, the name alone."""
    if (CLONE / "mltx").is_file() and (CLONE / "crates").is_dir():
        return CLONE / "mltx"
    return Path(shutil.which("mltx") or "mltx")
