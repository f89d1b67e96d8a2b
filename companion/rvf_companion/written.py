"""The files that the companion writes into the folder of a run, and over which it doesn't. Nothing here is trusted by a
verdict."""
from __future__ import annotations

from pathlib import Path
from typing import Iterable

# The reports in the order in which they are written, with how each begins.
NAMES = {
    "report.xml": '<?xml version="1.0" encoding="UTF-8"?>\n<testsuite name="rvf"',
    "report.json": '{\n "configuration": ',
    "index.html": '<!DOCTYPE html>\n<html lang="en"><head><meta charset="utf-8">\n<title>rvf run ',
}

# The configuration that is run in the place of the caller's where some kinds are left out, and its last line.
REDUCED = "reduced.cfg"
MADE_BY_RUN = "# Made by companion/run.py.\n"


def is_made_here(path: Path) -> bool:
    """Whether a file is one that the companion wrote."""
    try:
        text = path.read_bytes().decode("utf-8", "replace")
    except OSError:
        return False
    return text.endswith(MADE_BY_RUN) if path.name == REDUCED else text.startswith(NAMES[path.name])


def would_overwrite(outdir: Path, names: Iterable[str], read: Iterable[str]) -> str:
    """The first of the files to be written that the run reads, or that somebody else made, and why it may not be
    written; nothing where none is."""
    read_files = {Path(name).resolve() for name in read}
    for path in (outdir / name for name in names):
        if path.resolve() in read_files:
            return f"{path} is one of the files that the run reads"
        if path.exists() and not is_made_here(path):
            return f"{path} stands there, and wasn't made by the companion"
    return ""


def before(path: Path) -> Path:
    """The name of the last report of a run that came to its end, where a run behind it was cut off."""
    return path.with_name(f"{path.stem}.before{path.suffix}")
