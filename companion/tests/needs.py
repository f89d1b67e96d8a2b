"""What tests need beside Python; those that are left out are counted and told by name on the last line."""
from __future__ import annotations

import atexit
import os
import shutil
import unittest
from pathlib import Path

BUILT = Path(__file__).resolve().parents[2] / "crates" / "rvf" / "out" / "rvf"
LEFT_OUT: list[str] = []


def program() -> str | None:
    """The program that the environment names, or the one that stands built; none is built here."""
    named = os.environ.get("COMPANION_RVF") or str(BUILT)
    return named if os.access(named, os.X_OK) else None


def is_there(thing: str) -> bool:
    """Whether a thing that a test needs is there."""
    if thing == "rvf":
        return program() is not None
    if thing in ("time", "network"):
        return bool(os.environ.get(f"COMPANION_{thing.upper()}"))
    return shutil.which(thing) is not None


def needs(*things: str):
    """Leaves a test out where something that it needs isn't there, and keeps its name."""
    lacking = [thing for thing in things if not is_there(thing)]

    def decorate(test):
        if lacking:
            LEFT_OUT.append(f"{test.__qualname__} (needs {', '.join(lacking)})")
            return unittest.skip(f"needs {', '.join(lacking)}")(test)
        return test
    return decorate


@atexit.register
def tell() -> None:
    """Says on the last line how many tests were left out, and which."""
    print(f"left out: {len(LEFT_OUT)} tests: {'; '.join(LEFT_OUT)}" if LEFT_OUT else "left out: none")
