"""The command `report.py`: reports of a run, from its lines and its files. Nothing here is trusted by a verdict."""
from __future__ import annotations

import argparse
import io
import subprocess
import sys
import time
from pathlib import Path
from typing import Iterable

from .configuration import read_configuration
from .reports import Setting, write_reports
from .run_lines import WITHOUT_A_LINE, Run
from .screen import Screen
from .written import NAMES, would_overwrite


def beside() -> str:
    """The program of this repository where it is built, and else its name."""
    built = Path(__file__).resolve().parents[2] / "crates" / "rvf" / "out" / "rvf"
    return str(built) if built.exists() else "rvf"


def arguments() -> argparse.ArgumentParser:
    """The words of the command."""
    words = argparse.ArgumentParser(prog="report.py", description=(
        "Makes report.xml (JUnit), report.json and index.html in OUTDIR of the lines of `rvf run`, which it reads from "
        "standard input as they come, and of the files in OUTDIR. Nothing of it is trusted by a verdict."))
    words.add_argument("outdir", metavar="OUTDIR", help="the folder of the run, which has to be there")
    words.add_argument("--cfg", required=True, metavar="CFG", help="the configuration of the run")
    words.add_argument("--code", type=int, metavar="N", help="the code that the run ended with")
    words.add_argument("--jobs", type=int, default=1, metavar="N", help="that of the run (1)")
    words.add_argument("--core", default="core", metavar="NAME", help="that of the run (core)")
    words.add_argument("--basedir", default=".", metavar="DIR", help="that of the run (.)")
    words.add_argument("--rvf", default=beside(), metavar="PROGRAM", help="the program, asked for the number of checks")
    return words


def how_many(program: str, cfg: str) -> int | None:
    """How many checks the configuration asks for, by the program; nothing where it can't say."""
    try:
        done = subprocess.run([program, "list", cfg], capture_output=True, text=True, check=False, timeout=60)
    except (OSError, subprocess.TimeoutExpired):
        return None
    return len(done.stdout.splitlines()) if done.returncode == 0 else None


def follow(lines: Iterable[str], run: Run, screen: Screen) -> None:
    """Takes lines as they come."""
    try:
        with screen:
            for line in lines:
                run.take(line.rstrip("\r\n"), time.monotonic() - screen.begun)
                screen.show()
    except KeyboardInterrupt:
        run.others.append("the run was interrupted")
    if not run.ended():
        run.seconds = time.monotonic() - screen.begun


def no_place(setting: Setting) -> str:
    """Why no report can be written into the folder; nothing where it can."""
    if not setting.outdir.is_dir():
        return f"{setting.outdir} is no folder, so nothing was written"
    lost = would_overwrite(setting.outdir, NAMES, setting.read())
    return f"{lost}, so nothing was written: give another folder" if lost else ""


def no_lines(run: Run) -> str:
    """Why nothing can be said of the run; nothing where something can."""
    if run.is_ours() or run.code in WITHOUT_A_LINE:
        return ""
    first = f": the first was {run.others[0]!r}" if run.others else ", and there was none"
    return f"no line was one of rvf{first}; nothing was written"


def main(words: list[str] | None = None) -> int:
    """Reads the lines and writes the reports. Ends with 0, or with 1 and why nothing was written."""
    asked = arguments().parse_args(words)
    begun = time.monotonic()
    run = Run(jobs=max(1, asked.jobs), code=asked.code)
    try:
        configuration = read_configuration(Path(asked.cfg))
        setting = Setting(Path(asked.outdir), configuration, asked.cfg, asked.rvf, asked.core, asked.basedir)
        why = no_place(setting)
        if not why:
            # A byte that is of no text is shown as such, and what comes behind it isn't lost.
            if isinstance(sys.stdin, io.TextIOWrapper):
                sys.stdin.reconfigure(errors="replace")
            follow(sys.stdin, run, Screen(run, how_many(asked.rvf, asked.cfg), sys.stderr, begun))
            why = no_lines(run)
        if not why:
            for path in write_reports(setting, run):
                print(path)
            return 0
    except (OSError, UnicodeError) as fault:
        why = str(fault)
    print(f"report: {why}", file=sys.stderr)
    return 1
