#!/usr/bin/env python3
"""Runs a command, `rt ci` where none is given, and prints the processor seconds that it took by crate and kind of work.

    tools/gate-costs.py [COMMAND ..]

The kinds: proof (of a crate without its tests), tests (the proof of a crate with its tests), edits (must-fail edits and what they
begin with). The processes below the command are looked at four times a second, so the last quarter of a second of each isn't
counted; what is no work on a crate (the tool itself, programs and tests that run) stands in a line of its own.
"""
import os
import subprocess
import sys
import time

TICKS = os.sysconf("SC_CLK_TCK")
KINDS = ["proof", "tests", "edits"]


def read(path):
    try:
        with open(path, "rb") as file:
            return file.read()
    except OSError:
        return b""


def processes():
    """Each process with its parent, its start and the processor time that it used itself."""
    found = {}
    for name in os.listdir("/proc"):
        if name.isdigit():
            fields = read(f"/proc/{name}/stat").rpartition(b")")[2].split()
            if fields:
                found[int(name)] = int(fields[1]), int(fields[19]), int(fields[11]) + int(fields[12])
    return found


def work_of(process):
    """The crate and the kind of work of a process, or None where it works on no crate."""
    words = read(f"/proc/{process}/cmdline").decode(errors="replace").split("\0")
    if "--crate-name" not in words:
        return None
    crate = words[words.index("--crate-name") + 1]
    try:
        folder = os.readlink(f"/proc/{process}/cwd")
    except OSError:
        folder = ""
    if "/rt-edit" in folder:
        return crate, "edits"
    return crate, "tests" if "--test" in words else "proof"


def main():
    command = sys.argv[1:] or ["rt", "ci"]
    began = time.monotonic()
    child = subprocess.Popen(command)
    seen, kinds = {}, {}
    while child.poll() is None:
        found = processes()
        below, grew = {child.pid}, True
        while grew:
            more = {it for it, (parent, _, _) in found.items() if parent in below} - below
            below, grew = below | more, bool(more)
        for process in below & found.keys():
            _, start, used = found[process]
            key = process, start
            if key not in kinds or kinds[key] is None:
                kinds[key] = work_of(process)
            seen[key] = used
        time.sleep(0.25)
    table, other = {}, 0
    for key, used in seen.items():
        if kinds[key] is None:
            other += used
        else:
            crate, kind = kinds[key]
            row = table.setdefault(crate, dict.fromkeys(KINDS, 0))
            row[kind] += used
    print(f"\n| crate | {' | '.join(KINDS)} | all |\n|---|---|---|---|---|")
    rows = sorted(table.items(), key=lambda it: -sum(it[1].values()))
    for crate, row in rows:
        print(f"| `{crate}` | {' | '.join(f'{row[it] / TICKS:.0f}' for it in KINDS)} | {sum(row.values()) / TICKS:.0f} |")
    sums = [sum(row[it] for row in table.values()) / TICKS for it in KINDS]
    print(f"| all crates | {' | '.join(f'{it:.0f}' for it in sums)} | {sum(sums):.0f} |")
    print(f"\nbeside these {other / TICKS:.0f} processor seconds; {time.monotonic() - began:.0f} seconds in all")
    return child.returncode


if __name__ == "__main__":
    sys.exit(main())
