#!/usr/bin/env python3
"""Prints which functions of a crate a check spends its time on.

    tools/function-costs.py FOLDER [COUNT]

A check with `--incremental DIR` writes a file for each module that it has checked into a folder DIR/antt-checked-..,
in the order of its work. FOLDER is that folder, while the check runs or behind it. Printed are the COUNT (20) largest
gaps between two files, in seconds of the clock, with the module that was finished then: of a function F the module
`F.Lts` is its lifetimes, `F.Proof` its goals; of functions that call one another, c, `+c.Lts-F`, `+c.Tie`, `+c.Proof`.
Compare figures of one machine under one load alone; processor seconds are in the check's own `time`.
"""
import os
import sys


def finished(folder):
    """The modules with the times at which they were finished, the first one first."""
    return sorted((entry.stat().st_mtime, entry.name) for entry in os.scandir(folder))


def main():
    if len(sys.argv) not in (2, 3):
        sys.exit(__doc__)
    count = int(sys.argv[2]) if len(sys.argv) == 3 else 20
    modules = finished(sys.argv[1])
    gaps = [(later - sooner, name) for (sooner, _), (later, name) in zip(modules, modules[1:])]
    for seconds, name in sorted(gaps, reverse=True)[:count]:
        print(f"{seconds:8.1f}  {name.removeprefix('Rattle-').removesuffix('.oantt')}")


if __name__ == "__main__":
    main()
