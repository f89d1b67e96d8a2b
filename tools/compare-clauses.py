#!/usr/bin/env python3
"""Compares the certificates that two programs write: variables, clauses, learnt clauses and bytes of each check, and the
processor seconds of the whole runs. It is not part of the gate.

    tools/compare-clauses.py [--runs N] [--abc PROGRAM] BEFORE AFTER [CFG [WORD ..]]

BEFORE and AFTER are built `rvf`. The WORDs are further ones of `rvf run`, as `--core tiny`, behind `--` where they begin
with a hyphen; without CFG the checks are the 44 of the core `tiny` as it is. Both programs run the checks with one
worker, in turn, N times each, five where nothing is said, and the fastest run of each counts. A line for each check has
the numbers of its files by both; behind them stand the sums, the seconds, and each answer that one program alone gives.
With --abc each check's graph, as `toaig` of AFTER writes it, is also given to abc (Debian's `berkeley-abc`), which
writes clauses by cuts of four leaves. This graph lacks what only the noted fields need, so it is smaller.
"""
import argparse
import os
import pathlib
import shutil
import subprocess
import sys
import tempfile

import made

AIGER = made.script("compare-aiger")
NUMBERS = ["variables", "clauses", "learnt", "bytes of clauses", "bytes of steps"]


class Run:
    """A run of a program into an empty folder: its lines, its processor seconds, and its memory in megabytes."""

    def __init__(self, program, words, out):
        shutil.rmtree(out, ignore_errors=True)
        out.mkdir()
        asked = [program, "run", words[0], out, *words[1:]]
        process = subprocess.Popen(asked, stdin=subprocess.DEVNULL, stdout=subprocess.PIPE)
        self.lines = process.stdout.read().decode().splitlines()
        usage = os.wait4(process.pid, 0)[2]
        self.seconds = usage.ru_utime + usage.ru_stime
        self.memory = usage.ru_maxrss // 1024


def header_of(path):
    """The numbers of variables and of clauses that a clause file says."""
    with open(path) as file:
        return [int(word) for word in next(line for line in file if line.startswith("p cnf")).split()[2:4]]


def numbers_of(clauses):
    """What the files of a check say, as NUMBERS names it."""
    steps = clauses.with_suffix(".lrat")
    if not steps.exists():
        return header_of(clauses) + [0, clauses.stat().st_size, 0]
    with open(steps) as file:
        learnt = sum(line.split()[1:2] != ["d"] for line in file)
    return header_of(clauses) + [learnt, clauses.stat().st_size, steps.stat().st_size]


def without_budget(words):
    """The words that `toaig` takes too."""
    place = words.index("--budget") if "--budget" in words else len(words)
    return words[:place] + words[place + 2:]


def by_abc(options, words, name, folder):
    """The numbers of variables and of clauses that abc writes for the graph of a check."""
    text, graph, clauses = (folder / f"graph.{kind}" for kind in ("aag", "aig", "cnf"))
    cfg, *others = without_budget(words)
    subprocess.run([options.after, "toaig", cfg, name, text, *others], check=True, stdout=subprocess.DEVNULL)
    graph.write_bytes(AIGER.BINARY.binary_of(text.read_text(encoding="utf-8")))
    clauses.unlink(missing_ok=True)
    done = subprocess.run([options.abc, "-q", f"&r {graph}; &write_cnf -K 4 {clauses}"], capture_output=True, text=True,
                          check=False)
    if not clauses.exists():
        raise SystemExit(done.stdout + done.stderr)
    return header_of(clauses)


def added(rows):
    """The sums of columns."""
    return [sum(column) for column in zip(*rows)]


def told(before, after):
    return ", ".join(f"{name} {one} and {other}" for name, one, other in zip(NUMBERS, before, after))


def compare(options, words, folder):
    programs, outs = [options.before, options.after], [folder / "before", folder / "after"]
    runs = [[], []]
    for _ in range(options.runs):
        for place, program in enumerate(programs):
            runs[place].append(Run(program, words, outs[place]))
    files = [{path.stem: path for path in out.glob("*.cnf")} for out in outs]
    names, rows, graphs = sorted(files[0].keys() & files[1].keys()), [[], []], []
    for name in names:
        for place, of_program in enumerate(files):
            rows[place].append(numbers_of(of_program[name]))
        line = f"{name}: {told(rows[0][-1], rows[1][-1])}"
        if options.abc:
            graphs.append(by_abc(options, words, name, folder))
            line += f"; abc: variables {graphs[-1][0]}, clauses {graphs[-1][1]}"
        print(line, flush=True)
    print(f"{len(names)} pairs of files: {told(*map(added, rows))}")
    if options.abc:
        print("abc: variables {}, clauses {}".format(*added(graphs)))
    for word, of_program in zip(["before", "after"], runs):
        seconds = [f"{run.seconds:.2f}" for run in of_program]
        least = min(run.seconds for run in of_program)
        print(f"{word}: {least:.2f} s ({', '.join(seconds)}), {max(run.memory for run in of_program)} MB")
    first, second = (set(of_program[0].lines) for of_program in runs)
    for line in sorted(first - second):
        print(f"before alone: {line}")
    for line in sorted(second - first):
        print(f"after alone: {line}")


def main():
    options = argparse.ArgumentParser()
    options.add_argument("--runs", type=int, default=5)
    options.add_argument("--abc")
    options.add_argument("before", type=os.path.abspath)
    options.add_argument("after", type=os.path.abspath)
    options.add_argument("cfg", nargs="?")
    options.add_argument("words", nargs="*")
    options = options.parse_args()
    with tempfile.TemporaryDirectory() as name:
        folder = pathlib.Path(name)
        if options.cfg:
            words = [options.cfg, *options.words]
        else:
            words = AIGER.cases_of_tiny(folder)[0] + ["--budget", "1000000"]
        compare(options, words, folder)


if __name__ == "__main__":
    sys.exit(main())
