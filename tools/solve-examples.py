#!/usr/bin/env python3
"""Asks CaDiCaL (Debian's package) about each clause file that `rvf run` writes for the shipped examples.

    tools/solve-examples.py [--program PATH] [CFG WORD ..]

CFG and words of `run` behind OUTDIR take the place of the examples. Of a check that passes, the clauses have no model
by CaDiCaL, and those before the last have one; `rvf lrat` accepts the steps. Of a spent one the clauses before the last
have one. Of one that fails there is no clause file, and a dump. PROGRAM is `rvf`, which proves and builds the program
first.
"""
import argparse
import collections
import os
import subprocess
import sys
import tempfile

HERE = os.path.dirname(os.path.abspath(__file__))
EXAMPLES = [("quiet", []), ("free", []), ("mini", ["--core", "mini"])]


def has_model(path, without_last=False):
    with open(path) as file:
        lines = file.read().splitlines()
    if without_last:
        lines = lines[:-1]
        at = next(at for at, line in enumerate(lines) if line.startswith("p "))
        lines[at] = f"{lines[at].rsplit(' ', 1)[0]} {len(lines) - at - 1}"
    done = subprocess.run(["cadical", "-q", "-n"], input="\n".join(lines + [""]), stdout=subprocess.DEVNULL, text=True)
    return {10: True, 20: False}[done.returncode]


def is_right(program, verdict, base):
    """What is there of a check is what its line says."""
    there = [ending for ending in ("cnf", "lrat", "vcd") if os.path.exists(f"{base}.{ending}")]
    if verdict == "fail":
        return there == ["vcd"]
    if there != ["cnf", "lrat"] or not has_model(f"{base}.cnf", True):
        return False
    if verdict == "spent":
        return True
    said = subprocess.run([program, "lrat", f"{base}.cnf", f"{base}.lrat"], capture_output=True, text=True).stdout
    return said.startswith("refuted") and not has_model(f"{base}.cnf")


def judged(program, cfg, words):
    """Runs the checks, and says how many lines there are of each kind, and whose files are wrong."""
    with tempfile.TemporaryDirectory() as folder:
        said = subprocess.run([program, "run", cfg, folder, *words], capture_output=True, text=True).stdout
        lines = [line.split() for line in said.splitlines() if line.split()[0] in ("pass", "fail", "spent")]
        wrong = [line[1] for line in lines if not is_right(program, line[0], os.path.join(folder, line[1]))]
        files = sum(name.endswith(".cnf") for name in os.listdir(folder))
    counts = collections.Counter(line[0] for line in lines)
    print(f"{cfg}: {dict(counts)}, {files} clause files, other than the line says: {wrong}", flush=True)
    return not lines or bool(wrong)


def main():
    options = argparse.ArgumentParser()
    options.add_argument("--program", default=os.path.join(HERE, "..", "rvf"))
    options.add_argument("cfg", nargs="?")
    options.add_argument("words", nargs=argparse.REMAINDER)
    options = options.parse_args()
    program = os.path.abspath(options.program)
    if options.cfg:
        return judged(program, options.cfg, options.words)
    folders = [(os.path.join(HERE, "..", "examples", name), words) for name, words in EXAMPLES]
    found = [judged(program, os.path.join(folder, "checks.cfg"), ["--basedir", folder, *words])
             for folder, words in folders]
    return any(found)


if __name__ == "__main__":
    sys.exit(main())
