#!/usr/bin/env python3
"""Runs the checks of a configuration, and judges each certificate by CaDiCaL (Debian's package `cadical`) and by
`rvf lrat`. It is not part of the gate.

    tools/check-certificates.py [--program PATH] CFG [WORD ..]

The WORDs are further ones of `rvf run`, as `--core tiny`, behind `--` where they begin with a hyphen. The clauses of a
pass have to be unsatisfiable, and its steps to refute them; the steps of a used up budget have to be valid and without
an end. Prints how many there were of each, their clauses, their learnt clauses and the processor seconds of all three
programs.
"""
import argparse
import os
import resource
import subprocess
import sys
import tempfile

HERE = os.path.dirname(os.path.abspath(__file__))


class Ran:
    """What a program wrote, its code, and its processor seconds."""

    def __init__(self, *words):
        before = resource.getrusage(resource.RUSAGE_CHILDREN)
        done = subprocess.run(words, stdin=subprocess.DEVNULL, stdout=subprocess.PIPE)
        after = resource.getrusage(resource.RUSAGE_CHILDREN)
        self.lines = done.stdout.decode().splitlines()
        self.code = done.returncode
        self.seconds = after.ru_utime + after.ru_stime - before.ru_utime - before.ru_stime


def clauses_in(path):
    """How many clauses the header of a clause file says."""
    with open(path) as file:
        return next(int(line.split()[3]) for line in file if line.startswith("p cnf"))


def learnt_in(path):
    """How many steps of a proof add a clause."""
    with open(path) as file:
        return sum(line.split()[1:2] != ["d"] for line in file)


def main():
    options = argparse.ArgumentParser()
    options.add_argument("--program", default=os.path.join(HERE, "..", "rvf"))
    options.add_argument("cfg")
    options.add_argument("words", nargs="*")
    options = options.parse_args()
    passed, spent, failed, clauses, learnt = 0, 0, 0, [], []
    by_cadical, by_lrat = 0.0, 0.0
    with tempfile.TemporaryDirectory() as folder:
        run = Ran(options.program, "run", options.cfg, folder, *options.words)
        for line in run.lines:
            kind, name = line.split()[:2]
            front = os.path.join(folder, name)
            if kind == "fail":
                failed += os.path.exists(front + ".vcd")
            if kind not in ("pass", "spent"):
                continue
            clauses.append(clauses_in(front + ".cnf"))
            learnt.append(learnt_in(front + ".lrat"))
            judged = Ran(options.program, "lrat", front + ".cnf", front + ".lrat")
            by_lrat += judged.seconds
            if kind == "spent":
                spent += 1
                if judged.lines != ["refused step 6 0 0"]:
                    sys.exit(f"{name}: {judged.lines}")
                continue
            passed += 1
            other = Ran("cadical", "-q", "-n", front + ".cnf")
            by_cadical += other.seconds
            if other.code != 20:
                sys.exit(f"{name}: CaDiCaL finds its clauses satisfiable")
            if judged.code or not judged.lines[0].startswith("refuted "):
                sys.exit(f"{name}: {judged.lines}")
    print(run.lines[-1])
    print(f"{passed} passes, whose clauses CaDiCaL refutes and whose steps `rvf lrat` accepts; {spent} spent; "
          f"{failed} dumps")
    if clauses:
        print(f"clauses {min(clauses)} to {max(clauses)}, learnt {min(learnt)} to {max(learnt)}")
    print(f"processor seconds: {run.seconds:.2f}, CaDiCaL {by_cadical:.2f}, `rvf lrat` {by_lrat:.2f}")


if __name__ == "__main__":
    main()
