#!/usr/bin/env python3
"""Counts how many literals the search propagates a second, beside MiniSat. It is not part of the gate.

    tools/count-propagations.py --driver PATH --counted PATH [--random N] [--runs N] [FILE.cnf ..]

Adders of 64 bits, products of 5 bits, N random formulas of 150 variables (2), and the given clause files. Both
programs are that of `tools/check-search.py`: the times are those of --driver, and in --counted `Watches::advance`,
which takes the next true literal, isn't inlined. LLVM builds it so from the same module by `-mllvm
-forceattrs-csv-path=FILE`, where FILE has the line `sat_propagate::watches::Watches::advance,noinline`. Its calls are
counted by a breakpoint of the processor (Debian's `linux-perf`); MiniSat counts its own, in the same sense. The least
user time of so many runs (3) counts, with the reading of the formula.
"""
import argparse
import os
import random
import re
import subprocess
import tempfile

import made

COMPARE = made.script("compare-search")
NAME = "sat_propagate::watches::Watches::advance"
# Where a program that may lie anywhere lies, if places aren't chosen at random.
BASE = 0x555555554000


def calls_of(counted, cnf, folder):
    """Returns how often the program calls the function on the formula."""
    told = os.path.join(folder, "told")
    symbols = subprocess.run(["nm", counted], capture_output=True, text=True, check=True).stdout
    place = int(re.search(rf"^(\w+) \w {NAME}$", symbols, re.M).group(1), 16)
    words = ["setarch", "-R", "perf", "stat", "-x", ",", "-o", told, "-e", f"mem:{BASE + place:#x}:x", counted]
    with open(cnf) as given:
        subprocess.run(words, stdin=given, stdout=subprocess.DEVNULL, check=True)
    with open(told) as file:
        return int(re.search(r"^(\d+),,mem:", file.read(), re.M).group(1))


def formulas_of(options):
    rng = random.Random(2)
    formulas = {"adders of 64 bits": COMPARE.adders(64).text(), "products of 5 bits": COMPARE.multipliers(5).text()}
    for index in range(options.random):
        formulas[f"random {index}"] = COMPARE.random_formula(rng, 150).text()
    for name in options.files:
        with open(name) as text:
            formulas[name] = text.read()
    return formulas


def main():
    options = argparse.ArgumentParser()
    options.add_argument("--driver", required=True)
    options.add_argument("--counted", required=True)
    options.add_argument("--random", type=int, default=2)
    options.add_argument("--runs", type=int, default=3)
    options.add_argument("--limit", type=float, default=600.0)
    options.add_argument("files", nargs="*")
    options = options.parse_args()
    for name, text in formulas_of(options).items():
        with tempfile.TemporaryDirectory() as folder:
            cnf = os.path.join(folder, "c.cnf")
            with open(cnf, "w") as out:
                out.write(COMPARE.CHECK_SEARCH.VERDICT_ALONE + text)
            ours = [COMPARE.Ran([options.driver], options.limit, cnf).seconds for _ in range(options.runs)]
            minisat = [COMPARE.Ran(["minisat", "-no-pre", cnf], options.limit) for _ in range(options.runs)]
            calls = calls_of(options.counted, cnf, folder)
        theirs = minisat[0].told("propagations")
        rates = [calls / min(ours) / 1e6, theirs / min(run.seconds for run in minisat) / 1e6]
        print(f"{name}: {calls} propagations in {min(ours):.3f} s, {rates[0]:.2f} million a second; MiniSat {theirs}, "
              f"{rates[1]:.2f}; {rates[0] / rates[1]:.2f} of its", flush=True)


if __name__ == "__main__":
    main()
