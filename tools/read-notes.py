#!/usr/bin/env python3
"""Reads the notes of clause files back, and compares them with runs of the design in Icarus Verilog.

    tools/read-notes.py [--runs N] [--channels N] TEXT.v FILE.cnf ..

TEXT.v is the text of the checks with all its macros but the predefined ones, which are those of N channels (1). The
form of each file is judged (tools/clause_files.py). Then for as many choices at random as there are runs (3) the noted
choices get values, by which the clauses before the last are to determine all variables, and Icarus Verilog runs the
text with these choices, 0 for the free names that have no note, up to the check's cycle: each noted bit of each field
has to be the same there.
"""
import argparse
import collections
import random
import sys

from clause_files import FIELDS, ClauseFile, Wrong, free_names, simulated


class Formula:
    """A clause file's clauses before the last, by the highest variable of each."""

    def __init__(self, file):
        self.variables, self.ends = file.variables, collections.defaultdict(list)
        for clause in file.before:
            self.ends[max(map(abs, clause))].append(clause)

    def completed(self, values):
        """The values of all variables, where those of the choices are given and each other one is forced in turn."""
        true = lambda literal: values[abs(literal)] == (literal > 0)
        for variable in range(1, self.variables + 1):
            clauses = self.ends[variable]
            if variable not in values:
                own = [(literal, clause) for clause in clauses for literal in clause if abs(literal) == variable]
                forced = {literal > 0 for literal, clause in own
                          if not any(true(other) for other in clause if other != literal)}
                if len(forced) != 1:
                    raise Wrong(f"variable {variable} isn't determined")
                values[variable] = forced.pop()
            if not all(any(map(true, clause)) for clause in clauses):
                raise Wrong(f"a clause of variable {variable} is false")
        return values


def shown(file, text, values, channels):
    """The fields that Icarus Verilog shows in the check's cycle, where the noted choices have these values."""
    chosen = collections.defaultdict(int)
    for note in file.choices:
        chosen[note.cycle, note.name] += values[note.literal] << note.bit
    each, once = free_names(text)
    steps = []
    for cycle in range(file.cycle + 1):
        names = {name for when, name in chosen if when == cycle} | set(each) | set(once if cycle == 0 else [])
        steps.append(f"reset = {int(cycle == 0)};")
        steps += [f"dut.{name} = 128'd{chosen.get((cycle, name), 0)};" for name in sorted(names)] + ["#1;"]
        if cycle < file.cycle:
            steps.append("clock = 1; #1; clock = 0; #1;")
    steps += [f'$display("rvfi_{name} %b", dut.rvfi_{name});' for name, _ in FIELDS]
    return dict(line.split() for line in simulated(text, steps, channels=channels).splitlines())


def compared(path, text, runs, channels, rng):
    """How many choices are noted, and how many noted bits of fields are the same and how many are others."""
    file = ClauseFile(path)
    formula, same, other = Formula(file), 0, 0
    for _ in range(runs):
        values = formula.completed({note.literal: rng.random() < 0.5 for note in file.choices})
        fields = shown(file, text, values, channels)
        told = [fields[note.name][-1 - note.bit] == str(int(note.value(values.get))) for note in file.fields]
        same, other = same + sum(told), other + len(told) - sum(told)
    return len(file.choices), same, other


def main():
    options = argparse.ArgumentParser()
    options.add_argument("--runs", type=int, default=3)
    options.add_argument("--channels", type=int, default=1)
    options.add_argument("text")
    options.add_argument("files", nargs="+")
    options = options.parse_args()
    with open(options.text) as file:
        text = file.read()
    rng, wrong, counts, bits = random.Random(1), 0, [], 0
    for path in options.files:
        try:
            choices, same, other = compared(path, text, options.runs, options.channels, rng)
            counts.append(choices)
            wrong, bits = wrong + other, bits + same
            if other:
                print(path, other, "bits are others in Icarus Verilog")
        except Wrong as found:
            wrong += 1
            print(path, found)
    print(f"{len(counts)} files with {min(counts, default=0)} to {max(counts, default=0)} notes of choices read; "
          f"{bits} bits of fields in {options.runs} runs each are the same, {wrong} are not")
    return wrong != 0


if __name__ == "__main__":
    sys.exit(main())
