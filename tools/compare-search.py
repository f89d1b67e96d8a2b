#!/usr/bin/env python3
"""Times the search beside MiniSat and CaDiCaL (Debian's packages, with `time`). It is not part of the gate.

    tools/compare-search.py [--folder FOLDER] [--driver PATH] [--limit SECONDS] [--random N] [FILE.cnf ..]

Random formulas of clauses of three literals at the threshold with 100 to 200 variables (N of them), adders of two kinds
proved equal, multipliers proved commutative, and the given clause files. The driver program is that of
`tools/check-search.py`, if PATH isn't one that was built. It prints for each group the median and the greatest of: the
steps of refutations, hints a step, steps beside MiniSat's conflicts and beside the clauses of CaDiCaL's proof, the
search's memory less that of its steps beside MiniSat's, user seconds and memory of all three, the search writing its
verdict alone; how many verdicts differ; and, of the formulas that take MiniSat more than a tenth of a second, how much
longer the search takes.
"""

import argparse
import os
import random
import re
import resource
import statistics
import subprocess
import tempfile

import made

CHECK_SEARCH = made.script("check-search")


class Formula:
    """Clauses, with a new variable for each gate."""

    def __init__(self):
        self.vars, self.clauses = 0, []

    def new(self):
        self.vars += 1
        return self.vars

    def conj(self, a, b):
        c = self.new()
        self.clauses += [[-a, -b, c], [a, -c], [b, -c]]
        return c

    def xor(self, a, b):
        c = self.new()
        self.clauses += [[-a, -b, -c], [a, b, -c], [a, -b, c], [-a, b, c]]
        return c

    def disj(self, a, b):
        return -self.conj(-a, -b)

    def full(self, a, b, c):
        part = self.xor(a, b)
        return self.xor(part, c), self.disj(self.conj(a, b), self.conj(part, c))

    def differ(self, xs, ys):
        self.clauses.append([self.xor(a, b) for a, b in zip(xs, ys)])
        return self

    def text(self):
        lines = [" ".join(map(str, clause)) + " 0" for clause in self.clauses]
        return f"p cnf {self.vars} {len(lines)}\n" + "\n".join(lines) + "\n"


def random_formula(rng, many):
    out = Formula()
    out.vars = many
    for _ in range(round(4.26 * many)):
        out.clauses.append([rng.choice((1, -1)) * v for v in rng.sample(range(1, many + 1), 3)])
    return out


def adders(bits):
    """A sum bit by bit, and one whose bits are chosen by the carry below."""
    out = Formula()
    xs, ys = [out.new() for _ in range(bits)], [out.new() for _ in range(bits)]
    zero = out.new()
    out.clauses.append([-zero])
    first, second, carry, low = [], [], zero, zero
    for x, y in zip(xs, ys):
        total, carry = out.full(x, y, carry)
        first.append(total)
        part, both, some = out.xor(x, y), out.conj(x, y), out.disj(x, y)
        second.append(out.disj(out.conj(low, -part), out.conj(-low, part)))
        low = out.disj(out.conj(low, some), both)
    return out.differ(first + [carry], second + [low])


def multipliers(bits):
    """The product of two numbers, and that of the second and the first."""
    out = Formula()
    xs, ys = [out.new() for _ in range(bits)], [out.new() for _ in range(bits)]
    zero = out.new()
    out.clauses.append([-zero])

    def product(first, second):
        total = [zero] * (2 * bits)
        for place, bit in enumerate(second):
            carry = zero
            for index, other in enumerate(first):
                total[place + index], carry = out.full(total[place + index], out.conj(bit, other), carry)
            total[place + bits] = carry
        return total

    return out.differ(product(xs, ys), product(ys, xs))


class Ran:
    """What a program wrote, its user seconds, of which it has so many, and its memory in megabytes."""

    def __init__(self, words, limit, read_from=os.devnull):
        def bounded():
            resource.setrlimit(resource.RLIMIT_CPU, (round(limit), round(limit)))

        # Of a program that Python starts the system tells at least Python's own memory.
        with open(read_from) as given, tempfile.NamedTemporaryFile("r") as told:
            words = ["time", "-f", "%M", "-o", told.name, *words]
            process = subprocess.Popen(words, stdin=given, stdout=subprocess.PIPE, stderr=subprocess.DEVNULL,
                                       text=True, preexec_fn=bounded)
            self.said = process.stdout.read()
            self.seconds = os.wait4(process.pid, 0)[2].ru_utime
            self.memory = int(told.read().split()[-1]) / 1024

    def told(self, what):
        """The number that MiniSat tells behind these words."""
        found = re.search(rf"^{what}\s*:\s*(\d+)", self.said, re.M)
        return int(found.group(1)) if found else None


class Steps:
    """How many clauses the steps add, their hints, and bytes that they take: eight a number and 64 a step."""

    def __init__(self, lines):
        adding = [line.split(" 0 ")[1] for line in lines if " d " not in line]
        self.adding = len(adding)
        self.hints = sum(len(hints.split()) - 1 for hints in adding)
        self.bytes = sum(8 * len(line.split()) + 64 for line in lines)


class Row:
    """What the search, MiniSat and CaDiCaL came to on a formula."""

    def __init__(self, driver, text, limit):
        with tempfile.TemporaryDirectory() as folder:
            cnf, alone, proof = (os.path.join(folder, name) for name in ("c.cnf", "alone.cnf", "c.drat"))
            for name, content in ((cnf, text), (alone, CHECK_SEARCH.VERDICT_ALONE + text)):
                with open(name, "w") as out:
                    out.write(content)
            verdict, *steps = Ran([driver], limit, cnf).said.rstrip("\n").split("\n")
            mini = Ran(["minisat", "-no-pre", cnf], limit)
            cadical = Ran(["cadical", "-q", "--no-binary", cnf, proof], limit)
            self.runs = [Ran([driver], limit, alone), mini, cadical]
            with open(proof) as file:
                self.added = sum(not line.startswith("d") for line in file)
        verdicts = {"model": "SATISFIABLE", "refuted": "UNSATISFIABLE"}
        self.agrees = verdict in verdicts and re.search(rf"^s {verdicts[verdict]}$", cadical.said, re.M) is not None
        self.conflicts = mini.told("conflicts")
        self.steps = Steps(steps) if verdict == "refuted" else None


def spread(values):
    return f"{statistics.median(values):.3g} and {max(values):.3g}"


def print_refutations(rows):
    by_minisat = [row.steps.adding / max(row.conflicts, 1) for row in rows if row.conflicts is not None]
    by_cadical = [row.steps.adding / max(row.added, 1) for row in rows]
    beside = [(row.runs[0].memory - row.steps.bytes / 2 ** 20) / row.runs[1].memory for row in rows]
    print(f"  {len(rows)} refutations: {spread([row.steps.adding for row in rows])} steps, "
          f"{spread([row.steps.hints / row.steps.adding for row in rows])} hints a step, {spread(by_minisat)} by "
          f"MiniSat's conflicts, {spread(by_cadical)} by the clauses of CaDiCaL's proof; memory beside the steps "
          f"{spread(beside)} times MiniSat's")


def groups_of(options):
    """Returns the texts of the formulas by what they are."""
    rng = random.Random(1)
    groups = {}
    if options.random:
        groups["random, 100 to 200 variables"] = [
            random_formula(rng, rng.randint(100, 200)).text() for _ in range(options.random)]
    groups |= {f"adders of {bits} bits": [adders(bits).text()] for bits in (8, 16, 32, 64)}
    groups |= {f"multipliers of {bits} bits": [multipliers(bits).text()] for bits in (4, 5, 6)}
    for name in options.files:
        with open(name) as text:
            groups[name] = [text.read()]
    return groups


def main():
    options = argparse.ArgumentParser()
    options.add_argument("--folder")
    options.add_argument("--driver")
    options.add_argument("--limit", type=float, default=60.0)
    options.add_argument("--random", type=int, default=200)
    options.add_argument("files", nargs="*")
    options = options.parse_args()
    folder = options.folder or tempfile.mkdtemp(prefix="compare-search-")
    driver = options.driver or CHECK_SEARCH.driver_of(folder)
    for group, texts in groups_of(options).items():
        rows = [Row(driver, text, options.limit) for text in texts]
        print(f"{group}: {len(rows)} formulas, {sum(not row.agrees for row in rows)} without CaDiCaL's verdict")
        refuted = [row for row in rows if row.steps]
        if refuted:
            print_refutations(refuted)
        for index, name in enumerate(("the search", "MiniSat", "CaDiCaL")):
            print(f"  {name}: {spread([row.runs[index].seconds for row in rows])} s, "
                  f"{spread([row.runs[index].memory for row in rows])} MB")
        hard = [row.runs[0].seconds / row.runs[1].seconds for row in rows if row.runs[1].seconds > 0.1]
        if hard:
            print(f"  {len(hard)} take MiniSat more than 0.1 s: the search takes {spread(hard)} times as long, "
                  f"{sum(ratio > 20 for ratio in hard)} of them twenty times", flush=True)


if __name__ == "__main__":
    main()
