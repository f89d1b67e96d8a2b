#!/usr/bin/env python3
"""Checks proofs that another solver wrote: formulas refuted by CaDiCaL (Debian's package `cadical`).

    tools/lrat-of-solver.py [--program PATH] [--formulas N] [FILE.cnf ..]

CaDiCaL writes DRAT; each added clause gets the hints that unit propagation over the clauses so far finds, with two
watched literals a clause, and each deletion the id of the clause, which makes it LRAT. `rvf lrat` has to accept the
proof, and to refuse it with one hint changed as a second reading (lrat_rules.py) does. The formulas are N of a list of
50 (pigeons, parities, random ones) and those of the files, as `rvf run` writes them. Not part of the gate.
"""
import argparse
import collections
import os
import random
import subprocess
import sys
import tempfile

import lrat_rules

HERE = os.path.dirname(os.path.abspath(__file__))


def pigeons(holes):
    """One pigeon more than holes, each in a hole, no two in one."""
    var = lambda pigeon, hole: pigeon * holes + hole + 1
    clauses = [[var(pigeon, hole) for hole in range(holes)] for pigeon in range(holes + 1)]
    for hole in range(holes):
        clauses += [[-var(one, hole), -var(other, hole)] for one in range(holes + 1) for other in range(one)]
    return (holes + 1) * holes, clauses


def exclusive_or(a, b, c):
    """Clauses that say that c is the exclusive or of a and b."""
    return [[-a, -b, -c], [a, b, -c], [a, -b, c], [-a, b, c]]


def parity(count, seed):
    """So many bits, added in two orders: the one sum is odd, and the other even."""
    order, clauses, sums, variables = list(range(1, count + 1)), [], [], count
    for _ in range(2):
        total = order[0]
        for bit in order[1:]:
            variables += 1
            clauses += exclusive_or(total, bit, variables)
            total = variables
        sums.append(total)
        random.Random(seed).shuffle(order)
    return variables, clauses + [[sums[0]], [-sums[1]]]


def random_formula(variables, seed):
    """Clauses of three different variables, six for each variable."""
    source = random.Random(seed)
    clauses = [[variable * source.choice((1, -1)) for variable in source.sample(range(1, variables + 1), 3)]
               for _ in range(6 * variables)]
    return variables, clauses


def formulas():
    """Titles, numbers of variables and clauses of 50 formulas, of which each kind comes early."""
    kinds = [[(f"pigeons {holes}", *pigeons(holes)) for holes in range(1, 7)],
             [(f"parity {count}", *parity(count, count)) for count in range(3, 17)],
             [(f"random {30 + 3 * seed}", *random_formula(30 + 3 * seed, seed)) for seed in range(30)]]
    found = []
    while any(kinds):
        found += [kind.pop(0) for kind in kinds if kind]
    return found


class Clauses:
    """Clauses by their ids, with two watched literals each, and what unit propagation gives without assumptions."""

    def __init__(self, clauses):
        self.held, self.watches, self.ids = {}, collections.defaultdict(set), collections.defaultdict(list)
        self.units, self.top = set(), 0
        self.trail, self.reasons = [], {}
        for clause in clauses:
            self.add(clause)

    def add(self, clause):
        self.top += 1
        literals = list(dict.fromkeys(clause))
        # true literals come first, then those that are open, then false ones, the latest first
        place = {-literal: at for at, literal in enumerate(self.trail)}
        literals.sort(key=lambda literal: (literal not in self.reasons, place.get(literal, len(self.trail)) * -1))
        self.held[self.top] = literals
        self.ids[tuple(sorted(literals))].append(self.top)
        for literal in literals[:2]:
            self.watches[literal].add(self.top)
        if len(literals) < 2:
            self.units.add(self.top)

    def remove(self, literals):
        """The id of a clause of these literals, which goes; None where there is none."""
        ids = self.ids.get(tuple(sorted(set(literals))))
        if not ids:
            return None
        number = ids.pop()
        clause = self.held.pop(number)
        self.units.discard(number)
        for literal in clause[:2]:
            self.watches[literal].discard(number)
        if any(self.reasons.get(literal) == number for literal in clause):
            self.trail, self.reasons = [], {}
        return number

    def propagate(self, begin):
        """The id of a clause that is false, or None; begins with the literal at this place of the trail."""
        for number in sorted(self.units) if begin == 0 else ():
            literals = self.held[number]
            if not literals or -literals[0] in self.reasons:
                return number
            if literals[0] not in self.reasons:
                self.reasons[literals[0]] = number
                self.trail.append(literals[0])
        while begin < len(self.trail):
            false = -self.trail[begin]
            begin += 1
            for number in sorted(self.watches[false]):
                conflict = self.visit(number, false)
                if conflict:
                    return number
        return None

    def visit(self, number, false):
        """Finds another literal to watch, or what the clause forces; whether it is false."""
        clause = self.held[number]
        if clause[0] == false:
            clause[0], clause[1] = clause[1], clause[0]
        if clause[0] in self.reasons:
            return False
        for at in range(2, len(clause)):
            if -clause[at] not in self.reasons:
                clause[1], clause[at] = clause[at], clause[1]
                self.watches[false].discard(number)
                self.watches[clause[1]].add(number)
                return False
        if -clause[0] in self.reasons:
            return True
        self.reasons[clause[0]] = number
        self.trail.append(clause[0])
        return False

    def hints(self, clause):
        """The ids, in order, that propagate the complements of a clause's literals to a false clause."""
        conflict = self.propagate(0)
        kept = len(self.trail)
        true = [at for at, literal in enumerate(self.trail) if literal in set(clause)] if conflict is None else []
        if true:
            conflict = self.reasons[self.trail[true[0]]]
        elif conflict is None:
            for literal in dict.fromkeys(clause):
                if -literal not in self.reasons:
                    self.reasons[-literal] = None
                    self.trail.append(-literal)
            conflict = self.propagate(kept)
        if conflict is None:
            raise SystemExit("a clause of the proof is not found by unit propagation")
        found = self.used(conflict)
        for literal in self.trail[kept:]:
            del self.reasons[literal]
        del self.trail[kept:]
        return found

    def used(self, conflict):
        """The reasons that a false clause rests on, in the order of the trail, and the clause."""
        needed, found = {-literal for literal in self.held[conflict]}, []
        for literal in reversed(self.trail):
            if literal in needed and self.reasons[literal] not in (None, conflict):
                found.append(self.reasons[literal])
                needed |= {-other for other in self.held[self.reasons[literal]] if other != literal}
        return found[::-1] + [conflict]


def lrat_of(clauses, drat):
    """Lines of the proof as LRAT, and how many of them delete."""
    held, lines, deletions = Clauses(clauses), [], 0
    for words in (line.split() for line in drat.splitlines()):
        if not words or words[0] == "c":
            continue
        if words[0] == "d":
            number = held.remove([int(word) for word in words[1:-1]])
            if number is not None:
                deletions += 1
                lines.append(f"{held.top} d {number} 0")
            continue
        literals = [int(word) for word in words[:-1]]
        hints = held.hints(literals)
        held.add(literals)
        lines.append(" ".join(str(number) for number in [held.top] + literals + [0] + hints + [0]))
        if not literals:
            break
    return lines, deletions


def with_hint_changed(text, lines, source):
    """The proof with one hint of one of its steps changed so that a second reading refuses it."""
    for _ in range(100):
        other = with_another_hint(lines, source)
        if lrat_rules.answer(text, bytes_of(other))[1]:
            return other
    raise SystemExit("no hint is needed")


def bytes_of(lines):
    return "".join(line + "\n" for line in lines).encode()


def with_another_hint(lines, source):
    """The proof with one hint of one of its steps changed into another id."""
    steps = [at for at, line in enumerate(lines) if " d " not in line and line.split()[-2] != "0"]
    at = source.choice(steps)
    words = lines[at].split()
    first = words.index("0") + 1
    place = source.randrange(first, len(words) - 1)
    others = [number for number in range(1, int(words[0]) + 1) if str(number) != words[place]]
    words[place] = str(source.choice(others))
    return lines[:at] + [" ".join(words)] + lines[at + 1:]


def text_of(variables, clauses):
    lines = [f"p cnf {variables} {len(clauses)}"] + [" ".join(map(str, clause + [0])) for clause in clauses]
    return "".join(line + "\n" for line in lines).encode()


class Solver:
    def __init__(self, program, folder):
        self.program, self.folder, self.wrong = program, folder, 0

    def path(self, name):
        return os.path.join(self.folder, name)

    def answered(self, lines):
        """What the program answers, where a second reading answers the same; else both."""
        proof = bytes_of(lines)
        with open(self.path("p.lrat"), "wb") as out:
            out.write(proof)
        done = subprocess.run([self.program, "lrat", self.path("p.cnf"), self.path("p.lrat")], capture_output=True)
        with open(self.path("p.cnf"), "rb") as file:
            line, code = lrat_rules.answer(file.read(), proof)
        if (done.stdout.decode(), done.returncode) != (line + "\n", code):
            self.wrong += 1
            return f"WRONG: {done.stdout.decode().strip()!r}, but {line!r}"
        return line

    def judge(self, title, text, source):
        with open(self.path("p.cnf"), "wb") as out:
            out.write(text)
        with open(self.path("p.drat"), "w") as out:
            out.write("")
        subprocess.run(["cadical", "-q", "--no-binary", self.path("p.cnf"), self.path("p.drat")],
                       stdout=subprocess.DEVNULL)
        clauses = lrat_rules.read_dimacs(text)[1]
        with open(self.path("p.drat")) as file:
            lines, deletions = lrat_of(clauses, file.read())
        whole, changed = self.answered(lines), self.answered(with_hint_changed(text, lines, source))
        self.wrong += not whole.startswith("refuted") or not changed.startswith("refused step")
        print(f"{title}: {len(clauses)} clauses, {len(lines)} steps, {deletions} deletions: {whole}; with a hint "
              f"changed {changed}", flush=True)


def main():
    parser = argparse.ArgumentParser(description=__doc__, formatter_class=argparse.RawDescriptionHelpFormatter)
    parser.add_argument("--program", default=os.path.join(HERE, "..", "rvf"))
    parser.add_argument("--formulas", type=int, default=50)
    parser.add_argument("files", nargs="*")
    words = parser.parse_args()
    source = random.Random(1)
    with tempfile.TemporaryDirectory() as folder:
        solver = Solver(os.path.abspath(words.program), folder)
        for title, variables, clauses in formulas()[:words.formulas]:
            solver.judge(title, text_of(variables, clauses), source)
        for name in words.files:
            with open(name, "rb") as file:
                solver.judge(name, file.read(), source)
    print(f"{solver.wrong} wrong")
    sys.exit(solver.wrong > 0)


main()
