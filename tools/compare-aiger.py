#!/usr/bin/env python3
"""Compares the graphs that `rvf toaig` writes and `rvf fromaig` reads with abc and a reader in Python. It is not part
of the gate.

    tools/compare-aiger.py [--abc PROGRAM] [--seed N] [--graphs N] RVF [CFG [WORD ..]]

RVF is the built program. Each check of a configuration is written by `rvf toaig`, in binary form (as
tools/aiger-binary.py does), and abc (Debian's `berkeley-abc`) is asked by `sat` whether the output can be 1: it can
exactly where `rvf run` says that the check fails. Each text is read back by `rvf fromaig`, which has to tell the same
numbers of inputs and gates. The configurations are the first two of `tiny_cases`, the core `tiny` as it is and with a
comparison that reads signs; or CFG, whose WORDS are further ones of `rvf run`, behind `--` where they begin with a
hyphen.

Then N random graphs (500 if none is given) go both ways. `rvf fromaig` gives the clauses of a text, of which those
before the last have to leave one value to each variable for each list of values of the inputs, and to the last one that
of the output. And a design is made of another graph, with a register and an assumption: at all values of what is free,
by the names of the inputs, the output of what `rvf toaig` writes has to be that of the graph, in Python.

Prints a line for each difference, and what was compared.
"""
import argparse
import pathlib
import random
import subprocess
import sys
import tempfile

import made
from clause_files import FIELDS

BINARY = made.script("aiger-binary")
GRAPHS = made.script("compare-graphs")
CASES = pathlib.Path(__file__).resolve().parent.parent / "crates" / "tiny_cases" / "stdin"


def lines_of(program, *words):
    """The lines that the program prints."""
    done = subprocess.run([program, *map(str, words)], capture_output=True, text=True, check=False)
    return done.stdout.splitlines()


# ---- checks and abc


def cases_of_tiny(folder):
    """The words of `rvf run` for each of the two cases of the core, whose files are put into a folder of their own."""
    pieces, files, target, found = {}, {}, None, []
    for line in CASES.read_text().splitlines():
        if line.startswith("% "):
            target = pieces.setdefault(line[2:], [])
        elif line.startswith("%"):
            target += pieces[line[1:]]
        elif line.startswith("@ "):
            target = files.setdefault(line[2:], [])
        elif line == ".":
            at = folder / str(len(found))
            for name, text in files.items():
                path = at / name
                path.parent.mkdir(parents=True, exist_ok=True)
                path.write_text("\n".join(text) + "\n")
            found.append([at / "checks.cfg", "--core", "tiny", "--basedir", at])
            files = {}
        elif not line.startswith(("$ ", "# ")):
            target.append(line)
        if len(found) == 2:
            return found
    raise SystemExit(f"{CASES} lacks the cases of tiny")


def of_abc(abc, path):
    """`pass` where abc finds the output never 1, `fail` where it finds values for it, else what it printed."""
    done = subprocess.run([abc, "-q", f"read_aiger {path}; strash; sat"], capture_output=True, text=True, check=False)
    said = done.stdout + done.stderr
    if "UNSATISFIABLE" in said:
        return "pass"
    return "fail" if "SATISFIABLE" in said else said.strip()


def compare_checks(options, folder, cfg, words):
    """Compares each check of a configuration, and returns how many differ."""
    ran = lines_of(options.rvf, "run", cfg, folder, *words, "--budget", 1000000)
    verdicts = dict(reversed(line.split()) for line in ran if line.split()[0] in ("pass", "fail"))
    differing, names, failing = 0, lines_of(options.rvf, "list", cfg), []
    for name in names:
        text, binary = folder / f"{name}.aag", folder / f"{name}.aig"
        told = lines_of(options.rvf, "toaig", cfg, name, text, *words)
        if not text.exists():
            differing += 1
            print(f"{name}: {verdicts.get(name)}, no graph; {told}", flush=True)
            continue
        binary.write_bytes(BINARY.binary_of(text.read_text(encoding="utf-8")))
        again = lines_of(options.rvf, "fromaig", text, folder / "again.cnf")
        found = of_abc(options.abc, binary)
        failing += [name] if found == "fail" else []
        if found != verdicts.get(name) or again != told:
            differing += 1
            print(f"{name}: {verdicts.get(name)}, abc {found}; {told}, read back {again}", flush=True)
    print(f"{len(names)} checks compared, {len(verdicts)} of them judged; abc finds violated: "
          f"{', '.join(failing) or 'none'}; {differing} differ", flush=True)
    return differing + (len(names) != len(verdicts))


# ---- random graphs to clauses


def clauses_in(path):
    """The number of variables of a clause file, and its clauses."""
    head, *rows = [line for line in path.read_text().splitlines() if not line.startswith("c")]
    clauses = [list(map(int, row.split())) for row in rows]
    if any(clause.pop() != 0 for clause in clauses) or head.split()[3] != str(len(clauses)):
        raise SystemExit(f"{path}: another header than clauses")
    return int(head.split()[2]), clauses


def value_of(variables, clauses, given):
    """The value of the last clause's variable in the one model of those before it that has these values of the first
    variables; None where a value is left open, or where there is no model, or another last clause."""
    *before, last = clauses
    true = {number + 1 if value else -number - 1 for number, value in enumerate(given)}
    waiting, moved = before, True
    while moved:
        moved, left = False, []
        for clause in waiting:
            if true & set(clause):
                continue
            still = [literal for literal in set(clause) if -literal not in true]
            if len(still) == 1:
                true.add(still[0])
            moved = moved or len(still) < 2
            if not still:
                return None
            left += [clause] if len(still) > 1 else []
        waiting = left
    if waiting or len(true) != variables or last != [variables]:
        return None
    return variables in true


def is_compared(text, path, told, lists):
    """Whether the clauses of a text, and what was told, are those of the graph that it says, at lists of values."""
    graph = GRAPHS.Graph(text)
    if told != [f"aiger {len(graph.inputs)} {len(graph.gates)}"]:
        return False
    variables, clauses = clauses_in(path)
    return all(value_of(variables, clauses, given) == graph.value(given) for given in lists(len(graph.inputs)))


def all_lists(count):
    return [[number >> bit & 1 == 1 for bit in range(count)] for number in range(1 << count)]


# ---- random graphs to designs


class Design:
    """A graph of one cycle over two or three bits that are free in each cycle and a register, as a wrapper that retires
    an illegal instruction where the graph's value is 1."""

    def __init__(self, rng):
        self.width = rng.randrange(2, 4)
        self.gates = []
        for number in range(rng.randrange(1, 8)):
            self.gates.append([2 * rng.randrange(self.width + 2 + number) + rng.randrange(2) for _ in range(2)])
        self.output, self.next, self.assumed = (2 * rng.randrange(self.width + 2 + len(self.gates)) + rng.randrange(2)
                                                for _ in range(3))

    def values(self, bits, register):
        """The values of all variables in a cycle: 0, the free bits, the register and the gates."""
        values = [False] + bits + [register]
        for left, right in self.gates:
            values.append(self.value(values, left) and self.value(values, right))
        return values

    def value(self, values, literal):
        return values[literal // 2] != bool(literal % 2)

    def is_violated(self, first, second, start):
        """Whether the run with these free bits in cycles 0 and 1 and this value of the register at first violates."""
        before = self.values(first, start)
        now = self.values(second, self.value(before, self.next))
        return all(self.value(values, self.assumed) for values in (before, now)) and self.value(now, self.output)

    def name(self, literal):
        variable = literal // 2
        names = ["1'b0"] + [f"x[{bit}]" for bit in range(self.width)] + ["r"]
        name = names[variable] if variable < len(names) else f"g{variable - len(names)}"
        return f"{'~' if literal % 2 else ''}{name}"

    def text(self):
        gates = [f"  wire g{number} = {self.name(left)} & {self.name(right)};"
                 for number, (left, right) in enumerate(self.gates)]
        fields = [f"  assign rvfi_{name} = {self.name(self.output) if name == 'valid' else 0};" for name, _ in FIELDS]
        return "\n".join([
            "module rvfi_wrapper (input clock, input reset, `RVFI_OUTPUTS);",
            f"  `rvformal_rand_reg [{self.width - 1}:0] x;", "  reg r;", *gates,
            f"  always @(posedge clock) r <= {self.name(self.next)};",
            f"  always @* assume ({self.name(self.assumed)});", *fields, "endmodule", ""])

    def is_written(self, text):
        """Whether the text says this design: at each run, where the inputs have the values that their names have in it,
        the output is 1 exactly where the run violates."""
        graph = GRAPHS.Graph(text)
        names = [line.split(" ")[1:] for line in graph.lines if line.startswith("i")]
        for first in all_lists(self.width):
            for second in all_lists(self.width):
                for start in (False, True):
                    chosen = {("x", str(cycle), str(bit)): value for cycle, bits in ((0, first), (1, second))
                              for bit, value in enumerate(bits)} | {("r", "0", "0"): start}
                    given = [chosen[tuple(name)] for name in names]
                    if graph.value(given) != self.is_violated(first, second, start):
                        return False
        return len(names) == len(graph.inputs) == len(set(map(tuple, names)))


def compare_graphs(options, folder):
    """Compares random graphs both ways, and returns how many differ."""
    rng = random.Random(options.seed)
    differing, ones = 0, 0
    aag, cnf, cfg = folder / "g.aag", folder / "g.cnf", folder / "checks.cfg"
    cfg.write_text(f"[options]\nisa rv32i\n[depth]\nill 1\n[verilog-files]\n{folder}/w.v\n")
    for _ in range(options.graphs):
        text = "\n".join(" ".join(map(str, row)) for row in GRAPHS.random_text(rng)) + "\n"
        aag.write_text(text)
        told = lines_of(options.rvf, "fromaig", aag, cnf)
        if not is_compared(text, cnf, told, all_lists):
            differing += 1
            print(f"{told} is told of\n{text}", flush=True)
        design = Design(rng)
        (folder / "w.v").write_text(design.text())
        told = lines_of(options.rvf, "toaig", cfg, "ill_ch0", aag)
        text = aag.read_text()
        again = lines_of(options.rvf, "fromaig", aag, cnf)
        some = random.Random(options.seed)
        if not design.is_written(text) or again != told or not is_compared(
                text, cnf, told, lambda count: [[some.randrange(2) == 1 for _ in range(count)] for _ in range(4)]):
            differing += 1
            print(f"{told}, and read back {again}, is told of\n{design.text()}{text}", flush=True)
        ones += any(design.is_violated(first, second, start) for first in all_lists(design.width)
                    for second in all_lists(design.width) for start in (False, True))
    print(f"{options.graphs} graphs compared each way, of those that are written {ones} with an output that can be 1; "
          f"{differing} differ", flush=True)
    return differing


def main():
    parser = argparse.ArgumentParser(description=__doc__, formatter_class=argparse.RawDescriptionHelpFormatter)
    parser.add_argument("--abc", default="berkeley-abc")
    parser.add_argument("--seed", type=int, default=1)
    parser.add_argument("--graphs", type=int, default=500)
    parser.add_argument("rvf")
    parser.add_argument("cfg", nargs="?")
    parser.add_argument("words", nargs="*")
    options = parser.parse_args()
    with tempfile.TemporaryDirectory() as folder:
        folder = pathlib.Path(folder)
        cases = [[options.cfg, *options.words]] if options.cfg else cases_of_tiny(folder / "tiny")
        (folder / "out").mkdir()
        differing = compare_graphs(options, folder / "out")
        differing += sum(compare_checks(options, folder / "out", cfg, words) for cfg, *words in cases)
    return 1 if differing else 0


if __name__ == "__main__":
    sys.exit(main())
