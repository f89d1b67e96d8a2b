#!/usr/bin/env python3
"""Times `rvf run` with some numbers of split variables, and judges its proofs by `rvf lrat` and by tools/lrat_rules.py.

    tools/time-cubes.py [--program PATH] [--jobs N] [--cubes N].. CFG [WORD ..]
    tools/time-cubes.py [--program PATH] [--jobs N] [--cubes N].. --bench N [WORD ..]
    tools/time-cubes.py [--program PATH] [--jobs N] [--cubes N].. --products N [WORD ..]

The WORDs are further ones of `rvf run`, as `--core tiny`, behind `--` where they begin with a hyphen. `--bench N` takes
the configuration and the design of `rvf bench N`, as the program has them; `--products N` the check `ill` alone of the
core of tools/time-jobs.py, for which two products of N bits have to be equal. Prints for each number of split variables
(0, 2 and 4 where none is given), with so many workers (4), the seconds of the clock and of the processors, how many
steps the proofs of passes add, and their bytes; ends with 1 where a proof is refused, or the lines aren't the same for
all numbers. It wants as many free processors as there are workers.
PROGRAM is `rvf`, which proves and builds the program first.
"""
import argparse
import os
import re
import resource
import subprocess
import sys
import tempfile
import time

import lrat_rules
import made

HERE = os.path.dirname(os.path.abspath(__file__))
BENCH = os.path.join(HERE, "..", "crates", "rvf_core", "src", "bench_files.rt")
PRODUCTS = "[options]\nisa rv32i\n[depth]\nill 1\n[verilog-files]\nw.v\n"


def bench_texts():
    """The texts of which the files of `rvf bench` are made, by the names of their constants."""
    with open(BENCH) as file:
        found = re.findall(r'const (\w+): &\[u8\] = b"(.*?)";', file.read(), re.S)
    return {name: re.sub(r"\\\n\s*", "", text).replace("\\n", "\n") for name, text in found}


def write_bench(folder, size):
    """Writes the files of `rvf bench` with so many registers; the path of the configuration."""
    texts = bench_texts()
    design = str(size).join(texts[name] for name in ("HEAD", "REGISTERS", "AND", "REST"))
    path = os.path.join(folder, "checks.cfg")
    for name, text in ((path, texts["CONFIG_TEXT"]), (os.path.join(folder, "bench.v"), design)):
        with open(name, "w") as file:
            file.write(text)
    return path


def write_products(folder, bits):
    """Writes a configuration of one check that two products of so many bits are equal for; its path."""
    text = made.script("time-jobs").WRAPPER
    text = text.replace("2*BITS-1", str(2 * bits - 1)).replace("BITS-1", str(bits - 1))
    path = os.path.join(folder, "checks.cfg")
    for name, part in ((path, PRODUCTS), (os.path.join(folder, "w.v"), text)):
        with open(name, "w") as file:
            file.write(part)
    return path


class Proof:
    """The clause file and the proof of a check that passed."""

    def __init__(self, program, front):
        self.program, self.cnf, self.lrat = program, front + ".cnf", front + ".lrat"
        with open(self.lrat, "rb") as file:
            self.text = file.read()
        self.steps = sum(line.split()[1:2] != [b"d"] for line in self.text.splitlines())

    def is_accepted(self):
        said = subprocess.run([self.program, "lrat", self.cnf, self.lrat], stdout=subprocess.PIPE)
        with open(self.cnf, "rb") as file:
            read = lrat_rules.answer(file.read(), self.text)
        return said.returncode == 0 and read == (said.stdout.decode().strip(), 0)


def run(program, words, folder, cubes, jobs):
    """The lines, the proofs of passes, and the seconds of the clock and of the processors."""
    out = os.path.join(folder, f"out{cubes}")
    os.makedirs(out)
    before, start = resource.getrusage(resource.RUSAGE_CHILDREN), time.monotonic()
    said = subprocess.run(
        [program, "run", words[0], out, *words[1:], "--cubes", str(cubes), "--jobs", str(jobs)],
        stdout=subprocess.PIPE, cwd=os.path.dirname(words[0]) or ".").stdout.decode().splitlines()
    clock, after = time.monotonic() - start, resource.getrusage(resource.RUSAGE_CHILDREN)
    proofs = [Proof(program, os.path.join(out, line.split()[1])) for line in said if line.startswith("pass ")]
    return said, proofs, clock, after.ru_utime + after.ru_stime - before.ru_utime - before.ru_stime


def main():
    options = argparse.ArgumentParser()
    options.add_argument("--program", default=os.path.join(HERE, "..", "rvf"))
    options.add_argument("--jobs", type=int, default=4)
    options.add_argument("--cubes", type=int, action="append")
    options.add_argument("--bench", type=int)
    options.add_argument("--products", type=int)
    options.add_argument("words", nargs="*")
    options = options.parse_args()
    program, first, holds = os.path.abspath(options.program), None, True
    with tempfile.TemporaryDirectory() as folder:
        words = list(options.words)
        if options.bench is not None:
            words.insert(0, write_bench(folder, options.bench))
        if options.products is not None:
            words.insert(0, write_products(folder, options.products))
        words[0] = os.path.abspath(words[0])
        for cubes in options.cubes or [0, 2, 4]:
            said, proofs, clock, processors = run(program, words, folder, cubes, options.jobs)
            first = first or said
            accepted = all(proof.is_accepted() for proof in proofs)
            holds = holds and accepted and said == first
            print(f"--cubes {cubes}: {clock:.2f} s of the clock, {processors:.2f} s of processors; {said[-1]}; "
                  f"{sum(proof.steps for proof in proofs)} steps, {sum(len(proof.text) for proof in proofs)} bytes; "
                  f"{'all proofs accepted' if accepted else 'A PROOF REFUSED'}", flush=True)
    print("the same lines" if holds else "other lines, or a proof refused")
    return not holds


if __name__ == "__main__":
    sys.exit(main())
