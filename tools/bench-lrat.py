#!/usr/bin/env python3
"""Times the checker of proofs. It is not part of the gate.

    tools/bench-lrat.py [N..]                               `rvf lrat`, the whole program
    tools/bench-lrat.py --verify [--steps N] [--runs N] [--program PATH]   `verify` alone

The first times `rvf lrat` on a chain of clauses (x1; x1 -> x2; ..; not xn) and a proof of one step with a hint for
each, and prints the number of clauses, the answer and the seconds.

The second makes proofs of N steps (1,000,000). Each step adds a clause of two literals by twenty hints over 20
clauses, over 100,000 clauses in random order, or over 100,000 of 400,000 clauses of which the first step deletes the
others; or by two hints, where each added clause is deleted a thousand steps later. The program below reads a proof and
verifies it as often as it is told. Its user seconds, the least of N runs (3), and its memory with and without `verify`
tell those of `verify`: hints a second, and what the store takes beside eight bytes for each literal of the clauses
that are held in the end, or that were ever added. Memory is told as glibc's malloc has it by default, and where it
gives blocks of a million bytes back to the system. The program is proved and built in a temporary folder (some
minutes) if PATH isn't one that was built.
"""
import argparse
import contextlib
import os
import random
import subprocess
import sys
import tempfile
import time

import made

PROGRAM = """//! Verifies a proof as many times as standard input says: this number in eight bytes, how many bytes the
//! clause file has in twelve, the clause file, and the proof.
#![tactic(auto)]

use cnf_text::read_dimacs;
use lrat_check::{read_lrat, verify};
use std::io::Read;
use std::process::Abort;

COUNT
fn main(rt: HostRuntime) -> Result<(), std::test::Fail> {
    let alloc = rt.alloc();
    let mut bytes = Vec::new(alloc);
    rt.stdin().read_to_end(&mut bytes)?;
    assert!(rt; bytes.len() >= 20);
    let (head, rest) = bytes.split_at(20);
    let (times, length) = head.split_at(8);
    let length = count(length);
    assert!(rt; length <= rest.len() as u64);
    let (clauses, proof) = rest.split_at(length as usize);
    let formula = read_dimacs(alloc, clauses)?;
    let steps = read_lrat(alloc, proof)?;
    for _time in 0..count(times) {
        let refuted = verify(alloc, &formula, steps.as_slice())?;
        println!(rt; "refuted {}", refuted.id)?;
    }
    println!(rt; "{} bytes", bytes.len())?;
    Ok(())
}
"""

LEAD = 1000


class Proof:
    """A clause file with a chain of implications in a random order, and so many steps, each of which adds that the
    first of some neighbours in the chain implies the last. The last step is the empty clause. `lag`: each added clause
    is deleted so many steps later. `others`: so many clauses stand among those of the chain and are deleted first."""

    def __init__(self, chain, hints, steps, lag=None, others=0):
        rng = random.Random(1)
        names, ids = list(range(1, chain + 2)), list(range(1, chain + others + 1))
        rng.shuffle(names)
        rng.shuffle(ids)
        clauses = [f"1 {chain + 2} 0\n"] * (chain + others)
        for place, id in enumerate(ids[:chain]):
            clauses[id - 1] = f"-{names[place]} {names[place + 1]} 0\n"
        last = chain + 2
        clauses += [f"{last} 0\n", f"-{last} 0\n"]
        self.clauses = f"p cnf {last} {len(clauses)}\n" + "".join(clauses)
        bodies = [f"-{names[start]} {names[start + hints]} 0 " + " ".join(map(str, ids[start:start + hints])) + " 0\n"
                  for start in range(chain - hints + 1)]
        first = len(clauses) + 1
        lines = [f"{len(clauses)} d " + " ".join(map(str, ids[chain:])) + " 0\n"] if others else []
        for id in range(first, first + steps):
            lines.append(f"{id} {rng.choice(bodies)}")
            if lag and id >= first + lag:
                lines.append(f"{id} d {id - lag} 0\n")
        lines.append(f"{first + steps} 0 {len(clauses) - 1} {len(clauses)} 0\n")
        self.steps = "".join(lines)
        self.hints = hints * steps + 2
        self.added = 2 * steps + 2 * len(clauses) - 2
        self.held = 2 * (lag or steps) + 2 * chain + 2

    def measured(self, program, times, gives_back=False, runs=1):
        """Returns the least user seconds and the most megabytes of runs that verify the proof so often each."""
        system = os.environ | ({"MALLOC_MMAP_THRESHOLD_": "1000000"} if gives_back else {})
        seconds, memory = [], []
        with tempfile.TemporaryDirectory() as folder:
            given, told = (os.path.join(folder, name) for name in ("given", "told"))
            with open(given, "w") as out:
                out.write(f"{times:<8}{len(self.clauses):<12}{self.clauses}{self.steps}")
            for _run in range(runs):
                with open(given) as text:
                    ran = subprocess.run(["time", "-f", "%U %M", "-o", told, program], stdin=text,
                                         capture_output=True, text=True, env=system)
                if ran.returncode or ran.stdout.count("refuted") != times:
                    sys.exit(f"{ran.stdout}{ran.stderr}")
                with open(told) as text:
                    took, room = text.read().split()[-2:]
                seconds.append(float(took))
                memory.append(int(room) / 1024)
        return min(seconds), max(memory)


def time_verify(program, steps, runs):
    proofs = {"20 clauses, 20 hints a step": Proof(20, 20, steps),
              "100,000 clauses, 20 hints a step": Proof(100000, 20, steps),
              "100,000 of 400,000 clauses left, 20 hints a step": Proof(100000, 20, steps, others=300000),
              "clauses deleted, 2 hints a step": Proof(100, 2, steps, LEAD)}
    for name, proof in proofs.items():
        # So many that a million steps take longer than what is read before.
        times = min(200, 4 * 10 ** 8 // proof.hints)
        before, beside = proof.measured(program, 0, runs=runs)
        after, memory = proof.measured(program, times, runs=runs)
        seconds, store = (after - before) / times, memory - beside
        back = proof.measured(program, 1, True)[1] - proof.measured(program, 0, True)[1]
        in_bytes = [8 * literals / 2 ** 20 for literals in (proof.held, proof.added)]
        print(f"{name}: {proof.hints} hints in {seconds:.2f} s, {proof.hints / seconds / 1e6:.1f} million a second; "
              f"{store:.1f} MB ({back:.1f} MB given back) beside {in_bytes[0]:.3g} MB of literals held in the end, "
              f"{in_bytes[1]:.3g} MB ever",
              flush=True)


def time_chains(counts):
    here = os.path.dirname(os.path.dirname(os.path.abspath(__file__)))
    for count in counts:
        with tempfile.TemporaryDirectory() as folder:
            cnf, lrat = os.path.join(folder, "c.cnf"), os.path.join(folder, "c.lrat")
            with open(cnf, "w") as out:
                out.write(f"p cnf {count} {count + 1}\n1 0\n")
                out.writelines(f"-{n} {n + 1} 0\n" for n in range(1, count))
                out.write(f"-{count} 0\n")
            with open(lrat, "w") as out:
                out.write(f"{count + 2} 0 " + " ".join(str(n) for n in range(1, count + 2)) + " 0\n")
            start = time.time()
            ran = subprocess.run([os.path.join(here, "rvf"), "lrat", cnf, lrat], capture_output=True, text=True)
            print(f"{count + 1} clauses and hints: {ran.stdout.strip()}, {time.time() - start:.2f} s")


def main():
    options = argparse.ArgumentParser()
    options.add_argument("--verify", action="store_true")
    options.add_argument("--steps", type=int, default=1000000)
    options.add_argument("--runs", type=int, default=3)
    options.add_argument("--program")
    options.add_argument("counts", type=int, nargs="*")
    options = options.parse_args()
    if not options.verify:
        return time_chains(options.counts or [100000, 300000, 1000000])
    with contextlib.ExitStack() as stack:
        text = PROGRAM.replace("COUNT", made.COUNT)
        program = options.program or stack.enter_context(made.program("lrat_bench", text, ["cnf_text", "lrat_check"]))
        time_verify(program, options.steps, options.runs)


if __name__ == "__main__":
    main()
