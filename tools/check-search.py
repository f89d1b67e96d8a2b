#!/usr/bin/env python3
"""Checks the search on generated formulas. It is not part of the gate.

    tools/check-search.py [--seed N] [--folder FOLDER]

A hundred random formulas of clauses of three variables, 10 to 60 variables with 4.3 clauses each, and pigeons in holes up
to 4 in 3. It makes a copy of the crates and a driver program in FOLDER (a fresh one if none is given) and builds it by
`rt run`. Of each formula it checks the values here, the steps by `rvf lrat`, and the verdict by CaDiCaL (Debian's package
`cadical`), and prints how many there were, with the longest time and the most steps.
"""

import argparse
import os
import random
import shutil
import subprocess
import sys
import tempfile
import time

HERE = os.path.dirname(os.path.abspath(__file__))
TOP = os.path.join(HERE, "..")
CRATES = ["fv_text", "fv_lines", "cnf_form", "cnf_text", "lrat_check", "sat_trail", "sat_search",
          "sat_propagate", "sat_learn", "sat_quick"]
BUDGET = 200000

# The first line of a clause file whose verdict alone is wanted.
VERDICT_ALONE = "c verdict alone\n"

DRIVER = r"""//! Solves the clause file on the input: the verdict, then the values or the steps, if these are wanted.
#![tactic(auto)]

use cnf_text::{DimacsFault, read_dimacs};
use lrat_check::lrat;
use sat_search::{Found, solve};
use std::alloc::Global;
use std::io::{self, Read, Write};

fn answer(alloc: Global, bytes: &[u8]) -> Result<Vec<u8>, DimacsFault> {
    let formula = read_dimacs(alloc, bytes)?;
    let is_short = bytes.starts_with(b"c verdict alone");
    let mut out = Vec::new(alloc);
    match solve(alloc, &formula, BUDGET)? {
        Found::Model(values) => {
            out.extend_from_slice(b"model\n")?;
            for value in values.as_slice() {
                out.push(if *value { b'1' } else { b'0' })?;
                out.push(b'\n')?;
            }
        }
        Found::Refuted(steps) => {
            out.extend_from_slice(b"refuted\n")?;
            if !is_short {
                let text = lrat(alloc, steps.as_slice())?;
                out.extend_from_slice(text.as_slice())?;
            }
        }
        Found::Spent(_steps) => out.extend_from_slice(b"spent\n")?,
    }
    Ok(out)
}

fn main(rt: HostRuntime) -> io::Result<()> {
    let alloc = rt.alloc();
    let mut bytes = Vec::new(alloc);
    rt.reader().read_to_end(&mut bytes)?;
    let text = match answer(alloc, bytes.as_slice()) {
        Ok(text) => text,
        Err(_fault) => Vec::from_slice(alloc, b"unread or no memory\n")?,
    };
    io::writer(&rt).write_all(text.as_slice())?;
    Ok(())
}
"""


def driver_of(folder):
    """Builds the driver, and answers the program's path."""
    crates = os.path.join(folder, "crates")
    program = os.path.join(crates, "driver", "out", "driver")
    if os.path.exists(program):
        return program
    os.makedirs(os.path.join(crates, "driver", "src"))
    lines = []
    for line in open(os.path.join(TOP, "crates.txt")):
        name = line.split(":")[0]
        if name in CRATES:
            lines.append(line)
            shutil.copytree(os.path.join(TOP, "crates", name), os.path.join(crates, name),
                            ignore=shutil.ignore_patterns("out", "must-fail"))
    lines.append("driver: " + " ".join(CRATES) + "\n")
    with open(os.path.join(folder, "crates.txt"), "w") as out:
        out.writelines(lines)
    with open(os.path.join(crates, "driver", "src", "main.rt"), "w") as out:
        out.write(DRIVER.replace("BUDGET", str(BUDGET)))
    subprocess.run(["rt", "run"], cwd=os.path.join(crates, "driver"), stdin=subprocess.DEVNULL, check=True,
                   stdout=subprocess.DEVNULL)
    return program


def random_formula(rng, variables):
    clauses = []
    for _ in range(round(4.3 * variables)):
        names = rng.sample(range(1, variables + 1), 3)
        clauses.append([name if rng.random() < 0.5 else -name for name in names])
    return variables, clauses


def pigeons(many, holes):
    """So many pigeons, each in a hole, no two in one."""
    var = lambda pigeon, hole: pigeon * holes + hole + 1
    clauses = [[var(p, h) for h in range(holes)] for p in range(many)]
    clauses += [[-var(p, h), -var(q, h)] for h in range(holes) for p in range(many) for q in range(p)]
    return many * holes, clauses


def text_of(variables, clauses):
    lines = ["p cnf %d %d" % (variables, len(clauses))]
    return "\n".join(lines + [" ".join(map(str, clause + [0])) for clause in clauses]) + "\n"


def is_satisfiable(text):
    code = subprocess.run(["cadical", "-q"], input=text.encode(), stdout=subprocess.DEVNULL).returncode
    return {10: True, 20: False}[code]


def main():
    options = argparse.ArgumentParser()
    options.add_argument("--seed", type=int, default=1)
    options.add_argument("--folder")
    options = options.parse_args()
    folder = options.folder or tempfile.mkdtemp()
    program = driver_of(folder)
    rng = random.Random(options.seed)
    formulas = [random_formula(rng, 10 + 50 * k // 99) for k in range(100)]
    formulas += [pigeons(2, 1), pigeons(3, 2), pigeons(4, 3)]
    models, refuted, longest, most = 0, 0, 0.0, 0
    for variables, clauses in formulas:
        text = text_of(variables, clauses)
        start = time.time()
        words = subprocess.run([program], input=text.encode(), stdout=subprocess.PIPE, check=True).stdout.decode()
        longest = max(longest, time.time() - start)
        verdict, _, rest = words.partition("\n")
        if verdict == "model":
            models += 1
            values = [digit == "1" for digit in rest.split()]
            holds = len(values) == variables and all(
                any(values[abs(lit) - 1] == (lit > 0) for lit in clause) for clause in clauses)
            if not holds or not is_satisfiable(text):
                sys.exit("wrong values of\n" + text)
        elif verdict == "refuted":
            refuted += 1
            most = max(most, rest.count("\n"))
            files = [os.path.join(folder, name) for name in ("f.cnf", "f.lrat")]
            for name, content in zip(files, (text, rest)):
                with open(name, "w") as out:
                    out.write(content)
            line = subprocess.run([os.path.join(TOP, "rvf"), "lrat"] + files, stdout=subprocess.PIPE).stdout.decode()
            if not line.startswith("refuted ") or is_satisfiable(text):
                sys.exit("wrong steps of\n" + text)
        else:
            sys.exit(verdict + " of\n" + text)
    print("%d models hold, %d refutations are accepted, all as CaDiCaL says; at most %.2f s and %d steps"
          % (models, refuted, longest, most))
    if not options.folder:
        shutil.rmtree(folder)


if __name__ == "__main__":
    main()
