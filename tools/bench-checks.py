#!/usr/bin/env python3
"""Times checks of a core part by part, over a program that is made and compiled, without proofs, in a temporary folder.
Not part of the gate.

    tools/bench-checks.py [--program PATH] [--keep PATH] [--gates] [--runs N] CFG CHECK FILE.v ..

CFG is a configuration whose own files aren't read; the lines of its `[defines]` stand before the FILEs. Prints for each
part what was made of it and its processor seconds, which are those of a run that ends behind it less those of a run
that ends before it, and the memory of that run. The fastest of N runs counts, of five where nothing is said. Where CHECK is
`all`, each check of CFG has a line, without its texts, and behind them stand the sums. --gates takes the clauses of gates in
place of those of cuts. --keep leaves the program at PATH, --program takes one that was left.
"""
import argparse
import contextlib
import os
import re
import shutil
import subprocess
import sys

import made

LIBRARIES = "vl_text vl_elab vl_flow vl_lower vl_prep vl_mean vl_tree rvfi_port rv_table ck_cfg ck_gen " \
    "bm_unroll bb_cuts bb_clauses bb_blast bb_aig cnf_text cnf_form " \
    "lrat_check sat_search wn_net fv_text anyhow"

PROGRAM = r"""//! Reads a letter, the name of a check and `gates` or `cuts`, a configuration up to a line `.`, and a Verilog text, and
//! goes as far with the check as the letter says, by clauses of these. Says what was made. `n` says the names of the
//! checks.
#![tactic(auto)]

use anyhow::Result;
use bb_blast::{Blasted, blast};
use bb_clauses::clauses_of;
use bb_cuts::clauses_of_nodes;
use bm_unroll::{Frames, unroll};
use ck_cfg::{Check, Config, checks, read_cfg};
use ck_gen::monitor;
use cnf_form::Formula;
use cnf_text::dimacs;
use fv_text::{List, Text};
use lrat_check::{Step, lrat};
use rv_table::Opts;
use vl_text::{Core, Retirements, SourceText, read_source};
use rvfi_port::{Channel, Port, Wants, bind};
use sat_search::{Found, solve};
use std::alloc::Global;
use vl_elab::elaborate;
use vl_flow::order;
use vl_lower::{Lowered, lower};
use vl_prep::Macros;
use vl_tree::Source;
use wn_net::{Net, NodeId};

const BUDGET: u64 = 1_000_000;

/// What is asked: how far, and of which check.
#[derive(Clone, Copy)]
struct Asked<'a> {
    stage: u8,
    name: &'a str,
    gates: bool,
}

fn nodes_of(c: &Channel) -> [NodeId; 19] {
    [
        c.valid, c.order, c.insn, c.trap, c.halt, c.intr, c.rs1_addr, c.rs2_addr, c.rs1_rdata, c.rs2_rdata, c.rd_addr,
        c.rd_wdata, c.pc_rdata, c.pc_wdata, c.mem_addr, c.mem_rmask, c.mem_wmask, c.mem_rdata, c.mem_wdata,
    ]
}

fn texts(alloc: Global, formula: &Formula, steps: &List<Step>) -> Result<String> {
    let first = dimacs(alloc, formula, &[])?.len();
    let second = lrat(alloc, steps.as_slice())?.len();
    Ok(format!(in alloc; "{first} and {second} bytes")?)
}

fn added(steps: &List<Step>) -> u64 {
    let mut count: u64 = 0;
    for step in steps.as_slice() {
        if let Step::Add { .. } = step {
            count = count.wrapping_add(1);
        }
    }
    count
}

fn searched(alloc: Global, asked: Asked<'_>, formula: &Formula) -> Result<String> {
    match solve(alloc, formula, BUDGET)? {
        Found::Model(_values) => Ok(String::from_str(alloc, "a model")?),
        Found::Refuted(steps) => {
            if asked.stage == b't' {
                return texts(alloc, formula, &steps);
            }
            let learnt = added(&steps);
            Ok(format!(in alloc; "refuted, {learnt} clauses learnt")?)
        }
        Found::Spent(_steps) => Ok(String::from_str(alloc, "no budget")?),
    }
}

fn blasted(alloc: Global, frames: &Frames) -> Result<Blasted> {
    Ok(blast(alloc, frames.widths.as_slice(), frames.nodes.as_slice(), frames.roots.as_slice(),
        frames.watch.as_slice())?)
}

fn of_gates(alloc: Global, frames: &Frames) -> Result<Formula> {
    let made = blasted(alloc, frames)?;
    Ok(clauses_of(alloc, &made.graph, made.root)?)
}

fn of_cuts(alloc: Global, frames: &Frames) -> Result<Formula> {
    let made = clauses_of_nodes(alloc, frames.widths.as_slice(), frames.nodes.as_slice(), frames.roots.as_slice(),
        frames.watch.as_slice())?;
    Ok(made.formula)
}

fn listed(alloc: Global, config: &Config) -> Result<String> {
    let mut names = String::new(alloc);
    for check in checks(alloc, config)?.as_slice() {
        for byte in check.name.bytes() {
            names.push(char::from(*byte))?;
        }
        names.push(' ')?;
    }
    Ok(names)
}

fn judged(alloc: Global, asked: Asked<'_>, net: &Net, port: &Port, check: &Check, opts: Opts) -> Result<String> {
    let mut watched = net.copy()?;
    let bad = monitor(alloc, &mut watched, port, check, opts)?;
    if asked.stage == b'm' {
        let nodes = watched.nodes().len();
        return Ok(format!(in alloc; "{nodes} nodes")?);
    }
    let fields = nodes_of(&port.channels.as_slice()[0]);
    let frames = unroll(alloc, &watched, bad, &fields, check.cycle)?;
    if asked.stage == b'u' {
        let nodes = frames.nodes.len();
        let sources = frames.sources.len();
        return Ok(format!(in alloc; "{nodes} nodes, {sources} sources")?);
    }
    if asked.stage == b'b' {
        let gates = blasted(alloc, &frames)?.graph.len();
        return Ok(format!(in alloc; "{gates} nodes of bits")?);
    }
    let formula = if asked.gates { of_gates(alloc, &frames)? } else { of_cuts(alloc, &frames)? };
    if asked.stage == b'k' {
        let variables = formula.vars();
        let clauses = formula.len();
        return Ok(format!(in alloc; "{variables} variables, {clauses} clauses")?);
    }
    searched(alloc, asked, &formula)
}

fn netted(alloc: Global, asked: Asked<'_>, config: &Config, tree: &Source, macros: &Macros) -> Result<String> {
    let top = Text::from_bytes(alloc, b"rvfi_wrapper")?;
    let Ok(flat) = elaborate(alloc, tree.modules.as_slice(), &top) else {
        return Ok(String::from_str(alloc, "no design")?);
    };
    if asked.stage == b'e' {
        let names = flat.decls.len();
        return Ok(format!(in alloc; "{names} names")?);
    }
    let Ok(ordered) = order(alloc, flat) else {
        return Ok(String::from_str(alloc, "no order")?);
    };
    if asked.stage == b'o' {
        let weight = ordered.weight;
        return Ok(format!(in alloc; "weight {weight}")?);
    }
    let Lowered { mut net, names } = lower(alloc, &ordered)?;
    let aligned = macros.has("RISCV_FORMAL_ALIGNED_MEM");
    let wants = Wants { imem: false, dmem: false, aligned };
    let Ok(port) = bind(alloc, &mut net, &names, 1, wants) else {
        return Ok(String::from_str(alloc, "no port")?);
    };
    if asked.stage == b'l' {
        let nodes = net.nodes().len();
        return Ok(format!(in alloc; "{nodes} nodes")?);
    }
    let opts = Opts { aligned, altops: macros.has("RISCV_FORMAL_ALTOPS"), c: config.isa.c };
    let all = checks(alloc, config)?;
    for check in all.as_slice() {
        if check.name.bytes() == asked.name.as_bytes() {
            return judged(alloc, asked, &net, &port, check, opts);
        }
    }
    Ok(String::from_str(alloc, "no check")?)
}

fn answer(alloc: Global, asked: Asked<'_>, cfg: &[u8], text: &[u8]) -> Result<String> {
    let Ok(config) = read_cfg(alloc, cfg) else {
        return Ok(String::from_str(alloc, "no configuration")?);
    };
    if asked.stage == b'c' {
        return Ok(String::from_str(alloc, "")?);
    }
    if asked.stage == b'n' {
        return listed(alloc, &config);
    }
    let core = Core { compressed: config.isa.c, retirements: Retirements::One };
    let texts = [SourceText { file: 1, line: 1, bytes: text }];
    let Ok((tree, macros)) = read_source(alloc, core, &texts, &[]) else {
        return Ok(String::from_str(alloc, "no tree")?);
    };
    if asked.stage == b'r' {
        let modules = tree.modules.len();
        return Ok(format!(in alloc; "{modules} modules")?);
    }
    netted(alloc, asked, &config, &tree, &macros)
}

fn main(rt: HostRuntime) -> Result<()> {
    let alloc = rt.alloc();
    let mut first = String::new(alloc);
    let mut cfg = String::new(alloc);
    let mut text = String::new(alloc);
    let mut part: u32 = 0;
    for line in rt.lines(alloc) {
        let line = line?;
        if part == 0 {
            first.push_str(line.as_str())?;
            part = 1;
        } else if part == 1 && line.as_str() == "." {
            part = 2;
        } else if part == 1 {
            cfg.push_str(line.as_str())?;
            cfg.push('\n')?;
        } else {
            text.push_str(line.as_str())?;
            text.push('\n')?;
        }
    }
    let mut words = first.as_str().split_whitespace();
    let mut stage = b'c';
    for byte in words.next().unwrap_or("c").as_bytes() {
        stage = *byte;
    }
    let name = words.next().unwrap_or("");
    let gates = words.next().unwrap_or("cuts") == "gates";
    let said = answer(alloc, Asked { stage, name, gates }, cfg.as_bytes(), text.as_bytes())?;
    println!(rt; "{said}")?;
    Ok(())
}
"""

PARTS = [("r", "reading"), ("e", "elaborating"), ("o", "ordering"), ("l", "lowering"), ("m", "monitor"),
         ("u", "unrolling"), ("b", "bits"), ("k", "clauses, with the bits"), ("s", "search"), ("t", "texts")]


def defines(cfg):
    """The lines of `[defines]`."""
    lines, inside = [], False
    for line in cfg.splitlines():
        if line.strip().startswith("["):
            inside = line.strip() == "[defines]"
        elif inside:
            lines.append(line)
    return "".join(line + "\n" for line in lines)


def run(program, text):
    """Returns what the program says, its processor seconds, and its memory in megabytes."""
    process = subprocess.Popen([program], stdin=subprocess.PIPE, stdout=subprocess.PIPE)
    process.stdin.write(text.encode())
    process.stdin.close()
    said = process.stdout.read().decode().strip()
    usage = os.wait4(process.pid, 0)[2]
    return said, usage.ru_utime + usage.ru_stime, usage.ru_maxrss // 1024


def fastest(program, text, runs):
    return min((run(program, text) for _ in range(runs)), key=lambda found: found[1])


def one(program, asked, runs):
    """Prints the parts of one check. Bits are made within the clauses, so their own run is in no other part."""
    _, before, _ = fastest(program, "c" + asked, runs)
    start, total, earlier = before, 0.0, before
    for letter, part in PARTS:
        said, seconds, memory = fastest(program, letter + asked, runs)
        if letter == "b":
            earlier = before
        if letter == "k":
            before = earlier
        print(f"{part}: {said}; {seconds - before:.3f} s, {memory} MB", flush=True)
        before, total = seconds, seconds - start
    print(f"together {total:.3f} s", flush=True)


def each(program, rest, runs):
    """Prints a line for each check, and the sums: variables, clauses, learnt clauses, seconds of clauses and search."""
    sums = [0, 0, 0, 0.0, 0.0]
    for name in run(program, f"n x{rest}")[0].split():
        asked = f" {name}{rest}"
        _, framed, _ = fastest(program, "u" + asked, runs)
        told, made_at, _ = fastest(program, "k" + asked, runs)
        said, found, memory = fastest(program, "s" + asked, runs)
        variables, clauses = (int(number) for number in re.findall(r"[0-9]+", told))
        learnt = int((re.findall(r"[0-9]+", said) or ["0"])[0])
        row = [variables, clauses, learnt, made_at - framed, found - made_at]
        sums = [sum(pair) for pair in zip(sums, row)]
        print(f"{name}: {told}; {said}; {row[3]:.3f} and {row[4]:.3f} s, {memory} MB", flush=True)
    print(f"all: {sums[0]} variables, {sums[1]} clauses, {sums[2]} learnt, {sums[3]:.2f} and {sums[4]:.2f} s")


def main():
    options = argparse.ArgumentParser()
    options.add_argument("--program")
    options.add_argument("--keep")
    options.add_argument("--gates", action="store_true")
    options.add_argument("--runs", type=int, default=5)
    options.add_argument("cfg")
    options.add_argument("check")
    options.add_argument("files", nargs="+")
    options = options.parse_args()
    cfg = open(options.cfg).read()
    text = defines(cfg) + "".join(open(name).read() for name in options.files)
    built = contextlib.nullcontext(options.program) if options.program else \
        made.unproved("checks", PROGRAM, LIBRARIES.split())
    with built as program:
        if options.keep:
            shutil.copy(program, options.keep)
        rest = f" {'gates' if options.gates else 'cuts'}\n{cfg}\n.\n{text}"
        if options.check == "all":
            each(program, rest, options.runs)
        else:
            one(program, f" {options.check}{rest}", options.runs)


if __name__ == "__main__":
    sys.exit(main())
