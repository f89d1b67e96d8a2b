"""Asks this repository what designs are, for the scripts that compare: a program over `vl_elab`, `vl_flow`, `vl_lower`
and `tr_replay` that reads a number and a Verilog text a line, whose top module is `top`, and prints the design's names
and a run in which what is free is chosen at random, by the number, or is 0 where that is 0. `rt try` builds and runs
it, over the sources and with no proof."""
import re
import subprocess

import made
import program_cases

LIBRARIES = "vl_lower tr_replay vl_lower_spec vl_elab vl_elab_spec vl_flow vl_flow_spec vl_mean vl_size " \
    "vl_parse vl_token vl_tree wn_run wn_net fv_text anyhow"

DRIVER = r"""//! Reads a number and a Verilog text a line, and prints the names of its design and a run.
#![tactic(auto)]

use anyhow::Result;
use fv_text::{List, Memory, Text, Trace};
use std::alloc::Global;
use tr_replay::{Chosen, replay};
use vl_elab::elaborate;
use vl_flow::order;
use vl_lower::lower;
use vl_mean::Flat;
use vl_flow::Ordered;
use vl_parse::parse;
use vl_size::Class;
use vl_token::lex;
use wn_net::Net;

/// A number of that width that looks random.
fn mixed(seed: u64, index: u64, width: u32) -> u128 {
    let mut state = seed.wrapping_mul(0x9e3779b97f4a7c15).wrapping_add(index.wrapping_mul(0xd1342543de82ef95));
    let mut out: u128 = 0;
    for _ in 0..2u32 {
        state = state.wrapping_add(0x9e3779b97f4a7c15);
        let mut word = state;
        word = (word ^ (word >> 30)).wrapping_mul(0xbf58476d1ce4e5b9);
        word = (word ^ (word >> 27)).wrapping_mul(0x94d049bb133111eb);
        word = word ^ (word >> 31);
        out = (out << 64) | (word as u128);
    }
    if width >= 128 { out } else { out & ((1u128 << width) - 1) }
}

fn words_of(alloc: Global, net: &Net, seed: u64) -> Result<List<List<u128>>, Memory> {
    let mut all = List::new(alloc);
    for mem in net.mems() {
        let mut row = List::new(alloc);
        for index in 0..mem.words {
            row.push(mixed(seed + 1000, index as u64, mem.width))?;
        }
        all.push(row)?;
    }
    Ok(all)
}

/// What is free, chosen at random, or 0 where the seed is 0.
fn chosen(alloc: Global, net: &Net, seed: u64) -> Result<Chosen, Memory> {
    let mut made = Chosen {
        each_cycle: List::new(alloc),
        once: List::new(alloc),
        regs: List::new(alloc),
        words: List::new(alloc),
    };
    if seed == 0 {
        return Ok(made);
    }
    for cycle in 0..CYCLESu64 {
        let mut row = List::new(alloc);
        for (index, input) in net.inputs().iter().enumerate() {
            row.push(mixed(seed + cycle, index as u64, input.width))?;
        }
        made.each_cycle.push(row)?;
    }
    for (index, input) in net.inputs().iter().enumerate() {
        made.once.push(mixed(seed + 500, index as u64, input.width))?;
    }
    for (index, reg) in net.regs().iter().enumerate() {
        made.regs.push(mixed(seed + 700, index as u64, reg.width))?;
    }
    made.words = words_of(alloc, net, seed)?;
    Ok(made)
}

fn string(alloc: Global, text: &Text) -> Result<String> {
    let mut out = String::new(alloc);
    for byte in text.bytes() {
        out.push(char::from(*byte))?;
    }
    Ok(out)
}

fn class_of(class: &Class) -> &'static str {
    match class {
        Class::Input => "input",
        Class::Reset => "reset",
        Class::Clock => "clock",
        Class::EachCycle => "anyseq",
        Class::Once => "anyconst",
        Class::Net => "net",
        Class::Variable => "variable",
    }
}

/// A line for each name: its class, width, bounds and words, or `-`.
fn put_names<R: Print>(rt: &R, alloc: Global, flat: &Flat) -> Result<()> {
    for index in 0..flat.decls.len() {
        if let Some(decl) = flat.decls.get(index) {
            let name = string(alloc, &decl.name)?;
            let class = class_of(&decl.class);
            let width = decl.width;
            let left = decl.left;
            let right = decl.right;
            match decl.words {
                None => println!(rt; "name {name} {class} {width} {left} {right} -")?,
                Some(words) => {
                    let first = words.0;
                    let last = words.1;
                    println!(rt; "name {name} {class} {width} {left} {right} {first}:{last}")?
                }
            }
        }
    }
    Ok(())
}

/// The cycles up to the one from which a name keeps its value.
fn changes_before(trace: &Trace, at: usize) -> usize {
    let mut before = None;
    let mut cycles = 0;
    for (cycle, row) in trace.cycles.as_slice().iter().enumerate() {
        let value = row.as_slice().get(at).copied();
        if value != before {
            cycles = cycle + 1;
        }
        before = value;
    }
    cycles
}

/// A line for each name that has registers, and one for each name with what it has in each cycle, up to the one from
/// which it keeps that: `rt try` takes a million bytes at most.
fn put_run<R: Print>(rt: &R, alloc: Global, ordered: &Ordered, seed: u64) -> Result<()> {
    let lowered = lower(alloc, ordered)?;
    let choice = chosen(alloc, &lowered.net, seed)?;
    let trace = replay(alloc, &lowered.net, &lowered.names, &choice, CYCLESu32 - 1)?;
    for spot in lowered.names.regs.as_slice() {
        if let Some(name) = lowered.names.list.as_slice().get(spot.name as usize) {
            let text = string(alloc, &name.text)?;
            println!(rt; "register {text}")?;
        }
    }
    for (at, name) in trace.names.as_slice().iter().enumerate() {
        let mut line = String::new(alloc);
        for row in trace.cycles.as_slice().iter().take(changes_before(&trace, at)) {
            if let Some(value) = row.as_slice().get(at) {
                let value = *value;
                line.push_str(format!(in alloc; " {value}")?.as_str())?;
            }
        }
        let text = string(alloc, &name.text)?;
        println!(rt; "trace {text}{line}")?;
    }
    Ok(())
}

fn put<R: Print>(rt: &R, alloc: Global, text: &str, seed: u64) -> Result<()> {
    let Ok(tokens) = lex(alloc, text.as_bytes(), 1, 1) else {
        println!(rt; "refused lex")?;
        return Ok(());
    };
    let Ok(source) = parse(alloc, tokens.as_slice()) else {
        println!(rt; "refused parse")?;
        return Ok(());
    };
    let top = Text::from_bytes(alloc, b"top")?;
    match elaborate(alloc, source.modules.as_slice(), &top) {
        Err(_reason) => println!(rt; "refused elab")?,
        Ok(flat) => {
            put_names(rt, alloc, &flat)?;
            match order(alloc, flat) {
                Err(_fault) => println!(rt; "refused flow")?,
                Ok(ordered) => put_run(rt, alloc, &ordered, seed)?,
            }
        }
    }
    Ok(())
}

fn main(rt: HostRuntime) -> Result<()> {
    let alloc = rt.alloc();
    for line in rt.lines(alloc) {
        let line = line?;
        let (seed, text) = line.as_str().split_once(' ').unwrap_or(("0", ""));
        println!(rt; "design")?;
        put(&rt, alloc, text, seed.parse::<u64>().unwrap_or(0).wrapping_mul(10000))?;
    }
    Ok(())
}
"""


class Name:
    """A declared name of a flat design: its class, width, bounds, and the bounds of its words, if it is a memory."""

    def __init__(self, words):
        self.text, self.kind = words[0], words[1]
        self.width, self.left, self.right = (int(word) for word in words[2:5])
        self.words = None if words[5] == "-" else tuple(int(word) for word in words[5].split(":"))


class Design:
    """What the program says of a text: why it is refused, or names, those that have registers, and values in cycles."""

    def __init__(self):
        self.refused, self.names, self.registers, self.values = None, [], set(), {}


def read(said, cycles):
    """Returns the designs that the program printed, with their values in so many cycles."""
    found = []
    for line in said.splitlines():
        word, *rest = line.split(" ")
        if word == "design":
            found.append(Design())
        elif word == "name":
            found[-1].names.append(Name(rest))
        elif word == "register":
            found[-1].registers.add(rest[0])
        elif word == "trace":
            changes = [int(value) for value in rest[1:]]
            found[-1].values[rest[0]] = changes + changes[-1:] * (cycles - len(changes))
        elif word == "refused":
            found[-1].refused = rest[0]
    return found


def designs(runs, cycles=10):
    """Returns what the repository says of texts, each of one line and with a number, in so many cycles."""
    driver = DRIVER.replace("CYCLES", str(cycles))
    with made.crate("designs", driver, LIBRARIES.split()) as own:
        done = subprocess.run(["rt", "try", "--steps", "1000"], cwd=own, capture_output=True, text=True,
                              input="".join(f"{seed} {text}\n" for text, seed in runs))
        if done.returncode:
            raise SystemExit(done.stdout[-2000:] + done.stderr[-4000:])
    return read(done.stdout, cycles)


def cases(program, kind):
    """Returns the texts of a program's cases of a kind, and the answers, in order."""
    lines, answers = (program_cases.lines_by_kind(program, file)[kind] for file in ("stdin", "stdout"))
    texts = [line for line in lines if line and not line.startswith("#")]
    return list(zip(texts, answers, strict=True))


def line_of(text):
    """The text in one line, without comments."""
    return " ".join(re.sub(r"//[^\n]*|/\*.*?\*/", " ", text, flags=re.S).split())


def text_of(name):
    """The text of a file in one line, without comments."""
    with open(name) as file:
        return line_of(file.read())


def combinational(text):
    """The text with `always_comb` for `always @*`, which begins without a change of what it reads."""
    return re.sub(r"always\s*@\s*(\*|\(\s*\*\s*\))", "always_comb", text)
