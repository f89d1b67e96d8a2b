#!/usr/bin/env python3
"""Compares the bits of nodes with the nodes' own values, by a program that evaluates both on numbers that it makes.
Not part of the gate.

Usage: tools/compare-bits.py [ROUNDS]
       For each width ROUNDS nets (3 where left out) of all kinds of nodes over random constants, each on 100 random
       choices of numbers. Prints nodes, gates and values of each width, and the kinds of nodes with a value that isn't
       the one of their bits; ends with status 1 where there are any.
"""
import random
import re
import sys

import made

PROGRAM = """//! Compares the bits of nodes with the values of the nodes.
#![tactic(auto)]

use bb_aig::{Aig, Lit};
use bb_blast::{Blasted, blast};
use fv_text::{List, Word};
use std::alloc::Global;
use std::test::Fail;
use wn_net::{InputKind, Net, NodeId, State};

const CHOICES: u32 = 100;

/// Numbers that look random.
#[derive(Drop)]
struct Numbers {
    state: u64,
}

impl Numbers {
    fn next(&mut self) -> u64 {
        self.state = self.state.wrapping_add(0x9e37_79b9_7f4a_7c15);
        let mixed = (self.state ^ self.state >> 30).wrapping_mul(0xbf58_476d_1ce4_e5b9);
        let mixed = (mixed ^ mixed >> 27).wrapping_mul(0x94d0_49bb_1331_11eb);
        mixed ^ mixed >> 31
    }

    fn below(&mut self, bound: u32) -> u32 {
        (self.next() % bound as u64) as u32
    }

    /// A number of a width: any, a small one, one near the largest, or one bit.
    fn word(&mut self, width: u32) -> u128 {
        let most = u128::MAX >> (128 - width);
        let any = (self.next() as u128) << 64 | self.next() as u128;
        match self.next() % 8 {
            0 => any % 4 & most,
            1 => most - (any % 4 & most),
            2 => 1 << any % width as u128,
            3 => any % 256 & most,
            _ => any & most,
        }
    }
}

/// A net with its inputs: two words of the width, a word that shifts, and one bit.
#[derive(Drop)]
struct Made {
    net: Net,
    widths: Vec<u32>,
}

fn word(net: &mut Net, width: u32, value: u128) -> Result<NodeId, Fail> {
    let word = Word::new(width, value).ok_or("no word")?;
    Ok(net.konst(word)?)
}

fn with_inputs(alloc: Global, width: u32) -> Result<Made, Fail> {
    let mut net = Net::new(alloc);
    let mut widths = Vec::new(alloc);
    for width in [width, width, 8, 1] {
        net.input(width, InputKind::EachCycle)?;
        widths.push(width)?;
    }
    Ok(Made { net, widths })
}

/// Adds a node for each operator on two nodes of one width.
fn add_pairs(net: &mut Net, a: NodeId, b: NodeId) -> Result<(), Fail> {
    net.and(a, b)?;
    net.or(a, b)?;
    net.xor(a, b)?;
    net.add(a, b)?;
    net.sub(a, b)?;
    net.eq(a, b)?;
    net.ult(a, b)?;
    net.slt(a, b)?;
    net.mux(3, a, b)?;
    add_shifts(net, a, b)
}

fn add_shifts(net: &mut Net, a: NodeId, by: NodeId) -> Result<(), Fail> {
    net.shl(a, by)?;
    net.lshr(a, by)?;
    net.ashr(a, by)?;
    Ok(())
}

/// Adds the nodes that take a word apart or make it wider.
fn add_ends(net: &mut Net, a: NodeId, low: u32, width: u32) -> Result<(), Fail> {
    net.not(a)?;
    net.slice(a, low, width)?;
    let whole = net.width(a);
    for wider in [whole, (whole + 1).min(128), 128] {
        net.zext(a, wider)?;
        net.sext(a, wider)?;
    }
    for other in [0, 3] {
        if whole + net.width(other) <= 128 {
            net.concat(a, other)?;
            net.concat(other, a)?;
        }
    }
    Ok(())
}

fn add_nodes(net: &mut Net, numbers: &mut Numbers) -> Result<(), Fail> {
    let width = net.width(0);
    let konst = word(net, width, numbers.word(width))?;
    let amount = word(net, 8, numbers.next() as u128 % (width as u128 + 2))?;
    let turned = net.not(0)?;
    for (a, b) in [(0, 1), (0, konst), (konst, 1), (0, 0), (0, turned), (konst, konst)] {
        add_pairs(net, a, b)?;
    }
    for (a, b) in [(0, 1), (konst, 1), (0, 0)] {
        net.mul(a, b)?;
    }
    for by in [2, 3, amount] {
        add_shifts(net, 0, by)?;
    }
    let low = numbers.below(width);
    add_ends(net, 0, low, 1 + numbers.below(width - low))?;
    add_ends(net, konst, low, width - low)?;
    add_ends(net, 0, 0, width)
}

/// The bits of the sources, one for each input of the graph.
fn bits(alloc: Global, blasted: &Blasted, sources: &[u128]) -> Result<Vec<bool>, Fail> {
    let mut bits = Vec::new(alloc);
    for placed in blasted.places.as_slice() {
        bits.push(sources[placed.source as usize] >> placed.bit & 1 == 1)?;
    }
    Ok(bits)
}

fn number(values: &[bool], lits: &[Lit]) -> u128 {
    let mut number = 0u128;
    for (bit, lit) in lits.iter().enumerate() {
        if values[(*lit / 2) as usize] != (*lit % 2 == 1) {
            number |= 1 << bit;
        }
    }
    number
}

/// How many nodes and gates there were, how many values were compared, and how many are others.
#[derive(Clone, Copy)]
struct Counts {
    nodes: usize,
    gates: usize,
    compared: u64,
    others: u64,
}

fn compare(
    rt: &HostRuntime,
    net: &Net,
    blasted: &Blasted,
    sources: &[u128],
    root: NodeId,
    counts: &mut Counts,
) -> Result<(), Fail> {
    let alloc = rt.alloc();
    let state = State { regs: List::new(alloc), mems: List::new(alloc) };
    let mut of_nodes = vec![in alloc; 0u128; net.nodes().len()]?;
    net.eval(sources, &state, of_nodes.as_mut_slice());
    let mut of_gates = vec![in alloc; false; blasted.graph.len()]?;
    blasted.graph.eval(bits(alloc, blasted, sources)?.as_slice(), of_gates.as_mut_slice());
    for (id, lits) in blasted.watch.as_slice().iter().enumerate() {
        let found = number(of_gates.as_slice(), lits.as_slice());
        counts.compared += 1;
        if found != of_nodes[id] || lits.len() != net.width(id as u64) as usize {
            counts.others += 1;
            println!(rt; "other {:?} of {sources:?}: {found} and not {}", net.nodes()[id], of_nodes[id])?;
        }
    }
    let holds = number(of_gates.as_slice(), &[blasted.root]) == 1;
    if holds != (of_nodes[root as usize] != 0) {
        counts.others += 1;
        println!(rt; "other root of {sources:?}")?;
    }
    Ok(())
}

/// Compares the nodes of one net, and adds to the counts.
fn compare_net(rt: &HostRuntime, width: u32, numbers: &mut Numbers, counts: &mut Counts) -> Result<(), Fail> {
    let alloc = rt.alloc();
    let mut made = with_inputs(alloc, width)?;
    add_nodes(&mut made.net, numbers)?;
    let net = &made.net;
    let mut watch = Vec::new(alloc);
    for id in 0..net.nodes().len() {
        watch.push(id as u64)?;
    }
    let root = numbers.next() % net.nodes().len() as u64;
    let blasted = blast(alloc, made.widths.as_slice(), net.nodes(), &[root], watch.as_slice())?;
    counts.nodes += net.nodes().len();
    counts.gates += blasted.graph.len() - 1 - blasted.places.len();
    for _ in 0..CHOICES {
        let a = numbers.word(width);
        let b = if numbers.below(4) == 0 { a } else { numbers.word(width) };
        let by = if numbers.below(4) == 0 { numbers.word(8) } else { numbers.below(width + 2) as u128 };
        let sources = [a, b, by, numbers.word(1)];
        compare(rt, net, &blasted, &sources, root, counts)?;
    }
    Ok(())
}

fn main(rt: HostRuntime) -> Result<(), Fail> {
    let mut numbers = Numbers { state: SEED };
    for width in [1u32, 2, 7, 32, 64, 128] {
        let mut counts = Counts { nodes: 0, gates: 0, compared: 0, others: 0 };
        for _ in 0..ROUNDS {
            compare_net(&rt, width, &mut numbers, &mut counts)?;
        }
        let Counts { nodes, gates, compared, others } = counts;
        println!(rt; "width {width}: {nodes} nodes, {gates} gates, {compared} values, {others} others")?;
    }
    Ok(())
}
"""


def main():
    rounds = sys.argv[1] if len(sys.argv) > 1 else "3"
    text = PROGRAM.replace("ROUNDS", rounds).replace("SEED", str(random.getrandbits(32)))
    # few steps for the slow reading of the program, which comes first
    flags = ["--steps", "1000", "--seconds", "900"]
    said = made.tried("compare_bits", text, ["bb_blast", "bb_aig", "wn_net", "fv_text"], flags)
    others = [line for line in said.splitlines() if line.startswith("other ")]
    for line in others[:5]:
        print(line)
    kinds = sorted({re.match(r"other (\w+)", line)[1] for line in others})
    print("".join(f"{line}\n" for line in said.splitlines() if line.startswith("width ")), end="")
    print(f"kinds with others: {' '.join(kinds)}" if kinds else "no value is another one")
    sys.exit(bool(kinds))


main()
