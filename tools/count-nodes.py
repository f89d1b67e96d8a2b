#!/usr/bin/env python3
"""Counts the nodes that one read, one write under a mask and one write of all bits of a memory add, and how deep they are, by
a program that builds each and prints the nodes that it has then. Not part of the gate.

Usage: tools/count-nodes.py   Prints a line for each number of words: at an address of just enough bits, at one of 32 bits, and
at a constant address.
"""
import re

import made

PROGRAM = """//! Prints the nodes that a read and a write of a memory add.
#![tactic(auto)]

use fv_text::Word;
use std::alloc::Global;
use std::test::Fail;
use wn_mem::{read_after, write_all};
use wn_net::{InputKind, MemWrite, Net, NodeId};

fn main(rt: HostRuntime) -> Result<(), Fail> {
    let alloc = rt.alloc();
    for (words, bits) in [(WORDSu32, BITSu32)] {
        let mut net = Net::new(alloc);
        let addr = address(&mut net, bits)?;
        let nodes = put_words(alloc, &mut net, words)?;
        let before = net.nodes().len();
        read_after(&mut net, nodes.as_slice(), addr)?;
        println!(rt; "read {words} {bits}")?;
        print_nodes(&rt, &net, before)?;

        println!(rt; "write {words} {bits}")?;
        write(&rt, words, bits, false)?;
        println!(rt; "whole {words} {bits}")?;
        write(&rt, words, bits, true)?;
    }
    Ok(())
}

/// Adds a write, of all bits of a word or under a mask, and prints its nodes.
fn write(rt: &HostRuntime, words: u32, bits: u32, whole: bool) -> Result<(), Fail> {
    let alloc = rt.alloc();
    let mut net = Net::new(alloc);
    let addr = address(&mut net, bits)?;
    let mut nodes = put_words(alloc, &mut net, words)?;
    let mask = if whole {
        net.konst(Word::new(32, 0xffff_ffff).ok_or("no word")?)?
    } else {
        net.input(32, InputKind::EachCycle)?
    };
    let write = MemWrite {
        enable: net.input(1, InputKind::EachCycle)?,
        addr,
        mask,
        value: net.input(32, InputKind::EachCycle)?,
    };
    let before = net.nodes().len();
    write_all(alloc, &mut net, nodes.as_mut_slice(), &write)?;
    print_nodes(rt, &net, before)
}

/// An address of so many bits; of none the constant 1.
fn address(net: &mut Net, bits: u32) -> Result<NodeId, Fail> {
    if bits == 0 {
        let word = Word::new(12, 1).ok_or("no word")?;
        return Ok(net.konst(word)?);
    }
    Ok(net.input(bits, InputKind::EachCycle)?)
}

fn put_words(alloc: Global, net: &mut Net, words: u32) -> Result<Vec<NodeId>, Fail> {
    let mut nodes = Vec::new(alloc);
    for _ in 0..words {
        nodes.push(net.input(32, InputKind::EachCycle)?)?;
    }
    Ok(nodes)
}

/// The place of the first added node, and each of them.
fn print_nodes(rt: &HostRuntime, net: &Net, before: usize) -> Result<(), Fail> {
    println!(rt; "from {before}")?;
    for node in &net.nodes()[before..] {
        println!(rt; "{node:?}")?;
    }
    Ok(())
}
"""

# how many of a node's numbers are nodes that it reads
OPERANDS = {"Konst": 0, "Not": 1, "Slice": 1, "Mux": 3}


def deepest(first, nodes):
    """Returns the longest chain of added nodes, constants not counted."""
    depth = {}
    for place, node in enumerate(nodes, first):
        kind, numbers = re.match(r"(\w+)\((.*)\)", node).groups()
        read = re.findall(r"\d+", numbers)[:OPERANDS.get(kind, 2)]
        depth[place] = (kind != "Konst") + max([depth.get(int(operand), 0) for operand in read], default=0)
    return max(depth.values(), default=0)


def main():
    for words, enough in [(1, 1), (2, 1), (32, 5), (4096, 12)]:
        for bits in [enough, 32, 0]:
            text = PROGRAM.replace("WORDS", str(words)).replace("BITS", str(bits))
            show(made.tried("count_nodes", text, ["wn_mem", "wn_net", "fv_text"]).splitlines())


def show(lines):
    heads = [at for at, line in enumerate(lines) if re.match("(read|write|whole) ", line)] + [len(lines)]
    for at, end in zip(heads, heads[1:]):
        work, words, bits = lines[at].split()
        nodes = lines[at + 2:end]
        where = f"an address of {bits} bits" if bits != "0" else "a constant address"
        name = "write of all bits" if work == "whole" else work
        print(f"{name} of {words} words at {where}: {len(nodes)} nodes, {deepest(int(lines[at + 1].split()[1]), nodes)} deep")


main()
