#!/usr/bin/env python3
"""Counts the gates and clauses of nodes, and times graphs and clauses of millions of gates. Not part of the gate.

Usage: tools/bench-bits.py sizes
       Prints gates and clauses of operators on words of 32 bits, and of a memory of 32 words of 32 bits that is read
       twice and written once a cycle over five cycles.
       tools/bench-bits.py times
       Prints gates a second and bytes a gate of `blast`, and time and memory of `clauses_of`, over a program that is
       made, proved and built in a temporary folder (some minutes). Work is the time of the processor.
"""
import os
import subprocess
import sys
import time

import made

SIZES = """//! Prints the gates and clauses of nodes.
#![tactic(auto)]

use bb_blast::blast;
use bb_clauses::clauses_of;
use fv_text::Word;
use std::alloc::Global;
use std::test::Fail;
use wn_mem::{read_after, write_all};
use wn_net::{InputKind, MemWrite, Net, NodeId};

const CYCLES: usize = 5;
const WORDS: usize = 32;

fn main(rt: HostRuntime) -> Result<(), Fail> {
    operators(&rt)?;
    for bits in [5u32, 32] {
        for masked in [false, true] {
            memory(&rt, bits, masked)?;
        }
    }
    reads_and_writes(&rt)
}

fn word(net: &mut Net, width: u32) -> Result<NodeId, Fail> {
    Ok(net.input(width, InputKind::EachCycle)?)
}

/// Prints the gates and clauses of these nodes and of those below them.
fn print_sizes(rt: &HostRuntime, what: &str, net: &Net, watch: &[NodeId]) -> Result<(), Fail> {
    let alloc = rt.alloc();
    let mut widths = Vec::new(alloc);
    for input in net.inputs() {
        widths.push(input.width)?;
    }
    let blasted = blast(alloc, widths.as_slice(), net.nodes(), &[], watch)?;
    let formula = clauses_of(alloc, &blasted.graph, blasted.root)?;
    let gates = blasted.graph.len() - 1 - blasted.places.len();
    println!(rt; "{what}: {gates} gates, {} clauses", formula.len())?;
    Ok(())
}

/// Prints the gates and clauses of the last node, and takes it away again.
fn print_last(rt: &HostRuntime, what: &str, net: &mut Net, node: NodeId) -> Result<(), Fail> {
    print_sizes(rt, what, net, &[node])?;
    net.cut(node as usize, 0);
    Ok(())
}

fn operators(rt: &HostRuntime) -> Result<(), Fail> {
    let mut net = Net::new(rt.alloc());
    let a = word(&mut net, 32)?;
    let b = word(&mut net, 32)?;
    let test = word(&mut net, 1)?;
    let made = net.add(a, b)?;
    print_last(rt, "adder", &mut net, made)?;
    let made = net.sub(a, b)?;
    print_last(rt, "subtracter", &mut net, made)?;
    let made = net.ult(a, b)?;
    print_last(rt, "less than", &mut net, made)?;
    let made = net.slt(a, b)?;
    print_last(rt, "less than, with a sign", &mut net, made)?;
    let made = net.eq(a, b)?;
    print_last(rt, "equal", &mut net, made)?;
    let made = net.mul(a, b)?;
    print_last(rt, "multiplier", &mut net, made)?;
    let made = net.mux(test, a, b)?;
    print_last(rt, "choice", &mut net, made)?;
    for bits in [5u32, 32] {
        let by = word(&mut net, bits)?;
        println!(rt; "by a word of {bits} bits:")?;
        let made = net.shl(a, by)?;
        print_last(rt, "  shift left", &mut net, made)?;
        let made = net.lshr(a, by)?;
        print_last(rt, "  shift right", &mut net, made)?;
        let made = net.ashr(a, by)?;
        print_last(rt, "  arithmetic shift right", &mut net, made)?;
    }
    Ok(())
}

fn words(net: &mut Net, alloc: Global) -> Result<Vec<NodeId>, Fail> {
    let mut words = Vec::new(alloc);
    for _ in 0..WORDS {
        words.push(word(net, 32)?)?;
    }
    Ok(words)
}

/// A write whose mask is an input, or all ones.
fn write(net: &mut Net, bits: u32, masked: bool) -> Result<MemWrite, Fail> {
    let ones = Word::new(32, 0xffff_ffff).ok_or("no word")?;
    Ok(MemWrite {
        enable: word(net, 1)?,
        addr: word(net, bits)?,
        mask: if masked { word(net, 32)? } else { net.konst(ones)? },
        value: word(net, 32)?,
    })
}

fn memory(rt: &HostRuntime, bits: u32, masked: bool) -> Result<(), Fail> {
    let alloc = rt.alloc();
    let mut net = Net::new(alloc);
    let mut words = words(&mut net, alloc)?;
    let mut watch = Vec::new(alloc);
    for _ in 0..CYCLES {
        for _ in 0..2 {
            let addr = word(&mut net, bits)?;
            watch.push(read_after(&mut net, words.as_slice(), addr)?)?;
        }
        let write = write(&mut net, bits, masked)?;
        write_all(alloc, &mut net, words.as_mut_slice(), &write)?;
    }
    let mask = if masked { "an input as mask" } else { "a mask of ones" };
    println!(rt; "memory over {CYCLES} cycles, addresses of {bits} bits, {mask}")?;
    print_sizes(rt, "  in all", &net, watch.as_slice())
}

/// One read and one write alone.
fn reads_and_writes(rt: &HostRuntime) -> Result<(), Fail> {
    let alloc = rt.alloc();
    let mut net = Net::new(alloc);
    let mut nodes = words(&mut net, alloc)?;
    let addr = word(&mut net, 5)?;
    let write = write(&mut net, 5, false)?;
    let before = net.nodes().len();
    let read = read_after(&mut net, nodes.as_slice(), addr)?;
    print_sizes(rt, "one read, of an address of 5 bits", &net, &[read])?;
    net.cut(before, 0);
    write_all(alloc, &mut net, nodes.as_mut_slice(), &write)?;
    print_sizes(rt, "one write, of all bits", &net, nodes.as_slice())
}
"""

TIMES = """//! Makes the graph of many products, or the clauses of a graph of many gates.
#![tactic(auto)]

use bb_aig::{Aig, Lit};
use bb_blast::blast;
use bb_clauses::clauses_of;
use std::alloc::Global;
use std::io::Read;
use std::process::Abort;
use std::test::Fail;
use wn_net::Node;

COUNT
/// Adds a gate of two literals of the graph.
fn gate(rt: &impl Abort, aig: &mut Aig, a: Lit, b: Lit) -> Result<Lit, Fail> {
    let most = 2 * aig.len() as u64;
    assert!(rt; a < most);
    assert!(rt; b < most);
    Ok(aig.and(a, b)?)
}

/// Makes the graph of products of two sources. Returns how many nodes it has.
fn products(alloc: Global) -> Result<usize, Fail> {
    let nodes = [NODES];
    let made = blast(alloc, &[128, 128], &nodes, &[], &[])?;
    Ok(made.graph.len())
}

/// Makes a graph of so many gates, and its clauses if they are wanted. Returns how many there are.
fn chain(rt: &impl Abort, alloc: Global, gates: u64, clauses: bool) -> Result<usize, Fail> {
    let mut aig = Aig::new(alloc);
    let mut a = aig.input()?;
    let mut b = aig.input()?;
    for _ in 0..gates {
        let next = gate(rt, &mut aig, a, b)?;
        a = b;
        b = next;
    }
    if !clauses {
        return Ok(aig.len());
    }
    let most = 2 * aig.len() as u64;
    assert!(rt; b < most);
    let formula = clauses_of(alloc, &aig, b)?;
    Ok(formula.len())
}

fn main(rt: HostRuntime) -> Result<(), Fail> {
    let alloc = rt.alloc();
    let mut bytes = Vec::new(alloc);
    rt.stdin().read_to_end(&mut bytes)?;
    let bytes = bytes.as_slice();
    let made = if bytes.ends_with(b"products") {
        products(alloc)?
    } else {
        chain(&rt, alloc, count(bytes), bytes.ends_with(b"clauses"))?
    };
    println!(rt; "{made}")?;
    Ok(())
}
"""

# products of words of 128 bits that are made, and the bits of two sources
PRODUCTS = 40
INPUTS = 256


def run(program, words):
    """Returns the number that the program prints, its seconds by the clock and of work, and its bytes."""
    start = time.time()
    process = subprocess.Popen([program], stdin=subprocess.PIPE, stdout=subprocess.PIPE)
    process.stdin.write(words.encode())
    process.stdin.close()
    said = process.stdout.read().decode().strip()
    _, status, usage = os.wait4(process.pid, 0)
    if status:
        raise SystemExit(f"{words}: status {status}")
    return int(said), time.time() - start, usage.ru_utime + usage.ru_stime, usage.ru_maxrss * 1024


def table_bytes(gates):
    """Returns the bytes of the table of guesses at so many gates: it is doubled where half of it is taken."""
    places = 64
    while places // 2 < gates:
        places = 2 * places + 64
    return 8 * places


def show_products(program):
    empty = run(program, "1 gates")[3]
    for _ in range(3):
        nodes, seconds, work, memory = run(program, "products")
        gates = nodes - 1 - INPUTS
        print(f"blast: {gates} gates, {seconds:.2f} s, {work:.2f} s of work, {gates / work / 1e6:.2f} million a second")
        whole = memory - empty
        beside = whole - table_bytes(gates)
        print(f"  {memory >> 20} MB: {whole / gates:.0f} bytes a gate, {beside / gates:.0f} beside its table")


def show_times():
    nodes = ["Node::Input(0)", "Node::Input(1)"] + [f"Node::Mul({at}, {at + 1})" for at in range(PRODUCTS)]
    text = TIMES.replace("NODES", ", ".join(nodes)).replace("COUNT\n", made.COUNT)
    with made.program("many_gates", text, ["bb_blast", "bb_aig", "bb_clauses", "wn_net"]) as program:
        show_products(program)
        for gates in [2500000, 5000000, 10000000]:
            for what in ["gates", "clauses"]:
                number, seconds, work, memory = run(program, f"{gates} {what}")
                print(f"{gates} gates, {what}: {number}, {seconds:.2f} s, {work:.2f} s of work, {memory >> 20} MB")


def main():
    if sys.argv[1:] == ["sizes"]:
        libraries = ["wn_mem", "wn_net", "bb_clauses", "bb_blast", "bb_aig", "fv_text"]
        print(made.tried("bit_sizes", SIZES, libraries), end="")
    elif sys.argv[1:] == ["times"]:
        show_times()
    else:
        raise SystemExit(__doc__)


main()
