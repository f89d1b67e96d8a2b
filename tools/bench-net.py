#!/usr/bin/env python3
"""Times the building of a net of many nodes, one evaluation of it, and a copy of it that is evaluated, over a program that is
made, proved and built in a temporary folder (some minutes). Not part of the gate.

Usage: tools/bench-net.py   Prints the nodes, and the seconds and the memory of each whole run: of building alone, with an
evaluation, and with a copy that is evaluated. The value is compared with one that is computed here.
       tools/bench-net.py --shared   Of building alone, with the cone of the last node, and with equal nodes made one, each
evaluated, by a program that isn't proved.
"""
import os
import subprocess
import sys
import time

import made

PROGRAM = """//! Builds a net of as many nodes as standard input says, and evaluates it, or a copy, once.
#![tactic(auto)]

use fv_text::{List, Memory};
use std::alloc::Global;
use std::io::Read;
use std::process::Abort;
use wn_net::{InputKind, Net, NodeId, State};

COUNT
/// One node more, of a kind that changes from turn to turn.
fn more(rt: &impl Abort, net: &mut Net, turn: u64, a: NodeId, b: NodeId) -> Result<NodeId, Memory> {
    assert!(rt; net.has(a));
    assert!(rt; net.has(b));
    assert!(rt; net.width(b) == net.width(a));
    match turn % 4 {
        0 => net.add(a, b),
        1 => net.mul(a, b),
        2 => net.sub(a, b),
        _ => net.xor(a, b),
    }
}

fn main(rt: HostRuntime) -> Result<(), std::test::Fail> {
    let alloc = rt.alloc();
    let mut bytes = Vec::new(alloc);
    rt.stdin().read_to_end(&mut bytes)?;
    let mut net = Net::new(alloc);
    let mut a = input(&rt, &mut net)?;
    let mut b = input(&rt, &mut net)?;
    for turn in 2..count(bytes.as_slice()) {
        let next = more(&rt, &mut net, turn, a, b)?;
        a = b;
        b = next;
    }
    if bytes.as_slice().ends_with(b"copied") {
        let copy = net.copy()?;
        let value = evaluated(&rt, alloc, &copy, b)?;
        println!(rt; "{value}")?;
    }
    if bytes.as_slice().ends_with(b"evaluated") {
        let value = evaluated(&rt, alloc, &net, b)?;
        println!(rt; "{value}")?;
    }
    Ok(())
}

/// The value of a node.
fn evaluated(rt: &impl Abort, alloc: Global, net: &Net, node: NodeId) -> Result<u128, std::test::Fail> {
    let state = State {
        regs: List::new(alloc),
        mems: List::new(alloc),
    };
    let mut values = vec![in alloc; 0u128; net.nodes().len()]?;
    assert!(rt; net.admits(&[3, 5], &state));
    net.eval(&[3, 5], &state, &mut values);
    assert!(rt; (node as usize) < values.len());
    Ok(values[node as usize])
}

fn input(rt: &impl Abort, net: &mut Net) -> Result<NodeId, Memory> {
    assert!(rt; net.inputs().len() < 1000);
    net.input(128, InputKind::EachCycle)
}
"""


# behind the building: the cone of the last node, or the net with equal nodes once, evaluated
SHARED = """    if bytes.as_slice().ends_with(b"coned") {
        let (part, places) = cone(alloc, &net, &[b])?;
        let value = evaluated(&rt, alloc, &part, place(places.as_slice(), b))?;
        println!(rt; "{value}")?;
    }
    if bytes.as_slice().ends_with(b"shared") {
        let made = compact(alloc, &net, &[b])?;
        let value = evaluated(&rt, alloc, &made.net, made.roots.as_slice()[0])?;
        println!(rt; "{value}")?;
    }
    if bytes.as_slice().ends_with(b"copied") {
"""


def last(nodes):
    mask = 2**128 - 1
    a, b = 3, 5
    for turn in range(2, nodes):
        a, b = b, [a + b, a * b, a - b, a ^ b][turn % 4] & mask
    return b


def measure(program, works):
    for nodes in [2500000, 5000000, 10000000]:
        for work in works:
            start = time.time()
            process = subprocess.Popen([program], stdin=subprocess.PIPE, stdout=subprocess.PIPE)
            process.stdin.write(f"{nodes} {work}".encode())
            process.stdin.close()
            value = process.stdout.read().decode().strip()
            usage = os.wait4(process.pid, 0)[2]
            seconds = time.time() - start
            same = value == ("" if work == "built" else str(last(nodes)))
            print(f"{nodes} nodes {work}: {'right' if same else 'WRONG'}, {seconds:.2f} s, {usage.ru_maxrss // 1024} MB")


def main():
    text = PROGRAM.replace("COUNT\n", made.COUNT)
    if "--shared" in sys.argv:
        first = '    if bytes.as_slice().ends_with(b"copied") {\n'
        text = text.replace(first, SHARED).replace("use wn_net::", "use wn_opt::{compact, cone, place};\nuse wn_net::")
        with made.unproved("many_nodes", text, ["wn_opt", "wn_net", "fv_text"]) as program:
            measure(program, ["built", "evaluated", "coned", "shared"])
        return
    with made.program("many_nodes", text, ["wn_net", "fv_text"]) as program:
        measure(program, ["built", "evaluated", "copied"])


main()
