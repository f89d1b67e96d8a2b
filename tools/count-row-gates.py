#!/usr/bin/env python3
"""Counts the nodes and gates of the circuit of each row over a channel of inputs, by a program that isn't proved before.
Not part of the gate.

Usage: tools/count-row-gates.py   Prints a line for each row: its name, the nodes that its circuit adds, and the gates of
all of its answers together; M with results of its own and with alternative ones.
"""
import made

PROGRAM = """//! Prints the nodes and the gates of the circuit of each row.
#![tactic(auto)]

use bb_blast::blast;
use rv_circ::circuit;
use rv_table::{Opts, RowId, row_name};
use rvfi_port::Channel;
use std::alloc::Global;
use std::test::Fail;
use wn_net::{InputKind, Net, NodeId};

fn main(rt: HostRuntime) -> Result<(), Fail> {
    for altops in [false, true] {
        for row in (0..70).filter_map(RowId::new) {
            let of_m = row.number() >= 37 && row.number() < 45;
            if of_m || !altops {
                count(&rt, row, altops)?;
            }
        }
    }
    Ok(())
}

fn count(rt: &HostRuntime, row: RowId, altops: bool) -> Result<(), Fail> {
    let alloc = rt.alloc();
    let mut net = Net::new(alloc);
    let channel = channel(&mut net)?;
    let before = net.nodes().len();
    let opts = Opts {
        aligned: true,
        altops,
        c: false,
    };
    let e = circuit(&mut net, &channel, row, opts)?;
    let watch = [
        e.hit, e.rs1_addr, e.rs2_addr, e.rd_addr, e.rd_wdata, e.pc_wdata, e.mem_addr, e.rmask,
        e.wmask, e.wdata, e.trap,
    ];
    let mut widths = Vec::new(alloc);
    for input in net.inputs() {
        widths.push(input.width)?;
    }
    let made = blast(alloc, widths.as_slice(), net.nodes(), &[], &watch)?;
    let gates = made.graph.len() - 1 - made.places.len();
    let nodes = net.nodes().len() - before;
    let which = if altops { " alternative" } else { "" };
    println!(rt; "{}{which}: {nodes} nodes, {gates} gates", row_name(row))?;
    Ok(())
}
"""

LIBRARIES = ["bb_blast", "bb_aig", "rv_circ", "rvfi_port", "rv_table", "wn_net", "fv_text"]

if __name__ == "__main__":
    for line in made.tried("row_gates", PROGRAM + made.CHANNEL, LIBRARIES, ["--seconds", "600"]).splitlines():
        if line.endswith("gates"):
            print(line)
