#!/usr/bin/env python3
"""Counts the registers, nodes and gates of the monitor of each kind of check over channels of inputs, by a program that
isn't proved before. Not part of the gate.

Usage: tools/count-monitors.py   Prints a line for each kind, one channel and two, and the cycles 4, 20 and 100: how many
registers and nodes the monitor adds, and in cycle 20 how many gates its frames come to.
"""
import made

PROGRAM = """//! Prints the registers, the nodes and the gates of the monitor of each kind.
#![tactic(auto)]

use bb_blast::blast;
use bm_unroll::unroll;
use ck_cfg::{Check, CheckKind};
use ck_gen::monitor;
use fv_text::{List, Text};
use rv_table::{Opts, RowId};
use rvfi_port::{Channel, Port};
use std::alloc::Global;
use std::test::Fail;
use wn_net::{InputKind, Net, NodeId};

fn main(rt: HostRuntime) -> Result<(), Fail> {
    for kind in CheckKind::all() {
        for channels in [1, 2] {
            for cycle in [4, 20, 100] {
                count(&rt, *kind, channels, cycle)?;
            }
        }
    }
    Ok(())
}

fn port(alloc: Global, net: &mut Net, channels: u32) -> Result<Port, Fail> {
    let mut all = List::new(alloc);
    for _ in 0..channels {
        all.push(channel(net)?)?;
    }
    Ok(Port {
        channels: all,
        imem: Some((input(net, 32)?, input(net, 16)?)),
        dmem: Some(input(net, 32)?),
    })
}

fn count(rt: &HostRuntime, kind: CheckKind, channels: u32, cycle: u32) -> Result<(), Fail> {
    let alloc = rt.alloc();
    let mut net = Net::new(alloc);
    let port = port(alloc, &mut net, channels)?;
    let has_trigger = kind == CheckKind::Unique || kind == CheckKind::Liveness;
    let is_of_row = kind == CheckKind::Insn;
    let check = Check {
        name: Text::from_bytes(alloc, kind.name())?,
        kind,
        row: if is_of_row { RowId::new(0) } else { None },
        channel: 0,
        start: if is_of_row || kind == CheckKind::Ill { cycle } else { 1 },
        trig: if has_trigger { cycle - 2 } else { cycle },
        cycle,
    };
    let opts = Opts {
        aligned: true,
        altops: false,
        c: true,
    };
    let before = net.nodes().len();
    let id = monitor(alloc, &mut net, &port, &check, opts)?;
    let nodes = net.nodes().len() - before;
    let registers = net.regs().len();
    let name = kind.name();
    let name = std::str::from_utf8(name)?;
    if cycle == 20 {
        let frames = unroll(alloc, &net, id, &[], cycle)?;
        let made = blast(alloc, frames.widths.as_slice(), frames.nodes.as_slice(), frames.roots.as_slice(), &[])?;
        let gates = made.graph.len() - 1 - made.places.len();
        println!(rt; "{name} {channels} {cycle}: {registers} registers, {nodes} nodes, {gates} gates")?;
    } else {
        println!(rt; "{name} {channels} {cycle}: {registers} registers, {nodes} nodes")?;
    }
    Ok(())
}
"""

LIBRARIES = [
    "bb_blast", "bb_aig", "bm_unroll", "ck_gen", "ck_cfg", "rvfi_port", "rv_table", "wn_net", "fv_text",
]

if __name__ == "__main__":
    for line in made.tried("monitors", PROGRAM + made.CHANNEL, LIBRARIES, ["--seconds", "900"]).splitlines():
        if ": " in line:
            print(line)
