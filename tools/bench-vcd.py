#!/usr/bin/env python3
"""Times the reading of a value-change dump and the writing of it again, over a program that is made, proved and built in a
temporary folder (a minute or two). Not part of the gate.

Usage: tools/bench-vcd.py   Prints names, cycles, bytes, the answer and the seconds. Each value changes in each cycle.
"""
import subprocess
import time

import made

PROGRAM = """//! Reads a value-change dump from standard input, and writes it again.
#![tactic(auto)]

use std::io::{self, Read};
use vcd_text::{VcdFault, read_vcd, vcd};

fn main(rt: HostRuntime) -> io::Result<()> {
    let alloc = rt.alloc();
    let mut bytes = Vec::new(alloc);
    rt.stdin().read_to_end(&mut bytes)?;
    match read_vcd(alloc, bytes.as_slice()) {
        Ok(trace) => {
            if let Ok(text) = vcd(alloc, &trace) {
                let same = text.as_slice() == bytes.as_slice();
                println!(rt; "same {same}")?;
            }
        }
        Err(VcdFault::Line(line)) => println!(rt; "line {line}")?,
        Err(VcdFault::Memory) => println!(rt; "memory")?,
    }
    Ok(())
}
"""


def code(index):
    digits = ""
    while index >= 94:
        digits += chr(33 + index % 94)
        index //= 94
    return digits + chr(33 + index)


def dump(names, cycles):
    lines = ["$timescale 1 ns $end", "$scope module rvfi_wrapper $end"]
    lines += [f"$var wire 8 {code(index)} n{index} $end" for index in range(names)]
    lines += ["$upscope $end", "$enddefinitions $end", "#0", "$dumpvars"]
    lines += [f"b0 {code(index)}" for index in range(names)] + ["$end"]
    for cycle in range(1, cycles):
        lines += [f"#{cycle}"] + [f"b{cycle:b} {code(index)}" for index in range(names)]
    return "".join(line + "\n" for line in lines + [f"#{cycles}"])


def main():
    with made.program("vcd_again", PROGRAM, ["fv_text", "vcd_text"]) as program:
        for names, cycles in [(5000, 100), (5000, 200), (10000, 100)]:
            text = dump(names, cycles).encode()
            start = time.time()
            ran = subprocess.run([program], input=text, capture_output=True, check=True)
            print(f"{names} names, {cycles} cycles, {len(text)} bytes: {ran.stdout.decode().strip()}, {time.time() - start:.2f} s")


main()
