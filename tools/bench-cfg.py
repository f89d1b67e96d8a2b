#!/usr/bin/env python3
"""Times the reading of a configuration, the list of its checks and the names of its files, over a program that is made,
proved and built in a temporary folder (some minutes). Not part of the gate.

Usage: tools/bench-cfg.py   Prints what the lines are, their number, the answer and the seconds.
"""
import subprocess
import time

import made

PROGRAM = """//! Reads a configuration from standard input, and says how many checks and files it has.
#![tactic(auto)]

use ck_cfg::{checks, file_names, read_cfg};
use fv_text::Text;
use std::io::{self, Read};

fn main(rt: HostRuntime) -> io::Result<()> {
    let alloc = rt.alloc();
    let mut bytes = Vec::new(alloc);
    rt.stdin().read_to_end(&mut bytes)?;
    match read_cfg(alloc, bytes.as_slice()) {
        Ok(config) => {
            let core = Text::from_vec(Vec::new(alloc));
            if let Ok(all) = checks(alloc, &config) {
                if let Ok(files) = file_names(alloc, &config, &core, &core) {
                    println!(rt; "checks {} files {}", all.len(), files.len())?;
                }
            }
        }
        Err(fault) => println!(rt; "refused {}", fault.number())?,
    }
    Ok(())
}
"""
FRONT = "[options]\nisa rv32imc\n[depth]\ninsn 3\nill 3\nreg 1 4\nhang\n[verilog-files]\nw.v\n"
LINES = [
    ("defines", "[defines]\n", "`define A{0} {0}\n"),
    ("names of checks", "[sort]\n", "insn_none{0}_ch0\n"),
    ("files", "[script-sources]\n", "read_verilog -sv @basedir@/@core@/a{0}.v\n"),
    ("skipped depth lines", "[depth]\n", "csrw_{0}_ch0\n"),
    ("comments and blank lines", "", "# {0}\n\n"),
]


def main():
    with made.program("cfg_again", PROGRAM, ["fv_text", "ck_cfg"]) as program:
        for what, head, line in LINES:
            for count in [50000, 100000, 200000]:
                body = "".join(line.format(index) for index in range(count))
                text = (FRONT.replace("[depth]\n", head + body) if head == "[depth]\n" else FRONT + head + body).encode()
                start = time.time()
                ran = subprocess.run([program], input=text, capture_output=True, check=True)
                print(f"{count} {what}: {ran.stdout.decode().strip()}, {time.time() - start:.2f} s")


main()
