#!/usr/bin/env python3
"""Times elaboration, the order of drivers and lowering on large designs, over a program that is made, proved and built
in a temporary folder (a long time, where nothing is kept), or over the proved program. Not part of the gate.

    tools/bench-designs.py [--program PATH | --rvf PATH] [--stage elaborate|order|lower] [--design NAME] [FILE.v ..]

FILE has a module `top` with its modules, and no directives. Prints for each design what was made of it, the processor
seconds of the stage, which are those of the run less those of a run that ends before it, and the memory of the whole
run. The fastest of three runs counts. --design NAME leaves the other designs out. --text NAME writes the text of that
design to standard output. Chains of modules want `ulimit -s unlimited` but for `rvf`, which has a stack of its own.

PATH behind --rvf is `rvf` or the program that it builds. Its runs end where a stage ends because the text is refused
there: it has no top module, or too many bits of registers, which are counted behind all else, or it is too heavy. What
the text gets for that has 514 names at most, by which designs of 200,000 names are smaller. Lowering is left out.
"""
import argparse
import contextlib
import os
import subprocess
import sys
import tempfile

import made

LIBRARIES = "vl_lower vl_lower_spec vl_elab vl_elab_spec vl_flow vl_flow_spec vl_mean vl_size vl_parse " \
    "vl_token vl_tree wn_net fv_text anyhow"

PROGRAM = r"""//! Reads a letter and a Verilog text, whose top module is `top`, and works on it as far as the letter
//! says: parses, elaborates, orders or lowers it, or counts the kinds of its nodes behind that. Says what was made.
#![tactic(auto)]

use anyhow::Result;
use fv_text::Text;
use std::alloc::Global;
use std::io::Read;
use vl_elab::elaborate;
use vl_flow::order;
use vl_lower::lower;
use vl_mean::Flat;
use vl_flow::weight;
use vl_parse::parse;
use vl_token::lex;
use wn_net::{Net, Node};

fn kind_of(node: &Node) -> &'static str {
    match node {
        Node::Konst(_) => "constant",
        Node::Input(_) => "input",
        Node::Reg(_) => "register",
        Node::Read(_, _) => "read",
        Node::Not(_) => "not",
        Node::And(_, _) => "and",
        Node::Or(_, _) => "or",
        Node::Xor(_, _) => "xor",
        Node::Add(_, _) => "add",
        Node::Sub(_, _) => "sub",
        Node::Mul(_, _) => "mul",
        Node::Eq(_, _) => "eq",
        Node::Ult(_, _) => "ult",
        Node::Slt(_, _) => "slt",
        Node::Shl(_, _) => "shl",
        Node::Lshr(_, _) => "lshr",
        Node::Ashr(_, _) => "ashr",
        Node::Concat(_, _) => "concat",
        Node::Mux(_, _, _) => "mux",
        Node::Slice(_, _, _) => "slice",
        Node::Zext(_, _) => "zext",
        Node::Sext(_, _) => "sext",
    }
}

fn count_of(net: &Net, kind: &str) -> u64 {
    let mut count: u64 = 0;
    for node in net.nodes() {
        if kind_of(node) == kind {
            count = count.wrapping_add(1);
        }
    }
    count
}

fn kinds(alloc: Global, net: &Net) -> Result<String> {
    let mut out = String::new(alloc);
    for kind in ["constant", "input", "register", "read", "not", "and", "or", "xor", "add", "sub", "mul", "eq", "ult",
        "slt", "shl", "lshr", "ashr", "concat", "mux", "slice", "zext", "sext"] {
        let count = count_of(net, kind);
        if count > 0 {
            out.push_str(format!(in alloc; " {kind} {count}")?.as_str())?;
        }
    }
    Ok(out)
}

fn ordered(alloc: Global, flat: Flat, stage: u8) -> Result<String> {
    match order(alloc, flat) {
        Err(_fault) => Ok(String::from_str(alloc, "no order")?),
        Ok(ordered) => {
            let heavy = weight(&ordered);
            if stage == b'o' {
                return Ok(format!(in alloc; "weight {heavy}")?);
            }
            let lowered = lower(alloc, &ordered)?;
            let nodes = lowered.net.nodes().len();
            let regs = lowered.net.regs().len();
            if stage == b'l' {
                return Ok(format!(in alloc; "weight {heavy}, {nodes} nodes, {regs} registers")?);
            }
            let kinds = kinds(alloc, &lowered.net)?;
            Ok(format!(in alloc; "weight {heavy}, {nodes} nodes, {regs} registers:{kinds}")?)
        }
    }
}

fn answer(alloc: Global, bytes: &[u8]) -> Result<String> {
    let Some((stage, text)) = bytes.split_first() else {
        return Ok(String::from_str(alloc, "no text")?);
    };
    let tokens = lex(alloc, text, 1, 1)?;
    let source = parse(alloc, tokens.as_slice())?;
    let modules = source.modules.as_slice();
    if *stage == b'p' {
        let count = modules.len();
        return Ok(format!(in alloc; "{count} modules")?);
    }
    let top = Text::from_bytes(alloc, b"top")?;
    match elaborate(alloc, modules, &top) {
        Err(_reason) => Ok(String::from_str(alloc, "no design")?),
        Ok(flat) => {
            if *stage != b'e' {
                return ordered(alloc, flat, *stage);
            }
            let names = flat.decls.len();
            let drivers = flat.drivers.len();
            Ok(format!(in alloc; "{names} names, {drivers} drivers")?)
        }
    }
}

fn main(rt: HostRuntime) -> Result<()> {
    let alloc = rt.alloc();
    let mut bytes = Vec::new(alloc);
    rt.stdin().read_to_end(&mut bytes)?;
    let said = answer(alloc, bytes.as_slice())?;
    println!(rt; "{said}")?;
    Ok(())
}
"""


def lines(count, line):
    return "".join(line(index) for index in range(count))


def names(count):
    return "module top;\n" + lines(count, lambda k: f"wire n{k};\n") + "endmodule\n"


def nodes(count):
    """A loop over an instance of ten sums of a hundred terms, 2,044 nodes a turn, with the turn's own."""
    total = " + ".join("b" * 101)
    return (f"module top; genvar i;\nfor (i = 0; i < {count // 2044}; i = i + 1) begin : g sub s(); end\n"
            "endmodule\nmodule sub; wire [7:0] a, b;\n" + lines(10, lambda _: f"assign a = {total};\n") + "endmodule\n")


def turns(count):
    items = "wire [7:0] a, b; reg q; reg [3:0] r = 0; assign a = x; assign b = a + 1; assign y = b ^ a; " \
        "wire c; assign c = q; always @(posedge clock) q <= ~q; always @(posedge clock) r <= r + 1;"
    return (f"module top(input clock); wire [7:0] at; assign at = 7; genvar i;\nfor (i = 0; i < {count}; i = i + 1) "
            "begin : g wire [7:0] y; ten s(.clock(clock), .x(at), .y(y)); end\nendmodule\n"
            f"module ten(input clock, input [7:0] x, output [7:0] y); {items} endmodule\n")


def items(count):
    """Half of the items are declarations, half assignments."""
    return "module top;\nwire [7:0] n0; assign n0 = 1;\n" + \
        lines(count // 2 - 1, lambda k: f"wire [7:0] n{k + 1};\nassign n{k + 1} = n{k} ^ 3;\n") + "endmodule\n"


def doubled(count):
    """Modules that each hold two instances of the next one, which are too large together."""
    return "module top; m1 a(); m1 b(); endmodule\n" + \
        lines(count - 1, lambda k: f"module m{k + 1}; m{k + 2} a(); m{k + 2} b(); endmodule\n") + \
        f"module m{count}; endmodule\n"


def empty(count):
    """So many empty turns in each of so many turns, which are too large at a thousand."""
    return (f"module top; genvar i, j;\nfor (i = 0; i < {count}; i = i + 1) begin : g\n"
            f"for (j = 0; j < {count}; j = j + 1) begin : h end\nend\nendmodule\n")


def chain(count):
    """Modules that each hold one instance of the next one, and declare nothing."""
    return "module top; m1 i(); endmodule\n" + \
        lines(count - 2, lambda k: f"module m{k + 1}; m{k + 2} i(); endmodule\n") + f"module m{count - 1}; endmodule\n"


def blocks(count):
    """Modules that each hold one instance of the next one in an `if` within a turn of a loop, and declare nothing."""
    inside = "genvar g; for (g = 0; g < 1; g = g + 1) begin : t if (1) begin : b m{} i(); end end"
    return f"module top; {inside.format(1)} endmodule\n" + \
        lines(count - 2, lambda k: f"module m{k + 1}; {inside.format(k + 2)} endmodule\n") + \
        f"module m{count - 1}; endmodule\n"


def declared(count):
    """Modules that each hold one instance of the next one, and declare a net: full names of count * count bytes."""
    return "module top; wire n; m1 i(); endmodule\n" + \
        lines(count - 2, lambda k: f"module m{k + 1}; wire n; m{k + 2} i(); endmodule\n") + \
        f"module m{count - 1}; wire n; endmodule\n"


def mentioned(count):
    """A chain of 5,000 modules, the last of which mentions a net so many times: by a full name of 10,000 bytes."""
    total = " ^ ".join("b" * 100)
    whole = chain(5_000)
    return whole[:whole.rindex("endmodule")] + "wire b; reg a; always @* begin\n" + \
        lines(count // 100, lambda _: f"a = {total};\n") + "end endmodule\n"


def reverse(count):
    """A chain of drivers, each of which stands before the one that it reads."""
    return "module top;\nwire " + ", ".join(f"n{k}" for k in range(count)) + ";\n" + \
        lines(count - 1, lambda k: f"assign n{k} = n{k + 1};\n") + f"assign n{count - 1} = 1'b1;\nendmodule\n"


def block(count):
    """One block of assignments to a hundred registers in turn."""
    return "module top;\nreg [7:0] " + ", ".join(f"r{k}" for k in range(100)) + ";\nalways @* begin\nr0 = 1;\n" + \
        lines(count - 1, lambda k: f"r{(k + 1) % 100} = r{k % 100} + 1;\n") + "end\nendmodule\n"


def words(count):
    """A memory of 65,536 words; drivers that each read one of them, and as many that read one which varies."""
    return "module top(input [15:0] a);\nreg m [0:65535];\n" + \
        lines(count // 2, lambda k: f"wire n{k}; assign n{k} = m[{k}]; wire v{k}; assign v{k} = m[a + {k}];\n") + \
        "endmodule\n"


def sums(weight):
    """Sums of 32 bits, each of the weight 256."""
    total = " + ".join(["a", "b"] * 50)
    return "module top(input [31:0] a, b);\n" + \
        lines(weight // 25600, lambda k: f"wire [31:0] n{k}; assign n{k} = {total} + a;\n") + "endmodule\n"


def signs(count):
    """Operators of one bit each, in a loop."""
    total = " ^ ".join(["a", "b"] * 50)
    return "module top(input a, b);\ngenvar i;\n" \
        f"for (i = 0; i < {count // 1000}; i = i + 1) begin : g wire [9:0] y;\n" + \
        lines(10, lambda k: f"assign y[{k}] = {total} ^ a;\n") + "end\nendmodule\n"


def memory(weight):
    """A memory of 256 words of 32 bits that a block assigns, so that it is lowered word by word: reads and writes."""
    return "module top(input [7:0] a, b, input [31:0] d, output reg [31:0] y);\nreg [31:0] m [0:255];\n" + \
        "always @* begin y = 0;\n" + lines(256, lambda k: f"m[{k}] = {k};\n") + \
        lines((weight - 256 * 8192) // 16448, lambda k: f"m[a ^ {k % 256}] = d; y = y ^ m[b];\n") + "end\nendmodule\n"


def stores(weight):
    """A memory of 65,536 words of one bit that a clocked block writes at addresses that vary, of 65,552 each."""
    return "module top(input clock, input [15:0] a, input d);\nreg m [0:65535];\nalways @(posedge clock) begin\n" + \
        lines(weight // 65_552, lambda k: f"m[a ^ 16'd{k}] <= d;\n") + "end\nendmodule\n"


STAGES = {"elaborate": ("p", "e"), "order": ("e", "o"), "lower": ("o", "l")}
MADE = [
    ("elaborate", "names", names, [50_000, 100_000, 200_000]),
    ("elaborate", "nodes", nodes, [1_000_000, 2_000_000, 4_000_000]),
    ("elaborate", "turns", turns, [1_024, 2_048, 4_096]),
    ("elaborate", "items", items, [25_000, 50_000, 100_000]),
    ("elaborate", "doubled", doubled, [24]),
    ("elaborate", "empty", empty, [500, 1_000]),
    ("elaborate", "chain", chain, [10_000, 50_000, 200_000]),
    ("elaborate", "blocks", blocks, [10_000, 50_000]),
    ("elaborate", "declared", declared, [2_500, 5_000, 10_000]),
    ("elaborate", "mentioned", mentioned, [25_000, 50_000, 100_000]),
    ("order", "reverse", reverse, [50_000, 100_000, 200_000]),
    ("order", "block", block, [50_000, 100_000, 200_000]),
    ("order", "words", words, [2_500, 5_000, 10_000]),
    ("lower", "sums", sums, [5_000_000, 10_000_000, 20_000_000]),
    ("lower", "signs", signs, [450_000, 900_000, 1_800_000]),
    ("lower", "memory", memory, [5_000_000, 10_000_000, 20_000_000]),
    ("lower", "stores", stores, [5_000_000, 10_000_000, 20_000_000]),
]


# What the proved program gets to check, and what ends its run behind a part: behind parsing nothing has to be added.
CONFIG = "[options]\nisa rv32i\n[depth]\nill 1\n[verilog-files]\nw.v\n"
ENDS = {
    "e": "reg [127:0] past [0:512];\n",
    "o": "(* anyconst *) wire [127:0] free; genvar turn;\n"
         "for (turn = 0; turn < 77; turn = turn + 1) begin : heavy wire [127:0] p = free * free; end\n",
}
SPARE = {"names": 514, "reverse": 514}


def ended(process):
    """Returns what a process says, its processor seconds, and its memory in megabytes."""
    said = process.stdout.read().decode().strip()
    usage = os.wait4(process.pid, 0)[2]
    return said, usage.ru_utime + usage.ru_stime, usage.ru_maxrss // 1024


def run(program, letter, text):
    process = subprocess.Popen([program], stdin=subprocess.PIPE, stdout=subprocess.PIPE)
    process.stdin.write(letter.encode() + text.encode())
    process.stdin.close()
    return ended(process)


def run_rvf(program, letter, text):
    if letter in ENDS:
        text = text.replace("module top", "module rvfi_wrapper", 1).replace("endmodule", ENDS[letter] + "endmodule", 1)
    with tempfile.TemporaryDirectory() as folder:
        for name, content in [("checks.cfg", CONFIG), ("w.v", text)]:
            with open(os.path.join(folder, name), "w") as file:
                file.write(content)
        return ended(subprocess.Popen([program, "run", "checks.cfg", "out"], cwd=folder, stdout=subprocess.PIPE))


def timed(program, stage, title, text, runs):
    before, after = STAGES[stage]
    first = min((runs(program, before, text) for _ in range(3)), key=lambda found: found[1])
    said, seconds, memory_used = min((runs(program, after, text) for _ in range(3)), key=lambda found: found[1])
    if after == "l":
        said = runs(program, "k", text)[0]
    print(f"{stage} {title}: {said}; {seconds - first[1]:.2f} s, run {seconds:.2f} s, {memory_used} MB", flush=True)


def main():
    options = argparse.ArgumentParser()
    options.add_argument("--program")
    options.add_argument("--rvf")
    options.add_argument("--stage", choices=list(STAGES))
    options.add_argument("--text")
    options.add_argument("--design")
    options.add_argument("files", nargs="*")
    options = options.parse_args()
    if options.text:
        sys.stdout.writelines(make(sizes[-1]) for _, title, make, sizes in MADE if title == options.text)
        return
    ready = options.program or options.rvf and os.path.abspath(options.rvf)
    runs, spare, stages = (run_rvf, SPARE, ["elaborate", "order"]) if options.rvf else (run, {}, list(STAGES))
    stages = [stage for stage in stages if options.stage in (None, stage)]
    built = contextlib.nullcontext(ready) if ready else made.program("designs", PROGRAM, LIBRARIES.split())
    with built as program:
        for name in options.files:
            with open(name) as file:
                timed(program, stages[-1], name, file.read(), runs)
        for stage, title, make, sizes in [] if options.files else MADE:
            for size in sizes if stage in stages and options.design in (None, title) else []:
                timed(program, stage, f"{title} {size}", make(size - spare.get(title, 0)), runs)


if __name__ == "__main__":
    main()
