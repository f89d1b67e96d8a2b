#!/usr/bin/env python3
"""Compares the nets of designs with Icarus Verilog, name by name and cycle by cycle. Not part of the gate.

    tools/compare-lower.py [--seeds N] [--random N] [FILE.v ..]

It takes the rows of kind `lower` of `design_cases` and of FILE, a module `top` with its modules in each, and needs the Debian package
iverilog. Each is run over ten cycles with all that is free at 0, and N times (once, if not said) with what is free
chosen at random: inputs, `anyseq` and `anyconst` names, and what registers begin with. A test bench gives Icarus
Verilog the same: it forces free names, and where a bit of a register is unknown at the start it sets it. Every other
value has to be the same; bits that Icarus doesn't know, as those past a range, which are 0 here, are listed.
`always @*` is written as `always_comb` for it, since a block that reads only constants would never begin else. With
--random N it takes so many random designs too (up to 200: more would print too much for `rt try`).
"""
import argparse
import os
import subprocess
import tempfile

import designs
import random_designs

CYCLES = 10


def shown(design):
    """Returns the names with a value in each cycle, with their widths; of a memory its words."""
    widths = {}
    for name in design.names:
        if name.kind != "clock" and name.words is None:
            widths[name.text] = name.width
        elif name.words is not None:
            low, high = min(name.words), max(name.words)
            widths.update({f"{name.text}[{index}]": name.width for index in range(low, high + 1)})
    return {text: width for text, width in widths.items() if text in design.values}


def number(width, value):
    return f"{width}'h{value:x}"


def starts(design):
    """Returns statements that set the unknown bits of registers and memories to what they begin with."""
    held = {name.text for name in design.names if name.words is not None}
    lines = []
    for index, (text, width) in enumerate(shown(design).items()):
        if text in design.registers or text.rsplit("[", 1)[0] in held:
            value = number(width, design.values[text][0])
            lines.append(f"    begin : start{index} reg [{width - 1}:0] now, first; integer i;")
            lines.append(f"      now = uut.{text}; first = {value};")
            lines.append(f"      for (i = 0; i < {width}; i = i + 1) if (now[i] === 1'bx) now[i] = first[i];")
            lines.append(f"      uut.{text} = now; end")
    return lines


def bench(design):
    """Returns a module that drives `top` through the cycles and prints each value in each of them."""
    inputs = [name for name in design.names if name.kind in ("input", "reset")]
    clocks = [name.text for name in design.names if name.kind == "clock" and "." not in name.text]
    free = [name for name in design.names if name.kind in ("anyseq", "anyconst")]
    lines = ["module bench;", "  reg clock = 0;"]
    lines += [f"  reg [{name.width - 1}:0] in_{name.text};" for name in inputs]
    ports = [f".{text}(clock)" for text in clocks] + [f".{name.text}(in_{name.text})" for name in inputs]
    lines += [f"  top uut({', '.join(ports)});", "  initial begin"]
    for cycle in range(CYCLES):
        for name in inputs:
            lines.append(f"    in_{name.text} = {number(name.width, design.values[name.text][cycle])};")
        for name in free:
            lines.append(f"    force uut.{name.text} = {number(name.width, design.values[name.text][cycle])};")
        lines.append("    #1;")
        lines += starts(design) if cycle == 0 else []
        lines.append("    #1;")
        lines += [f'    $display("%b", uut.{text});' for text in shown(design)]
        lines.append("    clock = 1; #1 clock = 0; #1;")
    return "\n".join(lines + ["  end", "endmodule", ""])


def simulated(folder, text, design):
    """Returns what Icarus Verilog has for each name in each cycle, as binary digits, or what it says in place of it."""
    source, program = os.path.join(folder, "design.v"), os.path.join(folder, "design")
    with open(source, "w") as file:
        file.write(designs.combinational(text) + "\n" + bench(design))
    built = subprocess.run(["iverilog", "-g2012", "-s", "bench", "-o", program, source], capture_output=True, text=True)
    if built.returncode:
        return None, built.stdout + built.stderr
    said = subprocess.run(["vvp", "-n", program], capture_output=True, text=True, check=False).stdout.split()
    names = list(shown(design))
    if len(said) != CYCLES * len(names):
        return None, " ".join(said[:20])
    return {text: said[index::len(names)] for index, text in enumerate(names)}, ""


def compared(design, found):
    """Returns lines on other values, and on unknown bits: the first of each name."""
    others, unknown = [], []
    for text, width in shown(design).items():
        for cycle, digits in enumerate(found[text]):
            here = f"{design.values[text][cycle]:0{width}b}"
            pairs = list(zip(here, digits.rjust(width, "0"), strict=True))
            if any(theirs in "01" and theirs != ours for ours, theirs in pairs):
                others.append(f"    {text} in cycle {cycle}: {here} here, {digits} by Icarus Verilog")
                break
            if any(theirs not in "01" for _, theirs in pairs):
                unknown.append(f"    {text} in cycle {cycle}: {here} here, {digits} by Icarus Verilog")
                break
    return others, unknown


def main():
    options = argparse.ArgumentParser()
    options.add_argument("--seeds", type=int, default=1)
    options.add_argument("--random", type=int, default=0)
    options.add_argument("files", nargs="*")
    options = options.parse_args()
    texts = [text for text, _ in designs.cases("design_cases", "lower")] + [designs.text_of(name) for name in options.files]
    runs = [(text, seed) for text in texts for seed in range(options.seeds + 1)]
    runs += [(text, 1) for text in random_designs.texts(options.random, 1)]
    counts = {"values": 0, "same": 0, "other": 0, "unknown": 0, "not run": 0}
    with tempfile.TemporaryDirectory() as folder:
        for (text, seed), design in zip(runs, designs.designs(runs, CYCLES), strict=True):
            if design.refused:
                raise SystemExit(f"{text}\n    is refused: {design.refused}")
            found, why = simulated(folder, text, design)
            if found is None:
                counts["not run"] += 1
                print(f"{text}\n    not run: {why}")
                continue
            others, unknown = compared(design, found)
            counts["values"] += CYCLES * len(found)
            counts["other" if others else "unknown" if unknown else "same"] += 1
            if others or unknown:
                print("\n".join([f"{text}  (seed {seed})"] + others + unknown))
    print(f"{len(texts) + options.random} designs, {len(runs)} runs, {counts['values']} values: {counts['same']} runs "
          f"with the same values, {counts['unknown']} with unknown bits alone, {counts['other']} with others, "
          f"{counts['not run']} not run")


if __name__ == "__main__":
    main()
