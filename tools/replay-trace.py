#!/usr/bin/env python3
"""Replays the trace of a failing check in Icarus Verilog, and compares every name in every cycle.

    tools/replay-trace.py [--channels N] TRACE TEXT.v

TRACE is the dump that `rvf run` left, TEXT.v the text of the check with all its macros but the predefined ones, which
are those of N channels (1). The free names of the top module (those declared with the macros of free values), `reset`
and what registers and words hold in the first cycle are taken from the trace; all other numbers are Icarus Verilog's.
"""
import argparse
import re
import sys

from clause_files import simulated


def read(path):
    """The names of a dump with their widths, and for each cycle the number of each name."""
    widths, names, now, cycles = {}, {}, {}, []
    for line in open(path):
        parts = line.split()
        if not parts:
            continue
        if parts[0] == "$var":
            widths[parts[4]] = int(parts[2])
            names[parts[3]] = parts[4]
        elif parts[0][0] == "#":
            if now:
                cycles.append(dict(now))
        elif parts[0][0] == "b" and len(parts) == 2:
            now[names[parts[1]]] = int(parts[0][1:], 2)
        elif parts[0][0] in "01" and parts[0][1:] in names:
            now[names[parts[0][1:]]] = int(parts[0][0])
    return widths, cycles


def replayed(trace, text, channels=1):
    """Replays a trace over a text: how many numbers are the same, and a line for each that is another one. With them
    the numbers of the trace, cycle by cycle."""
    widths, cycles = read(trace)
    with open(text) as file:
        source = file.read()
    free = re.findall(r"`rvformal_\w+\s*(?:\[[^]]*\])?\s*(\w+)\s*;", source)
    kept = [n for n in cycles[0] if n not in free and n != "reset"]
    steps = []
    for k, cycle in enumerate(cycles):
        steps += [f"reset = {cycle['reset']};"]
        steps += [f"dut.{n} = {widths[n]}'d{cycle[n]};" for n in free]
        if k == 0:
            # a wire can't be assigned; a register's or a word's first number is what it holds
            regs = set(re.findall(r"(\w+)\s*(?:\[[^]]*\])?\s*<=", source))
            held = [n for n in kept if re.sub(r"\[\d+\]$", "", n.split(".")[-1]) in regs]
            steps += [f"dut.{n} = {widths[n]}'d{cycle[n]};" for n in held]
        steps += ["#1;"]
        steps += [f'$display("{k} {n} %0d", dut.{n});' for n in kept]
        steps += ["clock = 1; #1; clock = 0; #1;"]
    same, others = 0, []
    for line in simulated(source, steps, channels=channels).splitlines():
        parts = line.split()
        if len(parts) == 3 and parts[0].isdigit():
            wanted = cycles[int(parts[0])][parts[1]]
            if parts[2] == str(wanted):
                same += 1
            else:
                others.append(f"cycle {parts[0]} {parts[1]} has {wanted} in the trace and {parts[2]} in Icarus Verilog")
    return same, others, cycles


def main():
    words = argparse.ArgumentParser()
    words.add_argument("--channels", type=int, default=1)
    words.add_argument("trace")
    words.add_argument("text")
    words = words.parse_args()
    same, others, cycles = replayed(words.trace, words.text, words.channels)
    for line in others:
        print(line)
    print(len(cycles), "cycles,", same, "numbers are the same,", len(others), "are not")
    return others != []


if __name__ == "__main__":
    sys.exit(main())
