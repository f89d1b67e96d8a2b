#!/usr/bin/env python3
"""Replays each trace that `rvf cover` left in Icarus Verilog, and has binutils read what retires in its last cycle.

    tools/replay-targets.py [--channels N] OUTDIR TEXT.v

OUTDIR has the traces, `any_KIND.vcd` and `hit_ROW_chN.vcd`; TEXT.v is the text of the targets with all its macros but
the predefined ones, as tools/replay-trace.py takes it. It needs the Debian packages iverilog and
binutils-riscv64-linux-gnu.
"""
import argparse
import os
import re
import struct
import sys
import tempfile

import made

instructions = made.script("compare-instructions")
replay = made.script("replay-trace")


def row_of(folder, word):
    """The row of a word, as the disassembler names it."""
    data = struct.pack("<I", word) if word & 3 == 3 else struct.pack("<H", word & 0xFFFF)
    name = instructions.disassembled(folder, data)[0][0]
    return instructions.SAME_ROW.get(name, name).replace(".", "_")


def fault_of(folder, name, last):
    """What is wrong with the last cycle of a target's trace, if anything is."""
    parts = re.fullmatch(r"hit_(\w+)_ch(\d+)", name)
    if not parts:
        return None
    row, channel = parts.group(1), int(parts.group(2))
    if not last["rvfi_valid"] >> channel & 1:
        return "nothing retires"
    found = row_of(folder, last["rvfi_insn"] >> 32 * channel & 0xFFFFFFFF)
    return None if found == row else f"{found} retires"


def main():
    words = argparse.ArgumentParser()
    words.add_argument("--channels", type=int, default=1)
    words.add_argument("folder")
    words.add_argument("text")
    words = words.parse_args()
    names = sorted(name[:-4] for name in os.listdir(words.folder) if name.endswith(".vcd"))
    count, faults = 0, []
    with tempfile.TemporaryDirectory() as path:
        for name in names:
            trace = os.path.join(words.folder, name + ".vcd")
            same, others, cycles = replay.replayed(trace, words.text, words.channels)
            count += same
            fault = fault_of(instructions.Folder(path), name, cycles[-1])
            faults += [f"{name}: {line}" for line in others + ([fault] if fault else [])]
    for line in faults:
        print(line)
    print(len(names), "traces,", count, "numbers are the same,", len(faults), "faults")
    return faults != []


if __name__ == "__main__":
    sys.exit(main())
