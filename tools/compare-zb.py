#!/usr/bin/env python3
"""Compares which words the rows of Zba and Zbs have with binutils and an emulator. Not part of the gate.

    tools/compare-zb.py [--count N] [--seed N]

For each row N words are assembled of text with random registers and with the least and the greatest number of a bit,
and each bit of each of these words is turned. The row that the program says of each word is the one that the
disassembler names; the registers and rd's value of an assembled word are those of its text, by the rules of
tools/circuit-cases.py. The disassembler takes bit 25 of a word with an immediate, which the manual reserves for RV32:
there the emulator's illegal instruction is the judge. The program is what `rt try` makes of `rv_zb` without proofs.

It needs binutils for RISC-V (riscv64-linux-gnu-as, -ld, -objdump) and qemu-riscv32, of version 7.2 or later: the Debian
packages binutils-riscv64-linux-gnu and qemu-user. It says which of them it lacks.
"""
import argparse
import random
import re
import shutil
import signal
import subprocess
import sys
import tempfile

import made

rules = made.script("circuit-cases")
emulator = made.script("emulate-circuits")
instructions = made.script("compare-instructions")

TOOLS = instructions.TOOLS
PACKAGES = dict(emulator.PACKAGES, **{TOOLS + "objdump": emulator.BINUTILS})
ARCHITECTURE = ["-march=rv32imc_zba_zbs", "-mabi=ilp32"]
RESERVED = 25  # of the words with an immediate
IMMEDIATES = list(rules.ZB_OF_IMMEDIATE)
ROWS = list(rules.ZB) + IMMEDIATES

DRIVER = r"""//! Prints the row of Zba or Zbs, or of the base table, and the effect of each word of the input.
#![tactic(auto)]

use rv_table::{Isa, Retire, row_name, row_of};
use rv_zb::{zb_effect, zb_name, zb_row_of};
use std::io::{self, BufRead, BufReader, BufWriter, Write};

fn number(word: Option<&str>) -> u32 {
    match word {
        Some(text) => u32::from_str_radix(text, 16).unwrap_or(0),
        None => 0,
    }
}

fn main(rt: HostRuntime) -> io::Result<()> {
    let alloc = rt.alloc();
    let mut out = BufWriter::new(alloc, io::writer(&rt))?;
    for line in BufReader::new(alloc, rt.reader())?.lines(alloc) {
        let line = line?;
        let mut words = line.split(' ');
        let insn = number(words.next());
        let s1 = number(words.next());
        let s2 = number(words.next());
        let base = row_of(insn, Isa { m: true, c: true }).map_or("none", row_name);
        let retire = Retire {
            order: 0, insn, trap: false, halt: false, intr: false, rs1_addr: 0, rs2_addr: 0, rd_addr: 0,
            rs1_rdata: s1, rs2_rdata: s2, rd_wdata: 0, pc_rdata: 0x100, pc_wdata: 0, mem_addr: 0,
            mem_rmask: 0, mem_wmask: 0, mem_rdata: 0, mem_wdata: 0,
        };
        match zb_row_of(insn) {
            None => writeln!(out, "none {base}")?,
            Some(row) => {
                let e = zb_effect(row, &retire);
                let name = zb_name(row);
                let (rs1, rs2, rd) = (e.rs1_addr, e.rs2_addr, e.rd_addr);
                writeln!(out, "{name} {base} {rs1} {rs2} {rd} {} {}", e.rd_wdata, e.pc_wdata)?;
            }
        }
    }
    out.flush()?;
    Ok(())
}
"""


def case_of(name, number):
    """An instruction of a row, with the number of its bit where its text has one."""
    register = lambda: random.choice([0, 1, 2, 3, 5, 8, 15, 16, 27, 31])
    if name in IMMEDIATES:
        case = rules.Case(name, register(), register(), 0, number)
    else:
        case = rules.Case(name, register(), register(), register())
    value = lambda: random.choice(rules.CORNERS + [random.getrandbits(32)])
    case.finds(value(), value())
    if case.rs1 == case.rs2:
        case.s2 = case.s1
    return case


def text_of(case):
    last = str(case.immediate) if case.name in IMMEDIATES else "x%d" % case.rs2
    return "%s x%d,x%d,%s" % (case.name, case.rd, case.rs1, last)


def object_of(folder, lines):
    """The name of the object file that is assembled of these lines."""
    source = ".option norelax\n.option norvc\n.text\n" + "\n".join(lines) + "\n"
    made_of = folder.write("text.s", source)
    instructions.run(TOOLS + "as", *ARCHITECTURE, "-o", folder.file("text.o"), made_of)
    return folder.file("text.o")


def read_back(folder, lines):
    """Of each instruction that these lines stand for, in order: its number, and the name that the disassembler has."""
    text = instructions.run(TOOLS + "objdump", "-d", "-M", "no-aliases,numeric", object_of(folder, lines)).decode()
    found = []
    for line in text.splitlines():
        parts = re.match(r"\s*[0-9a-f]+:\t([0-9a-f]+)\s+(\S+)", line)
        if parts:
            found.append((int(parts.group(1), 16), parts.group(2)))
    assert len(found) == len(lines), (len(found), len(lines))
    return found


def marked(word):
    """A word, or the half of one that is no word, marked as an instruction."""
    return ".insn 4, 0x%08x" % word if word & 3 == 3 else ".insn 2, 0x%04x" % (word & 0xFFFF)


def turned(folder, words):
    """Each of the words with one bit turned, and the row that the disassembler has for it."""
    pairs = [(word ^ 1 << bit, bit) for word in words for bit in range(32)]
    names = [name for _, name in read_back(folder, [marked(word) for word, _ in pairs])]
    return [(word, bit, name if name in ROWS else "none") for (word, bit), name in zip(pairs, names)]


def is_illegal(folder, word):
    """Whether the emulator stops at the word."""
    lines = [".globl _start", "_start:", ".insn 4, 0x%08x" % word, "li a0,0", "li a7,93", "ecall"]
    instructions.run(TOOLS + "ld", "-m", "elf32lriscv", "-o", folder.file("alone"), object_of(folder, lines))
    done = subprocess.run([*emulator.EMULATOR, folder.file("alone")], capture_output=True)
    assert done.returncode in (0, -signal.SIGILL), (hex(word), done.returncode)
    return done.returncode != 0


def judged(folder, words):
    """The row of each word with one bit turned, the emulator's where the disassembler isn't asked."""
    for word, bit, name in turned(folder, words):
        if bit == RESERVED and name in IMMEDIATES:
            name = "none" if is_illegal(folder, word) else name
        yield word, name


def answers(program, cases):
    """What the program says of each word with the values of its sources."""
    text = "".join("%x %x %x\n" % case for case in cases)
    lines = instructions.run(program, input=text.encode()).decode().splitlines()
    assert len(lines) == len(cases), (len(lines), len(cases))
    return [line.split() for line in lines]


def wanted(case):
    """The name and the effect of a case, as the program prints them."""
    effect = case.effect()
    return [case.name, "none"] + [str(effect[key]) for key in ("rs1", "rs2", "rd", "value", "pc")]


def compare(folder, program, count):
    cases = [case_of(name, random.choice([0, 31, random.randrange(32)])) for name in ROWS for _ in range(count)]
    texts = [text_of(case) for case in cases]
    words = read_back(folder, texts)
    faults = ["%s: the disassembler has %s" % (text, name)
              for text, case, (_, name) in zip(texts, cases, words) if name != case.name]
    given = answers(program, [(word, case.s1, case.s2) for (word, _), case in zip(words, cases)])
    faults += ["%s = %08x: %s, and not %s" % (text, word, got, wanted(case))
               for text, (word, _), case, got in zip(texts, words, cases, given) if got != wanted(case)]
    others = list(judged(folder, [word for word, _ in words]))
    given = answers(program, [(word, 0, 0) for word, _ in others])
    faults += ["%08x: %s, and not %s" % (word, got, name)
               for (word, name), got in zip(others, given) if got[0] != name or name != "none" and got[1] != "none"]
    named = sum(name != "none" for _, name in others)
    print("%d words of %d rows, and %d with one bit turned, of which %d are of a row: %d faults"
          % (len(words), len(ROWS), len(others), named, len(faults)))
    return faults


def main():
    words = argparse.ArgumentParser()
    words.add_argument("--count", type=int, default=20)
    words.add_argument("--seed", type=int, default=1)
    words = words.parse_args()
    lacking = sorted({package for tool, package in PACKAGES.items() if shutil.which(tool) is None})
    if lacking:
        sys.exit("the Debian packages %s aren't there" % ", ".join(lacking))
    random.seed(words.seed)
    with tempfile.TemporaryDirectory() as path, made.unproved("driver", DRIVER, ["rv_table", "rv_zb"]) as program:
        faults = compare(instructions.Folder(path), program, words.count)
    for fault in faults[:40]:
        print(fault)
    sys.exit(1 if faults else 0)


if __name__ == "__main__":
    main()
