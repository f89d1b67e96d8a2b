#!/usr/bin/env python3
"""Compares the instruction table with binutils and an emulator, on random operands. It is not part of the gate.

    tools/compare-instructions.py [--count N] [--seed N] [--folder FOLDER]

It needs binutils for RISC-V (riscv64-linux-gnu-as, -ld, -objdump, -objcopy) and qemu-riscv32: the Debian packages
binutils-riscv64-linux-gnu and qemu-user. It makes a copy of the crate
rv_table and a driver program in FOLDER (a fresh one if none is given), builds the driver by `rt run`, and compares:

1. each half word whose low bits aren't both 1: the row's name with the disassembler's, and the expansion with the word
   that the assembler makes of the base instruction that the disassembler's operands spell;
2. random words, most with an opcode of the table: the row's name with the disassembler's;
3. for each row, N instructions with random operands, written as text and encoded by the assembler: the row, the
   addresses of sources and destination, and the value of rd as the emulator computes it; of loads and stores also the
   bytes that the emulator reads and leaves, with and without aligned memory; of branches whether the emulator takes
   them; targets and links by the text's offsets and the instruction's length.
"""

import argparse
import os
import random
import re
import shutil
import struct
import subprocess
import sys
import tempfile

HERE = os.path.dirname(os.path.abspath(__file__))
TOOLS = "riscv64-linux-gnu-"
MASK = 0xFFFFFFFF

DRIVER = r"""//! Prints the row, the expansion and the effect of each word of the input.
#![tactic(auto)]

use rv_table::{Isa, Opts, Retire, effect_of, expand, row_name, row_of};
use std::io::{self, BufRead, BufReader, BufWriter, Write};

fn number(word: Option<&str>) -> u32 {
    match word {
        Some(text) => u32::from_str_radix(text, 16).unwrap_or(0),
        None => 0,
    }
}

fn main(rt: HostRuntime) -> io::Result<()> {
    let alloc = rt.alloc();
    let mut out = BufWriter::new(alloc, io::writer(&rt))?;
    for line in BufReader::new(alloc, rt.reader())?.lines(alloc) {
        let line = line?;
        let mut words = line.split(' ');
        let insn = number(words.next());
        let s1 = number(words.next());
        let s2 = number(words.next());
        let pc = number(words.next());
        let memory = number(words.next());
        let flags = number(words.next());
        let isa = Isa { m: true, c: true };
        let opts = Opts { aligned: flags & 1 != 0, altops: flags & 2 != 0, c: flags & 4 != 0 };
        let retire = Retire {
            order: 0, insn, trap: false, halt: false, intr: false, rs1_addr: 0, rs2_addr: 0, rd_addr: 0,
            rs1_rdata: s1, rs2_rdata: s2, rd_wdata: 0, pc_rdata: pc, pc_wdata: 0, mem_addr: 0,
            mem_rmask: 0, mem_wmask: 0, mem_rdata: memory, mem_wdata: 0,
        };
        let word = if insn < 65536 { expand((insn % 65536) as u16).unwrap_or(0) } else { 0 };
        match row_of(insn, isa) {
            None => writeln!(out, "none {word:x}")?,
            Some(row) => {
                let e = effect_of(row, &retire, opts);
                let name = row_name(row);
                let trap = if e.trap { 1 } else { 0 };
                write!(out, "{name} {word:x} {:x} {:x} {:x} {:x} ", e.rs1_addr, e.rs2_addr, e.rd_addr, e.rd_wdata)?;
                writeln!(out, "{:x} {:x} {:x} {:x} {:x} {trap}", e.pc_wdata, e.mem_addr, e.rmask, e.wmask, e.wdata)?;
            }
        }
    }
    out.flush()?;
    Ok(())
}
"""

BRANCHES = "beq bne blt bge bltu bgeu".split()
LOADS = {"lb": 1, "lh": 2, "lw": 4, "lbu": 1, "lhu": 2}
STORES = {"sb": 1, "sh": 2, "sw": 4}
IMMEDIATES = "addi slti sltiu xori ori andi".split()
SHIFTS = "slli srli srai".split()
REGISTERS = "add sub sll slt sltu xor srl sra or and mul mulh mulhsu mulhu div divu rem remu".split()
BASE = ["lui", "auipc", "jal", "jalr"] + BRANCHES + list(LOADS) + list(STORES) + IMMEDIATES + SHIFTS + REGISTERS
COMPRESSED = (
    "c.addi4spn c.lw c.sw c.addi c.jal c.li c.addi16sp c.lui c.srli c.srai c.andi c.sub c.xor c.or c.and c.j c.beqz "
    "c.bnez c.slli c.lwsp c.jr c.mv c.jalr c.add c.swsp"
).split()
CORNERS = [0, 1, 2, 0x7FFFFFFF, 0x80000000, 0x80000001, 0xFFFFFFFF, 0xFFFFFFFE, 31, 32, 0xFFFF, 0x8000, 0x80, 0x7F]


def run(*words, **more):
    return subprocess.run(words, check=True, stdout=subprocess.PIPE, stderr=subprocess.PIPE, **more).stdout


def signed(word):
    return word - (1 << 32) if word & 0x80000000 else word


class Folder:
    def __init__(self, path):
        self.path = path

    def file(self, name):
        return os.path.join(self.path, name)

    def write(self, name, data):
        with open(self.file(name), "wb" if isinstance(data, bytes) else "w") as out:
            out.write(data)
        return self.file(name)

    def read(self, name):
        with open(self.file(name), "rb") as source:
            return source.read()


def driver_of(folder):
    """Builds the driver, and answers the program's path."""
    crates = folder.file("crates")
    program = os.path.join(crates, "driver", "out", "driver")
    if os.path.exists(program):
        return program
    os.makedirs(os.path.join(crates, "driver", "src"))
    shutil.copytree(os.path.join(HERE, "..", "crates", "rv_table"), os.path.join(crates, "rv_table"),
                    ignore=shutil.ignore_patterns("out", "must-fail"))
    folder.write("crates.txt", "rv_table:\ndriver: rv_table\n")
    folder.write("crates/driver/src/main.rt", DRIVER)
    subprocess.run(["rt", "run"], cwd=os.path.join(crates, "driver"), stdin=subprocess.DEVNULL, check=True,
                   stdout=subprocess.DEVNULL)
    return program


def answers(program, cases):
    """What the crate says of each (word, s1, s2, pc, memory, flags)."""
    text = "".join("%x %x %x %x %x %x\n" % case for case in cases)
    lines = run(program, input=text.encode()).decode().splitlines()
    assert len(lines) == len(cases), (len(lines), len(cases))
    return [line.split() for line in lines]


def effect(answer):
    names = "rs1 rs2 rd value pc address rmask wmask wdata trap".split()
    return dict(zip(names, (int(word, 16) for word in answer[2:])))


def assembled(folder, texts, march="rv32imc"):
    """The word of each text: each stands behind a label of its own."""
    source = ".option norelax\n.text\n" + "".join("L%d:\n%s\n" % row for row in enumerate(texts)) + "Lend:\n"
    if march == "rv32im":
        source = ".option norvc\n" + source
    run(TOOLS + "as", "-march=" + march, "-mabi=ilp32", "-mno-arch-attr", "-o", folder.file("text.o"),
        folder.write("text.s", source))
    run(TOOLS + "objcopy", "-O", "binary", "-j", ".text", folder.file("text.o"), folder.file("text.bin"))
    data = folder.read("text.bin")
    words, at = [], 0
    while at < len(data):
        low = struct.unpack_from("<H", data, at)[0]
        if low & 3 == 3:
            words.append(struct.unpack_from("<I", data, at)[0])
            at += 4
        else:
            words.append(low)
            at += 2
    assert len(words) == len(texts), (len(words), len(texts))
    return words


def disassembled(folder, data):
    """(address, name, operands) of each instruction of raw bytes."""
    folder.write("raw.bin", data)
    text = run(TOOLS + "objdump", "-D", "-b", "binary", "-m", "riscv:rv32", "-M", "no-aliases,numeric",
               folder.file("raw.bin")).decode()
    found = {}
    for line in text.splitlines():
        parts = re.match(r"\s*([0-9a-f]+):\t([0-9a-f ]+?)\s*\t(\S+)(?:\t(\S*))?", line)
        if parts:
            found[int(parts.group(1), 16)] = (parts.group(3), parts.group(4) or "")
    return found


# ---- 1. half words

def base_text(name, operands, address):
    """The base instruction of a disassembled compressed one."""
    x = operands.split(",")
    offset = lambda word: ".%+d" % (int(word, 16) - address)
    if name == "c.addi4spn":
        return "addi %s,%s,%s" % tuple(x)
    if name == "c.addi16sp":
        return "addi %s,%s,%s" % (x[0], x[0], x[1])
    if name in ("c.lw", "c.lwsp", "c.sw", "c.swsp"):
        return "%s %s" % (name[2:4], operands)
    if name in ("c.addi", "c.andi"):
        return "%s %s,%s,%s" % (name[2:], x[0], x[0], x[1])
    if name == "c.nop":
        return "addi x0,x0,%s" % (x[0] or "0")
    if name == "c.li":
        return "addi %s,x0,%s" % tuple(x)
    if name == "c.lui":
        return "lui %s,%s" % tuple(x)
    if name in ("c.slli", "c.srli", "c.srai"):
        return "%s %s,%s,%s" % (name[2:], x[0], x[0], x[1])
    if name in ("c.slli64", "c.srli64", "c.srai64"):
        return "%s %s,%s,0" % (name[2:6], x[0], x[0])
    if name in ("c.sub", "c.xor", "c.or", "c.and", "c.add"):
        return "%s %s,%s,%s" % (name[2:], x[0], x[0], x[1])
    if name == "c.mv":
        return "add %s,x0,%s" % tuple(x)
    if name in ("c.jal", "c.j"):
        return "jal %s,%s" % ("x1" if name == "c.jal" else "x0", offset(x[0]))
    if name in ("c.beqz", "c.bnez"):
        return "%s %s,x0,%s" % (name[2:5], x[0], offset(x[1]))
    if name in ("c.jr", "c.jalr"):
        return "jalr %s,0(%s)" % ("x0" if name == "c.jr" else "x1", x[0])
    return None


SAME_ROW = {"c.nop": "c.addi", "c.slli64": "c.slli", "c.srli64": "c.srli", "c.srai64": "c.srai"}


def compare_halves(folder, program):
    # behind each half word stands a 2-byte `c.nop`, so that all offsets are even and addresses are known
    halves = [half for half in range(65536) if half & 3 != 3]
    raw = b"".join(struct.pack("<HH", half, 1) for half in halves)
    found = disassembled(folder, raw)
    got = answers(program, [(half, 0, 0, 0, 0, 0) for half in halves])
    faults, texts, wanted, named = [], [], [], 0
    for index, half in enumerate(halves):
        name, operands = found[4 * index]
        row = SAME_ROW.get(name, name)
        row = row.replace(".", "_") if row in COMPRESSED else "none"
        if name in ("c.addi16sp", "c.lui") and int(operands.split(",")[1], 0) == 0:
            row = "none"  # reserved by the manual; the disassembler prints it all the same
        if name in ("c.slli", "c.srli", "c.srai") and int(operands.split(",")[1], 0) > 31:
            row = "none"  # of RV64C
        if got[index][0] != row:
            faults.append("half %04x: %s, disassembler %s %s" % (half, got[index][0], name, operands))
        elif row == "none":
            if got[index][1] != "0":
                faults.append("half %04x has an expansion" % half)
        else:
            named += 1
            texts.append(base_text(name, operands, 4 * index))
            wanted.append((half, int(got[index][1], 16)))
    for (half, word), other, text in zip(wanted, assembled(folder, texts, "rv32im"), texts):
        if word != other:
            faults.append("half %04x expands to %08x, assembler %08x of %s" % (half, word, other, text))
    print("half words: %d, of them %d of a row, with their expansions: %d faults" % (len(halves), named, len(faults)))
    return faults


# ---- 2. random words

def compare_words(folder, program, count):
    opcodes = [0x37, 0x17, 0x6F, 0x67, 0x63, 0x03, 0x23, 0x13, 0x33]
    words = []
    for _ in range(count):
        word = random.getrandbits(32)
        if random.random() < 0.95:
            word = word & ~0x7F | random.choice(opcodes)
        if random.random() < 0.5:
            word = word & 0x01FFFFFF | random.choice([0, 1, 0x20]) << 25
        # five ones at the end begin a longer instruction, which would take the next word along
        words.append(word & ~0x10 | 3 if word & 0x1C == 0x1C else word | 3)
    found = disassembled(folder, b"".join(struct.pack("<I", word) for word in words))
    got = answers(program, [(word, 0, 0, 0, 0, 0) for word in words])
    faults = []
    for index, word in enumerate(words):
        name, operands = found.get(4 * index, ("none", ""))
        row = name if name in BASE else "none"
        if name in SHIFTS and int(operands.split(",")[2], 0) > 31:
            row = "none"  # of RV64I
        if got[index][0] != row:
            faults.append("word %08x: %s, disassembler %s" % (word, got[index][0], name))
    rows = len({answer[0] for answer in got} - {"none"})
    print("random words: %d, of %d rows: %d faults" % (len(words), rows, len(faults)))
    return faults


# ---- 3. operands and results

class Case:
    """An instruction as text, with what it reads and where its results are looked for."""

    def __init__(self, text, name, rs1=0, rs2=0, rd=0, size=4):
        self.text, self.name, self.rs1, self.rs2, self.rd, self.size = text, name, rs1, rs2, rd, size
        self.s1 = random.choice(CORNERS) if random.random() < 0.4 else random.getrandbits(32)
        self.s2 = random.choice(CORNERS) if random.random() < 0.4 else random.getrandbits(32)
        if rs1 == rs2:
            self.s2 = self.s1
        self.jump = self.load = self.store = self.immediate = None
        self.runs = True


def register():
    return random.choice([0, 1, 2, 3, 5, 8, 15, 16, 27])


def near():
    return random.randint(8, 15)


def far():
    return random.choice([1, 2, 3, 5, 8, 15, 16, 27])


def base_case(name):
    rd, rs1, rs2, immediate = register(), register(), register(), random.randint(-2048, 2047)
    if name == "lui":
        return Case("lui x%d,%d" % (rd, random.getrandbits(20)), name, rd=rd)
    if name == "auipc":
        upper = random.getrandbits(20)
        case = Case("auipc x%d,%d" % (rd, upper), name, rd=rd)
        case.runs, case.immediate = False, upper << 12
        return case
    if name == "jal":
        offset = 2 * random.randint(-(1 << 19), (1 << 19) - 1)
        case = Case("jal x%d,.%+d" % (rd, offset), name, rd=rd)
        case.jump, case.runs = lambda pc: (pc + offset) & MASK, False
        return case
    if name == "jalr":
        case = Case("jalr x%d,%d(x%d)" % (rd, immediate, rs1), name, rs1=rs1, rd=rd)
        case.jump = lambda pc: ((case.s1 if rs1 else 0) + immediate) & MASK & ~1
        case.runs = False
        return case
    if name in BRANCHES:
        offset = 2 * random.randint(-2048, 2047)
        case = Case("%s x%d,x%d,.%+d" % (name, rs1, rs2, offset), name, rs1=rs1, rs2=rs2)
        case.jump = lambda pc: (pc + offset) & MASK
        return case
    if name in LOADS:
        case = Case("%s x%d,%d(x%d)" % (name, rd, immediate, rs1 or 1), name, rs1=rs1 or 1, rd=rd, size=LOADS[name])
        case.load = immediate
        return case
    if name in STORES:
        rs1 = rs1 or 1
        case = Case("%s x%d,%d(x%d)" % (name, rs2, immediate, rs1), name, rs1=rs1, rs2=rs2, size=STORES[name])
        case.store = immediate
        return case
    if name in IMMEDIATES:
        return Case("%s x%d,x%d,%d" % (name, rd, rs1, immediate), name, rs1=rs1, rd=rd)
    if name in SHIFTS:
        amount = random.choice([0, 31, random.randint(0, 31)])
        return Case("%s x%d,x%d,%d" % (name, rd, rs1, amount), name, rs1=rs1, rd=rd)
    return Case("%s x%d,x%d,x%d" % (name, rd, rs1, rs2), name, rs1=rs1, rs2=rs2, rd=rd)


def compressed_case(name):
    a, b, d, t = near(), near(), far(), far()
    six = random.choice([-32, -1, 1, 31, random.randint(1, 31)])
    if name == "c.addi4spn":
        return Case("%s x%d,x2,%d" % (name, a, 4 * random.randint(1, 255)), name, rs1=2, rd=a)
    if name == "c.lw":
        offset = 4 * random.randint(0, 31)
        case = Case("%s x%d,%d(x%d)" % (name, a, offset, b), name, rs1=b, rd=a)
        case.load = offset
        return case
    if name == "c.sw":
        offset = 4 * random.randint(0, 31)
        case = Case("%s x%d,%d(x%d)" % (name, a, offset, b), name, rs1=b, rs2=a)
        case.store = offset
        return case
    if name == "c.addi":
        return Case("%s x%d,%d" % (name, d, six), name, rs1=d, rd=d)
    if name in ("c.jal", "c.j"):
        offset = 2 * random.randint(-1024, 1023)
        case = Case("%s .%+d" % (name, offset), name, rd=1 if name == "c.jal" else 0)
        case.jump, case.runs = lambda pc: (pc + offset) & MASK, False
        return case
    if name == "c.li":
        return Case("%s x%d,%d" % (name, d, six), name, rd=d)
    if name == "c.addi16sp":
        return Case("%s x2,%d" % (name, 16 * six), name, rs1=2, rd=2)
    if name == "c.lui":
        d = d if d != 2 else 1
        return Case("%s x%d,%d" % (name, d, six if six > 0 else (1 << 20) + six), name, rd=d)
    if name in ("c.srli", "c.srai"):
        return Case("%s x%d,%d" % (name, a, random.choice([31, random.randint(1, 31)])), name, rs1=a, rd=a)
    if name == "c.slli":
        return Case("%s x%d,%d" % (name, d, random.choice([31, random.randint(1, 31)])), name, rs1=d, rd=d)
    if name == "c.andi":
        return Case("%s x%d,%d" % (name, a, six), name, rs1=a, rd=a)
    if name in ("c.sub", "c.xor", "c.or", "c.and"):
        return Case("%s x%d,x%d" % (name, a, b), name, rs1=a, rs2=b, rd=a)
    if name in ("c.beqz", "c.bnez"):
        offset = 2 * random.randint(-128, 127)
        case = Case("%s x%d,.%+d" % (name, a, offset), name, rs1=a)
        case.jump = lambda pc: (pc + offset) & MASK
        if random.random() < 0.5:
            case.s1 = 0
        return case
    if name == "c.lwsp":
        offset = 4 * random.randint(0, 63)
        case = Case("%s x%d,%d(x2)" % (name, d, offset), name, rs1=2, rd=d)
        case.load = offset
        return case
    if name == "c.swsp":
        offset = 4 * random.randint(0, 63)
        case = Case("%s x%d,%d(x2)" % (name, t, offset), name, rs1=2, rs2=t)
        case.store = offset
        return case
    if name in ("c.jr", "c.jalr"):
        case = Case("%s x%d" % (name, d), name, rs1=d, rd=1 if name == "c.jalr" else 0)
        case.jump, case.runs = lambda pc: case.s1 & ~1, False
        return case
    if name == "c.mv":
        return Case("%s x%d,x%d" % (name, d, t), name, rs2=t, rd=d)
    return Case("%s x%d,x%d" % (name, d, t), name, rs1=d, rs2=t, rd=d)


MEMORY = 0x800000


def emulated(folder, cases):
    """Of each case the value of rd (1 or 0 of a branch: taken or not), and its 16 bytes of memory behind it."""
    lines, memory = [".option norelax", ".text", ".globl _start", "_start:"], []
    for index, case in enumerate(cases):
        place = MEMORY + 32 * index
        memory.append(case.memory)
        scratch = next(number for number in (31, 30, 29) if number not in (case.rd, case.rs1, case.rs2))
        if case.rs2:
            lines.append("li x%d,%d" % (case.rs2, case.s2))
        if case.rs1:
            lines.append("li x%d,%d" % (case.rs1, case.s1))
        if case.jump:
            text = re.sub(r"\.[+-]\d+$", "T%d" % index, case.text)
            lines += ["li x%d,1" % scratch, text, "li x%d,0" % scratch, "T%d:" % index, "li x4,%d" % (place + 16),
                      "sw x%d,0(x4)" % scratch]
        else:
            lines += [case.text, "li x%d,%d" % (scratch, place + 16), "sw x%d,0(x%d)" % (case.rd, scratch)]
    size = 32 * len(cases)
    lines += ["li a0,1", "li a1,%d" % MEMORY, "li a2,%d" % size, "li a7,64", "ecall", "li a0,0", "li a7,93", "ecall",
              ".data"]
    for data in memory:
        lines.append(".byte " + ",".join(str(byte) for byte in data) + "," + ",".join(["0"] * 16))
    run(TOOLS + "as", "-march=rv32imc", "-mabi=ilp32", "-o", folder.file("emulated.o"),
        folder.write("emulated.s", "\n".join(lines) + "\n"))
    run(TOOLS + "ld", "-m", "elf32lriscv", "--no-relax", "-Tdata=0x%x" % MEMORY, "-o", folder.file("emulated"),
        folder.file("emulated.o"))
    data = run("qemu-riscv32", folder.file("emulated"))
    assert len(data) == size, (len(data), size)
    return [(struct.unpack_from("<I", data, 32 * index + 16)[0], data[32 * index:32 * index + 16])
            for index in range(len(cases))]


def compare_results(folder, program, count):
    cases = []
    for name in BASE:
        cases += [base_case(name) for _ in range(count)]
    for name in COMPRESSED:
        cases += [compressed_case(name) for _ in range(count)]
    running = [case for case in cases if case.runs]
    for index, case in enumerate(running):
        case.memory = bytes(random.getrandbits(8) for _ in range(16))
        offset = case.load if case.load is not None else case.store
        case.address = MEMORY + 32 * index + random.randint(0, 11)
        if offset is not None:
            case.s1 = (case.address - offset) & MASK
            if case.rs1 == case.rs2:
                case.s2 = case.s1
    results = dict(zip(map(id, running), emulated(folder, running)))
    words = assembled(folder, [case.text if case.name.startswith("c.") else norvc(case.text) for case in cases])
    questions, checks = [], []
    for case, word in zip(cases, words):
        for flags in range(8):
            if flags & 2 and case.name in REGISTERS[10:]:
                continue
            pc = random.getrandbits(31) * 2
            read = 0
            if case.load is not None:
                start = case.address - (case.address % 4 if flags & 1 else 0)
                data = case.memory[start % 32:] + bytes(4)
                read = struct.unpack_from("<I", data)[0]
            questions.append((word, case.s1, case.s2, pc, read, flags))
            checks.append((case, word, pc, flags))
    faults = []
    for (case, word, pc, flags), answer in zip(checks, answers(program, questions)):
        wanted = wanted_of(case, pc, flags, results.get(id(case)))
        got = effect(answer) if answer[0] != "none" else {}
        got["row"] = answer[0]
        if case.store is not None and not got.get("trap"):
            left = bytearray(case.memory)
            for byte in range(4):
                if got["wmask"] >> byte & 1:
                    left[got["address"] + byte - case.address // 32 * 32] = got["wdata"] >> 8 * byte & 255
            got["left"] = bytes(left)
        wrong = {key: (got.get(key), value) for key, value in wanted.items() if got.get(key) != value}
        if wrong:
            faults.append("%s = %x, s1 %x, s2 %x, pc %x, flags %d: %s" % (case.text, word, case.s1, case.s2, pc, flags, wrong))
    print("results: %d instructions of %d rows, %d with the emulator, each with up to 8 options: %d faults"
          % (len(cases), len(BASE) + len(COMPRESSED), len(running), len(faults)))
    return faults


def norvc(text):
    return ".option push\n.option norvc\n%s\n.option pop" % text


def wanted_of(case, pc, flags, result):
    """What the text's operands and the emulator say of the effect."""
    length = 2 if case.name.startswith("c.") else 4
    wanted = {"row": case.name.replace(".", "_"), "rs1": case.rs1, "rs2": case.rs2, "rd": case.rd,
              "pc": (pc + length) & MASK, "trap": 0, "rmask": 0, "wmask": 0}
    value = result[0] if result else 0
    if case.jump:
        taken = value if case.runs else 1
        value = (pc + length) & MASK if case.rd else 0
        if taken:
            wanted["pc"] = case.jump(pc)
            wanted["trap"] = int(wanted["pc"] % 4 != 0 and not flags & 4)
    elif case.name == "auipc":
        value = (pc + case.immediate) & MASK if case.rd else 0
    wanted["value"] = value
    if case.load is not None or case.store is not None:
        place = case.address % 4 if flags & 1 else 0
        wanted["address"] = case.address - place
        mask = ((1 << case.size) - 1) << place & 15
        wanted["rmask" if case.load is not None else "wmask"] = mask
        if flags & 1 and case.address % case.size:
            wanted["trap"] = 1
            del wanted["value"]
        elif case.store is not None:
            wanted["left"] = result[1]
    return wanted


def main():
    words = argparse.ArgumentParser()
    words.add_argument("--count", type=int, default=40)
    words.add_argument("--seed", type=int, default=1)
    words.add_argument("--folder")
    words = words.parse_args()
    random.seed(words.seed)
    folder = Folder(words.folder or tempfile.mkdtemp())
    program = driver_of(folder)
    faults = compare_halves(folder, program)
    faults += compare_words(folder, program, 1000 * words.count)
    faults += compare_results(folder, program, words.count)
    for fault in faults[:40]:
        print(fault)
    sys.exit(1 if faults else 0)


if __name__ == "__main__":
    main()
