#!/usr/bin/env python3
"""Compares what `check_cases` answers to cases of kind `circuit` with what an emulator does: the corner operands of each
row, and random ones. Not part of the gate.

    tools/emulate-circuits.py [--count N] [--seed N] [PROGRAM]

It needs binutils for RISC-V (riscv64-linux-gnu-as, -ld) and qemu-riscv32, of version 7.2 or later for Zba and Zbs: the
Debian packages binutils-riscv64-linux-gnu and qemu-user. It says which of them it lacks. The instructions are the words
that tools/circuit-cases.py makes, with N random cases a row. Each stands alone among breakpoints, with its operands in
its registers, so that a signal tells where it goes and what it leaves. The result, the next program counter and memory
are the emulator's; the addresses of registers, where an instruction traps, and masks are those of
tools/circuit-cases.py. Without a program it compares the emulator with the rules there.
"""
import argparse
import importlib.util
import os
import random
import shutil
import struct
import subprocess
import sys
import tempfile

HERE = os.path.dirname(os.path.abspath(__file__))
TOOLS = "riscv64-linux-gnu-"
EMULATOR = ["qemu-riscv32", "-cpu", "rv32,zba=true,zbs=true"]
BINUTILS = "binutils-riscv64-linux-gnu"
PACKAGES = {TOOLS + "as": BINUTILS, TOOLS + "ld": BINUTILS, EMULATOR[0]: "qemu-user"}
MASK = 0xFFFFFFFF
CODE, REACH = 0x40000000, 1 << 20  # a jump reaches no further
MEMORY, BYTES = 0x20000000, 16
BREAKPOINT = 0x9002

# A case is a program counter, the instruction with a breakpoint behind it, the registers from x1 on, and the bytes of
# memory; a result is a signal, and the same without the instruction. The handler of a signal keeps the result of the
# case before, and returns to the next one.
HARNESS = """
.option norelax
.equ CONTEXT, 160
.text
.globl _start
_start:
    li a0, {code}
    li a1, {size}
    call map
    li a0, {memory}
    li a1, 4096
    call map
    li t0, {code}
    li t1, {code} + {size}
    li t2, {breakpoint} * 0x10001
1:  sw t2, 0(t0)
    addi t0, t0, 4
    bltu t0, t1, 1b
    la a0, stack
    li a1, 0
    li a7, 132
    ecall
    la s0, signals
1:  lw a0, 0(s0)
    la a1, action
    li a2, 0
    li a3, 8
    li a7, 134
    ecall
    addi s0, s0, 4
    la s1, action
    bltu s0, s1, 1b
    ebreak
map:
    li a2, 7
    li a3, 0x32
    li a4, -1
    li a5, 0
    li a7, 222
    ecall
    ret
copy:
    lw t6, 0(t4)
    sw t6, 0(t3)
    addi t4, t4, 4
    addi t3, t3, 4
    addi t5, t5, -1
    bnez t5, copy
    jr s1
handler:
    mv s0, ra
    la t0, at
    lw t1, 0(t0)
    beqz t1, 1f
    la t2, place
    lw t3, 0(t2)
    sw a0, 0(t3)
    addi t3, t3, 4
    addi t4, a2, CONTEXT
    li t5, 32
    jal s1, copy
    li t4, {memory}
    li t5, {bytes} / 4
    jal s1, copy
    sw t3, 0(t2)
    lw t4, 0(t1)
    li t5, {breakpoint}
    sh t5, 0(t4)
    sh t5, 2(t4)
    addi t1, t1, {case}
    j 2f
1:  la t1, cases
2:  sw t1, 0(t0)
    la t4, end
    beq t1, t4, done
    lw t4, 0(t1)
    lw t5, 4(t1)
    sh t5, 0(t4)
    srli t5, t5, 16
    sh t5, 2(t4)
    fence.i
    sw t4, CONTEXT(a2)
    addi t4, t1, 8
    addi t3, a2, CONTEXT + 4
    li t5, 31
    jal s1, copy
    li t3, {memory}
    li t5, {bytes} / 4
    jal s1, copy
    jr s0
done:
    la s2, results
    la s3, results_end
1:  li a0, 1
    mv a1, s2
    sub a2, s3, s2
    li a7, 64
    ecall
    add s2, s2, a0
    bltu s2, s3, 1b
    li a0, 0
    li a7, 93
    ecall
.data
.balign 16
at: .word 0
place: .word results
stack: .word stack_bytes, 0, 65536
signals: .word 4, 5, 7, 11
action: .word handler, 0x48000004, 0, 0
cases: .incbin "{file}"
end:
.bss
.balign 16
stack_bytes: .skip 65536
results: .skip {all}
results_end:
"""


def rules():
    """The script that makes the cases."""
    spec = importlib.util.spec_from_file_location("circuit_cases", os.path.join(HERE, "circuit-cases.py"))
    module = importlib.util.module_from_spec(spec)
    spec.loader.exec_module(module)
    return module


def reached(case):
    """The address that a load or store reaches."""
    return (case.s1 if case.rs1 else 0) + case.immediate & MASK


def settle(case, sizes):
    """Gives a case operands that the emulator can have: a place among breakpoints, an address of mapped memory, and one
    number where both sources are one register. None where it has no such operands, or jumps into itself."""
    case.pc = CODE + REACH + 0x1000 + 2 * random.randrange(0x800)
    case.chosen = case.chosen.replace("m", "")
    case.bytes = bytes(random.getrandbits(8) for _ in range(BYTES))
    if case.name in sizes:
        if not case.rs1:
            return None
        at = 4 + (reached(case) & 3) + 4 * random.randrange(2)
        case.s1 = MEMORY + at - case.immediate & MASK
        at -= at % 4 if "a" in case.chosen else 0
        case.memory = struct.unpack_from("<I", case.bytes, at)[0]
    case.s1 = case.s1 if case.rs1 else 0
    case.s2 = case.s1 if case.rs1 == case.rs2 else case.s2 if case.rs2 else 0
    return None if case.effect()["pc"] - case.pc in range(case.length) else case


def registers(case):
    """The numbers of x1 to x31."""
    numbers = [random.getrandbits(32) for _ in range(32)]
    numbers[case.rs1], numbers[case.rs2] = case.s1, case.s2
    if case.rs2 == 0:
        numbers[case.rs1] = case.s1
    return numbers[1:]


def run(*words):
    return subprocess.run(words, check=True, stdout=subprocess.PIPE, timeout=600).stdout


def emulated(made):
    """Of each case the signal, the program counter, the registers and memory behind it."""
    given = [registers(case) for case in made]
    with tempfile.TemporaryDirectory() as folder:
        file = lambda name: os.path.join(folder, name)
        with open(file("cases"), "wb") as out:
            for case, numbers in zip(made, given):
                word = case.word if case.length == 4 else case.word | BREAKPOINT << 16
                out.write(struct.pack("<33I", case.pc, word, *numbers) + case.bytes)
        size = 132 + BYTES
        with open(file("harness.s"), "w") as out:
            out.write(HARNESS.format(code=CODE, size=2 * REACH + 0x4000, memory=MEMORY, bytes=BYTES, case=size,
                                     breakpoint=BREAKPOINT, file=file("cases"), all=size * len(made)))
        run(TOOLS + "as", "-march=rv32imc_zifencei", "-mabi=ilp32", "-o", file("harness.o"), file("harness.s"))
        run(TOOLS + "ld", "-m", "elf32lriscv", "--no-relax", "-Ttext=0x30000000", "-o", file("harness"),
            file("harness.o"))
        data = run(*EMULATOR, file("harness"))
    assert len(data) == size * len(made), (len(data), size * len(made))
    for index, (case, numbers) in enumerate(zip(made, given)):
        signal, pc, *left = struct.unpack_from("<33I", data, size * index)
        changed = [place for place in range(31) if left[place] != numbers[place]]
        assert changed in ([], [case.rd - 1]), (case.line(), changed)
        yield signal, pc, [0] + left, data[size * index + 132:size * (index + 1)]


def stored(case, effect):
    """Memory behind a store of this effect."""
    left = bytearray(case.bytes)
    for byte in range(4):
        if effect["wmask"] >> byte & 1:
            left[effect["address"] + byte - MEMORY] = effect["wdata"] >> 8 * byte & 255
    return bytes(left)


def wanted(case, result):
    """The effect, with what the emulator says of it; what a trap leaves isn't compared."""
    signal, pc, left, memory = result
    effect = case.effect()
    if effect["trap"]:
        return effect, effect["pc"] == pc or "a" in case.chosen
    agrees = (effect["pc"], effect["value"], stored(case, effect)) == (pc, left[case.rd] if case.rd else 0, memory)
    return dict(effect, pc=pc, value=left[case.rd] if case.rd else 0), agrees


def main():
    words = argparse.ArgumentParser()
    words.add_argument("--count", type=int, default=50)
    words.add_argument("--seed", type=int, default=1)
    words.add_argument("program", nargs="?")
    words = words.parse_args()
    lacking = sorted({package for tool, package in PACKAGES.items() if shutil.which(tool) is None})
    if lacking:
        sys.exit("the Debian packages %s aren't there" % ", ".join(lacking))
    random.seed(words.seed)
    cases = rules()
    made = [case for case in (settle(case, cases.SIZES) for case in cases.cases(words.count)) if case]
    judged = [wanted(case, result) for case, result in zip(made, emulated(made))]
    differing = [(case, effect) for case, (effect, agrees) in zip(made, judged) if not agrees]
    for case, effect in differing[:20]:
        print("%s: the rules say %s, the emulator %s" % (case.line(), case.effect(), effect))
    print("%d cases of %d rows in the emulator, %d against the rules"
          % (len(made), len({case.row for case in made}), len(differing)))
    if words.program and not differing:
        cases.compare(made, [cases.answer(case, effect) for case, (effect, _) in zip(made, judged)], words.program)
    sys.exit(1 if differing else 0)


if __name__ == "__main__":
    main()
