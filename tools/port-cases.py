#!/usr/bin/env python3
"""Writes the cases of kind `port` into the stdin of `check_cases`, and their answers into its stdout: designs whose
outputs are the fields of RVFI, each of them left out, of another width, or no output, alone and with another fault
before it or behind it. The names and widths are those of the RISC-V Formal Interface, in the order of its table; no
answer comes from the program.

    tools/port-cases.py
"""
import random

import program_cases

FIELDS = [
    ("rvfi_valid", 1), ("rvfi_order", 64), ("rvfi_insn", 32), ("rvfi_trap", 1), ("rvfi_halt", 1), ("rvfi_intr", 1),
    ("rvfi_rs1_addr", 5), ("rvfi_rs2_addr", 5), ("rvfi_rs1_rdata", 32), ("rvfi_rs2_rdata", 32), ("rvfi_rd_addr", 5),
    ("rvfi_rd_wdata", 32), ("rvfi_pc_rdata", 32), ("rvfi_pc_wdata", 32), ("rvfi_mem_addr", 32), ("rvfi_mem_rmask", 4),
    ("rvfi_mem_wmask", 4), ("rvfi_mem_rdata", 32), ("rvfi_mem_wdata", 32),
]
IMEM = [("imem_addr", 32), ("imem_data", 16)]
DMEM = [("dmem_addr", 32)]


def names(channels):
    """The outputs of a design: for each field its width and a random number of each channel."""
    made = {}
    for name, width in FIELDS:
        made[name] = [True, width * channels, [random.getrandbits(width) for _ in range(channels)]]
    for name, width in IMEM + DMEM:
        made[name] = [True, width, [random.getrandbits(width)]]
    return made


def line(channels, wants, design):
    words = ["%d %s" % (channels, wants or "-")]
    for name, (output, width, numbers) in design.items():
        each = width // len(numbers)
        number = sum(number << each * place for place, number in enumerate(numbers))
        words.append("%s:%s:%d:%x" % (name, "o" if output else "w", width, number))
    return " ".join(words)


def answer(channels, wants, design):
    asked = [(name, width * channels) for name, width in FIELDS]
    asked += IMEM if "i" in wants else []
    asked += DMEM if "d" in wants else []
    for name, width in asked:
        if name not in design or not design[name][0]:
            return "missing " + name
        if design[name][1] != width:
            return "width %s %d %d" % (name, design[name][1], width)
    if "d" in wants and "a" not in wants:
        return "needs aligned"
    numbers = lambda names, channel: " ".join("%x" % design[name][2][channel] for name, _ in names)
    parts = ["channel " + numbers(FIELDS, channel) for channel in range(channels)]
    parts += ["imem " + numbers(IMEM, 0)] if "i" in wants else []
    parts += ["dmem " + numbers(DMEM, 0)] if "d" in wants else []
    return " ".join(parts)


def missing(design, name):
    del design[name]


def hidden(design, name):
    design[name][0] = False


def narrow(design, name):
    """Of one bit less, or two where it has one."""
    width = design[name][1] - 1 or 2
    design[name][1:] = [width, [0]]


def wide(design, name):
    design[name][1:] = [design[name][1] + 1, [0]]


def cases():
    for channels in (1, 2):
        for wants in ("", "a", "i", "ia", "d", "da", "id", "ida"):
            yield channels, wants, names(channels), []
    every = [name for name, _ in FIELDS + IMEM + DMEM]
    for place, name in enumerate(every):
        for fault in (missing, narrow, wide, hidden):
            yield 1, "ida", names(1), [(fault, name)]
        # with a fault before it and one behind it, and with memory that isn't aligned
        others = [(missing, every[place - 1]), (wide, every[(place + 7) % len(every)])]
        yield 1, "id", names(1), [(narrow, name)] + others
        yield 1, "id", names(1), [(missing, name)] + others[1:]
    # what isn't wanted isn't asked for
    for name in every[len(FIELDS):]:
        for wants in ("a", "i", "da"):
            yield 1, wants, names(1), [(missing, name)]
            yield 1, wants, names(1), [(wide, name)]
    # the fields of one channel where two are asked for
    for name, width in FIELDS[:3]:
        yield 2, "", dict(names(2), **{name: [True, width, [0]]}), []
    yield 2, "id", names(2), [(wide, "rvfi_mem_wdata"), (missing, "imem_data")]


def main():
    random.seed(1)
    made, answers = [], []
    for channels, wants, design, faults in cases():
        for fault, name in faults:
            fault(design, name)
        listed = list(design.items())
        random.shuffle(listed)
        design = dict(listed)
        made.append(line(channels, wants, design))
        answers.append(answer(channels, wants, design))
    for file, lines in ("stdin", made), ("stdout", answers):
        program_cases.replace("check_cases", file, "port", lines)
    print(len(made), "cases,", sum(not text.startswith("channel") for text in answers), "of them refused")


if __name__ == "__main__":
    main()
