#!/usr/bin/env python3
"""Holds the files that `rvf run` writes to what their formats say, on small designs.

    tools/check-run-files.py [--program PATH]

- Dumps, byte for byte, of designs with exactly one violating run: each free bit is fixed by an assumption or by the
  violation, and the values below were worked out by hand. Of a design that any run violates, the names, that there are
  two cycles, and that they violate.
- Clause files: the form, and which bits have notes. Proofs: that each line is a step, that none stands behind the empty
  clause, and what `rvf lrat` and a second reading (lrat_rules.py) answer.

`tools/enumerate-runs.py` compares the models of such clause files with all runs.
"""
import argparse
import os
import subprocess
import sys
import tempfile

import lrat_rules
from clause_files import FIELDS, ClauseFile

HERE = os.path.dirname(os.path.abspath(__file__))

# What fields are in the designs of clause files, but for `rvfi_valid`; all others are 0.
CONSTANTS = {"rvfi_order": 2 ** 63 + 1, "rvfi_pc_wdata": 4}
QUIET = "".join(f"  assign rvfi_{name} = 0;\n" for name, _ in FIELDS if name != "valid")
HEAD = "module rvfi_wrapper (input clock, input reset, `RVFI_OUTPUTS);\n"

FIXED = HEAD + """  `rvformal_const_rand_reg [3:0] once;
  `rvformal_rand_reg [1:0] each;
  reg [1:0] kept;
  reg [2:0] words [4:3];
  always @* assume (each == (reset ? 2 : 1) && once == 9 && words[3] == 5 && (!reset || words[4] == 2));
  always @(posedge clock) begin kept <= kept + once[1:0] + 1; words[4] <= words[3] + 1; end
""" + QUIET

NESTED = HEAD + """  reg [127:0] wide = 1;
  genvar i;
  generate for (i = 0; i < 80; i = i + 1) begin : g wire b = i; end endgenerate
  wire [3:0] seen;
  always @(posedge clock) wide <= wide << 64;
  counter #(.W(4)) unit (.clock(clock), .now(seen));
  assign rvfi_valid = seen == 1;
""" + QUIET + """endmodule
module counter #(parameter W = 2) (input clock, output [W-1:0] now);
  reg [W-1:0] count;
  always @(posedge clock) count <= count + 7;
  assign now = count;
endmodule
"""

FREE = HEAD + "".join(
    f"  `rvformal_rand_reg [{width - 1}:0] r_{name};\n  assign rvfi_{name} = r_{name};\n" for name, width in FIELDS
) + "endmodule\n"

UNSAT_BY_ALL = HEAD + """  `rvformal_rand_reg x;
  `rvformal_rand_reg y;
  assign rvfi_valid = (x | y) & (x | ~y) & (~x | y) & (~x | ~y);
""" + QUIET + "endmodule\n"


def port(valid):
    """Names, widths and values of the port: reset in the first cycle alone, `rvfi_valid` as said, and zeros."""
    cycles = len(valid)
    rest = [(f"rvfi_{name}", width, [0] * cycles) for name, width in FIELDS if name != "valid"]
    return [("reset", 1, [1] + [0] * (cycles - 1)), ("rvfi_valid", 1, valid)] + rest


# Title, depth line, text, and name, width and values of all names.
DUMPS = [
    ("what is free once, in each cycle and at the start, and words of a memory whose left bound is the higher one",
     "ill 1", FIXED + "  assign rvfi_valid = !reset && kept == 3;\nendmodule\n",
     port([0, 1]) + [("once", 4, [9, 9]), ("each", 2, [2, 1]), ("kept", 2, [1, 3]), ("words[4]", 3, [2, 6]),
                     ("words[3]", 3, [5, 5])]),
    ("106 names, so that some have codes of two characters: 128 bits, turns of a loop, and an instance", "ill 2",
     NESTED,
     port([0, 0, 1]) + [("wide", 128, [1, 1 << 64, 0])] + [(f"g[{i}].b", 1, [i % 2] * 3) for i in range(80)]
     + [("seen", 4, [3, 10, 1]), ("unit.now", 4, [3, 10, 1]), ("unit.count", 4, [3, 10, 1])]),
]


def code(index):
    """The code of a name: base 94, least digit first, from `!` on."""
    text = chr(33 + index % 94)
    while index >= 94:
        index //= 94
        text += chr(33 + index % 94)
    return text


def dumped(names):
    """The text of a dump."""
    lines = ["$timescale 1 ns $end", "$scope module rvfi_wrapper $end"]
    lines += [f"$var wire {width} {code(at)} {name} $end" for at, (name, width, _) in enumerate(names)]
    lines += ["$upscope $end", "$enddefinitions $end"]
    cycles = len(names[0][2])
    for cycle in range(cycles):
        lines += [f"#{cycle}"] + (["$dumpvars"] if cycle == 0 else [])
        for at, (_, width, values) in enumerate(names):
            if cycle == 0 or values[cycle] != values[cycle - 1]:
                lines.append((f"{values[cycle]}" if width == 1 else f"b{values[cycle]:b} ") + code(at))
        lines += ["$end"] if cycle == 0 else []
    return "".join(line + "\n" for line in lines + [f"#{cycles}"])


def read_dump(text):
    """Names with their widths and values, of a dump that is what `dumped` makes of them."""
    lines = text.split("\n")
    words = [line.split(" ") for line in lines if line.startswith("$var ")]
    names = {word[3]: (word[4], int(word[2]), []) for word in words}
    for line in lines[lines.index("$enddefinitions $end") + 1:]:
        if line.startswith("#"):
            for _, _, values in names.values():
                values += values[-1:]
        elif line and not line.startswith("$"):
            value, name = (line[1:].split(" ") if line.startswith("b") else (line[0], line[1:]))
            values = names[name][2]
            values[-1:] = [int(value, 2)]
    for _, _, values in names.values():
        values.pop()
    found = list(names.values())
    return found, dumped(found) == text


class Runs:
    """Runs of the program in a folder."""

    def __init__(self, program, folder):
        self.program, self.folder, self.faults = program, folder, 0

    def tell(self, title, faults):
        print(f"{title}: {'; '.join(faults) or 'as it should be'}")
        self.faults += len(faults)

    def certify(self, text, *words):
        """Judges `ill` in cycle 1 of the text with the fields that are constants."""
        for name, number in CONSTANTS.items():
            text = text.replace(f"{name} = 0", f"{name} = 64'd{number}")
        self.run("ill 1", text, *words)

    def run(self, depth, text, *words):
        """What is put; files stand in `out` of the folder."""
        out = os.path.join(self.folder, "out")
        os.makedirs(out, exist_ok=True)
        for name in os.listdir(out):
            os.remove(os.path.join(out, name))
        with open(os.path.join(self.folder, "checks.cfg"), "w") as file:
            file.write(f"[options]\nisa rv32i\n[depth]\n{depth}\n[verilog-files]\nw.v\n")
        with open(os.path.join(self.folder, "w.v"), "w") as file:
            file.write(text)
        return self.called("run", "checks.cfg", "out", *words)

    def called(self, *words):
        return subprocess.run([self.program, *words], cwd=self.folder, capture_output=True, text=True).stdout

    def bytes_of(self, name):
        with open(os.path.join(self.folder, "out", name), "rb") as file:
            return file.read()

    def files(self):
        return sorted(os.listdir(os.path.join(self.folder, "out")))


def check_dump(runs, title, depth, text, names):
    put = runs.run(depth, text)
    faults = []
    if put != "fail ill_ch0\ntotal pass 0 fail 1 spent 0 skip 0\n" or runs.files() != ["ill_ch0.vcd"]:
        faults = [f"{put!r}, {runs.files()}"]
    elif runs.bytes_of("ill_ch0.vcd").decode() != dumped(names):
        faults = ["the dump is another one:\n" + runs.bytes_of("ill_ch0.vcd").decode()]
    runs.tell(title, faults)


def check_free_dump(runs):
    """A dump that any violating run may fill."""
    runs.run("ill 1", FREE)
    names, is_whole = read_dump(runs.bytes_of("ill_ch0.vcd").decode())
    wanted = [("reset", 1)] + [(f"rvfi_{name}", width) for name, width in FIELDS]
    wanted += [(f"r_{name}", width) for name, width in FIELDS]
    now = {name: values for name, _, values in names}
    faults = [] if is_whole else ["another form"]
    if [(name, width) for name, width, _ in names] != wanted or any(len(values) != 2 for values in now.values()):
        faults.append("other names or cycles")
    elif now["reset"] != [1, 0] or any(now[f"rvfi_{name}"] != now[f"r_{name}"] for name, _ in FIELDS):
        faults.append("no run of the design")
    elif now["rvfi_valid"][1] != 1 or now["rvfi_insn"][1] % 65536 or (
            now["rvfi_trap"][1] and not now["rvfi_rd_addr"][1] and not now["rvfi_mem_wmask"][1]):
        faults.append("no violation")
    runs.tell("a dump that any violating run may fill", faults)


def check_certificate(runs, title, needed, free, expected):
    """Notes of the choices that are needed and of none that isn't there, fields that are constants, and the proof."""
    formula = ClauseFile(os.path.join(runs.folder, "out", "ill_ch0.cnf"))
    faults = []
    if not needed <= {note.place for note in formula.choices} <= free:
        faults.append(f"notes of other choices: {sorted(note.place for note in formula.choices)}")
    if any(note.literal is not bool(CONSTANTS.get(note.name, 0) >> note.bit & 1)
           for note in formula.fields if note.name != "rvfi_valid"):
        faults.append("a bit that is 0 has no `F`, or one that is 1 no `T`")
    proof = runs.bytes_of("ill_ch0.lrat")
    steps = [(int(line.split()[0]), line.split()[1]) for line in proof.decode().split("\n") if line]
    if any(literal == "0" for _, literal in steps[:-1]):
        faults.append("a step stands behind the empty clause")
    line, code_of_line = lrat_rules.answer(runs.bytes_of("ill_ch0.cnf"), proof)
    put = runs.called("lrat", "out/ill_ch0.cnf", "out/ill_ch0.lrat")
    if put != line + "\n" or not line.startswith(expected):
        faults.append(f"the proof is answered by {put!r} and {line!r}")
    if proof != b"".join(b" ".join(words) + b"\n" for _, words in lrat_rules.lines_of(proof)):
        faults.append("a line is of another form")
    runs.tell(title, faults)


def main():
    parser = argparse.ArgumentParser(description=__doc__, formatter_class=argparse.RawDescriptionHelpFormatter)
    parser.add_argument("--program", default=os.path.join(HERE, "..", "rvf"))
    words = parser.parse_args()
    with tempfile.TemporaryDirectory() as folder:
        runs = Runs(os.path.abspath(words.program), folder)
        for title, depth, text, names in DUMPS:
            check_dump(runs, title, depth, text, names)
        check_free_dump(runs)
        runs.certify(FIXED + "  assign rvfi_valid = !reset && kept == 3 && each == 3;\nendmodule\n")
        free = {(0, "once", bit) for bit in range(4)} | {(cycle, "each", bit) for cycle in (0, 1) for bit in (0, 1)}
        free |= {(0, "kept", bit) for bit in (0, 1)}
        free |= {(0, f"words[{index}]", bit) for index in (3, 4) for bit in range(3)}
        check_certificate(runs, "a check that passes, by its clauses and its proof", free, free, "refuted")
        needed, free = ({(cycle, name, 0) for cycle in cycles for name in "xy"} for cycles in ((1,), (0, 1)))
        runs.certify(UNSAT_BY_ALL, "--budget", "100")
        check_certificate(runs, "a formula of two variables that is refuted", needed, free, "refuted")
        runs.certify(UNSAT_BY_ALL, "--budget", "1")
        check_certificate(runs, "the same where the budget is used up", needed, free, "refused step 6 0 0")
    sys.exit(runs.faults > 0)


main()
