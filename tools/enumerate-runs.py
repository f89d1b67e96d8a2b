#!/usr/bin/env python3
"""Compares the clause files of small designs with all runs of these designs.

    tools/enumerate-runs.py [--program PATH]

Of each design, which has at most 16 free bits, all models of the clauses before the last are found by trying both
values of each variable, and all runs are made by Icarus Verilog. At the notes they have to be the same, no two models
may be the same there, and the verdict has to be true exactly where the run is assumed and lacks the check's property,
which is worked out here from what the wrapper shows. PROGRAM is `rvf`, which proves and builds the program first.
"""
import argparse
import os
import subprocess
import sys
import tempfile

from clause_files import FIELDS, ClauseFile, simulated

HERE = os.path.dirname(os.path.abspath(__file__))


def ill(retired, cycle):
    """A word of 16 zero bits at the check's cycle traps and writes nothing."""
    return all(r["trap"] == 1 and r["rd_addr"] == 0 and r["mem_wmask"] == 0
               for r in retired if r["cycle"] == cycle and r["insn"] % 65536 == 0)


def reg(retired, cycle):
    """Each source at the check's cycle has what was written last, by the order of the list."""
    for r in retired:
        if r["cycle"] == cycle:
            for source in ("rs1", "rs2"):
                address, earlier = r[f"{source}_addr"], [e for e in retired if e["cycle"] < cycle]
                if address != 0 and any(e["order"] < r["order"] and e["rd_addr"] == address for e in earlier):
                    last = [e for e in earlier if e["order"] < r["order"] and e["rd_addr"] == address][-1]
                    if last["rd_wdata"] != r[f"{source}_rdata"]:
                        return False
    return True


class Design:
    """A wrapper's text, the depth line of its check with its start and cycle, further words of the command, free names
    with their widths, each free in each cycle, once or at the start, and what other registers begin with."""

    def __init__(self, title, depth, holds, start, words, text, each, once, at_start, known):
        self.title, self.depth, self.holds, self.start, self.words = title, depth, holds, start, words
        self.text, self.each, self.once, self.at_start, self.known = text, each, once, at_start, known


QUIET = """
  assign rvfi_halt = 0, rvfi_intr = 0, rvfi_mode = 3, rvfi_ixl = 1, rvfi_rs2_addr = 0, rvfi_rs2_rdata = 0;
  assign rvfi_pc_rdata = 0, rvfi_pc_wdata = 4, rvfi_mem_addr = 0, rvfi_mem_rmask = 0, rvfi_mem_rdata = 0;
  assign rvfi_mem_wdata = 0;
endmodule
"""

DESIGNS = [
    Design("a counter, what is free once and in each cycle, and an assumption", "ill 1", ill, 1, [], """
module rvfi_wrapper (input clock, input reset, `RVFI_OUTPUTS);
  `rvformal_rand_reg [1:0] step;
  `rvformal_const_rand_reg [1:0] limit;
  reg [2:0] count;
  reg [1:0] known = 2;
  wire met = step != 0 || count[0];
  always @* assume (met);
  always @(posedge clock) begin count <= count + step; known <= known ^ limit; end
  assign rvfi_valid = !reset, rvfi_order = 0, rvfi_insn = {count, 27'd0, step}, rvfi_trap = step == 0 && count[0];
  assign rvfi_rs1_addr = 0, rvfi_rs1_rdata = 0, rvfi_rd_addr = rvfi_trap ? 0 : limit, rvfi_rd_wdata = known + step;
  assign rvfi_mem_wmask = known[1] && !rvfi_trap ? 3 : 0;
""" + QUIET, [("step", 2)], [("limit", 2)], [("count", 3)], [("known", 2)]),
    Design("a memory that is written at an address that varies", "reg 1 2", reg, 1, [], """
module rvfi_wrapper (input clock, input reset, `RVFI_OUTPUTS);
  `rvformal_rand_reg go;
  `rvformal_rand_reg at;
  `rvformal_rand_reg value;
  reg [1:0] words [1:0];
  reg [1:0] order = 0;
  wire met = 1;
  wire [1:0] written = {value, ~value};
  always @(posedge clock)
    if (go && !reset) begin words[at] <= written; order <= order + 1; end
  assign rvfi_valid = go && !reset, rvfi_order = order, rvfi_insn = 32'h13, rvfi_trap = 0, rvfi_mem_wmask = 0;
  assign rvfi_rs1_addr = at + 1, rvfi_rs1_rdata = words[at], rvfi_rd_addr = at + 1, rvfi_rd_wdata = written;
""" + QUIET, [("go", 1), ("at", 1), ("value", 1)], [], [("words[0]", 2), ("words[1]", 2)], [("order", 0)]),
    Design("an instance with a parameter; few runs violate, and the budget is used up before one is found", "ill 2",
           ill, 1, ["--budget", "1"], """
module rvfi_wrapper (input clock, input reset, `RVFI_OUTPUTS);
  `rvformal_const_rand_reg [3:0] a;
  `rvformal_const_rand_reg [3:0] b;
  `rvformal_rand_reg go;
  reg seen;
  wire met = 1;
  wire [7:0] now, before;
  product #(.W(4)) unit (.clock(clock), .x(a), .y(b), .now(now), .before(before));
  always @(posedge clock) seen <= seen && go;
  assign rvfi_valid = before == 35 && a < b && seen, rvfi_order = {go, now}, rvfi_insn = 0, rvfi_trap = 0;
  assign rvfi_rs1_addr = a, rvfi_rs1_rdata = now, rvfi_rd_addr = 0, rvfi_rd_wdata = 0, rvfi_mem_wmask = 0;
""" + QUIET + """
module product #(parameter W = 2) (input clock, input [W-1:0] x, input [W-1:0] y, output [2*W-1:0] now,
    output [2*W-1:0] before);
  reg [2*W-1:0] kept = 0;
  always @(posedge clock) kept <= now;
  assign now = x * y, before = kept;
endmodule
""", [("go", 1)], [("a", 4), ("b", 4)], [("seen", 1)], [("unit.kept", 0)]),
    Design("products of over a thousand gates, whose clauses are those of cuts; the budget is used up", "ill 1", ill, 1,
           ["--budget", "1"], """
module rvfi_wrapper (input clock, input reset, `RVFI_OUTPUTS);
  `rvformal_const_rand_reg [8:0] a;
  `rvformal_rand_reg step;
  reg [15:0] kept = 1;
  wire [23:0] square = {15'd0, a} * {15'd0, a};
  wire [23:0] cube = square * {15'd0, a} + kept;
  wire met = step || a[0] || kept[3];
  always @* assume (met);
  always @(posedge clock) kept <= cube[15:0] ^ {square[17:10], 7'd0, step};
  assign rvfi_valid = cube[11:4] == 8'ha5 && square[5:4] == 2, rvfi_order = {cube, square}, rvfi_insn = 0;
  assign rvfi_trap = kept[1:0] == 2, rvfi_rs1_addr = square[12:8], rvfi_rs1_rdata = cube, rvfi_rd_addr = 0;
  assign rvfi_rd_wdata = 0, rvfi_mem_wmask = 0;
""" + QUIET, [("step", 1)], [("a", 9)], [], [("kept", 1)]),
]


def models(formula):
    """All models of the clauses before the last, each as a number whose bit of a variable says whether it is true."""
    ends = [[] for _ in range(formula.variables + 1)]
    for clause in formula.before:
        true = sum(1 << literal for literal in set(clause) if literal > 0)
        false = sum(1 << -literal for literal in set(clause) if literal < 0)
        ends[max(map(abs, clause), default=0)].append((true, false))
    found = [] if ends[0] else [0]
    for variable in range(1, formula.variables + 1):
        found = [row for begun in found for row in (begun, begun | 1 << variable)
                 if all(row & true or row & false != false for true, false in ends[variable])]
    return found


def names_of(formula):
    noted = {note.name for note in formula.choices}
    return sorted(noted | {f"rvfi_{name}" for name, _ in FIELDS} | {"met"})


def runs(design, formula):
    """What each name has in each cycle of each run: as many runs as there are choices of the free bits."""
    names, cycles = names_of(formula), range(formula.cycle + 1)
    free = [(name, width, 0) for name, width in design.at_start + design.once]
    free += [(name, width, cycle) for cycle in cycles for name, width in design.each]
    count = sum(width for _, width, _ in free)
    assert count <= 16, count
    steps, low = [f"for (chosen = 0; chosen < {2 ** count}; chosen = chosen + 1) begin", "free = chosen;"], 0
    steps += [f"dut.{name} = {value};" for name, value in design.known]
    places = []
    for name, width, cycle in free:
        places.append((cycle, f"dut.{name} = free[{low + width - 1}:{low}];"))
        low += width
    for cycle in cycles:
        steps += [f"reset = {int(cycle == 0)};"] + [step for when, step in places if when == cycle] + ["#1;"]
        steps += [f'$write(" %b", dut.{name});' for name in names] + ["clock = 1; #1; clock = 0; #1;"]
    steps += ['$write("\\n");', "end"]
    said = simulated(design.text, steps, f"integer chosen;\nreg [{count - 1}:0] free;")
    for line in said.splitlines():
        words = line.split()
        yield [dict(zip(names, words[len(names) * cycle:])) for cycle in cycles]


def is_violating(design, run):
    """The run is assumed, and the retirements from the check's start on lack the property."""
    retired = [{"cycle": cycle, **{name: int(seen[f"rvfi_{name}"], 2) for name, _ in FIELDS}}
               for cycle, seen in enumerate(run) if cycle >= design.start and seen["rvfi_valid"] == "1"]
    return all(seen["met"] == "1" for seen in run) and not design.holds(retired, len(run) - 1)


def compared(design, program):
    """Says how many models and runs there are, and what is not the same."""
    with tempfile.TemporaryDirectory() as folder:
        with open(os.path.join(folder, "checks.cfg"), "w") as out:
            out.write(f"[options]\nisa rv32i\n[depth]\n{design.depth}\n[verilog-files]\nw.v\n")
        with open(os.path.join(folder, "w.v"), "w") as out:
            out.write(design.text)
        words = [program, "run", "checks.cfg", ".", *design.words]
        line = subprocess.run(words, cwd=folder, capture_output=True, text=True).stdout.split("\n")[0]
        kind = design.depth.split()[0]
        formula = ClauseFile(os.path.join(folder, f"{kind}_ch0.cnf"))
    found, verdicts = models(formula), {}
    for row in found:
        seen = tuple(note.value(lambda variable: bool(row >> variable & 1)) for note in formula.notes)
        verdicts.setdefault(seen, []).append(bool(row >> formula.verdict & 1))
    violating = {}
    for run in runs(design, formula):
        seen = tuple(run[note.cycle][note.name][-1 - note.bit] == "1" for note in formula.notes)
        violating.setdefault(seen, set()).add(is_violating(design, run))
    wrong = len(found) - len(verdicts) + len(set(verdicts) ^ set(violating))
    wrong += sum(len(violating[seen]) != 1 or {verdict} != violating[seen]
                 for seen, told in verdicts.items() for verdict in told if seen in violating)
    print(f"{design.title}: `{line}`, {formula.variables} variables, {len(formula.before)} clauses before the last, "
          f"{len(formula.choices)} notes of choices; {len(found)} models and {len(violating)} kinds of runs, the "
          f"verdict true in {sum(any(told) for told in verdicts.values())}; {wrong} differences", flush=True)
    return wrong


def main():
    options = argparse.ArgumentParser()
    options.add_argument("--program", default=os.path.join(HERE, "..", "rvf"))
    program = os.path.abspath(options.parse_args().program)
    return sum(compared(design, program) for design in DESIGNS) != 0


if __name__ == "__main__":
    sys.exit(main())
