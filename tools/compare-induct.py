#!/usr/bin/env python3
"""Compares what `rvf induct` answers with an engine for runs of any length. It is not part of the gate.

    tools/compare-induct.py [--abc PROGRAM] [--yosys PROGRAM] [--seconds N] [--most K] [RVF]

RVF is the built program. Two small designs are taken, the core `tiny` of `tiny_cases` with an output of the address
that it fetches from, and `mono` below, which knows six instructions; each as it is and with a fault. `ill`, `imem` and
seven checks of instructions are written once more as Verilog, by hand: `monitor` below. Yosys makes latches of a design
with one of them, the reset being 1 in the first cycle and all that has no value at first being free, and abc seeks a
run of any length that violates it (`fold; pdr`, 300 seconds each if no other number is given).

`rvf induct` is called with 1 to K steps (2 if none is given). For each of these checks

- abc may not find a run where `rvf` says `proved`; that it proves it too, or isn't done in time, is counted;
- abc has to find a run where `rvf` says `fail`;
- the trace of each `open` is replayed by Icarus Verilog from the registers and words of its first cycle.

Without RVF the answers of abc alone are printed. It needs the Debian packages yosys, berkeley-abc and iverilog.
"""
import argparse
import pathlib
import subprocess
import sys
import tempfile

import made
from clause_files import FIELDS

REPLAY = made.script("replay-trace")
CASES = pathlib.Path(__file__).resolve().parent.parent / "crates" / "tiny_cases" / "stdin"

MONO = """
module rvfi_wrapper (input clock, input reset, `RVFI_OUTPUTS, output [31:0] imem_addr, output [15:0] imem_data);
  `rvformal_rand_reg [31:0] free;
  `rvformal_const_rand_reg [31:0] half_at;
  `rvformal_const_rand_reg [15:0] half;
  assign imem_addr = half_at, imem_data = half;
  wire [31:0] from;
  wire [31:0] word = {from + 2 == half_at ? half : free[31:16], from == half_at ? half : free[15:0]};
  mono core (.clock(clock), .reset(reset), .pc(from), .word(word), `RVFI_CONN);
endmodule
module mono (input clock, input reset, output reg [31:0] pc, input [31:0] word, `RVFI_OUTPUTS);
  reg [31:0] regs [0:31];
  reg [63:0] order;
  reg halted;
  wire [6:0] op = word[6:0];
  wire [2:0] f3 = word[14:12];
  wire lui = op == 7'h37, jal = op == 7'h6f;
  wire addi = op == 7'h13 && f3 == 0, sltu = op == 7'h33 && f3 == 3 && word[31:25] == 0;
  wire beq = op == 7'h63 && f3 == 0, sw = op == 7'h23 && f3 == 2;
  wire two = sltu || beq || sw, one = two || addi, puts = lui || jal || addi || sltu;
  wire [31:0] imm_i = {{20{word[31]}}, word[31:20]};
  wire [31:0] imm_s = {{20{word[31]}}, word[31:25], word[11:7]};
  wire [31:0] imm_b = {{20{word[31]}}, word[7], word[30:25], word[11:8], 1'b0};
  wire [31:0] imm_j = {{12{word[31]}}, word[19:12], word[20], word[30:21], 1'b0};
  wire [4:0] r1 = one ? word[19:15] : 5'd0, r2 = two ? word[24:20] : 5'd0;
  wire [31:0] a = r1 == 0 ? 0 : regs[r1], b = r2 == 0 ? 0 : regs[r2];
  wire less = `FAULT ? $signed(a) < $signed(b) : a < b;
  wire [31:0] next = jal ? pc + imm_j : beq && a == b ? pc + imm_b : pc + 4;
  wire [31:0] at = a + imm_s;
  wire trap = !(puts || beq || sw) || next[1:0] != 0 || sw && at[1:0] != 0;
  wire [4:0] rd = puts && !trap ? word[11:7] : 5'd0;
  wire [31:0] put = lui ? {word[31:12], 12'b0} : jal ? pc + 4 : sltu ? less : a + imm_i;
  wire valid = !halted && !reset;
  always @(posedge clock)
    if (reset) begin pc <= 0; order <= 0; halted <= 0; end
    else if (valid) begin
      pc <= next; order <= order + 1; halted <= trap;
      if (rd != 0) regs[rd] <= put;
    end
  assign rvfi_valid = valid, rvfi_order = order, rvfi_insn = word, rvfi_trap = trap;
  assign rvfi_halt = trap, rvfi_intr = 0, rvfi_mode = 3, rvfi_ixl = 1;
  assign rvfi_rs1_addr = r1, rvfi_rs2_addr = r2, rvfi_rs1_rdata = a, rvfi_rs2_rdata = b;
  assign rvfi_rd_addr = rd, rvfi_rd_wdata = rd == 0 ? 0 : put, rvfi_pc_rdata = pc, rvfi_pc_wdata = next;
  assign rvfi_mem_addr = at, rvfi_mem_rmask = 0, rvfi_mem_wmask = sw && !trap ? 15 : 0;
  assign rvfi_mem_rdata = 0, rvfi_mem_wdata = b;
endmodule
"""

# Each check by what it demands of a cycle in which something retires. An effect is: which words, how many sources are
# read, whether it traps, where it goes on, what it puts into rd (`-` where it puts nothing), and whether it stores.
DEMANDS = {
    "ill_ch0": "w[15:0] != 0 || rvfi_trap && rvfi_rd_addr == 0 && rvfi_mem_wmask == 0",
    "imem_ch0": "(rvfi_pc_rdata != imem_addr || w[15:0] == imem_data)"
                " && (w[1:0] != 3 || rvfi_pc_rdata + 32'd2 != imem_addr || w[31:16] == imem_data)",
}
EFFECTS = {
    "lui": ("op == 7'h37", 0, "0", "pc + 4", "{w[31:12], 12'd0}", False),
    "addi": ("op == 7'h13 && f3 == 0", 1, "0", "pc + 4", "x + imm_i", False),
    "sltu": ("op == 7'h33 && f3 == 3 && f7 == 0", 2, "0", "pc + 4", "x < y ? 32'd1 : 32'd0", False),
    "xor": ("op == 7'h33 && f3 == 4 && f7 == 0", 2, "0", "pc + 4", "x ^ y", False),
    "jal": ("op == 7'h6f", 0, "goes[1:0] != 0", "pc + imm_j", "pc + 4", False),
    "beq": ("op == 7'h63 && f3 == 0", 2, "x == y && goes[1:0] != 0", "x == y ? pc + imm_b : pc + 4", "-", False),
    "sw": ("op == 7'h23 && f3 == 2", 2, "at[1:0] != 0", "pc + 4", "-", True),
}
NAMES = [*DEMANDS, *(f"insn_{row}_ch0" for row in EFFECTS)]
MONITOR = """
module monitor (input clock, input reset);
  `RVFI_WIRES
  wire [31:0] imem_addr;
  wire [15:0] imem_data;
  rvfi_wrapper dut (.clock(clock), .reset(reset), .imem_addr(imem_addr), .imem_data(imem_data), `RVFI_CONN);
  wire [31:0] w = rvfi_insn, pc = rvfi_pc_rdata;
  wire [31:0] x = w[19:15] == 0 ? 32'd0 : rvfi_rs1_rdata, y = w[24:20] == 0 ? 32'd0 : rvfi_rs2_rdata;
  wire [6:0] op = w[6:0], f7 = w[31:25];
  wire [2:0] f3 = w[14:12];
  wire [31:0] imm_i = {{20{w[31]}}, w[31:20]};
  wire [31:0] imm_b = {{20{w[31]}}, w[7], w[30:25], w[11:8], 1'b0};
  wire [31:0] imm_j = {{12{w[31]}}, w[19:12], w[20], w[30:21], 1'b0};
  wire [31:0] at = x + {{20{w[31]}}, w[31:25], w[11:7]};
DEMAND
  reg first = 1;
  always @(posedge clock) first <= 0;
  always @* assume (reset == first);
  always @* if (!first && rvfi_valid) assert (demand);
endmodule
"""
# what makes a graph of gates of a design with its monitor; what has no value at first gets an input
YOSYS = """read_verilog -formal {text}
prep -flatten -top monitor
memory_map -formal
formalff -clk2ff -ff2anyinit
opt -full
techmap
simplemap
dffunmap
setundef -undriven -anyseq
abc -g AND -fast
opt_clean
write_aiger -zinit {graph}
"""
CONFIG = """[options]
isa rv32i
nret 1
[depth]
insn 1
ill 1
imem 1
[defines]
`define RISCV_FORMAL_ALIGNED_MEM
[verilog-files]
@basedir@/design.v
"""


# ---- designs


def tiny(folder, fault):
    """The text of `tiny` with the outputs of `imem`."""
    made.script("compare-aiger").cases_of_tiny(folder)
    text = (folder / str(fault) / "cores" / "tiny" / "tiny.v").read_text()
    for old, new in [
            ("`RVFI_OUTPUTS);\n  `rvformal_rand_reg [31:0] idata;",
             "`RVFI_OUTPUTS, output [31:0] imem_addr, output [15:0] imem_data);\n"
             "  `rvformal_rand_reg [31:0] free;\n"
             "  `rvformal_const_rand_reg [31:0] half_at;\n"
             "  `rvformal_const_rand_reg [15:0] half;\n"
             "  assign imem_addr = half_at, imem_data = half;\n"
             "  wire [31:0] from;\n"
             "  wire [31:0] idata = {from + 2 == half_at ? half : free[31:16], from == half_at ? half : free[15:0]};"),
            ("tiny uut (", "tiny uut (.from(from), "),
            ("module tiny (", "module tiny (output [31:0] from, "),
            ("assign rvfi_valid = valid,", "assign from = pc;\n  assign rvfi_valid = valid,")]:
        if text.count(old) != 1:
            raise SystemExit(f"tiny has no single {old!r}")
        text = text.replace(old, new)
    return text


def macros():
    """The predefined macros as Yosys takes them."""
    outputs = ", ".join(f"output [{width - 1}:0] rvfi_{name}" for name, width in FIELDS)
    wires = " ".join(f"wire [{width - 1}:0] rvfi_{name};" for name, width in FIELDS)
    joined = ", ".join(f".rvfi_{name}(rvfi_{name})" for name, _ in FIELDS)
    return (f"`define RVFI_OUTPUTS {outputs}\n`define RVFI_WIRES {wires}\n`define RVFI_CONN {joined}\n"
            "`define rvformal_rand_reg (* anyseq *) reg\n`define rvformal_const_rand_reg (* anyconst *) reg\n")


# ---- the outside engine


def demand_of(name):
    """The items that say what the check demands."""
    if name in DEMANDS:
        return f"  wire demand = {DEMANDS[name]};"
    hit, sources, traps, goes, put, stores = EFFECTS[name.split("_")[1]]
    rd, put = ("5'd0", "32'd0") if put == "-" else ("w[11:7]", put)
    fields = [(1, "w[19:15]"), (2, "w[24:20]")][:sources]
    read = [f"({field} == 0 || rvfi_rs{n}_addr == {field})" for n, field in fields]
    read += [f"(rvfi_rs{n}_addr != 0 || rvfi_rs{n}_rdata == 0)" for n in (1, 2)]
    memory = [f"(!rvfi_mem_wmask[{i}] || rvfi_mem_rmask[{i}]"
              f" && rvfi_mem_wdata[{8 * i + 7}:{8 * i}] == rvfi_mem_rdata[{8 * i + 7}:{8 * i}])" for i in range(4)]
    if stores:
        memory = ["rvfi_mem_addr == at", "rvfi_mem_wmask == 15", "rvfi_mem_wdata == y"]
    done = [f"rvfi_rd_addr == {rd}", f"rvfi_rd_wdata == ({rd} == 0 ? 32'd0 : put)", "rvfi_pc_wdata == goes", *memory]
    return "\n".join([
        f"  wire [31:0] goes = {goes};", f"  wire [31:0] put = {put};", f"  wire traps = {traps};",
        f"  wire read = {' && '.join(read)};", f"  wire done = {' && '.join(done)};",
        f"  wire demand = !({hit}) || read && rvfi_trap == traps && (traps || done);"])


def of_engine(options, folder, text, name):
    """`proved` where abc proves the check for runs of any length, `fail` where it finds one that violates it, else
    `open`."""
    source, graph = folder / f"{name}.v", folder / f"{name}.aig"
    source.write_text(macros() + text + MONITOR.replace("DEMAND", demand_of(name)))
    script = folder / f"{name}.ys"
    script.write_text(YOSYS.format(text=source, graph=graph))
    subprocess.run([options.yosys, "-q", script], check=True)
    done = subprocess.run([options.abc, "-q", f"read_aiger {graph}; fold; pdr -T {options.seconds}"],
                          capture_output=True, text=True, check=False)
    said = done.stdout + done.stderr
    if "Property proved" in said:
        return "proved"
    if "was asserted in frame" in said:
        return "fail"
    return "open" if "timeout" in said.lower() or "UNDECIDED" in said else said.strip()


# ---- both


def of_rvf(options, folder, out, steps):
    """The verdict of `rvf induct` for each check."""
    words = [options.rvf, "induct", folder / "checks.cfg", out, "--basedir", folder, "--steps", str(steps)]
    done = subprocess.run([*map(str, words)], capture_output=True, text=True, check=False)
    found = {}
    for line in done.stdout.splitlines():
        verdict, name, *_ = line.split()
        if verdict in ("proved", "fail", "open", "spent"):
            found[name] = verdict
    print(f"    --steps {steps}: {done.stdout.splitlines()[-1:]}, code {done.returncode}", flush=True)
    return found


def compare(options, folder, text):
    """Compares the checks of a design, and returns how many differ."""
    (folder / "design.v").write_text(text)
    (folder / "checks.cfg").write_text(CONFIG)
    engine = {name: of_engine(options, folder, text, name) for name in NAMES}
    print("    abc:", ", ".join(f"{name} {verdict}" for name, verdict in engine.items()), flush=True)
    differing = 0
    for steps in range(1, options.most + 1) if options.rvf else []:
        out = folder / f"out{steps}"
        out.mkdir()
        found = of_rvf(options, folder, out, steps)
        for name in NAMES:
            verdict = found.get(name)
            wrong = verdict is None or verdict == "proved" and engine[name] not in ("proved", "open")
            if wrong or verdict == "fail" and engine[name] != "fail":
                differing += 1
                print(f"    {name}: rvf {verdict}, abc {engine[name]}", flush=True)
        for name in sorted(name for name, verdict in found.items() if verdict == "open"):
            same, others, cycles = REPLAY.replayed(out / f"{name}.step.vcd", folder / "design.v")
            if others or len(cycles) != steps + 1 or same == 0:
                differing += 1
                print(f"    {name}: {len(cycles)} cycles, {same} numbers the same, {others[:3]}", flush=True)
    return differing


def main():
    words = argparse.ArgumentParser()
    words.add_argument("--abc", default="berkeley-abc")
    words.add_argument("--yosys", default="yosys")
    words.add_argument("--seconds", type=int, default=300)
    words.add_argument("--most", type=int, default=2)
    words.add_argument("rvf", nargs="?")
    options = words.parse_args()
    differing = 0
    with tempfile.TemporaryDirectory() as path:
        for fault in (0, 1):
            for name in ("tiny", "mono"):
                folder = pathlib.Path(path) / f"{name}{fault}"
                folder.mkdir()
                text = tiny(folder, fault) if name == "tiny" else f"`define FAULT {fault}\n{MONO}"
                print(f"{name}, {'with a fault' if fault else 'as it is'}", flush=True)
                differing += compare(options, folder, text)
    print(f"{differing} differ")
    return differing != 0


if __name__ == "__main__":
    sys.exit(main())
