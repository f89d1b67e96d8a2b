#!/usr/bin/env python3
"""Times `rvf run` with some numbers of workers on forty checks that take about the same time.

    tools/time-jobs.py [--program PATH] [--bits N] [--runs N] [--jobs N ..]

The wrapper retires in a cycle where two free numbers of N bits (6) have products that differ by the order of factors,
which never is. Each of 37 checks of instructions, `ill`, `pc_fwd` and `pc_bwd` needs the proof of that. Prints for each
number of workers (1, 2 and 4) the seconds of the clock, the least of so many runs (3), those of the processors, and how
long it takes by the first; ends with 1 where lines or files are not the same, or not all 40 pass. It wants as many free
processors as there are workers.
PROGRAM is `rvf`, which proves and builds the program first.
"""
import argparse
import hashlib
import os
import resource
import subprocess
import sys
import tempfile
import time

HERE = os.path.dirname(os.path.abspath(__file__))

CHECKS = """[options]
isa rv32i
[depth]
insn 1
ill 1
pc_fwd 0 1
pc_bwd 0 1
[verilog-files]
w.v
"""

WRAPPER = """module rvfi_wrapper (input clock, input reset, `RVFI_OUTPUTS);
  `rvformal_rand_reg [BITS-1:0] x;
  `rvformal_rand_reg [BITS-1:0] y;
  `rvformal_rand_reg [63:0] order;
  `rvformal_rand_reg [31:0] insn;
  `rvformal_rand_reg trap;
  `rvformal_rand_reg [4:0] rd_addr;
  `rvformal_rand_reg [31:0] word;
  `rvformal_rand_reg [31:0] next;
  wire [2*BITS-1:0] first, second;
  product one (.x(x), .y(y), .out(first));
  product two (.x(y), .y(x), .out(second));
  assign rvfi_valid = first != second, rvfi_order = order, rvfi_insn = insn, rvfi_trap = trap, rvfi_halt = 0;
  assign rvfi_intr = 0, rvfi_mode = 3, rvfi_ixl = 1, rvfi_rs1_addr = insn[19:15], rvfi_rs2_addr = insn[24:20];
  assign rvfi_rs1_rdata = word, rvfi_rs2_rdata = word, rvfi_rd_addr = rd_addr, rvfi_rd_wdata = word;
  assign rvfi_pc_rdata = word, rvfi_pc_wdata = next, rvfi_mem_addr = word, rvfi_mem_rmask = 0;
  assign rvfi_mem_wmask = rd_addr[3:0], rvfi_mem_rdata = word, rvfi_mem_wdata = word;
endmodule
module product (input [BITS-1:0] x, input [BITS-1:0] y, output [2*BITS-1:0] out);
  assign out = x * y;
endmodule
"""


def run(program, folder, jobs):
    """The lines with what the files hold, and the seconds of the clock and of the processors."""
    out = os.path.join(folder, f"out{jobs}")
    os.makedirs(out, exist_ok=True)
    before, start = resource.getrusage(resource.RUSAGE_CHILDREN), time.monotonic()
    said = subprocess.run([program, "run", "checks.cfg", out, "--budget", "1000000", "--jobs", str(jobs)], cwd=folder,
                          capture_output=True).stdout
    clock, after = time.monotonic() - start, resource.getrusage(resource.RUSAGE_CHILDREN)
    sums = [said]
    for name in sorted(os.listdir(out)):
        with open(os.path.join(out, name), "rb") as file:
            sums.append((name, hashlib.sha256(file.read()).hexdigest()))
    return sums, clock, after.ru_utime + after.ru_stime - before.ru_utime - before.ru_stime


def main():
    options = argparse.ArgumentParser()
    options.add_argument("--program", default=os.path.join(HERE, "..", "rvf"))
    options.add_argument("--bits", type=int, default=6)
    options.add_argument("--runs", type=int, default=3)
    options.add_argument("--jobs", type=int, nargs="+", default=[1, 2, 4])
    options = options.parse_args()
    program, first, same = os.path.abspath(options.program), None, True
    with tempfile.TemporaryDirectory() as folder:
        with open(os.path.join(folder, "checks.cfg"), "w") as out:
            out.write(CHECKS)
        with open(os.path.join(folder, "w.v"), "w") as out:
            out.write(WRAPPER.replace("2*BITS-1", str(2 * options.bits - 1)).replace("BITS-1", str(options.bits - 1)))
        for jobs in options.jobs:
            found = [run(program, folder, jobs) for _ in range(options.runs)]
            sums, clock, processors = min(found, key=lambda one: one[1])
            first = first or (sums, clock)
            same = same and all(one[0] == first[0] for one in found)
            same = same and sums[0].endswith(b"total pass 40 fail 0 spent 0 skip 0\n")
            print(f"--jobs {jobs}: {clock:.2f} s of the clock, {processors:.2f} s of processors, "
                  f"{clock / first[1]:.2f} of the first", flush=True)
    print("40 pass, with the same lines and files" if same else "not all pass, or other lines or files")
    return not same


if __name__ == "__main__":
    sys.exit(main())
