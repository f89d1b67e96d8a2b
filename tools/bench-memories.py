#!/usr/bin/env python3
"""Times whole checks of designs with large memories, by built programs `rvf` in turn. Not part of the gate.

    tools/bench-memories.py [--cycle K] [--runs N] RVF [RVF ..]

Each design has one memory, which a clocked block writes at addresses that are free in each cycle, and an instruction that
is read from it at another free address: 4,096 words of 8 bits, 512 of 128 and 65,536 of one bit written by `<=`, 512 of
32 bits written by `=` and read inside the block, and 32 of 32 bits that are cleared one by one at the reset and written
at a free address otherwise. The check is `ill` at cycle K, ten where nothing is said. Prints for each design and program
the line of the check, the nodes and gates of its graph as `toaig` writes it, the least processor seconds of N runs, five
where nothing is said, and the memory of one.
"""
import argparse
import os
import pathlib
import subprocess
import tempfile

FIELDS = {
    "order": 64, "insn": 32, "trap": 1, "halt": 1, "intr": 1, "mode": 2, "ixl": 2, "rs1_addr": 5, "rs2_addr": 5,
    "rs1_rdata": 32, "rs2_rdata": 32, "rd_addr": 5, "rd_wdata": 32, "pc_rdata": 32, "pc_wdata": 32, "mem_addr": 32,
    "mem_rmask": 4, "mem_wmask": 4, "mem_rdata": 32, "mem_wdata": 32,
}

CLOCKED = "always @(posedge clock) begin {body} end"


def wrapper(width, words, body, insn, more=""):
    """A wrapper whose instruction is read from a memory."""
    bits = max(1, (words - 1).bit_length())
    other = "\n".join(f"  assign rvfi_{name} = 0;" for name in FIELDS if name != "insn")
    return f"""module rvfi_wrapper (input clock, input reset, `RVFI_OUTPUTS);
  `rvformal_rand_reg [{bits - 1}:0] at;
  `rvformal_rand_reg [{bits - 1}:0] from;
  `rvformal_rand_reg [{width - 1}:0] word;
  reg [{width - 1}:0] m [0:{words - 1}];
  {more}
  {CLOCKED.format(body=body)}
  assign rvfi_valid = 1;
  assign rvfi_insn = {insn};
{other}
endmodule
"""


CLEARED = "if (reset) begin " + " ".join(f"m[{k}] <= 0;" for k in range(32)) + " end else m[at] <= word;"

DESIGNS = {
    "4,096 words of 8 bits": wrapper(8, 4096, "m[at] <= word;", "m[from]"),
    "512 words of 128 bits": wrapper(128, 512, "m[at] <= word;", "m[from]"),
    "65,536 words of 1 bit": wrapper(1, 65536, "m[at] <= word;", "m[from]"),
    "512 words of 32 bits, by =": wrapper(32, 512, "m[at] = word; last <= m[from];", "last", "reg [31:0] last;"),
    "32 words of 32 bits, cleared": wrapper(32, 32, CLEARED, "m[from]"),
}

CONFIG = """[options]
isa rv32i

[depth]
ill {cycle}

[verilog-files]
@basedir@/wrapper.v
"""


def measured(program, folder, runs):
    """The line of the check, the least processor seconds and the memory of the runs."""
    seconds = []
    for index in range(runs):
        out = folder / f"out{index}"
        out.mkdir(exist_ok=True)
        process = subprocess.Popen([program, "run", folder / "checks.cfg", out, "--basedir", folder],
                                   stdin=subprocess.DEVNULL, stdout=subprocess.PIPE)
        line = process.stdout.read().decode().split("\n")[0]
        usage = os.wait4(process.pid, 0)[2]
        seconds.append(usage.ru_utime + usage.ru_stime)
        memory = usage.ru_maxrss / 1024
    return line, min(seconds), memory


def graph(program, folder):
    """The header of the graph of the check."""
    text = folder / "graph.aag"
    subprocess.run([program, "toaig", folder / "checks.cfg", "ill_ch0", text, "--basedir", folder],
                   stdout=subprocess.DEVNULL, check=False)
    return text.open().readline().split()[1:6] if text.exists() else []


def main():
    """See the top."""
    words = argparse.ArgumentParser()
    words.add_argument("--cycle", type=int, default=10)
    words.add_argument("--runs", type=int, default=5)
    words.add_argument("programs", nargs="+")
    options = words.parse_args()
    for name, text in DESIGNS.items():
        with tempfile.TemporaryDirectory() as made:
            folder = pathlib.Path(made)
            (folder / "wrapper.v").write_text(text)
            (folder / "checks.cfg").write_text(CONFIG.format(cycle=options.cycle))
            for program in options.programs:
                line, seconds, memory = measured(program, folder, options.runs)
                header = graph(program, folder)
                gates = f", {header[1]} inputs and {header[4]} gates" if header else ""
                print(f"{name}: {program}: {line}{gates}, {seconds:.2f} s, {memory:.0f} MB", flush=True)


if __name__ == "__main__":
    main()
