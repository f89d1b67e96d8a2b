"""The cores that are judged before and behind their conversion, each beside its wrapper, with a fault to be planted.

Three of them aren't of the subset. Each has a text by hand, made of its own by what docs/USER.md says to write instead,
which the program judges in its place.
"""
from __future__ import annotations

import re
from dataclasses import dataclass

from . import cores


@dataclass(frozen=True)
class Case:
    """A core beside its wrapper, a fault to be planted in it, and the text that the program reads of it."""
    top: str
    text: str
    wrapper: str
    cfg: str
    fault: tuple[str, str]
    suffix: str = ".v"
    by_hand: str = ""

    def texts(self) -> list[tuple[str, str]]:
        """The core and the core with the fault, each as it is converted and as it is judged."""
        return [(text, self.judged(text)) for text in (self.text, planted(self.text, self.fault))]

    def judged(self, text: str) -> str:
        """The text that the program reads: by hand, with the fault where the text has it."""
        if not self.by_hand:
            return text
        return self.by_hand if text == self.text else planted(self.by_hand, self.fault)


def planted(text: str, fault: tuple[str, str]) -> str:
    """A text with a fault."""
    before, behind = fault
    assert text.count(before) == 1, before
    return text.replace(before, behind)


def parts_of(lines: list[str]) -> dict[str, list[str]]:
    """The parts of texts of cases, by name: one begins at `% NAME`, and has another at `%NAME`."""
    parts: dict[str, list[str]] = {}
    name = ""
    for line in lines:
        if line.startswith("% "):
            name = line[2:]
            parts[name] = []
        elif line.startswith("%"):
            parts[name] += parts[line[1:]]
        elif name:
            parts[name].append(line)
    return parts


def tiny() -> Case:
    """The core of two stages, as the repository's cases have it."""
    lines = (cores.REPOSITORY / "crates" / "tiny_cases" / "stdin").read_text().splitlines()
    end = lines.index("@ checks.cfg")
    parts = parts_of(lines[:end])
    whole = "\n".join([*parts["before"], "          3: res = a < y;", *parts["behind"], ""])
    wrapper, core = whole.split("endmodule\n", 1)
    cfg = lines[end + 1:lines.index("[verilog-files]", end)]
    return Case("tiny", core, wrapper + "endmodule\n", "\n".join(cfg),
                ("3: res = a < y;", "3: res = $signed(a) < $signed(y);"))


def mini() -> Case:
    """The small core of the examples."""
    whole = (cores.REPOSITORY / "examples" / "mini" / "mini.v").read_text()
    wrapper, core = whole.split("endmodule\n", 1)
    cfg = (cores.REPOSITORY / "examples" / "mini" / "checks.cfg").read_text().split("[verilog-files]")[0]
    return Case("mini", core, wrapper + "endmodule\n", cfg, ("pc + offset", "pc - offset"))


def of_folder(name: str, suffix: str, fault: tuple[str, str], changes: list[tuple[str, str]]) -> Case:
    """A core of the companion's folder, and its text by hand."""
    cfg = (cores.CORES / f"{name}.cfg").read_text().split("[verilog-files]")[0]
    text, wrapper = ((cores.CORES / file).read_text() for file in (f"{name}{suffix}", f"wrapper_{name}.v"))
    by_hand = text
    for before, behind in changes:
        by_hand, count = re.subn(before, behind, by_hand, flags=re.S)
        assert count, before
    return Case(name, text, wrapper, cfg, fault, suffix, by_hand)


def serial() -> Case:
    """The core that works bit by bit: its vector of registers becomes a memory. A carry that is lost."""
    return of_folder("serial", ".v", ("left[0] & right[0] | carry", "left[0] & right[0] & carry"), [
        (r"reg \[1023:0\] registers;", "reg [31:0] registers [0:31];"),
        (r"registers\[\{(rs[12]), 5'd0\} \+: 32\]", r"registers[\1]"),
        (r"registers\[rd \* 32 \+: 32\]", "registers[rd]")])


def states() -> Case:
    """The core of several cycles: its list of ports, its list of events, an integer and digits x. An or for an and."""
    fields = ("order 64, insn 32, rs1_rdata 32, rs2_rdata 32, rd_wdata 32, pc_rdata 32, pc_wdata 32, rs1_addr 5, "
              "rs2_addr 5, rd_addr 5, valid 1, trap 1, halt 1")
    wires = "intr 1, mode 2, ixl 2, mem_addr 32, mem_rdata 32, mem_wdata 32, mem_rmask 4, mem_wmask 4"
    ports = [f"output reg [{int(width) - 1}:0] rvfi_{name}" for name, width in map(str.split, fields.split(", "))]
    ports += [f"output [{int(width) - 1}:0] rvfi_{name}" for name, width in map(str.split, wires.split(", "))]
    head = ", ".join(["input clock", "input reset", "input [31:0] word", *ports])
    return of_folder("states", ".v", ("result = left & right;", "result = left | right;"), [
        (r"module states \(.*?(?=  localparam)", f"module states ({head});\n  `rvformal_rand_reg [31:0] nothing;\n"),
        (r"localparam integer", "localparam"), (r"32'bx", "nothing"), (r"always @\(ir or [^)]*\)", "always @*")])


def styled() -> Case:
    """The core in the style of SystemVerilog: its types, functions and its task. A difference the wrong way round."""
    operations = "localparam [2:0] LUI = 0, ADDI = 1, XORI = 2, ADD = 3, SUB = 4, BEQ = 5, OTHER = 6;\n"
    wires = ("  wire [31:0] immediate = {{20{word[31]}}, word[31:20]};\n"
             "  wire [31:0] offset = {{20{word[31]}}, word[7], word[30:25], word[11:8], 1'b0};\n\n")
    return of_folder("styled", ".sv", ("left - right", "right - left"), [
        (r"typedef enum.*?(?=\n  operation_t)", operations + "\n" + wires.rstrip("\n")),
        (r"operation_t operation;", "reg [2:0] operation;"),
        (r"fields\.opcode", "word[6:0]"), (r"fields\.funct3", "word[14:12]"), (r"fields\.funct7", "word[31:25]"),
        (r"logic \[31:0\] left, right, result, next;", "wire [31:0] left, right;\n  reg [31:0] result, next;"),
        (r"  // A block is sensitive.*?endtask\n\n  always_comb name_registers[^;]*;",
         "  always @* begin\n    rs1 = operation == LUI || operation == OTHER ? 5'd0 : word[19:15];\n"
         "    rs2 = operation == ADD || operation == SUB || operation == BEQ ? word[24:20] : 5'd0;\n"
         "    rd = operation == BEQ || operation == OTHER ? 5'd0 : word[11:7];\n  end"),
        (r"immediate\(word\)", "immediate"), (r"offset\(word\)", "offset"),
        (r"always_comb", "always @*"), (r"always_ff", "always"), (r"\blogic\b", "reg")])
