"""Clause files of `rvf run` with their notes, and texts of checks in Icarus Verilog, for the scripts that compare."""
import os
import re
import subprocess
import tempfile

# The fields of RVFI with their widths, in order.
FIELDS = [("valid", 1), ("order", 64), ("insn", 32), ("trap", 1), ("halt", 1), ("intr", 1), ("mode", 2), ("ixl", 2),
          ("rs1_addr", 5), ("rs2_addr", 5), ("rs1_rdata", 32), ("rs2_rdata", 32), ("rd_addr", 5), ("rd_wdata", 32),
          ("pc_rdata", 32), ("pc_wdata", 32), ("mem_addr", 32), ("mem_rmask", 4), ("mem_wmask", 4), ("mem_rdata", 32),
          ("mem_wdata", 32)]


class Wrong(Exception):
    """What is not as it should be in a file."""


class Note:
    """`c LIT CYCLE BIT NAME`: a literal, or True or False, is the bit of the name in the cycle."""

    def __init__(self, line):
        words = line.split(" ")
        if len(words) != 5 or words[0] != "c":
            raise Wrong(f"no note: {line}")
        constants = {"T": True, "F": False}
        self.literal = constants[words[1]] if words[1] in constants else int(words[1])
        self.cycle, self.bit, self.name = int(words[2]), int(words[3]), words[4]

    @property
    def place(self):
        return self.cycle, self.name, self.bit

    def value(self, holds):
        """The bit, where `holds` says of each variable whether it is true."""
        if isinstance(self.literal, bool):
            return self.literal
        return holds(abs(self.literal)) == (self.literal > 0)


class ClauseFile:
    """Notes of choices and of fields, the number of variables, the clauses before the last one, and the verdict.

    Reading fails where the form is another one: notes of choices by rising variables, then one for each bit of the
    fields of one channel in one cycle, then the header and a clause a line, the last of which is the last variable. The
    bits of a channel's fields are those of its part of the output, which has channel 0 lowest.
    """

    def __init__(self, path):
        with open(path) as file:
            lines = file.read().split("\n")
        if lines.pop() != "":
            raise Wrong("the last line has no end")
        head = next(at for at, line in enumerate(lines) if line.startswith("p"))
        notes = [Note(line) for line in lines[:head]]
        words = lines[head].split(" ")
        self.variables = int(words[2])
        clauses = [[int(word) for word in line.split(" ")] for line in lines[head + 1:]]
        if words[:2] != ["p", "cnf"] or len(clauses) != int(words[3]) or any(clause.pop() != 0 for clause in clauses):
            raise Wrong("another header than clauses")
        if any(not 1 <= abs(literal) <= self.variables for clause in clauses for literal in clause):
            raise Wrong("a literal of no variable")
        *self.before, last = clauses
        if last != [self.variables]:
            raise Wrong(f"the last clause is {last}")
        self.verdict = last[0]
        looked_at = [(name, width) for name, width in FIELDS if name not in ("mode", "ixl")]
        count = sum(width for _, width in looked_at)
        self.choices, self.fields = notes[:-count], notes[-count:]
        # the first field is `valid`, of one bit
        self.cycle, self.channel = self.fields[0].cycle, self.fields[0].bit
        noted = [(f"rvfi_{name}", self.channel * width + bit) for name, width in looked_at for bit in range(width)]
        if [note.place for note in self.fields] != [(self.cycle, name, bit) for name, bit in noted]:
            raise Wrong("the notes of fields are others, or in another order")
        chosen = [note.literal for note in self.choices]
        if any(isinstance(literal, bool) or literal < 1 for literal in chosen) or sorted(set(chosen)) != chosen:
            raise Wrong("the notes of choices are not by rising variables")
        if len({note.place for note in self.choices}) != len(chosen):
            raise Wrong("a choice is noted twice")

    @property
    def notes(self):
        return self.choices + self.fields


def head(channels):
    """What the texts of checks mean to Icarus Verilog: outputs, and free names as registers that a bench sets."""
    outputs = [f"output [{channels * width - 1}:0] rvfi_{name}" for name, width in FIELDS]
    return "\n".join([
        "`define RVFI_OUTPUTS " + ", ".join(outputs),
        "`define RVFI_CONN " + ", ".join(f".rvfi_{name}(rvfi_{name})" for name, _ in FIELDS),
        *(f"`define rvformal_{name} reg" for name in ("rand_reg", "const_rand_reg", "rand_const_reg")),
        "`define RISCV_FORMAL", f"`define RISCV_FORMAL_NRET {channels}", "`define RISCV_FORMAL_XLEN 32",
        "`define RISCV_FORMAL_ILEN 32", ""])


BENCH = """module bench;
reg clock = 0, reset = 0;
rvfi_wrapper dut (.clock(clock), .reset(reset));
DECLARED
initial begin
STEPS
$finish;
end
endmodule
"""


def simulated(text, steps, declared="", channels=1):
    """Returns what Icarus Verilog prints where it goes through the steps over the wrapper `dut` of the text, in which
    assumptions demand nothing, where the text is that of so many channels."""
    text = re.sub(r"\bassume\b", "if", text)
    bench = BENCH.replace("DECLARED", declared).replace("STEPS", "\n".join(steps))
    with tempfile.TemporaryDirectory() as folder:
        source, built = os.path.join(folder, "t.v"), os.path.join(folder, "t")
        with open(source, "w") as out:
            out.write(head(channels) + text + bench)
        subprocess.run(["iverilog", "-g2005", "-o", built, source], check=True)
        return subprocess.run([built], check=True, capture_output=True, text=True).stdout


def free_names(text):
    """The names that are free in each cycle, and those that are free once, by the macros of their declarations."""
    found = re.findall(r"`rvformal_(\w+)\s*(?:\[[^]]*\])?([^;]*);", text)
    each = [names.split(",") for macro, names in found if "const" not in macro]
    once = [names.split(",") for macro, names in found if "const" in macro]
    return [name.strip() for names in each for name in names], [name.strip() for names in once for name in names]
