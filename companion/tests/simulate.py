"""Compares a core with what was converted of it, cycle by cycle, in Icarus Verilog.

Both sides begin with the same random numbers in registers and words without a value, and get the same random inputs.
Outputs are compared with `!==`; an output bit that is x on the original's side alone counts as equal and is counted.
"""
from __future__ import annotations

import random
import re
import subprocess
from dataclasses import dataclass
from pathlib import Path

from rvf_companion.convert import Converted
from rvf_companion.netlist import Netlist
from rvf_companion.text import Start
from rvf_companion.yosys import Core, macros


@dataclass(frozen=True)
class Comparison:
    """What came of it: cycles, output bits that differ, and those that are x on the original's side alone."""
    cycles: int
    different: int
    unknown: int
    said: str


def random_bits(width: int) -> str:
    """An expression of random bits."""
    return "{" + ", ".join(["$urandom"] * ((width + 31) // 32)) + "}"


def begin(start: Start, lines: list[str], is_named: bool) -> None:
    """The lines that give both sides one random number in a register, or in each word of a memory; a register that
    the text has no name for is on the converted side alone."""
    old = ".".join(part if re.fullmatch(r"\w+", part) else f"\\{part} " for part in start.old.split("."))
    for index in start.words if start.words is not None else [None]:
        word = "" if index is None else f"[{index}]"
        part = "" if start.width == start.whole else f"[{start.low + start.width - 1}:{start.low}]"
        lines.append(f"number = {random_bits(start.width)};")
        if is_named:
            lines.append(f"original.{old}{word}{part} = number[{start.width - 1}:0];")
        lines.append(f"converted.{start.name}{word} = number[{start.width - 1}:0];")


def bench(core: Core, netlist: Netlist, made: Converted, cycles: int) -> str:
    """The text of a module that drives both sides and compares them."""
    given = ", ".join(f".{name}({value})" for name, value in core.parameters.items())
    original = f"{netlist.name} #({given}) original" if given else f"{netlist.name} original"
    inputs = [port for port in netlist.ports if port.direction == "input" and port.name != made.clock]
    outputs = [port for port in netlist.ports if port.direction == "output"]
    size, many = (sum(len(port.bits) for port in ports) for ports in (inputs, outputs))
    starts: list[str] = []
    named = {net.name for net in netlist.nets if not net.hidden}
    for start in made.starts:
        if not start.is_known:
            begin(start, starts, start.words is not None or start.old in named)
    ports = "".join(f", .{port.name}(in_{port.name})" for port in inputs)
    declared = [f"reg [{len(port.bits) - 1}:0] in_{port.name};" for port in inputs]
    sides = {}
    for side in ("original", "converted"):
        declared += [f"wire [{len(port.bits) - 1}:0] {side}_{port.name};" for port in outputs]
        sides[side] = "".join(f", .{port.name}({side}_{port.name})" for port in outputs)
    free = [f"      converted.{signal.name} = {random_bits(signal.width)};" for signal in made.free_names]
    all_of = {side: ", ".join(f"{side}_{port.name}" for port in outputs) for side in sides}
    return "\n".join([
        "module bench;", "  reg clock = 0;", *("  " + line for line in declared),
        f"  reg [{size - 1}:0] given [0:{cycles - 1}];", f"  wire [{many - 1}:0] left = {{{all_of['original']}}};",
        f"  wire [{many - 1}:0] right = {{{all_of['converted']}}};",
        "  reg [2047:0] number;", "  integer cycle, place, different, unknown;",
        f"  {original} (.{made.clock}(clock){ports}{sides['original']});",
        f"  {netlist.name}_converted converted (.{made.clock}(clock){ports}{sides['converted']});",
        "  initial begin", '    $readmemh("given.hex", given);', "    different = 0; unknown = 0; #1;",
        *("    " + line for line in starts),
        f"    for (cycle = 0; cycle < {cycles}; cycle = cycle + 1) begin",
        f"      {{{', '.join(f'in_{port.name}' for port in inputs)}}} = given[cycle];", *free, "      #4;",
        "      if (left !== right)", f"        for (place = 0; place < {many}; place = place + 1)",
        "          if (left[place] !== right[place]) begin",
        "            if (left[place] === 1'bx) unknown = unknown + 1;", "            else begin",
        "              if (different < 5)",
        '                $display("bit %0d at %0d: %b %b", place, cycle, left[place], right[place]);',
        "              different = different + 1;", "            end", "          end",
        "      clock = 1; #4; clock = 0; #1;", "    end",
        '    $display("cycles %0d different %0d unknown %0d", cycle, different, unknown);', "    $finish;", "  end",
        "endmodule", ""])


def given(netlist: Netlist, made: Converted, cycles: int, values: dict[str, list[int]], seed: int) -> str:
    """The inputs of each cycle in digits of base 16: reset is 1 at first and in some later cycles, other inputs are
    random, most often one of the values that are given for them."""
    chance = random.Random(seed)
    inputs = [port for port in netlist.ports if port.direction == "input" and port.name != made.clock]
    lines = []
    for cycle in range(cycles):
        number = 0
        for port in inputs:
            width = len(port.bits)
            value = chance.getrandbits(width)
            if port.name == "reset":
                value = int(cycle == 0 or chance.random() < 0.004)
            elif port.name == "resetn":
                value = int(cycle > 3 and chance.random() >= 0.004)
            elif values.get(port.name) and chance.random() < 0.97:
                pattern, free = chance.choice(values[port.name])
                value = pattern | value & free
            number = number << width | value
        lines.append(f"{number:x}")
    return "\n".join(lines) + "\n"


def compare(folder: Path, core: Core, netlist: Netlist, made: Converted, values: dict, cycles: int = 10_000,
            seed: int = 1) -> Comparison:
    """Runs both sides beside each other in a folder."""
    (folder / "macros.v").write_text(macros(core))
    (folder / "given.hex").write_text(given(netlist, made, cycles, values, seed))
    text = made.text.replace(f"module {netlist.name} (", f"module {netlist.name}_converted (", 1)
    text = re.sub(r"^  always @\* assume .*$", "", text, flags=re.M)
    (folder / "converted.v").write_text(text)
    (folder / "bench.v").write_text(bench(core, netlist, made, cycles))
    files = [folder / "macros.v", *[path.resolve() for path in core.files], folder / "converted.v", folder / "bench.v"]
    words = ["iverilog", "-g2012", "-s", "bench", "-o", "bench.out", *[str(path) for path in files]]
    built = subprocess.run(words, cwd=folder, check=False, capture_output=True, text=True)
    if built.returncode:
        raise AssertionError(built.stdout + built.stderr)
    done = subprocess.run(["vvp", "-n", "bench.out"], cwd=folder, check=True, capture_output=True, text=True)
    found = re.search(r"cycles (\d+) different (\d+) unknown (\d+)", done.stdout)
    if not found:
        raise AssertionError(done.stdout + done.stderr)
    return Comparison(*(int(word) for word in found.groups()), done.stdout)


def first_cycles(folder: Path, core: Core, wrapper: str, words: list[int]) -> list[int | None]:
    """For each word the first cycle in which it retires, where it is all that the wrapper's memory has, which answers
    at once; the core is the wrapper's instance `core`. Nothing where it doesn't retire in the first 30 cycles."""
    given = "".join(f"  defparam top.core.{name} = {value};\n" for name, value in core.parameters.items())
    (folder / "first.v").write_text(macros(core) + "".join(path.read_text() for path in core.files) + wrapper + f"""
module bench;
  reg clock = 0, reset;
  reg [31:0] words [0:{len(words) - 1}];
  wire valid;
  wire [31:0] insn;
  integer row, cycle;
  rvfi_wrapper top (.clock(clock), .reset(reset), .rvfi_valid(valid), .rvfi_insn(insn));
{given}  initial begin
    $readmemh("words.hex", words);
    top.mem_ready = 1;
    for (row = 0; row < {len(words)}; row = row + 1) begin
      top.mem_rdata = words[row];
      for (cycle = 0; cycle < 30; cycle = cycle + 1) begin
        reset = cycle == 0;
        #4;
        if (cycle > 0 && valid === 1 && insn === words[row]) $display("first %0d %0d", row, cycle);
        clock = 1; #4; clock = 0; #1;
      end
    end
    $finish;
  end
endmodule
""")
    (folder / "words.hex").write_text("".join(f"{word:08x}\n" for word in words))
    subprocess.run(["iverilog", "-g2012", "-s", "bench", "-o", "first.out", "first.v"], cwd=folder, check=True)
    done = subprocess.run(["vvp", "-n", "first.out"], cwd=folder, check=True, capture_output=True, text=True)
    found = [(int(row), int(cycle)) for row, cycle in re.findall(r"first (\d+) (\d+)", done.stdout)]
    return [min((cycle for other, cycle in found if other == row), default=None) for row in range(len(words))]
