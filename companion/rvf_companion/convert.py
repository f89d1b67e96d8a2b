"""From a flat netlist of Yosys to one module of the subset.

Each cell becomes an assignment to a name of its own, a register a block by `posedge`, a memory a memory. Nothing here
is trusted by a verdict.
"""
from __future__ import annotations

from dataclasses import dataclass

from . import cells as of_cells
from .choices import merged_choices, shared, without_unreached
from .loops import cut_loops
from .memories import memory_problems, write_memory
from .names import Names
from .netlist import Bit, Cell, NamedNet, Netlist, Port
from .registers import plain_registers
from .text import (MADE, MOST_NAMES, MOST_REGISTER_BITS, MOST_WEIGHT, WIDEST, Refused, Signal, Start, Text, in_parts,
                   ranged)

# Cells that say nothing of what a design does.
CLAIMS = {"$assert", "$cover", "$live", "$fair", "$print", "$scopeinfo"}

# Cells that are there whether or not something reads them.
ROOTS = {"$dff", "$mem_v2", "$assume", "$anyseq", "$anyconst", "$initstate"}

# What a cell is joined to as a clock; a read of a memory without one has undefined bits there.
CLOCKS = {"CLK", "WR_CLK", "RD_CLK"}

# Cells that need no look of their own at whether they can be converted.
PLAIN = {"$anyseq", "$anyconst", "$initstate", "$assume"}

REFUSED = {
    "$dlatch": "a latch", "$adlatch": "a latch", "$dlatchsr": "a latch", "$sr": "a latch",
    "$ff": "a register without a clock",
    "$adff": "an asynchronous reset that async2sync leaves", "$adffe": "an asynchronous reset that async2sync leaves",
    "$aldff": "an asynchronous load that async2sync leaves", "$dffsr": "an asynchronous set that async2sync leaves",
    "$tribuf": "a tristate", "$pow": "a power", "$divfloor": "a division that rounds down",
    "$modfloor": "a remainder that rounds down", "$allseq": "a name of all values", "$allconst": "a name of all values",
}


@dataclass(frozen=True)
class Converted:
    """The text of a module of the subset, the names with what they were, and what is to be told."""
    text: str
    names: dict[str, str]
    notes: list[str]
    weight: int
    starts: list[Start]
    free_names: list[Signal]
    clock: str


def convert(netlist: Netlist, source: str) -> Converted:
    """Converts the module, or refuses with all that can't be converted, each by name and place."""
    return Converter(netlist).run(source)


class Converter:
    """One conversion."""

    def __init__(self, netlist: Netlist) -> None:
        self.netlist = netlist
        self.names = Names()
        self.text = Text(self.names)
        self.problems: list[str] = []
        self.claims = sum(cell.kind in CLAIMS for cell in netlist.cells)
        self.cells = plain_registers([cell for cell in netlist.cells if cell.kind not in CLAIMS])
        self.inits = {bit: value for net in netlist.nets for bit, value in zip(net.bits, reversed(net.init))
                      if isinstance(bit, int) and value in "01"}
        self.public = [net for net in netlist.nets if not net.hidden]
        self.undriven = 0
        given = [bits for cell in self.cells for port, bits in cell.inputs.items() if port not in CLOCKS]
        given += [port.bits for port in netlist.ports if port.direction == "output"]
        self.undefined = sum(bits.count("x") for bits in given)
        self.read: set[Bit] = set()
        self.clock = ""

    def refuse(self, cell: Cell, why: str) -> None:
        """Remembers that a cell can't be converted."""
        self.problems.append(f"{why}: {self.netlist.called(cell)} at {self.netlist.place(cell)}")

    def refuse_port(self, port: Port, why: str) -> None:
        """Remembers that a port can't be converted."""
        self.problems.append(f"{why}: {port.name} at {self.netlist.place_of_net(port.name)}")

    def run(self, source: str) -> Converted:
        """All steps in order."""
        self.check_ports()
        self.check_cells()
        self.check_drivers()
        self.find_clock()
        self.check_registers()
        self.stop_at_problems()
        self.cells = [self.in_its_cycle(cell) if cell.kind == "$assume" else cell for cell in self.cells]
        self.stop_at_problems()
        self.cells, loops = cut_loops([cell for cell in self.cells if not self.is_hidden_and_unread(cell)])
        self.cells = shared(self.cells, self.text.same)
        named = {self.text.resolve(bit) for net in [*self.public, *self.netlist.ports] for bit in net.bits}
        self.cells = merged_choices(without_unreached(self.cells, named), self.text.same)
        for loop in loops:
            places = ", ".join(f"{self.netlist.called(cell)} at {self.netlist.place(cell)}" for cell in loop[:4])
            self.problems.append(f"a loop without a register through {len(loop)} cells: {places}")
        self.stop_at_problems()
        self.find_read()
        self.declare_all()
        self.emit_all()
        self.alias_all()
        self.check_limits()
        return self.finish(source)

    def stop_at_problems(self) -> None:
        """Ends with all problems so far, if there are any."""
        if self.problems:
            raise Refused(sorted(set(self.problems)))

    # What can't be converted.

    def check_ports(self) -> None:
        """Ports are inputs and outputs of at most 128 bits, with names that may stay."""
        for port in self.netlist.ports:
            if port.direction not in ("input", "output"):
                self.refuse_port(port, "a port of both directions")
            if len(port.bits) > WIDEST:
                self.refuse_port(port, f"a port of {len(port.bits)} bits")
            if not self.names.keep(port.name):
                self.refuse_port(port, "a port with a name that may not stay")
            if "z" in port.bits:
                self.refuse_port(port, "a tristate")

    def check_drivers(self) -> None:
        """No bit has two drivers, and none that is constant has one."""
        made = [(bits, cell, None) for cell in self.cells for bits in cell.outputs.values()]
        made += [(port.bits, None, port) for port in self.netlist.ports if port.direction == "input"]
        seen: set[Bit] = set()
        for bits, cell, port in made:
            if any(isinstance(bit, str) or bit in seen for bit in bits):
                if cell:
                    self.refuse(cell, "two drivers of a bit")
                else:
                    self.refuse_port(port, "two drivers of a bit")
            seen.update(bits)

    def check_cells(self) -> None:
        """Cells are of the kinds that are known, without tristates, with registers of the rising edge."""
        for cell in self.cells:
            if cell.kind in REFUSED:
                self.refuse(cell, REFUSED[cell.kind])
            elif cell.kind == "$mem_v2":
                for problem in memory_problems(cell):
                    self.refuse(cell, problem)
            elif cell.kind == "$dff":
                if not cell.flag("CLK_POLARITY"):
                    self.refuse(cell, "a register of the negative edge")
            elif cell.kind not in of_cells.WRITERS and cell.kind not in PLAIN:
                self.refuse(cell, f"a cell of the kind {cell.kind}")
            if any(bit == "z" for bits in cell.inputs.values() for bit in bits):
                self.refuse(cell, "a tristate")
            why = of_cells.uncuttable(cell)
            if why:
                self.refuse(cell, why)

    def find_clock(self) -> None:
        """All registers and writes go by one input, which nothing else reads."""
        clocked: dict[Bit, list[Cell]] = {}
        others: dict[Bit, Cell] = {}
        for cell in self.cells:
            for port, bits in cell.inputs.items():
                is_clock = port == "CLK" or port == "WR_CLK"
                for bit in bits:
                    if is_clock and not (port == "WR_CLK" and bit == "x"):
                        clocked.setdefault(bit, []).append(cell)
                    elif not is_clock:
                        others.setdefault(bit, cell)
        inputs = {port.bits[0]: port.name for port in self.netlist.ports
                  if port.direction == "input" and len(port.bits) == 1}
        if len(clocked) > 1:
            for bit, cells in sorted(clocked.items(), key=lambda item: -len(item[1]))[1:]:
                for cell in cells:
                    self.refuse(cell, "a register of a second clock")
        outputs = {bit: port.name for port in self.netlist.ports if port.direction == "output" for bit in port.bits}
        for bit, cells in clocked.items():
            if bit in outputs:
                self.problems.append(f"the clock is an output too: {outputs[bit]} at "
                                     f"{self.netlist.place_of_net(outputs[bit])}")
            elif bit not in inputs:
                self.refuse(cells[0], "a clock that is no input of the module")
            elif bit in others:
                self.refuse(others[bit], f"the clock {inputs[bit]} is read other than as a clock")
            else:
                self.clock = inputs[bit]
        if not clocked and "clock" in inputs.values():
            self.clock = "clock"

    def in_its_cycle(self, cell: Cell) -> Cell:
        """An assumption of a clocked block stands behind registers, a cycle late: takes what these are given."""
        bits = {port: cell.inputs[port][0] for port in ("A", "EN")}
        late = {port: self.late_register(cell, bits[port], ending) for port, ending in (("A", "_CHECK"), ("EN", "_EN"))}
        if any(late.values()):
            for port, bit in bits.items():
                if late[port]:
                    bits[port] = late[port].inputs["D"][late[port].outputs["Q"].index(bit)]
                elif isinstance(bit, int):
                    self.refuse(cell, "an assumption that is a cycle late in a part")
        inputs = {port: [bit] for port, bit in bits.items()}
        return Cell(cell.name, cell.kind, cell.parameters, cell.attributes, inputs, {})

    def late_register(self, cell: Cell, bit: Bit, ending: str) -> Cell | None:
        """The register that Yosys put before an assumption, if the bit is one's."""
        named = [net for net in self.netlist.nets if bit in net.bits]
        if not isinstance(bit, int) or any(not net.hidden for net in named):
            return None
        if not any(net.name.endswith(ending) for net in named):
            return None
        driver = next((other for other in self.cells if bit in other.outputs.get("Q", [])), None)
        if driver is None or driver.kind != "$dff":
            self.refuse(cell, "an assumption of a block with an asynchronous event")
            return None
        return driver

    def is_hidden_and_unread(self, cell: Cell) -> bool:
        """Whether a register is one of an assumption's, which nothing reads any more."""
        if cell.kind != "$dff":
            return False
        if not hasattr(self, "_needed"):
            self._needed = {bit for other in self.cells for bits in other.inputs.values() for bit in bits}
            self._needed |= {bit for port in self.netlist.ports for bit in port.bits}
            self._needed |= {bit for net in self.public for bit in net.bits}
        return not any(bit in self._needed for bit in cell.outputs["Q"])

    # Names.

    def find_read(self) -> None:
        """Which bits something reads, from outputs, state, assumptions and names of the text backwards; a cell of
        which no bit is read is left out."""
        driver = {bit: cell for cell in self.cells for bits in cell.outputs.values() for bit in bits}
        resolve = self.text.resolve
        self.read = {resolve(bit) for port in self.netlist.ports if port.direction == "output" for bit in port.bits}
        named = {resolve(bit) for net in self.public for bit in net.bits}
        waiting = [cell for cell in self.cells if cell.kind in ROOTS]
        waiting += [driver[bit] for bit in self.read | named if bit in driver]
        alive: set[str] = set()
        while waiting:
            cell = waiting.pop()
            if cell.name in alive:
                continue
            alive.add(cell.name)
            bits = {resolve(bit) for bits in cell.inputs.values() for bit in bits}
            self.read |= bits
            waiting += [driver[bit] for bit in bits if bit in driver]
        self.cells = [cell for cell in self.cells if cell.name in alive]
        self.shown = self.read | named

    def old_name(self, cell: Cell, bits: list[Bit], ending: str = "") -> str:
        """What the text called these bits, or the netlist."""
        if not hasattr(self, "_by_bits"):
            self._by_bits: dict[tuple[Bit, ...], list[NamedNet]] = {}
            self._by_first: dict[Bit, list[NamedNet]] = {}
            for net in self.netlist.nets:
                self._by_bits.setdefault(tuple(net.bits), []).append(net)
                if not net.hidden:
                    for bit in net.bits:
                        self._by_first.setdefault(bit, []).append(net)
        exact = self._by_bits.get(tuple(bits), [])
        named = [net for net in exact if not net.hidden] or [net for net in exact if "\\" in net.name]
        if named:
            return min(named, key=lambda net: (net.name.count("."), len(net.name))).name
        for net in self._by_first.get(bits[0], []):
            low = net.bits.index(bits[0])
            if net.bits[low:low + len(bits)] == bits:
                return f"{net.name}_{low + len(bits) - 1}_{low}" if len(bits) > 1 else f"{net.name}_{low}"
        return cell.name + ending

    def declare_all(self) -> None:
        """Declares a name for each output of a cell, and free names for what nothing drives."""
        driven: set[Bit] = set()
        self.outputs = {tuple(port.bits): port for port in reversed(self.netlist.ports) if port.direction == "output"}
        self.owned: dict[str, str] = {}
        for port in self.netlist.ports:
            if port.direction == "input":
                signal = Signal(port.name, len(port.bits), "input")
                self.text.locate(signal, port.bits)
                driven.update(port.bits)
        for cell in self.cells:
            for bits in cell.outputs.values():
                driven.update(bits)
        for cell in self.cells:
            of_cells.declare(self, cell)
        self.declare_undriven(driven)

    def declare_output(self, cell: Cell, bits: list[Bit], kind: str, ending: str = "") -> list[Signal]:
        """Declares the name or the numbered names of a cell's output; it may be an output of the module."""
        port = self.outputs.get(tuple(bits))
        if port and kind in ("wire", "reg") and port.name not in self.owned:
            self.owned[port.name] = kind
            signal = Signal(port.name, len(bits), kind)
            self.text.locate(signal, bits)
            return [signal]
        return self.text.declare_parts(self.old_name(cell, bits, ending), bits, kind)

    def declare_undriven(self, driven: set[Bit]) -> None:
        """Bits that are read and that nothing drives are free in each cycle."""
        lacking = {bit for bit in self.read if isinstance(bit, int) and bit not in driven}
        for net in sorted(self.netlist.nets, key=lambda net: (net.hidden, net.name.count("."), net.name)):
            bits = [bit for bit in net.bits if bit in lacking]
            if bits:
                self.text.declare_parts("undriven_" + net.name, bits, "anyseq")
                lacking -= set(bits)
                self.undriven += len(bits)
        for bit in sorted(lacking):
            self.text.declare_parts("undriven", [bit], "anyseq")
            self.undriven += 1

    # Items.

    def emit_all(self) -> None:
        """Writes all cells and the outputs that no cell owns."""
        for cell in self.cells:
            if cell.kind == "$mem_v2":
                write_memory(self, cell)
            else:
                of_cells.write(self, cell)
        for port in self.netlist.ports:
            if port.direction == "input":
                self.text.ports.append(f"input {ranged(len(port.bits))}{port.name}")
                continue
            word = "output reg" if self.owned.get(port.name) == "reg" else "output"
            self.text.ports.append(f"{word} {ranged(len(port.bits))}{port.name}")
            if port.name not in self.owned:
                self.text.items.append(f"assign {port.name} = {self.text.spell(port.bits)};")

    def alias_all(self) -> None:
        """Gives the other names of the design's text to what they name, so that traces have them."""
        known = set(self.names.table.values())
        ports = {port.name for port in self.netlist.ports}
        for net in sorted(self.public, key=lambda net: net.name):
            bits = [self.text.resolve(bit) for bit in net.bits]
            if net.name in known or net.name in ports:
                continue
            if any(bit not in self.text.places if isinstance(bit, int) else bit not in "01" for bit in bits):
                continue
            if any(self.text.places[bit][0].name == self.clock for bit in bits if isinstance(bit, int)):
                continue
            parts = in_parts(bits)
            for index, part in enumerate(parts):
                name = self.names.take(net.name, "" if len(parts) == 1 else f"_{index}")
                self.text.declared.append(f"wire {ranged(len(part))}{name};")
                self.text.items.append(f"assign {name} = {self.text.spell(part)};")

    def check_registers(self) -> None:
        """More bits of registers than the subset has are told with the largest ones."""
        sizes = sorted(of_cells.register_sizes(self.cells), reverse=True)
        many = sum(count for count, _ in sizes)
        if many > MOST_REGISTER_BITS:
            told = ", ".join(f"{name} {count}" for count, name in sizes[:3])
            self.problems.append(f"{many} bits of registers, above {MOST_REGISTER_BITS}; the largest: {told}")

    def check_limits(self) -> None:
        """What else passes the limits of the subset is told before the program tells it."""
        text = self.text
        words = sum(text.memory_words.values())
        names = len(self.names.table) + words
        if names > MOST_NAMES:
            told = ", ".join(f"{name} {count}" for name, count in text.memory_words.most_common(3))
            of_them = f"; {words} of them words of memories, the most: {told}" if words else ""
            self.problems.append(f"{names} names, above {MOST_NAMES}{of_them}")
        if 2 * text.weight() > MOST_WEIGHT:
            told = ", ".join(f"{name} {count}" for name, count in text.weights.most_common(3))
            self.problems.append(f"a weight of {text.weight()}, too heavy for a check at cycle 1; the most: {told}")
        self.stop_at_problems()

    def finish(self, source: str) -> Converted:
        """The whole text, and what is to be told."""
        text = self.text
        plain = "".join(sign if sign.isprintable() and sign.isascii() else "?" for sign in source)
        lines = [f"// {plain}", f"// {MADE}, of which nothing is trusted by a verdict.",
                 f"module {self.netlist.name} ("]
        lines += ["  " + port + ("," if index + 1 < len(text.ports) else "") for index, port in enumerate(text.ports)]
        lines += [");"] + ["  " + line for line in text.declared + text.items] + ["endmodule", ""]
        past = f", as did {text.past} bits past a vector's range or of a division by 0" if text.past else ""
        left = max(0, self.undefined - text.undefined)
        notes = [f"{text.undefined} undefined bits and {self.undriven} bits without a driver became free names{past}",
                 f"{left} undefined bits were left out, as nothing reads them or their write is never enabled",
                 f"{text.partial} initial values that are undefined in part were given bit by bit",
                 f"{text.register_bits} bits of registers and memories, {len(self.names.table)} names, "
                 f"weight {text.weight()}: checks up to cycle {min(100, MOST_WEIGHT // max(1, text.weight()) - 1)}"]
        if self.claims:
            notes.append(f"{self.claims} claims of the text's own (assert, cover and the like) were left out")
        return Converted("\n".join(lines), self.names.table, notes, text.weight(), text.starts, text.free_names,
                         self.clock)
