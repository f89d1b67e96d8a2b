"""Memories of a netlist as memories of the subset. Nothing here is trusted by a verdict."""
from __future__ import annotations

from dataclasses import dataclass
from typing import TYPE_CHECKING

from .netlist import Bit, Cell
from .text import WIDEST, Start, digits

if TYPE_CHECKING:
    from .convert import Converter


@dataclass(frozen=True)
class Memory:
    """The shape of a memory: so many words of a width, the first one at an index."""
    first: int
    words: int
    width: int

    @staticmethod
    def of(cell: Cell) -> "Memory":
        """That of a `$mem_v2`."""
        first = cell.count("OFFSET")
        return Memory(first - (1 << 32) if first >= 1 << 31 else first, cell.count("SIZE"), cell.count("WIDTH"))

    def parts(self) -> list[tuple[int, int]]:
        """The lowest bit and the width of each part of at most 128 bits."""
        return [(low, min(WIDEST, self.width - low)) for low in range(0, self.width, WIDEST)]


def memory_problems(cell: Cell) -> list[str]:
    """Why a memory can't be converted."""
    found = []
    if Memory.of(cell).first < 0:
        found.append("a memory with a word at a negative index")
    if cell.flag("RD_CLK_ENABLE"):
        found.append("a memory that is read by a clock")
    if cell.flag("RD_WIDE_CONTINUATION") or cell.flag("WR_WIDE_CONTINUATION"):
        found.append("a memory with ports of several words")
    ports = cell.count("WR_PORTS")
    clocked, rising = cell.count("WR_CLK_ENABLE"), cell.count("WR_CLK_POLARITY")
    for port in range(ports):
        if not clocked >> port & 1:
            found.append("a memory that is written without a clock")
        elif not rising >> port & 1:
            found.append("a memory that is written at the negative edge")
    priority = cell.count("WR_PRIORITY_MASK")
    for later in range(ports):
        for earlier in range(later):
            if not priority >> (later * ports + earlier) & 1:
                found.append("two writes of one memory by different blocks, of which neither is said to win")
    return sorted(set(found))


def memory_names(converter: "Converter", cell: Cell) -> list[str]:
    """The names of a memory's parts."""
    parts = Memory.of(cell).parts()
    old = cell.parameters.get("MEMID", cell.name).lstrip("\\")
    return [converter.names.take(old, "" if len(parts) == 1 else f"_{index}") for index in range(len(parts))]


def write_memory(converter: "Converter", cell: Cell) -> None:
    """Writes the declaration, the initial values, the reads and the writes of a memory."""
    memory, text = Memory.of(cell), converter.text
    text.register_bits += memory.words * memory.width
    for name, (low, width) in zip(memory_names(converter, cell), memory.parts()):
        text.memory_words[name] += memory.words
        shape = "" if width == 1 else f"[{width - 1}:0] "
        old = cell.parameters.get("MEMID", cell.name).lstrip("\\")
        words = range(memory.first, memory.first + memory.words)
        text.starts.append(Start(name, old, low, width, memory.width, words, "x" not in cell.parameters["INIT"]))
        text.declared.append(f"reg {shape}{name} [{memory.first}:{memory.first + memory.words - 1}];")
        write_start(converter, cell, name, low, width)
        write_reads(converter, cell, name, low, width)
        write_writes(converter, cell, name, low, width)


def write_start(converter: "Converter", cell: Cell, name: str, low: int, width: int) -> None:
    """Initial values, those that are undefined in part bit by bit."""
    memory = Memory.of(cell)
    init = cell.parameters["INIT"][::-1]
    lines = []
    for word in range(memory.words):
        bits = init[word * memory.width + low:][:width]
        at = f"{name}[{memory.first + word}]"
        if bits and all(bit in "01" for bit in bits):
            lines.append(f"{at} = {digits(bits[::-1])};")
        else:
            known = [f"{at}[{index}] = 1'b{bit};" for index, bit in enumerate(bits) if bit in "01"]
            converter.text.partial += bool(known)
            lines += known
    if lines:
        converter.text.items += ["initial begin"] + ["  " + line for line in lines] + ["end"]


def write_reads(converter: "Converter", cell: Cell, name: str, low: int, width: int) -> None:
    """Each read is an assignment."""
    memory, text = Memory.of(cell), converter.text
    digits_of_address = cell.count("ABITS")
    for port in range(cell.count("RD_PORTS")):
        address = cell.inputs["RD_ADDR"][port * digits_of_address:][:digits_of_address]
        result: list[Bit] = cell.outputs["RD_DATA"][port * memory.width:][:memory.width][low:low + width]
        text.items.append(f"assign {text.places[result[0]][0].name} = {name}[{text.spell(address)}];")
        text.weights[name] += memory.words * width


def write_writes(converter: "Converter", cell: Cell, name: str, low: int, width: int) -> None:
    """All writes stand in one block, in their order; bits that are enabled together are written together."""
    memory, text = Memory.of(cell), converter.text
    digits_of_address = cell.count("ABITS")
    lines = []
    for port in range(cell.count("WR_PORTS")):
        address = cell.inputs["WR_ADDR"][port * digits_of_address:][:digits_of_address]
        at = ""
        data = cell.inputs["WR_DATA"][port * memory.width:][:memory.width][low:low + width]
        enable = [text.resolve(bit) for bit in cell.inputs["WR_EN"][port * memory.width + low:][:width]]
        start = 0
        while start < width:
            end = start
            while end + 1 < width and enable[end + 1] == enable[start]:
                end += 1
            if enable[start] != "0":
                part = "" if end - start + 1 == width else f"[{start}]" if start == end else f"[{end}:{start}]"
                at = at or f"{name}[{text.spell(address)}]"
                write = f"{at}{part} <= {text.spell(data[start:end + 1])};"
                lines.append(write if enable[start] == "1" else f"if ({text.spell([enable[start]])}) {write}")
                text.weights[name] += memory.words * width
            start = end + 1
    if lines:
        text.items += [f"always @(posedge {converter.clock}) begin"] + ["  " + line for line in lines] + ["end"]
