"""Cells in a loop: the subset tells drivers apart as wholes, so a vector that is computed bit after bit is cut into
bits.

Nothing here is trusted by a verdict.
"""
from __future__ import annotations

from dataclasses import replace

from .netlist import Bit, Cell
from .text import extended

BITWISE = {"$and", "$or", "$xor", "$xnor", "$not", "$mux", "$pmux"}
STATE = {"$dff", "$mem_v2", "$anyseq", "$anyconst", "$initstate", "$assume"}


def cut_loops(cells: list[Cell]) -> tuple[list[Cell], list[list[Cell]]]:
    """The cells, those that work bit by bit cut into bits where they stand in a loop, and the loops that are left."""
    loops = circles(cells)
    if not loops:
        return cells, []
    within = {cell.name for loop in loops for cell in loop if cell.kind in BITWISE}
    cut = [part for cell in cells for part in (bits_of(cell) if cell.name in within else [cell])]
    return cut, circles(cut)


def bits_of(cell: Cell) -> list[Cell]:
    """A cell that works bit by bit as one cell for each bit of its output."""
    width = len(cell.outputs["Y"])
    columns: dict[str, list[list[Bit]]] = {}
    for port, bits in cell.inputs.items():
        if port == "S":
            columns[port] = [bits] * width
        elif cell.kind == "$pmux" and port == "B":
            columns[port] = [bits[index::width] for index in range(width)]
        else:
            whole = extended(bits, width, cell.flag(f"{port}_SIGNED"))
            columns[port] = [[bit] for bit in whole]
    return [replace(cell, name=f"{cell.name}_bit_{index}", inputs={port: columns[port][index] for port in columns},
                    outputs={"Y": [cell.outputs["Y"][index]]}) for index in range(width)]


def reads_of(cell: Cell) -> list[Cell]:
    """The reads of a memory, each of which has its address and its data."""
    digits, width = cell.count("ABITS"), cell.count("WIDTH")
    return [replace(cell, kind="read", inputs={"A": cell.inputs["RD_ADDR"][port * digits:][:digits]},
                    outputs={"Y": cell.outputs["RD_DATA"][port * width:][:width]})
            for port in range(cell.count("RD_PORTS"))]


def circles(cells: list[Cell]) -> list[list[Cell]]:
    """The strongly connected parts of the cells without state that have a loop in them (Tarjan, without recursion)."""
    plain = [part for cell in cells for part in (reads_of(cell) if cell.kind == "$mem_v2" else [cell])
             if part.kind not in STATE]
    driver = {bit: index for index, cell in enumerate(plain) for bits in cell.outputs.values() for bit in bits}
    below = [sorted({driver[bit] for bits in cell.inputs.values() for bit in bits if bit in driver}) for cell in plain]
    found: list[list[Cell]] = []
    low: dict[int, int] = {}
    order: dict[int, int] = {}
    stack: list[int] = []
    open_: set[int] = set()
    for root in (cell for cell in range(len(plain)) if cell not in order):
        walk = [(root, iter(below[root]))]
        order[root] = low[root] = len(order)
        stack.append(root)
        open_.add(root)
        while walk:
            node, rest = walk[-1]
            for other in rest:
                if other not in order:
                    order[other] = low[other] = len(order)
                    stack.append(other)
                    open_.add(other)
                    walk.append((other, iter(below[other])))
                    break
                if other in open_:
                    low[node] = min(low[node], order[other])
            else:
                walk.pop()
                if walk:
                    low[walk[-1][0]] = min(low[walk[-1][0]], low[node])
                if low[node] == order[node]:
                    part = []
                    while not part or part[-1] != node:
                        part.append(stack.pop())
                        open_.discard(part[-1])
                    if len(part) > 1 or node in below[node]:
                        found.append([plain[index] for index in part])
    return found
