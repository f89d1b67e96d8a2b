"""Cells that come out equal, and choices whose bits do: one stands for all of them.

Yosys spreads one condition over all bits of a memory's word, so that without this a word would be written bit by bit.
No undefined bit is decided here. Nothing here is trusted by a verdict.
"""
from __future__ import annotations

from dataclasses import replace
from typing import Callable

from .loops import STATE
from .netlist import Bit, Cell


def resolver(same: dict[int, Bit]) -> Callable[[Bit], Bit]:
    """The function that finds the bit for which others stand."""
    def resolve(bit: Bit) -> Bit:
        while isinstance(bit, int) and bit in same:
            bit = same[bit]
        return bit
    return resolve


def shared(cells: list[Cell], same: dict[int, Bit]) -> list[Cell]:
    """The cells without those that work out again what another one has of the same bits; such with undefined bits
    stay."""
    resolve, changed = resolver(same), True
    while changed:
        changed = False
        seen: dict[tuple, Cell] = {}
        kept = []
        for cell in cells:
            inputs = {port: [resolve(bit) for bit in bits] for port, bits in cell.inputs.items()}
            cell = replace(cell, inputs=inputs)
            key = (cell.kind, tuple(sorted(cell.parameters.items())),
                   tuple((port, *inputs[port]) for port in sorted(inputs)))
            if cell.kind in STATE or any("x" in bits for bits in inputs.values()):
                kept.append(cell)
            elif key in seen:
                changed = True
                same.update({bit: first for bit, first in zip(cell.outputs["Y"], seen[key].outputs["Y"])})
            else:
                seen[key] = cell
                kept.append(cell)
        cells = kept
    return cells


def merged_choices(cells: list[Cell], same: dict[int, Bit]) -> list[Cell]:
    """The cells with narrower choices; which bits are other ones is put into `same`."""
    resolve = resolver(same)
    changed = True
    while changed:
        changed = False
        kept = []
        for cell in cells:
            narrow = narrowed(cell, same, resolve) if cell.kind in ("$mux", "$pmux") else cell
            changed = changed or narrow is not cell
            if narrow.kind not in ("$mux", "$pmux") or narrow.outputs["Y"]:
                kept.append(narrow)
        cells = kept
    return cells


def narrowed(cell: Cell, same: dict[int, Bit], resolve: Callable[[Bit], Bit]) -> Cell:
    """A choice without the bits that are equal to others of it, or to all of what is chosen from."""
    width = len(cell.outputs["Y"])
    seen: dict[tuple[Bit, ...], Bit] = {}
    left: list[tuple[tuple[Bit, ...], Bit]] = []
    for index, made in enumerate(cell.outputs["Y"]):
        column = tuple(resolve(bit) for bit in [cell.inputs["A"][index], *cell.inputs["B"][index::width]])
        if len(set(column)) == 1 and column[0] != "x":
            same[made] = column[0]
        elif "x" not in column and column in seen:
            same[made] = seen[column]
        else:
            seen[column] = made
            left.append((column, made))
    if len(left) == width:
        return cell
    values = [column[at] for at in range(1, width_of(cell)) for column, _ in left]
    inputs = {"A": [column[0] for column, _ in left], "B": values, "S": cell.inputs["S"]}
    return replace(cell, inputs=inputs, outputs={"Y": [made for _, made in left]})


def width_of(cell: Cell) -> int:
    """How many vectors a choice chooses from."""
    return len(cell.inputs["S"]) + 1


def without_unreached(cells: list[Cell], seen_elsewhere: set[Bit]) -> list[Cell]:
    """The cells with choices that don't ask again what was decided on the one way on which they are read.

    Yosys writes a nested `if` as choices in one another, with undefined bits on the ways that another one excludes.
    Such a bit comes to nothing: it isn't decided here, but left out with the choice that would never take it. A choice
    of which some bit is seen elsewhere, by a name of the text, an output or a cell that is no choice, stays as it is.
    """
    changed = True
    while changed:
        known = decided(cells, seen_elsewhere)
        driver = {bit: (cell, index) for cell in cells if cell.kind == "$mux"
                  for index, bit in enumerate(cell.outputs["Y"])}
        kept = [straightened(cell, known[cell.name], driver) if cell.kind == "$mux" else cell for cell in cells]
        changed = any(new is not old for new, old in zip(kept, cells))
        cells = without_dead(kept, seen_elsewhere)
    return cells


def decided(cells: list[Cell], seen_elsewhere: set[Bit]) -> dict[str, dict[Bit, int]]:
    """For each choice what is known of selecting bits wherever it is read: it is read by one side of one other
    choice."""
    places: dict[Bit, set[tuple[str, str]]] = {}
    muxes = {cell.name: cell for cell in cells if cell.kind == "$mux"}
    for cell in cells:
        for port, bits in cell.inputs.items():
            side = (cell.name, port) if cell.kind == "$mux" and port in ("A", "B") else ("", "")
            for bit in bits:
                places.setdefault(bit, set()).add(side)
    reader: dict[str, tuple[str, str]] = {}
    for name, cell in muxes.items():
        bits = cell.outputs["Y"]
        readers = set().union(*(places.get(bit, set()) for bit in bits))
        if len(readers) == 1 and not any(bit in seen_elsewhere for bit in bits) and ("", "") not in readers:
            reader[name] = readers.pop()
    known: dict[str, dict[Bit, int]] = {}
    for name in muxes:
        way = [name]
        while way[-1] not in known and way[-1] in reader:
            way.append(reader[way[-1]][0])
        known.setdefault(way[-1], {})
        for below, above in zip(reversed(way[:-1]), reversed(way)):
            side = reader[below][1]
            known[below] = {**known[above], muxes[above].inputs["S"][0]: int(side == "B")}
    return known


def straightened(cell: Cell, known: dict[Bit, int], driver: dict[Bit, tuple[Cell, int]]) -> Cell:
    """A choice whose sides lead past other choices by a selecting bit that is known there."""
    sides = {}
    for port, value in (("A", 0), ("B", 1)):
        here = {**known, cell.inputs["S"][0]: value}
        bits = []
        for bit in cell.inputs[port]:
            while bit in driver and driver[bit][0].inputs["S"][0] in here:
                other, index = driver[bit]
                bit = other.inputs["B" if here[other.inputs["S"][0]] else "A"][index]
            bits.append(bit)
        sides[port] = bits
    if all(sides[port] == cell.inputs[port] for port in sides):
        return cell
    return replace(cell, inputs={**cell.inputs, **sides})


def without_dead(cells: list[Cell], seen_elsewhere: set[Bit]) -> list[Cell]:
    """The cells without choices that nothing reads any more."""
    read = seen_elsewhere | {bit for cell in cells for bits in cell.inputs.values() for bit in bits}
    return [cell for cell in cells if cell.kind != "$mux" or any(bit in read for bit in cell.outputs["Y"])]
