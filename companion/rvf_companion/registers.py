"""Registers with an enable or a synchronous reset as plain ones behind choices. Nothing here is trusted by a
verdict."""
from __future__ import annotations

from dataclasses import replace

from .netlist import Bit, Cell

WITH_CHOICES = {"$dffe", "$sdff", "$sdffe", "$sdffce"}


def plain_registers(cells: list[Cell]) -> list[Cell]:
    """The cells, each such register as a choice or two and a plain register."""
    found: list[Cell] = []
    fresh = -1
    for cell in cells:
        if cell.kind not in WITH_CHOICES:
            found.append(cell)
            continue
        given = cell.inputs["D"]
        held = cell.outputs["Q"]
        reset: list[Bit] = list(reversed(cell.parameters.get("SRST_VALUE", "")))
        steps = {"$dffe": [("EN", held)], "$sdff": [("SRST", reset)], "$sdffe": [("EN", held), ("SRST", reset)],
                 "$sdffce": [("SRST", reset), ("EN", held)]}[cell.kind]
        for port, other in steps:
            # An enable chooses what is given where it holds, a reset the reset's value.
            yes, no = (given, other) if port == "EN" else (other, given)
            if not cell.flag(f"{port}_POLARITY"):
                yes, no = no, yes
            made: list[Bit] = list(range(fresh - len(held) + 1, fresh + 1))
            fresh -= len(held)
            found.append(Cell(f"{cell.name}_{port.lower()}", "$mux", {}, cell.attributes,
                              {"A": no, "B": yes, "S": cell.inputs[port]}, {"Y": made}))
            given = made
        found.append(replace(cell, kind="$dff", inputs={"CLK": cell.inputs["CLK"], "D": given}))
    return found
