"""A module of Yosys' JSON netlist, as `write_json` leaves it.

Nothing here is trusted by a verdict.
"""
from __future__ import annotations

import json
from collections import deque
from dataclasses import dataclass, field
from pathlib import Path
from typing import Union

# A bit is the number of a net, or one of the characters 0, 1, x and z.
Bit = Union[int, str]


def number(text: str | int) -> int:
    """The value of a parameter: digits of base 2, or a number as older netlists have it."""
    return text if isinstance(text, int) else int(text, 2)


@dataclass(frozen=True)
class Cell:
    """A cell with its parameters and what its ports are joined to, the lowest bit first."""
    name: str
    kind: str
    parameters: dict[str, str]
    attributes: dict[str, str]
    inputs: dict[str, list[Bit]]
    outputs: dict[str, list[Bit]]

    def flag(self, name: str) -> bool:
        """Whether a parameter is there and isn't 0."""
        return name in self.parameters and number(self.parameters[name]) != 0

    def count(self, name: str) -> int:
        """The value of a parameter that is a number."""
        return number(self.parameters[name])


@dataclass(frozen=True)
class Port:
    """A port of the module."""
    name: str
    direction: str
    bits: list[Bit]


@dataclass(frozen=True)
class NamedNet:
    """A name for a list of bits; a hidden one was made by Yosys."""
    name: str
    hidden: bool
    bits: list[Bit]
    src: str
    init: str


@dataclass
class Netlist:
    """The module with all that was below it."""
    name: str
    src: str
    ports: list[Port]
    cells: list[Cell]
    nets: list[NamedNet]
    driver: dict[int, Cell] = field(default_factory=dict)

    def __post_init__(self) -> None:
        for cell in self.cells:
            for bits in cell.outputs.values():
                for bit in bits:
                    if isinstance(bit, int):
                        self.driver[bit] = cell

    def called(self, cell: Cell) -> str:
        """What the text calls what a cell makes, where it has a name for it, and else the cell's own name."""
        if "MEMID" in cell.parameters:
            return cell.parameters["MEMID"].lstrip("\\")
        made = {bit for bits in cell.outputs.values() for bit in bits if isinstance(bit, int)}
        named = [net for net in self.nets if not net.hidden and made & set(net.bits)]
        return min(named, key=lambda net: (net.name.count("."), len(net.bits))).name if named else cell.name

    def place_of_net(self, name: str) -> str:
        """Where a named net comes from, or its module."""
        found = next((net.src for net in self.nets if net.name == name and has_place(net.src)), "")
        return found or f"{self.src or '-'} (module {self.name})"

    def place(self, cell: Cell) -> str:
        """Where a cell comes from: its own place, that of the nearest named net, or the module's."""
        if has_place(cell.attributes.get("src", "")):
            return cell.attributes["src"]
        named = {bit: net for net in self.nets if not net.hidden and has_place(net.src) for bit in net.bits}
        readers: dict[Bit, list[Cell]] = {}
        for other in self.cells:
            for bits in other.inputs.values():
                for bit in bits:
                    readers.setdefault(bit, []).append(other)
        waiting, seen = deque([cell]), {cell.name}
        while waiting:
            here = waiting.popleft()
            for bits in list(here.outputs.values()) + list(here.inputs.values()):
                for bit in bits:
                    if bit in named and isinstance(bit, int):
                        return f"{named[bit].src} (at {named[bit].name})"
            for bits in here.outputs.values():
                for bit in bits:
                    for other in readers.get(bit, []):
                        if other.name not in seen:
                            seen.add(other.name)
                            waiting.append(other)
        return f"{self.src or '-'} (module {self.name})"


def has_place(src: str) -> bool:
    """Whether a text of places says more than that there is none."""
    return bool(src) and ":0.0" not in src.split("|")[0]


class NoNetlist(Exception):
    """A file that is no netlist of the module."""


def read(path: Path, top: str) -> Netlist:
    """Reads the module of that name from a file of `write_json`."""
    try:
        module = json.loads(path.read_text())["modules"].get(top)
        if module is None:
            raise NoNetlist(f"{path} has no module {top}")
        return of_module(top, module)
    except (ValueError, KeyError, TypeError, AttributeError):
        raise NoNetlist(f"{path} is no netlist of write_json") from None


def of_module(top: str, module: dict) -> Netlist:
    """A module as the file has it."""
    cells = []
    for name, cell in module["cells"].items():
        directions = cell.get("port_directions", {})
        joined = cell["connections"]
        cells.append(Cell(
            name, cell["type"], cell["parameters"], cell["attributes"],
            {port: bits for port, bits in joined.items() if directions.get(port) != "output"},
            {port: bits for port, bits in joined.items() if directions.get(port) == "output"}))
    ports = [Port(name, port["direction"], port["bits"]) for name, port in module["ports"].items()]
    # What Yosys calls the inner names of a call is no name of the text.
    nets = [NamedNet(name, bool(net["hide_name"]) or "$func$" in name, net["bits"], net["attributes"].get("src", ""),
                     net["attributes"].get("init", "")) for name, net in module["netnames"].items()]
    return Netlist(top, module["attributes"].get("src", ""), ports, cells, nets)
