"""Quotients and remainders as rows of subtractions, one row for each bit of the dividend. Nothing here is trusted by a
verdict."""
from __future__ import annotations

from typing import TYPE_CHECKING

from .netlist import Bit, Cell
from .shifts import any_of, chosen
from .text import PAST, Text, extended

if TYPE_CHECKING:
    from .convert import Converter


def division_width(cell: Cell) -> int:
    """At how many bits a cell divides; with signs one more, so that the least number by -1 has a place."""
    return max(len(cell.inputs["A"]), len(cell.inputs["B"])) + int(is_signed(cell))


def is_signed(cell: Cell) -> bool:
    """Whether both numbers are read with their signs."""
    return cell.flag("A_SIGNED") and cell.flag("B_SIGNED")


def divided(converter: "Converter", cell: Cell) -> list[Bit]:
    """The bits of a quotient, rounded to zero, or of a remainder, with the sign of the dividend; undefined ones where
    the divisor is 0."""
    text, width, signed, whole = converter.text, division_width(cell), is_signed(cell), len(cell.outputs["Y"])
    a, b = ([text.resolve(bit) for bit in extended(cell.inputs[port], width, signed)] for port in ("A", "B"))
    sign_a, sign_b = (a[-1], b[-1]) if signed else ("0", "0")
    quotient, remainder = rows(text, cell.name, turned(text, cell.name, sign_a, a), turned(text, cell.name, sign_b, b))
    if cell.kind == "$div":
        result = turned(text, cell.name, differing(text, cell.name, sign_a, sign_b), quotient)
    else:
        result = turned(text, cell.name, sign_a, remainder)
    result = extended(result, whole, signed)
    return chosen(text, cell.name, any_of(text, cell.name, b), result, [PAST] * whole)


def rows(text: Text, old: str, a: list[Bit], b: list[Bit]) -> tuple[list[Bit], list[Bit]]:
    """The quotient and the remainder of numbers without signs."""
    width = len(a)
    if all(bit in ("0", "1") for bit in b) and b.count("1") == 1:
        places = b.index("1")
        return a[places:] + ["0"] * places, a[:places] + ["0"] * (width - places)
    divisor = text.spell(b + ["0"])
    quotient: list[Bit] = []
    remainder: list[Bit] = ["0"] * width
    for bit in reversed(a):
        moved = [bit, *remainder]
        shown = text.spell(moved)
        enough = text.made(old, f"{shown} >= {divisor}", 1)[0]
        less = text.made(old, f"{shown} - {divisor}", width + 1)
        text.weights[old] += 16 * (width + 1)
        remainder = chosen(text, old, enough, less[:width], moved[:width])
        quotient.insert(0, enough)
    return quotient, remainder


def turned(text: Text, old: str, by: Bit, bits: list[Bit]) -> list[Bit]:
    """A number with the other sign where the bit is 1."""
    if by == "0":
        return bits
    text.weights[old] += 8 * len(bits)
    return chosen(text, old, by, text.made(old, f"-{text.spell(bits)}", len(bits)), bits)


def differing(text: Text, old: str, one: Bit, other: Bit) -> Bit:
    """A bit that is 1 where two bits differ."""
    if "0" in (one, other):
        return other if one == "0" else one
    text.weights[old] += 1
    return text.made(old, f"{text.spell([one])} ^ {text.spell([other])}", 1)[0]
