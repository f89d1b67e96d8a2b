"""Shifts by a varying number of vectors of any width, as rows of choices.

A row for each bit of the number chooses between the vector and the vector moved by that bit's worth. Nothing here is
trusted by a verdict.
"""
from __future__ import annotations

from .netlist import Bit
from .text import Text, in_parts


def chosen(text: Text, old: str, by: Bit, yes: list[Bit], no: list[Bit]) -> list[Bit]:
    """A vector that is `yes` where the bit is 1 and `no` where it is 0; bits that are equal in both are left as they
    are."""
    if by in ("0", "1"):
        return yes if by == "1" else no
    result: list[Bit] = [a if a == b else "?" for a, b in zip(yes, no)]
    differing = [index for index, bit in enumerate(result) if bit == "?"]
    made: list[Bit] = []
    for part in in_parts(differing):
        expression = (f"{text.spell([by])} ? {text.spell([yes[index] for index in part])}"
                      f" : {text.spell([no[index] for index in part])}")
        text.weights[old] += len(part)
        made += text.made(old, expression, len(part))
    for index, bit in zip(differing, made):
        result[index] = bit
    return result


def moved_right(text: Text, old: str, bits: list[Bit], by: list[Bit], width: int, fill: Bit) -> list[Bit]:
    """The lowest `width` bits of `bits` moved down by the number, with `fill` for what comes from above."""
    low = [bit for index, bit in enumerate(by) if 1 << index < len(bits)]
    high = [bit for bit in by[len(low):] if bit != "0"]
    current = list(bits)
    for index in range(len(low) - 1, -1, -1):
        step, needed = 1 << index, width + (1 << index) - 1
        current = current + [fill] * (needed + step - len(current))
        current = chosen(text, old, low[index], current[step:step + needed], current[:needed])
    current = (current + [fill] * width)[:width]
    return chosen(text, old, any_of(text, old, high), [fill] * width, current)


def moved_left(text: Text, old: str, bits: list[Bit], by: list[Bit], width: int, above: Bit, below: Bit) -> list[Bit]:
    """The lowest `width` bits of `bits` moved up by the number; `bits` go on as `above`, and `below` comes from
    below."""
    low = [bit for index, bit in enumerate(by) if 1 << index < width]
    high = [bit for bit in by[len(low):] if bit != "0"]
    current = list(bits)
    for index, bit in enumerate(low):
        step = 1 << index
        length = min(width, len(current) + step)
        moved = ([below] * step + current)[:length]
        current = chosen(text, old, bit, moved, (current + [above] * length)[:length])
    current = (current + [above] * width)[:width]
    return chosen(text, old, any_of(text, old, high), [below] * width, current)


def any_of(text: Text, old: str, bits: list[Bit]) -> Bit:
    """A bit that is 1 where one of these is."""
    bits = [bit for bit in bits if bit != "0"]
    if not bits or "1" in bits:
        return "1" if bits else "0"
    if len(bits) == 1:
        return bits[0]
    text.weights[old] += len(bits) + len(in_parts(bits)) - 1
    return text.made(old, " | ".join(f"(|{text.spell(part)})" for part in in_parts(bits)), 1)[0]
