"""How each kind of cell is declared and written.

Operands are lists of bits, filled or cut to the width at which a cell works; so no rule of Verilog on sizes and signs
is needed but that of signed comparisons and shifts. Nothing here is trusted by a verdict.
"""
from __future__ import annotations

import re
from typing import TYPE_CHECKING, Callable

from .divisions import divided, division_width
from .memories import Memory
from .netlist import Bit, Cell
from .shifts import chosen, moved_left, moved_right
from .text import PAST, WIDEST, Start, Text, digits, extended, in_parts

if TYPE_CHECKING:
    from .convert import Converter

# A name stands in an expression: what is made of numbers alone weighs nothing.
NAMED = re.compile(r"(?<![\w'$])[A-Za-z_]")
BITWISE = {"$and": "&", "$or": "|", "$xor": "^", "$xnor": "~^"}
ARITHMETIC = {"$add": "+", "$sub": "-", "$mul": "*"}
ORDERED = {"$lt": "<", "$le": "<=", "$gt": ">", "$ge": ">="}
EQUAL = {"$eq": "==", "$eqx": "==", "$ne": "!=", "$nex": "!="}
REDUCED = {"$reduce_and": "&", "$reduce_or": "|", "$reduce_bool": "|", "$reduce_xor": "^", "$reduce_xnor": "~^"}
LOGIC = {"$logic_not": "!", "$logic_and": "&&", "$logic_or": "||"}
DIVISIONS = {"$div", "$mod"}
SHIFTS = {"$shl", "$sshl", "$shr", "$sshr", "$shift", "$shiftx"}
ONE_BIT = set(ORDERED) | set(EQUAL) | set(REDUCED) | set(LOGIC)


def output_of(converter: "Converter", cell: Cell) -> list[Bit]:
    """The bits of a cell's output up to the highest one that is read or has a name."""
    bits = cell.outputs["Y"]
    shown = [index for index, bit in enumerate(bits) if bit in converter.shown]
    return bits[:shown[-1] + 1] if shown else []


def uncuttable(cell: Cell) -> str:
    """Why a cell of more than 128 bits can't be cut into parts; nothing where it can, or isn't so wide."""
    widest = max((len(bits) for port, bits in cell.inputs.items() if port in ("A", "B")), default=0)
    if cell.kind in ORDERED and widest > WIDEST:
        return f"a comparison of {widest} bits, which can't be cut"
    if cell.kind in ("$add", "$sub", "$mul", "$neg") and max(widest, len(cell.outputs["Y"])) > WIDEST:
        return f"arithmetic of {max(widest, len(cell.outputs['Y']))} bits, which can't be cut"
    if cell.kind in DIVISIONS and division_width(cell) >= WIDEST:
        return f"a division of {widest} bits, which can't be cut"
    if cell.kind in SHIFTS and len(cell.inputs["B"]) > WIDEST:
        return f"a shift by a number of {len(cell.inputs['B'])} bits"
    return ""


def register_sizes(cells: list[Cell]) -> list[tuple[int, str]]:
    """The bits of each register and memory, with its name."""
    found = [(len(cell.outputs["Q"]), cell.name) for cell in cells if cell.kind == "$dff"]
    memories = [(Memory.of(cell), cell.name) for cell in cells if cell.kind == "$mem_v2"]
    return found + [(memory.words * memory.width, name) for memory, name in memories]


def declare(converter: "Converter", cell: Cell) -> None:
    """Declares the names of a cell's outputs."""
    if cell.kind == "$mem_v2":
        memory = Memory.of(cell)
        for port in range(cell.count("RD_PORTS")):
            bits = cell.outputs["RD_DATA"][port * memory.width:][:memory.width]
            converter.declare_output(cell, bits, "wire", f"_read_{port}")
    elif cell.kind == "$dff":
        converter.declare_output(cell, cell.outputs["Q"], "reg")
    elif cell.kind in ("$anyseq", "$anyconst"):
        converter.declare_output(cell, cell.outputs["Y"], cell.kind[1:])
    elif cell.kind == "$initstate":
        converter.declare_output(cell, cell.outputs["Y"], "reg")
    elif cell.kind == "$pos":
        copies = extended(cell.inputs["A"], len(cell.outputs["Y"]), cell.flag("A_SIGNED"))
        converter.text.same.update(dict(zip(cell.outputs["Y"], copies)))
    elif cell.kind != "$assume":
        bits = output_of(converter, cell)
        if cell.kind in ONE_BIT:
            converter.text.same.update({bit: "0" for bit in bits[1:]})
            bits = bits[:1]
        if bits:
            converter.declare_output(cell, bits, "reg" if cell.kind == "$pmux" else "wire")


def write(converter: "Converter", cell: Cell) -> None:
    """Writes the items of a cell that is no memory."""
    text = converter.text
    if cell.kind == "$dff":
        write_register(converter, cell)
    elif cell.kind == "$assume":
        enabled, demanded = text.spell(cell.inputs["EN"]), text.spell(cell.inputs["A"])
        if enabled != digits("0"):
            is_always = enabled == digits("1")
            text.items.append(f"always @* assume ({demanded if is_always else f'!{enabled} || {demanded}'});")
            text.weights[cell.name] += 0 if is_always else 2
    elif cell.kind == "$initstate":
        name = text.places[cell.outputs["Y"][0]][0].name
        clock = converter.clock
        text.register_bits += 1
        text.items += [f"initial {name} = 1'b1;", f"always @(posedge {clock}) {name} <= 1'b0;"]
    elif cell.kind in WRITERS and output_of(converter, cell):
        WRITERS[cell.kind](converter, cell, output_of(converter, cell))


def write_register(converter: "Converter", cell: Cell) -> None:
    """A register with its initial value, bit by bit where it is undefined in part."""
    text, width = converter.text, len(cell.outputs["Q"])
    text.register_bits += width
    for low in range(0, width, WIDEST):
        bits = cell.outputs["Q"][low:low + WIDEST]
        signal = text.places[bits[0]][0]
        old = converter.old_name(cell, cell.outputs["Q"])
        known = [(index, converter.inits[bit]) for index, bit in enumerate(bits) if bit in converter.inits]
        if len(known) == len(bits):
            text.items.append(f"initial {signal.name} = {digits(''.join(value for _, value in reversed(known)))};")
        else:
            text.items += [f"initial {signal.part(index, index)} = 1'b{value};" for index, value in known]
            text.partial += bool(known)
        text.starts.append(Start(signal.name, old, low, len(bits), width, None, len(known) == len(bits)))
        given = text.spell(cell.inputs["D"][low:low + WIDEST])
        text.items.append(f"always @(posedge {converter.clock}) {signal.name} <= {given};")


def assign(text: Text, cell: Cell, bits: list[Bit], expression: Callable[[int, int], str], weight: int) -> None:
    """One assignment for each part of the output, its expression by the lowest bit and the width of the part."""
    low = 0
    for part in in_parts(bits):
        given = expression(low, len(part))
        text.items.append(f"assign {target(text, part)} = {given};")
        if NAMED.search(given):
            text.weights[cell.name] += weight * len(part) // len(bits)
        low += len(part)


def joined_weight(pieces: list[str], parts: list[list[Bit]]) -> int:
    """The weight of operations on these parts, one for each bit, and of what joins them from the left."""
    named = [bool(NAMED.search(piece)) for piece in pieces]
    inner = sum(len(part) for is_named, part in zip(named, parts) if is_named)
    return inner + sum(any(named[:index + 1]) for index in range(1, len(pieces)))


def target(text: Text, part: list[Bit]) -> str:
    """The name that is exactly these bits."""
    signal, index = text.places[part[0]]
    return signal.part(index + len(part) - 1, index)


def write_bitwise(converter: "Converter", cell: Cell, bits: list[Bit]) -> None:
    """And, or, exclusive or, not, and a choice: part by part."""
    text, width = converter.text, len(bits)
    signed = cell.flag("A_SIGNED")
    a = extended(cell.inputs["A"], width, signed)
    if cell.kind == "$not":
        assign(text, cell, bits, lambda low, many: f"~{text.spell(a[low:low + many])}", width)
        return
    b = extended(cell.inputs["B"], width, signed)
    if cell.kind == "$mux":
        by = text.spell(cell.inputs["S"])
        assign(text, cell, bits,
               lambda low, many: f"{by} ? {text.spell(b[low:low + many])} : {text.spell(a[low:low + many])}", width)
        return
    sign = BITWISE[cell.kind]
    assign(text, cell, bits,
           lambda low, many: f"{text.spell(a[low:low + many])} {sign} {text.spell(b[low:low + many])}", width)


def write_arithmetic(converter: "Converter", cell: Cell, bits: list[Bit]) -> None:
    """Sums, differences, products and negation at the width of what is read of them."""
    text, width = converter.text, len(bits)
    a = text.spell(extended(cell.inputs["A"], width, cell.flag("A_SIGNED")))
    if cell.kind == "$neg":
        assign(text, cell, bits, lambda low, many: f"-{a}", 8 * width)
        return
    b = text.spell(extended(cell.inputs["B"], width, cell.flag("B_SIGNED")))
    weight = 8 * width * width if cell.kind == "$mul" else 8 * width
    assign(text, cell, bits, lambda low, many: f"{a} {ARITHMETIC[cell.kind]} {b}", weight)


def write_comparison(converter: "Converter", cell: Cell, bits: list[Bit]) -> None:
    """Comparisons at the width of the wider operand; equality in parts."""
    text = converter.text
    width = max(len(cell.inputs["A"]), len(cell.inputs["B"]))
    signed = cell.flag("A_SIGNED") and cell.flag("B_SIGNED")
    a, b = (extended(cell.inputs[port], width, signed) for port in ("A", "B"))
    if cell.kind in EQUAL:
        sign, glue = EQUAL[cell.kind], " && " if EQUAL[cell.kind] == "==" else " || "
        pieces = [f"{text.spell(left)} {sign} {text.spell(right)}" for left, right in zip(in_parts(a), in_parts(b))]
        expression = pieces[0] if len(pieces) == 1 else glue.join(f"({piece})" for piece in pieces)
        assign(text, cell, bits[:1], lambda low, many: expression, joined_weight(pieces, in_parts(a)))
        return
    left, right = text.spell(a), text.spell(b)
    if signed:
        left, right = f"$signed({left})", f"$signed({right})"
    assign(text, cell, bits[:1], lambda low, many: f"{left} {ORDERED[cell.kind]} {right}", 8 * width)


def is_any(text: Text, bits: list[Bit]) -> tuple[str, int]:
    """An expression that is 1 where some bit is, and its weight."""
    pieces = [f"(|{text.spell(part)})" for part in in_parts(bits)]
    weight = joined_weight(pieces, in_parts(bits))
    return pieces[0] if len(pieces) == 1 else "(" + " | ".join(pieces) + ")", weight


def write_reduced(converter: "Converter", cell: Cell, bits: list[Bit]) -> None:
    """Reductions, in parts where they are wide."""
    text, a = converter.text, cell.inputs["A"]
    sign = REDUCED[cell.kind]
    inner, glue = ("^", " ^ ") if "x" in cell.kind else (sign, f" {sign} ")
    pieces = [f"({inner}{text.spell(part)})" for part in in_parts(a)]
    expression = glue.join(pieces)
    if cell.kind == "$reduce_xnor":
        expression = f"~({expression})"
    weight = joined_weight(pieces, in_parts(a)) + (cell.kind == "$reduce_xnor")
    assign(text, cell, bits[:1], lambda low, many: expression, weight)


def write_logic(converter: "Converter", cell: Cell, bits: list[Bit]) -> None:
    """Logical not, and, or: of whether some bit is 1."""
    text = converter.text
    a, weight_a = is_any(text, cell.inputs["A"])
    if cell.kind == "$logic_not":
        assign(text, cell, bits[:1], lambda low, many: f"!{a}", weight_a + 1)
        return
    b, weight_b = is_any(text, cell.inputs["B"])
    assign(text, cell, bits[:1], lambda low, many: f"{a} {LOGIC[cell.kind]} {b}", weight_a + weight_b + 1)


def write_choice_of_many(converter: "Converter", cell: Cell, bits: list[Bit]) -> None:
    """A choice of many: the highest one of the selecting bits wins, which is the first arm of a case."""
    text, whole = converter.text, len(cell.inputs["A"])
    low = 0
    for part in in_parts(bits):
        name = text.places[part[0]][0].name
        lines = [f"{name} = {text.spell(cell.inputs['A'][low:low + len(part)])};"]
        for index, bit in enumerate(cell.inputs["S"]):
            value = cell.inputs["B"][index * whole:][low:low + len(part)]
            lines.append(f"if ({text.spell([bit])}) {name} = {text.spell(value)};")
        text.items += ["always @* begin"] + ["  " + line for line in lines] + ["end"]
        text.weights[cell.name] += len(part) * len(cell.inputs["S"])
        low += len(part)


def write_shift(converter: "Converter", cell: Cell, bits: list[Bit]) -> None:
    """Shifts: by the operators where they fit into 128 bits and nothing undefined may come, and else by rows of
    choices."""
    text, a, b, whole = converter.text, cell.inputs["A"], cell.inputs["B"], len(cell.outputs["Y"])
    kind, signed = cell.kind, cell.flag("A_SIGNED") and cell.kind != "$shiftx"
    width = max(len(a), whole)
    to_left = kind in ("$shl", "$sshl")
    if not to_left and kind in ("$shr", "$sshr"):
        a = extended(a, width, signed)
    fill: Bit = PAST if kind == "$shiftx" else a[-1] if signed and kind != "$shr" else "0"
    varying = cell.flag("B_SIGNED") and kind in ("$shift", "$shiftx") and text.resolve(b[-1]) != "0"
    within = (1 << min(len(b), 20)) - 1 + len(bits) <= len(a)
    if width <= WIDEST and not varying and (kind != "$shiftx" or within):
        padded = extended(a, len(bits) if to_left else width, signed)
        shown = text.spell(padded)
        by = text.spell(b)
        if to_left:
            expression = f"{shown} << {by}"
        else:
            expression = f"{shown} >> {by}" if fill in ("0", PAST) else f"$signed({shown}) >>> {by}"
        assign(text, cell, bits, lambda low, many: expression, 8 * len(padded))
        return
    if to_left:
        result = moved_left(text, cell.name, extended(a, whole, signed), b, len(bits), fill, "0")
    else:
        result = moved_right(text, cell.name, a, b, len(bits), fill)
    if varying:
        below: Bit = PAST if kind == "$shiftx" else "0"
        negated = text.made(cell.name + "_by", f"-{text.spell(b)}", len(b))
        text.weights[cell.name] += 8 * len(b)
        up = moved_left(text, cell.name, a, negated, len(bits), fill, below)
        result = chosen(text, cell.name, b[-1], up, result)
    assign(text, cell, bits, lambda low, many: text.spell(result[low:low + many]), 0)


def write_division(converter: "Converter", cell: Cell, bits: list[Bit]) -> None:
    """Quotients and remainders, as rows of subtractions."""
    result = divided(converter, cell)
    assign(converter.text, cell, bits, lambda low, many: converter.text.spell(result[low:low + many]), 0)


def write_nothing(converter: "Converter", cell: Cell, bits: list[Bit]) -> None:
    """A copy needs no item: its bits are those that it copies."""


WRITERS: dict[str, Callable[["Converter", Cell, list[Bit]], None]] = {
    **{kind: write_bitwise for kind in [*BITWISE, "$not", "$mux"]},
    **{kind: write_arithmetic for kind in [*ARITHMETIC, "$neg"]},
    **{kind: write_comparison for kind in [*ORDERED, *EQUAL]},
    **{kind: write_reduced for kind in REDUCED},
    **{kind: write_logic for kind in LOGIC},
    **{kind: write_shift for kind in SHIFTS},
    **{kind: write_division for kind in DIVISIONS},
    "$pmux": write_choice_of_many,
    "$pos": write_nothing,
}
