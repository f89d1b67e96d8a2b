"""A picture of the last cycles of a trace, as SVG: the clock, the fields of RVFI, and the instruction in assembler
words.

Nothing here is trusted by a verdict.
"""
from __future__ import annotations

from html import escape

from .dump import Dump
from .instructions import assembler
from .rvfi import FIELDS

LEFT, COLUMN, ROW, HEAD = 130, 170, 24, 30
MOST_CYCLES = 6


def picture(dump: Dump, channel: int = 0, channels: int = 1) -> str:
    """The picture of one channel in the last cycles."""
    last = len(dump.cycles) - 1
    cycles = list(range(max(0, last - MOST_CYCLES + 1), last + 1))
    fields = [name for name in FIELDS if f"rvfi_{name}" in dump.widths]
    extra = [name for name in ("imem_addr", "imem_data", "dmem_addr") if name in dump.widths]
    rows = ["clock", "instruction", *(f"rvfi_{name}" for name in fields), *extra]
    width, height = LEFT + COLUMN * len(cycles) + 10, HEAD + ROW * len(rows) + 10
    parts = [f'<svg xmlns="http://www.w3.org/2000/svg" width="{width}" height="{height}" class="wave" role="img">']
    parts += [text(LEFT + COLUMN * at + COLUMN / 2, 18, f"cycle {cycle}", "middle", "head")
              for at, cycle in enumerate(cycles)]
    parts += [text(LEFT - 8, HEAD + ROW * at + 16, name, "end", "name") for at, name in enumerate(rows)]
    parts.append(clock(len(cycles)))
    for at, cycle in enumerate(cycles):
        values = dump.cycles[cycle]
        retired = dump.retirement(cycle, channel, channels)
        shown = [assembler(retired["insn"]) if retired else ""]
        for name in fields:
            size = dump.widths[f"rvfi_{name}"] // channels
            shown.append(spelled(values[f"rvfi_{name}"] >> channel * size & (1 << size) - 1, size))
        shown += [spelled(values[name], dump.widths[name]) for name in extra]
        quiet = "" if retired else " quiet"
        for row, value in enumerate(shown, 1):
            parts.append(box(LEFT + COLUMN * at, HEAD + ROW * row, value, quiet + (" check" if cycle == last else "")))
    return "\n".join(parts + ["</svg>"])


def spelled(value: int, width: int) -> str:
    """A value in digits of base 16, a single bit as itself."""
    return str(value) if width <= 5 else f"{value:0{(width + 3) // 4}x}"


def text(x: float, y: float, content: str, anchor: str, kind: str) -> str:
    """A piece of text."""
    return f'<text x="{x:g}" y="{y:g}" text-anchor="{anchor}" class="{kind}">{escape(content)}</text>'


def box(x: float, y: float, content: str, kind: str) -> str:
    """The value of a name in a cycle."""
    shape = f"M{x + 3:g},{y + 11:g} l5,-9 h{COLUMN - 16:g} l5,9 l-5,9 h-{COLUMN - 16:g} z"
    return f'<path d="{shape}" class="value{kind}"/>' + text(x + COLUMN / 2, y + 15, content, "middle", "digits" + kind)


def clock(cycles: int) -> str:
    """The line of the clock: with its rising edge a cycle's values come."""
    steps = f" v-14 h{COLUMN / 2:g} v14 h{COLUMN / 2:g}" * cycles
    return f'<path d="M{LEFT},{HEAD + 18}{steps}" class="clock"/>'
