"""The Verilog text that is being written: its signals, its items, and how lists of bits are spelled.

Nothing here is trusted by a verdict.
"""
from __future__ import annotations

from collections import Counter
from dataclasses import dataclass

from .names import Names
from .netlist import Bit

# The widest vector of the subset, and how much of a design it takes.
WIDEST = 128
MOST_REGISTER_BITS = 65_536
MOST_NAMES = 200_000
MOST_WEIGHT = 20_000_000


# What stands in each file that the converter writes, so that it writes over no other.
MADE = "Made by companion/from-yosys.py"

# What a part-select finds past the range of its vector, and a division by 0 gives: an undefined bit that no netlist
# has.
PAST = "X"


class Refused(Exception):
    """What can't be converted, each by its name and place."""

    def __init__(self, problems: list[str]) -> None:
        super().__init__("\n".join(problems))
        self.problems = problems


@dataclass(frozen=True)
class Signal:
    """A declared vector of at most 128 bits."""
    name: str
    width: int
    kind: str  # wire, reg, anyseq, anyconst, or the direction of a port

    def part(self, high: int, low: int) -> str:
        """The spelling of some of its bits."""
        if low == 0 and high == self.width - 1:
            return self.name
        return f"{self.name}[{low}]" if high == low else f"{self.name}[{high}:{low}]"


@dataclass(frozen=True)
class Start:
    """A register or a memory: its name, that in the netlist with the bits that it has of it, and its words if it has
    some. Some bit of it may be without an initial value."""
    name: str
    old: str
    low: int
    width: int
    whole: int
    words: range | None
    is_known: bool


def in_parts(bits: list[Bit]) -> list[list[Bit]]:
    """A list of bits in parts of at most 128."""
    return [bits[low:low + WIDEST] for low in range(0, len(bits), WIDEST)]


def ranged(width: int) -> str:
    """The range of a vector, with a blank behind it; nothing for one bit."""
    return "" if width == 1 else f"[{width - 1}:0] "


def joined(pieces: list[str]) -> str:
    """Pieces, the highest first, as one expression."""
    return pieces[0] if len(pieces) == 1 else "{" + ", ".join(pieces) + "}"


class Text:
    """What is written of a module. Bits of the netlist are looked up in `places` once they have a signal."""

    def __init__(self, names: Names) -> None:
        self.names = names
        self.places: dict[int, tuple[Signal, int]] = {}
        self.same: dict[int, Bit] = {}
        self.declared: list[str] = []
        self.items: list[str] = []
        self.ports: list[str] = []
        self.starts: list[Start] = []
        self.free_names: list[Signal] = []
        self.undefined = 0
        self.past = 0
        self.partial = 0
        self.register_bits = 0
        self.memory_words: Counter[str] = Counter()
        self.weights: Counter[str] = Counter()
        self._fresh = -1_000_000_000

    def weight(self) -> int:
        """About the gates of the text, as the program counts them."""
        return sum(self.weights.values())

    def resolve(self, bit: Bit) -> Bit:
        """The bit that a bit is only another number of."""
        while isinstance(bit, int) and bit in self.same:
            bit = self.same[bit]
        return bit

    def fresh_bits(self, count: int) -> list[Bit]:
        """Numbers of bits that the netlist doesn't have."""
        self._fresh -= count
        return list(range(self._fresh, self._fresh + count))

    def declare(self, name: str, bits: list[Bit], kind: str) -> Signal:
        """Declares a vector of at most 128 bits and gives the bits their places in it."""
        signal = Signal(name, len(bits), kind)
        word = {"anyseq": "(* anyseq *) reg", "anyconst": "(* anyconst *) reg"}.get(kind, kind)
        self.declared.append(f"{word} {ranged(len(bits))}{name};")
        if kind in ("anyseq", "anyconst"):
            self.free_names.append(signal)
        self.locate(signal, bits)
        return signal

    def locate(self, signal: Signal, bits: list[Bit]) -> None:
        """Says that the bits are those of the signal."""
        for index, bit in enumerate(bits):
            if isinstance(bit, int):
                self.places[bit] = (signal, index)

    def declare_parts(self, old: str, bits: list[Bit], kind: str) -> list[Signal]:
        """Declares a vector of any width, in numbered parts where it is too wide."""
        parts = in_parts(bits)
        endings = [""] if len(parts) == 1 else [f"_{index}" for index in range(len(parts))]
        return [self.declare(self.names.take(old, ending), part, kind) for part, ending in zip(parts, endings)]

    def made(self, old: str, expression: str, width: int) -> list[Bit]:
        """A new wire with the value of an expression, as its bits."""
        bits = self.fresh_bits(width)
        signal = self.declare(self.names.take(old), bits, "wire")
        self.items.append(f"assign {signal.name} = {expression};")
        return bits

    def free(self, count: int, is_past: bool = False) -> str:
        """A new name that is free in each cycle, for bits that are undefined, or past a range or a division by 0."""
        if is_past:
            self.past += count
        else:
            self.undefined += count
        base = "undefined_past" if is_past else "undefined"
        return self.declare(self.names.take(base), self.fresh_bits(count), "anyseq").name

    def spell(self, bits: list[Bit]) -> str:
        """The expression of a list of bits, the lowest first; undefined bits become new free names."""
        bits = [self.resolve(bit) for bit in bits]
        pieces, high = [], len(bits) - 1
        while high >= 0:
            low = self._run(bits, high)
            pieces.append(self._piece(bits[low:high + 1]))
            high = low - 1
        return joined(pieces)

    def _run(self, bits: list[Bit], high: int) -> int:
        """The lowest index down to which the bits are spelled by one piece."""
        bit, low = bits[high], high
        if isinstance(bit, str):
            kinds = "01" if bit in "01" else bit
            while low > 0 and isinstance(bits[low - 1], str) and bits[low - 1] in kinds:
                low -= 1
            return low
        while low > 0 and bits[low - 1] == bit:
            low -= 1
        if low < high:
            return low
        signal, index = self.places[bit]
        while low > 0 and isinstance(bits[low - 1], int) \
                and self.places[bits[low - 1]] == (signal, index - (high - low) - 1):
            low -= 1
        return low

    def _piece(self, bits: list[Bit]) -> str:
        """The spelling of one run: digits, a free name, copies of a bit, or a part of a signal."""
        top = bits[-1]
        if isinstance(top, str):
            if top in ("x", PAST):
                return self.free(len(bits), top == PAST)
            if top == "z":
                raise Refused(["a tristate: a bit of high impedance"])
            return digits("".join(str(bit) for bit in reversed(bits)))
        signal, high = self.places[top]
        if len(bits) > 1 and bits[0] == top:
            return f"{{{len(bits)}{{{signal.part(high, high)}}}}}"
        return signal.part(high, high - len(bits) + 1)


def digits(binary: str) -> str:
    """A sized number of these binary digits."""
    if len(binary) <= 4:
        return f"{len(binary)}'b{binary}"
    return f"{len(binary)}'h{int(binary, 2):x}"


def extended(bits: list[Bit], width: int, signed: bool) -> list[Bit]:
    """Bits cut or filled to a width, with the highest one where they are signed."""
    fill = bits[-1] if signed and bits else "0"
    return bits[:width] + [fill] * (width - len(bits))
