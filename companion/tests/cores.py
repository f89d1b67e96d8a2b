"""The cores that the tests convert, with the words that they know."""
from __future__ import annotations

from pathlib import Path

from rvf_companion.instructions import BASE
from rvf_companion.yosys import Core

FOLDER = Path(__file__).resolve().parent.parent
CORES = FOLDER / "data" / "cores"
REPOSITORY = FOLDER.parent

# Words by their fixed bits and those that may be anything.
REGISTERS = 0x01FFFF80 & ~0x7000
PATTERNS = {
    "lui": (0x37, 0xFFFFFF80), "jal": (0x6F, 0xFFFFFF80), "addi": (0x13, 0xFFFF8F80), "xori": (0x4013, 0xFFFF8F80),
    "ori": (0x6013, 0xFFFF8F80), "andi": (0x7013, 0xFFFF8F80), "add": (0x33, REGISTERS), "sub": (0x40000033, REGISTERS),
    "xor": (0x4033, REGISTERS), "or": (0x6033, REGISTERS), "and": (0x7033, REGISTERS), "beq": (0x63, 0xFFFF8F80),
    "beq_aligned": (0x63, 0xFFFF8C80), "jal_aligned": (0x6F, 0xFFDFFF80), "few": (0x33, 0x00308180),
    "any": (0x3, 0xFFFFFFFC),
}
MOST = ["lui", "addi", "xori", "ori", "andi", "add", "sub", "xor", "or", "and", "beq_aligned", "jal_aligned", "few"]


def words(*names: str) -> list[tuple[int, int]]:
    """The patterns of these names."""
    return [PATTERNS[name] for name in names]


def rows() -> list[tuple[int, int]]:
    """The patterns of all rows of RV32I."""
    found = []
    for _, opcode, funct3, funct7, form in BASE:
        fixed = 0x7F | (0x7000 if funct3 is not None else 0) | (0xFE000000 if funct7 is not None else 0)
        if not (form == "R" and funct7 == 1):
            found.append((opcode | (funct3 or 0) << 12 | (funct7 or 0) << 25, 0xFFFFFFFF & ~fixed))
    return found


KNOWN: dict[str, list[tuple[int, int]]] = {
    "operators": [],
    "tiny": rows() + words(*MOST),
    "mini": words("lui", "addi", "add", "few", "beq_aligned"),
    "styled": words("lui", "addi", "xori", "add", "sub", "few", "beq_aligned"),
    "states": words("lui", "andi", "ori", "and", "or", "jal_aligned"),
    "serial": words("addi", "xori", "add", "xor", "few"),
}


def core(name: str) -> Core:
    """A core of this folder, or of the repository's examples."""
    at = {"mini": REPOSITORY / "examples" / "mini" / "mini.v", "styled": CORES / "styled.sv",
          "states": CORES / "states.v", "serial": CORES / "serial.v", "operators": CORES / "operators.v"}
    return Core(name, [at[name]])
