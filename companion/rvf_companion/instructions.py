"""The instructions of RV32I, M and C: which word is which, in assembler words, and what each does.

Written once more, beside the proved table of the program, to show what differs in a trace. Nothing here is trusted by a
verdict.
"""
from __future__ import annotations

from dataclasses import dataclass, replace

MASK = 0xFFFFFFFF

# Row, opcode, funct3, funct7, form; None stands for any.
BASE = [("lui", 0x37, None, None, "U"), ("auipc", 0x17, None, None, "U"), ("jal", 0x6F, None, None, "J"),
        ("jalr", 0x67, 0, None, "I")]
BASE += [(name, 0x63, f3, None, "B") for name, f3 in
         [("beq", 0), ("bne", 1), ("blt", 4), ("bge", 5), ("bltu", 6), ("bgeu", 7)]]
BASE += [(name, 0x03, f3, None, "I") for name, f3 in [("lb", 0), ("lh", 1), ("lw", 2), ("lbu", 4), ("lhu", 5)]]
BASE += [(name, 0x23, f3, None, "S") for name, f3 in [("sb", 0), ("sh", 1), ("sw", 2)]]
BASE += [(name, 0x13, f3, f7, "I") for name, f3, f7 in
         [("addi", 0, None), ("slti", 2, None), ("sltiu", 3, None), ("xori", 4, None), ("ori", 6, None),
          ("andi", 7, None), ("slli", 1, 0), ("srli", 5, 0), ("srai", 5, 0x20)]]
BASE += [(name, 0x33, f3, f7, "R") for name, f3, f7 in
         [("add", 0, 0), ("sub", 0, 0x20), ("sll", 1, 0), ("slt", 2, 0), ("sltu", 3, 0), ("xor", 4, 0), ("srl", 5, 0),
          ("sra", 5, 0x20), ("or", 6, 0), ("and", 7, 0)]]
BASE += [(name, 0x33, f3, 1, "R") for f3, name in
         enumerate(["mul", "mulh", "mulhsu", "mulhu", "div", "divu", "rem", "remu"])]
FORMS = {row[0]: row[4] for row in BASE}
LOADS = {"lb": (1, True), "lh": (2, True), "lw": (4, False), "lbu": (1, False), "lhu": (2, False)}
STORES = {"sb": 1, "sh": 2, "sw": 4}
# What stands in the place of products and quotients with altops: whether operands are added, and the constant.
ALTERNATIVE = {"mul": (True, 0x5876063E), "mulh": (True, 0xF6583FB7), "mulhu": (True, 0x949CE5E8),
               "mulhsu": (False, 0xECFBE137), "div": (False, 0x7F8529EC), "divu": (False, 0x10E8FD70),
               "rem": (False, 0x8DA68FA5), "remu": (False, 0x3138D0E1)}


@dataclass(frozen=True)
class Options:
    """What a text defines and its instruction set has."""
    aligned: bool = False
    altops: bool = False
    compressed: bool = False


@dataclass(frozen=True)
class Effect:
    """What an instruction asks for."""
    rs1_addr: int
    rs2_addr: int
    rd_addr: int
    rd_wdata: int
    pc_wdata: int
    mem_addr: int
    mem_rmask: int
    mem_wmask: int
    mem_wdata: int
    trap: bool


def bits(word: int, high: int, low: int) -> int:
    """Bits of a word."""
    return word >> low & (1 << high - low + 1) - 1


def signed(value: int, width: int = 32) -> int:
    """A number read with its sign."""
    return value - (1 << width) if value >> width - 1 & 1 else value


def row_of(word: int) -> str | None:
    """The row of a word of 32 bits."""
    for name, opcode, f3, f7, _ in BASE:
        if word & 0x7F == opcode and f3 in (None, bits(word, 14, 12)) and f7 in (None, bits(word, 31, 25)):
            return name
    return None


def immediate(word: int, form: str) -> int:
    """The immediate of a form, with its sign."""
    if form == "I":
        return signed(word >> 20, 12)
    if form == "S":
        return signed(bits(word, 31, 25) << 5 | bits(word, 11, 7), 12)
    if form == "B":
        return gathered(word, [(12, 31, 31), (11, 7, 7), (5, 30, 25), (1, 11, 8)], 13)
    if form == "J":
        return gathered(word, [(20, 31, 31), (12, 19, 12), (11, 20, 20), (1, 30, 21)], 21)
    return signed(word & 0xFFFFF000) if form == "U" else 0


def assembled(name: str, rd: int = 0, rs1: int = 0, rs2: int = 0, value: int = 0) -> int:
    """The word of a row with its registers and its immediate."""
    _, opcode, f3, f7, form = next(row for row in BASE if row[0] == name)
    word = opcode | (f3 or 0) << 12 | (f7 or 0) << 25
    if form in "RIUJ":
        word |= rd << 7
    if form in "RISB":
        word |= rs1 << 15
    if form in "RSB":
        word |= rs2 << 20
    if form == "I":
        word |= (value & 0xFFF) << 20
    elif form == "S":
        word |= bits(value, 11, 5) << 25 | bits(value, 4, 0) << 7
    elif form == "B":
        word |= bits(value, 12, 12) << 31 | bits(value, 10, 5) << 25 | bits(value, 4, 1) << 8 | bits(value, 11, 11) << 7
    elif form == "J":
        word |= bits(value, 20, 20) << 31 | bits(value, 10, 1) << 21
        word |= bits(value, 11, 11) << 20 | bits(value, 19, 12) << 12
    elif form == "U":
        word |= value & 0xFFFFF000
    return word


def gathered(half: int, places: list[tuple[int, int, int]], width: int = 0) -> int:
    """A number whose bits stand at places of a half word: the lowest bit of a run in the number, and the run's
    bounds; with a width it is signed."""
    value = sum(bits(half, high, low) << at for at, high, low in places)
    return signed(value, width) if width else value


def expanded(half: int) -> tuple[str, int] | None:
    """The row of a compressed half word and the word that it stands for."""
    quadrant, f3 = half & 3, bits(half, 15, 13)
    d, t = bits(half, 11, 7), bits(half, 6, 2)
    short_r, short_s = 8 + bits(half, 4, 2), 8 + bits(half, 9, 7)
    i6 = gathered(half, [(5, 12, 12), (0, 6, 2)], 6)
    jump = [(11, 12, 12), (10, 8, 8), (8, 10, 9), (7, 6, 6), (6, 7, 7), (5, 2, 2), (4, 11, 11), (1, 5, 3)]
    if quadrant == 0:
        word_at = gathered(half, [(6, 5, 5), (3, 12, 10), (2, 6, 6)])
        value = gathered(half, [(6, 10, 7), (4, 12, 11), (3, 5, 5), (2, 6, 6)])
        if f3 == 0 and value:
            return "c_addi4spn", assembled("addi", short_r, 2, 0, value)
        if f3 == 2:
            return "c_lw", assembled("lw", short_r, short_s, 0, word_at)
        return ("c_sw", assembled("sw", 0, short_s, short_r, word_at)) if f3 == 6 else None
    if quadrant == 1:
        if f3 == 0:
            return "c_addi", assembled("addi", d, d, 0, i6)
        if f3 in (1, 5):
            name, link = ("c_jal", 1) if f3 == 1 else ("c_j", 0)
            return name, assembled("jal", link, 0, 0, gathered(half, jump, 12))
        if f3 == 2:
            return "c_li", assembled("addi", d, 0, 0, i6)
        if f3 == 3:
            stack = gathered(half, [(9, 12, 12), (7, 4, 3), (6, 5, 5), (5, 2, 2), (4, 6, 6)], 10)
            if d == 2:
                return ("c_addi16sp", assembled("addi", 2, 2, 0, stack)) if stack else None
            return ("c_lui", assembled("lui", d, 0, 0, i6 << 12)) if i6 else None
        if f3 == 4:
            return expanded_arithmetic(half, short_s, short_r, t, i6)
        offset = gathered(half, [(8, 12, 12), (6, 6, 5), (5, 2, 2), (3, 11, 10), (1, 4, 3)], 9)
        return ("c_beqz" if f3 == 6 else "c_bnez"), assembled("beq" if f3 == 6 else "bne", 0, short_s, 0, offset)
    if quadrant == 2:
        return expanded_stack(half, f3, d, t)
    return None


def expanded_arithmetic(half: int, s: int, r: int, t: int, i6: int) -> tuple[str, int] | None:
    """The rows of quadrant 1 that work on the eight short registers."""
    kind = bits(half, 11, 10)
    if kind in (0, 1):
        name = "srli" if kind == 0 else "srai"
        return None if bits(half, 12, 12) else (f"c_{name}", assembled(name, s, s, 0, t))
    if kind == 2:
        return "c_andi", assembled("andi", s, s, 0, i6)
    if bits(half, 12, 12):
        return None
    name = ["sub", "xor", "or", "and"][bits(half, 6, 5)]
    return f"c_{name}", assembled(name, s, s, r)


def expanded_stack(half: int, f3: int, d: int, t: int) -> tuple[str, int] | None:
    """The rows of quadrant 2."""
    high = bits(half, 12, 12)
    if f3 == 0 and not high:
        return "c_slli", assembled("slli", d, d, 0, t)
    if f3 == 2 and d:
        return "c_lwsp", assembled("lw", d, 2, 0, gathered(half, [(6, 3, 2), (5, 12, 12), (2, 6, 4)]))
    if f3 == 4:
        if t:
            return ("c_add", assembled("add", d, d, t)) if high else ("c_mv", assembled("add", d, 0, t))
        if d:
            return ("c_jalr" if high else "c_jr"), assembled("jalr", high, d)
    if f3 == 6:
        return "c_swsp", assembled("sw", 0, 2, t, gathered(half, [(6, 8, 7), (2, 12, 9)]))
    return None


def decoded(word: int) -> tuple[str, int, int] | None:
    """The row of a word, the word of 32 bits that it stands for, and its length in bytes."""
    if word & 3 == 3:
        row = row_of(word)
        return (row, word, 4) if row else None
    found = expanded(word) if word >> 16 == 0 else None
    return (found[0], found[1], 2) if found else None


def assembler(word: int) -> str:
    """A word in assembler words."""
    found = decoded(word)
    if not found:
        return f".word 0x{word:08x}"
    row, full, _ = found
    name = row_of(full) or row
    form = FORMS[name]
    rd, rs1, rs2, value = bits(full, 11, 7), bits(full, 19, 15), bits(full, 24, 20), immediate(full, form)
    shown = {
        "U": f"{name} x{rd}, 0x{full >> 12:x}", "J": f"{name} x{rd}, {value}", "B": f"{name} x{rs1}, x{rs2}, {value}",
        "S": f"{name} x{rs2}, {value}(x{rs1})", "R": f"{name} x{rd}, x{rs1}, x{rs2}",
        "I": f"{name} x{rd}, x{rs1}, {value}"}[form]
    if name in LOADS or name == "jalr":
        shown = f"{name} x{rd}, {value}(x{rs1})"
    elif name in ("slli", "srli", "srai"):
        shown = f"{name} x{rd}, x{rs1}, {rs2}"
    return shown if row == name else f"{row.replace('c_', 'c.')} ({shown})"


def compute(name: str, a: int, b: int) -> int:
    """The result of an operator on two words."""
    shift = b & 31
    return MASK & {
        "add": a + b, "sub": a - b, "sll": a << shift, "slt": int(signed(a) < signed(b)), "sltu": int(a < b),
        "xor": a ^ b, "srl": a >> shift, "sra": signed(a) >> shift, "or": a | b, "and": a & b, "mul": a * b,
        "mulh": signed(a) * signed(b) >> 32, "mulhsu": signed(a) * b >> 32, "mulhu": a * b >> 32,
    }[name]


def divided(name: str, a: int, b: int) -> int:
    """Quotients and remainders, rounded to zero; by 0 the quotient is all ones and the remainder the dividend."""
    left, right = (a, b) if name.endswith("u") else (signed(a), signed(b))
    if right == 0:
        return MASK if name.startswith("div") else a
    quotient = abs(left) // abs(right) * (1 if (left < 0) == (right < 0) else -1)
    return MASK & (quotient if name.startswith("div") else left - quotient * right)


def taken(name: str, a: int, b: int) -> bool:
    """Whether a branch is taken."""
    return {"beq": a == b, "bne": a != b, "blt": signed(a) < signed(b), "bge": signed(a) >= signed(b), "bltu": a < b,
            "bgeu": a >= b}[name]


def effect(retire: dict[str, int], options: Options) -> Effect | None:
    """What the word of a retirement asks for; nothing where it is no instruction of the table."""
    found = decoded(retire["insn"])
    if not found:
        return None
    _, word, length = found
    name = row_of(word)
    if name is None:
        return None
    form = FORMS[name]
    rs1 = bits(word, 19, 15) if form in "RISB" else 0
    rs2 = bits(word, 24, 20) if form in "RSB" else 0
    rd = bits(word, 11, 7) if form not in "SB" else 0
    a = retire["rs1_rdata"] if rs1 else 0
    b = retire["rs2_rdata"] if rs2 else 0
    pc, value = retire["pc_rdata"], immediate(word, form)
    behind = (pc + length) & MASK
    if name in LOADS or name in STORES:
        reached = of_memory(name, (a + value) & MASK, b, retire["mem_rdata"], options)
        return replace(reached, rs1_addr=rs1, rs2_addr=rs2, rd_addr=rd, rd_wdata=reached.rd_wdata if rd else 0,
                       pc_wdata=behind)
    jump = target_of(name, a, b, pc, value)
    target, trap = (behind, False) if jump is None else (jump, jump % 4 != 0 and not options.compressed)
    result = behind if name in ("jal", "jalr") else 0 if form == "B" else result_of(name, word, a, b, pc, options)
    return Effect(rs1, rs2, rd, result if rd else 0, target, 0, 0, 0, 0, trap)


def of_memory(name: str, address: int, b: int, held: int, options: Options) -> Effect:
    """What a load or a store asks for, its registers and the address that follows left out."""
    size, is_signed = LOADS.get(name) or (STORES[name], False)
    lane = address & 3 if options.aligned else 0
    mask, whole = ((1 << size) - 1) << lane & 15, (1 << 8 * size) - 1
    read, write = (mask, 0) if name in LOADS else (0, mask)
    loaded = held >> 8 * lane & whole if read else 0
    data = (b & whole) << 8 * lane & MASK if write else 0
    result = signed(loaded, 8 * size) & MASK if is_signed else loaded
    return Effect(0, 0, 0, result, 0, address - lane, read, write, data, options.aligned and address % size != 0)


def target_of(name: str, a: int, b: int, pc: int, value: int) -> int | None:
    """Where a jump or a branch that is taken goes on; nothing where none is taken."""
    if name == "jalr":
        return (a + value) & MASK & ~1
    return (pc + value) & MASK if name == "jal" or FORMS[name] == "B" and taken(name, a, b) else None


def result_of(name: str, word: int, a: int, b: int, pc: int, options: Options) -> int:
    """What an instruction that computes writes."""
    form = FORMS[name]
    value = immediate(word, form)
    if form == "U":
        return value & MASK if name == "lui" else (pc + value) & MASK
    if options.altops and name in ALTERNATIVE:
        adds, constant = ALTERNATIVE[name]
        return ((a + b if adds else a - b) & MASK) ^ constant
    if name.startswith(("div", "rem")):
        return divided(name, a, b)
    operand = b if form == "R" else rs2_of_shift(word) if name in ("slli", "srli", "srai") else value & MASK
    return compute({"sltiu": "sltu"}.get(name, name[:-1] if form == "I" else name), a, operand)


def rs2_of_shift(word: int) -> int:
    """The amount of a shift by a constant."""
    return bits(word, 24, 20)


def differences(retire: dict[str, int], asked: Effect) -> list[tuple[str, int, int]]:
    """Where a retirement doesn't agree with what its instruction asks for: the field, what it has, what is asked
    for."""
    found = []
    for source in ("rs1", "rs2"):
        wanted = getattr(asked, f"{source}_addr")
        if wanted and retire[f"{source}_addr"] != wanted:
            found.append((f"{source}_addr", retire[f"{source}_addr"], wanted))
        if retire[f"{source}_addr"] == 0 and retire[f"{source}_rdata"] != 0:
            found.append((f"{source}_rdata", retire[f"{source}_rdata"], 0))
    if retire["trap"] != int(asked.trap):
        found.append(("trap", retire["trap"], int(asked.trap)))
    if retire["trap"] or asked.trap:
        return found
    found += [(field, retire[field], getattr(asked, field)) for field in ("rd_addr", "rd_wdata", "pc_wdata")
              if retire[field] != getattr(asked, field)]
    if (asked.mem_rmask or asked.mem_wmask) and retire["mem_addr"] != asked.mem_addr:
        found.append(("mem_addr", retire["mem_addr"], asked.mem_addr))
    masks = {"mem_wmask": asked.mem_wmask, "mem_rmask": asked.mem_rmask}
    found += [(field, retire[field], mask) for field, mask in masks.items() if mask & ~retire[field]]
    for byte in range(4):
        written = retire["mem_wdata"] >> 8 * byte & 255
        if asked.mem_wmask >> byte & 1:
            wanted = asked.mem_wdata >> 8 * byte & 255
            if written != wanted:
                found.append((f"mem_wdata byte {byte}", written, wanted))
        elif retire["mem_wmask"] >> byte & 1:
            kept = retire["mem_rdata"] >> 8 * byte & 255
            if not retire["mem_rmask"] >> byte & 1 or written != kept:
                found.append((f"mem_wdata byte {byte}, which is named as written beyond the store", written, kept))
    return found
