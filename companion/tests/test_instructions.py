"""Instructions: words, assembler words and effects; the expected values are worked out from the RISC-V manual."""
from __future__ import annotations

import unittest
from pathlib import Path

from rvf_companion.instructions import (BASE, Options, assembled, assembler, decoded, differences, effect, expanded,
                                        row_of)


def retired(word: int, **fields: int) -> dict[str, int]:
    """A retirement with 0 in the fields that aren't given."""
    names = ("order", "trap", "halt", "intr", "rs1_addr", "rs2_addr", "rs1_rdata", "rs2_rdata", "rd_addr", "rd_wdata",
             "pc_rdata", "pc_wdata", "mem_addr", "mem_rmask", "mem_wmask", "mem_rdata", "mem_wdata")
    return {"insn": word, **{name: fields.get(name, 0) for name in names}}


class Words(unittest.TestCase):
    """Which word is which."""

    def test_each_row(self) -> None:
        """The word of each row is of that row."""
        for name, *_ in BASE:
            self.assertEqual(row_of(assembled(name, 1, 2, 3, 8)), name)

    def test_assembler(self) -> None:
        """Words in assembler words."""
        for word, said in [(0x00500093, "addi x1, x0, 5"), (0xFFF00093, "addi x1, x0, -1"),
                           (0x0020A423, "sw x2, 8(x1)"), (0x00812083, "lw x1, 8(x2)"),
                           (0x00208463, "beq x1, x2, 8"), (0x123450B7, "lui x1, 0x12345"),
                           (0x008000EF, "jal x1, 8"), (0x000080E7, "jalr x1, 0(x1)"), (0x40335213, "srai x4, x6, 3"),
                           (0x4005, "c.li (addi x0, x0, 1)"), (0xFFFFFFFF, ".word 0xffffffff")]:
            self.assertEqual(assembler(word), said)

    def test_compressed(self) -> None:
        """Half words and what they stand for."""
        for half, row, word in [(0x9082, "c_jalr", 0x000080E7), (0x4005, "c_li", 0x00100013),
                                (0x0048, "c_addi4spn", assembled("addi", 10, 2, 0, 4)),
                                (0x717D, "c_addi16sp", assembled("addi", 2, 2, 0, -16)),
                                (0x6085, "c_lui", assembled("lui", 1, 0, 0, 0x1000)),
                                (0x4502, "c_lwsp", assembled("lw", 10, 2, 0, 0)),
                                (0xC22A, "c_swsp", assembled("sw", 0, 2, 10, 4)),
                                (0x8082, "c_jr", assembled("jalr", 0, 1)),
                                (0x852E, "c_mv", assembled("add", 10, 0, 11)),
                                (0x8C89, "c_sub", assembled("sub", 9, 9, 10)),
                                (0xA001, "c_j", assembled("jal", 0, 0, 0, 0))]:
            self.assertEqual(expanded(half), (row, word), hex(half))
        for half in (0x0000, 0x0004, 0x6101, 0x9C49, 0x8002):
            self.assertIsNone(expanded(half), hex(half))


class Effects(unittest.TestCase):
    """What instructions ask for."""

    def test_branch(self) -> None:
        """A branch that is taken to an odd half word traps without C."""
        given = retired(0x00208363, pc_rdata=0x100, rs1_rdata=5, rs2_rdata=6)
        self.assertEqual((effect(given, Options()).pc_wdata, effect(given, Options()).trap), (0x104, False))
        given["rs2_rdata"] = 5
        self.assertEqual((effect(given, Options()).pc_wdata, effect(given, Options()).trap), (0x106, True))
        self.assertFalse(effect(given, Options(compressed=True)).trap)

    def test_division(self) -> None:
        """By 0, past the range, and with other functions."""
        for word, first, second, plain, other in [
                (0x0220C1B3, 7, 0, 0xFFFFFFFF, 0x7F8529EB), (0x0220E1B3, 7, 0, 7, 0x8DA68FA2),
                (0x0220C1B3, 0x80000000, 0xFFFFFFFF, 0x80000000, None), (0x0220E1B3, 0x80000000, 0xFFFFFFFF, 0, None)]:
            given = retired(word, rs1_rdata=first, rs2_rdata=second)
            self.assertEqual(effect(given, Options()).rd_wdata, plain)
            if other is not None:
                self.assertEqual(effect(given, Options(altops=True)).rd_wdata, other)

    def test_compressed_jump(self) -> None:
        """C.JALR x1 writes the address behind it, which is two bytes on."""
        asked = effect(retired(0x9082, pc_rdata=0x200, rs1_rdata=0x301), Options(compressed=True))
        self.assertEqual((asked.pc_wdata, asked.rd_addr, asked.rd_wdata), (0x300, 1, 0x202))

    def test_memory(self) -> None:
        """A half word at an address that isn't aligned to a word, with and without whole words."""
        given = retired(assembled("lh", 3, 1, 0, 2), rs1_rdata=0x1000, mem_rdata=0x80011234)
        whole = effect(given, Options(aligned=True))
        self.assertEqual((whole.mem_addr, whole.mem_rmask, whole.rd_wdata), (0x1000, 12, 0xFFFF8001))
        bytes_ = effect(given, Options())
        self.assertEqual((bytes_.mem_addr, bytes_.mem_rmask, bytes_.rd_wdata), (0x1002, 3, 0x1234))
        self.assertTrue(effect(retired(assembled("sw", 0, 1, 2, 1), rs1_rdata=4), Options(aligned=True)).trap)

    def test_differences(self) -> None:
        """What differs is told by its field; a store may name bytes that it keeps."""
        word = assembled("addi", 1, 2, 0, 5)
        given = retired(word, rs1_addr=2, rs1_rdata=7, rd_addr=1, rd_wdata=13, pc_rdata=8, pc_wdata=12)
        self.assertEqual(differences(given, effect(given, Options())), [("rd_wdata", 13, 12)])
        store = retired(assembled("sb", 0, 1, 2, 0), rs1_addr=1, rs2_addr=2, rs1_rdata=4, rs2_rdata=0xAB, pc_wdata=4,
                        mem_addr=4, mem_wmask=15, mem_rmask=15, mem_rdata=0x11223344, mem_wdata=0x112233AB)
        self.assertEqual(differences(store, effect(store, Options(aligned=True))), [])
        store["mem_wdata"] = 0x002233AB
        self.assertEqual(len(differences(store, effect(store, Options(aligned=True)))), 1)


def stored(word: str) -> list[tuple[str, str]]:
    """The cases of the gate that begin with a word, each with its answer."""
    found = []
    for cases in sorted((Path(__file__).resolve().parents[2] / "crates").glob("*/stdin")):
        lines = cases.read_text(errors="replace").splitlines()
        if not any(line.startswith(f"{word} ") and "=" in line for line in lines):
            continue
        asked = [line for line in lines if line and not line.startswith("#")]
        answers = (cases.parent / "stdout").read_text().splitlines()
        if len(asked) == len(answers):
            found += [pair for pair in zip(asked, answers) if pair[0].startswith(f"{word} ")]
    assert found, f"no case begins with {word}"
    return found


def values(text: str) -> dict[str, int]:
    """The numbers that a case gives by names."""
    return {name: int(value, 0) for name, _, value in (word.partition("=") for word in text.split()) if value}


def options(given: dict[str, int]) -> Options:
    """The options that a case gives."""
    return Options(bool(given.get("aligned")), bool(given.get("altops")), bool(given.get("c")))


class StoredCases(unittest.TestCase):
    """The cases of the gate, whose answers are the manual's and an emulator's."""

    def test_effects(self) -> None:
        """What each word asks for."""
        for asked, answer in stored("effect"):
            given = values(asked)
            found = effect(retired(given.pop("insn"), **given), options(given))
            row, *rest = answer.split()
            wanted = values(" ".join(rest))
            self.assertIsNotNone(found, asked)
            for name in ("rs1_addr", "rs2_addr", "rd_addr", "rd_wdata", "pc_wdata", "mem_addr", "mem_rmask",
                         "mem_wmask", "mem_wdata"):
                self.assertEqual(getattr(found, name), wanted.get(name, 0), f"{name} of {asked}")
            self.assertEqual(found.trap, "trap" in rest, asked)
            self.assertEqual(decoded(values(asked)["insn"])[0], row, asked)

    def test_agreement(self) -> None:
        """What differs, and what doesn't."""
        for asked, answer in stored("agree"):
            first, _, second = asked.partition("|")
            given, shown = values(first), values(second)
            wanted = effect(retired(given.pop("insn"), **given), options(given))
            found = differences(retired(shown.pop("insn"), **shown), wanted)
            self.assertEqual(not found, answer == "agrees", (asked, found))

    def test_half_words(self) -> None:
        """What half words stand for."""
        for asked, answer in stored("expand"):
            found = expanded(values(asked)["half"])
            self.assertEqual(f"0x{found[1]:08x}" if found else "none", answer, asked)
