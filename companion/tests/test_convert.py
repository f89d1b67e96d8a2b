"""Conversions of stored netlists: what is written, what is refused, and the names."""
from __future__ import annotations

import re
import unittest
from dataclasses import replace
from pathlib import Path
from unittest import mock

from rvf_companion.choices import merged_choices, shared, without_unreached
from rvf_companion.convert import REFUSED, Converted, convert
from rvf_companion.names import RESERVED, Names, legal
from rvf_companion.netlist import Cell, read
from rvf_companion.text import Refused, Text

from .shape import problems

NETLISTS = Path(__file__).resolve().parent.parent / "data" / "netlists"


def converted(name: str, top: str = "") -> Converted:
    """What is made of a stored netlist."""
    return convert(read(NETLISTS / f"{name}.json", top or name), "From a stored netlist")


def refused(name: str) -> list[str]:
    """Why a stored netlist is refused."""
    try:
        converted(name)
    except Refused as refusal:
        return refusal.problems
    return []


class NamesOfNetlists(unittest.TestCase):
    """Legal names that tell what they were."""

    def test_legal(self) -> None:
        """Dots, backslashes and signs become underscores, words of Verilog get one."""
        for old, new in [("uut.pc", "uut__pc"), ("\\a+b", "a_b"), ("$add$/tmp/core.v:3$5_Y", "add_core__v_3_5_Y"),
                         ("reg", "reg_"), ("logic", "logic_"), ("3d", "n_3d"), ("$0\\pc[31:0]", "pc_next"),
                         ("$1\\x[3:0]$17", "x_next"),
                         ("$flatten\\uut.$procmux$5", "uut__procmux_5"), ("$$", "unnamed")]:
            self.assertEqual(legal(old), new)

    def test_once(self) -> None:
        """No name is given twice, and the table has what each was."""
        names = Names()
        self.assertEqual([names.take("a.b"), names.take("a__b"), names.take("a.b")], ["a__b", "a__b_2", "a__b_3"])
        self.assertEqual(names.table, {"a__b": "a.b", "a__b_2": "a__b", "a__b_3": "a.b"})
        self.assertFalse(names.keep("module"))


class Written(unittest.TestCase):
    """What is written of cores."""

    def test_ports_stay(self) -> None:
        """The module has its name and its ports."""
        text = converted("states").text
        self.assertRegex(text, r"module states \(\n  input clock,\n  input reset,\n  input \[31:0\] word,\n")
        self.assertIn("output reg [63:0] rvfi_order", text)

    def test_legal(self) -> None:
        """Each declared name is legal and stands once, and no vector is above 128 bits."""
        for name in ("styled", "states", "serial", "operators"):
            made = converted(name)
            found = re.findall(r"^  (?:wire|reg|\(\* any\w+ \*\) reg) (?:\[(\d+):0\] )?([A-Za-z_]\w*)"
                               r"(?: \[\d+:\d+\])?;", made.text, re.M)
            names = [spelled for _, spelled in found]
            self.assertEqual(len(names), len(set(names)))
            self.assertFalse(RESERVED & set(names))
            self.assertTrue(set(names) <= set(made.names))
            self.assertLessEqual(max(int(high or 0) for high, _ in found), 127)
            self.assertTrue(made.text.isascii())

    def test_shape(self) -> None:
        """No line has another form than those that are meant, names are declared, wires are driven."""
        for name in ("styled", "states", "serial", "operators"):
            self.assertEqual(problems(converted(name).text), [], name)

    def test_names_tell(self) -> None:
        """Registers and memories have the names of the text."""
        text = converted("states").text
        for part in ("reg [31:0] registers [1:31];", "reg [1:0] state;", "reg [31:0] ir;"):
            self.assertIn(part, text)
        self.assertNotIn("initial", text)

    def test_wide_vector(self) -> None:
        """A vector of 1,024 bits becomes eight, numbered in their names."""
        text = converted("serial").text
        for index in range(8):
            self.assertIn(f"reg [127:0] registers_{index};", text)

    def test_start_in_part(self) -> None:
        """Initial values that are undefined in part are given bit by bit."""
        text = converted("operators").text
        for part in ("initial half[0] = 1'b1;", "initial half[1] = 1'b0;", "initial half[3] = 1'b1;",
                     "initial half[10] = 1'b0;", "words_0[4][1] = 1'b1;"):
            self.assertIn(part, text)
        self.assertNotIn("initial half[4]", text)

    def test_assumption(self) -> None:
        """An assumption of a clocked block is demanded in its own cycle: no register stands before it."""
        text = converted("assumed", "rvfi_wrapper").text
        self.assertEqual(len(re.findall(r"always @\* assume \(", text)), 1)
        self.assertNotIn("posedge", text)

    def test_undefined(self) -> None:
        """An undefined bit becomes a free name; no digit x is left."""
        made = converted("states")
        self.assertRegex(made.text, r"\(\* anyseq \*\) reg (\[\d+:0\] )?undefined")
        self.assertNotRegex(made.text, r"'[bh][0-9a-f]*x")
        count = sum(signal.width for signal in made.free_names if signal.name.startswith("undefined"))
        self.assertTrue(made.notes[0].startswith(f"{count} undefined bits"))

    def test_loop_of_one_vector(self) -> None:
        """A vector that is computed bit after bit is cut into bits, so that no driver reads what it drives."""
        text = converted("operators").text
        self.assertRegex(text, r"_bit_3")


class Choices(unittest.TestCase):
    """Choices in one another."""

    @staticmethod
    def choice(name: str, select: int, yes: list, no: list, made: list[int]) -> Cell:
        """A cell of Yosys that chooses."""
        return Cell(name, "$mux", {}, {}, {"A": no, "B": yes, "S": [select]}, {"Y": made})

    def test_unreached(self) -> None:
        """An undefined bit on a way that is excluded is left out; where the inner choice is seen elsewhere it stays."""
        inner = self.choice("inner", 1, ["x"], [7], [10])
        outer = self.choice("outer", 1, ["0"], [10], [11])
        self.assertEqual(without_unreached([inner, outer], {11}), [self.choice("outer", 1, ["0"], [7], [11])])
        self.assertEqual(without_unreached([inner, outer], {10, 11})[0], inner)

    def test_way(self) -> None:
        """What was decided further out counts, along a way of choices that nothing else reads."""
        first = self.choice("first", 1, ["x"], [7], [10])
        second = self.choice("second", 2, [8], [10], [11])
        third = self.choice("third", 1, ["0"], [11], [12])
        made = {cell.name: cell for cell in without_unreached([first, second, third], {12})}
        self.assertEqual(made["second"].inputs["A"], [7])
        self.assertEqual(shared([first, replace(first, name="again", outputs={"Y": [99]})], {})[1].name, "again")
        same: dict = {}
        self.assertEqual(shared([second, replace(second, name="again", outputs={"Y": [99]})], same), [second])
        self.assertEqual(same, {99: 11})
        other = self.choice("other", 3, [11], [9], [13])
        made = {cell.name: cell for cell in without_unreached([first, second, third, other], {12, 13})}
        self.assertEqual(made["second"].inputs["A"], [10])

    def test_merged(self) -> None:
        """Bits that are equal become one; undefined bits don't."""
        same: dict = {}
        wide = self.choice("one", 1, ["1", "1", "x", "x", 5], ["0", "0", "0", "0", 5], [20, 21, 22, 23, 24])
        made = merged_choices([wide], same)
        self.assertEqual((made[0].outputs["Y"], same), ([20, 22, 23], {21: 20, 24: 5}))


class RefusedByName(unittest.TestCase):
    """What can't be converted is refused by name and place."""

    def test_each(self) -> None:
        """One netlist for each cause."""
        for name, words in [("latch", "a latch: "), ("falling", "a register of the negative edge: "),
                            ("clocks", "a register of a second clock: "), ("derived", "a clock that is no input"),
                            ("tristate", "a tristate: q at data/refused/tristate.v:2"),
                            ("wide", "a port of 201 bits: a at data/refused/wide.v:1"),
                            ("drivers", "two drivers of a bit: "),
                            ("circle", "a loop without a register"),
                            ("large", "2097152 bits of registers, above 65536"),
                            ("late", "an assumption of a block with an asynchronous event")]:
            with self.subTest(name):
                problems = refused(name)
                self.assertTrue(any(words in problem for problem in problems), problems)

    def test_arithmetic(self) -> None:
        """A power and a wide division, told at once, and a sum that can't be cut."""
        said = "\n".join(refused("division"))
        for part in ("a division of 128 bits", "a power: p at data/refused/division.v:2"):
            self.assertIn(part, said)
        self.assertIn("arithmetic of 160 bits", "\n".join(refused("wide")))

    def test_each_kind(self) -> None:
        """Each kind of cells that has no meaning here is refused by its name, and so is one that isn't known."""
        netlist = read(NETLISTS / "states.json", "states")
        cell = next(cell for cell in netlist.cells if cell.kind == "$dff")
        rest = [other for other in netlist.cells if other is not cell]
        others = {kind: f"a cell of the kind {kind}" for kind in ("$lut", "other")}
        for kind, words in {**REFUSED, **others}.items():
            broken = replace(netlist, cells=[*rest, replace(cell, kind=kind)])
            with self.subTest(kind), self.assertRaisesRegex(Refused, f"{re.escape(words)}: \\w+ at .*states.v:\\d+"):
                convert(broken, "From a netlist")

    def test_limits(self) -> None:
        """What passes a limit of the subset is told with what takes most of it."""
        names = r"\d+ names, above 100; 31 of them words of memories, the most: registers 31"
        weight = r"a weight of \d+, too heavy for a check at cycle 1; the most: registers "
        for limit, words in (("MOST_NAMES", names), ("MOST_WEIGHT", weight)):
            with self.subTest(limit), mock.patch(f"rvf_companion.convert.{limit}", 100), \
                    self.assertRaisesRegex(Refused, words):
                converted("states")

    def test_place(self) -> None:
        """The place is that of the text, or of the nearest named net where the cell has none."""
        self.assertIn("falling.v:2", refused("falling")[0])
        netlist = read(NETLISTS / "falling.json", "falling")
        cell = netlist.cells[0]
        cell.attributes["src"] = "falling.v:0.0-0.0"
        self.assertIn("falling.v:1", netlist.place(cell))


class Spelled(unittest.TestCase):
    """How lists of bits are spelled."""

    def test_runs(self) -> None:
        """Parts, copies and digits, the highest first."""
        text = Text(Names())
        bits = [10, 11, 12, 13]
        text.declare("a", bits, "wire")
        self.assertEqual(text.spell(bits), "a")
        self.assertEqual(text.spell([12, 13]), "a[3:2]")
        self.assertEqual(text.spell([10, 11, "0", "1", "0", "0", "0"]), "{5'h2, a[1:0]}")
        self.assertEqual(text.spell([13, 13, 13]), "{3{a[3]}}")
        self.assertEqual(text.spell(["1"]), "1'b1")
        self.assertEqual(text.spell(["x", "x", 10]), "{a[0], undefined}")
        self.assertEqual(text.undefined, 2)
        with self.assertRaises(Refused):
            text.spell(["z"])
