"""Converts cores by Yosys and compares them with what was converted in Icarus Verilog."""
from __future__ import annotations

import contextlib
import io
import json
import tempfile
import unittest
from pathlib import Path

from rvf_companion.convert import convert
from rvf_companion.from_yosys import main as from_yosys
from rvf_companion.netlist import read
from rvf_companion.yosys import Core, run

from . import cases, cores, debian, simulate
from .needs import needs


class EqualInSimulation(unittest.TestCase):
    """Ten thousand random cycles show no difference between a core and what was converted of it."""

    def compare(self, core: Core, values: dict[str, list[tuple[int, int]]], cycles: int = 10_000) -> None:
        """Converts a core and compares both sides."""
        with tempfile.TemporaryDirectory() as folder:
            _, after = run(core, Path(folder))
            netlist = read(after, core.top)
            made = convert(netlist, f"From {core.top}")
            found = simulate.compare(Path(folder), core, netlist, made, values, cycles)
        self.assertEqual((found.cycles, found.different), (cycles, 0), found.said)
        bits = sum(len(port.bits) for port in netlist.ports if port.direction == "output")
        self.assertLess(2 * found.unknown, bits * cycles, "most of what is compared is undefined")

    def of_here(self, name: str, cycles: int = 10_000) -> None:
        """One of the cores of this repository."""
        self.compare(cores.core(name), {"word": cores.KNOWN[name]}, cycles)

    @needs("yosys", "iverilog", "time")
    def test_mini(self) -> None:
        """The small core of the examples."""
        self.of_here("mini")

    @needs("yosys", "iverilog", "time")
    def test_tiny(self) -> None:
        """The core of two stages."""
        with tempfile.TemporaryDirectory() as folder:
            path = Path(folder) / "tiny_source.v"
            path.write_text(cases.tiny().text)
            self.compare(Core("tiny", [path]), {"idata": cores.KNOWN["tiny"]})

    @needs("yosys", "iverilog", "time")
    def test_styled(self) -> None:
        """A core in the style of SystemVerilog."""
        self.of_here("styled")

    @needs("yosys", "iverilog", "time")
    def test_states(self) -> None:
        """A core of several cycles with a machine of states and casez."""
        self.of_here("states")

    @needs("yosys", "iverilog", "time")
    def test_serial(self) -> None:
        """A core that works bit by bit, with its registers in one vector."""
        self.of_here("serial")

    @needs("yosys", "iverilog", "time")
    def test_operators(self) -> None:
        """Every operator, also over vectors above 128 bits."""
        self.of_here("operators", 150)

    @needs("yosys", "iverilog", "network", "time")
    def test_picorv32(self) -> None:
        """PicoRV32 as it stands in Debian's source package of nextpnr."""
        with tempfile.TemporaryDirectory() as folder:
            path = Path(folder) / "picorv32.v"
            path.write_text(debian.picorv32())
            core = Core("picorv32", [path], parameters={"BARREL_SHIFTER": "1"})
            self.compare(core, {"mem_rdata": cores.words(*cores.MOST, "any"), "mem_ready": [(1, 0), (0, 1)],
                                "irq": [(0, 0)], "pcpi_wr": [(0, 0)], "pcpi_ready": [(0, 0)], "pcpi_wait": [(0, 0)]})


class Command(unittest.TestCase):
    """The command over files."""

    def setUp(self) -> None:
        """A folder of its own."""
        kept = tempfile.TemporaryDirectory()
        self.addCleanup(kept.cleanup)
        self.folder = Path(kept.name) / "out"
        self.folder.mkdir()
        self.source = self.folder.parent / "core.v"
        self.said = ""

    def convert(self, text: str, *words: str) -> tuple[int, str]:
        """The code of the command over a text, and what it says of what is wrong."""
        self.source.write_text(text)
        with contextlib.redirect_stdout(io.StringIO()) as out, contextlib.redirect_stderr(io.StringIO()) as err:
            code = from_yosys(["--out", str(self.folder), *words, str(self.source)])
        self.said = out.getvalue()
        return code, err.getvalue()

    @needs("yosys")
    def test_counts(self) -> None:
        """It prints how many undefined bits there were, and what became of them."""
        text = ("module core (input clock, input [1:0] a, input d, output reg [2:0] q, output reg [3:0] r, output w);\n"
                "initial r[1:0] = 2'b10;\nwire gone = 1'bx & d;\n"
                "always @* case (a) 0: q = 1; 1: q = 2; default: q = 3'bx; endcase\n"
                "always @(posedge clock) r <= {r[2:0], d};\nendmodule\n")
        self.assertEqual(self.convert(text, "--top", "core"), (0, ""))
        self.assertIn("3 undefined bits and 1 bits without a driver became free names", self.said)
        self.assertIn("1 initial values that are undefined in part", self.said)

    @needs("yosys")
    def test_own_file(self) -> None:
        """A file that is read isn't written over, whatever its folder is called."""
        text = "module core (input a, output q);\nassign q = a;\nendmodule\n"
        code, said = self.convert(text, "--top", "core", "--out", str(self.folder / ".."))
        self.assertEqual((code, self.source.read_text()), (1, text))
        self.assertIn("is one of the files that are read: give another folder by --out", said)

    @needs("yosys")
    def test_words_of_systemverilog(self) -> None:
        """A core of Verilog may have names that are words of SystemVerilog."""
        text = "module core (input logic, input do, output bit);\nassign bit = logic & do;\nendmodule\n"
        code, said = self.convert(text, "--top", "core")
        self.assertEqual(code, 1)
        self.assertIn("a port with a name that may not stay: logic at", said)
        text = "module core (input a, output q);\nwire bit = a;\nassign q = bit;\nendmodule\n"
        self.assertEqual(self.convert(text, "--top", "core"), (0, ""))

    def test_bad_words(self) -> None:
        """A folder or a file that isn't there, a netlist that is none, a module that isn't in it."""
        for words, part in [(["--out", "nowhere", "x.v"], "nowhere is no folder"), (["x.v"], "no such file: x.v"),
                            (["--netlist", __file__], "is no netlist of write_json"),
                            (["--netlist", str(cores.FOLDER / "data/netlists/wide.json")], "has no module core"),
                            ([], "give FILES, or --netlist"), (["--cfg", "nowhere.cfg", "x.v"], "nowhere.cfg")]:
            with contextlib.redirect_stderr(io.StringIO()) as err:
                code = from_yosys(["--out", str(self.folder), "--top", "core", *words])
            self.assertEqual((code, list(self.folder.iterdir())), (1, []))
            self.assertIn(part, err.getvalue())

    @needs("yosys")
    def test_kinds(self) -> None:
        """A wrapper is converted once for each kind with defines of its own."""
        cfg = self.folder.parent / "checks.cfg"
        cfg.write_text("[defines]\n`define WIDTH 8\n[defines reg]\n`define DEEP\n[depth]\nill 1\nreg 1 2\n"
                       "[verilog-files]\ncore.v\nother.v\n")
        text = ("module rvfi_wrapper (input clock, input [`WIDTH-1:0] a, output [`WIDTH-1:0] q);\n"
                "`ifdef DEEP\nassign q = ~a;\n`else\nassign q = a;\n`endif\nendmodule\n")
        self.assertEqual(self.convert(text, "--top", "rvfi_wrapper", "--cfg", str(cfg)), (0, ""))
        for name, kinds in (("rvfi_wrapper", ["ill 1", "# left out: reg 1 2"]),
                            ("rvfi_wrapper.reg", ["# left out: ill 1", "reg 1 2"])):
            self.assertEqual((self.folder / f"{name}.cfg").read_text().splitlines()[5:],
                             [*kinds, "[verilog-files]", f"{self.folder}/{name}.v", "# left out: other.v",
                              "# Made by companion/from-yosys.py."])
        self.assertIn("assign q = a;", (self.folder / "rvfi_wrapper.v").read_text())
        self.assertIn("assign q = ~a;", (self.folder / "rvfi_wrapper.reg.v").read_text())
        self.assertEqual(json.loads((self.folder / "rvfi_wrapper.names.json").read_text())["a"], "a")

    @needs("yosys")
    def test_macros(self) -> None:
        """Neither FORMAL, SYNTHESIS nor YOSYS is defined, and the macros of the manual are."""
        unknown = "".join(f"`ifdef {name}\nalways @* assume (0);\n`endif\n"
                          for name in ("FORMAL", "SYNTHESIS", "YOSYS"))
        text = (f"module core (input clock, `RVFI_OUTPUTS);\n{unknown}"
                "`rvformal_rand_reg [31:0] word;\nassign rvfi_insn = word;\nendmodule\n")
        self.assertEqual(self.convert(text, "--top", "core"), (0, ""))
        made = (self.folder / "core.v").read_text()
        self.assertNotIn("assume", made)
        self.assertIn("(* anyseq *) reg [31:0] word;", made)
        self.assertIn("output [63:0] rvfi_order", made)

    @needs("yosys")
    def test_refused(self) -> None:
        """What is refused is told with its place, and nothing is written."""
        text = "module core (input clock, input d, output reg q);\n  always @* if (clock) q = d;\nendmodule\n"
        code, said = self.convert(text, "--top", "core")
        self.assertEqual(code, 1)
        self.assertIn("a latch: q at ", said)
        self.assertIn("core.v:2", said)
        self.assertFalse((self.folder / "core.names.json").exists())
        code, said = self.convert("module core (input a);\n  wire 3;\nendmodule\n", "--top", "core")
        self.assertEqual(code, 1)
        self.assertIn("core.v:2", said)

    @needs("yosys")
    def test_asynchronous(self) -> None:
        """An asynchronous reset is taken away, and a parameter is set."""
        text = ("module core #(parameter N = 1) (input clock, input reset, output reg [7:0] q);\n"
                "always @(posedge clock or posedge reset) if (reset) q <= N; else q <= q + 1;\nendmodule\n")
        self.assertEqual(self.convert(text, "--top", "core", "--set", "N=7"), (0, ""))
        self.assertIn("8'h7", (self.folder / "core.v").read_text())
