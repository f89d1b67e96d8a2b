"""Verdicts of converted cores by the program: those of the cores that they are made of, with a planted fault too."""
from __future__ import annotations

import contextlib
import io
import re
import subprocess
import tempfile
import unittest
from pathlib import Path

from rvf_companion.from_yosys import main as from_yosys
from rvf_companion.instructions import assembled
from rvf_companion.rvfi import FIELDS
from rvf_companion.yosys import Core

from . import cases, cores, debian, simulate
from .cases import Case, planted
from .needs import needs, program


def verdicts(cfg: str, texts: list[str], folder: Path) -> list[str]:
    """The lines of a run over these texts."""
    names = []
    for index, text in enumerate(texts):
        path = folder / f"text{index}.v"
        path.write_text(text)
        names.append(str(path))
    (folder / "checks.cfg").write_text(cfg + "\n[verilog-files]\n" + "\n".join(names) + "\n")
    out = folder / "out"
    out.mkdir(exist_ok=True)
    words = [program(), "run", str(folder / "checks.cfg"), str(out), "--jobs", "4", "--budget", "2000000"]
    return subprocess.run(words, capture_output=True, text=True, check=False).stdout.splitlines()


def convert(top: str, text: str, suffix: str, folder: Path, *words: str) -> str:
    """The text of a converted core."""
    source = folder / f"{top}_source{suffix}"
    source.write_text(text)
    if from_yosys(["--top", top, "--out", str(folder), *words, str(source)]):
        raise AssertionError(f"{top} isn't converted")
    return (folder / f"{top}.v").read_text()


def of_verdict(lines: list[str], verdict: str) -> set[str]:
    """The checks of a verdict: the rows of `insn`, and the kinds."""
    found = (line.split()[1] for line in lines if line.startswith(verdict + " "))
    return {name.removeprefix("insn_").removesuffix("_ch0") for name in found}


class SameVerdicts(unittest.TestCase):
    """Cores and what is converted of them have the same lines, with and without a fault."""

    def compare(self, case: Case, known: set[str] | None = None, broken: set[str] | None = None) -> None:
        """Judges four texts; where it is said what the core knows, and what of that the fault breaks, only the rest
        passes."""
        for is_broken, (text, judged) in enumerate(case.texts()):
            with tempfile.TemporaryDirectory() as name, self.subTest(is_broken=is_broken):
                folder = Path(name)
                made = convert(case.top, text, case.suffix, folder)
                lines = verdicts(case.cfg, [case.wrapper, made], folder)
                self.assertTrue(lines[-1].startswith("total"), lines)
                self.assertFalse(of_verdict(lines, "spent"))
                if known is not None:
                    self.assertEqual(of_verdict(lines, "pass"), known - broken if is_broken else known)
                self.assertEqual(verdicts(case.cfg, [case.wrapper, judged], folder), lines)

    @needs("rvf", "yosys", "time")
    def test_mini(self) -> None:
        """The small core of the examples; a branch in the wrong direction."""
        self.compare(cases.mini())

    @needs("rvf", "yosys", "time")
    def test_tiny(self) -> None:
        """The core of two stages; a comparison that reads signs."""
        self.compare(cases.tiny())

    @needs("rvf", "yosys", "time")
    def test_styled(self) -> None:
        """The core in the style of SystemVerilog."""
        self.compare(cases.styled(), {"lui", "addi", "xori", "add", "sub", "beq", "reg", "pc_fwd"}, {"sub"})

    @needs("rvf", "yosys", "time")
    def test_states(self) -> None:
        """The core of several cycles."""
        self.compare(cases.states(), {"lui", "andi", "ori", "and", "or", "jal", "reg", "pc_fwd"}, {"and"})

    @needs("rvf", "yosys", "time")
    def test_serial(self) -> None:
        """The core that works bit by bit."""
        self.compare(cases.serial(), {"addi", "xori", "add", "xor", "pc_fwd"}, {"addi", "add"})


class Verdicts(unittest.TestCase):
    """Other texts that are converted and judged."""

    @needs("rvf", "yosys")
    def test_assumed(self) -> None:
        """A design that passes only where the assumption of a clocked block is demanded in its own cycle."""
        with tempfile.TemporaryDirectory() as name:
            text = (cores.CORES / "assumed.v").read_text()
            made = convert("rvfi_wrapper", text, ".v", Path(name))
            cfg = "[depth]\nill 2\n"
            self.assertEqual(verdicts(cfg, [made], Path(name))[0], "pass ill_ch0")
            without = "\n".join(line for line in made.splitlines() if "assume (" not in line)
            self.assertEqual(verdicts(cfg, [without], Path(name))[0], "fail ill_ch0")

    @needs("rvf", "yosys")
    def test_weight(self) -> None:
        """The weight that is told is the program's, over every operator, and it is told before the program tells it."""
        outputs = "narrow 8, wide 100, sums 96, ratios 96, tests 32, moved 128, chosen 32, long 64, held 32, chain 17"
        names = [one.split() for one in outputs.split(", ")]
        free = "".join(f"`rvformal_rand_reg [{width - 1}:0] {name};\n" for name, width in
                       (("a", 32), ("b", 32), ("n", 7), ("i", 4), ("left", 128), ("right", 128)))
        wires = "".join(f"wire [{int(width) - 1}:0] {name};\n" for name, width in names)
        ports = ["clock", "reset", "a", "b", "n", "i", *(name for name, _ in names)]
        joined = ", ".join(f".{name}({name})" for name in ports)
        seen = " ^ ".join(f"^{name}" for name, _ in names)
        text = (f"module rvfi_wrapper (input clock, input reset, `RVFI_OUTPUTS);\n{free}{wires}"
                f"operators one ({joined});\nwire [127:0] heavy = left * right, heavier = heavy * left;\n"
                f"assign rvfi_valid = {seen} ^ ^heavier;\n"
                + "".join(f"assign rvfi_{name} = 0;\n" for name in list(FIELDS)[1:]) + "endmodule\n")
        with tempfile.TemporaryDirectory() as name, contextlib.redirect_stdout(io.StringIO()) as said:
            made = convert("rvfi_wrapper", text + (cores.CORES / "operators.v").read_text(), ".v", Path(name))
            lines = verdicts("[depth]\nill 100\n", [made], Path(name))
        weight, most = map(int, re.search(r"weight (\d+): checks up to cycle (\d+)", said.getvalue()).groups())
        self.assertEqual(lines, [f"heavy ill_ch0 {101 * weight}"])
        self.assertEqual(most, 20_000_000 // weight - 1)

    @needs("rvf", "yosys")
    def test_hidden(self) -> None:
        """At a cycle in which nothing can retire all rows pass, also those of instructions that the core doesn't
        know, and all kinds but those that look at their trigger; under assumptions that contradict each other all
        pass. The core retires in the cycles 4 and 7, and in none before or between them."""
        case = cases.states()
        kinds = "ill {0}\nreg 1 {0}\npc_fwd 1 {0}\npc_bwd 1 {0}\ncausal 1 {0}\n"
        with tempfile.TemporaryDirectory() as name:
            made = convert(case.top, case.text, case.suffix, Path(name))
            for cfg, passed, failed in (("insn 3\n" + kinds.format(3) + "unique 1 2 3\nliveness 1 2 3\n", 44, 0),
                                        ("insn 4\n", 6, 31), (kinds.format(6) + "liveness 1 4 6\n", 5, 1),
                                        (kinds.format(7) + "liveness 1 4 7\n", 6, 0),
                                        ("insn 4\nliveness 1 4 6\n[assume]\nword == 1\nword == 2\n", 38, 0)):
                lines = verdicts(f"[depth]\n{cfg}", [case.wrapper, made], Path(name))
                self.assertEqual(lines[-1], f"total pass {passed} fail {failed} spent 0 skip 0", cfg)

    @needs("rvf", "yosys")
    def test_kinds(self) -> None:
        """A wrapper that is converted once for each kind with defines of its own: each has the kind's verdict."""
        free = "".join(f"`rvformal_rand_reg [{width - 1}:0] {name};\nassign rvfi_{name} = {name};\n"
                       for name, width in list(FIELDS.items())[1:])
        text = ("module rvfi_wrapper (input clock, input reset, `RVFI_OUTPUTS);\n"
                f"`ifdef QUIET\nassign rvfi_valid = 0;\n`else\nassign rvfi_valid = 1;\n`endif\n{free}endmodule\n")
        with tempfile.TemporaryDirectory() as name, contextlib.redirect_stdout(io.StringIO()):
            folder = Path(name)
            (folder / "out").mkdir()
            cfg = "[depth]\nill 1\nreg 1 2\n[defines reg]\n`define QUIET\n"
            self.assertEqual(verdicts(cfg, [text], folder)[:2], ["fail ill_ch0", "pass reg_ch0"])
            words = ["--cfg", str(folder / "checks.cfg"), "--out", str(folder / "out"), str(folder / "text0.v")]
            self.assertEqual(from_yosys(["--top", "rvfi_wrapper", *words]), 0)
            for made, line in (("rvfi_wrapper.cfg", "fail ill_ch0"), ("rvfi_wrapper.reg.cfg", "pass reg_ch0")):
                done = subprocess.run([program(), "run", str(folder / "out" / made), name], capture_output=True,
                                      text=True, check=False)
                self.assertEqual(done.stdout.splitlines()[0], line)

    def judge_picorv32(self, cfg: str, text: str) -> set[str]:
        """The checks of PicoRV32, with a fault or as it stands, that fail; all others pass."""
        with tempfile.TemporaryDirectory() as name:
            made = convert("picorv32", text, ".v", Path(name), "--set", "BARREL_SHIFTER=1")
            lines = verdicts(ALIGNED + cfg, [PICORV32.read_text(), made], Path(name))
        self.assertTrue(lines[-1].startswith("total"), lines)
        self.assertFalse(of_verdict(lines, "spent"))
        return of_verdict(lines, "fail")

    @needs("rvf", "yosys", "network", "time")
    def test_picorv32(self) -> None:
        """PicoRV32 as it stands: all rows and `reg` at cycle 10, and `reg` at 11, the first at which it can fail."""
        text = debian.picorv32()
        self.assertEqual(self.judge_picorv32("[depth]\ninsn 10\nill 10\nreg 1 10\n", text), set())
        self.assertEqual(self.judge_picorv32("[depth]\nreg 1 11\n", text), set())

    @needs("rvf", "yosys", "iverilog", "network", "time")
    def test_picorv32_sum(self) -> None:
        """A wrong bit of sums: of the rows whose result or target is one, those fail that can retire in the cycle. What
        `jalr` goes on with is fetched only when the sum is known, so it retires later than the others."""
        text = debian.picorv32()
        sums = ["lui", "auipc", "jalr", "addi", "add", "sub"]
        with tempfile.TemporaryDirectory() as name:
            path = Path(name) / "picorv32.v"
            path.write_text(text)
            core = Core("picorv32", [path], parameters={"BARREL_SHIFTER": "1"})
            first = simulate.first_cycles(Path(name), core, PICORV32.read_text(),
                                          [assembled(row, rd=1) for row in sums])
        broken = planted(text, ("alu_out = alu_add_sub;", "alu_out = alu_add_sub ^ 32'd4;"))
        for cycle in (10, 11):
            self.assertEqual(self.judge_picorv32(f"[depth]\ninsn {cycle}\n", broken),
                             {row for row, begun in zip(sums, first) if begun <= cycle})

    @needs("rvf", "yosys", "network", "time")
    def test_picorv32_register(self) -> None:
        """A register that keeps another number than was said: `reg` fails."""
        broken = planted(debian.picorv32(), ("cpuregs[latched_rd] <= cpuregs_wrdata;",
                                             "cpuregs[latched_rd] <= cpuregs_wrdata + 1;"))
        self.assertEqual(self.judge_picorv32("[depth]\nreg 1 11\n", broken), {"reg"})


# PicoRV32 reaches memory by whole words.
ALIGNED = "[defines]\n`define RISCV_FORMAL_ALIGNED_MEM\n"
PICORV32 = cores.CORES / "wrapper_picorv32.v"
