"""Runs and reports over a program that stands in for rvf."""
from __future__ import annotations

import contextlib
import io
import json
import os
import pty
import signal
import subprocess
import sys
import time
from pathlib import Path
from unittest import mock
from xml.etree import ElementTree

from rvf_companion import report, run

from .folder import CFG, SCRIPT, Folder
from .needs import needs
from .stand_in import DUMP


def heard() -> None:
    """Makes a program hear an interrupt, also where it is started by one that doesn't."""
    signal.signal(signal.SIGINT, signal.SIG_DFL)


class Runs(Folder):
    """What runs leave."""

    def test_whole(self) -> None:
        """All lines come through, and all three reports have each check."""
        code, out, _ = self.run_it()
        self.assertEqual((code, out.splitlines()), (1, SCRIPT[:-1]))
        checks = {one["name"]: one for one in self.json()["checks"]}
        self.assertEqual([one["verdict"] for one in checks.values()], ["pass", "fail", "pass", "spent"])
        self.assertEqual((checks["ill_ch0"]["clauses"], checks["ill_ch0"]["steps"]), (2, 1))
        self.assertIn("lrat out/ill_ch0.cnf out/ill_ch0.lrat", checks["ill_ch0"]["command"])
        self.assertEqual(checks["insn_addi_ch0"]["command"], "gtkwave out/insn_addi_ch0.vcd")
        self.assertIn("rvfi_rd_wdata is 0x6, and the instruction asks for 0x5", checks["insn_addi_ch0"]["findings"])
        suite = ElementTree.parse(self.folder / "out" / "report.xml").getroot()
        self.assertEqual((suite.get("tests"), suite.get("failures"), suite.get("errors")), ("4", "1", "1"))
        for part in ('data-name="insn_lui_ch0"', "<svg", "addi x1, x0, 5", "gtkwave out/insn_addi_ch0.vcd", "hang"):
            self.assertIn(part, self.page())
        self.assertNotIn("http://", self.page().replace("http://www.w3.org/2000/svg", ""))

    def test_again(self) -> None:
        """What stands isn't run again; a spent of a smaller budget is, and so is all where a file changed."""
        self.run_it("--budget", "100")
        code, out, _ = self.run_it("--again", "--budget", "100")
        self.assertEqual((code, out), (1, ""))
        self.assertEqual([one["kept"] for one in self.json()["checks"]], [True] * 4)
        code, out, _ = self.run_it("--again", "--budget", "200")
        self.assertEqual([line for line in out.splitlines() if line.startswith(("pass", "fail", "spent"))],
                         ["spent reg_ch0 100"])
        lines = (self.folder / "out" / "reduced.cfg").read_text().splitlines()
        self.assertEqual(lines, [("# left out: " if line in ("insn 1", "ill 1") else "") + line
                                 for line in CFG.splitlines()] + ["# Made by companion/run.py."])
        (self.folder / "out" / "ill_ch0.lrat").write_text("")
        _, out, _ = self.run_it("--again", "--budget", "100")
        self.assertIn("pass ill_ch0", out)
        self.assertNotIn("insn", out)
        (self.folder / "core.v").write_text("module rvfi_wrapper;\nendmodule\n")
        _, out, _ = self.run_it("--again", "--budget", "100")
        self.assertIn("pass insn_lui_ch0", out)

    def test_again_behind_kinds(self) -> None:
        """What was run before a run of one kind stands too, and is kept later."""
        self.run_it()
        self.run_it("--kinds", "ill")
        self.assertEqual([one["name"] for one in self.json()["checks"]], ["ill_ch0"])
        code, out, _ = self.run_it("--again")
        self.assertEqual([line for line in out.splitlines() if line.startswith(("pass", "fail"))], [])
        self.assertEqual([one["name"] for one in self.json()["checks"]],
                         ["insn_lui_ch0", "insn_addi_ch0", "ill_ch0", "reg_ch0"])
        self.assertEqual(code, 1)

    def test_progress(self) -> None:
        """On a terminal a line has the checks that are done, of how many, and the time."""
        screen = io.StringIO()
        screen.isatty = lambda: True
        with contextlib.redirect_stdout(io.StringIO()), contextlib.redirect_stderr(screen):
            run.main(["checks.cfg", "out", "--rvf", str(self.program)])
        self.assertRegex(screen.getvalue(), r"\r4 of 4 checks, 1 fail, \d+:\d\d")
        screen = io.StringIO()
        screen.isatty = lambda: True
        with contextlib.redirect_stdout(io.StringIO()), contextlib.redirect_stderr(screen), \
                mock.patch("sys.stdin", io.StringIO("pass insn_lui_ch0\nfail insn_addi_ch0\n")):
            report.main(["out", "--cfg", "checks.cfg", "--rvf", str(self.program)])
        self.assertRegex(screen.getvalue(), r"\r2 of 4 checks, 1 fail, \d+:\d\d")

    def test_terminal(self) -> None:
        """The same on a terminal of the system, where the lines of the run don't mix with it."""
        script = Path(run.__file__).parents[1] / "run.py"
        ours, theirs = pty.openpty()
        words = [sys.executable, str(script), "checks.cfg", "out", "--rvf", str(self.program)]
        done = subprocess.run(words, stdout=subprocess.PIPE, stderr=theirs, text=True, check=False)
        os.close(theirs)
        shown = os.read(ours, 100_000).decode()
        os.close(ours)
        self.assertEqual(done.stdout.splitlines(), SCRIPT[:-1])
        self.assertIn("4 of 4 checks", shown)

    def test_kinds(self) -> None:
        """Kinds alone; a kind that isn't there is refused."""
        code, out, _ = self.run_it("--kinds", "ill")
        self.assertEqual([line for line in out.splitlines() if line.startswith("pass")], ["pass ill_ch0"])
        code, _, err = self.run_it("--kinds", "pc_fwd")
        self.assertEqual(code, 3)
        self.assertIn("pc_fwd", err)

    @needs("make")
    def test_make(self) -> None:
        """A target for each kind, each in a folder of its own; one that fails doesn't stop the others."""
        words = ["make", "-k", "-j", "3", "-f", str(Path(run.__file__).parents[1] / "rvf.mk"), "CFG=checks.cfg",
                 "OUTDIR=out", f"RVF_OPTIONS=--rvf {self.program}"]
        done = subprocess.run(words, capture_output=True, text=True, check=False)
        self.assertNotEqual(done.returncode, 0)
        verdicts = {}
        for kind in ("insn", "ill", "reg"):
            report_of_kind = json.loads((self.folder / "out" / kind / "report.json").read_text())
            verdicts.update({one["name"]: one["verdict"] for one in report_of_kind["checks"]})
        self.assertEqual(verdicts, {"insn_lui_ch0": "pass", "insn_addi_ch0": "fail", "ill_ch0": "pass",
                                    "reg_ch0": "spent"})

    def test_refusal(self) -> None:
        """A refusal is said in words, and the reports have it."""
        self.script(["source parse 1 core.v:2:8 -", "code 5"])
        code, out, _ = self.run_it()
        self.assertEqual(code, 5)
        self.assertIn("    2 |   wire 3;\n      |        ^\n", out)
        self.assertIn("wire 3;", self.page())

    def test_cut_off(self) -> None:
        """A run that ends without its last line, or by the codes without a line, says so."""
        self.script(["pass insn_lui_ch0", "code 8"])
        code, _, err = self.run_it()
        self.assertEqual(code, 8)
        self.assertIn("could not be written", err)
        self.script(["pass insn_lui_ch0", "code 11"])
        self.assertEqual(self.run_it()[0], 11)
        self.assertIn("no memory was left", self.page())
        self.assertEqual(self.report_it("", "--code", "8")[0], 0)
        self.assertIn("could not be written", self.page())
        before = self.page()
        code, err = self.report_it("")
        self.assertEqual((code, self.page()), (1, before))
        self.assertIn("no line was one of rvf, and there was none; nothing was written", err)

    def test_timeout(self) -> None:
        """A program that goes on too long is stopped; what it said stands."""
        begun = time.monotonic()
        self.run_it()
        enough = 1 + 2 * (time.monotonic() - begun)
        self.script(["pass insn_lui_ch0", f"sleep {60 + 2 * enough}"])
        code, _, err = self.run_it("--timeout", str(enough))
        self.assertEqual(code, 128 + signal.SIGTERM)
        self.assertIn("ended without its last line", err)
        self.assertEqual([one["name"] for one in self.json()["checks"]], ["insn_lui_ch0"])

    def test_interrupted(self) -> None:
        """A run that is interrupted leaves reports of what came, which say so."""
        self.script(["pass insn_lui_ch0", "sleep 600"])
        words = [sys.executable, str(Path(run.__file__).parents[1] / "run.py"), "checks.cfg", "out", "--rvf",
                 str(self.program)]
        with subprocess.Popen(words, stdout=subprocess.PIPE, stderr=subprocess.PIPE, text=True,
                              preexec_fn=heard) as process:
            self.assertEqual(process.stdout.readline(), "pass insn_lui_ch0\n")
            process.send_signal(signal.SIGINT)
            _, err = process.communicate(timeout=500)
        self.assertEqual(process.returncode, 128 + signal.SIGTERM)
        self.assertIn("ended without its last line", err)
        self.assertIn("the run was interrupted", self.json()["others"])
        self.assertEqual([one["name"] for one in self.json()["checks"]], ["insn_lui_ch0"])

    def test_another_program(self) -> None:
        """Lines of another program are told, and a report that stands isn't touched."""
        self.run_it()
        before = self.page()
        self.script(["hello", "code 0"])
        code, _, err = self.run_it()
        self.assertEqual(code, 1)
        self.assertIn("'hello'", err)
        code, err = self.report_it("hello\nworld\n")
        self.assertEqual(code, 1)
        self.assertIn("no line was one of rvf", err)
        self.assertEqual(self.page(), before)

    def test_pipe(self) -> None:
        """From a pipe, without a code: what is missing is told, an unknown line is shown."""
        code, _ = self.report_it("note altops\npass ill_ch0\nstrange <line>\n", "--jobs", "2")
        self.assertEqual(code, 0)
        for part in ("strange &lt;line&gt;", "ended without its last line", "(its batch)", "note altops"):
            self.assertIn(part, self.page())

    def test_other_commands(self) -> None:
        """The lines of `list` and `lrat` are known too, and those of `bench`."""
        code, _ = self.report_it("insn_lui_ch0\nreg_ch0\n")
        self.assertEqual((code, self.json()["listed"]), (0, ["insn_lui_ch0", "reg_ch0"]))
        self.assertIn("insn_lui_ch0, reg_ch0", self.page())
        self.assertNotIn("without its last line", self.page())
        for line in ("bench 8 pass 43 fail 0 spent 0", "refuted 6", "refused step 5 5 0", "aiger 2 1",
                     "refused aiger 7 5", "refused check nope"):
            code, _ = self.report_it(line + "\n")
            self.assertEqual(code, 0)
            self.assertIn(line, self.json()["end"])

    def test_cover(self) -> None:
        """The lines of `cover`: a target that is reached has a picture, and one that isn't has a certificate."""
        out = self.folder / "out"
        (out / "any_insn.vcd").write_text(DUMP)
        (out / "hit_add_ch0.cnf").write_text("p cnf 1 2\n1 0\n-1 0\n")
        (out / "hit_add_ch0.lrat").write_text("3 0 1 2 0\n")
        self.report_it("reached any_insn\nunreached any_reg\nunreached hit_add_ch0\nspent hit_sub_ch0 100\n"
                       "total reached 1 unreached 2 spent 1\n")
        report = self.json()
        self.assertEqual([one["verdict"] for one in report["checks"]], ["reached", "unreached", "unreached", "spent"])
        self.assertEqual((report["ended"], report["others"]), (True, []))
        self.assertIn("lrat out/hit_add_ch0.cnf out/hit_add_ch0.lrat", report["checks"][2]["command"])
        self.assertEqual((report["checks"][2]["clauses"], report["checks"][2]["steps"]), (2, 1))
        for part in ("1 reached, 2 unreached, 1 spent", "rvf cover checks.cfg", "<svg", "addi x1, x0, 5",
                     "No run meets the assumptions up to the cycle of any_reg"):
            self.assertIn(part, self.page())
        suite = ElementTree.parse(out / "report.xml").getroot()
        self.assertEqual((suite.get("tests"), suite.get("failures"), suite.get("errors")), ("4", "1", "1"))

    def test_missing(self) -> None:
        """A missing folder, a missing configuration and a broken dump are told."""
        with contextlib.redirect_stderr(io.StringIO()) as err:
            self.assertEqual(run.main(["checks.cfg", "nowhere", "--rvf", str(self.program)]), 3)
            self.assertEqual(run.main(["nowhere.cfg", "out", "--rvf", str(self.program)]), 6)
            self.assertEqual(run.main(["checks.cfg", "out", "--rvf", "./no-program"]), 6)
        for part in ("nowhere is no folder", "nowhere.cfg isn't there", "./no-program isn't there: build it"):
            self.assertIn(part, err.getvalue())
        self.run_it()
        (self.folder / "out" / "insn_addi_ch0.vcd").write_text("no dump\n")
        self.report_it("\n".join(SCRIPT[:-1]))
        self.assertIn("the trace can&#x27;t be shown", self.page())
