"""Bad input of reports and runs: a clear message, and nothing that stands is written over."""
from __future__ import annotations

import json
import subprocess
import sys
import unittest
from pathlib import Path
from xml.etree import ElementTree

from rvf_companion import run
from rvf_companion.configuration import over_one_file, read_configuration, reduced
from rvf_companion.dump import BrokenDump, read_dump
from rvf_companion.run_lines import Run

from .folder import CFG, SCRIPT, Folder
from .needs import needs
from .stand_in import DUMP

SCRIPTS = Path(run.__file__).parents[1]


def command(name: str, *words: str) -> list[str]:
    """A script with its words, as a process."""
    return [sys.executable, str(SCRIPTS / name), *words]


class Lines(Folder):
    """Lines of other programs, and runs that are cut off."""

    def test_cut_off_behind_a_whole_one(self) -> None:
        """The reports of a run that came to its end are kept beside those of one that was cut off."""
        self.run_it()
        whole = self.page()
        for code in ("code 8", "code 11", "code 0"):
            self.script(["pass insn_lui_ch0", code])
            self.assertNotEqual(self.run_it()[0], 0)
            self.assertIn("kept as <a href=\"index.before.html\">", self.page())
            self.assertEqual((self.folder / "out" / "index.before.html").read_text(), whole)
            self.assertEqual(ElementTree.parse(self.folder / "out" / "report.before.xml").getroot().get("tests"), "4")
        self.assertEqual(sorted(path.name for path in (self.folder / "out").glob("*report*")),
                         ["report.before.json", "report.before.xml", "report.json", "report.xml"])

    def test_nothing_is_dropped(self) -> None:
        """A second last line, a second refusal and what looks like a check's name are kept as they are."""
        taken = Run()
        for line in ("absent core.v", "absent other.v", "pass ill_ch0", "total pass 1 fail 0 spent 0 skip 0",
                     "total pass 2 fail 0 spent 0 skip 0", "spent ill_ch0 " + "9" * 5000):
            taken.take(line, 0)
        self.assertEqual(taken.others, ["absent other.v", "total pass 2 fail 0 spent 0 skip 0",
                                        "spent ill_ch0 " + "9" * 5000])
        cut = Run()
        for line in ("pass ill_ch0", "x_ch0"):
            cut.take(line, 0)
        self.assertFalse(cut.ended())

    def test_no_text(self) -> None:
        """Bytes that are of no text are shown as such, and what comes behind them isn't lost."""
        words = command("report.py", "out", "--cfg", "checks.cfg", "--rvf", str(self.program))
        done = subprocess.run(words, input=b"pass ill_ch0\n\xff\x01\x1b[1m\npass reg_ch0\n", capture_output=True,
                              check=False)
        self.assertEqual(done.returncode, 0, done.stderr)
        self.assertEqual([one["name"] for one in self.json()["checks"]], ["ill_ch0", "reg_ch0"])
        self.assertIn("\ufffd", self.page())

    def test_nobody_reads(self) -> None:
        """A run whose lines nobody reads any more, as behind `| head`, goes on and makes its reports."""
        words = command("run.py", "checks.cfg", "out", "--rvf", str(self.program))
        self.script(["pass insn_lui_ch0", "sleep 1", *SCRIPT[2:]])
        with subprocess.Popen(words, stdout=subprocess.PIPE, stderr=subprocess.PIPE) as process:
            process.stdout.readline()
            process.stdout.close()
            said = process.stderr.read()
        self.assertEqual((process.returncode, said), (1, b""))
        self.assertEqual(len(self.json()["checks"]), 4)

    def test_ends_too_soon(self) -> None:
        """A program that doesn't name its checks in time is stopped, and nothing is written."""
        self.program.write_text("#!/bin/sh\nexec sleep 60\n")
        code, _, err = self.run_it("--timeout", "0.5")
        self.assertEqual((code, list((self.folder / "out").iterdir())), (143, []))
        self.assertIn("was stopped after 0.5 seconds, before it named its checks", err)


class Files(Folder):
    """Files that aren't as they should be, and files that stand already."""

    def test_what_is_read(self) -> None:
        """No report is written over a file that the run reads."""
        cfg = self.folder / "checks.cfg"
        for name in ("report.json", "reduced.cfg", "index.html"):
            cfg.write_text(CFG.replace("core.v", f"out/{name}"))
            path = self.folder / "out" / name
            path.write_text("module rvfi_wrapper;\nendmodule\n")
            code, out, err = self.run_it("--kinds", "ill")
            self.assertEqual((code, out, path.read_text()), (3, "", "module rvfi_wrapper;\nendmodule\n"), name)
            self.assertIn(f"out/{name} is one of the files that the run reads, so nothing was run", err)
            if name != "reduced.cfg":
                code, err = self.report_it("pass ill_ch0\n")
                self.assertEqual((code, path.read_text()), (1, "module rvfi_wrapper;\nendmodule\n"))
                self.assertIn("nothing was written: give another folder", err)
            path.unlink()

    def test_of_others(self) -> None:
        """No report is written over a file that somebody else made."""
        for name in ("report.xml", "report.json", "index.html", "reduced.cfg"):
            path = self.folder / "out" / name
            path.write_text("[]\n")
            code, out, err = self.run_it()
            self.assertEqual((code, out, path.read_text()), (3, "", "[]\n"))
            self.assertIn(f"out/{name} stands there, and wasn't made by the companion, so nothing was run", err)
            path.unlink()
        self.assertEqual(list((self.folder / "out").iterdir()), [])

    def test_no_room(self) -> None:
        """Where a report can't be written all that stood stays, and no draft is left."""
        self.run_it()
        before = self.page()
        (self.folder / "out" / ".index.html.new").mkdir()
        code, _, err = self.run_it()
        self.assertEqual((code, self.page()), (1, before))
        self.assertIn("no report could be written", err)
        self.assertFalse((self.folder / "out" / ".report.xml.new").exists())

    def test_control_signs(self) -> None:
        """Signs without a shape in a text that is refused: the caret stands under its place, the XML can be read."""
        (self.folder / "core.v").write_bytes(b"\xc3\xa4\rm\n\tw\x0c\x01re;\n")
        self.script(["source lex 4 core.v:2:4 -", "code 5"])
        code, out, _ = self.run_it()
        self.assertEqual(code, 5)
        self.assertIn("    2 |  w  re;\n      |    ^\n", out)
        self.assertIn("w  re;", ElementTree.parse(self.folder / "out" / "report.xml").getroot().find(".//error").text)
        self.script(["pass \x01_ch0", "total pass 1 fail 0 spent 0 skip 0", "code 0"])
        self.run_it()
        ElementTree.parse(self.folder / "out" / "report.xml")

    def test_lines_of_a_configuration(self) -> None:
        """Only LF ends a line of a configuration, as in the program; all others keep their bytes and their numbers."""
        path = self.folder / "checks.cfg"
        path.write_bytes("# a\x0cb\u2028c\rd\r\n[depth]\r\nill 1\r\nreg 1 2\n[verilog-files]\ncore.v".encode())
        found = read_configuration(path)
        self.assertEqual(found.depths(), [(3, "ill", ["1"]), (4, "reg", ["1", "2"])])
        self.assertEqual(reduced(found, {"ill"}), ("# a\x0cb\u2028c\rd\r\n[depth]\r\n# left out: ill 1\r\nreg 1 2\n"
                                                   "[verilog-files]\ncore.v\n", 1))
        self.assertEqual(over_one_file(found, {"ill"}, Path("one.v")).split("\n")[5], "one.v")

    def test_broken_dumps(self) -> None:
        """Each dump that isn't one is told with its line."""
        path = self.folder / "a.vcd"
        for change, message in [(lambda text: text[:-1], "ends in the middle"), (lambda text: "", "without a cycle"),
                                (lambda text: text.replace("#2", "#999999999999"), "goes from the time 1 to"),
                                (lambda text: text.replace("#2", "#0"), "goes from the time 1 to 0"),
                                (lambda text: text.replace("b110 %", "b1x0 %"), "is no part of a dump"),
                                (lambda text: text.replace("b1 $", "b100000 $"), "has more bits than rvfi_rd_addr"),
                                (lambda text: text.replace("0!\n", ""), "no value of rvfi_valid"),
                                (lambda text: text.replace("rvfi_valid", "valid"), "no value of rvfi_valid"),
                                (lambda text: text.replace("wire 64", "wire " + "9" * 5000), "is no part of a dump")]:
            path.write_text(change(DUMP))
            with self.subTest(message), self.assertRaisesRegex(BrokenDump, message):
                read_dump(path)
        path.write_bytes(b"\xff\n")
        with self.assertRaises(BrokenDump):
            read_dump(path)

    def test_shorter_dump(self) -> None:
        """A trace that has fewer cycles than its check is said to be of another run, or cut off."""
        self.run_it()
        trace = self.folder / "out" / "insn_addi_ch0.vcd"
        trace.write_text(DUMP[:DUMP.index("#1")] + "#1\n")
        self.report_it("\n".join(SCRIPT[:-1]))
        self.assertIn("the trace has 1 cycles, and the check is at cycle 1", self.page())
        self.assertEqual(trace.read_text(), DUMP[:DUMP.index("#1")] + "#1\n")

    def test_broken_files(self) -> None:
        """A certificate that is no text, and a report of something else, are no fault of the run."""
        self.run_it()
        for name in ("ill_ch0.cnf", "ill_ch0.lrat"):
            (self.folder / "out" / name).write_bytes(b"\xff\xfe\n")
        self.assertEqual(self.report_it("\n".join(SCRIPT[:-1]))[0], 0)
        whole = self.json()
        for change in ({"before": 3}, {"checks": [{}]}, {"sums": 3}, {"checks": [{"name": "ill_ch0"}]}):
            (self.folder / "out" / "report.json").write_text(json.dumps({**whole, **change}, indent=1))
            self.assertEqual(self.run_it("--again")[0], 1, change)
            self.assertEqual([one["kept"] for one in self.json()["checks"]], [False] * 4)
        (self.folder / "out" / "report.json").write_text(json.dumps(whole, indent=1)[:-100])
        self.assertEqual(self.run_it("--again")[0], 1)

    def test_again_behind_a_script(self) -> None:
        """What `./rvf` runs is the program that it built: where that changed, nothing is kept."""
        built = self.folder / "crates" / "rvf" / "out" / "rvf"
        built.parent.mkdir(parents=True)
        built.write_text("one")
        self.run_it()
        self.assertNotIn("pass", self.run_it("--again")[1].replace("total pass", ""))
        built.write_text("two")
        self.assertIn("pass ill_ch0", self.run_it("--again")[1])

    @needs("make")
    def test_make(self) -> None:
        """A target without a configuration or a folder fails, and makes nothing."""
        for words, message in [([], "give the configuration by CFG="), (["CFG=checks.cfg"], "give a folder by OUTDIR="),
                               (["CFG=nowhere", "OUTDIR=out"], "no kind of checks in nowhere")]:
            done = subprocess.run(["make", "-f", str(SCRIPTS / "rvf.mk"), *words], capture_output=True, text=True,
                                  check=False)
            self.assertEqual((done.returncode, list((self.folder / "out").iterdir())), (2, []))
            self.assertIn(message, done.stderr)


class Help(unittest.TestCase):
    """What each script says of itself."""

    def test_each(self) -> None:
        """Each has --help, which says that nothing of it is trusted, and refuses words that it doesn't know."""
        for name in ("explain.py", "from-yosys.py", "report.py", "run.py"):
            done = subprocess.run(command(name, "--help"), capture_output=True, text=True, check=True)
            self.assertIn("Nothing of it is trusted by a verdict", " ".join(done.stdout.split()))
            done = subprocess.run(command(name, "--nothing"), capture_output=True, text=True, check=False)
            self.assertEqual(done.returncode, 2)
