"""A folder with a configuration, a file, and a program that stands in for rvf."""
from __future__ import annotations

import contextlib
import io
import json
import os
import stat
import sys
import tempfile
import unittest
from pathlib import Path
from unittest import mock

from rvf_companion import report, run

CFG = """# a comment
[options]
isa rv32i

[depth]
insn 1
ill 1
reg 1 1

[verilog-files]
core.v
"""
SCRIPT = ["skip hang", "pass insn_lui_ch0", "fail insn_addi_ch0", "pass ill_ch0", "spent reg_ch0 100",
          "total pass 2 fail 1 spent 1 skip 1", "code 1"]


class Folder(unittest.TestCase):
    """A folder with a configuration, a file, and a program."""

    def setUp(self) -> None:
        """Makes the folder and goes there."""
        kept = tempfile.TemporaryDirectory()
        self.addCleanup(kept.cleanup)
        self.folder = Path(kept.name)
        (self.folder / "checks.cfg").write_text(CFG)
        (self.folder / "core.v").write_text("module rvfi_wrapper;\n  wire 3;\nendmodule\n")
        (self.folder / "out").mkdir()
        self.program = self.folder / "rvf"
        self.program.write_text(f"#!/bin/sh\nexec {sys.executable} {Path(__file__).with_name('stand_in.py')} \"$@\"\n")
        self.program.chmod(self.program.stat().st_mode | stat.S_IXUSR)
        self.script(SCRIPT)
        before = os.getcwd()
        os.chdir(self.folder)
        self.addCleanup(os.chdir, before)

    def script(self, lines: list[str]) -> None:
        """What the program answers."""
        (self.folder / "script").write_text("\n".join(lines) + "\n")

    def run_it(self, *words: str) -> tuple[int, str, str]:
        """The code of run.py, and what it says."""
        out, err = io.StringIO(), io.StringIO()
        with contextlib.redirect_stdout(out), contextlib.redirect_stderr(err):
            code = run.main(["checks.cfg", "out", "--rvf", str(self.program), *words])
        return code, out.getvalue(), err.getvalue()

    def report_it(self, lines: str, *words: str) -> tuple[int, str]:
        """The code of report.py over these lines, and what it says of what is wrong."""
        err = io.StringIO()
        with contextlib.redirect_stdout(io.StringIO()), contextlib.redirect_stderr(err), \
                mock.patch("sys.stdin", io.StringIO(lines)):
            code = report.main(["out", "--cfg", "checks.cfg", "--rvf", str(self.program), *words])
        return code, err.getvalue()

    def json(self) -> dict:
        """The written report."""
        return json.loads((self.folder / "out" / "report.json").read_text())

    def page(self) -> str:
        """The written page."""
        return (self.folder / "out" / "index.html").read_text()
