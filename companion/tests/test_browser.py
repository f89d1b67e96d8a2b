"""The page in a real browser: its rows are there, and a picture of it is saved."""
from __future__ import annotations

import os
import subprocess
import tempfile
import unittest
from pathlib import Path

from rvf_companion.configuration import Configuration
from rvf_companion.reports import Setting, write_reports
from rvf_companion.run_lines import Run

from .needs import needs
from .stand_in import DUMP

LINES = ["note altops", "skip hang", "pass insn_lui_ch0", "fail insn_addi_ch0", "spent reg_ch0 100",
         "total pass 1 fail 1 spent 1 skip 1"]


class Browser(unittest.TestCase):
    """Chromium without a screen."""

    @needs("chromium", "time")
    def test_rows(self) -> None:
        """Each check has a row, the failing one a drawn picture, and the page can be seen."""
        with tempfile.TemporaryDirectory() as name:
            folder = Path(name)
            picture = Path(os.environ.get("COMPANION_PICTURE", folder / "page.png")).resolve()
            self.addCleanup(os.chdir, os.getcwd())
            os.chdir(folder)
            out = Path("out")
            out.mkdir()
            (out / "insn_addi_ch0.vcd").write_text(DUMP)
            (out / "insn_lui_ch0.cnf").write_text("p cnf 1 2\n1 0\n-1 0\n")
            (out / "insn_lui_ch0.lrat").write_text("3 0 1 2 0\n")
            run = Run(code=1)
            for at, line in enumerate(LINES):
                run.take(line, at / 10)
            write_reports(Setting(out, Configuration({"depth": [(1, "insn 1")]}), "checks.cfg"), run)
            words = ["chromium", "--headless", "--no-sandbox", "--disable-gpu", f"--user-data-dir={folder}/kept"]
            page = f"file://{folder}/out/index.html"
            dumped = subprocess.run([*words, "--dump-dom", page], capture_output=True, text=True, check=True,
                                    timeout=100).stdout
            for check in ("insn_lui_ch0", "insn_addi_ch0", "reg_ch0"):
                self.assertIn(f'data-name="{check}"', dumped)
            self.assertIn("<svg", dumped)
            self.assertIn("addi x1, x0, 5", dumped)
            subprocess.run([*words, "--window-size=1000,760", f"--screenshot={picture}", page], capture_output=True,
                           check=True, timeout=100)
            self.assertEqual(picture.read_bytes()[:8], b"\x89PNG\r\n\x1a\n")
            self.assertGreater(picture.stat().st_size, 10_000)
