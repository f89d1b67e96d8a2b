"""The command `from-yosys.py` over stored netlists: what it writes, and over what it doesn't."""
from __future__ import annotations

import contextlib
import io
import json
import tempfile
import unittest
from pathlib import Path

from rvf_companion.configuration import read_configuration
from rvf_companion.from_yosys import main as from_yosys

NETLISTS = Path(__file__).resolve().parent.parent / "data" / "netlists"


class Command(unittest.TestCase):
    """The command with a folder of its own."""

    def setUp(self) -> None:
        """Makes the folder."""
        kept = tempfile.TemporaryDirectory()
        self.addCleanup(kept.cleanup)
        self.folder = Path(kept.name)

    def convert(self, *words: str) -> tuple[int, str]:
        """The code, and what is said of what is wrong."""
        with contextlib.redirect_stdout(io.StringIO()), contextlib.redirect_stderr(io.StringIO()) as err:
            code = from_yosys(["--out", str(self.folder), *words])
        return code, err.getvalue()

    def test_twice(self) -> None:
        """What it made itself it makes anew."""
        words = ["--top", "states", "--netlist", str(NETLISTS / "states.json")]
        self.assertEqual(self.convert(*words), (0, ""))
        before = (self.folder / "states.v").read_text()
        self.assertIn("Made by companion/from-yosys.py, of which nothing is trusted by a verdict.", before)
        self.assertEqual(self.convert(*words), (0, ""))
        self.assertEqual((self.folder / "states.v").read_text(), before)
        table = json.loads((self.folder / "states.names.json").read_text())
        self.assertEqual((table["registers"], table["rvfi_order"]), ("registers", "rvfi_order"))

    def test_of_others(self) -> None:
        """A file that somebody else made isn't written over, and nothing else is written."""
        for name, text in (("states.v", "module states;\nendmodule\n"), ("states.names.json", "[1]\n")):
            path = self.folder / name
            path.write_text(text)
            code, said = self.convert("--top", "states", "--netlist", str(NETLISTS / "states.json"))
            self.assertEqual((code, [one.name for one in self.folder.iterdir()], path.read_text()), (1, [name], text))
            self.assertIn(f"{path} stands there, and wasn't made by from-yosys.py: give another folder by --out", said)
            path.unlink()
        configuration = self.folder / "states.cfg"
        configuration.write_text("[depth]\n")
        self.assertEqual(self.convert("--top", "states", "--netlist", str(NETLISTS / "states.json")), (0, ""))

    def test_broken_netlists(self) -> None:
        """What isn't as Yosys leaves a netlist is told, and nothing is written."""
        whole = json.loads((NETLISTS / "falling.json").read_text())
        module = whole["modules"]["falling"]
        cell = next(iter(module["cells"].values()))
        broken = [{"modules": {"falling": {}}}, {"modules": {"falling": {**module, "cells": 3}}}, [], {"modules": []},
                  {"modules": {"falling": {**module, "ports": {"a": {}}}}}]
        for part in ("type", "parameters", "connections"):
            changed = {name: value for name, value in cell.items() if name != part}
            broken.append({"modules": {"falling": {**module, "cells": {"one": changed}}}})
        broken.append({"modules": {"falling": {**module, "cells": {"one": {**cell, "connections": {"CLK": 3}}}}}})
        for netlist in broken:
            path = self.folder.parent / f"{self.folder.name}.json"
            self.addCleanup(path.unlink, missing_ok=True)
            path.write_text(json.dumps(netlist))
            code, said = self.convert("--top", "falling", "--netlist", str(path))
            with self.subTest(str(netlist)[:200]):
                self.assertEqual((code, list(self.folder.iterdir())), (1, []))
                self.assertRegex(said, "is no netlist of write_json|isn't as write_json leaves a netlist")

    def test_kinds(self) -> None:
        """A kind is a word: the name of no other folder comes from a configuration."""
        path = self.folder / "checks.cfg"
        path.write_text("[defines reg]\n`define A\n[defines ../../x]\n`define B\n[defines]\n`define C\n")
        found = read_configuration(path)
        self.assertEqual((found.kinds_with_defines(), found.defines_of("reg")), (["reg"], ["`define C", "`define A"]))
