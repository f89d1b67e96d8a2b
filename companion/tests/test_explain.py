"""Explanations: all numbers of the manual, places with carets, and the constructs that a place shows."""
from __future__ import annotations

import tempfile
import unittest
from pathlib import Path

from rvf_companion.constructs import construct_at
from rvf_companion.explanation import TABLE, explain

from .manual import manual


class Table(unittest.TestCase):
    """The table of refusals is the manual's."""

    def test_is_the_manuals(self) -> None:
        """Each number has the manual's words, and no other number is there."""
        self.assertEqual(TABLE, manual())

    def test_has_each_part(self) -> None:
        """All numbers of all parts are there."""
        counts = {"lex": 6, "prep": 7, "parse": 3, "elab": 15, "flow": 6, "port": 3, "config": 10}
        for part, count in counts.items():
            self.assertEqual([key for key in TABLE if key.startswith(part + " ")],
                             [f"{part} {number}" for number in range(1, count + 1)])


class Explained(unittest.TestCase):
    """Lines in words."""

    def explained(self, text: str, line: str) -> list[str]:
        """The explanation of a line in which FILE stands for a file of this text."""
        with tempfile.TemporaryDirectory() as folder:
            path = Path(folder) / "core.v"
            path.write_text(text)
            return [said.replace(str(path), "core.v") for said in explain(line.replace("FILE", str(path)), str(path))]

    def test_caret(self) -> None:
        """The text's line stands with a caret under the place."""
        said = self.explained("module m (\n  inout x);\n", "source parse 3 FILE:2:3 inout")
        self.assertEqual(said[0], "core.v:2:3: a word or sign of Verilog that this subset leaves out: inout")
        self.assertEqual(said[1:3], ["    2 |   inout x);", "      |   ^"])
        self.assertTrue(said[3].startswith("what to do: "))

    def test_second_place(self) -> None:
        """A place in the detail is shown too."""
        said = self.explained("assign a = b;\nassign b = a;\n", "source flow 1 - FILE:1:1,FILE:2:1")
        self.assertIn("    2 | assign b = a;", said)

    def test_configuration(self) -> None:
        """A line of the configuration is shown."""
        said = self.explained("[depth]\ninsn 101\n", "config 7 2 -")
        self.assertEqual(said[:2], ["core.v:2: a cycle above 100", "    2 | insn 101"])

    def test_without_place(self) -> None:
        """Lines without a place have their advice."""
        for line in ("source port 1 - rvfi_halt", "absent core.v", "read fault core.v", "heavy ill_ch0 20000001",
                     "usage: rvf run CFG OUTDIR", "refused step 6 0 0"):
            self.assertTrue(explain(line)[-1].startswith("what to do: "), line)

    def test_codes(self) -> None:
        """A code that comes without a line has its advice."""
        self.assertIn("is there the folder OUTDIR", explain("code 8")[-1])
        self.assertIn("fewer `--jobs`", explain("code 11")[-1])

    def test_construct(self) -> None:
        """Where the parser refuses, the construct that the text has there, what to write instead, and the advice."""
        said = self.explained("module m (\n  a, b);\n", "source parse 1 FILE:2:3 -")
        self.assertEqual(said[:3], ["core.v:2:3: a token out of place", "    2 |   a, b);", "      |   ^"])
        self.assertTrue(said[3].startswith("this looks like an old list of ports, names alone: write"))
        self.assertEqual(said[4], "what to do: " + TABLE["parse 1"]["advice"])

    def test_other_lines(self) -> None:
        """A line that is no refusal is given back."""
        for line in ("pass ill_ch0", "hello", "source nowhere 3 - -", "source parse 9 - -"):
            self.assertEqual(explain(line), [line])

    def test_missing_file(self) -> None:
        """A place in a file that isn't there has no line of text."""
        self.assertEqual(len(explain("source parse 1 /nowhere/core.v:2:3 -")), 2)


class Constructs(unittest.TestCase):
    """What a text has where the parser refuses a token: `|` stands before the token."""

    CASES = [
        ("always @* begin\n  |for (i = 0; i < 3; i = i + 1) a = b;\nend", "a `for` loop in a block"),
        ("module m (input a);\n  localparam |integer N = 3;", "a parameter with a type"),
        ("module m (input a);\n  parameter word_t |N = 3;", "a parameter with a type"),
        ("module m (|a, b);\n  input a;", "an old list of ports, names alone"),
        ("module m #(parameter N = 1) (|a, b);", "an old list of ports, names alone"),
        ("|(* keep *) module m (input a);", "an attribute before a module"),
        ("module m (input a);\n  other one (|a, b);", "ports of an instance by their order"),
        ("module m (input a);\n  other #(|8) one (.a(a));", "parameters of an instance by their order"),
        ("assign a = top|.core.b;", "a hierarchical name"),
        ("always @* begin a |#1 = b; end", None),
        ("always @* begin |reg x; x = 1; end", "a declaration in a block"),
        ("assign a = clog|(8);", None),
        ("module m (a);\n  |input a;", "a direction in the body of a module"),
        ("wire [3:0] a;\n  |case (N) 1: assign a = b; endcase", "a `case` of generate"),
        ("always @(a|, b) c = a;", "a list of events by names"),
        ("always @(posedge clock |or posedge reset) c = a;", "a list of events"),
        ("always @* |for (i = 0; i < 3; i = i + 1) a = b;", "a `for` loop in a block"),
        ("wire a\n|assign a = b;", "a new item or statement where the one before it hasn't ended"),
    ]

    def test_each(self) -> None:
        """Each construct is seen at its place."""
        for marked, name in self.CASES:
            before, _, _ = marked.partition("|")
            line, column = before.count("\n") + 1, len(before) - (before.rfind("\n") + 1) + 1
            found = construct_at(marked.replace("|", "", 1), line, column)
            with self.subTest(marked):
                if name:
                    self.assertIsNotNone(found)
                    self.assertEqual(found.name, name)
