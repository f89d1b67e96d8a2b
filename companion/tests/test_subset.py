"""The page of docs/USER.md on the subset, by the program: what it says to write is read, and what it says to write it
for is refused."""
from __future__ import annotations

import subprocess
import tempfile
import unittest
from pathlib import Path

from rvf_companion.explanation import explain
from rvf_companion.rvfi import FIELDS

from .manual import USER, rows
from .needs import needs, program

# What a wrapper has beside a piece of text.
HEAD = "module rvfi_wrapper (input clock, input reset, `RVFI_OUTPUTS);\n`rvformal_rand_reg [7:0] a, b, c;\n"
TAIL = "\n".join(f"assign rvfi_{name} = {width}'d0;" for name, width in FIELDS.items()) + "\nendmodule\n"
PART = "module part (input [7:0] x, output [7:0] y);\nassign y = x;\nendmodule\n"

# For each row of the table 'instead of .. write ..' what is refused, what is read, and a word of what is said of the
# first; a text behind `|` stands before the module.
ROWS = [
    ("function [7:0] f(input [7:0] x); f = x + 1; endfunction\nwire [7:0] d = f(a);", "wire [7:0] d = a + 1;",
     "function"),
    ("reg [7:0] d;\ntask t; d = a; endtask\nalways @* t;", "reg [7:0] d;\nalways @* d = a;", "task"),
    ("reg [7:0] d;\ninteger i;\nalways @* for (i = 0; i < 8; i = i + 1) d[i] = a[7 - i];",
     "wire [7:0] d;\ngenvar i;\nfor (i = 0; i < 8; i = i + 1) begin : turn\nassign d[i] = a[7 - i];\nend",
     "`for` loop"),
    ("localparam integer N = 8;", "localparam N = 8;", "a parameter with a type"),
    ("reg [7:0] d;\nalways @(a or b) d = a & b;", "reg [7:0] d;\nalways @* d = a & b;", "a list of events"),
    ("reg [7:0] d;\nalways_ff @(posedge clock) d <= a;", "reg [7:0] d;\nalways @(posedge clock) d <= a;",
     "always_ff"),
    ("wire [7:0] d;\npart one (a, d);|", "wire [7:0] d;\npart one (.x(a), .y(d));|",
     "ports of an instance by their order"),
    ("|module m (x, y);\ninput x;\noutput y;\nassign y = x;\nendmodule\n",
     "|module m (input x, output y);\nassign y = x;\nendmodule\n", "an old list of ports"),
    ("|(* keep *) module m (input x);\nendmodule\n", "|module m (input x);\nendmodule\n",
     "an attribute before a module"),
    ("localparam N = \"text\";", "localparam N = 5;", ""),
    ("localparam N = $clog2(8);", "localparam N = 3;", ""),
    ("wire [7:0] d = 8'bx;", "`rvformal_rand_reg [7:0] any;\nwire [7:0] d = any;", ""),
    ("|`define ADD(x, y) x + y\n", "wire [7:0] d = a + b;", ""),
    ("wire [7:0] d, e = one.x;\npart one (.x(a), .y(d));|", "wire [7:0] d;\npart one (.x(a), .y(d));|",
     "hierarchical"),
    ("wire [3:0] d = a[c[2:0] -: 4];", "wire [3:0] d = a[c[2:0] - 3 +: 4];", ""),
    ("reg [7:0] d;\nalways @* begin : block\nreg [7:0] e;\ne = a;\nd = e;\nend",
     "reg [7:0] d;\nalways @* begin : block\nd = a;\nend", "a declaration in a block"),
    ("logic [7:0] d;\nassign d = a;", "wire [7:0] d;\nassign d = a;", "logic"),
    ("reg [7:0] d;\nalways @(posedge clock or posedge reset) if (reset) d <= 0; else d <= a;",
     "reg [7:0] d;\nalways @(posedge clock) if (reset) d <= 0; else d <= a;", "a list of events"),
    ("wire [7:0] d = a / b;", "wire [7:0] d = 8'd7 / 8'd2;", ""),
]

# Every line of the grammar.
GRAMMAR = """
module shapes #(parameter N = 8, M = N) (input clock, input signed [7:0] x, output [7:0] y,
                                         output reg z = 1'b0, w, output v);
  assign y = x, v = N == M;
  always @(posedge clock) z <= x[0];
  always @* w = z;
endmodule
""" + HEAD + """
  wire [7:0] d, e = a, f; wire signed [3:0] g = -4'sd3; reg [7:0] h = 8'd5, i; reg [7:0] words [0:3];
  integer j; genvar k;
  parameter signed P = -1; parameter [3:0] Q = 4'd9; localparam R = P * 2, S = R % 3;
  assign d = a, f = b;
  always @* begin : named i = a; if (b[0]) i = b; else case (c) 8'd1, 8'd2: i = 8'd3; default: ; endcase end
  always @(posedge clock) begin
    casez (a[3:0]) 4'b1??0: h <= 8'hff; 4'b0?1?: {h[7:4], h[3:0]} <= b; default: h[c[2:0] +: 1] <= 1'b1; endcase
    words[a[1:0]] <= b; words[b[1:0]][3:0] <= a[3:0]; j <= j + 1; assume (a != 8'd200);
  end
  initial begin h = 8'd1; words[2] = 8'd7; end
  wire [7:0] read = words[c[1:0]]; wire [3:0] part = words[c[1:0]][7:4];
  wire [7:0] shape;
  shapes #(.N(8)) one (.clock(clock), .x(a), .y(shape), .w());
  generate
    for (k = 0; k < 4; k = k + 1) begin : turn wire l = a[k] ^ b[7 - k]; end
    if (S == 0) begin : yes wire m = 1'b1; end else begin : no wire m = 1'b0; end
  endgenerate
  (* keep *) wire [31:0] n = {2{a, b}} + {a * b, 8'd4 / 8'd2} - (a << 2) ^ (b >> 1) | (a <<< 1) & (b >>> 1);
  wire o = a < b || a <= b && a > b == a >= b || a != b || a === b || a !== b || !a || &a ^ |b ~^ ^c;
  wire p = ~&a | ~|b | ~^c; wire [7:0] q = ~a, r = o ? a[7:0] : b[c[1:0]], s = $signed(g) >>> 1, t = $unsigned(g);
  always @* assume (o || !p);
""" + TAIL


def lines(text: str) -> list[str]:
    """The lines of a run with one check over a text, and its explanation."""
    with tempfile.TemporaryDirectory() as name:
        folder = Path(name)
        (folder / "text.v").write_text(text)
        (folder / "checks.cfg").write_text(f"[depth]\nill 1\n[verilog-files]\n{folder}/text.v\n")
        done = subprocess.run([program(), "run", str(folder / "checks.cfg"), str(folder)], capture_output=True,
                              text=True, check=False)
        said = done.stdout.splitlines()
        return said + (explain(said[0]) if said and said[0].startswith("source") else [])


def whole(piece: str) -> str:
    """A text around a piece, which may have one that stands before the module."""
    within, mark, before = piece.partition("|")
    return (before or (PART if mark else "")) + HEAD + within + "\n" + TAIL


class Page(unittest.TestCase):
    """The tables of the page."""

    def test_each_row(self) -> None:
        """The page has as many rows as are tried here."""
        self.assertEqual(len(rows(USER.read_text(), "| instead of | write |")), len(ROWS))

    @needs("rvf")
    def test_instead(self) -> None:
        """What stands in the first column is refused, with a word of what it is; what stands in the second is read."""
        for bad, good, word in ROWS:
            with self.subTest(bad):
                said = lines(whole(bad))
                self.assertTrue(said[0].startswith("source "), said)
                self.assertIn(word, "\n".join(said))
                self.assertEqual(lines(whole(good))[0], "pass ill_ch0")

    @needs("rvf")
    def test_grammar(self) -> None:
        """What the grammar has is read."""
        self.assertEqual(lines(GRAMMAR)[0], "pass ill_ch0")

    @needs("rvf")
    def test_unsized(self) -> None:
        """A number without a size has 32 bits in a concatenation, and one with a size its own: `ill` fails where a
        difference can be."""
        text = "wire [47:0] d = {1, a};\nwire [47:0] e = {1'b1, a};\n"
        for difference, verdict in [("d != {32'd1, a}", "pass"), ("e != 256 + a", "pass"), ("d == {32'd1, b}", "fail"),
                                    ("{c, d[47:8]} != {c, 40'd1}", "pass"), ("{c, e[7:0]} != {c, b}", "fail")]:
            tail = TAIL.replace("rvfi_valid = 1'd0", f"rvfi_valid = {difference}")
            self.assertEqual(lines(HEAD + text + tail)[0], f"{verdict} ill_ch0", difference)
