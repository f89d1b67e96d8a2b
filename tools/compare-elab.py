#!/usr/bin/env python3
"""Compares the full names and numbers of bits of elaborated designs with Yosys and Icarus Verilog. Not part of the
gate.

    tools/compare-elab.py [FILE.v ..]

It takes the designs below and those of FILE, a module `top` with its modules in each. Yosys unfolds them by
`hierarchy`, `proc` and `flatten`, with memories and the numbers of their words; Icarus Verilog by the scopes of a dump
of all names, without memories. Names that not all have are printed. Wants the Debian packages yosys and iverilog.
"""
import json
import os
import subprocess
import sys
import tempfile

import designs

DESIGNS = {
    "labels of loops in one another": """
module top(input [7:0] a, output [7:0] y);
  genvar i, j;
  generate for (i = 0; i < 2; i = i + 1) begin : row
    wire [3:0] part; assign part = a[4 * i +: 4];
    for (j = 0; j < 2; j = j + 1) begin : column
      wire [1:0] pair; assign pair = part[2 * j +: 2]; assign y[4 * i + 2 * j +: 2] = ~pair;
    end
  end endgenerate
endmodule""",
    "names of blocks without labels, two of them declared": """
module top(output [3:0] y);
  wire genblk1; wire [1:0] genblk01; wire genblk3; genvar i;
  assign genblk1 = 1, genblk01 = 2, genblk3 = 0;
  generate if (1) begin wire w; assign w = genblk1; assign y[0] = w; end
  for (i = 0; i < 2; i = i + 1) begin wire [i:0] v; assign v = 0; end endgenerate
  generate if (0) begin wire u; end else begin wire [2:0] t; assign t = 5; assign y[3:1] = t; end endgenerate
endmodule""",
    "ifs that stand directly in ifs": """
module top(output [3:0] y);
  parameter A = 2, B = 1;
  generate if (A == 0) begin wire a; end else if (A == 1) begin wire [1:0] b; end
  else if (A == 2) begin wire [2:0] c; assign c = 1; assign y[0] = c[0]; end else begin wire [3:0] d; end
  if (B) if (A == 1) begin : named wire e; end else begin : other wire [4:0] f; assign f = 3; assign y[1] = f[1]; end
  if (B) begin if (A == 2) begin wire [5:0] g; assign g = 4; assign y[3:2] = g[3:2]; end end endgenerate
endmodule""",
    "parameters by other parameters, overridden in the scope around": """
module top(output [15:0] y);
  localparam W = 3;
  wire [W * 2 - 1:0] a; assign a = 9;
  sub #(.W(W + 1)) first(.x(a[W:0]), .o(y[7:0])); sub #(.M(5)) second(.x(a[1:0]), .o(y[15:8]));
endmodule
module sub #(parameter W = 2, M = 2 * W)(input [W - 1:0] x, output [7:0] o);
  localparam L = M + W; wire [L:0] t; assign t = x; assign o = t;
endmodule""",
    "an instance in a turn, in an instance in a turn": """
module top(input [3:0] a, output [5:0] y);
  genvar i;
  generate for (i = 1; i < 3; i = i + 1) begin : g
    wire [i:0] o; sub #(.P(i)) s(.x(a), .o(o)); assign y[3 * i - 3 +: 3] = o;
  end endgenerate
endmodule
module sub #(parameter P = 1)(input [3:0] x, output [P:0] o);
  genvar k; wire [P - 1:0] got; assign o = got;
  generate for (k = 0; k < P; k = k + 1) begin : h
    leaf #(.W(k + 1)) l(.x(x[k:0]), .o(got[k]));
  end endgenerate
endmodule
module leaf #(parameter W = 1)(input [W - 1:0] x, output o);
  wire [W - 1:0] not_x; assign not_x = ~x; assign o = ^not_x;
endmodule""",
    "a parameter that a block hides": """
module top(output [7:0] y);
  parameter P = 4; wire [P:0] out; assign out = P;
  generate if (P > 2) begin : g
    localparam R = 2; wire [R:0] P; wire [R + 1:0] q; assign P = 1; assign q = P; assign y = {P, out};
  end endgenerate
endmodule""",
    "free names in instances": """
module top(output [9:0] y);
  genvar i;
  generate for (i = 0; i < 2; i = i + 1) begin : g
    free #(.W(i + 3)) f(.o(y[5 * i +: 5]));
  end endgenerate
endmodule
module free #(parameter W = 1)(output [4:0] o);
  (* anyconst *) wire [W - 1:0] once; (* anyseq *) wire [W:0] each; assign o = once + each;
endmodule""",
    "registers and memories by parameters, ranges of either direction": """
module top(input clock, input [2:0] a, output [9:0] y);
  store #(.W(6), .N(3)) s(.clock(clock), .a(a[1:0]), .o(y[5:0])); store t(.clock(clock), .a(a[2:1]), .o(y[9:6]));
endmodule
module store #(parameter W = 4, N = 2)(input clock, input [0:1] a, output [W - 1:0] o);
  reg [W - 1:0] m [0:N]; reg [1:W] up; reg [W + 3:4] down; integer n; reg signed [-1:2] low;
  assign o = m[a] ^ up ^ down;
  always @(posedge clock) begin m[a] <= up + 1; up <= up + 3; down <= ~up; n <= n + low; low <= n; end
endmodule""",
    "loops that count down, and from numbers below 0": """
module top(output [7:0] y);
  genvar i;
  generate for (i = 3; i >= 0; i = i - 1) begin : down wire [i:0] w; assign w = i; assign y[i] = w[0]; end
  for (i = -2; i < 2; i = i + 1) begin : low wire [i + 2:0] v; assign v = i; assign y[i + 6] = v[0]; end endgenerate
endmodule""",
    "constructs of all kinds in one another, with labels and without": """
module top(output [7:0] y);
  genvar i, j;
  generate if (1) begin : a
    for (i = 0; i < 2; i = i + 1) begin
      if (i == 1) begin wire [1:0] u; assign u = 1; assign y[0] = u[0]; end
      else begin : b wire v; assign v = 1; assign y[1] = v; end
      for (j = 0; j < 2; j = j + 1) begin : c
        if (j == i) begin wire [2:0] t; assign t = 6; assign y[2 + i] = t[j]; end
      end
      if (i == 0) wire [3:0] alone = 9;
    end
    wire [4:0] last; assign last = 0; assign y[7:4] = last;
  end endgenerate
endmodule""",
    "instances within one another, all of one name": """
module top(input clock, input [1:0] u, output [2:0] y); mid u1(.clock(clock), .u(u), .y(y)); endmodule
module mid(input clock, input [1:0] u, output [2:0] y);
  low #(.D(1)) u1(.clock(clock), .u(u), .y(y[1:0])); low u2(.clock(clock), .u({u}), .y(y[2]));
endmodule
module low #(parameter D = 0)(input clock, input [1:0] u, output [D:0] y);
  reg [D:0] u1; assign y = u1; always @(posedge clock) u1 <= u + D;
endmodule""",
    "names that are like those of parts": """
module top(output [3:0] y);
  wire g_0, s_w, _x; wire [1:0] a$b; genvar i;
  assign g_0 = 1, s_w = 0, _x = 1, a$b = 2;
  generate for (i = 0; i < 1; i = i + 1) begin : g wire [2:0] _0; assign _0 = 1; end endgenerate
  sub s(.w(y)); sub s_(.w());
endmodule
module sub(output [3:0] w); wire [3:0] w_; assign w_ = 3; assign w = w_; endmodule""",
}


def ours(design):
    """Returns for each name its bits and, of a memory, the number of its words."""
    words = {name.text: name.words and abs(name.words[0] - name.words[1]) + 1 for name in design.names}
    return {name.text: (name.width, words[name.text]) for name in design.names}


def by_yosys(folder, text):
    source, net = os.path.join(folder, "d.v"), os.path.join(folder, "d.json")
    with open(source, "w") as file:
        file.write(text)
    steps = f"read_verilog -formal {source}; hierarchy -top top; proc; flatten; write_json {net}"
    ran = subprocess.run(["yosys", "-q", "-p", steps], capture_output=True, text=True)
    if ran.returncode:
        return None, ran.stdout + ran.stderr
    with open(net) as file:
        module = json.load(file)["modules"]["top"]
    found = {name: (len(bits["bits"]), None) for name, bits in module["netnames"].items() if not bits["hide_name"]}
    memories = module.get("memories", {})
    found.update({name: (it["width"], it["size"]) for name, it in memories.items() if not it["hide_name"]})
    return found, ""


def by_icarus(folder, text):
    source, program, dump = (os.path.join(folder, name) for name in ("d.v", "d", "d.vcd"))
    with open(source, "w") as file:
        file.write(f'{text}\nmodule bench; top top();\n'
                   f'initial begin $dumpfile("{dump}"); $dumpvars; #1 $finish; end endmodule\n')
    built = subprocess.run(["iverilog", "-g2012", "-s", "bench", "-o", program, source], capture_output=True, text=True)
    if built.returncode:
        return None, built.stdout + built.stderr
    subprocess.run(["vvp", "-n", program], capture_output=True, check=True)
    found, scopes = {}, []
    with open(dump) as file:
        for line in file:
            words = line.split()
            if words[:1] == ["$scope"]:
                scopes.append(words[2])
            elif words[:1] == ["$upscope"]:
                scopes.pop()
            elif words[:1] == ["$var"] and words[1] != "parameter":
                found[".".join(scopes[2:] + [words[4].lstrip("\\")])] = (int(words[2]), None)
            elif words[:1] == ["$enddefinitions"]:
                break
    return found, ""


def main():
    texts = {title: designs.line_of(text) for title, text in DESIGNS.items()}
    texts.update({name: designs.text_of(name) for name in sys.argv[1:]})
    counts = {(yosys, icarus): 0 for yosys in (True, False) for icarus in (True, False, None)}
    with tempfile.TemporaryDirectory() as folder:
        found = designs.designs([(text, 0) for text in texts.values()])
        for (title, text), design in zip(texts.items(), found, strict=True):
            if not design.names:
                raise SystemExit(f"{title}: refused by {design.refused}")
            yosys, why = by_yosys(folder, text)
            icarus, other = by_icarus(folder, text)
            if yosys is None or icarus is None:
                raise SystemExit(f"{title}: not taken: {why}{other}")
            own = ours(design)
            lines = []
            for name, bits in own.items():
                which = yosys.get(name) == bits, None if bits[1] else icarus.get(name) == bits
                counts[which] += 1
                if not all(it is not False for it in which):
                    lines.append(f"{name} {bits}: {yosys.get(name, 'not')} by Yosys, "
                                 f"{icarus.get(name, 'not')} by Icarus Verilog")
            lines += [f"{name}: by Yosys alone" for name in yosys if name not in own]
            lines += [f"{name}: by Icarus Verilog alone" for name in icarus if name not in own and name not in yosys]
            print("\n    ".join([f"{title}: {len(own)} names"] + lines))
    print(f"{len(texts)} designs, {sum(counts.values())} names with their bits: {counts[True, True]} as in both, "
          f"{counts[True, None]} memories as Yosys has them, {counts[True, False]} as Yosys alone, "
          f"{counts[False, True]} as Icarus Verilog alone, {counts[False, False] + counts[False, None]} as none")


if __name__ == "__main__":
    main()
