"""Texts that tools/fuzz.py runs the program on: clause files with proofs, and configurations with Verilog texts, and
changes of them: tokens are swapped, doubled, left out or put in the place of others, numbers become those at the
limits, lines change places, files are cut, brackets nest."""
import re

LONGEST = 400_000
EDGES = [b"0", b"-0", b"00", b"1", b"-1", b"2", b"3", b"99", b"100", b"101", b"128", b"129", b"256", b"65536",
         b"100000000", b"100000001", b"2147483647", b"2147483648", b"4294967295", b"4294967296",
         b"9223372036854775807", b"9223372036854775808", b"-9223372036854775808", b"18446744073709551615",
         b"18446744073709551616", b"999999999999999999", b"1000000000000000000", b"9" * 40]
WORDS_OF_PROOFS = [b"d", b"c", b"p", b"cnf", b"-", b"+1", b"x", b"1.0", b"\x00", b"\xff", b"\r", b"\n", b"\t", b" ",
                   b"\x0b", b"d1", b"0\r"]
WORDS_OF_TEXTS = re.findall(rb"\S+", b"""
module endmodule input output wire reg integer signed parameter localparam genvar generate endgenerate assign always
initial posedge negedge begin end if else case casez endcase default for assume function inout real logic typedef
$signed $unsigned $clog2 `define `undef `ifdef `ifndef `elsif `else `endif `include `timescale `RVFI_OUTPUTS
`RVFI_CONN `rvformal_rand_reg `rvformal_const_rand_reg `nope clock reset rvfi_valid rvfi_insn q g x
( ) [ ] { } (* *) ; : , . # @ = ? + - * / % ** ! ~ & | ^ ~& ~| ~^ ^~ && || < <= > >= == != === !== << >> <<< >>> +: -:
8'hff 128'h1 129'h0 0'h0 4'bx 4'b1z0? 'hx 8'd256 1'b 5'q " /* */ // \\ $ \xe9 [options] [depth] [assume] [defines]
[defines insn] [verilog-files] [script-sources] [sort] [csrs] isa rv32imc nret insn ill reg pc_fwd pc_bwd causal unique
liveness imem dmem hang cover""")
TOKEN = re.compile(rb"[A-Za-z_`$][A-Za-z0-9_$]*|[0-9']+[0-9a-zA-Z_?]*|\s+|.", re.S)
SYMBOL = re.compile(rb"\s+|\S+")

CONFIG = b"[options]\nisa rv32i\n[depth]\n%b\n[verilog-files]\n@basedir@/w.v\n"
HEAD = b"module rvfi_wrapper (input clock, input reset, `RVFI_OUTPUTS);\n"
FIELDS = ("valid order insn trap halt intr mode ixl rs1_addr rs2_addr rs1_rdata rs2_rdata rd_addr rd_wdata pc_rdata "
          "pc_wdata mem_addr mem_rmask mem_wmask mem_rdata mem_wdata").split()
ITEMS = [b"""  `rvformal_rand_reg [3:0] a;
  reg [3:0] q = 0, m [0:3];
  wire [4:0] s = a + q;
  always @(posedge clock) begin q <= s; if (a[0]) m[a[1:0]] <= q; end
  always @* assume (a != 7);
""", b"""  `define W 8
  `ifdef RISCV_FORMAL
  wire [`W-1:0] w = {`W{1'b1}} ^ 8'h5a;
  `else
  wire w;
  `endif
  reg [1:0] t;
  always @* begin t = 0; case (w[1:0]) 0: t = 1; 1, 2: t = w >> 2; default: begin if (w[3]) t = 3; end endcase end
""", b"""  genvar i;
  generate for (i = 0; i < 4; i = i + 1) begin : g wire [i:0] p; part #(.N(i + 1)) one (.clock(clock), .o(p)); end
  endgenerate
  localparam K = 3 * 2 - 1;
  generate if (K > 4) begin : yes wire z = 0; end else begin : no wire z = 1; end endgenerate
"""]
PART = b"""module part #(parameter N = 2) (input clock, output [N-1:0] o);
  reg [N-1:0] k;
  always @(posedge clock) k <= k + 1;
  assign o = k;
endmodule
"""
DEPTHS = [b"ill 1", b"ill 1\nreg 1 2\nliveness 1 1 2", b"pc_fwd 1 2\npc_bwd 1 2\ncausal 1 2\nunique 1 1 2",
          b"insn_ch0 1", b"hang 1\nill 2"]


# ---- texts to begin with

def signs(count):
    """All clauses of so many variables, and steps that resolve them two by two, some deleted."""
    clauses = [[variable if number >> variable - 1 & 1 else -variable for variable in range(1, count + 1)]
               for number in range(2 ** count)]
    lines, ids, top = [], list(range(1, 2 ** count + 1)), 2 ** count
    for left in range(count - 1, -1, -1):
        after = []
        for number in range(2 ** left):
            top += 1
            hints = (ids[number], ids[number + 2 ** left])
            lines.append(" ".join(map(str, [top, *clauses[number][:left], 0, *hints, 0])))
            lines += [f"{top} d {hints[0]} {hints[1]} 0"] if number % 2 and left else []
            after.append(top)
        ids = after
    return count, clauses, lines


def chain(count):
    """Each variable makes the next one true, the first is true and the last isn't: one step."""
    clauses = [[1]] + [[-at, at + 1] for at in range(1, count)] + [[-count]]
    return count, clauses, [" ".join(map(str, [count + 2, 0, *range(1, count + 2), 0]))]


def proofs():
    """Clause files with proofs that refute them."""
    for variables, clauses, lines in [signs(1), signs(2), signs(3), signs(4), chain(2), chain(12)]:
        text = f"p cnf {variables} {len(clauses)}\n" + "".join(" ".join(map(str, [*one, 0])) + "\n" for one in clauses)
        yield {"c.cnf": b"c 1 0 0 x\n" + text.encode(), "c.lrat": "".join(line + "\n" for line in lines).encode()}


def designs():
    """Configurations with texts."""
    fields = b"".join(b"  assign rvfi_%b = 0;\n" % name.encode() for name in FIELDS)
    for depth in DEPTHS:
        for items in ITEMS:
            yield {"checks.cfg": CONFIG % depth, "w.v": HEAD + items + fields + b"endmodule\n" + PART}


# ---- mutations

class Mutator:
    """Changes texts of one kind; what the texts to begin with are split into is kept."""

    def __init__(self, source, words, token, texts):
        self.source, self.words, self.token = source, words + EDGES, token
        self.kept = {text: self.split(text) for text in texts}

    def split(self, text):
        """The parts of a text, and the numbers of those that aren't blank."""
        parts = self.token.findall(text)
        return parts, [at for at, part in enumerate(parts) if not part.isspace()]

    def mutated(self, text):
        """The text with one to four changes, of which the front stays where it grows too long."""
        for _ in range(self.source.choice((1, 1, 1, 2, 2, 4))):
            text = self.changed(text)[:LONGEST]
        return text

    def changed(self, text):
        source, kind = self.source, self.source.randrange(12)
        if kind == 0:
            return text[:source.randrange(len(text) + 1)]
        if kind == 1:
            at = source.randrange(len(text) + 1)
            return text[:at] + bytes([source.randrange(256)]) + text[at + source.randrange(2):]
        if kind in (2, 3):
            return self.of_lines(text)
        parts, places = self.kept.get(text) or self.split(text)
        if not places:
            return text + source.choice(self.words)
        parts, at, other = list(parts), source.choice(places), source.choice(places)
        if kind == 4:
            parts[at], parts[other] = parts[other], parts[at]
        else:
            parts[at] = self.instead(kind, parts[at], parts[other])
        return b"".join(parts)

    def instead(self, kind, part, other):
        """What comes in the place of a part."""
        source = self.source
        if kind in (5, 6):
            return part + b" " + part if kind == 5 else b" "
        if kind == 7:
            return source.choice(EDGES)
        if kind == 8:
            return other
        if kind > 9:
            return source.choice(self.words)
        count = source.choice((2, 31, 32, 33, 255, 256, 257, 1000, 20000))
        opening, closing = source.choice(((b"(", b")"), (b"{", b"}"), (b"begin ", b" end"), (b"!", b""), (b"-", b"")))
        return opening * count + part + closing * count

    def of_lines(self, text):
        """Lines are swapped, doubled, repeated, left out or joined."""
        lines, source = text.split(b"\n"), self.source
        at, other, kind = source.randrange(len(lines)), source.randrange(len(lines)), source.randrange(5)
        if kind == 0:
            lines[at], lines[other] = lines[other], lines[at]
        elif kind == 1:
            lines.insert(other, lines[at])
        elif kind == 2:
            lines[at:at] = [lines[at]] * source.choice((2, 50, 2000))
        elif kind == 3:
            del lines[at]
        else:
            lines[at:at + 2] = [b" ".join(lines[at:at + 2])]
        return b"\n".join(lines)
