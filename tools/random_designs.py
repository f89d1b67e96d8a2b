"""Random designs for the scripts that compare: a module `top` over inputs, free names, nets, registers, a memory, a
combinational and a clocked block and an instance, in which no index is out of range, so that no bit is unknown."""
import random

BINARY = ["+", "-", "*", "&", "|", "^", "~^", "==", "!=", "<", "<=", ">", ">=", "&&", "||"]
UNARY = ["~", "-", "+", "!", "&", "~&", "|", "~|", "^", "~^"]


class Maker:
    """Makes one design. `names` are those that may be read, with their widths."""

    def __init__(self, seed):
        self.rng = random.Random(seed)
        self.names = {}
        self.lines = []

    def pick(self, *choices):
        return self.rng.choice(choices)

    def width(self):
        return self.pick(1, 2, 3, 4, 5, 7, 8, 8, 9, 12)

    def shape(self, width):
        """A sign, and a range that goes up or down from some bound."""
        low = self.pick(0, 0, 0, 1, 3)
        bounds = (low + width - 1, low) if self.rng.random() < 0.8 else (low, low + width - 1)
        return self.pick("", "signed ") + f"[{bounds[0]}:{bounds[1]}]"

    def constant(self, sign=None):
        width = self.width()
        sign = self.pick("", "s") if sign is None else sign
        return f"{width}'{sign}{self.pick('h', 'd')}{self.pick(0, 1, 2, 3, 5, 7, 9) % 2**width}"

    def leaf(self):
        if self.rng.random() < 0.3:
            return self.constant()
        return self.rng.choice(list(self.names))

    def index(self):
        """An index of a vector or memory of eight: three bits, and no sum, which Icarus Verilog doesn't cut to three."""
        return self.pick("at", "at", f"3'd{self.rng.randrange(8)}", "at ^ 3'd5", "~at")

    def expression(self, depth):
        if depth == 0:
            return self.leaf()
        inner = lambda: self.expression(depth - 1)
        kind = self.rng.randrange(12)
        if kind < 5:
            return f"({inner()} {self.rng.choice(BINARY)} {inner()})"
        if kind == 5:
            return f"({self.rng.choice(UNARY)} {self.leaf()})"
        if kind == 6:
            return f"({inner()} {self.pick('<<', '>>', '<<<', '>>>')} {self.pick('at', self.constant(), self.leaf())})"
        if kind == 7:
            return f"({inner()} ? {inner()} : {inner()})"
        if kind == 8:
            return self.pick("{" + f"{self.leaf()}, {self.leaf()}" + "}", "{2{" + self.leaf() + "}}")
        if kind == 9:
            return f"{self.pick('$signed', '$unsigned')}({inner()})"
        if kind == 10:
            return self.pick(f"eight[{self.index()}]", f"m[{self.index()}]", "eight[2 +: 4]", "eight[6:3]")
        return self.leaf()

    def target(self, name, kind):
        if name == "m":
            return f"m[{self.index()}]" + self.pick("", "", "[2]", "[3:1]")
        if name in ("v8", "q8"):
            return name + self.pick("", f"[{self.index()}]", "[5:2]", "[1 +: 3]", "[7]")
        return name

    def statement(self, names, kind, depth):
        choice = self.rng.randrange(6) if depth else 0
        inner = lambda: self.statement(names, kind, depth - 1)
        if choice == 4:
            return f"if ({self.expression(1)}) {inner()} else {inner()}"
        if choice == 5:
            # All without a sign: Icarus Verilog extends the expression by its own one, and not as all of them are.
            labels = [self.constant("") for _ in range(3)]
            arms = f"{labels[0]}, {labels[1]}: {inner()} {labels[2]}: {inner()} default: {inner()}"
            return f"case ({{{self.leaf()}, {self.leaf()}}}) {arms} endcase"
        if choice == 3:
            return f"begin {inner()} {inner()} end"
        if choice == 2:
            return f"if ({self.expression(1)}) {inner()}"
        return f"{self.target(self.rng.choice(names), kind)} {kind} {self.expression(2)};"

    def declare(self, name, width, before):
        self.lines.append(f"{before} {self.shape(width)} {name};")
        self.names[name] = width

    def text(self):
        ports = ["input clock", "input reset", "input [2:0] at", "input [7:0] eight"]
        self.names.update({"reset": 1, "at": 3, "eight": 8})
        for name in ("a", "b"):
            width = self.width()
            ports.append(f"input {self.shape(width)} {name}")
            self.names[name] = width
        self.declare("each", self.width(), "(* anyseq *) wire")
        self.declare("once", self.width(), "(* anyconst *) reg")
        self.lines.append(f"reg {self.pick('', 'signed ')}[3:0] m [{self.pick('0:7', '7:0')}];")
        clocked = ["q0", "q1", "q8"]
        for name in clocked[:2]:
            self.declare(name, self.width(), "reg")
        self.lines.append("reg [7:0] q8;")
        self.names["q8"] = 8
        self.lines += [f"initial {name} = {self.constant()};" for name in clocked if self.rng.random() < 0.4]
        for index in range(3):
            value = self.expression(3)
            self.declare(f"w{index}", self.width(), "wire")
            self.lines.append(f"assign w{index} = {value};")
        self.instance()
        self.blocks(clocked)
        return f"module top({', '.join(ports)}); " + " ".join(self.lines) + " endmodule " + self.inner()

    def instance(self):
        """An instance, which is given names: Icarus Verilog doesn't size a connected expression by its port."""
        given = [self.leaf(), self.leaf()]
        self.declare("s0", self.width(), "wire")
        self.declare("s1", self.width(), "wire")
        joined = f".clock(clock), .x({given[0]}), .y({given[1]}), .z(s0), .k(s1)"
        self.lines.append(f"part #(.W({self.width()})) i({joined});")

    def blocks(self, clocked):
        """A combinational block, which sets its variables first, and a clocked one."""
        first = [f"v0 = {self.expression(1)};", f"v8 = {self.expression(1)};"]
        self.declare("v0", self.width(), "reg")
        self.lines.append("reg [7:0] v8;")
        self.names["v8"] = 8
        block = first + [self.statement(["v0", "v8"], "=", 2) for _ in range(3)]
        self.lines.append("always @* begin " + " ".join(block) + " end")
        names = clocked + ["m"]
        block = [self.statement(names, "<=", 2) for _ in range(3)]
        self.lines.append("always @(posedge clock) begin " + " ".join(block) + " end")

    def inner(self):
        shape = lambda: self.pick("", "signed ") + "[W - 1:0]"
        next_sum = self.pick("sum + x", "sum ^ y", "{x, sum[0]}", "sum - y * x")
        return (f"module part #(parameter W = 4)(input clock, input {shape()} x, input {self.shape(4)} y, "
                f"output {shape()} z, output {self.pick('', 'signed ')}[W:0] k); "
                f"reg {self.pick('', 'signed ')}[W:0] sum; assign z = x {self.pick('+', '-', '^', '&')} y; "
                f"assign k = sum {self.pick('>>>', '<<', '-')} {self.pick('1', 'y')}; "
                f"always @(posedge clock) sum <= {next_sum}; endmodule")


def texts(count, seed):
    return [Maker(f"{seed} {index}").text() for index in range(count)]
