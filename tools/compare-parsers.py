#!/usr/bin/env python3
"""Compares which texts `rvf run` parses with what Yosys and Icarus Verilog parse. Not part of the gate.

Usage: tools/compare-parsers.py [COUNT [SEED]]   Makes COUNT (300) random modules of the subset, and of each three more by one
token that is dropped, doubled, exchanged with the next one or put in place of another. Every whole module has to be parsed by
all three, and what `rvf` parses by one of the other two at least, but for parameters with a shape of their own behind another
one, which the subset has. Prints each text of which that doesn't hold, and what was counted. Wants `yosys` and `iverilog`.
"""
import os
import random
import subprocess
import sys
import tempfile

PROGRAM = os.path.join(os.path.dirname(os.path.abspath(__file__)), "..", "rvf")
CONFIG = "[options]\nisa rv32i\n[depth]\nill 1\n[verilog-files]\nm.v\n"

LEVELS = ["*", "/", "%", "+", "-", "<<", ">>", "<<<", ">>>", "<", "<=", ">", ">=", "==", "!=", "===", "!==", "&", "^", "~^", "^~",
          "|", "&&", "||"]
UNARY = ["+", "-", "!", "~", "&", "~&", "|", "~|", "^", "~^", "^~"]
NUMBERS = ["0", "1", "7", "31", "'hff", "4'b1010", "4'sb0110", "8 'd 255", "16'hF_F"]
WILD = ["4'b1???", "4'b01zz", "2'b?1"]
NAMES = ["a", "b", "c", "clock", "n"]


class Texts:
    """Makes texts by the grammar, as lists of tokens."""

    def __init__(self, seed):
        self.random = random.Random(seed)

    def chance(self, part):
        return self.random.random() < part

    def name(self):
        return [self.random.choice(NAMES)]

    def some(self, make, between=None, most=3):
        """Returns one to `most` of them."""
        tokens = make()
        for _ in range(self.random.randrange(most)):
            tokens += ([between] if between else []) + make()
        return tokens

    def any(self, make, most=3):
        return sum((make() for _ in range(self.random.randrange(most + 1))), [])

    def expr(self, depth=3):
        kind = self.random.randrange(9) if depth > 0 else self.random.randrange(2)
        below = lambda: self.expr(depth - 1)
        if kind == 0:
            return [self.random.choice(NUMBERS)]
        if kind == 1:
            return self.name() + (self.select(depth) if depth > 0 and self.chance(0.4) else [])
        if kind in (2, 3):
            return self.operand(depth) + [self.random.choice(LEVELS)] + self.operand(depth)
        if kind == 4:
            return [self.random.choice(UNARY)] + self.operand(depth)
        if kind == 5:
            return self.operand(depth) + ["?"] + below() + [":"] + below()
        if kind == 6:
            return ["{"] + self.some(below, ",") + ["}"]
        if kind == 7:
            return ["{"] + self.operand(0) + ["{"] + self.some(below, ",") + ["}", "}"]
        return [self.random.choice(["$signed", "$unsigned"]), "("] + below() + [")"]

    def operand(self, depth):
        """An expression in brackets, or a name or a number."""
        return self.expr(0) if self.chance(0.5) else ["("] + self.expr(depth - 1) + [")"]

    def select(self, depth):
        first = self.expr(depth - 1)
        return self.random.choice([["["] + first + ["]"], ["["] + first + [":", "0", "]"], ["["] + first + ["+:", "4", "]"]])

    def range(self):
        return ["["] + self.expr(1) + [":"] + self.expr(1) + ["]"]

    def maybe(self, part, make):
        return make() if self.chance(part) else []

    def attributes(self):
        one = lambda: self.name() + self.maybe(0.5, lambda: ["="] + self.expr(1))
        return self.maybe(0.15, lambda: ["(*"] + self.some(one, ",") + ["*)"])

    def target(self, depth=2):
        if depth > 0 and self.chance(0.25):
            return ["{"] + self.some(lambda: self.target(depth - 1), ",") + ["}"]
        return self.name() + self.maybe(0.4, lambda: self.select(1))

    def statement(self, depth=3):
        kind = self.random.randrange(7) if depth > 0 else self.random.randrange(3)
        below = lambda: self.statement(depth - 1)
        if kind in (0, 1):
            tokens = self.target() + [self.random.choice(["=", "<="])] + self.expr() + [";"]
        elif kind == 2:
            tokens = [";"]
        elif kind == 3:
            tokens = ["begin"] + self.maybe(0.3, lambda: [":", "l" + str(self.random.randrange(10**6))]) + self.any(below) + ["end"]
        elif kind == 4:
            tokens = ["if", "("] + self.expr(2) + [")"] + below() + self.maybe(0.5, lambda: ["else"] + below())
        else:
            word = self.random.choice(["case", "casez"])
            tokens = [word, "("] + self.expr(2) + [")"] + self.some(lambda: self.arm(word, depth))
            tokens += self.maybe(0.5, lambda: ["default"] + self.maybe(0.5, lambda: [":"]) + below()) + ["endcase"]
        return self.attributes() + tokens

    def arm(self, word, depth):
        label = lambda: [self.random.choice(WILD)] if word == "casez" and self.chance(0.4) else self.expr(1)
        return self.some(label, ",") + [":"] + self.statement(depth - 1)

    def start(self, depth=2):
        if depth > 0 and self.chance(0.4):
            return ["begin"] + self.any(lambda: self.start(depth - 1)) + ["end"]
        return self.target() + ["="] + self.expr() + [";"]

    def shape(self):
        return self.maybe(0.3, lambda: ["signed"]) + self.maybe(0.5, self.range)

    def declared(self):
        return self.name() + self.maybe(0.3, self.range)

    def parameters(self):
        """One shape for all: a shape of its own in the midst, which the subset has too, isn't Verilog."""
        return self.shape() + self.some(lambda: self.name() + ["="] + self.expr(2), ",")

    def connection(self):
        return ["."] + self.name() + ["("] + self.maybe(0.8, lambda: self.expr(2)) + [")"]

    def block(self, depth):
        if self.chance(0.7):
            label = self.maybe(0.5, lambda: [":", "g" + str(self.random.randrange(10**6))])
            return ["begin"] + label + self.items(depth - 1) + ["end"]
        return self.item(depth - 1)

    def items(self, depth=2, most=3):
        """Attributes stand before declarations alone, since Yosys and Icarus don't know them everywhere."""

        def one():
            item = self.item(depth)
            return (self.attributes() if item[0] in ("wire", "reg") else []) + item

        return self.any(one, most)

    def item(self, depth=2):
        kind = self.random.randrange(11 if depth > 0 else 9)
        if kind == 0:
            return [self.random.choice(["wire", "reg"])] + self.shape() + self.some(self.declared, ",") + [";"]
        if kind == 1:
            return self.random.choice([["integer"] + self.some(self.name, ",") + [";"], ["genvar"] + self.some(self.name, ",") + [";"]])
        if kind == 2:
            return [self.random.choice(["parameter", "localparam"])] + self.parameters() + [";"]
        if kind in (3, 4):
            return ["assign"] + self.some(lambda: self.target() + ["="] + self.expr(), ",") + [";"]
        if kind in (5, 6):
            event = self.random.choice([["*"], ["(*", ")"], ["(", "*", ")"], ["(", "posedge", "clock", ")"]])
            return ["always", "@"] + event + self.statement()
        if kind == 7:
            return ["initial"] + self.start()
        if kind == 8:
            values = self.maybe(0.5, lambda: ["#", "("] + self.some(self.connection, ",") + [")"])
            return ["n"] + values + ["i" + str(self.random.randrange(10**6)), "("] + self.some(self.connection, ",") + [")", ";"]
        if kind == 9:
            head = ["for", "(", "n", "="] + self.expr(1) + [";"] + self.expr(1) + [";", "n", "="] + self.expr(1) + [")"]
            label = [":", "g" + str(self.random.randrange(10**6))]
            return head + ["begin"] + label + self.items(depth - 1) + ["end"]
        return ["if", "("] + self.expr(1) + [")"] + self.block(depth) + self.maybe(0.5, lambda: ["else"] + self.block(depth))

    def port(self):
        return self.random.choice([["input"], ["output"], ["output", "reg"], ["input", "wire"]]) + self.shape() + self.name()

    def module(self):
        values = self.maybe(0.4, lambda: ["#", "("] + self.some(lambda: ["parameter"] + self.parameters(), ",") + [")"])
        ports = self.maybe(0.8, lambda: ["("] + self.some(self.port, ",") + [")"])
        return ["module", "m"] + values + ports + [";"] + self.items(2, 4) + ["endmodule"]

    def changed(self, tokens):
        """The same but for one token."""
        tokens, at = list(tokens), self.random.randrange(len(tokens))
        how = self.random.randrange(4)
        if how == 0:
            del tokens[at]
        elif how == 1:
            tokens.insert(at, tokens[at])
        elif how == 2 and at + 1 < len(tokens):
            tokens[at], tokens[at + 1] = tokens[at + 1], tokens[at]
        else:
            tokens[at] = self.random.choice(tokens)
        return tokens


def answers(folder, tokens):
    """Returns whether rvf, Yosys and Icarus parse the text, and what rvf says."""
    for name, text in [("checks.cfg", CONFIG), ("m.v", " ".join(tokens) + "\n")]:
        with open(os.path.join(folder, name), "w") as file:
            file.write(text)
    run = lambda words: subprocess.run(words, cwd=folder, capture_output=True, text=True)
    line = run([PROGRAM, "run", "checks.cfg", "out"]).stdout
    yosys = run(["yosys", "-Q", "-T", "-p", "read_verilog -defer -formal m.v"])
    icarus = run(["iverilog", "-g2005", "-t", "null", "m.v"])
    said = icarus.stdout + icarus.stderr
    parsed = line == "source elab 1 - rvfi_wrapper\n"
    return parsed, "ERROR" not in yosys.stdout + yosys.stderr, "syntax error" not in said and "give up" not in said, line


def main():
    count = int(sys.argv[1]) if len(sys.argv) > 1 else 300
    texts = Texts(int(sys.argv[2]) if len(sys.argv) > 2 else 1)
    whole = both = refused = bad = narrower = 0
    with tempfile.TemporaryDirectory() as folder:
        for _ in range(count):
            module = texts.module()
            whole += 1
            found = answers(folder, module)
            if not all(found[:3]):
                bad += 1
                print("whole", found, " ".join(module))
            for _ in range(3):
                other = texts.changed(module)
                ours, yosys, icarus, line = answers(folder, other)
                if ours and not (yosys or icarus):
                    bad += 1
                    print("wider", " ".join(other))
                both += ours
                refused += not ours
                narrower += (not ours) and yosys and icarus
    print(f"{whole} whole modules; changed: {both} parsed, {refused} refused, of these {narrower} parsed by both others; {bad} against the rule")


main()
