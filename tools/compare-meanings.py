#!/usr/bin/env python3
"""Compares the meaning of random expressions and statements with what Icarus Verilog makes of them. Not part of the gate.

Usage: tools/compare-meanings.py constants [COUNT [SEED]]
       tools/compare-meanings.py statements FOLDER [COUNT [SEED]]

`constants` makes COUNT (1000) constant expressions over three parameters, and asks the program `text_cases` (built by `rt run`
in its folder) for their values: each has to be that of Icarus, and a division by 0 that is refused has to be unknown there.
`statements` makes COUNT (1000) blocks over vectors and memories, writes for each a law on the definition of what a statement
does, with the numbers that Icarus has at the end, and lets `rt check` prove them in FOLDER, a throw-away clone of this repository.
Blocks that evaluate an unknown bit are left out, since the definitions have none, and those with a target that names something twice.
Wants `iverilog`.
"""
import os
import random
import re
import subprocess
import sys
import tempfile

import program_cases

HERE = os.path.join(os.path.dirname(os.path.abspath(__file__)), "..")
LEVELS = ["+", "-", "*", "&", "|", "^", "~^", "<<", ">>", "<<<", ">>>", "<", "<=", ">", ">=", "==", "!=", "&&", "||"]
BINARY = {"+": "Add", "-": "Subtract", "*": "Multiply", "/": "Divide", "%": "Remainder", "&": "BitwiseAnd", "|": "BitwiseOr",
          "^": "BitwiseXor", "~^": "BitwiseXnor", "<<": "ShiftLeft", ">>": "ShiftRight", "<<<": "ArithmeticShiftLeft",
          ">>>": "ArithmeticShiftRight", "<": "Less", "<=": "LessEqual", ">": "Greater", ">=": "GreaterEqual", "==": "Equal",
          "!=": "NotEqual", "&&": "LogicalAnd", "||": "LogicalOr"}
UNARY = {"-": "Minus", "~": "BitwiseNot", "!": "LogicalNot", "&": "ReductionAnd", "|": "ReductionOr", "^": "ReductionXor"}


def run_icarus(text):
    """Returns the lines that a text prints; none where Icarus itself fails, as it does on some constant operands."""
    with tempfile.TemporaryDirectory() as folder:
        source, program = os.path.join(folder, "m.v"), os.path.join(folder, "m")
        with open(source, "w") as file:
            file.write(text)
        if subprocess.run(["iverilog", "-g2005", "-o", program, source], check=False, stderr=subprocess.DEVNULL).returncode:
            return []
        return subprocess.run(["vvp", program], capture_output=True, text=True, check=False).stdout.splitlines()


class Trees:
    """Makes expressions as nested tuples: (kind, ..)."""

    def __init__(self, seed):
        self.random = random.Random(seed)
        self.vectors, self.memories = [], []

    def number(self, most=8):
        width = self.random.randrange(1, most + 1)
        return ("number", width, self.random.random() < 0.4, self.random.randrange(1 << width))

    def plain(self, value):
        return ("plain", value)

    def leaf(self):
        if self.vectors and self.random.random() < 0.7:
            return self.name()
        return self.number()

    def bounds(self, decl):
        """Returns two bounds of a part that lie as the declared ones do, mostly within them."""
        low, high = sorted((decl["left"], decl["right"]))
        a = self.random.randrange(low, high + 1)
        b = self.random.randrange(a, high + 1)
        return (b, a) if decl["left"] >= decl["right"] else (a, b)

    def index(self, left, right, deep):
        low, high = sorted((left, right))
        if self.random.random() < 0.5:
            return self.plain(self.random.randrange(low, high + 1))
        return self.expr(deep - 1)

    def select(self, decl, deep):
        """Returns a select of a vector, or none."""
        kind = self.random.randrange(4)
        if kind == 0 or (decl["left"] == decl["right"]):
            return None
        if kind == 1:
            return ("bit", self.index(decl["left"], decl["right"], deep))
        if kind == 2:
            left, right = self.bounds(decl)
            return ("part", self.plain(left), self.plain(right))
        count = self.random.randrange(1, abs(decl["left"] - decl["right"]) + 2)
        return ("indexed", self.index(decl["left"], decl["right"], deep), self.plain(count))

    def name(self, deep=1):
        if self.memories and self.random.random() < 0.3:
            decl = self.random.choice(self.memories)
            first = ("bit", self.index(*decl["words"], deep))
            second = self.select(decl, deep)
            return ("name", decl["name"], [first] + ([second] if second else []))
        decl = self.random.choice(self.vectors)
        select = self.select(decl, deep)
        return ("name", decl["name"], [select] if select else [])

    def expr(self, deep):
        if deep <= 0 or self.random.random() < 0.15:
            return self.leaf()
        kind = self.random.randrange(12)
        if kind < 5:
            return ("binary", self.random.choice(self.operators), self.expr(deep - 1), self.expr(deep - 1))
        if kind < 7:
            return ("unary", self.random.choice(list(UNARY)), self.expr(deep - 1))
        if kind == 7:
            return ("conditional", self.expr(deep - 1), self.expr(deep - 1), self.expr(deep - 1))
        if kind == 8:
            return ("concat", [self.expr(deep - 1) for _ in range(self.random.randrange(1, 3))])
        if kind == 9:
            return ("repeat", self.plain(self.random.randrange(1, 3)), [self.expr(deep - 2)])
        if kind == 10:
            return ("cast", self.random.choice(["$signed", "$unsigned"]), self.expr(deep - 1))
        return self.leaf()

    operators = LEVELS


def verilog(e):
    """Returns the text of an expression, each operation in brackets."""
    kind = e[0]
    if kind == "number":
        return f"{e[1]}'{'s' if e[2] else ''}d{e[3]}"
    if kind == "plain":
        return str(e[1])
    if kind == "name":
        return e[1] + "".join(select_text(s) for s in e[2])
    if kind == "binary":
        return f"({verilog(e[2])} {e[1]} {verilog(e[3])})"
    if kind == "unary":
        return f"({e[1]}{verilog(e[2])})"
    if kind == "conditional":
        return f"({verilog(e[1])} ? {verilog(e[2])} : {verilog(e[3])})"
    if kind == "concat":
        return "{" + ", ".join(verilog(x) for x in e[1]) + "}"
    if kind == "repeat":
        return "{" + verilog(e[1]) + "{" + ", ".join(verilog(x) for x in e[2]) + "}}"
    return f"{e[1]}({verilog(e[2])})"


def select_text(s):
    if s[0] == "bit":
        return f"[{verilog(s[1])}]"
    return f"[{verilog(s[1])}{':' if s[0] == 'part' else ' +: '}{verilog(s[2])}]"


# ---- constants

def constants(count, seed):
    trees = Trees(seed)
    trees.operators = LEVELS + ["/", "/", "%"]
    params = "parameter P = 8'sd200; parameter Q = 5'd9; parameter R = 3;"
    widths = {"P": 8, "Q": 5, "R": 32}
    trees.vectors = [{"name": name, "left": width - 1, "right": 0} for name, width in widths.items()]
    texts = [verilog(trees.expr(4)) for _ in range(count)]
    program = os.path.join(HERE, "crates", "text_cases", "out", "text_cases")
    lines = [f"names {params}"] + [f"constant {text}" for text in texts]
    said = program_cases.asked(program, "meaning", lines)[1:]
    answers = [line.rsplit(": ", 1)[-1] for line in said]
    # Icarus reads a select of a parameter at run time as ours, so the parameters stand as registers there.
    declared = "  reg signed [7:0] P; reg [4:0] Q; reg signed [31:0] R;\n"
    shown = []
    for place, (text, answer) in enumerate(zip(texts, answers, strict=True)):
        width = answer.split()[0] if answer.split()[0].isdigit() and "bits" not in answer else "32"
        shown.append(f"    begin : b{place} reg [{width}-1:0] answer; answer = {text}; $display(\"%b\", answer); end")
    found = run_icarus("module m;\n" + declared + "  initial begin\n    P = 200; Q = 9; R = 3;\n" + "\n".join(shown) + "\n  end\nendmodule\n")
    same = others = unknown = refused = 0
    for text, answer, bits in zip(texts, answers, found, strict=True):
        match = re.fullmatch(r"\d+ (un)?signed (\d+)", answer)
        if not match:
            refused += 1
            if "zero divisor" in answer and "x" not in bits and "?" not in text and "&&" not in text and "||" not in text:
                print(f"{text}: {answer}, {bits} by Icarus")
        elif "x" in bits:
            unknown += 1
            if "/" in text or "%" in text:
                print(f"{text}: {answer}, unknown by Icarus")
        elif int(bits, 2) != int(match[2]):
            others += 1
            print(f"{text}: {answer}, {int(bits, 2)} by Icarus")
        else:
            same += 1
    print(f"{count} constants: {same} alike, {others} with another value, {unknown} with unknown bits, {refused} refused")


# ---- statements

class Blocks(Trees):
    def declare(self):
        self.vectors, self.memories = [], []
        for name in ("a", "b", "c"):
            base, width = self.random.randrange(3), self.random.randrange(1, 9)
            left, right = base + width - 1, base
            if self.random.random() < 0.4:
                left, right = right, left
            self.vectors.append({"name": name, "left": left, "right": right, "signed": self.random.random() < 0.4, "words": None})
        base, width = self.random.randrange(2), self.random.randrange(2, 5)
        left, right = (base, base + 2) if self.random.random() < 0.5 else (base + 2, base)
        self.memories.append({"name": "m", "left": width - 1, "right": 0, "signed": self.random.random() < 0.3, "words": (left, right)})

    def target(self, deep=1):
        if deep and self.random.random() < 0.2:
            return ("joined", [self.target(0) for _ in range(2)])
        return self.name(2)

    def stmt(self, deep):
        kind = self.random.randrange(10)
        if deep == 0 or kind < 6:
            return ("assign", self.target(), self.random.random() < 0.75, self.expr(2))
        if kind == 6:
            return ("if", self.expr(2), self.stmt(deep - 1), self.stmt(deep - 1) if self.random.random() < 0.6 else None)
        if kind == 7:
            arms = [([self.number(4) for _ in range(self.random.randrange(1, 3))], self.stmt(deep - 1)) for _ in range(2)]
            default = self.stmt(deep - 1) if self.random.random() < 0.7 else None
            return ("case", self.expr(2), arms, default)
        return ("begin", [self.stmt(deep - 1) for _ in range(self.random.randrange(1, 4))])


def target_text(l):
    if l[0] == "joined":
        return "{" + ", ".join(target_text(x) for x in l[1]) + "}"
    return verilog(l)


def indices(l):
    """Returns the indices of a target that are evaluated as it is assigned."""
    if l[0] == "joined":
        return [e for x in l[1] for e in indices(x)]
    return [s[1] for s in l[2] if s[0] != "part"]


def overlaps(s):
    """Whether a target names something twice: which of its parts is assigned last isn't said by the standard."""
    if s[0] == "assign":
        names = [x[1] for x in s[1][1]] if s[1][0] == "joined" else []
        return len(set(names)) < len(names)
    if s[0] == "if":
        return any(overlaps(x) for x in s[2:] if x)
    if s[0] == "case":
        return any(overlaps(x) for _, x in s[2]) or bool(s[3]) and overlaps(s[3])
    return any(overlaps(x) for x in s[1])


def known(es):
    """Returns a statement that sets `unknown` where one of the expressions has an unknown bit."""
    return " ".join(f"if ((^({verilog(e)})) === 1'bx) unknown = 1;" for e in es)


def stmt_text(s):
    """Returns the text of a statement, with what tells that a bit of what it evaluates is unknown."""
    if s[0] == "assign":
        return f"begin {known([s[3]] + indices(s[1]))} {target_text(s[1])} {'=' if s[2] else '<='} {verilog(s[3])}; end"
    if s[0] == "if":
        tail = f" else {stmt_text(s[3])}" if s[3] else ""
        return f"begin {known([s[1]])} if ({verilog(s[1])}) begin {stmt_text(s[2])} end{tail} end"
    if s[0] == "case":
        arms = " ".join(f"{', '.join(verilog(e) for e in es)}: {stmt_text(x)}" for es, x in s[2])
        default = f" default: {stmt_text(s[3])}" if s[3] else ""
        return f"begin {known([s[1]])} case ({verilog(s[1])}) {arms}{default} endcase end"
    return "begin " + " ".join(stmt_text(x) for x in s[1]) + " end"


TREES = {
    "number": lambda w, signed, n: f"number here (number_of (cut_to {w} {str(signed).lower()} {n}))",
    "plain": lambda n: f"decimal {n}",
    "name": lambda text, selects: f"name here (codes \"{text}\") {selects_tree(selects)}",
    "binary": lambda op, a, b: f"paren here (binary here b.{BINARY[op]} {tree(a)} {tree(b)})",
    "unary": lambda op, a: f"paren here (unary here u.{UNARY[op]} {tree(a)})",
    "conditional": lambda c, a, b: f"paren here (conditional here {tree(c)} {tree(a)} {tree(b)})",
    "concat": lambda es: f"concat here {trees_tree(es)}",
    "repeat": lambda n, es: f"repeat here {tree(n)} {trees_tree(es)}",
    "cast": lambda to, a: f"cast here to.{'Signed' if to == '$signed' else 'Unsigned'} {tree(a)}",
}


def tree(e):
    """Returns an expression as a term of the definitions."""
    return f"({TREES[e[0]](*e[1:])})"


def trees_tree(es):
    return f"(more {tree(es[0])} {trees_tree(es[1:])})" if es else "none"


def selects_tree(ss):
    if not ss:
        return "whole"
    inner = " ".join(tree(e) for e in ss[0][1:])
    return f"({ss[0][0]} here {inner} {selects_tree(ss[1:])})"


def target_tree(l):
    if l[0] == "joined":
        text = "no_lvals"
        for x in reversed(l[1]):
            text = f"(more_lvals {target_tree(x)} {text})"
        return f"(joined here {text})"
    return f"(named here (codes \"{l[1]}\") {selects_tree(l[2])})"


def list_tree(texts):
    return "(" + " ∷ ".join(list(texts) + ["[]"]) + ")"


def stmt_tree(s):
    if s[0] == "assign":
        return f"(stmt.assign [] here {target_tree(s[1])} a.{'Blocking' if s[2] else 'Nonblocking'} {tree(s[3])})"
    if s[0] == "if":
        if s[3]:
            return f"(stmt.if_else [] here {tree(s[1])} {stmt_tree(s[2])} {stmt_tree(s[3])})"
        return f"(stmt.if_only [] here {tree(s[1])} {stmt_tree(s[2])})"
    if s[0] == "case":
        arms = f"(default here true {stmt_tree(s[3])} no_arms)" if s[3] else "no_arms"
        for es, x in reversed(s[2]):
            arms = f"(labels here {list_tree(tree(e) for e in es)} {stmt_tree(x)} {arms})"
        return f"(stmt.case [] here kind.Case {tree(s[1])} {arms})"
    return f"(stmt.begin [] here None (stmts {list_tree(stmt_tree(x) for x in s[1])}))"


def bound(n):
    return f"(pos {n})"


def decl_tree(d):
    width = abs(d["left"] - d["right"]) + 1
    words = f"(Some ({bound(d['words'][0])}, {bound(d['words'][1])}))" if d["words"] else "None"
    return (f"(record {{ name = codes \"{d['name']}\"; width = {width}; signed = {str(d['signed']).lower()}; left = {bound(d['left'])}; "
            f"right = {bound(d['right'])}; words = {words}; class = class.Variable; output = false }})")


HEAD = """-- Blocks with the numbers that another simulator has at their end.
use Rattle.std.specs.Prelude.{◌≡◌, refl, ℕ, List, [], ◌∷◌, map, true, false, Some, None, pos, codes}
use Rattle.std.specs.Fmt.{digits}
use Rattle.vl_tree.specs.declared.operator.UnaryOperator.TheVariants as u
use Rattle.vl_tree.specs.declared.operator.BinaryOperator.TheVariants as b
use Rattle.vl_tree.specs.declared.operator.Cast.TheVariants as to
use Rattle.vl_tree.specs.declared.stmt.AssignKind.TheVariants as a
use Rattle.vl_tree.specs.declared.stmt.CaseKind.TheVariants as kind
use Rattle.vl_tree.specs.Expr.{number, name, paren, unary, binary, conditional, concat, repeat, cast, none, more, whole, bit, part, indexed}
use Rattle.vl_tree.specs.Lval.{named, joined, no_lvals, more_lvals}
use Rattle.vl_tree.specs.Stmt as stmt
use Rattle.vl_tree.specs.Stmt.{stmts, labels, default, no_arms}
use Rattle.vl_size.specs.declared.decl.Class.TheVariants as class
use Rattle.vl_mean.specs.Constants.{number_of, cut_to}
use Rattle.vl_mean.specs.DesignExamples.{numbers}
use Rattle.vl_mean.specs.Examples.{decimal}
use Rattle.vl_mean.specs.Execution.{begun, ended, exec}
use Rattle.vl_mean.specs.FlatLaw.{flat_scopes}
use Rattle.vl_mean.specs.Parts.{here}
"""


def declaration_text(d):
    words = f"[{d['words'][0]}:{d['words'][1]}]" if d["words"] else ""
    return f"reg {'signed ' if d['signed'] else ''}[{d['left']}:{d['right']}] {d['name']}{words};"


def law(number, decls, cells, first, block, last):
    """Returns the law that the block makes these last numbers of the first ones."""
    names = list_tree(f"codes \"{name}\"" for name, _ in cells)
    values = list_tree(f"(codes \"{name}\", {value})" for (name, _), value in zip(cells, first))
    wanted = list_tree(str(int(bits, 2)) for bits in last)
    return f"""
pub block{number} : map (λ n. ended (exec (flat_scopes {list_tree(decl_tree(d) for d in decls)}) {stmt_tree(block)} (begun (numbers {values}))) n) {names}
    ≡ {wanted}
unfolding digits
block{number} = refl
"""


def statements(folder, count, seed):
    blocks = Blocks(seed)
    files, laws, skipped = [], [], 0
    while len(laws) < count:
        blocks.declare()
        block = ("begin", [blocks.stmt(2) for _ in range(blocks.random.randrange(1, 4))])
        decls = blocks.vectors + blocks.memories
        cells = [(d["name"], d) for d in blocks.vectors]
        low, high = sorted(blocks.memories[0]["words"])
        cells += [(f"m[{i}]", blocks.memories[0]) for i in range(low, high + 1)]
        first = [blocks.random.randrange(1 << (abs(d["left"] - d["right"]) + 1)) for _, d in cells]
        declared = " ".join(declaration_text(d) for d in decls)
        begun = " ".join(f"{name} = {value};" for (name, _), value in zip(cells, first))
        shown = " ".join(f"$write(\"%b \", {name});" for name, _ in cells)
        last = " ".join(run_icarus(
            f"module m; {declared} reg unknown; initial begin unknown = 0; {begun} {stmt_text(block)} end "
            f"initial begin #1; {shown} $display(\"%b\", unknown); end endmodule\n")).split()
        if not last or last.pop() == "1" or any("x" in bits for bits in last) or overlaps(block):
            skipped += 1
            continue
        laws.append(law(len(laws), decls, cells, first, block, last))
    crate = os.path.join(folder, "crates", "statement_laws")
    for part in ("src", "proofs"):
        os.makedirs(os.path.join(crate, part), exist_ok=True)
    for start in range(0, len(laws), 25):
        files.append(f"Blocks{start // 25}")
        with open(os.path.join(crate, "proofs", files[-1] + ".antt"), "w") as file:
            file.write(HEAD + "".join(laws[start:start + 25]))
    with open(os.path.join(crate, "proofs", "Lib.antt"), "w") as file:
        file.write("".join(f"pub mod {name}\n" for name in files))
    with open(os.path.join(crate, "src", "lib.rt"), "w") as file:
        file.write("//! Laws on blocks.\n#![tactic(auto)]\n\nghost use Rattle.vl_mean.specs.Parts.{here};\n\n/// Nothing.\npub fn nothing() {}\n")
    with open(os.path.join(folder, "crates.txt")) as file:
        listed = file.read()
    if "statement_laws:" not in listed:
        with open(os.path.join(folder, "crates.txt"), "a") as file:
            file.write("statement_laws: vl_mean vl_size vl_tree fv_text\n")
    print(f"{len(laws)} laws; {skipped} more blocks have unknown bits or no answer", flush=True)
    subprocess.run(["rt", "check"], cwd=crate, check=False)


def main():
    words = sys.argv[1:]
    if words[:1] == ["constants"]:
        constants(int(words[1]) if len(words) > 1 else 1000, int(words[2]) if len(words) > 2 else 1)
    elif words[:1] == ["statements"] and len(words) > 1:
        statements(words[1], int(words[2]) if len(words) > 2 else 1000, int(words[3]) if len(words) > 3 else 1)
    else:
        sys.exit(__doc__)


main()
