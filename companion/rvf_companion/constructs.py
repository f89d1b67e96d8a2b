"""What a text has where the parser refuses a token, by a look at the text, and what to write instead.

A refusal `parse 1` names a place and no word, and `or` has many uses: these rules guess by the token there and what
stands before it. Nothing here is trusted by a verdict.
"""
from __future__ import annotations

import re
from dataclasses import dataclass


@dataclass(frozen=True)
class Construct:
    """A construct of Verilog that the subset leaves out: how it is seen, what it is, what to write instead."""
    before: str
    at: str
    name: str
    instead: str


# The first rule that fits is taken. `before` is what the text up to the place ends with, blanks and comments aside;
# `at` is what begins at the place.
CONSTRUCTS = [
    Construct(r"(\bbegin|\belse|;|\)|:|@\s*\*)$", r"for\b", "a `for` loop in a block",
              "write the turns out, or make the block's parts by a generate `for`"),
    Construct(r"", r"(while|repeat|forever)\b", "a loop in a block", "write the turns out"),
    Construct(r"\b(parameter|localparam)$", r"(integer|real|time|realtime|string|int|logic|bit)\b",
              "a parameter with a type",
              "write `localparam [31:0] N = ..`, or leave the type out"),
    Construct(r"\b(parameter|localparam)(\s+signed)?(\s*\[[^\]]*\])?\s*[A-Za-z_]\w*$", r"[A-Za-z_]",
              "a parameter with a type",
              "write `localparam [31:0] N = ..`, or leave the type out"),
    Construct(r"@\s*\(\s*[A-Za-z_][\w$]*$", r"[),]", "a list of events by names", "write `always @*`"),
    Construct(r"@\s*\([^)]*$", r"", "a list of events", "write `always @*`, or one `posedge` of the clock"),
    Construct(r"@$", r"[A-Za-z_]", "an event without brackets", "write `always @*`, or `@(posedge clock)`"),
    Construct(r"\bmodule\s+\w+\s*(#\s*\([^;]*\)\s*)?\($", r"[A-Za-z_.]", "an old list of ports, names alone",
              "write the ports with their directions: `module m (input a, output [3:0] b);`"),
    Construct(r"(^|;|\bendmodule)$", r"\(\*", "an attribute before a module", "remove it"),
    Construct(r"\b[A-Za-z_]\w*\s+[A-Za-z_]\w*\s*\((.*,)?$", r"(?!\.)[A-Za-z_0-9({]",
              "ports of an instance by their order", "name them: `.port(value)`"),
    Construct(r"#\s*\((.*,)?$", r"(?!\.|parameter)[A-Za-z_0-9({]", "parameters of an instance by their order",
              "name them: `#(.WIDTH(8))`"),
    Construct(r"[\w\]]$", r"\.", "a hierarchical name", "bring the value out by a port"),
    Construct(r"#$", r"", "a delay", "remove it"),
    Construct(r"(;|\bbegin|\bend)$", r"(input|output|inout)\b", "a direction in the body of a module",
              "write it in the list of ports"),
    Construct(r"(\bbegin(\s*:\s*\w+)?|;|\))$", r"(reg|wire|integer|logic)\b", "a declaration in a block",
              "write it in the module, outside of the block"),
    Construct(r"(;|\bend|\bendgenerate|\))$", r"(case|casez)\b", "a `case` of generate", "write it by `if` and `else`"),
    Construct(r"\]$", r"\[", "a vector of vectors", "write one vector, or a memory"),
    Construct(r"", r"[A-Za-z_]\w*\s*'\s*\(", "a cast of SystemVerilog", "write the bits that you mean"),
    Construct(r"'$", r"", "a cast or a fill of SystemVerilog", "write a number with its size"),
    Construct(r"", r"(logic|always_ff|always_comb|enum|typedef|struct|unique|priority|import|package)\b",
              "a word of SystemVerilog", "write it in Verilog, or convert the core by companion/from-yosys.py"),
    Construct(r"[\w)\]]$", r"(\+\+|--|\+=|-=)", "an assignment by an operator", "write `a = a + 1`"),
    Construct(r"", r"(and|or|not|nand|nor|xor|xnor|buf)\b", "a gate", "write it by `assign` and an operator"),
    Construct(r"", r"[A-Za-z_]\w*\s*\(", "a call of a function or a task", "write out what it does"),
    Construct(r"[\w)\]}]$", r"(module|endmodule|wire|reg|assign|always|output|input|end|else)\b",
              "a new item or statement where the one before it hasn't ended",
              "put a semicolon at the end of what stands before"),
]


def without_comments(text: str) -> str:
    """The text with blanks in the place of comments, so that places stay."""
    return re.sub(r"//[^\n]*|/\*.*?\*/", lambda found: re.sub(r"[^\n]", " ", found.group()), text, flags=re.S)


def construct_at(text: str, line: int, column: int) -> Construct | None:
    """The construct that the text has at a place, if a rule knows it."""
    lines = without_comments(text).split("\n")
    if not 1 <= line <= len(lines):
        return None
    before = "\n".join(lines[max(0, line - 60):line - 1] + [lines[line - 1][:column - 1]]).rstrip()
    at = "\n".join([lines[line - 1][column - 1:], *lines[line:line + 3]])
    statement = re.split(r";", before)[-1].strip() or (";" if before.endswith(";") else before[-1:])
    for rule in CONSTRUCTS:
        if re.search(rule.before, statement if len(statement) > 1 else before[-200:], re.S) and re.match(rule.at, at):
            return rule
    return None
