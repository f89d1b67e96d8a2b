"""A look at a written module, line by line: it has no forms but those that the converter means to write, each name
that is used is declared, and each wire is driven once."""
from __future__ import annotations

import re
from collections import Counter

NAME = r"[A-Za-z_]\w*"
TARGET = rf"({NAME})((?:\[[^=]*\])*)"
FORMS = [
    ("head", re.compile(rf"module ({NAME}) \($")),
    ("port", re.compile(rf"  (input|output|output reg) (?:\[\d+:0\] )?({NAME}),?$")),
    ("declared", re.compile(r"  (wire|reg|\(\* anyseq \*\) reg|\(\* anyconst \*\) reg) (?:\[\d+:0\] )?"
                            rf"({NAME})( \[\d+:\d+\])?;$")),
    ("assign", re.compile(rf"  assign {TARGET} = (.*);$")),
    ("start", re.compile(rf"  (?:initial|  ) ?{TARGET} = (\d+'[bh][0-9a-f]+);$")),
    ("clocked", re.compile(rf"  always @\(posedge {NAME}\) {TARGET} <= (.*);$")),
    ("assume", re.compile(r"  always @\* assume \((.*)\);$")),
    ("opens", re.compile(rf"  (always @\(posedge {NAME}\) begin|always @\* begin|initial begin)$")),
    ("within", re.compile(rf"    (?:if \(([^()]*)\) )?{TARGET} (?:<=|=) (.*);$")),
    ("end", re.compile(r"(  end|endmodule|\);|//.*)$")),
]
SIGNS = re.compile(rf"\s+|\$signed\b|\d+'[bh][0-9a-f]+|\d+|{NAME}|<=|>=|==|!=|<<|>>>|>>|&&|\|\||~\^"
                   r"|[-+*&|^~!<>?:(){}\[\],]")


def problems(text: str) -> list[str]:
    """What is wrong with the shape of a text."""
    found: list[str] = []
    declared: dict[str, str] = {}
    used: set[str] = set()
    driven: Counter[str] = Counter()
    for line in text.splitlines():
        kind, match = next(((kind, form.match(line)) for kind, form in FORMS if form.match(line)), ("", None))
        if match is None:
            found.append(f"a line of no form: {line}")
            continue
        if kind in ("port", "declared"):
            if match[2] in declared:
                found.append(f"declared twice: {match[2]}")
            declared[match[2]] = match[1] + (match[3] or "" if kind == "declared" else "")
        elif kind in ("assign", "clocked", "start", "within"):
            shift = 1 if kind == "within" else 0
            used.add(match[1 + shift])
            used |= names_of(match[2 + shift] + " " + match[3 + shift] + " " + (match[1] or "" if shift else ""), found)
            if kind == "assign":
                driven[match[1]] += 1
        elif kind == "assume":
            used |= names_of(match[1], found)
    found += [f"not declared: {name}" for name in sorted(used - set(declared))]
    for name, kind in declared.items():
        if kind in ("wire", "output") and driven[name] < 1:
            found.append(f"not driven: {name}")
        if kind not in ("wire", "output") and driven[name]:
            found.append(f"driven, but no wire: {name}")
    return found


def names_of(expression: str, found: list[str]) -> set[str]:
    """The names in an expression, whose signs are all known."""
    at, names = 0, set()
    while at < len(expression):
        match = SIGNS.match(expression, at)
        if not match:
            found.append(f"an unknown sign: {expression[at:at + 20]}")
            break
        if re.fullmatch(NAME, match.group()):
            names.add(match.group())
        at = match.end()
    return names
