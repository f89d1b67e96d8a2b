#!/usr/bin/env python3
"""Compares the preprocessor with a second reading of its rules on random texts of directives, macros and faults.

    tools/compare-prep.py PROGRAM [COUNT [SEED]]

PROGRAM is the built program `text_cases`, which is asked cases of kind `text`; COUNT is 2000 where it isn't given.
The reading below is a recursive descent over nested groups, written from the rules alone:

  - A text is a list of tokens with places. Conditionals nest; at most one group of a conditional is chosen, and of groups
    that aren't chosen only the conditionals are read. Each macro's text is read as a text of its own.
  - Reading goes on behind what is refused: of an unknown macro, a macro within 32 others and an `include nothing comes; a
    directive without its name, or without its conditional, is passed over; a macro with a bracket directly behind its name
    has the text that is written; a conditional without its `endif ends with the text.
  - The refusal at the least place is answered, by file, line and column, and at one place the one with the lowest number.
"""
import random
import sys

import program_cases

SHOWN = {1: "unknown", 2: "unbalanced", 3: "arguments", 4: "depth", 5: "include", 6: "too many", 7: "no name"}
WORDS = ["a", "b", "c", "d"]
NEED_NAME = ("define", "undef", "ifdef", "ifndef", "elsif")
DIRECTIVES = NEED_NAME + ("else", "endif", "include", "timescale", "default_nettype")


class Token:
    def __init__(self, kind, text, place):
        self.kind, self.text, self.place = kind, text, place


def lex(text, file):
    tokens = []
    for line_number, line in enumerate(text.split("\n"), 1):
        col = 0
        while col < len(line):
            start = col
            char = line[col]
            place = (file, line_number, start + 1)
            if char in " \t":
                col += 1
                continue
            if char == "\\":
                assert col == len(line) - 1
                tokens.append(Token("continue", "continue", place))
                col += 1
            elif char == '"':
                col = line.index('"', col + 1) + 1
                tokens.append(Token("string", "string", place))
            elif char == "`" or char.isalpha() or char == "_":
                col += 1
                while col < len(line) and (line[col].isalnum() or line[col] in "_$"):
                    col += 1
                word = line[start:col]
                if char == "`":
                    tokens.append(Token("tick", word[1:], place))
                elif word in ("module", "wire"):
                    tokens.append(Token("keyword", word, place))
                else:
                    tokens.append(Token("name", word, place))
            elif char.isdigit():
                while col < len(line) and line[col].isdigit():
                    col += 1
                tokens.append(Token("number", line[start:col], place))
            else:
                col += 2 if line[col:col + 2] in ("(*", "*)") else 1
                tokens.append(Token("sign", line[start:col], place))
    return tokens


class Reader:
    def __init__(self):
        self.macros = {}
        self.output = []
        self.refusals = []

    def refuse(self, place, number, name=""):
        self.refusals.append((place, number, name))

    def name_at(self, tokens, at, directive):
        """The name behind a directive on its line, or None."""
        if at < len(tokens) and tokens[at].kind == "name":
            if tokens[at].place[:2] == tokens[directive].place[:2]:
                return tokens[at].text
        return None

    def group(self, tokens, at, use, levels, chosen, last):
        """A group up to the directive that ends it. `last` is None where no conditional is around, and else whether this is
        its last group."""
        while at < len(tokens):
            token = tokens[at]
            place = use or token.place
            word = token.text if token.kind == "tick" else None
            if word in ("elsif", "else"):
                if last is not False:
                    self.refuse(place, 2)
                    at += 1
                elif word == "elsif" and self.name_at(tokens, at + 1, at) is None:
                    self.refuse(place, 7)
                    at += 1
                else:
                    return at
            elif word == "endif":
                if last is not None:
                    return at
                self.refuse(place, 2)
                at += 1
            elif word in ("ifdef", "ifndef"):
                at = self.conditional(tokens, at, use, levels, chosen)
            elif not chosen:
                at += 1
            elif word in DIRECTIVES:
                at = self.directive(tokens, at, use)
            elif word is not None:
                self.use(word, place, levels)
                at += 1
            elif token.kind == "continue":
                at += 1
            else:
                if len(self.output) >= 2000000:
                    self.refuse(place, 6)
                else:
                    self.output.append((place, token.text))
                at += 1
        return at

    def conditional(self, tokens, begin, use, levels, chosen):
        place = use or tokens[begin].place
        name = self.name_at(tokens, begin + 1, begin)
        if name is None:
            self.refuse(place, 7)
            return begin + 1
        holds = (name in self.macros) == (tokens[begin].text == "ifdef")
        done = not chosen
        at = begin + 2
        last = False
        while True:
            at = self.group(tokens, at, use, levels, holds and not done, last)
            done = done or holds
            if at == len(tokens):
                self.refuse(place, 2)
                return at
            if tokens[at].text == "endif":
                return at + 1
            if tokens[at].text == "else":
                holds, last = True, True
                at += 1
            else:
                holds = tokens[at + 1].text in self.macros
                at += 2

    def directive(self, tokens, at, use):
        """A directive of a chosen group that is no conditional."""
        token = tokens[at]
        place = use or token.place
        line = token.place[:2]
        if token.text == "include":
            self.refuse(place, 5)
            return at + 1
        if token.text in ("timescale", "default_nettype"):
            at += 1
            while at < len(tokens) and tokens[at].place[:2] == line:
                at += 1
            return at
        name = self.name_at(tokens, at + 1, at)
        if name is None:
            self.refuse(place, 7)
            return at + 1
        if token.text == "undef":
            self.macros.pop(name, None)
            return at + 2
        name_place = tokens[at + 1].place
        file, line_number = name_place[:2]
        body = []
        at += 2
        while at < len(tokens) and tokens[at].place[:2] == (file, line_number):
            here = tokens[at]
            directly = (file, name_place[1], name_place[2] + len(name))
            if here.text in ("(", "(*") and here.kind == "sign" and here.place == directly:
                self.refuse(use or here.place, 3)
            if here.kind == "continue":
                line_number += 1
            else:
                body.append(here)
            at += 1
        self.macros[name] = body
        return at

    def use(self, name, place, levels):
        if name not in self.macros:
            self.refuse(place, 1, name)
        elif levels == 0:
            self.refuse(place, 4)
        else:
            body = self.macros[name]
            end = self.group(body, 0, place, levels - 1, True, None)
            assert end == len(body)


def place_shown(place):
    file, line, col = place
    return f"{line}:{col}" if file == 1 else f"{file}:{line}:{col}"


def answer(texts):
    """What the texts come to, the first of which is file 0."""
    reader = Reader()
    tokens = [token for file, text in enumerate(texts) for token in lex(text, file)]
    end = reader.group(tokens, 0, None, 32, True, None)
    assert end == len(tokens)
    if reader.refusals:
        place, number, name = min(reader.refusals, key=lambda r: r[:2])
        shown = SHOWN[number] + (" " + name if number == 1 else "")
        return f"{shown} {place_shown(place)}"
    return "".join(f"{place_shown(place)} {text}; " for place, text in reader.output)


def piece(rng, deep):
    roll = rng.random()
    name = rng.choice(WORDS)
    if roll < 0.20:
        return rng.choice(["x", "1", ";", "module", '"s"', "(", "(*"])
    if roll < 0.38:
        return "`" + name
    if roll < 0.50:
        return "`ifdef " + name
    if roll < 0.55:
        return "`ifndef " + name
    if roll < 0.59:
        return "`elsif " + name
    if roll < 0.64:
        return "`else"
    if roll < 0.78:
        return "`endif"
    if roll < 0.81:
        return rng.choice(["`ifdef", "`ifndef", "`elsif", "`undef", "`define"])
    if roll < 0.83:
        return '`include "f"'
    if roll < 0.85:
        return "`undef " + name
    if roll < 0.87:
        return "`timescale 1"
    if deep == 0:
        return "x"
    body = " ".join(piece(rng, deep - 1) for _ in range(rng.randrange(5)))
    gap = rng.choice(["", "", "", " "]) + rng.choice(["", "", "", "(p)", "(* p *)"]) + " "
    joined = " \\\n " + piece(rng, 0) if rng.random() < 0.2 else ""
    return "`define " + name + gap + body + joined


def tame(rng, deep):
    """Lines whose conditionals are closed, with uses of `a` to `d` alone, so that few of them are refused."""
    lines = []
    for _ in range(rng.randrange(1, 4)):
        roll = rng.random()
        name = rng.choice(WORDS)
        if deep > 0 and roll < 0.45:
            lines.append(rng.choice(["`ifdef ", "`ifndef "]) + name)
            lines += tame(rng, deep - 1)
            for _ in range(rng.choice([0, 0, 1, 2])):
                lines.append("`elsif " + rng.choice(WORDS))
                lines += tame(rng, deep - 1)
            if rng.random() < 0.5:
                lines.append("`else")
                lines += tame(rng, deep - 1)
            lines.append("`endif")
        elif roll < 0.60:
            lines.append("`define " + name + " " + " ".join(rng.choice(["x", "y", "1", "\\\n z"]) for _ in range(rng.randrange(4))))
        elif roll < 0.64:
            lines.append("`define " + name + " `ifdef " + rng.choice(WORDS) + " x `else y `endif")
        elif roll < 0.80:
            lines.append("x " + "`ifdef " + name + " `" + name + " `endif")
        else:
            lines.append(rng.choice(["x", "y 1", "`timescale 1 x", "`undef " + name]))
    return lines


def text(rng):
    if rng.random() < 0.7:
        lines = tame(rng, 3)
        if rng.random() < 0.3:
            lines.insert(rng.randrange(len(lines) + 1), piece(rng, 1))
        return "\n".join(lines)
    lines = []
    for _ in range(rng.randrange(1, 9)):
        lines.append(" ".join(piece(rng, 2) for _ in range(rng.randrange(1, 4))))
    return "\n".join(lines)


def escaped(text):
    return text.replace("\\", "\\\\").replace("\n", "\\n")


def main():
    program = sys.argv[1]
    count = int(sys.argv[2]) if len(sys.argv) > 2 else 2000
    rng = random.Random(int(sys.argv[3]) if len(sys.argv) > 3 else 1)
    sys.setrecursionlimit(10000)
    cases = []
    while len(cases) < count:
        texts = [text(rng) for _ in range(rng.choice([1, 2, 2, 3]))]
        try:
            wanted = limited(texts)
        except TooLong:
            continue
        cases.append(("files " + "\\|".join(escaped(t) for t in texts), wanted))
    answers = program_cases.asked(program, "text", [case for case, _ in cases])
    wrong = 0
    for (case, wanted), got in zip(cases, answers):
        if wanted != got:
            wrong += 1
            print(case, "\n  wanted", wanted, "\n  found ", got)
    refused = sum(1 for _, w in cases if any(w.startswith(s) for s in SHOWN.values()))
    print(f"{len(cases)} texts, {refused} of them refused, {wrong} differ")
    return 1 if wrong else 0


class TooLong(Exception):
    """The second reading expands each use anew: where that takes too long, another text is taken."""


def limited(texts):
    steps = [0]
    plain_use = Reader.use

    def use(self, name, place, levels):
        steps[0] += 1
        if steps[0] > 20000:
            raise TooLong
        plain_use(self, name, place, levels)

    Reader.use = use
    try:
        return answer(texts)
    finally:
        Reader.use = plain_use


if __name__ == "__main__":
    sys.exit(main())
