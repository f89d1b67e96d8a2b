#!/usr/bin/env python3
"""Compares graphs as texts with a reader in Python. It is not part of the gate.

    tools/compare-graphs.py [--seed N] [--count N] [--print] PROGRAM

PROGRAM is the built program of `file_cases`. Of N random texts in the ASCII format AIGER (500 if none is given), some of
them with a change that may make them faulty, the answers of both are compared: the number and the line of the refusal, or
the counts, the output for all values of the inputs, and the text that is written again, which is read once more. With
`--print` the cases and the expected answers are printed in place of being compared.
"""
import argparse
import random
import sys

import program_cases

NUMBERS = {"header": 1, "kind": 2, "literal": 3, "twice": 4, "open": 5, "undefined": 6, "loop": 7}


class Refused(Exception):
    def __init__(self, cause, line):
        super().__init__(cause, line)
        self.answer = f"{NUMBERS[cause]} {line}"


def is_number(word):
    return word != "" and all(c in "0123456789" for c in word)


class Graph:
    """What a text says: the literals of inputs, the output with its line, and gates by the variables that they define."""

    def __init__(self, text):
        lines = text.split("\n")
        if lines[-1] == "":
            lines.pop()
        self.lines = lines
        self.read_header()
        self.inputs, self.gates, self.defined = [], [], {}
        for place in range(self.count_inputs):
            self.inputs.append(self.define(place + 1, self.words(place + 1, 1)[0]))
        self.line = self.count_inputs + 2
        self.output = self.literal(self.line, self.words(self.line - 1, 1)[0])
        for place in range(self.line, self.line + self.count_gates):
            words = self.words(place, 3)
            literal = self.literal(place + 1, words[0])
            if literal % 2 or not literal:
                raise Refused("literal", place + 1)
            operands = [self.literal(place + 1, word) for word in words[1:]]
            self.check_new(place + 1, literal)
            self.gates.append((place + 1, literal, operands))
        self.check_used()
        self.check_loops()

    def read_header(self):
        words = self.lines[0].split(" ") if self.lines else [""]
        numbers = words[1:]
        if words[0] != "aag" or not 5 <= len(numbers) <= 9 or not all(is_number(w) and len(w) <= 20 for w in numbers):
            raise Refused("header", 1)
        self.most, self.count_inputs, latches, outputs, self.count_gates = map(int, numbers[:5])
        if self.most < self.count_inputs + latches + self.count_gates:
            raise Refused("header", 1)
        if latches or outputs != 1 or any(map(int, numbers[5:])):
            raise Refused("kind", 1)

    def words(self, place, count):
        """The words of the line behind so many others."""
        if place >= len(self.lines):
            raise Refused("open", place + 1)
        words = self.lines[place].split(" ")
        if len(words) != count:
            raise Refused("literal", place + 1)
        return words

    def literal(self, line, word):
        if not is_number(word) or int(word) > 2 * self.most + 1:
            raise Refused("literal", line)
        return int(word)

    def define(self, place, word):
        literal = self.literal(place + 1, word)
        if literal % 2 or not literal:
            raise Refused("literal", place + 1)
        self.check_new(place + 1, literal)
        return literal

    def check_new(self, line, literal):
        if literal // 2 in self.defined:
            raise Refused("twice", line)
        self.defined[literal // 2] = line

    def check_used(self):
        for line, literals in [(self.line, [self.output])] + [(line, ops) for line, _, ops in self.gates]:
            if any(lit // 2 and lit // 2 not in self.defined for lit in literals):
                raise Refused("undefined", line)

    def check_loops(self):
        leads = {literal // 2: {lit // 2 for lit in ops} for _, literal, ops in self.gates}
        for line, literal, _ in self.gates:
            seen, waiting = set(), [literal // 2]
            while waiting:
                for variable in leads.get(waiting.pop(), ()):
                    if variable == literal // 2:
                        raise Refused("loop", line)
                    if variable not in seen:
                        seen.add(variable)
                        waiting.append(variable)

    def value(self, given):
        """The output, where the inputs have these values."""
        values = {0: False}
        values.update({lit // 2: value for lit, value in zip(self.inputs, given)})
        left = list(self.gates)
        while left:
            later = []
            for gate in left:
                if all(lit // 2 in values for lit in gate[2]):
                    values[gate[1] // 2] = all(values[lit // 2] != bool(lit % 2) for lit in gate[2])
                else:
                    later.append(gate)
            left = later
        return values[self.output // 2] != bool(self.output % 2)

    def outputs(self):
        count = len(self.inputs)
        if count > 6:
            return "-"
        return "".join(str(int(self.value([number >> bit & 1 == 1 for bit in range(count)])))
                       for number in range(1 << count))


def answer(text):
    """The counts and the outputs of a text, or its refusal."""
    try:
        graph = Graph(text)
    except Refused as refused:
        return refused.answer
    return f"inputs {len(graph.inputs)} gates {len(graph.gates)} output {graph.outputs()}"


def random_text(rng):
    """A graph over variables with gaps, its gates in any order."""
    inputs, gates = rng.randrange(5), rng.randrange(8)
    most = inputs + gates + rng.choice((0, 0, 3, 10 ** rng.randrange(1, 20)))
    variables = rng.sample(range(1, most + 1), inputs + gates) if most < 10 ** 6 else \
        rng.sample([rng.randrange(1, most + 1) for _ in range(100)], inputs + gates)
    known = [0] + variables[:inputs]
    lines = []
    for variable in variables[inputs:]:
        lines.append([2 * variable] + [2 * rng.choice(known) + rng.randrange(2) for _ in range(2)])
        known.append(variable)
    output = 2 * rng.choice(known) + rng.randrange(2)
    rng.shuffle(lines)
    rows = [[2 * v] for v in variables[:inputs]] + [[output]] + lines
    header = [most, inputs, 0, 1, gates] + [0] * rng.choice((0, 0, 0, 1, 4))
    return [["aag"] + header] + rows


def changed(rng, rows):
    """The text of the rows, with a change or none."""
    rows = [list(map(str, row)) for row in rows]
    kind = rng.randrange(8)
    row = rng.choice(rows)
    place = rng.randrange(len(row))
    if kind == 0:
        row[place] = str(rng.randrange(12))
    elif kind == 1 and is_number(row[place]):
        row[place] = str(max(0, int(row[place]) + rng.choice((-2, -1, 1, 2))))
    elif kind == 2:
        row[place] = rng.choice(("", "x", "-1", "0" * rng.randrange(1, 22) + row[place]))
    elif kind == 3:
        row[place:place + 1] = []
    elif kind == 4:
        rows.remove(row)
    elif kind == 5:
        rows.insert(rng.randrange(len(rows)), list(row))
    text = "\n".join(" ".join(row) for row in rows) + rng.choice(("\n", "\n", "", "\ni0 a name\nc\n\n a comment"))
    return text if rng.randrange(20) else text.replace("\n", "\r\n", 1)


def escaped(text):
    return text.replace("\\", "\\\\").replace("\n", "\\n").replace("\r", "\\r")


def main():
    parser = argparse.ArgumentParser(usage=__doc__)
    parser.add_argument("--seed", type=int, default=1)
    parser.add_argument("--count", type=int, default=500)
    parser.add_argument("--print", action="store_true", dest="is_printed")
    parser.add_argument("program", nargs="?")
    options = parser.parse_args()
    rng = random.Random(options.seed)
    texts = [changed(rng, random_text(rng)) for _ in range(options.count)]
    cases = ["graph " + escaped(text) for text in texts]
    expected = [answer(text) for text in texts]
    if options.is_printed:
        for case, said in zip(cases, expected):
            print(case, said, sep="\n    ")
        return
    answers = program_cases.asked(options.program, "file", cases)
    again = []
    for case, wanted, found in zip(cases, expected, answers):
        words = found.split(" ", 6)
        said = " ".join(words[:6]) if len(words) > 2 else found
        if said != wanted:
            print(case, "    expected " + wanted, "    answered " + found, sep="\n")
        elif len(words) > 2:
            again.append((words[6], wanted, found))
    # what was written says the same, and is written again as it stands
    second = program_cases.asked(options.program, "file", ["graph " + text for text, _, _ in again])
    for (text, wanted, found), once_more in zip(again, second):
        if answer(text.replace("\\n", "\n")) != wanted or once_more != found:
            print("graph " + text, "    expected " + found, "    answered " + once_more, sep="\n")
    refused = sum(1 for wanted in expected if not wanted.startswith("inputs"))
    print(f"{len(cases)} texts, {refused} of them refused: " + ", ".join(
        f"{number} by {sum(1 for wanted in expected if wanted.startswith(f'{number} '))}" for number in range(1, 8)))


if __name__ == "__main__":
    sys.exit(main())
