#!/usr/bin/env python3
"""Asks Icarus Verilog for the values and sizes that the cases of kind `meaning` of `text_cases` have. Not part of the gate.

Usage: tools/compare-values.py   Prints each case with another answer, and how many there are. Wants `iverilog`.
A value with unknown bits, as that of a bit past its range, is passed over: here such a bit is 0.
"""
import os
import re
import subprocess
import tempfile

import program_cases


def lines(name):
    """Returns the lines of these cases in one of the two files."""
    return program_cases.lines_by_kind("text_cases", name)["meaning"]


def groups():
    """Returns, for each list of names, its items, the numbers that are set and the questions with their answers."""
    items, numbers, questions = "", [], []
    for line, answered in zip(lines("stdin"), lines("stdout"), strict=True):
        word, _, rest = line.partition(" ")
        answer = answered.rsplit(": ", 1)[-1]
        if word == "names":
            yield items, numbers, questions
            items, numbers, questions = rest, [], []
        elif word == "set":
            if questions:
                yield items, list(numbers), questions
                questions = []
            numbers.append(rest.split(" ", 1))
        elif word == "into" and "`" not in line:
            width, _, expression = rest.partition(" ")
            questions.append((expression, int(width), answer))
        elif word == "constant" and re.fullmatch(r"\d+ (un)?signed \d+", answer):
            questions.append((rest, int(answer.split()[0]), answer.split()[-1]))
        elif word == "size" and re.fullmatch(r"\d+ (un)?signed", answer) and "`" not in line:
            questions.append((f"$bits({rest})", 32, answer.split()[0]))
    yield items, numbers, questions


def text_of(index, items, numbers, questions):
    """Returns a module that prints the answers."""
    declared = re.sub(r"\bwire\b", "reg", items)
    shown = []
    for place, (expression, width, _) in enumerate(questions):
        shown.append(f"    begin : b{place} reg [{width - 1}:0] answer; answer = {expression}; $display(\"%0d\", answer); end")
    set_first = [f"    {name} = {value};" for name, value in numbers]
    return "\n".join([f"module m{index};", "  " + declared, "  initial begin", f"    #{index + 1};"] + set_first + shown + ["  end", "endmodule", ""])


def main():
    all_groups = [group for group in groups() if group[2]]
    text = "".join(text_of(index, *group) for index, group in enumerate(all_groups))
    text += "module top;\n" + "".join(f"  m{index} i{index}();\n" for index in range(len(all_groups))) + "endmodule\n"
    with tempfile.TemporaryDirectory() as folder:
        source, program = os.path.join(folder, "m.v"), os.path.join(folder, "m")
        with open(source, "w") as file:
            file.write(text)
        subprocess.run(["iverilog", "-g2012", "-s", "top", "-o", program, source], check=True)
        said = subprocess.run(["vvp", program], capture_output=True, text=True, check=True).stdout.split()
    questions = [question for group in all_groups for question in group[2]]
    others, unknown = 0, 0
    for (expression, width, value), found in zip(questions, said, strict=True):
        if not found.isdigit():
            unknown += 1
        elif value != found:
            others += 1
            print(f"{expression} into {width} bits: {value} in the cases, {found} by Icarus")
    print(f"{len(questions)} cases, {others} with another answer, {unknown} with unknown bits")


main()
