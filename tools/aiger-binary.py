#!/usr/bin/env python3
"""Writes the binary AIGER form of a graph that `rvf toaig` wrote, for engines that read no other (abc among them).

    tools/aiger-binary.py FILE.aag FILE.aig

Binary AIGER (Biere, 2007, section 2): the header `aig M I L O A`; no lines for inputs, since input k has the literal
2 * (k + 1); the output's literal on a line; of each gate, in the order of their variables, the differences
`LHS - R0` and `R0 - R1` with R0 the greater operand, each in groups of seven bits, the lowest first, of which all but
the last have the eighth bit set; then the lines of names.

The text has to have its inputs first, in order, and each gate above its operands, as those of `rvf toaig` do. Any
other text is refused: `aigtoaig` of the AIGER tools takes all.
"""
import sys


class Refused(Exception):
    pass


def numbers(line, count):
    """The numbers of a line, which has to have so many."""
    words = line.split(" ")
    if len(words) != count or not all(word.isdigit() for word in words):
        raise Refused(f"no {count} numbers: {line!r}")
    return [int(word) for word in words]


def in_groups(number):
    """A number in groups of seven bits, the lowest first; all but the last one have the eighth bit set."""
    groups = bytearray()
    while number >= 128:
        groups.append(number % 128 + 128)
        number //= 128
    groups.append(number)
    return groups


def binary_of(text):
    """The bytes of the binary form of a text."""
    lines = text.split("\n")
    if not lines[0].startswith("aag "):
        raise Refused(f"no header: {lines[0]!r}")
    most, inputs, latches, outputs, gates = numbers(lines[0][4:], 5)
    if (latches, outputs) != (0, 1):
        raise Refused("not one output without latches")
    if most != inputs + gates:
        raise Refused("variables that no line defines")
    if len(lines) < 2 + inputs + gates:
        raise Refused("the text ends too early")
    for index in range(inputs):
        if numbers(lines[1 + index], 1) != [2 * (index + 1)]:
            raise Refused(f"input {index} isn't variable {index + 1}")
    output = numbers(lines[1 + inputs], 1)[0]
    made = bytearray(f"aig {most} {inputs} 0 1 {gates}\n{output}\n".encode())
    for index in range(gates):
        defined, left, right = numbers(lines[2 + inputs + index], 3)
        if defined != 2 * (inputs + index + 1):
            raise Refused(f"gate {index} isn't variable {inputs + index + 1}")
        most_of, least_of = max(left, right), min(left, right)
        if most_of >= defined:
            raise Refused(f"gate {index} isn't above its operands")
        made += in_groups(defined - most_of) + in_groups(most_of - least_of)
    names = lines[2 + inputs + gates:]
    return bytes(made) + "\n".join(names).encode()


def main():
    if len(sys.argv) != 3:
        print(__doc__.strip().split("\n\n")[1].strip(), file=sys.stderr)
        return 2
    with open(sys.argv[1], encoding="utf-8") as file:
        text = file.read()
    try:
        made = binary_of(text)
    except Refused as cause:
        print(f"{sys.argv[1]}: {cause}", file=sys.stderr)
        return 1
    with open(sys.argv[2], "wb") as file:
        file.write(made)
    return 0


if __name__ == "__main__":
    sys.exit(main())
