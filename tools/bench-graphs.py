#!/usr/bin/env python3
"""Times the reader of graphs, and their clauses. It is not part of the gate.

    tools/bench-graphs.py [--gates N] RVF

RVF is the built program. `rvf fromaig` reads three texts: N gates (1,000,000) of which each is an operand of the line
before it; a circle of N gates; and a chain of a fifth of N between two circles of two gates, from the first to the
last. The first has clauses, and of the others the first line on a circle is told. Prints the answer, the processor
seconds and the most megabytes.
"""
import argparse
import os
import subprocess
import tempfile


def text(variables, inputs, output, gates):
    """The text of a graph whose inputs are the first variables."""
    lines = [f"aag {variables} {inputs} 0 1 {len(gates)}", *(str(2 * (at + 1)) for at in range(inputs)), str(output)]
    return "\n".join(lines + ["%d %d %d" % gate for gate in gates]) + "\n"


def in_reverse(count):
    gates = [(2 * at, 2 * at - 2, 2 + at % 2) for at in range(count + 1, 1, -1)]
    return text(count + 1, 1, 2 * count + 2, gates)


def circle(count):
    gates = [(2 * at, 2 * at + 2 if at <= count else 4, 2) for at in range(2, count + 2)]
    return text(count + 1, 1, 4, gates)


def between_circles(count):
    """The chain's gates come first; the last four lines are two circles, of which the first leads to the chain."""
    last = count + 2
    gates = [(2 * at, 2 * at + 2, 2) for at in range(2, last)]
    first, second = [2 * (last + 2), 2 * (last + 3)], [2 * last, 2 * (last + 1)]
    gates += [(first[0], first[1], 4), (first[1], first[0], 2), (second[0], second[1], 2), (second[1], second[0], 2)]
    return text(last + 3, 1, first[0], gates)


def main():
    parser = argparse.ArgumentParser(description=__doc__, formatter_class=argparse.RawDescriptionHelpFormatter)
    parser.add_argument("--gates", type=int, default=1000000)
    parser.add_argument("rvf")
    words = parser.parse_args()
    for title, made in (("in reverse", in_reverse(words.gates)), ("a circle", circle(words.gates)),
                        ("a chain between circles", between_circles(words.gates // 5))):
        with tempfile.TemporaryDirectory() as folder:
            aag = os.path.join(folder, "g.aag")
            with open(aag, "w") as out:
                out.write(made)
            told = os.path.join(folder, "told")
            ran = subprocess.run(["time", "-f", "%U %S %M", "-o", told, words.rvf, "fromaig", aag,
                                  os.path.join(folder, "g.cnf")], capture_output=True, text=True, check=False)
            with open(told) as out:
                user, system, room = out.read().split()[-3:]
        seconds = float(user) + float(system)
        print(f"{title}: {ran.stdout.strip()}, {seconds:.2f} s, {int(room) / 1024:.0f} MB", flush=True)


if __name__ == "__main__":
    main()
