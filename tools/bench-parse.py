#!/usr/bin/env python3
"""Times the parser on one flat module of assigns in a row, by runs of the proved program. Not part of the gate.

Usage: tools/bench-parse.py   Prints for each number of tokens whether the answers are right, the processor seconds of the
parser, and those of the whole run with its memory. The parser's are those of the run less those of a run on the same text
behind a semicolon, which the parser refuses at its first token. The fastest of three runs counts.
"""
import os
import subprocess
import tempfile

PROGRAM = os.path.join(os.path.dirname(os.path.abspath(__file__)), "..", "rvf")
CONFIG = "[options]\nisa rv32i\n[depth]\nill 1\n[verilog-files]\nm.v\n"


def run(text):
    """Returns the line of `rvf run` on the text, its processor seconds, and its memory in megabytes."""
    with tempfile.TemporaryDirectory() as folder:
        for name, content in [("checks.cfg", CONFIG), ("m.v", text)]:
            with open(os.path.join(folder, name), "w") as file:
                file.write(content)
        process = subprocess.Popen([PROGRAM, "run", "checks.cfg", "out"], cwd=folder, stdout=subprocess.PIPE)
        line = process.stdout.read().decode()
        usage = os.wait4(process.pid, 0)[2]
        return line, usage.ru_utime + usage.ru_stime, usage.ru_maxrss // 1024


def fastest(text):
    """Returns the fastest of three runs on the text."""
    return min((run(text) for _ in range(3)), key=lambda found: found[1])


def main():
    run("")
    for tokens in [500_000, 1_000_000, 2_000_000]:
        text = "module m;\n" + "assign a = b;\n" * ((tokens - 5) // 5) + "endmodule\n"
        refused, before, _ = fastest(";" + text)
        taken, whole, memory = fastest(text)
        right = (refused, taken) == ("source parse 1 m.v:1:1 -\n", "source elab 1 - rvfi_wrapper\n")
        print(f"{tokens} tokens: {'right' if right else 'WRONG'}, parser {whole - before:.2f} s, run {whole:.2f} s, {memory} MB")


main()
