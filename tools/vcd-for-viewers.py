#!/usr/bin/env python3
"""Shows that a written value-change dump is one for a viewer: the dump of two names among the cases of `file_cases`, which
is what `vcd` writes, is read by `vcd2fst` of gtkwave (Debian's package `gtkwave`), and what `fst2vcd` gives back says the
same names, widths, values and times. Not part of the gate.
"""
import os
import re
import subprocess
import tempfile

HERE = os.path.join(os.path.dirname(os.path.abspath(__file__)), "..")


def written():
    """The text of the case, with its escapes read."""
    with open(os.path.join(HERE, "crates", "file_cases", "stdin")) as file:
        text = re.search(r"^cut-dump (.*)$", file.read(), re.MULTILINE).group(1)
    return text.replace("\\n", "\n")


def meaning(text):
    """The names with their widths, and the times at which each changes, with its values."""
    names, changes, time = {}, {}, None
    for line in text.splitlines():
        words = line.split()
        if words[:1] == ["$var"]:
            names[words[3]] = (words[4], int(words[2]))
        elif line.startswith("#"):
            time = int(line[1:])
        elif time is not None and line[:1] == "b":
            changes.setdefault(names[words[1]], []).append((time, int(words[0][1:], 2)))
        elif time is not None and line[:1] in ("0", "1"):
            changes.setdefault(names[line[1:]], []).append((time, int(line[0])))
    return changes


def main():
    with tempfile.TemporaryDirectory() as folder:
        dump, packed = os.path.join(folder, "t.vcd"), os.path.join(folder, "t.fst")
        with open(dump, "w") as file:
            file.write(written())
        subprocess.run(["vcd2fst", dump, packed], check=True)
        back = subprocess.run(["fst2vcd", packed], check=True, capture_output=True, text=True).stdout
    wanted, found = meaning(written()), meaning(back)
    print("wanted", wanted)
    print("found ", found)
    assert wanted == found


main()
