"""The cases of the programs `text_cases`, `design_cases`, `check_cases` and `file_cases`: lines of their files `stdin`
and `stdout`, by the heading `== KIND` that they stand behind, for the scripts that make cases or compare."""
import os
import subprocess

CRATES = os.path.join(os.path.dirname(os.path.abspath(__file__)), "..", "crates")
HEADING = "== "


def lines_by_kind(program, file):
    """Returns the lines of each kind in one of a program's files, in order."""
    found = {}
    with open(os.path.join(CRATES, program, file)) as text:
        for line in text:
            line = line.removesuffix("\n")
            if line.startswith(HEADING):
                lines = found[line.removeprefix(HEADING)] = []
            else:
                lines.append(line)
    return found


def replace(program, file, kind, lines):
    """Writes lines in place of those of a kind."""
    changed = lines_by_kind(program, file) | {kind: lines}
    with open(os.path.join(CRATES, program, file), "w") as out:
        for name, each in changed.items():
            out.write("\n".join([HEADING + name] + each) + "\n")


def asked(path, kind, lines):
    """Returns what a built program answers to lines of a kind."""
    given = "\n".join([HEADING + kind] + lines) + "\n"
    said = subprocess.run([path], input=given.encode(), stdout=subprocess.PIPE, check=True).stdout.decode()
    return said.split("\n")[1:-1]
