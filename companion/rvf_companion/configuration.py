"""What the scripts need of a configuration `checks.cfg`; the program itself judges it. Nothing here is trusted by a
verdict."""
from __future__ import annotations

import re
from dataclasses import dataclass, field
from pathlib import Path

from .text import MADE


@dataclass
class Configuration:
    """The lines of each section, each with its number in the file."""
    sections: dict[str, list[tuple[int, str]]] = field(default_factory=dict)
    lines: list[str] = field(default_factory=list)

    @property
    def isa(self) -> str:
        """The instruction set."""
        return self.options().get("isa", "rv32i")

    @property
    def channels(self) -> int:
        """How many instructions may retire in a cycle."""
        return 2 if self.options().get("nret") == "2" else 1

    def options(self) -> dict[str, str]:
        """The keys and values of `[options]`."""
        pairs = [line.split(None, 1) for _, line in self.sections.get("options", [])]
        return {pair[0]: pair[1] if len(pair) > 1 else "" for pair in pairs}

    def kinds_with_defines(self) -> list[str]:
        """The kinds that have lines of their own in `[defines KIND]`."""
        return [found[1] for found in (re.fullmatch(r"defines (\w+)", name) for name in self.sections) if found]

    def defines_of(self, kind: str | None) -> list[str]:
        """The lines before the text of a kind."""
        own = self.sections.get(f"defines {kind}", []) if kind else []
        return [line for _, line in self.sections.get("defines", []) + own]

    def depths(self) -> list[tuple[int, str, list[str]]]:
        """The depth lines: the number of the line, the kind with its channel, and its numbers."""
        split = [(at, line.split()) for at, line in self.sections.get("depth", [])]
        return [(at, words[0], words[1:]) for at, words in split if words]

    def files(self, core: str, basedir: str) -> list[str]:
        """The names of the Verilog files, in the order of their lines, with what `@core@` and `@basedir@` stand for."""
        found = [(at, [line]) for at, line in self.sections.get("verilog-files", [])]
        found += [(at, [word for word in line.split()[1:] if not word.startswith("-")])
                  for at, line in self.sections.get("script-sources", [])]
        return [filled(name, core, basedir) for _, names in sorted(found) for name in names]


def filled(name: str, core: str, basedir: str) -> str:
    """A name with what stands for its marks, from left to right; what is put in isn't read again."""
    done, marks = "", {"@basedir@": basedir, "@core@": core}
    while name:
        for mark, text in marks.items():
            if name.startswith(mark):
                done, name = done + text, name[len(mark):]
                break
        else:
            done, name = done + name[0], name[1:]
    return done


def kind_of(name: str) -> tuple[str, int]:
    """The kind and the channel of a check's name, or of a depth line's first word."""
    found = re.fullmatch(r"(.*)_ch(\d{1,9})", name)
    kind, channel = (found[1], int(found[2])) if found else (name, 0)
    return ("insn" if kind.startswith("insn_") else kind), channel


def reduced(configuration: Configuration, leave: set[str]) -> tuple[str, int]:
    """The configuration without the depth lines of some kinds, and how many depth lines it has: a line that is left out
    becomes a comment, so that all lines keep their numbers."""
    lines, left = list(configuration.lines), 0
    for at, word, _ in configuration.depths():
        if kind_of(word)[0] in leave:
            lines[at - 1] = "# left out: " + lines[at - 1]
        else:
            left += 1
    return "\n".join(lines) + "\n", left


def over_one_file(configuration: Configuration, leave: set[str], path: Path) -> str:
    """The configuration without the depth lines of some kinds, over one file in the place of all that it names; nothing
    where no depth line is left."""
    text, left = reduced(configuration, leave)
    lines, spelled = text.split("\n"), str(path)
    for section, word in (("verilog-files", ""), ("script-sources", "read_verilog ")):
        for at, _ in configuration.sections.get(section, []):
            lines[at - 1] = word + spelled if spelled else "# left out: " + lines[at - 1]
            spelled = ""
    return "\n".join(lines) + f"# {MADE}.\n" if left else ""


def read_configuration(path: Path) -> Configuration:
    """Reads the sections of a configuration."""
    # A line ends by LF alone, as the program has it: a CR or another sign that ends lines elsewhere stays where it is.
    found = Configuration(lines=path.read_bytes().decode("utf-8").removesuffix("\n").split("\n"))
    section = ""
    for at, raw in enumerate(found.lines, 1):
        line = raw.strip(" \t\r")
        if not line or line.startswith("#"):
            continue
        if line.startswith("[") and line.endswith("]"):
            section = " ".join(line[1:-1].split())
            found.sections.setdefault(section, [])
        else:
            found.sections.setdefault(section, []).append((at, line))
    return found
