"""Reads the value-change dumps that rvf writes, and the retirements in them. Nothing here is trusted by a verdict."""
from __future__ import annotations

import re
from dataclasses import dataclass
from pathlib import Path

from .rvfi import FIELDS

# Far more than the program's dumps have, whose checks are at cycles up to 100.
MOST_CYCLES = 1_000


class BrokenDump(Exception):
    """A file that is no dump."""


@dataclass(frozen=True)
class Dump:
    """The widths of the names, and the values of all of them in each cycle."""
    widths: dict[str, int]
    cycles: list[dict[str, int]]

    def retirement(self, cycle: int, channel: int, channels: int) -> dict[str, int] | None:
        """What a channel retires in a cycle, by the names of the fields; nothing where it retires nothing."""
        values = self.cycles[cycle]
        found = {}
        for name in FIELDS:
            width = self.widths.get(f"rvfi_{name}", 0) // channels
            found[name] = values.get(f"rvfi_{name}", 0) >> channel * width & (1 << width) - 1 if width else 0
        return found if found["valid"] else None


def read_dump(path: Path) -> Dump:
    """Reads a dump; raises `BrokenDump` with the line that is wrong."""
    try:
        text = path.read_bytes().decode("utf-8")
    except (OSError, UnicodeDecodeError) as fault:
        raise BrokenDump(f"{path}: {fault}") from None
    reading = Reading(path)
    lines = text.split("\n")
    for number, line in enumerate(lines[:-1], 1):
        reading.take(number, line)
    if lines[-1]:
        raise BrokenDump(f"{path}: line {len(lines)} ends in the middle")
    return reading.dump()


class Reading:
    """What the lines of a dump said so far."""

    def __init__(self, path: Path) -> None:
        self.path = path
        self.names: dict[str, list[str]] = {}
        self.widths: dict[str, int] = {}
        self.cycles: list[dict[str, int]] = []
        self.now: dict[str, int] = {}
        self.time: int | None = None
        self.is_declared = False

    def take(self, number: int, line: str) -> None:
        """Takes a line."""
        if not self.is_declared:
            found = re.fullmatch(r"\$var \w+ (\d{1,9}) (\S+) (.+?) \$end", line)
            if found:
                self.names.setdefault(found[2], []).append(found[3])
                self.widths[found[3]] = int(found[1])
            self.is_declared = line.startswith("$enddefinitions")
        elif re.fullmatch(r"#\d{1,18}", line):
            self.goes_on(number, int(line[1:]))
        elif not line.startswith("$"):
            self.change(number, line)

    def goes_on(self, number: int, time: int) -> None:
        """The time of what follows: up to it the values stay, one cycle for each unit."""
        if self.time is not None:
            if time <= self.time or time - self.time + len(self.cycles) > MOST_CYCLES:
                raise BrokenDump(f"{self.path}: line {number} goes from the time {self.time} to {time}")
            self.cycles += [dict(self.now) for _ in range(time - self.time)]
        self.time = time

    def change(self, number: int, line: str) -> None:
        """The new value of a name."""
        found = re.fullmatch(r"b([01]+) (\S+)|([01])(\S+)", line)
        if not found or (found[2] or found[4]) not in self.names:
            raise BrokenDump(f"{self.path}: line {number} is no part of a dump")
        for name in self.names[found[2] or found[4]]:
            value = int(found[1] or found[3], 2)
            if value >> self.widths[name]:
                raise BrokenDump(f"{self.path}: line {number} has more bits than {name}")
            self.now[name] = value

    def dump(self) -> Dump:
        """The whole dump, in which every name has a value from the first cycle on."""
        if not self.cycles:
            raise BrokenDump(f"{self.path}: a dump without a cycle")
        lacking = [name for name in self.widths if name not in self.cycles[0]]
        if lacking or "rvfi_valid" not in self.widths:
            raise BrokenDump(f"{self.path}: no value of {(lacking or ['rvfi_valid'])[0]} in the first cycle")
        return Dump(self.widths, self.cycles)
