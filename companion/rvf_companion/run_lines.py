"""The lines of a run of rvf, with the time at which each came. Nothing here is trusted by a verdict."""
from __future__ import annotations

import re
from dataclasses import dataclass, field

from .explanation import parted

CODES = {
    0: "all checks pass", 1: "a check fails, or no run meets the assumptions",
    2: "no check fails, and one is spent", 3: "the words are refused",
    4: "the configuration is refused", 5: "the text is refused", 6: "a file isn't there", 7: "a file could not be read",
    8: "a file or the output could not be written: is there the folder, and room? What came before is whole",
    9: "the design is too heavy for a check", 10: "a certificate, a graph or the name of a check is refused",
    11: "no memory was left: fewer jobs, a smaller cycle or budget",
}

WITHOUT_A_LINE = (8, 11)

# The last lines of the subcommands.
LAST = (r"total pass \d+ fail \d+ spent \d+ skip \d+|total reached \d+ unreached \d+ spent \d+"
        r"|bench \d+ pass \d+ fail \d+ spent \d+|refuted \d+|aiger \d+ \d+")

# The verdicts that leave a trace; the others leave clauses and a proof.
TRACED = ("fail", "reached")


@dataclass
class Check:
    """A check, or a target of `cover`, with its verdict and the seconds that it took, or its batch."""
    name: str
    verdict: str
    seconds: float
    batch: bool = False
    budget: int = 0
    kept: bool = False


@dataclass
class Run:
    """What the lines said so far."""
    jobs: int = 1
    checks: list[Check] = field(default_factory=list)
    notes: list[str] = field(default_factory=list)
    skipped: list[str] = field(default_factory=list)
    listed: list[str] = field(default_factory=list)
    others: list[str] = field(default_factory=list)
    refusal: str = ""
    total: str = ""
    code: int | None = None
    seconds: float = 0.0
    _last: float = 0.0
    _batch: float = 0.0

    def take(self, line: str, at: float) -> None:
        """Takes a line that came so many seconds after the run began; one that isn't known is kept as it is."""
        self.seconds = at
        found = re.fullmatch(r"(pass|fail|reached|unreached) (\S+)|(spent) (\S+) (\d{1,18})", line)
        if found:
            self._check(found[2] or found[4], found[1] or found[3], int(found[5] or 0), at)
        elif line.startswith("note "):
            self.notes.append(line[5:])
        elif re.fullmatch(r"skip \S+", line):
            self.skipped.append(line[5:])
        elif not self.total and re.fullmatch(LAST, line):
            self.total = line
        elif re.fullmatch(r"[a-z_0-9]+_ch\d+", line):
            self.listed.append(line)
        elif not self.checks and not self.refusal and parted(line):
            self.refusal = line
        elif line.strip():
            self.others.append(line)

    def _check(self, name: str, verdict: str, budget: int, at: float) -> None:
        """A check's line; those of one batch come together, and have the batch's time."""
        if len(self.checks) % self.jobs == 0:
            self._batch = at - self._last
        self.checks.append(Check(name, verdict, self._batch, self.jobs > 1, budget))
        self._last = at

    def is_ours(self) -> bool:
        """Whether any line was one of rvf."""
        return bool(self.checks or self.notes or self.skipped or self.listed or self.refusal or self.total)

    def ended(self) -> bool:
        """Whether the run came to its end: its last line came, and its code is none of those that have no line. A list
        of checks has no last line of its own."""
        return self.code not in WITHOUT_A_LINE and bool(self.total or self.refusal or self.is_list())

    def is_list(self) -> bool:
        """Whether these are the lines of a list of checks."""
        return bool(self.listed) and not self.checks

    def end(self) -> str:
        """How the run ended, in words."""
        if self.code in WITHOUT_A_LINE:
            return f"code {self.code}: {CODES[self.code]}"
        if self.refusal:
            return f"refused: {self.refusal}"
        if self.total or self.is_list():
            return self.total or f"{len(self.listed)} checks are asked for"
        said = f" (code {self.code})" if self.code is not None else ""
        return (f"the run ended without its last line{said}: it was stopped, a file or the output could not be written "
                "(code 8), or no memory was left (code 11)")

    def count(self, verdict: str) -> int:
        """How many checks have a verdict."""
        return sum(check.verdict == verdict for check in self.checks)

    def of_cover(self) -> bool:
        """Whether these are the lines of `cover`."""
        return any("reached" in check.verdict for check in self.checks) or self.total.startswith("total reached")

    def unmet(self) -> list[str]:
        """The kinds of which no run meets the assumptions, by their targets."""
        return [check.name for check in self.checks if check.verdict == "unreached" and check.name.startswith("any_")]
