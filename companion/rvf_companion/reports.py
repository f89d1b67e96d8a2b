"""The three reports of a run: for machines that read JUnit, for other scripts, and a page. Nothing here is trusted by a
verdict."""
from __future__ import annotations

import json
import os
import re
import shlex
from dataclasses import dataclass, field
from pathlib import Path
from xml.etree import ElementTree

from .configuration import Configuration, kind_of
from .dump import BrokenDump, read_dump
from .explanation import explain
from .findings import Asked, findings
from .instructions import Options
from .page import Shown, page
from .picture import picture
from .run_lines import TRACED, Check, Run
from .written import NAMES, before

# What may not stand in a text of XML.
NOT_OF_XML = re.compile("[^\t\n\r\x20-\ud7ff\ue000-\ufffd\U00010000-\U0010ffff]")


@dataclass(frozen=True)
class Setting:
    """Where the files of a run are, and what it was asked."""
    outdir: Path
    configuration: Configuration
    cfg: str
    program: str = "rvf"
    core: str = "core"
    basedir: str = "."
    sums: dict = field(default_factory=dict)
    before: list[dict] = field(default_factory=list)

    def read(self) -> list[str]:
        """The names of the files that the run reads."""
        return [self.cfg, *self.configuration.files(self.core, self.basedir)]


def options_of(setting: Setting, run: Run, kind: str) -> Options:
    """The options of a check's text, as far as its lines and its files say them."""
    text = "\n".join(setting.configuration.defines_of(kind))
    for name in setting.configuration.files(setting.core, setting.basedir):
        try:
            text += "\n" + Path(name).read_text(errors="replace")
        except OSError:
            pass
    aligned = re.search(r"^\s*`define\s+RISCV_FORMAL_ALIGNED_MEM\b", text, re.M) is not None
    return Options(aligned, "altops" in run.notes, setting.configuration.isa.endswith("c"))


def asked_of(setting: Setting, run: Run, name: str) -> Asked:
    """What a check asks, by the configuration."""
    kind, channel = kind_of(name)
    depths: list[int] = []
    for _, first, numbers in setting.configuration.depths():
        if first == f"{kind}_ch{channel}" or first == kind and not depths:
            depths = [int(word) for word in numbers if re.fullmatch(r"\d{1,9}", word)]
    return Asked(kind, channel, setting.configuration.channels, depths, options_of(setting, run, kind))


def shown(setting: Setting, run: Run, check: Check) -> Shown:
    """What the page shows of a check: its files, and its trace where it has one."""
    base = setting.outdir / check.name
    quoted = shlex.quote(str(base))
    found = Shown(check, kind=kind_of(check.name)[0])
    if check.verdict not in TRACED:
        found.clauses = clauses_of(base.with_name(check.name + ".cnf"))
        found.steps = steps_of(base.with_name(check.name + ".lrat"))
        if check.verdict != "spent":
            found.command = f"{setting.program} lrat {quoted}.cnf {quoted}.lrat"
        return found
    found.command = f"gtkwave {quoted}.vcd"
    try:
        dump = read_dump(base.with_name(check.name + ".vcd"))
    except BrokenDump as fault:
        found.lines = [f"the trace can't be shown: {fault}"]
        return found
    asked = asked_of(setting, run, check.name)
    if check.verdict == "reached":
        found.picture = picture(dump, asked.channel, asked.channels)
        return found
    found.lines = findings(dump, asked)
    if asked.depths and len(dump.cycles) != asked.depths[-1] + 1:
        found.lines.insert(0, f"the trace has {len(dump.cycles)} cycles, and the check is at cycle {asked.depths[-1]}: "
                              "is it of another run, or cut off?")
    found.picture = picture(dump, asked.channel, asked.channels)
    return found


def clauses_of(path: Path) -> int | None:
    """How many clauses a clause file says that it has."""
    try:
        with path.open(errors="replace") as file:
            for line in file:
                if line.startswith("p cnf "):
                    return int(line.split()[3])
    except (OSError, ValueError, IndexError):
        pass
    return None


def steps_of(path: Path) -> int | None:
    """How many clauses the steps of a proof add."""
    try:
        with path.open(errors="replace") as file:
            return sum(line.split(None, 2)[1:2] != ["d"] for line in file if line.strip())
    except OSError:
        return None


def junit(run: Run, checks: list[Shown], explained: list[str]) -> str:
    """The report in the form of JUnit: one case a check."""
    broken = not run.ended() or bool(run.refusal)
    suite = ElementTree.Element("testsuite", name="rvf", tests=str(len(checks) + broken),
                                failures=str(run.count("fail") + len(run.unmet())),
                                errors=str(run.count("spent") + broken), skipped="0", time=f"{run.seconds:.3f}")
    for one in checks:
        check = one.check
        case = ElementTree.SubElement(suite, "testcase", classname=one.kind, name=check.name,
                                      time=f"{check.seconds:.3f}")
        if check.verdict == "fail":
            failure = ElementTree.SubElement(case, "failure", message="a run of the design violates the check")
            failure.text = "\n".join(one.lines)
        elif check.name in run.unmet():
            ElementTree.SubElement(case, "failure", message="no run meets the assumptions up to that cycle").text = ""
        elif check.verdict == "spent":
            ElementTree.SubElement(case, "error", message=f"the budget of {check.budget} clauses was used up").text = ""
        told = [check.verdict] if run.of_cover() else []
        if check.batch:
            told.append(f"the time is that of a batch of up to {run.jobs} checks")
        if check.kept:
            told.append("kept from a run before this one")
        if told:
            ElementTree.SubElement(case, "system-out").text = "; ".join(told)
    if broken:
        case = ElementTree.SubElement(suite, "testcase", classname="run", name="end", time="0")
        ElementTree.SubElement(case, "error", message=run.end()).text = "\n".join(explained)
    ElementTree.indent(suite)
    text = NOT_OF_XML.sub("?", ElementTree.tostring(suite, encoding="unicode"))
    return f'<?xml version="1.0" encoding="UTF-8"?>\n{text}\n'


def as_json(setting: Setting, run: Run, checks: list[Shown], explained: list[str]) -> str:
    """The report for other scripts."""
    listed = [{"name": one.check.name, "kind": one.kind, "verdict": one.check.verdict,
               "seconds": round(one.check.seconds, 3), "batch": one.check.batch, "kept": one.check.kept,
               "budget": one.check.budget, "clauses": one.clauses, "steps": one.steps, "findings": one.lines,
               "command": one.command} for one in checks]
    whole = {"configuration": setting.cfg, "jobs": run.jobs, "code": run.code, "seconds": round(run.seconds, 3),
             "ended": run.ended(), "end": run.end(), "explained": explained, "notes": run.notes,
             "skipped": run.skipped, "listed": run.listed, "others": run.others, "checks": listed,
             "before": setting.before, "sums": setting.sums}
    return json.dumps(whole, indent=1) + "\n"


def is_of_ended_run(outdir: Path) -> bool:
    """Whether the reports in the folder are of a run that came to its end."""
    try:
        return json.loads((outdir / "report.json").read_text(encoding="utf-8"))["ended"] is True
    except (OSError, ValueError, KeyError, TypeError):
        return False


def write_reports(setting: Setting, run: Run) -> list[Path]:
    """Writes the three files, each as a whole or not at all. Reports of a run that came to its end get other names
    where this one was cut off."""
    checks = [shown(setting, run, check) for check in run.checks]
    explained = explain(run.refusal, setting.cfg) if run.refusal else []
    paths = [setting.outdir / name for name in NAMES]
    moved = [path for path in paths if path.exists()] if not run.ended() and is_of_ended_run(setting.outdir) else []
    page_before = before(paths[-1]).name if moved or not run.ended() and before(paths[-1]).exists() else ""
    texts = [junit(run, checks, explained), as_json(setting, run, checks, explained),
             page(run, checks, explained, f"rvf {'cover' if run.of_cover() else 'run'} {setting.cfg}", page_before)]
    drafts = [path.with_name(f".{path.name}.new") for path in paths]
    try:
        for draft, text in zip(drafts, texts):
            draft.write_bytes(text.encode("utf-8", "replace"))
        for path in moved:
            os.replace(path, before(path))
        for draft, path in zip(drafts, paths):
            os.replace(draft, path)
    except OSError:
        for draft in drafts:
            draft.unlink(missing_ok=True)
        raise
    return paths
