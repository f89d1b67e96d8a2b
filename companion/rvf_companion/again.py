"""Which kinds of checks needn't be run again, and the configuration that leaves them out. Nothing here is trusted by a
verdict."""
from __future__ import annotations

import hashlib
import json
import shutil
from dataclasses import dataclass
from pathlib import Path

from .configuration import Configuration, kind_of
from .run_lines import Check

KEPT = {"name", "verdict", "seconds", "batch", "budget"}
CERTIFICATE = (".cnf", ".lrat")
ENDINGS = {"pass": CERTIFICATE, "unreached": CERTIFICATE, "spent": CERTIFICATE, "fail": (".vcd",), "reached": (".vcd",)}


@dataclass(frozen=True)
class Call:
    """A call of the program: what it reads, and its options."""
    program: str
    cfg: Path
    outdir: Path
    core: str
    basedir: str
    budget: int
    jobs: int


def sum_of(path: Path) -> str:
    """The sum of a file's bytes; nothing where it can't be read."""
    found = hashlib.sha256()
    try:
        with path.open("rb") as file:
            while block := file.read(1 << 20):
                found.update(block)
    except OSError:
        return ""
    return found.hexdigest()


def itself(program: Path) -> Path:
    """The program itself: `./rvf` of this repository is a script that builds it and then runs it."""
    built = program.resolve().parent / "crates" / "rvf" / "out" / "rvf"
    return built if built.exists() else program


def inputs_of(call: Call, configuration: Configuration) -> dict:
    """What the checks are made from: the sums of the program, of the configuration and of its files, and the
    options."""
    program = shutil.which(call.program)
    names = configuration.files(call.core, call.basedir)
    return {"program": sum_of(itself(Path(program))) if program else "", "cfg": sum_of(call.cfg),
            "files": {name: sum_of(Path(name)) for name in names}, "core": call.core, "basedir": call.basedir}


def outputs_of(outdir: Path, checks: list[Check]) -> dict[str, str]:
    """The sums of the files of checks."""
    names = [check.name + ending for check in checks for ending in ENDINGS[check.verdict]]
    return {name: sum_of(outdir / name) for name in names}


@dataclass(frozen=True)
class Former:
    """The checks of the runs before this one that were made from the same, as report.json has them, and the sums of
    their files."""
    checks: dict[str, dict]
    outputs: dict[str, str]


def former(call: Call, inputs: dict) -> Former:
    """What the report in the folder has of the same configuration, files, options and program."""
    try:
        report = json.loads((call.outdir / "report.json").read_text())
        checks = {one["name"]: one for one in [*report["before"], *report["checks"]]}
        is_whole = all(KEPT <= one.keys() and one["verdict"] in ENDINGS for one in checks.values())
        sums = report["sums"]
        if is_whole and sums["inputs"] == inputs and "" not in inputs["files"].values():
            return Former(checks, dict(sums["outputs"]))
    except (OSError, ValueError, KeyError, TypeError, AttributeError):
        pass
    return Former({}, {})


def kept_checks(call: Call, past: Former, listed: list[str]) -> list[Check]:
    """The checks of runs before this one whose kinds needn't be run again: all checks of the kind are there with their
    files; none of them is spent under a smaller budget."""
    by_kind: dict[str, list[str]] = {}
    for name in listed:
        by_kind.setdefault(kind_of(name)[0], []).append(name)
    before, kept = past.checks, []
    for names in by_kind.values():
        found = [before[name] for name in names if name in before and stands(call, before[name], past.outputs)]
        if len(found) == len(names):
            kept += [Check(one["name"], one["verdict"], one["seconds"], one["batch"], one["budget"], True)
                     for one in found]
    return kept


def stands(call: Call, one: dict, outputs: dict[str, str]) -> bool:
    """Whether a check's files are those of the run before, and its budget was no smaller where it is spent."""
    if one["verdict"] == "spent" and one["budget"] < call.budget:
        return False
    names = [one["name"] + ending for ending in ENDINGS[one["verdict"]]]
    return all(outputs.get(name) and outputs[name] == sum_of(call.outdir / name) for name in names)
