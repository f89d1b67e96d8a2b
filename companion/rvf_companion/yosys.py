"""Runs Yosys over the files of a core. Nothing here is trusted by a verdict."""
from __future__ import annotations

import re
import subprocess
from dataclasses import dataclass, field
from pathlib import Path

from .rvfi import FIELDS

# What makes a flat netlist of processes; no pass that chooses for an undefined bit.
FLATTEN = "proc -norom; flatten; memory_collect; opt_clean"


class YosysFailed(Exception):
    """Yosys isn't there, or refuses the files."""


@dataclass(frozen=True)
class Core:
    """The files of a core, its top module, and what stands before them."""
    top: str
    files: list[Path]
    defines: list[str] = field(default_factory=list)
    parameters: dict[str, str] = field(default_factory=dict)
    compressed: bool = False
    channels: int = 1


def macros(core: Core) -> str:
    """The text that stands before the files: the predefined macros of docs/USER.md, and those of the configuration.
    Yosys defines FORMAL and YOSYS by itself, which rvf doesn't; with FORMAL some cores assume more than they say
    else."""
    many = core.channels
    names = [(f"rvfi_{name}", width) for name, width in FIELDS.items()]
    outputs = ", ".join(f"output [{many * width - 1}:0] {name}" for name, width in names)
    wires = " ".join(f"wire [{many * width - 1}:0] {name};" for name, width in names)
    joined = ", ".join(f".{name}({name})" for name, _ in names)
    lines = ["`undef FORMAL", "`undef YOSYS", "`define RISCV_FORMAL", f"`define RISCV_FORMAL_NRET {many}",
             "`define RISCV_FORMAL_XLEN 32", "`define RISCV_FORMAL_ILEN 32",
             "`define rvformal_rand_reg (* anyseq *) reg",
             "`define rvformal_const_rand_reg (* anyconst *) reg", "`define rvformal_rand_const_reg (* anyconst *) reg",
             f"`define RVFI_OUTPUTS {outputs}", f"`define RVFI_WIRES {wires}", f"`define RVFI_CONN {joined}"]
    if core.compressed:
        lines.append("`define RISCV_FORMAL_COMPRESSED")
    return "\n".join(lines + core.defines) + "\n"


def script(core: Core, dialect: str, prelude: Path, before: Path, after: Path) -> str:
    """The commands: the netlist is written before and after asynchronous resets are taken away."""
    lines = [f"read_verilog -formal {dialect} {quoted(prelude)}"]
    if core.parameters:
        sets = " ".join(f"-set {name} {value}" for name, value in core.parameters.items())
        lines.append(f"chparam {sets} {core.top}")
    lines += [f"hierarchy -check -top {core.top}", FLATTEN, f"write_json {quoted(before)}",
              f"async2sync; opt_clean; write_json {quoted(after)}"]
    return "\n".join(lines) + "\n"


def quoted(path: Path) -> str:
    """A file name as a word of a script."""
    return f'"{path}"'


def run(core: Core, folder: Path) -> tuple[Path, Path]:
    """Runs Yosys in the caller's folder, so that places are told by the names that the caller gave."""
    prelude, before, after = folder / "macros.v", folder / "before.json", folder / "after.json"
    # One text, as it is one for rvf; places are those of the files that are put in.
    missing = [str(path) for path in core.files if not path.is_file()]
    if missing:
        raise YosysFailed(f"no such file: {', '.join(missing)}")
    prelude.write_text(macros(core) + "".join(f"`include \"{path}\"\n" for path in core.files))
    fault = ""
    # A core of Verilog may have names that are words of SystemVerilog.
    for dialect in ("-sv", ""):
        commands = folder / "convert.ys"
        commands.write_text(script(core, dialect, prelude, before, after))
        said = refusal(commands)
        if not said:
            return before, after
        fault = fault or said
        if "syntax error" not in said:
            break
    raise YosysFailed(fault)


def refusal(commands: Path) -> str:
    """Runs the commands; what Yosys says against the files, or nothing where it reads them."""
    try:
        done = subprocess.run(["yosys", "-q", "-s", str(commands)], capture_output=True, text=True, check=False)
    except FileNotFoundError:
        raise YosysFailed("yosys isn't there: install Debian's package yosys") from None
    if not done.returncode:
        return ""
    lines = (done.stdout + done.stderr).splitlines()
    told = "\n".join(line for line in lines if re.search(r"ERROR|error", line)) or "\n".join(lines)[-2000:]
    return told or f"yosys ended with the code {done.returncode}, and said nothing"
