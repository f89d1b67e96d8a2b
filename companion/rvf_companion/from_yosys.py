"""The command `from-yosys.py`: from the files of a core to one file of the subset. Nothing here is trusted by a
verdict."""
from __future__ import annotations

import argparse
import json
import sys
import tempfile
from pathlib import Path

from .configuration import Configuration, kind_of, over_one_file, read_configuration
from .convert import Converted, Refused, convert
from .netlist import NoNetlist, read
from .text import MADE
from .yosys import Core, YosysFailed, run


def arguments() -> argparse.ArgumentParser:
    """The words of the command."""
    words = argparse.ArgumentParser(prog="from-yosys.py", description=(
        "Makes one Verilog file of the subset that rvf reads, of any core that Yosys reads. Nothing of it is trusted "
        "by a verdict: what is checked is the written file."))
    words.add_argument("--top", required=True, metavar="NAME", help="the module that is converted, with all below it")
    words.add_argument("--cfg", metavar="CFG", help="a configuration whose [defines] and isa stand before the files; "
                       "where the top is rvfi_wrapper, one file for each kind that has defines of its own")
    words.add_argument("--define", action="append", default=[], metavar="NAME[=TEXT]", help="a macro before the files")
    words.add_argument("--set", action="append", default=[], type=setting, metavar="NAME=VALUE",
                       help="a parameter of the top module")
    words.add_argument("--out", metavar="FOLDER", default=".", help="where NAME.v and NAME.names.json are written (.)")
    words.add_argument("--netlist", metavar="JSON", help="a stored netlist of write_json, in place of files")
    words.add_argument("files", nargs="*", metavar="FILES", help="what Yosys reads, in order")
    return words


def setting(word: str) -> tuple[str, str]:
    """A parameter with its value."""
    name, sign, value = word.partition("=")
    if not name or not sign or not value:
        raise argparse.ArgumentTypeError(f"{word!r} isn't NAME=VALUE")
    return name, value


def define_line(word: str) -> str:
    """The line of a macro that the command line gives."""
    name, _, body = word.partition("=")
    return f"`define {name} {body}".rstrip()


def converted(core: Core) -> Converted:
    """Runs Yosys and converts what it leaves."""
    with tempfile.TemporaryDirectory() as folder:
        before, after = run(core, Path(folder))
        first = read(before, core.top)
        latches = [cell for cell in first.cells if "latch" in cell.kind or cell.kind in ("$sr", "$ff")]
        if latches:
            raise Refused([f"a latch: {first.called(cell)} at {first.place(cell)}" for cell in latches])
        return convert(read(after, core.top), "From " + " ".join(str(path) for path in core.files))


def deliver(folder: Path, name: str, made: Converted) -> None:
    """Writes the file and the table of its names, and tells what there is to tell."""
    (folder / f"{name}.v").write_text(made.text)
    (folder / f"{name}.names.json").write_text(json.dumps(made.names, indent=1) + "\n")
    print("\n  ".join([f"{folder / name}.v", *made.notes]))


def deliver_configurations(folder: Path, configuration: Configuration, kinds: list[str | None]) -> None:
    """Writes a configuration beside each converted wrapper: that of a kind has its depth lines alone, the first one
    those of the kinds without one of their own."""
    present = {kind_of(word)[0] for _, word, _ in configuration.depths()}
    own = {kind for kind in kinds if kind}
    for kind in kinds:
        base = folder / ("rvfi_wrapper" if kind is None else f"rvfi_wrapper.{kind}")
        text = over_one_file(configuration, own if kind is None else present - {kind}, Path(f"{base}.v"))
        if text:
            Path(f"{base}.cfg").write_text(text)
            print(f"{base}.cfg: the configuration over it")


def would_overwrite(paths: list[Path], given: list[str]) -> str:
    """The first of the files to be written that is read, or that somebody else made, and why it may not be written;
    nothing where none is."""
    read_files = {Path(name).resolve() for name in given}
    for path in paths:
        if path.resolve() in read_files:
            return f"{path} is one of the files that are read"
        if path.exists() and not is_made_here(path):
            return f"{path} stands there, and wasn't made by from-yosys.py"
    return ""


def is_made_here(path: Path) -> bool:
    """Whether a file is one that this script wrote."""
    try:
        text = path.read_text(encoding="utf-8")
        if path.suffix == ".json":
            table = json.loads(text)
            return isinstance(table, dict) and all(isinstance(old, str) for old in table.values())
        return MADE in text
    except (OSError, ValueError):
        return False


def of_netlist(path: Path, top: str) -> Converted:
    """Converts a stored netlist, which somebody else may have made."""
    try:
        return convert(read(path, top), f"From {path}")
    except (KeyError, IndexError, ValueError, TypeError, AttributeError) as fault:
        raise NoNetlist(f"{path} isn't as write_json leaves a netlist: {fault!r}") from None


def core_of(asked: argparse.Namespace, configuration: Configuration, kind: str | None) -> Core:
    """The files with what stands before them for a kind."""
    defines = [define_line(word) for word in asked.define] + configuration.defines_of(kind)
    return Core(asked.top, [Path(name) for name in asked.files], defines,
                dict(asked.set), configuration.isa.endswith("c"), configuration.channels)


def main(words: list[str] | None = None) -> int:
    """Converts as the words say. Ends with 0, or with 1 and what is refused, one line each."""
    asked = arguments().parse_args(words)
    folder = Path(asked.out)
    if not folder.is_dir():
        print(f"from-yosys: {folder} is no folder", file=sys.stderr)
        return 1
    if bool(asked.netlist) == bool(asked.files):
        print("from-yosys: give FILES, or --netlist", file=sys.stderr)
        return 1
    try:
        configuration = read_configuration(Path(asked.cfg)) if asked.cfg else Configuration()
        kinds = [None, *configuration.kinds_with_defines()] if asked.top == "rvfi_wrapper" else [None]
        names = [asked.top if kind is None else f"{asked.top}.{kind}" for kind in kinds]
        endings = [".v", ".names.json", *([".cfg"] if asked.cfg and asked.top == "rvfi_wrapper" else [])]
        lost = would_overwrite([folder / (name + ending) for name in names for ending in endings],
                               [*asked.files, asked.netlist or "", asked.cfg or ""])
        if lost:
            print(f"from-yosys: {lost}: give another folder by --out", file=sys.stderr)
            return 1
        if asked.netlist:
            deliver(folder, asked.top, of_netlist(Path(asked.netlist), asked.top))
            return 0
        # All are converted before one is written.
        made = [converted(core_of(asked, configuration, kind)) for kind in kinds]
        for name, one in zip(names, made):
            deliver(folder, name, one)
        if asked.cfg and asked.top == "rvfi_wrapper":
            deliver_configurations(folder, configuration, kinds)
        return 0
    except (Refused, YosysFailed, NoNetlist, OSError, UnicodeError) as refusal:
        for line in str(refusal).splitlines():
            print(f"from-yosys: {line}", file=sys.stderr)
    return 1
