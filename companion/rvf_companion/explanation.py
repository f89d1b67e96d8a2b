"""Refusal lines of rvf in words, with the text's line and a caret under the place. Nothing here is trusted by a
verdict."""
from __future__ import annotations

import json
import re
from dataclasses import dataclass
from pathlib import Path

from .constructs import construct_at

TABLE = json.loads((Path(__file__).with_name("refusals.json")).read_text())


@dataclass(frozen=True)
class Refusal:
    """A refusal line, parted: its key in the table, its place and its other values."""
    key: str
    file: str
    line: int
    column: int
    detail: str


def parted(line: str) -> Refusal | None:
    """The parts of a refusal line; nothing where it is no refusal line."""
    found = re.fullmatch(r"source (\w+) (\d{1,9}) (\S.*?|-) (\S+)", line)
    if found and f"{found[1]} {found[2]}" in TABLE:
        place = re.fullmatch(r"(.*):(\d{1,9}):(\d{1,9})", found[3])
        file, at, column = (place[1], int(place[2]), int(place[3])) if place else ("", 0, 0)
        return Refusal(f"{found[1]} {found[2]}", file, at, column, "" if found[4] == "-" else found[4])
    found = re.fullmatch(r"config (\d{1,9}) (\d{1,9}) (.*)", line)
    if found and f"config {found[1]}" in TABLE:
        return Refusal(f"config {found[1]}", "", int(found[2]), 0, "" if found[3] == "-" else found[3])
    found = re.fullmatch(r"code (\d+)", line)
    if found and line in TABLE:
        return Refusal(line, "", 0, 0, "")
    for key in ("refused cnf", "refused lrat", "refused step", "refused aiger", "refused check", "read fault", "absent",
                "heavy", "usage:"):
        if key in TABLE and line.startswith(key + " "):
            return Refusal(key, "", 0, 0, line[len(key) + 1:])
    return None


def shown(text: str, line: int, column: int) -> list[str]:
    """The text's line and a caret under the place, as compilers print it."""
    lines = text.split("\n")
    if not 1 <= line <= len(lines):
        return []
    # A sign without a shape of its own takes one place, so that the caret stays under its own.
    spelled = "".join(sign if sign.isprintable() else " " for sign in lines[line - 1].rstrip("\r"))
    mark = f"{line:5} | "
    found = [mark + spelled]
    return found + [" " * 5 + " | " + " " * (column - 1) + "^"] if column else found


def text_of(path: str) -> str:
    """The text of a file, or nothing where it can't be read."""
    try:
        return Path(path).read_bytes().decode("utf-8", "replace")
    except (OSError, ValueError):
        return ""


def explain(line: str, cfg: str = "") -> list[str]:
    """The lines that explain a refusal; a line that is none is given back as it is."""
    refusal = parted(line.rstrip("\n"))
    if refusal is None:
        return [line.rstrip("\n")]
    entry = TABLE[refusal.key]
    file = refusal.file or (cfg if refusal.key.startswith("config") else "")
    place = ":".join(str(part) for part in (file, refusal.line, refusal.column) if part)
    said = [place] if file and refusal.line else []
    said += [entry["refusal"], refusal.detail] if entry["refusal"] else [line.rstrip("\n")]
    lines = [": ".join(part for part in said if part)]
    text = text_of(file) if file else ""
    lines += shown(text, refusal.line, refusal.column)
    if refusal.key == "parse 1" or refusal.detail == "or":
        found = construct_at(text, refusal.line, refusal.column)
        if found:
            lines.append(f"this looks like {found.name}: {found.instead}")
    for other in re.findall(r"([^,\s]+):(\d{1,9}):(\d{1,9})", refusal.detail):
        lines += [f"and {other[0]}:{other[1]}:{other[2]}"] + shown(text_of(other[0]), int(other[1]), int(other[2]))
    return lines + [f"what to do: {entry['advice']}"]
