"""Reads the tables of refusals of docs/USER.md; `python3 -m tests.manual` makes the companion's table of them anew."""
from __future__ import annotations

import json
import re
from pathlib import Path

COMPANION = Path(__file__).resolve().parents[1]
USER = COMPANION.parent / "docs" / "USER.md"


def rows(text: str, heading: str) -> list[list[str]]:
    """The cells of the table under a head line."""
    lines = text[text.index(heading):].splitlines()
    found = []
    for line in lines[2:]:
        if not line.startswith("|"):
            break
        found.append([cell.strip().replace("\\|", "|") for cell in re.split(r"(?<!\\)\|", line)[1:-1]])
    return found


def manual() -> dict[str, dict[str, str]]:
    """What the manual says of each refusal, by part and number, or by the line's first words."""
    text = USER.read_text()
    table = {}
    for part, number, refusal, _, advice in rows(text, "| part | number | refusal |"):
        table[f"{part} {number}"] = {"refusal": refusal, "advice": advice}
    for number, refusal, _, advice in rows(text, "| number | refusal | where |"):
        table[f"config {number}"] = {"refusal": refusal, "advice": advice}
    for line, code, advice in rows(text, "| line | code | what to do |"):
        if line != "none" and not line.startswith(("`config", "`source")):
            for spelled in re.findall(r"`([^`]+)`", line):
                words = [word for word in spelled.replace("...", "").split() if not word.isupper()]
                table[" ".join(words)] = {"refusal": "", "advice": advice}
        elif line == "none":
            table[f"code {code}"] = {"refusal": "", "advice": advice}
    return table


if __name__ == "__main__":
    path = COMPANION / "rvf_companion" / "refusals.json"
    path.write_text(json.dumps(manual(), indent=1) + "\n", encoding="utf-8")
