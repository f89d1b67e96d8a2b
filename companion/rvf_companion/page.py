"""The page of a run: one file without anything from outside. Nothing here is trusted by a verdict."""
from __future__ import annotations

from dataclasses import dataclass, field
from html import escape

from .run_lines import TRACED, Check, Run

STYLE = """
body { font-family: sans-serif; margin: 2em; color: #222; background: #fff; max-width: 90em }
table { border-collapse: collapse } td, th { padding: .25em .8em; text-align: left; border-bottom: 1px solid #ddd }
td { vertical-align: top } td:not(:last-child) { white-space: nowrap }
td.number { text-align: right; font-variant-numeric: tabular-nums }
.pass, .reached { color: #17692b } .fail, .unreached.any { color: #b01020; font-weight: bold }
.spent, .unreached { color: #8a5a00 }
pre, code { font-family: monospace; background: #f4f4f4; padding: .1em .3em } pre { padding: .6em; overflow-x: auto }
.wave { display: block; margin: .8em 0; background: #fcfcfc; border: 1px solid #ddd; overflow: visible }
.wave text { font: 12px monospace; fill: #222 } .wave .name { fill: #555 } .wave .head { font-weight: bold }
.wave .clock { fill: none; stroke: #357; stroke-width: 1.5 }
.wave .value { fill: #eef3fa; stroke: #9ab } .wave .value.check { fill: #fff0d8; stroke: #c90 }
.wave .value.quiet { fill: #f7f7f7; stroke: #ddd } .wave .digits.quiet { fill: #bbb }
.scroll { overflow-x: auto } .notice { background: #fff4d6; padding: .6em 1em; border-left: 4px solid #d9a400 }
"""


@dataclass
class Shown:
    """What the page shows of a check beside its line."""
    check: Check
    clauses: int | None = None
    steps: int | None = None
    kind: str = ""
    lines: list[str] = field(default_factory=list)
    picture: str = ""
    command: str = ""


def seconds(check: Check) -> str:
    """The time of a check, or of its batch."""
    if check.kept:
        return "kept"
    return f"{check.seconds:.2f} s" + (" (its batch)" if check.batch else "")


def many(count: int | None) -> str:
    """A number, or nothing."""
    return "" if count is None else f"{count:,}"


def row(shown: Shown) -> str:
    """The row of a check."""
    check = shown.check
    verdict = f"spent at {check.budget:,}" if check.verdict == "spent" else check.verdict
    plain = escape(check.name)
    name = f'<a href="#{plain}">{plain}</a>' if check.verdict in TRACED else plain
    styled = check.verdict + " any" * check.name.startswith("any_")
    command = f"<code>{escape(shown.command)}</code>" if shown.command else ""
    return (f'<tr class="check" data-name="{plain}"><td>{name}</td><td class="{styled}">{verdict}</td>'
            f'<td class="number">{seconds(check)}</td><td class="number">{many(shown.clauses)}</td>'
            f'<td class="number">{many(shown.steps)}</td><td>{command}</td></tr>')


def traced(shown: Shown) -> str:
    """What is told of a check that has a trace: one that fails, or a target that is reached."""
    lines = "".join(f"<li>{escape(line)}</li>" for line in shown.lines)
    name = escape(shown.check.name)
    return (f'<h2 id="{name}" class="{shown.check.verdict}">{name}</h2>\n<ul>{lines}</ul>\n'
            f'<div class="scroll">{shown.picture}</div>\n<p>All of the trace: <code>{escape(shown.command)}</code></p>')


def counts(run: Run) -> str:
    """How many checks or targets have each verdict."""
    if run.of_cover():
        return f"{run.count('reached')} reached, {run.count('unreached')} unreached, {run.count('spent')} spent"
    return (f"{run.count('pass')} pass, {run.count('fail')} fail, {run.count('spent')} spent, "
            f"{len(run.skipped)} skipped")


def page(run: Run, checks: list[Shown], explained: list[str], title: str, before: str = "") -> str:
    """The whole page; where the one of a run before this one was moved, `before` is its new name."""
    parts = ["<!DOCTYPE html>", '<html lang="en"><head><meta charset="utf-8">', f"<title>{escape(title)}</title>",
             f"<style>{STYLE}</style></head><body>", f"<h1>{escape(title)}</h1>",
             f"<p>{counts(run)}; {run.seconds:.1f} s. This page was made by the companion, of which nothing is trusted "
             "by a verdict.</p>"]
    if not run.ended() or run.refusal:
        parts.append(f'<p class="notice">{escape(run.end())}</p>')
    if before:
        parts.append(f'<p class="notice">The page of a run before this one, which came to its end, is kept as '
                     f'<a href="{before}">{before}</a>.</p>')
    if explained:
        parts.append("<pre>" + escape("\n".join(explained)) + "</pre>")
    parts += [f'<p class="notice">note {escape(note)}</p>' for note in run.notes]
    if run.unmet():
        parts.append(f'<p class="notice">No run meets the assumptions up to the cycle of {escape(", ".join(run.unmet()))}: '
                     "the checks of the kind up to it pass whatever the core does.</p>")
    if run.jobs > 1:
        parts.append(f"<p>{run.jobs} checks were judged beside each other, so each time is that of a batch.</p>")
    if checks:
        parts.append('<table id="checks"><tr><th>check</th><th>verdict</th><th>time</th><th>clauses</th><th>steps</th>'
                     "<th>to see for yourself</th></tr>")
        parts += [row(shown) for shown in checks] + ["</table>"]
    if run.listed:
        parts.append("<p>Asked for: " + escape(", ".join(run.listed)) + "</p>")
    if run.skipped:
        parts.append("<p>Skipped, which claims nothing: " + escape(", ".join(run.skipped)) + "</p>")
    if run.others:
        parts.append("<h2>Other lines</h2><pre>" + escape("\n".join(run.others)) + "</pre>")
    parts += [traced(shown) for shown in checks if shown.check.verdict in TRACED]
    return "\n".join(parts + ["</body></html>", ""])
