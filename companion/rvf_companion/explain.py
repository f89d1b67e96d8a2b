"""The command `explain.py`: refusal lines of rvf in words. Nothing here is trusted by a verdict."""
from __future__ import annotations

import argparse
import sys

from .explanation import explain


def main(words: list[str] | None = None) -> int:
    """Explains a line that is given, or each line of standard input; lines of other kinds pass through as they are."""
    asked = argparse.ArgumentParser(prog="explain.py", description=(
        "Says a refusal line of rvf in words, with the text's line and a caret under the place. Run it in the folder "
        "in which rvf was run. Nothing of it is trusted by a verdict."))
    asked.add_argument("--cfg", default="", metavar="CFG", help="the configuration, whose lines are shown too")
    asked.add_argument("line", nargs="*", metavar="LINE",
                       help="the line, as one word or several; standard input without it")
    given = asked.parse_args(words)
    try:
        for line in [" ".join(given.line)] if given.line else sys.stdin:
            print("\n".join(explain(line, given.cfg)), flush=True)
    except UnicodeDecodeError:
        print("explain: the input is no text", file=sys.stderr)
        return 1
    except BrokenPipeError:
        pass
    return 0
