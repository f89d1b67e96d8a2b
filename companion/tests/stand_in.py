"""A program that stands in for rvf in the tests: it answers by a file `script` in the folder of the configuration, or
in one above it, line by line.

Each check of the script has a verdict, and gets files as rvf writes them. It says nothing of any design.
"""
from __future__ import annotations

import re
import sys
import time
from pathlib import Path

DUMP = """$timescale 1 ns $end
$scope module rvfi_wrapper $end
$var wire 1 ! rvfi_valid $end
$var wire 64 " rvfi_order $end
$var wire 32 # rvfi_insn $end
$var wire 5 $ rvfi_rd_addr $end
$var wire 32 % rvfi_rd_wdata $end
$var wire 32 & rvfi_pc_rdata $end
$var wire 32 ' rvfi_pc_wdata $end
$upscope $end
$enddefinitions $end
#0
$dumpvars
0!
b0 "
b0 #
b0 $
b0 %
b0 &
b0 '
$end
#1
1!
b1 "
b10100000000000010010011 #
b1 $
b110 %
b1000 &
b1100 '
#2
"""


def main() -> int:
    """Answers `list CFG` and `run CFG OUTDIR ..`."""
    command, cfg = sys.argv[1:3]
    text = Path(cfg).read_text()
    script = next(folder / "script" for folder in Path(cfg).resolve().parents if (folder / "script").exists())
    lines = script.read_text().splitlines()
    kinds = {line.split()[0] for line in text.splitlines() if re.match(r"[a-z_]+ \d", line)}
    for line in lines:
        words = line.split()
        if words[0] in ("pass", "fail", "spent"):
            kind = words[1].rsplit("_", 1)[0]
            if ("insn" if kind.startswith("insn_") else kind) not in kinds:
                continue
            if command == "list":
                print(words[1])
                continue
            base = Path(sys.argv[3]) / words[1]
            if words[0] == "fail":
                base.with_name(words[1] + ".vcd").write_text(DUMP)
            else:
                base.with_name(words[1] + ".cnf").write_text("c note\np cnf 1 2\n1 0\n-1 0\n")
                base.with_name(words[1] + ".lrat").write_text("3 0 1 2 0\n4 d 1 0\n")
        if command == "run" and words[0] == "code":
            return int(words[1])
        if command == "run" and words[0] == "sleep":
            sys.stdout.flush()
            time.sleep(float(words[1]))
        elif command == "run":
            print(line, flush=True)
    return 0


if __name__ == "__main__":
    sys.exit(main())
