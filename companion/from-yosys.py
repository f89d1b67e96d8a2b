#!/usr/bin/env python3
"""Makes one Verilog file of the subset of any core that Yosys reads. Nothing here is trusted by a verdict: what is
checked is the written file."""
import sys

from rvf_companion.from_yosys import main

if __name__ == "__main__":
    sys.exit(main())
