#!/usr/bin/env python3
"""Makes reports of the lines and files of a run of rvf. Nothing of it is trusted by a verdict."""
import sys

from rvf_companion.report import main

if __name__ == "__main__":
    sys.exit(main())
