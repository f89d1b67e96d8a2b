#!/usr/bin/env python3
"""Runs rvf with reports. Nothing of it is trusted by a verdict."""
import sys

from rvf_companion.run import main

if __name__ == "__main__":
    sys.exit(main())
