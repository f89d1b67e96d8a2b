#!/usr/bin/env python3
"""Says refusal lines of rvf in words. Nothing of it is trusted by a verdict."""
import sys

from rvf_companion.explain import main

if __name__ == "__main__":
    sys.exit(main())
