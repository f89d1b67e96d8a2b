"""Makes the stored netlists of data/netlists anew, from the folder of the companion:
`python3 -m tests.store_netlists [NAME ..]`."""
from __future__ import annotations

import shutil
import sys
import tempfile
from pathlib import Path

from rvf_companion.yosys import Core, run

DATA = Path("data")


def store(path: Path) -> None:
    """Stores the netlist of a file; of a latch that before `async2sync`, which takes it away."""
    top = "rvfi_wrapper" if path.stem == "assumed" else path.stem
    with tempfile.TemporaryDirectory() as folder:
        before, after = run(Core(top, [path]), Path(folder))
        shutil.copy(before if path.stem == "latch" else after, DATA / "netlists" / f"{path.stem}.json")


def main() -> None:
    """Stores those that are named, or all."""
    names = ("assumed.v", "operators.v", "serial.v", "states.v", "styled.sv")
    paths = sorted([*(DATA / "refused").glob("*.v"), *(DATA / "cores" / name for name in names)])
    for path in paths:
        if not sys.argv[1:] or path.stem in sys.argv[1:]:
            store(path)


if __name__ == "__main__":
    main()
