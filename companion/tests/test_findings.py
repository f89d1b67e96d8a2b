"""What a page says of a trace, by the kind of its check: the retirements or the address that the property compares."""
from __future__ import annotations

import unittest

from rvf_companion.dump import Dump
from rvf_companion.findings import Asked, findings
from rvf_companion.instructions import Options, assembled
from rvf_companion.picture import picture
from rvf_companion.rvfi import FIELDS


def dump(*cycles: list[dict[str, int]], **others: int) -> Dump:
    """A dump whose cycles have these retirements, the channels upwards; a channel without fields retires nothing."""
    channels = len(cycles[0])
    found = []
    for retired in cycles:
        values = dict(others)
        for name, width in FIELDS.items():
            number = 0
            for channel, fields in enumerate(retired):
                value = fields.get(name, int(bool(fields)) if name == "valid" else 0)
                number |= value << channel * width
            values[f"rvfi_{name}"] = number
        found.append(values)
    widths = {f"rvfi_{name}": width * channels for name, width in FIELDS.items()} | {name: 32 for name in others}
    return Dump(widths, found)


def asked(kind: str, *depths: int, channel: int = 0, channels: int = 1) -> Asked:
    """A check of that kind."""
    return Asked(kind, channel, channels, list(depths), Options())


NONE: dict[str, int] = {}
ADDI = assembled("addi", 1, 2, 0, 5)
WRITE = {"order": 1, "insn": ADDI, "rd_addr": 2, "rd_wdata": 7, "pc_rdata": 4, "pc_wdata": 8}
READ = {"order": 2, "insn": ADDI, "rs1_addr": 2, "rs1_rdata": 9, "pc_rdata": 12, "pc_wdata": 16}


class Kinds(unittest.TestCase):
    """Each kind of checks."""

    def says(self, trace: Dump, check: Asked, *parts: str) -> None:
        """Each part stands in a line of what is said, in their order."""
        said = findings(trace, check)
        self.assertEqual(len(said), len(parts), said)
        for line, part in zip(said, parts):
            self.assertIn(part, line)

    def test_ill(self) -> None:
        """What the word does."""
        self.says(dump([NONE], [{"insn": 0x10000, "rd_addr": 3}]), asked("ill", 1), "trap 0, rd 3, mem_wmask 0")

    def test_reg(self) -> None:
        """The last write of the register, by the orders."""
        self.says(dump([NONE], [WRITE], [READ]), asked("reg", 1, 2), "cycle 2: order 2",
                  "rvfi_rs1_rdata of x2 is 0x00000009, and the last write of it was", "cycle 1: order 1")

    def test_pc(self) -> None:
        """The retirement before it and behind it in order."""
        self.says(dump([NONE], [WRITE], [READ]), asked("pc_fwd", 1, 2), "cycle 2",
                  "its address isn't where the one before it goes on, cycle 1")
        self.says(dump([NONE], [READ], [WRITE]), asked("pc_bwd", 1, 2), "cycle 2",
                  "it doesn't go on at the address of the one behind it, cycle 1")

    def test_causal(self) -> None:
        """The reader that came too early."""
        self.says(dump([NONE], [READ], [WRITE]), asked("causal", 1, 2), "cycle 2", "x2 was read before that by cycle 1")

    def test_trigger(self) -> None:
        """The retirement at the trigger, and the other one of its order, or that none has the next one."""
        trace = dump([NONE], [WRITE], [NONE], [{**READ, "order": 1}])
        self.says(trace, asked("unique", 1, 1, 3), "at the trigger, cycle 1", "the same order in cycle 3")
        self.says(trace, asked("liveness", 1, 1, 3), "at the trigger, cycle 1",
                  "no retirement up to the end has the order 2")
        self.says(trace, asked("unique", 1, 2, 3), "nothing retires at the trigger")

    def test_memory(self) -> None:
        """The watched address, and the byte that differs."""
        self.says(dump([NONE], [{**READ, "pc_rdata": 8}], imem_addr=10, imem_data=0x1234), asked("imem", 1),
                  "cycle 1", "imem_addr is 0x0000000a, imem_data 0x1234")
        store = {"order": 1, "insn": ADDI, "mem_addr": 16, "mem_wmask": 2, "mem_wdata": 0xAB00}
        load = {"order": 2, "insn": ADDI, "mem_addr": 16, "mem_rmask": 15, "mem_rdata": 0xCD00}
        self.says(dump([NONE], [store], [load], dmem_addr=16), asked("dmem", 1, 2), "cycle 2",
                  "dmem_addr is 0x00000010", "byte 1 is read as 0xcd and was written as 0xab in cycle 1")

    def test_two_channels(self) -> None:
        """The other channel of the check's cycle counts too, by the orders."""
        trace = dump([NONE, NONE], [READ, WRITE])
        self.says(trace, asked("reg", 1, 1, channels=2), "cycle 1: order 2", "rvfi_rs1_rdata", "cycle 1: order 1")
        self.says(trace, asked("pc_fwd", 1, 1, channels=2), "order 2", "cycle 1: order 1")
        self.says(trace, asked("pc_bwd", 1, 1, channel=1, channels=2), "order 1", "cycle 1: order 2")
        self.assertIn("addi x1, x2, 5", picture(trace, 1, 2))

    def test_empty(self) -> None:
        """A trace in which nothing retires in the check's cycle says so."""
        self.says(dump([NONE], [NONE]), asked("insn", 1), "nothing retires in the check's cycle")
