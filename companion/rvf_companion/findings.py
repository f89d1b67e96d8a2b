"""What a trace shows of the property that its check violates, in words. Nothing here is trusted by a verdict."""
from __future__ import annotations

from dataclasses import dataclass

from .dump import Dump
from .instructions import Options, assembler, differences, effect


@dataclass(frozen=True)
class Asked:
    """A check: its kind, its channel, how many there are, its numbers of cycles, and the options of its text."""
    kind: str
    channel: int
    channels: int
    depths: list[int]
    options: Options


@dataclass(frozen=True)
class Retired:
    """A retirement, with the cycle and the channel that it is of."""
    cycle: int
    channel: int
    fields: dict[str, int]

    def told(self) -> str:
        """The retirement in words."""
        fields = self.fields
        return (f"cycle {self.cycle}: order {fields['order']}, {assembler(fields['insn'])} at "
                f"0x{fields['pc_rdata']:08x}, next 0x{fields['pc_wdata']:08x}, "
                f"x{fields['rd_addr']} = 0x{fields['rd_wdata']:08x}")


def retirements(dump: Dump, asked: Asked) -> list[Retired]:
    """The retirements from the start of the check, cycle by cycle, channels upwards."""
    start = asked.depths[0] if len(asked.depths) > 1 else 1
    found = []
    for cycle in range(start, len(dump.cycles)):
        for channel in range(asked.channels):
            fields = dump.retirement(cycle, channel, asked.channels)
            if fields:
                found.append(Retired(cycle, channel, fields))
    return found


def of_instruction(fields: dict[str, int], options: Options) -> list[str]:
    """What differs from what the instruction asks for."""
    asked = effect(fields, options)
    if asked is None:
        return [f"the word 0x{fields['insn']:08x} is no instruction of the table"]
    lines = [f"{assembler(fields['insn'])} (word 0x{fields['insn']:08x}) at 0x{fields['pc_rdata']:08x}, with "
             f"rs1 = 0x{fields['rs1_rdata']:08x}, rs2 = 0x{fields['rs2_rdata']:08x}"]
    for name, found, wanted in differences(fields, asked):
        lines.append(f"rvfi_{name} is {shown(name, found)}, and the instruction asks for {shown(name, wanted)}")
    return lines


def shown(name: str, value: int) -> str:
    """A value as it is best read."""
    return str(value) if name.endswith(("addr", "trap")) and not name.startswith("mem") else f"0x{value:x}"


def findings(dump: Dump, asked: Asked) -> list[str]:
    """What the trace shows, by the kind of its check."""
    last = len(dump.cycles) - 1
    fields = dump.retirement(last, asked.channel, asked.channels)
    here = Retired(last, asked.channel, fields) if fields else None
    listed = retirements(dump, asked)
    earlier = [other for other in listed if (other.cycle, other.channel) < (last, asked.channel)]
    others = [other for other in listed if (other.cycle, other.channel) != (last, asked.channel)]
    if asked.kind in ("unique", "liveness"):
        return of_trigger(dump, asked, listed)
    if here is None:
        return ["nothing retires in the check's cycle"]
    if asked.kind == "insn":
        return of_instruction(here.fields, asked.options)
    if asked.kind == "ill":
        return [f"the word's low half is 0: trap {fields['trap']}, rd {fields['rd_addr']}, "
                f"mem_wmask {fields['mem_wmask']}"]
    rule = {"reg": of_register, "pc_fwd": of_next, "pc_bwd": of_previous, "causal": of_cause, "imem": of_code,
            "dmem": of_data}.get(asked.kind)
    # These look at the other channels of the check's cycle too, which go by their orders.
    seen = others if asked.kind in ("reg", "pc_fwd", "pc_bwd") else earlier
    return rule(dump, here, seen) if rule else [here.told()]


def of_trigger(dump: Dump, asked: Asked, listed: list[Retired]) -> list[str]:
    """The retirement at the trigger, and the one that has its order, or that none has the one behind it."""
    if len(asked.depths) < 3:
        return []
    at = [other for other in listed if (other.cycle, other.channel) == (asked.depths[1], asked.channel)]
    if not at:
        return ["nothing retires at the trigger"]
    if asked.kind == "liveness":
        return [f"at the trigger, {at[0].told()}",
                f"no retirement up to the end has the order {at[0].fields['order'] + 1}"]
    same = [other for other in listed if other is not at[0] and other.fields["order"] == at[0].fields["order"]]
    return [f"at the trigger, {at[0].told()}"] + [f"the same order in {other.told()}" for other in same]


def of_register(dump: Dump, here: Retired, earlier: list[Retired]) -> list[str]:
    """A source that doesn't have what was written last."""
    lines = [here.told()]
    for source in ("rs1", "rs2"):
        register, data = here.fields[f"{source}_addr"], here.fields[f"{source}_rdata"]
        writes = [other for other in earlier if other.fields["rd_addr"] == register
                  and other.fields["order"] < here.fields["order"]]
        if register and writes and writes[-1].fields["rd_wdata"] != data:
            lines += [f"rvfi_{source}_rdata of x{register} is 0x{data:08x}, and the last write of it was",
                      writes[-1].told()]
    return lines


def of_next(dump: Dump, here: Retired, earlier: list[Retired]) -> list[str]:
    """The retirement before it in order."""
    before = [other for other in earlier if other.fields["order"] == here.fields["order"] - 1]
    return [here.told()] + [f"its address isn't where the one before it goes on, {other.told()}"
                            for other in before[-1:]]


def of_previous(dump: Dump, here: Retired, earlier: list[Retired]) -> list[str]:
    """The retirement behind it in order."""
    behind = [other for other in earlier
              if other.fields["order"] == here.fields["order"] + 1 and not other.fields["intr"]]
    return [here.told()] + [f"it doesn't go on at the address of the one behind it, {other.told()}"
                            for other in behind[-1:]]


def of_cause(dump: Dump, here: Retired, earlier: list[Retired]) -> list[str]:
    """A retirement behind it in order that read the register too early."""
    register = here.fields["rd_addr"]
    early = [other for other in earlier if other.fields["order"] > here.fields["order"]
             and register in (other.fields["rs1_addr"], other.fields["rs2_addr"])]
    return [here.told()] + [f"x{register} was read before that by {other.told()}" for other in early[:1]]


def of_code(dump: Dump, here: Retired, earlier: list[Retired]) -> list[str]:
    """The half word at the watched address."""
    values = dump.cycles[here.cycle]
    return [here.told(), f"imem_addr is 0x{values.get('imem_addr', 0):08x}, "
            f"imem_data 0x{values.get('imem_data', 0):04x}, and the word is 0x{here.fields['insn']:08x}"]


def of_data(dump: Dump, here: Retired, earlier: list[Retired]) -> list[str]:
    """The bytes at the watched address, and the last write of each."""
    lines = [here.told(), f"dmem_addr is 0x{dump.cycles[here.cycle].get('dmem_addr', 0):08x}"]
    for byte in range(4):
        writes = [other for other in earlier if other.fields["mem_addr"] == here.fields["mem_addr"]
                  and other.fields["mem_wmask"] >> byte & 1]
        read = here.fields["mem_rdata"] >> 8 * byte & 255
        if here.fields["mem_rmask"] >> byte & 1 and writes:
            wrote = writes[-1].fields["mem_wdata"] >> 8 * byte & 255
            if wrote != read:
                lines.append(f"byte {byte} is read as 0x{read:02x} and was written as 0x{wrote:02x} in "
                             f"{writes[-1].told()}")
    return lines
