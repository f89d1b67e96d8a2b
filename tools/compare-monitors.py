#!/usr/bin/env python3
"""Compares the monitors of checks with the properties on random runs of a few cycles. It is not part of the gate.

    tools/compare-monitors.py [--count N] [--seed N] [--kind KIND ..] [--program PATH]

Of each kind of check N random runs (10,000 unless another number is given), of one channel and of two, are judged three
times: by the property and by the monitor, both in the program `check_cases` (cases of kind `check`), and by the rules of the checks as they are
written again below. Orders, registers and addresses are few, so that both answers are common. Idle channels show
something too. Runs of insn have random words of all rows, which retire with the effect that the program tells of them,
or with one number changed; the third judge knows there that the first hold. The program is proved and built by `rt run` in its folder, if PATH
doesn't name a built one. Ends with a count of both answers for each kind, and each line on which the three don't agree.
"""
import argparse
import itertools
import os
import random
import subprocess
import sys

import program_cases

CRATE = os.path.join(os.path.dirname(os.path.abspath(__file__)), "..", "crates", "check_cases")
LAST_ORDER = 2**64 - 1
TOP = 2**32 - 2


# ---- the rules: a property of the retirement at the check's cycle (of two kinds: at its trigger), which is there


def ill(run, own):
    return own["insn"] % 2**16 != 0 or own["trap"] == 1 and own["rd_addr"] == 0 and own["mem_wmask"] == 0


def reg(run, own):
    def is_read_as_written(register, value):
        writes = [e["rd_wdata"] for e in run.earlier() if e["order"] < own["order"] and e["rd_addr"] == register]
        return register == 0 or not writes or writes[-1] == value

    return all(is_read_as_written(own[source + "_addr"], own[source + "_rdata"]) for source in ("rs1", "rs2"))


def pc_fwd(run, own):
    before = [e for e in run.earlier() if e["order"] == own["order"] - 1]
    return own["intr"] == 1 or not before or before[-1]["pc_wdata"] == own["pc_rdata"]


def pc_bwd(run, own):
    behind = [e for e in run.earlier() if e["order"] == own["order"] + 1 and e["intr"] == 0]
    return not behind or behind[-1]["pc_rdata"] == own["pc_wdata"]


def causal(run, own):
    later = [e for e in run.earlier() if e["order"] > own["order"]]
    return own["rd_addr"] == 0 or all(own["rd_addr"] not in (e["rs1_addr"], e["rs2_addr"]) for e in later)


def unique(run, own):
    return [e["order"] for e in run.counted()].count(own["order"]) == 1


def liveness(run, own):
    orders = [e["order"] for e in run.counted()]
    return own["halt"] == 1 or own["order"] == LAST_ORDER or own["order"] + 1 in orders


def imem(run, own):
    low, high = own["insn"] % 2**16, own["insn"] // 2**16
    address, data = run.probe["imem_addr"], run.probe["imem_data"]
    if own["pc_rdata"] == address and low != data:
        return False
    return not (own["insn"] % 4 == 3 and (own["pc_rdata"] + 2) % 2**32 == address) or high == data


def dmem(run, own):
    def byte(word, index):
        return word >> 8 * index & 255

    if own["mem_addr"] != run.probe["dmem_addr"]:
        return True
    stores = [e for e in run.earlier() if e["mem_addr"] == own["mem_addr"]]
    for index in range(4):
        last = [byte(e["mem_wdata"], index) for e in stores if e["mem_wmask"] >> index & 1]
        if own["mem_rmask"] >> index & 1 and last and last[-1] != byte(own["mem_rdata"], index):
            return False
    return True


# each rule, with the least cycle of such a check
KINDS = {"ill": (ill, 1), "reg": (reg, 0), "pc_fwd": (pc_fwd, 0), "pc_bwd": (pc_bwd, 0), "causal": (causal, 0),
         "unique": (unique, 0), "liveness": (liveness, 0), "imem": (imem, 1), "dmem": (dmem, 0)}


# ---- random runs


def bytes_of(choices):
    return sum(random.choice(choices) << 8 * index for index in range(4))


def fields(orders):
    """What a channel shows in a cycle."""
    halves = [0x13, 0x17, 0x11]
    shown = {"order": random.choice(orders), "insn": random.choice([0, *halves]) + (random.choice(halves) << 16)}
    shown |= {name: random.choice([0, 1, 1, 2]) for name in ("rs1_addr", "rs2_addr", "rd_addr")}
    shown |= {name: random.randrange(2) for name in ("rs1_rdata", "rs2_rdata", "rd_wdata", "trap")}
    shown |= {name: int(random.random() < 0.2) for name in ("halt", "intr")}
    shown |= {name: random.choice([0, 2, TOP - 2, TOP]) for name in ("pc_rdata", "pc_wdata")}
    shown |= {name: random.choice([0, 15, random.randrange(16)]) for name in ("mem_rmask", "mem_wmask")}
    shown |= {name: bytes_of([0, 128]) for name in ("mem_rdata", "mem_wdata")}
    return shown | {"mem_addr": random.choice([16] * 9 + [20])}


class Run:
    """A check with what is shown in each cycle and channel."""

    def __init__(self, kind):
        self.kind = kind
        least = KINDS[kind][1]
        self.nret = random.choice([1, 2])
        self.channel = random.randrange(self.nret)
        self.cycle = max(random.randint(least, 5), random.randint(least, 5))
        self.start = 1 if least else min(random.randint(0, self.cycle), random.randint(0, self.cycle))
        aims = kind in ("unique", "liveness")
        self.trig = random.randint(self.start, self.cycle) if aims else self.cycle
        self.probe = {"imem_addr": random.choice([0, 2, TOP]), "imem_data": random.choice([0x13, 0x17, 0x11]),
                      "dmem_addr": random.choice([16] * 9 + [20])}
        few = random.choice([2, 3, 4])
        first = random.choice([0, 7, LAST_ORDER + 1 - few])
        self.retires, self.idle = [], []
        self.show([first + step for step in range(few)])

    def show(self, orders):
        """Fills in what is shown, up to a cycle behind the check's."""
        likely = random.choice([0.5, 0.9])
        for cycle, channel in itertools.product(range(min(self.cycle + 2, 6)), range(self.nret)):
            is_own = (cycle, channel) == (self.trig, self.channel)
            retires = random.random() < (0.95 if is_own else likely)
            (self.retires if retires else self.idle).append((cycle, channel, fields(orders)))

    def counted(self):
        """Returns the retirements that count, in order."""
        return [fields for cycle, channel, fields in self.retires if self.start <= cycle <= self.cycle]

    def earlier(self):
        """Returns those that count as earlier than the one at the check's cycle in its channel: for `reg`, `pc_fwd` and
        `pc_bwd` all others up to that cycle, for the other kinds those before it."""
        own = (self.cycle, self.channel)
        both = self.kind in ("reg", "pc_fwd", "pc_bwd")
        return [fields for cycle, channel, fields in self.retires
                if self.start <= cycle <= self.cycle
                and ((cycle, channel) != own if both else (cycle, channel) < own)]

    def holds(self):
        """Returns what the rules say of the run."""
        own = [fields for cycle, channel, fields in self.retires if (cycle, channel) == (self.trig, self.channel)]
        return not own or KINDS[self.kind][0](self, own[0])

    def line(self):
        """Returns the line of the run."""
        check = {"nret": self.nret, "channel": self.channel, "start": self.start, "trig": self.trig,
                 "cycle": self.cycle, **self.probe}
        shown = [({"cycle": cycle, "channel": channel} | fields) for cycle, channel, fields in self.retires]
        shown += [({"idle": 1, "cycle": cycle, "channel": channel} | fields) for cycle, channel, fields in self.idle]
        return self.kind + " " + "|".join(" ".join("%s=%d" % word for word in part.items() if word[1])
                                            for part in [check, *shown])


# ---- runs of insn

OPCODES = [0x03, 0x13, 0x17, 0x23, 0x33, 0x37, 0x63, 0x67, 0x6F]
OPTIONS = [{}, {"aligned": 1}, {"c": 1}, {"aligned": 1, "c": 1}, {"altops": 1}]


def word():
    """Returns a word that is likely to match a row."""
    if random.random() < 0.4:
        return random.choice([0, 1, 2]) + 4 * random.randrange(2**14)
    upper = random.choice([0, 0x20, 1, random.randrange(128)])
    opcode = random.choice(OPCODES + [0x33] * 6)
    return opcode + 128 * random.randrange(2**18) + upper * 2**25


def operand():
    return random.choice([0, 1, 2**31 - 1, 2**31, 2**32 - 1, random.randrange(2**32), random.randrange(64)])


def number(text):
    return int(text, 16)


def asked(program, lines):
    """Returns what the program answers to lines."""
    return program_cases.asked(program, "check", lines)


def written(words):
    return " ".join("%s=%d" % word for word in words.items() if word[1])


def effects_of(program, sources):
    return asked(program, ["effect " + written(opts | source) for source, opts in sources])


def insn_runs(count, program):
    """Gives lines of insn checks, each with what is known of its answer."""
    rows = {name: row for row, name in enumerate(asked(program, ["number row=%d" % row for row in range(70)]))}
    made = 0
    while made < count:
        sources = [({"insn": word(), "rs1_rdata": operand(), "rs2_rdata": operand(), "mem_rdata": operand(),
                     "pc_rdata": random.choice([256, 258, 2**32 - 4])}, random.choice(OPTIONS)) for _ in range(count)]
        for (source, opts), effect in zip(sources, effects_of(program, sources), strict=True):
            for register in ("rs1", "rs2"):
                # a source that is x0, or isn't read, shows 0
                if register + "_addr=" not in effect:
                    source[register + "_rdata"] = 0
        for (source, opts), effect in zip(sources, effects_of(program, sources), strict=True):
            name, *fields = effect.split()
            if name == "none" or made == count:
                continue
            made += 1
            shown = dict(source, **{key: number(value) for key, value in (f.split("=") for f in fields if "=" in f)})
            shown["trap"] = int("trap" in fields)
            changed = random.random() < 0.5
            if changed:
                key = random.choice([key for key in shown if key not in ("insn", "trap")])
                shown[key] ^= 1
            nret = random.choice([1, 2])
            channel = random.randrange(nret)
            check = {"nret": nret, "channel": channel, "row": rows[name], "start": 1, "trig": 2, "cycle": 2, **opts}
            line = "insn %s|%s" % (written(check), written({"cycle": 2, "channel": channel} | shown))
            yield ("any" if changed else "holds"), line


# ---- the comparison


def built():
    """Returns the path of the program, which `rt run` builds."""
    made = subprocess.run(["rt", "run"], cwd=CRATE, stdin=subprocess.DEVNULL, capture_output=True)
    program = os.path.join(CRATE, "out", "check_cases")
    if not os.path.exists(program):
        raise SystemExit(made.stdout.decode()[-2000:] + made.stderr.decode()[-2000:])
    return program


def compared(kinds, count, program):
    """Returns the counts of each kind, and the lines on which the answers differ."""
    counts = {kind: {"holds": 0, "fails": 0, "differ": 0} for kind in kinds}
    lines, wanted, faults = [], [], []
    for kind in kinds:
        if kind == "insn":
            for want, line in insn_runs(count, program):
                wanted.append((kind, want))
                lines.append(line)
            continue
        for _ in range(count):
            run = Run(kind)
            wanted.append((kind, "holds" if run.holds() else "fails"))
            lines.append(run.line())
    for (kind, want), said, line in zip(wanted, asked(program, lines), lines, strict=True):
        counts[kind][said if said in counts[kind] else "differ"] += said in counts[kind]
        if said != want and not (want == "any" and said in ("holds", "fails")):
            counts[kind]["differ"] += 1
            faults.append("rules: %s; program: %s; %s" % (want, said, line))
    return counts, faults


def main():
    words = argparse.ArgumentParser()
    words.add_argument("--count", type=int, default=10000)
    words.add_argument("--seed", type=int, default=1)
    words.add_argument("--kind", action="append", choices=["insn", *KINDS])
    words.add_argument("--program", type=os.path.abspath)
    words = words.parse_args()
    random.seed(words.seed)
    counts, faults = compared(words.kind or ["insn", *KINDS], words.count, words.program or built())
    for kind, count in counts.items():
        print("%-8s %6d hold, %6d fail, %d differ" % (kind, count["holds"], count["fails"], count["differ"]))
    for fault in faults:
        print(fault)
    sys.exit(1 if faults else 0)


if __name__ == "__main__":
    main()
