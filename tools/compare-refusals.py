#!/usr/bin/env python3
"""Compares what `rvf run` refuses in random designs with a second reading of the rules, number, place and detail.

    tools/compare-refusals.py [--texts N] [--seed S] [--first F] [--jobs J] [--rvf PROGRAM] [--kept FOLDER]

N is 2000, S 1, F 0, J the number of processors, PROGRAM the built crates/rvf/out/rvf. Each text is a wrapper with its
modules, in which none to three faults were planted: refusals of elaboration, of the order of drivers, of the port, and
of the weight. A text is made by the seed and its number, from F on, so a count may be made in pieces. Prints how often
each refusal was answered, and of each kind of difference one text that shows it, the shortest, without what isn't
needed for it; all of them are put into FOLDER where one is given. Ends with 1 where one is there.

The program has 5 seconds of processor time and 2 GB beside its stack: a design that is refused takes less, and one
that isn't may be judged for longer, by up to 100 cycles, so that it counts as accepted and not judged. The reading has
20 seconds: nested loops are walked turn by turn.

The reading (refusal_values, refusal_names, refusal_rules, refusal_flow) is a walk over the trees that the text was
printed from, so it has no parser. It was written from the rules in words, not from the definitions or the code of this
repository.
"""
import argparse
import concurrent.futures
import os
import random
import signal
import subprocess
import sys
import tempfile
import time
from collections import Counter

HERE = os.path.dirname(os.path.abspath(__file__))
sys.path.insert(0, HERE)
import refusal_designs
import refusal_faults
from refusal_flow import Flow, check_port, weight
from refusal_rules import Reader, Refused
from refusal_shrink import shrink
from refusal_trees import show, unshared

HEAVY = 20_000_000
SECONDS, KILOBYTES, SECONDS_OF_READING = 5, 4_100_000, 20
UNJUDGED = "accepted, not judged"
ORDER = ["ill", "reg", "pc_fwd", "unique", "imem", "dmem"]
sys.setrecursionlimit(20_000)


class Text:
    """A source with the checks that are asked for and whether memory is aligned."""

    def __init__(self, source, checks, aligned):
        self.source, self.checks, self.aligned = source, checks, aligned

    def config(self):
        depth = "\n".join(f"{kind} {' '.join(map(str, cycles))}" for kind, cycles in self.checks)
        defines = "[defines]\n`define RISCV_FORMAL_ALIGNED_MEM\n" if self.aligned else ""
        return f"[options]\nisa rv32i\n[depth]\n{depth}\n{defines}[verilog-files]\nw.v\n"


def make(seed):
    """A random text, the same for the same seed."""
    rng = random.Random(seed)
    wanted = [kind for kind in ("imem", "dmem") if rng.random() < 0.1]
    has_imem, has_dmem = (rng.random() < (0.8 if each in wanted else 0.1) for each in ("imem", "dmem"))
    extra = [("imem_addr", 32), ("imem_data", 16)] if has_imem else []
    extra += [("dmem_addr", 32)] if has_dmem else []
    design = refusal_designs.make(rng, extra)
    design.cycle, design.wants_dmem, design.aligned = rng.randint(1, 3), "dmem" in wanted, rng.random() < 0.7
    refusal_faults.plant_faults(design)
    kinds = [kind for kind in ORDER if kind in wanted or kind == "dmem" and design.wants_dmem
             or rng.random() < {"ill": 0.8}.get(kind, 0.1)] or ["ill"]
    checks = []
    for kind in kinds:
        last = design.cycle if rng.random() < 0.8 else rng.randint(2, 3)
        last = max(last, 2) if kind == "unique" else last
        checks.append((kind, {"ill": [last], "imem": [last], "unique": [1, last - 1, last]}.get(kind, [1, last])))
    rng.shuffle(checks)
    source = unshared(design.source)
    shorten(source, rng)
    return Text(source, checks, design.aligned)


def shorten(source, rng):
    """Leaves out what some ports share with the one before."""
    for module in source.modules:
        for before, each in zip(module.ports, module.ports[1:]):
            alike = all(getattr(before, field) == getattr(each, field) for field in ("direction", "net", "signed"))
            if alike and before.range is None and each.range is None and not each.attrs and rng.random() < 0.3:
                each.short = True


def dash(value):
    return "-" if value is None else str(value)


class TooLong(Exception):
    """The reading takes too long."""


def stop(*_):
    raise TooLong


def reading(text):
    """What the rules ask for, None where it is unknown."""
    signal.signal(signal.SIGPROF, stop)
    signal.setitimer(signal.ITIMER_PROF, SECONDS_OF_READING)
    try:
        return line_of(text)
    except TooLong:
        return None
    finally:
        signal.setitimer(signal.ITIMER_PROF, 0)


def line_of(text):
    """The line that the rules ask for, `accepted`, or a test of lines where several are right; None where unknown."""
    part = "elab"
    try:
        reader = Reader(text.source, "rvfi_wrapper").run()
        if reader.is_partial:
            return None
        flow = Flow(reader)
        flow.too_many_bits()
        part = "flow"
        flow.check()
        total = weight(reader)
        for kind, cycles in sorted(text.checks, key=lambda each: ORDER.index(each[0])):
            if total * (cycles[-1] + 1) > HEAVY:
                return f"heavy {kind}_ch0 {total * (cycles[-1] + 1)}"
        part = "port"
        kinds = [kind for kind, _ in text.checks]
        check_port(reader, "imem" in kinds, "dmem" in kinds, text.aligned)
    except Refused as refused:
        return line(part, *refused.args[0])
    return "accepted"


def line(part, number, place, detail):
    if callable(detail):
        return lambda got: is_right_loop(got, detail)
    shown = "-" if place is None else f"w.v:{place[0]}:{place[1]}"
    if isinstance(detail, tuple):
        detail = f"{detail[0]},{detail[1]},w.v:{detail[2][0]}:{detail[2][1]}"
    return f"source {part} {number} {shown} {min(detail, 2**64 - 1) if isinstance(detail, int) else dash(detail)}"


def is_right_loop(got, is_loop):
    head = "source flow 1 - "
    if not got.startswith(head):
        return False
    places = [tuple(map(int, each.split(":")[1:])) for each in got[len(head):].split(",")]
    return is_loop(places)


class Program:
    """The program in a folder of its own. What isn't refused ends at the first file, as there is no folder for it."""

    def __init__(self, path):
        self.path, self.folder = path, tempfile.TemporaryDirectory(prefix="compare-refusals-")

    def answer(self, text):
        for word, content in (("w.v", show(text.source)), ("checks.cfg", text.config())):
            with open(os.path.join(self.folder.name, word), "w", encoding="ascii") as file:
                file.write(content)
        said = f"ulimit -S -t {SECONDS} && ulimit -S -v {KILOBYTES} && exec \"$0\" \"$@\""
        words = ["/bin/sh", "-c", said, self.path, "run", "checks.cfg", "absent", "--budget", "1"]
        done = subprocess.run(words, cwd=self.folder.name, capture_output=True, text=True, check=False)
        if done.stdout or done.stderr:
            return done.stdout.rstrip("\n") + done.stderr
        return {8: "accepted", 11: UNJUDGED, -signal.SIGXCPU: UNJUDGED}.get(done.returncode, f"code {done.returncode}")


def agrees(wanted, got):
    if callable(wanted):
        return wanted(got)
    return got in (wanted, UNJUDGED) if wanted == "accepted" else got == wanted


def head(wanted):
    """What a difference is counted by."""
    return "source flow 1" if callable(wanted) else " ".join(wanted.split()[:3 if wanted.startswith("source") else 1])


def compare(program, text):
    """The wanted and the answered line."""
    got = program.answer(text)
    return reading(text), got


def kind_of(wanted, got):
    """What is counted as one kind of difference: both refusals, and where these are the same what differs in them."""
    parts = [] if callable(wanted) else zip(("", "", "", "place", "detail"), wanted.split(), got.split())
    return head(wanted), head(got), next((part for part, one, other in parts if one != other), "")


def differs(program, text, kind):
    wanted, got = compare(program, text)
    return wanted is not None and not agrees(wanted, got) and kind_of(wanted, got) == kind


def run_part(job):
    """Compares some texts; answers counts of wanted heads and the differences, each with the size of its text."""
    path, seeds = job
    program, counts, found = Program(path), Counter(), []
    for seed in seeds:
        text = make(seed)
        wanted, got = compare(program, text)
        counts["unknown" if wanted is None else UNJUDGED if got == UNJUDGED else head(wanted)] += 1
        if wanted is not None and not agrees(wanted, got):
            found.append((kind_of(wanted, got), len(show(text.source)), seed, answers(wanted, got)))
    return counts, found


def answers(wanted, got):
    return f"the rules: {'a loop of drivers' if callable(wanted) else wanted}\nthe program: {got}\n"


def shown(text):
    return text.config() + show(text.source)


def made_small(job):
    """Both answers and the text of a difference, without what it doesn't need."""
    path, (kind, _, seed, _), tries = job
    program = Program(path)
    small = shrink(make(seed), lambda each: differs(program, each, kind), tries)
    return answers(*compare(program, small)) + shown(small)


def main():
    words = argparse.ArgumentParser(description=__doc__, formatter_class=argparse.RawDescriptionHelpFormatter)
    words.add_argument("--texts", type=int, default=2000)
    words.add_argument("--seed", type=int, default=1)
    words.add_argument("--first", type=int, default=0)
    words.add_argument("--jobs", type=int, default=os.cpu_count())
    words.add_argument("--tries", type=int, default=300, help="runs that a difference is made smaller by")
    words.add_argument("--rvf", default=os.path.join(HERE, "../crates/rvf/out/rvf"))
    words.add_argument("--kept")
    given = words.parse_args()
    path, start, first = os.path.abspath(given.rvf), time.time(), given.seed * 1_000_000 + given.first
    seeds = range(first, first + given.texts)
    parts = [(path, seeds[at:at + 50]) for at in range(0, len(seeds), 50)]
    counts, found = Counter(), []
    with concurrent.futures.ProcessPoolExecutor(given.jobs) as pool:
        for part_counts, part_found in pool.map(run_part, parts):
            counts.update(part_counts)
            found += part_found
        for key, count in sorted(counts.items()):
            print(f"{count:7} {key}")
        print(f"{given.texts} texts, {len(found)} differences, {time.time() - start:.0f} s", flush=True)
        report(found, pool, path, given)
    sys.exit(1 if found else 0)


def report(found, pool, path, given):
    """Prints a small text of each kind of difference, and keeps all of them."""
    kinds = {}
    for each in sorted(found):
        kinds.setdefault(each[0], []).append(each)
    small = pool.map(made_small, [(path, several[0], given.tries) for several in kinds.values()])
    for ((wanted, got, part), several), text in zip(kinds.items(), small):
        seeds = " ".join(str(each[2]) for each in several[:20])
        print(f"\n{len(several)} times: the rules say {wanted}, the program {got} {part}; {seeds}\n{text}", flush=True)
    if given.kept:
        os.makedirs(given.kept, exist_ok=True)
        for _, _, seed, said in found:
            text = make(seed)
            with open(os.path.join(given.kept, f"{seed}.txt"), "w", encoding="ascii") as file:
                file.write(said + shown(text))


if __name__ == "__main__":
    main()
