#!/usr/bin/env python3
"""Runs the built program on mutated texts, and looks at how each run ends.

    tools/fuzz.py lrat|run [--runs N] [--seconds S] [--seed N] [--first N] [--jobs J] [--program PATH] [--keep FOLDER]
                           [--limits SHARE]

`lrat` mutates clause files and proofs, `run` configurations and Verilog texts (fuzz_texts.py). Each run has to end with
a code from 0 to 11, nothing on standard error, and the lines that such a code has; `lrat` with what a second reading
answers (lrat_rules.py). A share of the runs is under limits of memory, stack, file size and open files, and may then
end with what such a limit comes to.

A refusal, and every run of `lrat`, has to take at most 2 seconds of processor time and 64 MB, and for each byte that it
reads 10 microseconds and 2,000 bytes more. What a design takes that is judged goes by its weight, and is told apart.

With --keep what was wrong, and the ten others of at most 4,000 bytes that took the most, are written into the folder.
Ends with 1 where a run was wrong.

The runs have numbers, from that of --first on (0 where it is left out), and each makes its texts by the seed and its
number: so a count may be made in pieces, by any number of jobs (1), and one run alone by --first and --runs 1. A
launcher in C (fuzz-runs.c, by the C compiler) starts the program; files are in memory where the system has /dev/shm.
"""
import argparse
import collections
import concurrent.futures
import contextlib
import itertools
import os
import random
import re
import resource
import signal
import struct
import subprocess
import sys
import tempfile
import time

import fuzz_texts
import lrat_rules

HERE = os.path.dirname(os.path.abspath(__file__))
LONGEST_KEPT, RUNS_OF_A_PART, RUNS_AT_ONCE, BYTES_AT_ONCE = 4_000, 500, 100, 32_000
SECONDS, KILOBYTES, SECONDS_OF_A_BYTE, KILOBYTES_OF_A_BYTE = 2, 64_000, 1e-5, 2
BOUND = "2 s and 64 MB, and 10 microseconds and 2,000 bytes more for each byte that is read"
LIMITS = [("memory", resource.RLIMIT_AS, 1024, (10_000, 20_000, 100_000, 1_100_000, 1_200_000, 5_000_000)),
          ("stack", resource.RLIMIT_STACK, 1024, (256, 1_000, 8_000)),
          ("file size", resource.RLIMIT_FSIZE, 512, (0, 1, 8)), ("open files", resource.RLIMIT_NOFILE, 1, (4, 5))]
LINES = r"((note altops|skip \S+|pass \S+|fail \S+|spent \S+ \d+)\n)*"
FORMS = {code: re.compile(form.encode()) for code, form in {
    0: r"refuted \d+\n|((note altops|skip \S+|pass \S+)\n)*total pass \d+ fail 0 spent 0 skip \d+\n",
    1: LINES + r"total pass \d+ fail \d+ spent \d+ skip \d+\n",
    2: r"((note altops|skip \S+|pass \S+|spent \S+ \d+)\n)*total pass \d+ fail 0 spent \d+ skip \d+\n",
    3: r"usage: .*\n", 4: r"config \d+ \d+ .*\n", 5: r"source (lex|prep|parse|elab|flow|port) \d+ \S+ .*\n",
    6: r"absent .*\n", 7: r"read fault .*\n", 8: LINES + ".*", 9: r"heavy \S+ \d+\n",
    10: r"refused (cnf|lrat) \d+ \d+\n|refused step \d+ \d+ \d+\n", 11: LINES}.items()}


class Run:
    """A run by its number: its texts, the limit that it is under, and the words that are run."""

    def __init__(self, number, texts, limit, words):
        self.number, self.texts, self.limit, self.words = number, texts, limit, words
        named = texts.get("checks.cfg", b"")
        # a file that a configuration names again is read again
        self.size = sum(len(text) * max(1, named.count(name.encode())) for name, text in texts.items())

    def request(self):
        """The bytes that the launcher reads."""
        kind, size = self.limit[1:] if self.limit else (-1, 0)
        words = b"".join(struct.pack("=i", len(word)) + word for word in self.words)
        files = b"".join(struct.pack("=i", len(name)) + name.encode() + struct.pack("=i", len(text)) + text
                         for name, text in self.texts.items())
        return struct.pack("=iqii", kind, size, len(self.words), len(self.texts)) + words + files


class Ended:
    """How a run ended: its code, what it put and said, and what it took."""

    def __init__(self, answers):
        self.code, microseconds, self.kilobytes, put = struct.unpack("=iqqi", answers.read(24))
        self.seconds = microseconds / 1e6
        self.put = answers.read(put)
        self.said = answers.read(*struct.unpack("=i", answers.read(4)))


@contextlib.contextmanager
def launched(launcher):
    """Gives a function from runs to how they ended, in a folder in memory while it stands."""
    with tempfile.TemporaryDirectory(dir="/dev/shm" if os.access("/dev/shm", os.W_OK) else None) as folder:
        os.mkdir(os.path.join(folder, "out"))
        with subprocess.Popen([launcher], cwd=folder, stdin=subprocess.PIPE, stdout=subprocess.PIPE) as started:
            def ended(runs):
                started.stdin.write(b"".join(run.request() for run in runs) + struct.pack("=iqii", -1, 0, 0, 0))
                started.stdin.flush()
                return [Ended(started.stdout) for _ in runs]
            yield ended
            started.stdin.close()


class Tally:
    """What came out of runs."""

    def __init__(self):
        self.codes, self.limited = collections.Counter(), collections.Counter()
        self.wrong, self.worst, self.share, self.took = [], [], 0.0, 0.0
        self.most, self.judged = [0.0, 0], [0.0, 0]

    def runs(self):
        return sum(self.codes.values()) + sum(self.limited.values())

    def add(self, other):
        self.codes.update(other.codes)
        self.limited.update(other.limited)
        self.wrong += other.wrong
        self.keep_worst(other.worst)
        self.share, self.took = max(self.share, other.share), self.took + other.took
        for mine, its in ((self.most, other.most), (self.judged, other.judged)):
            mine[:] = map(max, mine, its)

    def count(self, run, ended, is_judged):
        (self.limited if run.limit else self.codes)[ended.code] += 1
        self.took += ended.seconds
        most = self.judged if is_judged else self.most
        most[:] = max(most[0], ended.seconds), max(most[1], ended.kilobytes)
        cost = ended.seconds + ended.kilobytes / 1e6
        if not is_judged and run.size <= LONGEST_KEPT and (len(self.worst) < 10 or cost > self.worst[-1][0]):
            self.keep_worst([(cost, run.number, run.texts)])

    def keep_worst(self, others):
        self.worst = sorted(self.worst + others, key=lambda each: each[:2], reverse=True)[:10]

    def tell(self):
        runs, limited = sum(self.codes.values()), sum(self.limited.values())
        print(f"{runs} runs, by code {dict(sorted(self.codes.items()))}; under limits {limited}, "
              f"{dict(sorted(self.limited.items()))}")
        print(f"at most {self.most[0]:.2f} s of processor time and {self.most[1]} KB, {self.share:.0%} of the bound "
              f"({BOUND}); of designs that were judged {self.judged[0]:.2f} s and {self.judged[1]} KB")
        all_used = [resource.getrusage(who) for who in (resource.RUSAGE_SELF, resource.RUSAGE_CHILDREN)]
        used = sum(each.ru_utime + each.ru_stime for each in all_used)
        print(f"processor time: {self.took:.1f} s of the runs, {used - self.took:.1f} s of this script")
        for wrong in sorted(self.wrong, key=lambda each: each[0])[:20]:
            print("WRONG", *wrong[:-1])

    def keep(self, folder):
        """Writes what was wrong and what took the most into a folder."""
        kept = [(f"wrong-{number}", texts) for number, *_, texts in self.wrong]
        kept += [(f"worst-{at}-{number}", texts) for at, (_, number, texts) in enumerate(self.worst)]
        for name, texts in kept:
            os.makedirs(os.path.join(folder, name), exist_ok=True)
            for file_name, text in texts.items():
                with open(os.path.join(folder, name, file_name), "wb") as file:
                    file.write(text)


class Fuzz:
    """Makes runs by their numbers, and judges how they ended."""

    def __init__(self, given):
        self.given, self.source = given, random.Random()
        self.is_proof = given.mode == "lrat"
        self.bases = list(fuzz_texts.proofs() if self.is_proof else fuzz_texts.designs())
        words = fuzz_texts.WORDS_OF_PROOFS if self.is_proof else fuzz_texts.WORDS_OF_TEXTS
        token = fuzz_texts.SYMBOL if self.is_proof else fuzz_texts.TOKEN
        texts = {text for base in self.bases for text in base.values()}
        self.mutator = fuzz_texts.Mutator(self.source, words, token, texts)

    def run(self, number):
        self.source.seed(self.given.seed << 64 | number)
        texts = dict(self.source.choice(self.bases))
        share = 0.6 if self.is_proof else 0.4
        for name in [name for name in texts if self.source.random() < share] or [max(texts)]:
            texts[name] = self.mutator.mutated(texts[name])
        words = ["lrat", "c.cnf", "c.lrat"] if self.is_proof else [
            "run", "checks.cfg", "out", "--budget", "50", "--jobs", self.source.choice("124")]
        limit = None
        if self.source.random() < self.given.limits:
            name, kind, unit, sizes = self.source.choice(LIMITS)
            size = self.source.choice(sizes)
            limit = f"{name} {size}", kind, unit * size
        return Run(number, texts, limit, [word.encode() for word in [self.given.program, *words]])

    def batches(self, numbers):
        """The runs of these numbers, so many at once that the launcher's answers don't wait."""
        batch, size = [], 0
        for number in numbers:
            batch.append(self.run(number))
            size += batch[-1].size
            if len(batch) == RUNS_AT_ONCE or size > BYTES_AT_ONCE:
                yield batch
                batch, size = [], 0
        if batch:
            yield batch

    def tally(self, numbers):
        tally = Tally()
        with launched(self.given.launcher) as ended:
            for batch in self.batches(numbers):
                if time.monotonic() > self.given.end:
                    break
                for run, one in zip(batch, ended(batch)):
                    self.judge(tally, run, one)
        return tally

    def judge(self, tally, run, ended):
        is_judged = not self.is_proof and ended.code in (0, 1, 2)
        share = max(ended.seconds / (SECONDS + SECONDS_OF_A_BYTE * run.size),
                    ended.kilobytes / (KILOBYTES + KILOBYTES_OF_A_BYTE * run.size))
        tally.count(run, ended, is_judged)
        tally.share = max(tally.share, 0 if is_judged else share)
        fault = self.fault(run, ended) or share > 1 and not is_judged and f"more than {BOUND}: {run.size} bytes"
        if fault:
            limit = run.limit and run.limit[0]
            took = f"{ended.seconds:.2f} s, {ended.kilobytes} KB"
            said = ended.put[-200:], ended.said[:200]
            tally.wrong.append((run.number, fault, limit, ended.code, took, *said, run.texts))

    def fault(self, run, ended):
        """What is wrong with how the run ended, or None."""
        if ended.said:
            return "something on standard error"
        form = FORMS.get(ended.code)
        if form is None or not form.fullmatch(ended.put):
            return "another code or line"
        if ended.code in (8, 11) and run.limit is None:
            return "want of memory, or a failing call, without a limit"
        if self.is_proof and not (run.limit and ended.code in (7, 8, 11)):
            line, code = lrat_rules.answer(run.texts["c.cnf"], run.texts["c.lrat"])
            if (ended.put, ended.code) != (line.encode() + b"\n", code):
                return f"a second reading answers {line!r}"
        return None


FUZZES = {}


def part_tally(given, numbers):
    """What came out of the runs of these numbers."""
    if given.mode not in FUZZES:
        FUZZES[given.mode] = Fuzz(given)
    return FUZZES[given.mode].tally(numbers)


def tallies(given):
    """The tallies of parts of the runs."""
    numbers = range(given.first, given.first + given.runs)
    parts = [numbers[at:at + RUNS_OF_A_PART] for at in range(0, given.runs, RUNS_OF_A_PART)]
    if given.jobs == 1:
        yield from (part_tally(given, part) for part in parts)
        return
    ignore = signal.SIGINT, signal.SIG_IGN
    with concurrent.futures.ProcessPoolExecutor(given.jobs, initializer=signal.signal, initargs=ignore) as pool:
        try:
            yield from pool.map(part_tally, itertools.repeat(given), parts)
        finally:
            pool.shutdown(cancel_futures=True)


def total(given):
    """The tally of all runs; every minute it is told how far they are."""
    tally, told = Tally(), time.monotonic()
    try:
        for part in tallies(given):
            tally.add(part)
            if time.monotonic() > told + 60:
                told = time.monotonic()
                print(f"{tally.runs()} of {given.runs}, {len(tally.wrong)} wrong", file=sys.stderr, flush=True)
    except KeyboardInterrupt:
        print("stopped")
    return tally


def main():
    parser = argparse.ArgumentParser(description=__doc__, formatter_class=argparse.RawDescriptionHelpFormatter)
    parser.add_argument("mode", choices=("lrat", "run"))
    parser.add_argument("--runs", type=int, default=1000)
    parser.add_argument("--seconds", type=float, default=float("inf"))
    parser.add_argument("--seed", type=int, default=1)
    parser.add_argument("--first", type=int, default=0)
    parser.add_argument("--jobs", type=int, default=1)
    parser.add_argument("--program", default=os.path.join(HERE, "..", "crates", "rvf", "out", "rvf"))
    parser.add_argument("--keep")
    parser.add_argument("--limits", type=float, default=0.2)
    given = parser.parse_args()
    given.program, given.end = os.path.abspath(given.program), time.monotonic() + given.seconds
    with tempfile.TemporaryDirectory() as folder:
        given.launcher = os.path.join(folder, "fuzz-runs")
        subprocess.run(["cc", "-O1", "-o", given.launcher, os.path.join(HERE, "fuzz-runs.c")], check=True)
        tally = total(given)
    tally.tell()
    if given.keep:
        tally.keep(given.keep)
    sys.exit(len(tally.wrong) > 0)


if __name__ == "__main__":
    main()
