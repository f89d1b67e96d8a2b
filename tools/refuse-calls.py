#!/usr/bin/env python3
"""Refuses each request of the built program in turn, and has each read and write move a single byte.

    tools/refuse-calls.py [--program PATH] [--most N] [--only WORD] [--jobs J]

A library (refuse-calls.c, by the C compiler) is put before the program, which counts requests for memory and threads,
opened files, reads, writes and syncs. Of each case, every one is refused alone, and all from each one on:

- memory: the code is 11, what was put is whole lines of the full run's, and each check whose line was put has its
  files whole; or all is as in the full run, but that a proof may be another one that a second reading accepts;
- a read: code 7, the line that names the file, and no file;
- a write or a put: code 8, files and lines up to it whole, and of it at most a front;
- a thread: as in the full run, or code 11 and nothing where none is to be had at first;
- a read or a write of one byte alone: as in the full run.

With --most at most so many of each kind and case: the first half of them, and the rest spread over all others. J (1)
of them are tried beside each other; files are in memory where the system has /dev/shm.
"""
import argparse
import collections
import concurrent.futures
import itertools
import os
import re
import shutil
import struct
import subprocess
import sys
import tempfile

import lrat_rules
from clause_files import FIELDS

HERE = os.path.dirname(os.path.abspath(__file__))
HEAD = "module rvfi_wrapper (input clock, input reset, `RVFI_OUTPUTS);\n"


def wrapper(items="", **given):
    """A wrapper with all fields 0 but for those that are given."""
    fields = "".join(f"  assign rvfi_{name} = {given.get(name, 0)};\n" for name, _ in FIELDS)
    return f"{HEAD}{items}{fields}endmodule\n"


FREE = HEAD + "".join(f"  `rvformal_rand_reg [{width - 1}:0] r_{name};\n  assign rvfi_{name} = r_{name};\n"
                      for name, width in FIELDS) + "endmodule\n"
XY = "  `rvformal_rand_reg x;\n  `rvformal_rand_reg y;\n"
HARD = "(x | y) & (x | ~y) & (~x | y) & (~x | ~y)"
# A core of two stages that adds and branches.
CORE = """  `rvformal_rand_reg [31:0] fetched;
  reg [31:0] regs [0:3];
  reg [31:0] pc, word, at;
  reg [63:0] order;
  reg ok;
  wire [1:0] rs = word[16:15], rd = word[8:7];
  wire known = word[6:0] == 7'h13 && word[14:12] == 0 && word[19:17] == 0 && word[11:9] == 0;
  wire [31:0] a = rs == 0 ? 0 : regs[rs], sum = a + {{20{word[31]}}, word[31:20]};
  wire valid = ok && known && !reset;
  always @(posedge clock)
    if (reset) begin pc <= 0; ok <= 0; order <= 0; end
    else begin
      word <= fetched; at <= pc; ok <= 1; pc <= pc + 4;
      if (valid) begin order <= order + 1; if (rd != 0) regs[rd] <= sum; end
    end
"""
CORE_FIELDS = dict(valid="valid", order="order", insn="word", rs1_addr="rs", rs1_rdata="a", rd_addr="rd",
                   rd_wdata="rd == 0 ? 0 : sum", pc_rdata="at", pc_wdata="at + 4")
FOUR = "p cnf 2 4\n1 2 0\n1 -2 0\n-1 2 0\n-1 -2 0\n"

RUNS_OF_A_PART = 200
# By its title depth lines or None, the text, and the words behind the command of each case.
CASES = {
    "silent": (["ill 1", "reg 1 2", "liveness 1 1 2"], wrapper(), "run checks.cfg out"),
    "silent-64": (["ill 1", "reg 1 2", "liveness 1 1 2"], wrapper(), "run checks.cfg out --jobs 64"),
    "free": (["ill 1"], FREE, "run checks.cfg out"),
    "spent": (["ill 1"], wrapper(XY, valid=HARD), "run checks.cfg out --budget 1"),
    "refuted": (["ill 1"], wrapper(XY, valid=HARD), "run checks.cfg out --budget 100"),
    "core": (["ill 2", "reg 1 3"], wrapper(CORE, **CORE_FIELDS), "run checks.cfg out"),
    "refused": (["ill 1"], HEAD + "assign = 1;\n", "run checks.cfg out"),
    "list": (["insn 1"], "", "list checks.cfg"),
    "lrat": (None, "5 1 0 1 2 0\n6 0 5 3 4 0\n", "lrat c.cnf w.v"),
    "toaig": (["ill 1"], wrapper(CORE, **CORE_FIELDS), "toaig checks.cfg ill_ch0 out/ill_ch0.aag"),
    "fromaig": (None, "aag 3 2 0 1 1\n2\n4\n6\n6 2 5\n", "fromaig w.v out/g.cnf"),
}

Result = collections.namedtuple("Result", "code out files counts")


class Case:
    def __init__(self, program, library, folder, title):
        depths, text, words = CASES[title]
        self.program, self.library, self.words = program, library, words.split()
        self.folder = os.path.join(folder, title)
        os.makedirs(os.path.join(self.folder, "out"))
        self.write("w.v", text)
        self.write("c.cnf", FOUR)
        if depths:
            lines = ["[options]", "isa rv32i", "[depth]", *depths, "[verilog-files]", "w.v"]
            self.write("checks.cfg", "".join(line + "\n" for line in lines))
        self.full = self.ran()
        self.reported = re.findall(r"^(pass|fail|spent|aiger) (\w+)", self.full.out, re.M)

    def write(self, name, text):
        with open(os.path.join(self.folder, name), "w") as file:
            file.write(text)

    def ran(self, **given):
        """What the program comes to where the library is told so."""
        out = os.path.join(self.folder, "out")
        shutil.rmtree(out)
        os.makedirs(out)
        told = {"LD_PRELOAD": self.library, "COUNT_TO": os.path.join(self.folder, "counts")}
        told.update({name.upper(): str(value) for name, value in given.items()})
        done = subprocess.run([self.program, *self.words], cwd=self.folder, env=told, capture_output=True, timeout=600)
        files = {}
        for name in os.listdir(out):
            with open(os.path.join(out, name), "rb") as file:
                files[name] = file.read()
        with open(told["COUNT_TO"], "rb") as file:
            counts = struct.unpack("3L", file.read())
        if done.stderr:
            files["standard error"] = done.stderr
        return Result(done.returncode, done.stdout.decode(), files, counts)

    def files_of(self, line):
        kind, name = line
        if kind == "aiger":
            return [os.path.basename(self.words[-1])]
        return [f"{name}.{end}" for end in (["vcd"] if kind == "fail" else ["cnf", "lrat"])]

    def is_front(self, got, whole_lines):
        """Whether checks whose lines were put have their files, and of what comes next there is at most a front."""
        if not self.full.out.startswith(got.out) or whole_lines and got.out and not got.out.endswith("\n"):
            return False
        put = len(re.findall(r"^(?:pass|fail|spent|aiger) \w+.*\n", got.out, re.M))
        due = [name for line in self.reported[:put] for name in self.files_of(line)]
        begun = self.files_of(self.reported[put]) if put < len(self.reported) else []
        if any(got.files.get(name) != self.full.files[name] for name in due) or set(got.files) - set(due + begun):
            return False
        parts = [got.files.get(name) for name in begun]
        whole = [part == self.full.files[name] for name, part in zip(begun, parts)]
        fronts = [part is None or self.full.files[name].startswith(part) for name, part in zip(begun, parts)]
        # a later file isn't begun where the one before it isn't whole
        return all(fronts) and (len(parts) < 2 or parts[1] is None or whole[0])

    def is_full(self, got):
        return (got.code, got.out, got.files) == (self.full.code, self.full.out, self.full.files)

    def has_other_proofs(self, got):
        """Whether all is as in the full run but for proofs, each of which a second reading accepts for its clauses: a
        search that isn't given room for something that it can do without goes another way."""
        if (got.code, got.out, set(got.files)) != (self.full.code, self.full.out, set(self.full.files)):
            return False
        other = [name for name, text in got.files.items() if text != self.full.files[name]]
        return all(name.endswith(".lrat")
                   and lrat_rules.answer(got.files[name[:-4] + "cnf"], got.files[name])[0].startswith("refuted")
                   for name in other)

    def judge(self, kind, got):
        """Whether what came out is one of the answers to such a refusal."""
        if self.is_full(got):
            return True
        if kind == "memory":
            return got.code == 11 and self.is_front(got, True) or self.has_other_proofs(got)
        if kind == "call":
            is_unread = re.fullmatch(r"read fault [\w.]+\n", got.out) and not got.files
            return got.code == 7 and bool(is_unread) or got.code == 8 and self.is_front(got, False)
        return kind == "thread" and got.code == 11 and not got.out and not got.files


def chosen(count, most):
    """Numbers from 1 to the count: all, or the first half of so many, and the rest spread over the others."""
    if count <= most:
        return range(1, count + 1)
    near = most // 2
    far = {near + (count - near) * at // (most - near) for at in range(1, most - near + 1)}
    return sorted(set(range(1, near + 1)) | far)


def memory_folder():
    return tempfile.TemporaryDirectory(dir="/dev/shm" if os.access("/dev/shm", os.W_OK) else None)


def tried(job, numbers):
    """What some refusals came to: how often each code, and what was wrong."""
    program, library, title, kind, name, on = job
    codes, wrong = collections.Counter(), []
    with memory_folder() as folder:
        case = Case(program, library, folder, title)
        for number in numbers:
            got = case.ran(**{name: number, "refuse_on": int(on)})
            codes["full" if case.is_full(got) else got.code] += 1
            if not case.judge(kind, got):
                wrong.append((number, got.code, got.out[-80:], sorted(got.files)))
    return codes, wrong


def told(pool, job, count, most):
    """Prints how many refusals were tried and what they came to; how many were wrong."""
    _, _, title, kind, _, on = job
    codes, wrong, numbers = collections.Counter(), [], chosen(count, most)
    parts = [numbers[at:at + RUNS_OF_A_PART] for at in range(0, len(numbers), RUNS_OF_A_PART)]
    for part_codes, part_wrong in pool.map(tried, itertools.repeat(job), parts):
        codes.update(part_codes)
        wrong += part_wrong
    said = ", ".join(f"{codes[code]} {'as the full run' if code == 'full' else f'code {code}'}"
                     for code in sorted(codes, key=str))
    label = f"{title}: {'all from each on' if on else 'each alone'}, {kind}"
    print(f"{label}: {len(numbers)} of {count}: {said}" + (f"; WRONG {wrong[:5]}" if wrong else ""), flush=True)
    return len(wrong)


def main():
    parser = argparse.ArgumentParser(description=__doc__, formatter_class=argparse.RawDescriptionHelpFormatter)
    parser.add_argument("--program", default=os.path.join(HERE, "..", "crates", "rvf", "out", "rvf"))
    parser.add_argument("--most", type=int, default=10 ** 9)
    parser.add_argument("--only", default="")
    parser.add_argument("--jobs", type=int, default=1)
    words = parser.parse_args()
    wrong, program = 0, os.path.abspath(words.program)
    with tempfile.TemporaryDirectory() as folder, concurrent.futures.ProcessPoolExecutor(words.jobs) as pool:
        library = os.path.join(folder, "refuse.so")
        source = os.path.join(HERE, "refuse-calls.c")
        subprocess.run(["cc", "-O1", "-shared", "-fPIC", "-o", library, source, "-ldl", "-lpthread"], check=True)
        for title in [title for title in CASES if words.only in title]:
            memory, calls, threads = Case(program, library, os.path.join(folder, "full"), title).full.counts
            for on in (False, True):
                for kind, name, count in (("memory", "refuse_memory", memory), ("call", "refuse_call", calls),
                                          ("thread", "refuse_thread", threads)):
                    wrong += told(pool, (program, library, title, kind, name, on), count, words.most)
            wrong += told(pool, (program, library, title, "short", "short_call", False), calls, words.most)
    sys.exit(wrong > 0)


if __name__ == "__main__":
    main()
