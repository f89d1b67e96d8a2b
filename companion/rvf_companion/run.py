"""The command `run.py`: runs rvf, explains a refusal, and makes the reports. Nothing here is trusted by a verdict."""
from __future__ import annotations

import argparse
import signal
import subprocess
import sys
import threading
import time
from dataclasses import replace
from pathlib import Path

from .again import Call, Former, former, inputs_of, kept_checks, outputs_of
from .configuration import Configuration, kind_of, read_configuration, reduced
from .explanation import explain
from .report import beside
from .reports import Setting, write_reports
from .run_lines import WITHOUT_A_LINE, Run
from .screen import Screen
from .written import MADE_BY_RUN, NAMES, REDUCED, would_overwrite

# The code of a run that was stopped since its time was over, as a shell has it.
STOPPED = 128 + signal.SIGTERM


def arguments() -> argparse.ArgumentParser:
    """The words of the command."""
    words = argparse.ArgumentParser(prog="run.py", description=(
        "Runs `rvf run`, passes its lines on, says a refusal in words, and makes report.xml, report.json and "
        "index.html in OUTDIR. Ends with the program's code, or with 128 and the number of the signal that stopped it. "
        "Nothing of it is trusted by a verdict."))
    words.add_argument("cfg", metavar="CFG", help="the configuration")
    words.add_argument("outdir", metavar="OUTDIR", nargs="?", help="the folder for all files, which has to be there")
    words.add_argument("--core", default="core", metavar="NAME", help="stands for @core@ (core)")
    words.add_argument("--basedir", default=".", metavar="DIR", help="stands for @basedir@ (.)")
    words.add_argument("--budget", type=int, default=200_000, metavar="N",
                       help="clauses that each check may learn (200000)")
    words.add_argument("--jobs", type=int, default=1, metavar="N", help="checks that are judged beside each other (1)")
    words.add_argument("--rvf", default=beside(), metavar="PROGRAM", help="the program")
    words.add_argument("--kinds", default="", metavar="KIND,..", help="these kinds alone, as insn or reg")
    words.add_argument("--again", action="store_true", help="leaves out kinds whose checks stand from the run before: "
                       "of the same configuration, files, options and program; a spent of a smaller budget is run "
                       "again")
    words.add_argument("--timeout", type=float, metavar="SECONDS", help="stops the program after so long")
    words.add_argument("--list-kinds", action="store_true", help="prints the kinds of the configuration, for make")
    return words


def main(words: list[str] | None = None) -> int:
    """Runs as the words say."""
    asked = arguments().parse_args(words)
    try:
        configuration = read_configuration(Path(asked.cfg))
        if asked.list_kinds:
            print(" ".join(dict.fromkeys(kind_of(word)[0] for _, word, _ in configuration.depths())))
            return 0
        if asked.outdir is None or not Path(asked.outdir).is_dir():
            print(f"run: {asked.outdir or 'OUTDIR'} is no folder, so nothing was run", file=sys.stderr)
            return 3
        call = Call(asked.rvf, Path(asked.cfg), Path(asked.outdir), asked.core, asked.basedir, asked.budget, asked.jobs)
        kinds = [kind for kind in asked.kinds.split(",") if kind]
        read = [asked.cfg, *configuration.files(asked.core, asked.basedir)]
        lost = would_overwrite(call.outdir, [*NAMES, REDUCED], read)
        if lost:
            print(f"run: {lost}, so nothing was run: give another folder", file=sys.stderr)
            return 3
        return work(call, configuration, kinds, asked.again, asked.timeout)
    except subprocess.TimeoutExpired as late:
        print(f"run: {asked.rvf} was stopped after {late.timeout:g} seconds, before it named its checks; no report was "
              "written", file=sys.stderr)
        return STOPPED
    except FileNotFoundError as fault:
        hint = ": build it by `rt ci` or `./rvf`, or name it by --rvf" if fault.filename == asked.rvf else ""
        print(f"run: {fault.filename} isn't there{hint}", file=sys.stderr)
        return 6
    except (OSError, UnicodeError) as fault:
        print(f"run: {fault}", file=sys.stderr)
        return 6


def work(call: Call, configuration: Configuration, kinds: list[str], again: bool, timeout: float | None) -> int:
    """Runs the kinds that are left, and makes the reports of these and of what is kept."""
    listed, refused = names_of(call, timeout)
    present = {kind_of(word)[0] for _, word, _ in configuration.depths()}
    unknown = [kind for kind in kinds if kind not in present]
    if unknown:
        print(f"run: the configuration has no kind {', '.join(unknown)}; it has {', '.join(sorted(present))}",
              file=sys.stderr)
        return 3
    wanted = [name for name in listed if not kinds or kind_of(name)[0] in kinds]
    inputs = inputs_of(call, configuration)
    past = former(call, inputs)
    kept = kept_checks(call, past, wanted) if again and not refused else []
    leave = {kind_of(check.name)[0] for check in kept} | (present - set(kinds) if kinds else set())
    text, left = reduced(configuration, leave)
    run, code = Run(jobs=max(1, call.jobs)), 0
    if left or not kept:
        done = call
        if leave:
            done = replace(call, cfg=call.outdir / REDUCED)
            done.cfg.write_bytes((text + MADE_BY_RUN).encode())
        code = follow(done, run, len(wanted) - len(kept), timeout)
    else:
        run.total, run.code = "every check stands from the run before", 0
    run.refusal = run.refusal.replace(f" {call.outdir / REDUCED}:", f" {call.cfg}:") if leave else run.refusal
    run.checks += kept
    run.checks.sort(key=lambda check: listed.index(check.name) if check.name in listed else len(listed))
    return finish(call, configuration, run, past, inputs, code)


def names_of(call: Call, timeout: float | None) -> tuple[list[str], bool]:
    """The names of all checks by the program, and whether it refused. What it says on its way, as `./rvf` does that
    builds it first, is passed on."""
    done = subprocess.run([call.program, "list", str(call.cfg)], stdout=subprocess.PIPE, text=True, errors="replace",
                          check=False, timeout=timeout)
    return done.stdout.splitlines(), done.returncode != 0


def follow(call: Call, run: Run, total: int, timeout: float | None) -> int:
    """Runs the program and takes its lines as they come, which are passed on. Answers its code, or 128 and the number
    of the signal that stopped it."""
    words = [call.program, "run", str(call.cfg), str(call.outdir), "--core", call.core, "--basedir", call.basedir,
             "--budget", str(call.budget), "--jobs", str(call.jobs)]
    begun = time.monotonic()
    with subprocess.Popen(words, stdout=subprocess.PIPE, text=True, errors="replace") as process:
        clock = threading.Timer(timeout, process.terminate) if timeout else None
        if clock:
            clock.start()
        try:
            with Screen(run, total or None, sys.stderr, begun) as screen:
                for line in process.stdout or []:
                    run.take(line.rstrip("\n"), time.monotonic() - begun)
                    screen.say(line.rstrip("\n"))
                    screen.show()
        except KeyboardInterrupt:
            process.terminate()
            run.others.append("the run was interrupted")
        finally:
            code = process.wait()
            if clock:
                clock.cancel()
    run.seconds = time.monotonic() - begun
    run.code = code if code >= 0 else None
    if code < 0:
        late = f" after {timeout:g} seconds" if timeout and run.seconds >= timeout else ""
        run.others.append(f"the program was stopped by the signal {-code}{late}")
    return code if code >= 0 else 128 - code


def finish(call: Call, configuration: Configuration, run: Run, past: Former, inputs: dict, code: int) -> int:
    """Makes the reports and answers the code: the program's, or that of all checks where some are kept. Checks of
    kinds that weren't asked for stay in report.json, for a later `--again`."""
    if run.refusal:
        print("\n".join(explain(run.refusal, str(call.cfg))))
    if not run.is_ours() and run.code not in WITHOUT_A_LINE:
        first = f": the first line was {run.others[0]!r}" if run.others else ""
        print(f"run: {call.program} doesn't answer as rvf does{first}; no report was written", file=sys.stderr)
        return code or 1
    if not run.ended():
        print(f"run: {run.end()}", file=sys.stderr)
    names = {check.name for check in run.checks}
    before = [one for name, one in past.checks.items() if name not in names]
    sums = {"inputs": inputs, "outputs": {**past.outputs, **outputs_of(call.outdir, run.checks)}}
    setting = Setting(call.outdir, configuration, str(call.cfg), call.program, call.core, call.basedir, sums, before)
    try:
        write_reports(setting, run)
    except OSError as fault:
        print(f"run: no report could be written: {fault}", file=sys.stderr)
        return code or 8
    if code > 2 or not run.ended():
        return code or 1
    return 1 if run.count("fail") else 2 if run.count("spent") else 0
