"""The terminal during a run: its lines, and how far it is. Nothing here is trusted by a verdict."""
from __future__ import annotations

import os
import sys
import threading
import time
from typing import TextIO

from .run_lines import Run


class Screen:
    """A terminal with a line that has the checks that are done, of how many, and the time so far; it goes on each
    second. Where there is no terminal nothing of it is shown."""

    def __init__(self, run: Run, total: int | None, stream: TextIO | None, begun: float) -> None:
        self.run, self.total, self.begun = run, total, begun
        self.stream = stream if stream is not None and stream.isatty() else None
        self.is_read = True
        self._lock = threading.Lock()
        self._is_over = threading.Event()

    def __enter__(self) -> "Screen":
        if self.stream:
            threading.Thread(target=self._go_on, daemon=True).start()
        return self

    def __exit__(self, *_: object) -> None:
        self._is_over.set()
        self.show("\n")

    def _go_on(self) -> None:
        """Shows the line each second."""
        while not self._is_over.wait(1):
            self.show()

    def show(self, ending: str = "") -> None:
        """Shows the line as it is now."""
        done = f"{len(self.run.checks)} of {self.total}" if self.total else str(len(self.run.checks))
        minutes, seconds = divmod(int(time.monotonic() - self.begun), 60)
        with self._lock:
            self._write(f"\r{done} checks, {self.run.count('fail')} fail, {minutes}:{seconds:02} \x1b[K{ending}")

    def say(self, line: str) -> None:
        """Puts a line of the run on standard output, on a terminal in the place of the line that is shown. Where nobody
        reads it any more, as behind `| head`, the run goes on without it."""
        with self._lock:
            self._write("\r\x1b[K")
            try:
                if self.is_read:
                    print(line, flush=True)
            except BrokenPipeError:
                self.is_read = False
                # What Python writes at its end would fail once more.
                os.dup2(os.open(os.devnull, os.O_WRONLY), sys.stdout.fileno())

    def _write(self, text: str) -> None:
        """Writes on the terminal; where it is gone, the run goes on without it."""
        try:
            if self.stream:
                self.stream.write(text)
                self.stream.flush()
        except OSError:
            self.stream = None
