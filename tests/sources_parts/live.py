"""Runs over pipes that a test writes, and whose texts are seen as they come."""
from __future__ import annotations

import os
import signal
import subprocess
import tempfile
import time
from typing import IO, NamedTuple, Optional, Sequence

from sources_parts.program import PROGRAM
from terminal_parts.harness import LONGEST_RUN

PATIENCE = 10.0  # seconds within which a line comes that should come at once, also where a machine has other work
GIVEN_UP = 3.0  # seconds after which a run that should have ended is killed


class Ended(NamedTuple):
    """How a run ended (below 0: by a signal; None: it did not, and was killed), what it wrote, and how long its end took."""

    status: Optional[int]
    out: str
    trace: str
    seconds: float


class LiveRun:
    """A run of the program. A source is a name, or None for a pipe, whose writing end is kept here."""

    def __init__(self, spec: str, sources: Sequence[Optional[str]], options: Sequence[str] = (), out: Optional[int] = None, trace: Optional[int] = None) -> None:
        pipes = [os.pipe() if source is None else None for source in sources]
        names = [source if pipe is None else f"/dev/fd/{pipe[0]}" for pipe, source in zip(pipes, sources)]
        readers = [pipe[0] for pipe in pipes if pipe]
        self.ends = [pipe[1] if pipe else -1 for pipe in pipes]
        self.out, self.trace = tempfile.TemporaryFile(), tempfile.TemporaryFile()
        self.process = subprocess.Popen([PROGRAM, "run", *options, spec, *names], stdin=subprocess.DEVNULL, pass_fds=readers,
                                        stdout=self.out if out is None else out, stderr=self.trace if trace is None else trace)
        for reader in readers:
            os.close(reader)
        self.begun = time.monotonic()

    def write(self, source: int, text: str) -> None:
        """Says this on a pipe, if it is something. Where the run has ended nobody reads it; how it ended is told in the end."""
        if not text:
            return
        self.begun = time.monotonic()
        try:
            os.write(self.ends[source], text.encode())
        except BrokenPipeError:
            pass

    def close(self, *sources: int) -> None:
        """Closes the pipes of these sources, or of all."""
        self.begun = time.monotonic()
        for source in sources or range(len(self.ends)):
            if self.ends[source] >= 0:
                os.close(self.ends[source])
                self.ends[source] = -1

    def send(self, chosen: signal.Signals) -> None:
        self.begun = time.monotonic()
        self.process.send_signal(chosen)

    @staticmethod
    def text(file: IO[bytes]) -> str:
        """What stands in a file by now."""
        return os.pread(file.fileno(), os.fstat(file.fileno()).st_size, 0).decode()

    def lines(self) -> tuple[int, int]:
        """How many whole lines the output and the trace have by now."""
        return self.text(self.out).count("\n"), self.text(self.trace).count("\n")

    def has_lines(self, out: int, trace: int) -> bool:
        """Waits until so many lines are there, and tells whether they came."""
        limit = time.monotonic() + PATIENCE
        while True:
            is_over = time.monotonic() > limit or self.process.poll() is not None
            there = self.lines()
            if there[0] >= out and there[1] >= trace:
                return True
            if is_over:
                return False
            time.sleep(0.001)

    def expect_lines(self, out: int, trace: int) -> None:
        """Waits until so many lines are there. Where they do not come the test is broken off."""
        if not self.has_lines(out, trace):
            raise TimeoutError(f"{out} lines and {trace} of the trace were waited for; there are {self.lines()}")

    def processor_seconds(self) -> float:
        """The processor's time that the process has taken so far, by its own clock."""
        return time.clock_gettime((~self.process.pid << 3) | 2)

    def end(self, seconds: float = GIVEN_UP) -> Ended:
        """Waits for the end, and then closes everything. What it took counts from the last write, close or signal."""
        try:
            status: Optional[int] = self.process.wait(seconds)
        except subprocess.TimeoutExpired:
            status = None
            self.process.kill()
            self.process.wait(LONGEST_RUN)
        took = time.monotonic() - self.begun
        self.close()
        ended = Ended(status, self.text(self.out), self.text(self.trace), took)
        self.out.close()
        self.trace.close()
        return ended
