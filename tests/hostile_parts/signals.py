"""Signals at any moment of a run whose rows come slowly: what was written is a front of what would have been."""
from __future__ import annotations

import os
import signal
import subprocess
import time
from typing import NamedTuple

from hostile_parts.runs import Came
from terminal_parts.harness import LOLAMON, LONGEST_RUN, Checks, write

SPEC = "input a: Int64\noutput b: Int64 := a + 1\noutput n: UInt64 @1Hz := a.aggregate(over: 2s, using: count)\ntrigger a % 5 == 3 \"three\"\n"
ROWS = 60  # a row each tenth of a second
MOMENTS = 10
SIGNALS = (signal.SIGTERM, signal.SIGINT, signal.SIGKILL)


class Whole(NamedTuple):
    """What a run over all rows reads and writes."""

    source: bytes
    out: bytes
    trace: bytes


def whole_run() -> Whole:
    """The whole run, by the rules: a row is at n tenths of a second and has n, and a deadline each second looks at those of the last two."""
    source, out, trace = ["time,a\n"], [], []

    def deadline(second: int) -> str:
        newest = min(10 * second, ROWS - 1)
        return f"{second}.000000000 n = {newest - max(10 * second - 20, -1)}\n"

    for n in range(ROWS):
        stamp = f"{n // 10}.{n % 10}"
        source.append(f"{stamp},{n}\n")
        trace.append(f"0,{n + 1},{stamp}00000000,A,{n}\n")
        if n % 10 == 1 and n > 10:  # the row that makes the deadline before it pass
            out.append(deadline(n // 10))
        out.append(f"{stamp}00000000 b = {n + 1}\n")
        out += [f'{stamp}00000000 trigger_1 "three"\n'] if n % 5 == 3 else []
    steps, lines = ROWS + (ROWS - 1) // 10, len(out)
    out.append(f"= done accepted {ROWS} late 0 steps {steps} lines {lines}\n")
    return Whole(*("".join(texts).encode() for texts in (source, out, trace)))


def feed(words: list[str], source: bytes, pieces: int, chosen: signal.Signals | None, stops: bool = False) -> Came:
    """Runs over a pipe that gets so many pieces of the source, a millisecond between them; then a signal comes, or else the rest.
    The run may be stopped between the pieces, and goes on with the next."""
    with open("came.out", "w+b") as out, open("came.trace", "w+b") as trace:
        with subprocess.Popen([LOLAMON, *words], stdin=subprocess.PIPE, stdout=out, stderr=trace) as started:
            try:
                for piece in range(pieces):
                    os.write(started.stdin.fileno(), source[7 * piece : 7 * piece + 7])
                    for halting in (signal.SIGSTOP, signal.SIGCONT) if stops else ():
                        started.send_signal(halting)
                    time.sleep(0.001)
                if chosen is None:
                    os.write(started.stdin.fileno(), source[7 * pieces :])
                else:
                    started.send_signal(chosen)
            except BrokenPipeError:  # it has ended before its time, which the status will tell
                pass
            started.stdin.close()
            status = started.wait(LONGEST_RUN)
        out.seek(0)
        trace.seek(0)
        return Came(status, out.read(), trace.read())


def newest(lines: bytes, separator: bytes, place: int) -> int:
    """The time of the last whole line in nanoseconds, or -1."""
    whole = lines[: lines.rfind(b"\n")].rsplit(b"\n", 1)[-1]
    return int(whole.split(separator)[place].replace(b".", b"")) if b"\n" in lines else -1


def complaints(came: Came, whole: Whole, chosen: signal.Signals) -> list[str]:
    """What is wrong with a run that was ended by a signal."""
    wrong = []
    if came.status != -chosen:
        wrong.append(f"status {came.status}")
    if not whole.trace.startswith(came.trace):
        wrong.append("the trace is no front")
    if not whole.out.startswith(came.out):
        wrong.append("the verdicts are no front")
    if not wrong and newest(came.out, b" ", 0) > newest(came.trace, b",", 2):
        wrong.append("a verdict's row is not in the trace")
    return wrong


def test_rows_in_pieces(checks: Checks) -> None:
    whole, spec = whole_run(), write("signals.lola", SPEC)
    for way in ([], ["--in-turns"]):
        for stops in (False, True):
            came = feed(["run", "--show", "outputs", *way, spec, "/dev/stdin"], whole.source, 30, None, stops)
            checks.same(f"the whole run {way}, stopped and continued: {stops}", Came(0, whole.out, whole.trace), came)


def test_signals(checks: Checks) -> None:
    whole, spec = whole_run(), write("signals.lola", SPEC)
    lengths = []
    for chosen in SIGNALS:
        for moment in range(MOMENTS):
            way = ["--in-turns"] if moment % 2 else []
            came = feed(["run", "--show", "outputs", *way, spec, "/dev/stdin"], whole.source, 7 * moment + 3, chosen)
            checks.same(f"{chosen.name} behind {7 * moment + 3} pieces {way}", [], complaints(came, whole, chosen))
            lengths.append(len(came.trace))
    checks.same("some of them came between the first row and the last", True, any(0 < length < len(whole.trace) for length in lengths))


def test_signals_while_rows_run(checks: Checks) -> None:
    """All rows are there from the beginning, many times over, and the signal comes in the midst of the writes."""
    rows = 200_000
    write("many.csv", "time,a\n" + "".join(f"{n // 10}.{n % 10},{n}\n" for n in range(rows)))
    spec = write("each.lola", "input a: Int64\noutput b: Int64 := a + 1\n")
    lines = [f"{n // 10}.{n % 10}00000000" for n in range(rows)]
    whole = Whole(b"", "".join(f"{stamp} b = {n + 1}\n" for n, stamp in enumerate(lines)).encode(),
                  "".join(f"0,{n + 1},{stamp},A,{n}\n" for n, stamp in enumerate(lines)).encode())
    for moment in range(MOMENTS):
        chosen, way = SIGNALS[moment % 3], ["--in-turns"] if moment % 2 else []
        with open("came.out", "w+b") as out, open("came.trace", "w+b") as trace:
            with subprocess.Popen([LOLAMON, "run", "--show", "outputs", *way, spec, "many.csv"], stdout=out, stderr=trace) as started:
                while os.fstat(trace.fileno()).st_size == 0 and started.poll() is None:
                    time.sleep(0.0001)
                time.sleep(0.001 * moment)
                started.send_signal(chosen)
                status = started.wait(LONGEST_RUN)
            out.seek(0)
            trace.seek(0)
            came = Came(status, out.read(), trace.read())
        wrong = complaints(came, whole, chosen)
        of_trace, of_out = came.trace.count(b"\n"), came.out.count(b"\n")
        if of_out > of_trace or (way and of_trace > of_out + 1):  # in turns a row is evaluated before the next is read
            wrong.append(f"{of_trace} whole lines in the trace, {of_out} verdicts")
        checks.same(f"{chosen.name} in the midst of writes {way}", [], wrong)
