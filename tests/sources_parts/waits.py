"""A source that is silent holds nothing up, and waiting takes little of a processor's time."""
from __future__ import annotations

import subprocess
import time
from typing import Optional

from sources_parts.ends import SILENCES
from sources_parts.live import Ended, LiveRun
from sources_parts.merged import SECOND, SPEC, Texts, difference, file_text, merged, texts_of
from terminal_parts.harness import Checks, write

ROWS = 2000
WARM = 1.0  # seconds until a run waits
WAITS = 4.0  # seconds for which it is looked at
LOOKS = 3  # how often at most: beside other work on the machine a run that waits may take longer for the little that it does
MOST_A_SECOND = 0.001  # seconds of a processor, also for 64 silent pipes: nobody looks at anything
BEAT = 'input a: Int64\noutput n: UInt64 @1Hz := a.aggregate(over: 2s, using: count)\ntrigger n == 0 "silent"\n'
SUM = 'input a: Int64\noutput b: Int64 := a + 1\ntrigger b > 2 "high"\n'


def expect_trace(checks: Checks, what: str, trace: str, ended: Ended, status: int = 0) -> None:
    """A run has ended so, and its trace is this; where it is not, the first lines that differ are told."""
    checks.same(what, "no difference", difference(Texts(status, "", trace), Texts(-1 if ended.status is None else ended.status, "", ended.trace)))


def run_beside_silent_pipes(checks: Checks, sources: list[Optional[str]], speaker: int, said: str) -> Ended:
    """A run of which all rows of the file are judged before one of the pipes, which have said something, goes on, to its first row."""
    run = LiveRun(write("mixed.lola", SPEC), sources, ["--show", "outputs"])
    for source in range(len(sources)):
        if sources[source] is None and said:
            run.write(source, said)
    what = f"beside {len(sources) - 1} pipes that have said {said!r}"
    checks.same(f"the file's rows {what}", True, run.has_lines(ROWS, ROWS))
    run.write(speaker, "time,a\n5000,7\n"[len(said):])
    checks.same(f"the row of source {speaker} {what}", True, run.has_lines(ROWS + 1, ROWS + 1))
    run.close(*(source for source in range(len(sources)) if source != speaker))
    checks.same(f"the end of source {speaker} is waited for {what}", None, run.process.poll())
    run.close()
    return run.end()


def test_files_beside_silent_pipes(checks: Checks) -> None:
    """All rows of a file are judged while pipes are silent; then a row of a pipe comes, and is the last."""
    stamps = [number * SECOND // 100 for number in range(ROWS)]
    for pipes in (1, 63):
        for place in (0, pipes):
            trace = texts_of(merged([[]] * place + [stamps])).trace
            sources: list[Optional[str]] = [None] * pipes
            sources.insert(place, write("rows.csv", file_text(place, stamps)))
            speaker = 0 if place else pipes
            for said in ("", "tim", "time,a\n", "time,a\n50"):
                ended = run_beside_silent_pipes(checks, sources, speaker, said)
                status = 0 if said == "time,a\n" or pipes == 1 else 4  # the others have no row, or no heading
                expect_trace(checks, f"source {place} is the file, {said!r}", trace + f"{speaker},1,5000.000000000,A,7\n", ended, status)


def test_order_of_arrival(checks: Checks) -> None:
    """Rows of three pipes, each judged before the next is written; one of them is stamped before its forerunner, and late."""
    run = LiveRun(write("sum.lola", SUM), [None, None, None])
    for source in range(3):
        run.write(source, "time,a\n")
    arrivals = [(2, 1, 1), (0, 1, 2), (0, 2, 5), (1, 1, 6), (2, 2, 4), (1, 2, 6), (2, 3, 9)]  # source, number, stamp
    trace, newest = [], 0
    for count, (source, number, stamp) in enumerate(arrivals, start=1):
        run.write(source, f"{stamp},0\n")
        checks.same(f"row {number} of source {source} is judged", True, run.has_lines(0, count))
        trace.append(f"{source},{number},{stamp}.000000000,{'A' if stamp >= newest else f'L{newest}.000000000'},0\n")
        newest = max(newest, stamp)
    run.close()
    ended = run.end()
    checks.same("the end", (0, "= done accepted 6 late 1 steps 6 lines 0\n"), (ended.status, ended.out))
    expect_trace(checks, "the trace", "".join(trace), ended)


def test_times_alone(checks: Checks) -> None:
    """A source of times alone makes deadlines pass while the other is silent."""
    run = LiveRun(write("beat.lola", BEAT), [None, None])
    run.write(0, "time,a\n0,1\n")
    checks.same("the first row", True, run.has_lines(0, 1))
    run.write(1, "time\n")
    for second in range(1, 6):
        run.write(1, f"{second}.5\n")
        due = max(0, second - 1)  # from second 2 on the window is empty
        checks.same(f"the verdict of second {second}", True, run.has_lines(due, 1 + second))
        checks.same(f"no further one in second {second}", due, run.lines()[0])
    run.close()
    checks.same("the end", 0, run.end().status)


def taken_by(runs: dict[str, LiveRun]) -> dict[str, float]:
    """How many seconds of a processor each of these runs takes while it is looked at."""
    before = {what: run.processor_seconds() for what, run in runs.items()}
    time.sleep(WAITS)
    return {what: run.processor_seconds() - before[what] for what, run in runs.items()}


def expect_idle(checks: Checks, runs: dict[str, LiveRun]) -> None:
    """None of these runs, which wait since a while, takes much of a processor's time."""
    time.sleep(WARM)
    least = taken_by(runs)
    for _ in range(1, LOOKS):
        if max(least.values()) >= MOST_A_SECOND * WAITS:
            least = {what: min(seconds, least[what]) for what, seconds in taken_by(runs).items()}
    for what, seconds in least.items():
        checks.note(seconds < MOST_A_SECOND * WAITS, what, f"less than {MOST_A_SECOND * WAITS} s of a processor in {WAITS} s", f"{seconds:.4f} s")


def test_processor_of_silent_pipes(checks: Checks) -> None:
    """64 pipes that say nothing, wherever in a line; one beside 63 files that have ended; and one alone."""
    runs = {}
    for name, silence in SILENCES.items():
        run = LiveRun(write("sum.lola", SUM), [None] * 64)
        for source in range(64):
            run.write(source, silence.said)
        run.expect_lines(0, silence.rows * 64)
        for source in range(64):
            run.write(source, silence.later)
        runs[f"64 pipes, silent {name}"] = run
    names = [write(f"{n}.csv", file_text(n, [n * SECOND])) for n in range(63)]
    runs["a pipe beside 63 files"] = LiveRun(write("sum.lola", SUM), [*names, None])
    runs["a pipe beside 63 files"].expect_lines(0, 63)
    runs["a pipe alone"] = LiveRun("sum.lola", [None])
    runs["a pipe alone"].write(0, "time,a\n0,5\n0,")
    runs["a pipe alone"].expect_lines(0, 1)
    expect_idle(checks, runs)
    for run in runs.values():
        run.end(0)


def test_processor_of_a_full_trace(checks: Checks) -> None:
    """Nobody reads the trace for a while, so nothing can go on; then all of it is read, and nothing is missing."""
    runs, traces = {}, []
    for count in (1, 2, 64):
        files = [[(number * count + source) * SECOND // 1000 for number in range(64_000 // count)] for source in range(count)]
        names = [write(f"{source}-of-{count}.csv", file_text(source, stamps)) for source, stamps in enumerate(files)]
        runs[f"{count} files"] = LiveRun(write("sum.lola", SUM), names, trace=subprocess.PIPE)
        traces.append(texts_of(merged(files)).trace)
    expect_idle(checks, runs)
    for (what, run), wanted in zip(runs.items(), traces):
        with run.process.stderr as reader:
            came = reader.read().decode()
        checks.same(f"the trace of {what}", True, came == wanted)
        checks.same(f"the status of {what}", 0, run.end().status)
