"""Whatever ends a run ends it at once, although its sources are silent."""
from __future__ import annotations

import os
import resource
import signal
import subprocess
from concurrent.futures import ThreadPoolExecutor
from typing import Callable, NamedTuple, Optional, Sequence

from sources_parts.live import Ended, LiveRun
from terminal_parts.harness import Checks, write

SOON = 0.2  # seconds, which is what a machine may need that starts and ends other runs meanwhile; nothing is waited for
TRIES = 3
AT_ONCE = 4  # runs, which wait most of their time
DIVIDES = 'input a: Int64\noutput b: Int64 := 10 / a\ntrigger b > 4 "high"\n'
HIGH = '1.000000000 trigger_1 "high"\n'
FAULT = "= fault b 2 DivZero at 2.000000000\n"
PANES = """\
input a: Int64
output z(p: Int64): Int64 spawn with a eval @a when a == p with p
output n: UInt64 @1s := z(1).aggregate(over: 18h, using: count)
"""
PIPES = (1, 2, 64)


class Silence(NamedTuple):
    """What a source has said before it is silent, how many rows that is, and what more it says once these are judged."""

    said: str = ""
    rows: int = 0
    later: str = ""


SILENCES = {
    "from the beginning": Silence(),
    "in its heading": Silence("tim"),
    "behind its heading": Silence("time,a\n"),
    "behind a row": Silence("time,a\n0,5\n", 1),
    "in a row": Silence("time,a\n0,5\n0,", 1),
    "in a row that it began later": Silence("time,a\n0,5\n", 1, "0,"),
}
BEHIND = ("", "3,")  # what the pipe that speaks says behind the row that ends the run, before it is silent too


class Case(NamedTuple):
    """A run that is to end soon, with this status, and to write this output and so many lines of trace; None: whatever it is."""

    what: str
    run: Callable[[], Ended]
    status: int
    out: Optional[str] = None
    trace_lines: Optional[int] = None


def silences(count: int) -> list[str]:
    """The silences to try of all pipes but the last, which speaks; a pipe that is alone has none beside it."""
    return list(SILENCES) if count > 1 else ["behind its heading"]


def rows_before(count: int, silence: str) -> int:
    """How many rows the pipes that are silent have said."""
    return SILENCES[silence].rows * (count - 1)


def tried(case: Case) -> Ended:
    """How the run of a case ends. Where a machine that has other work was slow, it is tried again."""
    for _ in range(TRIES):
        ended = case.run()
        if ended.seconds < SOON:
            break
    return ended


def expect_soon(checks: Checks, cases: Sequence[Case]) -> list[Ended]:
    """Each of these runs has ended at once, as its case says. Some are run at the same time."""
    with ThreadPoolExecutor(AT_ONCE) as pool:
        ends = list(pool.map(tried, cases))
    for case, ended in zip(cases, ends):
        checks.same(f"{case.what}: status", case.status, ended.status)
        checks.note(ended.seconds < SOON, f"{case.what}: end", f"within {SOON} s", f"{ended.seconds:.2f} s")
        if case.out is not None:
            checks.same(f"{case.what}: output", case.out, ended.out)
        if case.trace_lines is not None:
            checks.same(f"{case.what}: lines of the trace", case.trace_lines, ended.trace.count("\n"))
    return ends


def silent_run(count: int, silence: str, **streams: int) -> LiveRun:
    """A run over so many pipes, of which all but the last are silent by now, and the last has said its heading."""
    run = LiveRun("divides.lola", [None] * count, **streams)
    for source in range(count - 1):
        run.write(source, SILENCES[silence].said)
    run.write(count - 1, "time,a\n")
    if "trace" not in streams:
        run.expect_lines(0, rows_before(count, silence))
    for source in range(count - 1):
        run.write(source, SILENCES[silence].later)
    return run


def saying(count: int, silence: str, said: str, **streams: int) -> Callable[[], Ended]:
    """A run of which the last pipe says something more while the others are silent."""
    def run() -> Ended:
        started = silent_run(count, silence, **streams)
        started.write(count - 1, said)
        return started.end()
    return run


def test_faults(checks: Checks) -> None:
    """A row that divides by zero, on one of the pipes; all of them stay open and say no more."""
    write("divides.lola", DIVIDES)
    expect_soon(checks, [
        Case(f"{count} pipes, silent {silence}, {behind!r} behind the fault", saying(count, silence, "1,2\n2,0\n" + behind), 5,
             HIGH + FAULT, rows_before(count, silence) + 2)
        for count in PIPES for silence in silences(count) for behind in BEHIND])


def many_rows(size: int, begin: str) -> str:
    """So many bytes: this, rows of one time, of which the first may have blanks, and the front of one more."""
    rest = size - len(begin) - len("0,")
    return begin + "0,5" + " " * (rest % 4) + "\n" + "0,5\n" * (rest // 4 - 1) + "0,"


def full_reader(more: int) -> Ended:
    """A run of two pipes, of which the first says so much that its reader, which holds 131,072 bytes, is full in the midst of a row that
    never ends, but for so many bytes of it."""
    run = LiveRun("divides.lola", [None, None])
    run.write(1, "time,a\n")
    rows = 0
    for size, begin in ((60_000, "time,a\n"), (60_000, "5\n"), (131_072 - 120_000 + more, "5\n")):
        said = many_rows(size, begin)
        rows += said.count("\n") - begin.startswith("time")
        run.write(0, said)
        run.expect_lines(0, rows)
    run.write(1, "1,0\n")
    return run.end()


def test_full_readers(checks: Checks) -> None:
    """Where the silence begins within a row for which a reader had no room, the run ends as soon."""
    write("divides.lola", DIVIDES)
    expect_soon(checks, [
        Case(f"{more} bytes more than a reader has room for", lambda more=more: full_reader(more), 5, "= fault b 2 DivZero at 1.000000000\n")
        for more in (0, 1, 2, 3)])


def beside_a_file(place: int, silence: str) -> Ended:
    """A run over a file with a row that divides by zero, and 63 pipes that say this and no more. Some of what they say may come too late."""
    sources: list[Optional[str]] = [None] * 63
    sources.insert(place, "fault.csv")
    run = LiveRun("divides.lola", sources)
    for source in range(64):
        if source != place:
            run.write(source, SILENCES[silence].said)
    return run.end()


def test_faults_of_a_file(checks: Checks) -> None:
    """The row stands in a file, beside 63 silent pipes; rows behind it are not judged."""
    write("divides.lola", DIVIDES)
    write("fault.csv", "time,a\n1,2\n2,0\n" + "".join(f"{n},1\n" for n in range(3, 5000)))
    expect_soon(checks, [
        Case(f"a file as source {place}, pipes silent {silence}", lambda place=place, silence=silence: beside_a_file(place, silence), 5,
             HIGH + FAULT, 2)
        for place in (0, 63) for silence in ("from the beginning", "in its heading", "behind its heading")])


def closed_pipe() -> int:
    """The end of a pipe that nobody reads."""
    reading, writing = os.pipe()
    os.close(reading)
    return writing


def test_texts_that_nobody_reads(checks: Checks) -> None:
    """The reader of the output, or of the trace, has gone before the first line comes."""
    write("divides.lola", DIVIDES)
    closed = closed_pipe()
    cases = []
    for count in PIPES:
        for silence in silences(count):
            for behind in BEHIND if count == 1 else BEHIND[:1]:
                what, said = f"{count} pipes silent {silence}, {behind!r} behind the row", "1,2\n" + behind
                cases.append(Case(f"output, {what}", saying(count, silence, said, out=closed), 7, trace_lines=rows_before(count, silence) + 1))
                cases.append(Case(f"trace, {what}", saying(count, silence, said, trace=closed), 7, ""))
    expect_soon(checks, cases)
    os.close(closed)


def run_without_memory(count: int, behind: str) -> Ended:
    """A run in which each row makes an instance of three megabytes, with room for a few of them."""
    run = LiveRun("panes.lola", [None] * count)
    run.write(count - 1, "time,a\n0,1\n")
    run.expect_lines(0, 1)
    with open(f"/proc/{run.process.pid}/statm", encoding="ascii") as sizes:
        taken = int(sizes.read().split()[0]) * resource.getpagesize()
    resource.prlimit(run.process.pid, resource.RLIMIT_AS, (taken + 50_000_000,) * 2)
    run.write(count - 1, "".join(f"0.5,{n}\n" for n in range(2, 100)) + behind)
    return run.end()


def test_no_memory(checks: Checks) -> None:
    write("panes.lola", PANES)
    cases = [Case(f"{count} pipes, {behind!r} behind the rows", lambda count=count, behind=behind: run_without_memory(count, behind), 8, "")
             for count in PIPES for behind in BEHIND]
    for case, ended in zip(cases, expect_soon(checks, cases)):
        lines = ended.trace.count("\n")
        checks.same(f"{case.what}: whole lines of some rows", (True, True), (1 < lines < 99, ended.trace.endswith("\n")))


def signalled(count: int, silence: str, said: str, chosen: signal.Signals) -> Ended:
    """A run that gets a signal while it waits."""
    run = silent_run(count, silence)
    run.write(count - 1, said)
    run.expect_lines(said.count("\n"), rows_before(count, silence) + said.count("\n"))
    run.send(chosen)
    return run.end()


def test_signals(checks: Checks) -> None:
    """A signal ends a run that waits; what came before stands there whole, and there is no end line."""
    write("divides.lola", DIVIDES)
    expect_soon(checks, [
        Case(f"{chosen.name}, {count} pipes, silent {silence}, behind {said!r}",
             lambda count=count, silence=silence, said=said, chosen=chosen: signalled(count, silence, said, chosen),
             -chosen, HIGH * said.count("\n"), rows_before(count, silence) + said.count("\n"))
        for chosen in (signal.SIGTERM, signal.SIGINT) for count in PIPES for silence in silences(count) for said in ("", "1,2\n", "1,2\n2,")])


def ending(count: int) -> Ended:
    """A run whose pipes are closed, one after the others."""
    run = silent_run(count, "behind a row")
    run.write(count - 1, "1,2\n")
    if count > 1:
        run.close(*range(count - 1))
    run.expect_lines(1, count)
    if run.process.poll() is not None:
        raise ChildProcessError("the last source was not waited for")
    run.close()
    return run.end()


def test_ends_of_all(checks: Checks) -> None:
    """When the last pipe is closed, the run ends well."""
    write("divides.lola", DIVIDES)
    expect_soon(checks, [
        Case(f"{count} pipes", lambda count=count: ending(count), 0, f"{HIGH}= done accepted {count} late 0 steps {count} lines 1\n", count)
        for count in PIPES])


def said_alone(said: str) -> Ended:
    """A run over one pipe, which says this and is closed."""
    run = LiveRun("divides.lola", [None])
    run.write(0, said)
    run.close()
    return run.end()


def test_a_writer_that_stops_in_a_line(checks: Checks) -> None:
    """A last line without its line feed is a line as it stands: too few fields are malformed, and a cut number is a number."""
    write("divides.lola", DIVIDES)
    expect_soon(checks, [Case(repr(said), lambda said=said: said_alone(said), status, end) for said, status, end in (
        ("", 4, "= malformed source 0 row 0 kind 1 BadHeading\n"),
        ("tim", 4, "= malformed source 0 row 0 kind 1 BadHeading\n"),
        ("time,a\n0,5\n1", 4, "= malformed source 0 row 2 kind 2 FieldCount\n"),
        ("time,a\n0,5\n1,", 0, "= done accepted 2 late 0 steps 2 lines 0\n"),
        ("time,a\n0,5\n1,4", 0, "= done accepted 2 late 0 steps 2 lines 0\n"),
        ("time,a,end\n0,5,.\n1,4", 4, "= malformed source 0 row 2 kind 2 FieldCount\n"),
        ("time,a\n0,5\n", 0, "= done accepted 1 late 0 steps 1 lines 0\n"),
    )])


def without_its_writer() -> Ended:
    """A run over two pipes, one of whose writers is killed in the midst of a line."""
    run = LiveRun("divides.lola", [None, None])
    with subprocess.Popen(["sh", "-c", "printf 'time,a\\n0,5\\n1'; exec sleep 60"], stdout=run.ends[0]) as writer:
        run.close(0)
        run.write(1, "time,a\n")
        run.expect_lines(0, 1)
        writer.kill()
    run.write(1, "1,2\n")
    run.expect_lines(1, 2)
    run.close()
    return run.end()


def test_a_writer_that_is_killed(checks: Checks) -> None:
    """The other source goes on, and the end line tells of the line that was cut."""
    write("divides.lola", DIVIDES)
    expect_soon(checks, [Case("the end", without_its_writer, 4, HIGH + "= malformed source 0 row 2 kind 2 FieldCount\n", 2)])
