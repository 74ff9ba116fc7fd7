"""Runs in parts: whatever a log is, and wherever it is cut, what the parts give is what one run gives."""
from __future__ import annotations

import os
import random
import re
import tempfile
from concurrent.futures import ThreadPoolExecutor
from copy import deepcopy
from pathlib import Path
from typing import Any, Callable, Dict, Iterator, List, NamedTuple, Optional, Sequence, Tuple

from saving_parts.calling import Ran, joined_traces, lines_of, ran, settled
from saving_parts.damage import RICH, RICH_FORMS
from saving_parts.state_text import Form, Window, complaint
from saving_parts.states import Fault, Run, put, random_module, shown_time, state_of
from terminal_parts.harness import Checks

LOGS = 120  # so many random specifications
RICH_LOGS = 40  # and so many random logs of each other specification
WAYS = ([], ["--intake=queue"], ["--workers=4"], ["--in-turns"])
SECOND = 10**9
WINDOWED = """input w: Int64
input up: Bool
output counted: UInt64 @1Hz := w.aggregate(over: 3s, using: count)
output total: Int64 @2Hz := w.aggregate(over: 750ms, using: sum)
output least: Int64 @1Hz := w.aggregate(over: 2s, using: min).defaults(to: 0)
output greatest: Int64 @1Hz := w.aggregate(over: 5s, using: max).defaults(to: 0)
output mean: Int64 @1Hz := w.aggregate(over: 3s, using: avg).defaults(to: 0)
output all: Bool @1Hz := up.aggregate(over: 3s, using: forall)
output some: Bool @1Hz := up.aggregate(over: 1s, using: exists)
"""
WINDOWS = [(0, Window(0, "count", SECOND, 3)), (0, Window(1, "sum", SECOND // 4, 3)), (0, Window(2, "min", SECOND, 2)),  # each with its input
           (0, Window(3, "max", SECOND, 5)), (0, Window(4, "avg", SECOND, 3)), (1, Window(5, "forall", SECOND, 3)), (1, Window(6, "exists", SECOND, 1))]
WINDOWED_FORMS = [Form(kind, windows=tuple(window for target, window in WINDOWS if target == number))
                  for number, kind in enumerate(("Int64", "Bool", "UInt64", "Int64", "Int64", "Int64", "Int64", "Bool", "Bool"))]
FOLDS: Dict[str, Callable[[List[int]], str]] = {
    "count": lambda values: str(len(values)), "sum": lambda values: str(sum(values)), "avg": lambda values: f"{sum(values)}/{len(values)}",
    "min": lambda values: str(min(values)) if values else "-", "max": lambda values: str(max(values)) if values else "-",
    "forall": lambda values: str(all(values)).lower(), "exists": lambda values: str(any(values)).lower()}
DEVICE_ROWS = ("x", "y", '"a ""b"" \\c d"', '"k, l"')
END = re.compile(rb"= done accepted (\d+) late (\d+) steps (\d+) lines (\d+)\n")

Rows = Sequence[Tuple[int, Dict[str, Optional[int]]]]


class Log(NamedTuple):
    """A specification, the heading and the rows of a source, where it is cut, and the option with which its first part begins."""

    specification: str
    heading: str
    rows: List[str]
    cuts: List[int]
    start: List[str]

    def between(self) -> List[Tuple[int, int]]:
        return list(zip([0, *self.cuts], [*self.cuts, len(self.rows)]))

    def text(self, begin: int, end: int) -> bytes:
        return (self.heading + "".join(self.rows[begin:end])).encode()


def random_cuts(dice: random.Random, size: int) -> List[int]:
    return sorted(dice.randint(0, size) for _ in range(dice.choice([1, 1, 2, 3])))


def run_parts(log: Log, folder: Path) -> Iterator[Tuple[List[Ran], Ran, Ran]]:
    """Of each part what a run writes, in all ways, what a snapshot does, and what a run from that writes over the heading alone. The last
    part that comes is the last one, or the one in which the run ends."""
    specification, heading = put("s.lola", log.specification.encode(), folder), put("heading.csv", log.heading.encode(), folder)
    going_on = log.start
    for number, (begin, end) in enumerate(log.between()):
        source = put("part.csv", log.text(begin, end), folder)
        runs = [ran(["run", "--show=outputs", *way, *going_on, specification, source]) for way in WAYS]
        saved = ran(["snapshot", *going_on, specification, source])
        going_on = ["--resume", put(f"{number}.state", saved.out, folder)]
        yield runs, saved, ran(["run", "--show=outputs", *going_on, specification, heading])
        if saved.status != 0:
            return


def whole_run(log: Log, folder: Path) -> Tuple[Ran, Ran]:
    """What one run writes, and one snapshot."""
    source, specification = put("whole.csv", log.text(0, len(log.rows)), folder), str(folder / "s.lola")
    return ran(["run", "--show=outputs", *log.start, specification, source]), ran(["snapshot", *log.start, specification, source])


def replayed(folder: Path, start: List[str], trace: bytes, verdicts: bytes) -> bytes:
    words = ["replay", "--show=outputs", *start, str(folder / "s.lola"), put("trace", trace, folder), put("verdicts", verdicts, folder)]
    return ran(words).out


def same_line(trace: bytes, verdicts: bytes) -> bytes:
    return b"= same entries %d lines %d\n" % (trace.count(b"\n"), verdicts.count(b"\n") - 1)


def check_log(checks: Checks, name: str, log: Log, folder: Path, forms: Optional[List[Form]] = None) -> List[bytes]:
    """The parts beside one run: verdicts, traces, counts, states and a replay. Answers the states."""
    parts = list(run_parts(log, folder))
    one, saved = whole_run(log, folder)
    for number, (runs, _, _) in enumerate(parts):
        checks.same(f"{name}, part {number}: all ways", [runs[0]] * len(WAYS), runs)
    last = parts[-1][0][0]
    verdicts = b"".join([*(settled(runs[0].out, again.out) for runs, _, again in parts[:-1]), *lines_of(last.out)[:-1]])
    trace = joined_traces([runs[0].trace for runs, _, _ in parts])
    checks.same(f"{name}: verdicts put together", b"".join(lines_of(one.out)[:-1]), verdicts)
    checks.same(f"{name}: traces put together", one.trace, trace)
    checks.same(f"{name}: status and snapshot", (one.status, saved), (last.status, parts[-1][1]))
    ends = [END.search(text) for text in (one.out, *(runs[0].out for runs, _, _ in parts))]
    if all(ends):
        whole, *each = [[int(number) for number in match.groups()] for match in ends if match]
        checks.same(f"{name}: accepted and late rows", whole[:2], [sum(counts) for counts in list(zip(*each))[:2]])
    elif one.status != 0:
        checks.same(f"{name}: end line", lines_of(one.out)[-1], lines_of(last.out)[-1])
    end = lines_of(one.out)[-1]
    checks.same(f"{name}: replay", same_line(trace, verdicts + end), replayed(folder, log.start, trace, verdicts + end))
    states = [part[1].out for part in parts if part[1].status == 0]
    for state in states if forms is not None else ():
        checks.same(f"{name}: a state text", "", complaint(log.specification.encode(), forms or [], state))
    return states


def in_folders(checks: Checks, count: int, check: Callable[[Checks, int, Path], None]) -> None:
    """Does a check for each number, several at a time, each in a folder of its own."""
    def one(number: int) -> None:
        with tempfile.TemporaryDirectory() as folder:
            check(checks, number, Path(folder))

    with ThreadPoolExecutor(os.cpu_count()) as pool:
        list(pool.map(one, range(count)))


# Random specifications beside the evaluator: all that each part writes is known.


def evaluated_log(module: Any, seed: int) -> Tuple[Log, Run, Rows]:
    """A log, a run of the evaluator that has taken nothing yet, and the rows as that takes them."""
    maker = module.Maker(seed)
    streams, rows, start = maker.specification(), maker.rows(), maker.start()
    heading, *lines = module.written_rows(rows).splitlines(keepends=True)
    words = [] if start is None else ["--start", shown_time(start)]
    specification = "\n".join(map(module.written_stream, streams)) + "\n"
    return Log(specification, heading, lines, random_cuts(maker.dice, len(rows)), words), Run(streams, start), rows


def expected_trace(rows: Rows, merged: int, names: Sequence[str]) -> bytes:
    """The trace lines of rows behind this merged time."""
    lines = []
    for number, (stamp, fields) in enumerate(rows, start=1):
        mark, merged = ("A", stamp) if stamp >= merged else (f"L{shown_time(merged)}", merged)
        shown = ["#" if fields[name] is None else str(fields[name]) for name in names]
        lines.append(",".join(["0", str(number), shown_time(stamp), mark, *shown]) + "\n")
    return "".join(lines).encode()


def expected_part(specification: bytes, names: Sequence[str], run: Run, rows: Rows) -> Tuple[Ran, Ran]:
    """What a run and a snapshot of these rows write behind those that were taken before. Then the run has taken these too."""
    final = deepcopy(run)
    lines, end = final.over(rows)
    if end.startswith("= done"):
        counts = (final.accepted - run.accepted, final.late - run.late, final.steps - run.steps, len(lines) - len(run.lines))
        end = "= done accepted %d late %d steps %d lines %d" % counts
    taken = final.accepted + final.late - run.accepted - run.late
    ended = Ran("\n".join([*lines[len(run.lines):], end, ""]).encode(), expected_trace(rows[:taken], run.merged, names), 5 if "fault" in end else 0)
    try:
        run.take(rows)
    except Fault:
        return ended, Ran((end + "\n").encode(), b"", 5)
    return ended, Ran(state_of(specification, run), b"", 0)


def test_random_specifications(checks: Checks) -> None:
    """Beside the evaluator, whose states and lines are compared byte for byte."""
    module = random_module()

    def check(to: Checks, seed: int, folder: Path) -> None:
        log, run, rows = evaluated_log(module, seed)
        for number, (runs, saved, _) in enumerate(run_parts(log, folder)):
            begin, end = log.between()[number]
            name = f"seed {seed}, part {number} of {log.cuts}"
            expected, state = expected_part(log.specification.encode(), module.INPUTS, run, rows[begin:end])
            to.same(f"{name}: runs", [expected] * len(WAYS), runs)
            to.same(f"{name}: snapshot", state, saved)
        check_log(to, f"seed {seed}", log, folder)

    in_folders(checks, LOGS, check)


# Specifications with windows, texts and parameters of all kinds beside one run.


def random_stamps(dice: random.Random, count: int) -> List[int]:
    """Times in nanoseconds that stand still, go on and now and then go back."""
    stamps, now = [], dice.choice([0, 7, 100]) * SECOND
    for _ in range(count):
        now += dice.choice([0, 0, 1, 2, 4, 4, 8, 20]) * SECOND // 4 + dice.choice([0, 0, 0, 1])
        stamps.append(max(now - dice.choice([0] * 9 + [SECOND]), 0))
    return stamps


def log_of(dice: random.Random, specification: str, heading: str, fields: Callable[[], List[str]]) -> Log:
    count = dice.randint(0, 30)
    rows = [",".join([shown_time(stamp), *fields()]) + "\n" for stamp in random_stamps(dice, count)]
    return Log(specification, heading, rows, random_cuts(dice, count), dice.choice([[], [], ["--start=0"], ["--start=5.5"]]))


def test_texts_parameters_and_windows(checks: Checks) -> None:
    def check(to: Checks, seed: int, folder: Path) -> None:
        dice = random.Random(seed)

        def fields() -> List[str]:
            return [dice.choice(["5", "-7", "3", ""]), dice.choice(["18446744073709551615", "7", "0", ""]), dice.choice(["true", "false", ""]),
                    dice.choice([*DEVICE_ROWS, "", ""]), dice.choice([*DEVICE_ROWS, *[""] * 8])]

        check_log(to, f"rich log {seed}", log_of(dice, RICH, "time,w,u,up,device,gone\n", fields), folder, RICH_FORMS)

    in_folders(checks, RICH_LOGS, check)


def folded(rows: Sequence[Tuple[int, str]], start: int, window: Window) -> str:
    """What a state has of a window, from the values of its target."""
    values = [(0 if stamp == start else (stamp - start - 1) // window.pane + 1, {"true": 1, "false": 0}.get(word, word)) for stamp, word in rows]
    if not values:
        return f"panes {window.number} -"
    last = values[-1][0]
    kept = range(max(last + 1 - window.count, 0), last + 1)
    partials = [FOLDS[window.how]([int(value) for number, value in values if number == pane]) for pane in kept]
    return " ".join([f"panes {window.number} {last}", *partials])


def accepted(rows: Sequence[str], start: Optional[int]) -> List[Tuple[int, List[str]]]:
    """The stamps and fields of the rows that are not late."""
    taken: List[Tuple[int, List[str]]] = []
    for row in rows:
        time, *fields = row.rstrip("\n").split(",")
        stamp = int(time.replace(".", ""))
        if stamp >= (taken[-1][0] if taken else start or 0):
            taken.append((stamp, fields))
    return taken


def test_partial_results(checks: Checks) -> None:
    """The lines of panes, folded here from the values."""
    def check(to: Checks, seed: int, folder: Path) -> None:
        dice = random.Random(seed)
        log = log_of(dice, WINDOWED, "time,w,up\n", lambda: [dice.choice(["-2", "0", "9", "4", ""]), dice.choice(["true", "true", "false", ""])])
        given = int(float(log.start[0].partition("=")[2]) * SECOND) if log.start else None
        for number, state in enumerate(check_log(to, f"windows {seed}", log, folder, WINDOWED_FORMS)):
            rows = accepted(log.rows[:log.between()[number][1]], given)
            start = given if given is not None else rows[0][0] if rows else 0
            wanted = [folded([(stamp, fields[target]) for stamp, fields in rows if fields[target]], start, window) for target, window in WINDOWS]
            to.same(f"windows {seed}: panes of state {number}", wanted, re.findall(r"^panes .*$", state.decode(), re.MULTILINE))

    in_folders(checks, RICH_LOGS, check)


def test_two_sources(checks: Checks) -> None:
    """A snapshot reads several sources in turns. Whatever way the run behind it reads its own, the two are one run by a replay."""
    def check(to: Checks, seed: int, folder: Path) -> None:
        dice = random.Random(seed)
        specification = put("s.lola", WINDOWED.encode(), folder)
        heading = put("heading.csv", b"time\n", folder)
        sources = [put(f"{name}.csv", b"time,w,up\n" + b"".join(b"%s,%d,%s\n" % (shown_time(stamp).encode(), dice.randint(-9, 9), dice.choice([b"true", b""]))
                                                                for stamp in random_stamps(dice, dice.randint(0, 12))), folder) for name in "abcd"]
        first = ran(["run", "--show=outputs", "--in-turns", specification, *sources[:2]])
        state = put("state", ran(["snapshot", specification, *sources[:2]]).out, folder)
        again = ran(["run", "--show=outputs", "--resume", state, specification, heading])
        for way in WAYS:
            second = ran(["run", "--show=outputs", *way, "--resume", state, specification, *sources[2:]])
            trace = joined_traces([first.trace, second.trace])
            lines = settled(first.out, again.out) + b"".join(lines_of(second.out)[:-1])
            counts = [sum(map(int, pair)) for pair in zip(*(END.search(each.out).groups() for each in (first, second)))]  # type: ignore[union-attr]
            counts[2] -= 1 if b" steps 0 " not in again.out else 0
            end = b"= done accepted %d late %d steps %d lines %d\n" % (*counts[:3], lines.count(b"\n"))
            to.same(f"two sources {seed} {way}", same_line(trace, lines + end), replayed(folder, [], trace, lines + end))

    in_folders(checks, RICH_LOGS, check)
