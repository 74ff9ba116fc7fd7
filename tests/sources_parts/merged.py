"""What a run over several files has to write: their rows by their stamps, always the least that is next in a file."""
from __future__ import annotations

import heapq
from typing import NamedTuple, Sequence

SECOND = 1_000_000_000  # nanoseconds
# Each accepted row changes the value of all that follow, so the verdicts tell the whole order.
SPEC = """\
input a: Int64
output mixed: Int64 := (mixed.last(or: 0) * 31 + a) % 1000003
trigger mixed % 7 == 3 "three"
"""


class Row(NamedTuple):
    """A row; rows are compared by stamp and source."""

    stamp: int  # nanoseconds
    source: int
    number: int

    def value(self) -> int:
        return 1009 * self.source + self.number

    def time(self) -> str:
        return time_text(self.stamp)


class Texts(NamedTuple):
    """How a run ends, and what it writes."""

    status: int
    out: str
    trace: str


def time_text(stamp: int) -> str:
    return f"{stamp // SECOND}.{stamp % SECOND:09}"


def rows_of(source: int, stamps: Sequence[int]) -> list[Row]:
    return [Row(stamp, source, number) for number, stamp in enumerate(stamps, start=1)]


def file_text(source: int, stamps: Sequence[int], rest: str = "") -> str:
    """The bytes of a file with these rows, and what stands behind them."""
    return "time,a\n" + "".join(f"{row.time()},{row.value()}\n" for row in rows_of(source, stamps)) + rest


def merged(files: Sequence[Sequence[int]]) -> list[Row]:
    """The rows of files with these stamps: always the least of those that are next, each file's in its order."""
    rows = [rows_of(source, stamps) for source, stamps in enumerate(files)]
    next_rows = [of_source[0] for of_source in rows if of_source]
    heapq.heapify(next_rows)
    order = []
    while next_rows:
        row = heapq.heappop(next_rows)
        order.append(row)
        if row.number < len(rows[row.source]):
            heapq.heappush(next_rows, rows[row.source][row.number])
    return order


def texts_of(order: Sequence[Row], start: int = 0, status: int = 0, end: str = "") -> Texts:
    """What a run of SPEC with `--show outputs` writes of rows in this order. Where no other end line is given it ends well."""
    trace, out, newest, mixed, accepted = [], [], start, 0, 0
    for row in order:
        is_late = row.stamp < newest
        mark = "L" + time_text(newest) if is_late else "A"
        trace.append(f"{row.source},{row.number},{row.time()},{mark},{row.value()}\n")
        if is_late:
            continue
        newest, accepted, mixed = row.stamp, accepted + 1, (mixed * 31 + row.value()) % 1000003
        out.append(f"{row.time()} mixed = {mixed}\n")
        if mixed % 7 == 3:
            out.append(f'{row.time()} trigger_1 "three"\n')
    done = f"= done accepted {accepted} late {len(order) - accepted} steps {accepted} lines {len(out)}"
    return Texts(status, "".join(out) + (end or done) + "\n", "".join(trace))


def late_rows(trace: str) -> set[int]:
    """The sources that have late rows in a trace."""
    return {int(line.split(",")[0]) for line in trace.splitlines() if line.split(",")[3].startswith("L")}


def difference(expected: Texts, came: Texts) -> str:
    """Where what came differs first: the status, or a line of one of the texts."""
    if expected.status != came.status:
        return f"status {expected.status} was expected and {came.status} came; the end line is {came.out.splitlines()[-1:]}"
    for what, wanted, got in (("out", expected.out, came.out), ("trace", expected.trace, came.trace)):
        lines = wanted.splitlines(True), got.splitlines(True)
        place = next((place for place, pair in enumerate(zip(*lines)) if pair[0] != pair[1]), min(map(len, lines)))
        if wanted != got:
            return f"{what}, line {place + 1}: expected {''.join(lines[0][place:place + 3])!r}, came {''.join(lines[1][place:place + 3])!r}"
    return "no difference"
