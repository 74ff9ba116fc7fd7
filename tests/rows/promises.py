"""What a run keeps whose sources are files that are merged by time.

Of each source the trace has the same rows in the same order as in turns, and the next one is always the one with the least time of those
that come next in their sources; a row is late exactly where an accepted row before it has a later time; and the end line counts what the
trace has.
"""

import heapq
import re
from typing import NamedTuple

CHARACTERS_SHOWN = 2000
TRACE_LINE = re.compile(r"(\d+),(\d+),(\d+\.\d{9}),(A|L\d+\.\d{9})(?:,(.*))?")


class TraceRow(NamedTuple):
    """A line of the trace, cut at its first four commas."""

    source: str
    number: str
    time: str
    mark: str
    fields: str | None


def trace_rows(trace: bytes) -> list[TraceRow]:
    """The rows of a trace, in its order. A ValueError tells of a line that is none."""
    lines = trace.decode("utf-8", "surrogateescape").split("\n")
    matches = [TRACE_LINE.fullmatch(line) for line in lines[:-1]]
    if lines[-1] or None in matches:
        raise ValueError("a line of the trace is no trace line, or has no end")
    return [TraceRow(*match.groups()) for match in matches if match]


def rows_by_source(rows: list[TraceRow]) -> dict[str, list[tuple[str, str, str | None]]]:
    """Of each source its rows without their marks, which may differ from run to run."""
    by_source: dict[str, list[tuple[str, str, str | None]]] = {}
    for row in rows:
        by_source.setdefault(row.source, []).append((row.number, row.time, row.fields))
    return by_source


def merged_by_time(rows: list[TraceRow]) -> list[tuple[int, int, int]]:
    """Time, source and number of these rows, as they have to come where sources are merged by time."""
    by_source: dict[int, list[tuple[int, int, int]]] = {}
    for row in rows:
        by_source.setdefault(int(row.source), []).append((int(row.time.replace(".", "")), int(row.source), int(row.number)))
    heads = [of_source.pop(0) for of_source in by_source.values()]
    heapq.heapify(heads)
    order = []
    while heads:
        order.append(heapq.heappop(heads))
        of_source = by_source[order[-1][1]]
        if of_source:
            heapq.heappush(heads, of_source.pop(0))
    return order


def right_marks(rows: list[TraceRow]) -> list[str]:
    """The marks that rows in this order must have. Times have nine decimals, so they compare as whole numbers without their point."""
    merged = "0.000000000"
    marks = []
    for row in rows:
        if int(row.time.replace(".", "")) < int(merged.replace(".", "")):
            marks.append("L" + merged)
        else:
            marks.append("A")
            merged = row.time
    return marks


def end_line_complaint(expected_end: str, end: str, rows: list[TraceRow], verdicts: int) -> str | None:
    """What is wrong with an end line: where nothing went wrong, its counts are those of the trace and of the verdict lines."""
    if not expected_end.startswith("= done "):
        return None if end == expected_end else f"the end line {expected_end!r} was expected and {end!r} came"
    accepted = sum(row.mark == "A" for row in rows)
    begin = f"= done accepted {accepted} late {len(rows) - accepted} steps "
    if not end.startswith(begin) or not end.endswith(f" lines {verdicts}"):
        return f"an end line {begin}.. lines {verdicts} was expected and {end!r} came"
    return None


def complaints_of_merging(expected_out: bytes, expected_trace: bytes, out: bytes, trace: bytes) -> list[str]:
    """What a run over files that are merged did not keep of the above, compared with what the run in turns has to write."""
    came = trace.decode(errors="replace")[:CHARACTERS_SHOWN]
    try:
        rows = trace_rows(trace)
    except ValueError as error:
        return [f"merged: {error}:\n{came}"]
    complaints = []
    if rows_by_source(rows) != rows_by_source(trace_rows(expected_trace)):
        complaints.append(f"merged: other rows than in turns, or in another order within a source:\n{came}")
    if [(int(row.source), int(row.number)) for row in rows] != [(source, number) for _, source, number in merged_by_time(rows)]:
        complaints.append(f"merged: rows that are not merged by time:\n{came}")
    if [row.mark for row in rows] != right_marks(rows):
        complaints.append(f"merged: a wrong mark in the trace:\n{came}")
    lines = out.decode("utf-8", "replace").splitlines() or [""]
    expected_end = (expected_out.decode("utf-8", "replace").splitlines() or [""])[-1]
    wrong_end = end_line_complaint(expected_end, lines[-1], rows, len(lines) - 1)
    if wrong_end:
        complaints.append(f"merged: {wrong_end}")
    return complaints
