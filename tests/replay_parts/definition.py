"""What a replay has to find, by its definition: the first line of a trace that no run can have there, and the first line of verdicts that
is not the run's. Values of fields are not looked at: a spoilt field has to be told by whoever spoilt it."""
from __future__ import annotations

import re
from typing import Dict, List, NamedTuple, Optional, Sequence

TRACE_LINE = re.compile(rb"(0|[1-9][0-9]*),(0|[1-9][0-9]*),(0|[1-9][0-9]*)\.([0-9]{9}),(A|L(?:0|[1-9][0-9]*)\.[0-9]{9})(,.*)?\n", re.DOTALL)
DONE = re.compile(rb"= done accepted ([0-9]+) late ([0-9]+) steps ([0-9]+) lines ([0-9]+)\n")
MALFORMED = re.compile(rb"= malformed source (0|[1-9][0-9]*) row (0|[1-9][0-9]*) kind ([1-8]) (\w+)\n")
UNREADABLE = re.compile(rb"= unreadable source (0|[1-9][0-9]*)\n")
KINDS = ("BadHeading", "FieldCount", "BadTime", "BadValue", "BadText", "BareCr", "RowTooLong", "TooManyRows")
MOST_SOURCES = 64
MOST_ROWS = 2**40
SECOND = 10**9


class Found(NamedTuple):
    """An end line, and its status."""

    line: str
    status: int


def same(entries: int, lines: int) -> Found:
    return Found(f"= same entries {entries} lines {lines}\n", 0)


def differs(text: str, line: int) -> Found:
    return Found(f"= differs {text} {line}\n", 1)


def lines_of(text: bytes) -> List[bytes]:
    """The lines, each with its line feed; bytes behind the last one are a line too."""
    return text.splitlines(keepends=True) if b"\r" not in text else [piece for piece in re.split(rb"(?<=\n)", text) if piece]


def time_text(time: int) -> bytes:
    return b"%d.%09d" % divmod(time, SECOND)


def wrong_trace_line(lines: Sequence[bytes], start: int, spoilt_fields: Sequence[int] = ()) -> Optional[int]:
    """The number of the first line that is no line of a trace, is of no source of a run, has not the next number of its source, or not
    its mark; or whose fields are known to be spoilt."""
    numbers: Dict[int, int] = {}
    merged = start
    for place, line in enumerate(lines, 1):
        match = TRACE_LINE.fullmatch(line)
        if match is None or place in spoilt_fields:
            return place
        source, number, stamp = int(match[1]), int(match[2]), int(match[3]) * SECOND + int(match[4])
        mark = b"A" if stamp >= merged else b"L" + time_text(merged)
        if source >= MOST_SOURCES or number != numbers.get(source, 0) + 1 or match[5] != mark:
            return place
        numbers[source] = number
        merged = max(merged, stamp)
    return None


def is_end_of(line: bytes, right: bytes) -> bool:
    """Whether a line may stand where a run has this end line."""
    if line == right or right.startswith(b"= fault "):
        return line == right
    malformed, unreadable = MALFORMED.fullmatch(line), UNREADABLE.fullmatch(line)
    if malformed:
        kind = KINDS[int(malformed[3]) - 1].encode()
        return int(malformed[1]) < MOST_SOURCES and int(malformed[2]) <= MOST_ROWS + 1 and malformed[4] == kind
    return unreadable is not None and int(unreadable[1]) < MOST_SOURCES


def other_line(lines: Sequence[bytes], right: Sequence[bytes]) -> Optional[int]:
    """The number of the first line that differs from the right ones, the last of which is an end line that others may stand for."""
    for place, line in enumerate(lines, 1):
        if place > len(right):
            return place
        if not (line == right[place - 1] or place == len(right) and is_end_of(line, right[place - 1])):
            return place
    return len(lines) + 1 if len(lines) < len(right) else None


def found(trace: Sequence[bytes], verdicts: Sequence[bytes], right: Sequence[bytes], start: int = 0, spoilt: Sequence[int] = ()) -> Found:
    """What is found of a trace and verdicts, where these are the right lines of the verdicts."""
    wrong = wrong_trace_line(trace, start, spoilt)
    if wrong is not None:
        return differs("trace", wrong)
    other = other_line(verdicts, right)
    return differs("verdicts", other) if other is not None else same(len(trace), len(right) - 1)
