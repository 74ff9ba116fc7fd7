"""Ways to spoil the texts of a run. What comes of each is told by the definition, and no way is used that leaves a trace right."""
from __future__ import annotations

import random
from typing import Iterator, List, NamedTuple, Sequence

from replay_parts.definition import DONE, TRACE_LINE, time_text

PLACES = 3  # so many places of a text are spoilt in each way


class Spoilt(NamedTuple):
    """How a text was spoilt, its lines, and the numbers of those whose fields no specification has."""

    how: str
    lines: List[bytes]
    fields: Sequence[int] = ()


def places(count: int, maker: random.Random) -> List[int]:
    """Some of the places from 0 to below a count: the first, the last, and others."""
    if count <= PLACES:
        return list(range(count))
    return [0, count - 1, *maker.sample(range(1, count - 1), PLACES - 2)]


def replaced(lines: Sequence[bytes], place: int, line: bytes) -> List[bytes]:
    return [*lines[:place], line, *lines[place + 1:]]


def with_byte(line: bytes, place: int, byte: bytes) -> bytes:
    return line[:place] + byte + line[place + 1:]


def cut_lines(lines: Sequence[bytes], place: int) -> Iterator[Spoilt]:
    """A text that ends within a line, or before its line feed."""
    line = lines[place]
    yield Spoilt(f"cut within line {place + 1}", [*lines[:place], line[:max(len(line) // 2, 1)]])
    yield Spoilt(f"cut before the line feed of line {place + 1}", [*lines[:place], line[:-1]])


def common(lines: Sequence[bytes], maker: random.Random) -> Iterator[Spoilt]:
    """What can be done to any lines."""
    for place in places(len(lines), maker):
        line = lines[place]
        yield Spoilt(f"line {place + 1} left out", [*lines[:place], *lines[place + 1:]])
        yield Spoilt(f"line {place + 1} twice", [*lines[:place], line, *lines[place:]])
        yield Spoilt(f"an empty line before line {place + 1}", [*lines[:place], b"\n", *lines[place:]])
        yield from cut_lines(lines, place)
        if place + 1 < len(lines):
            yield Spoilt(f"lines {place + 1} and {place + 2} exchanged", [*lines[:place], lines[place + 1], line, *lines[place + 2:]])


def of_entry(line: bytes) -> Iterator[Spoilt]:
    """Other lines in place of a line of a trace."""
    match = TRACE_LINE.fullmatch(line)
    assert match is not None, line
    source, number, mark = match[1], int(match[2]), match[5]
    time = match[3] + b"." + match[4]
    fields = match[6] or b""

    def other(how: str, *head: bytes, rest: bytes = fields) -> Spoilt:
        return Spoilt(how, [b",".join(head) + rest + b"\n"])

    yield other("another mark", source, match[2], time, b"L" + time_text(int(match[3] + match[4]) + 1) if mark == b"A" else b"A")
    yield other("a mark without its time", source, match[2], time, b"L")
    yield other("the next number", source, b"%d" % (number + 1), time, mark)
    yield other("the number before", source, b"%d" % (number - 1), time, mark)
    yield other("a number with a zero before it", source, b"0%d" % number, time, mark)
    yield other("source 64", b"64", b"1", time, mark)
    yield other("a time with eight decimals", source, match[2], time[:-1], mark)
    yield other("a blank", source, b" " + match[2], time, mark)


def of_fields(line: bytes) -> Iterator[Spoilt]:
    """Lines with fields that no specification has: one too many, and one that is not spelled as a trace has it."""
    yield Spoilt("one field more", [line[:-1] + b",1\n"], [1])
    last = line[:-1].rpartition(b",")[2]
    if line.count(b",") > 3 and last.isalnum():
        yield Spoilt("quotes about the last field", [line[:-1 - len(last)] + b'"' + last + b'"\n'], [1])


def spoilt_traces(lines: Sequence[bytes], maker: random.Random) -> Iterator[Spoilt]:
    yield from common(lines, maker)
    for place in places(len(lines), maker):
        line = lines[place]
        at = maker.randrange(4)
        yield Spoilt(f"another byte in line {place + 1}", replaced(lines, place, with_byte(line, at, b"x")))
        for spoilt in of_entry(line):
            yield Spoilt(f"{spoilt.how} in line {place + 1}", replaced(lines, place, spoilt.lines[0]))
        for spoilt in of_fields(line):
            yield Spoilt(f"{spoilt.how} in line {place + 1}", replaced(lines, place, spoilt.lines[0]), [place + 1])


def other_counts(end: bytes) -> Iterator[Spoilt]:
    """A done line each of whose counts is one more, in turn."""
    match = DONE.fullmatch(end)
    for group in range(1, 5) if match else ():
        count = b"%d" % (int(match[group]) + 1)
        yield Spoilt(f"count {group} of the end line", [end[:match.start(group)] + count + end[match.end(group):]])


def spoilt_verdicts(lines: Sequence[bytes], maker: random.Random) -> Iterator[Spoilt]:
    yield from common(lines, maker)
    yield Spoilt("bytes behind the end line", [*lines, b"more"])
    yield Spoilt("a second end line", [*lines, lines[-1]])
    yield Spoilt("no byte", [])
    for end in (b"= malformed source 63 row 1099511627777 kind 8 TooManyRows\n", b"= malformed source 64 row 1 kind 2 FieldCount\n",
                b"= malformed source 0 row 1099511627778 kind 3 BadTime\n", b"= malformed source 0 row 1 kind 3 BadValue\n",
                b"= unreadable source 63\n", b"= unreadable source 64\n", b"= unreadable specification\n", b"= usage\n",
                b"= fault nothing 1 Overflow at 0.000000000\n", b"= malformed source 0 row 01 kind 3 BadTime\n"):
        yield Spoilt(f"the end line {end!r}", [*lines[:-1], end])
    for spoilt in other_counts(lines[-1]):
        yield Spoilt(spoilt.how, [*lines[:-1], *spoilt.lines])
    for place in places(len(lines), maker):
        line = lines[place]
        at = maker.randrange(len(line) - 1)
        yield Spoilt(f"byte {at} of line {place + 1}", replaced(lines, place, with_byte(line, at, b"7" if line[at:at + 1] != b"7" else b"8")))
