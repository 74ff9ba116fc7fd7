"""Reads a source line by line, looks at what is wrong in it, and takes the rows that a run takes."""
from __future__ import annotations

import heapq
import os
import stat
from itertools import chain, repeat, zip_longest
from typing import IO, Callable, Dict, Iterator, List, NamedTuple, Optional, Tuple

from commands.failures import reason
from commands.progress import Progress
from explaining.places import shown_name
from sources.clock import Clock
from sources.columns import Column, Problems
from sources.lines import NO_REQUESTS, SIGN, Heading, Kind, NumberedLine, Requests, open_source, read_lines, split
from sources.values import time_of, wrong_time


class End(NamedTuple):
    """Where a run leaves a malformed source: the row, 0 for the heading, what is wrong there, and the line's number in the file."""

    row: int
    kind: Kind
    line: int


class Source:
    """A source that is looked at once, from its first line to its last, while its rows are taken."""

    def __init__(self, tool: str, name: str, kinds: Dict[str, str], requests: Requests = NO_REQUESTS) -> None:
        self.tool = tool
        self.name = name
        self.kinds = kinds  # of the inputs
        self.requests = requests
        self.heading: Optional[Heading] = None
        self.columns: List[Column] = []
        self.pointed: List[Column] = []  # those whose points may part thousands
        self.problems = Problems()  # of whole lines and of times
        self.clock = Clock()
        self.rows = 0
        self.end: Optional[End] = None
        self.failure = ""
        self.status: Optional[os.stat_result] = None  # of its file, once that is open

    def is_read_ahead(self, most: int, several: bool) -> bool:
        """Whether a thread reads its bytes: those of a file of more than so many, and of what is no file beside other sources."""
        if self.status is None:
            return False
        return self.status.st_size > most if stat.S_ISREG(self.status.st_mode) else several

    def times(self) -> Iterator[int]:
        """The times of the rows that a run takes. What stands behind a malformed line is looked at too."""
        try:
            file = open_source(self.name)
        except (OSError, ValueError) as failure:
            self.failure = reason(failure)
            return
        with file:
            yield from self.times_in(file)

    def times_in(self, file: IO[bytes]) -> Iterator[int]:
        """The same, of a file that is open."""
        self.status = os.fstat(file.fileno())
        try:
            yield from self.look(file)
        except OSError as failure:
            self.failure = reason(failure)
        self.clock.settle()

    def look(self, file: IO[bytes]) -> Iterator[int]:
        lines = read_lines(file, Progress(self.tool, f"looking at {shown_name(self.name)}"))
        first = next(lines, None)
        if first is None:
            self.end = End(0, Kind.BAD_HEADING, 1)
            return
        heading = self.look_at_heading(first)
        for number, text, kind in lines:
            self.rows += 1
            kind, time = self.look_at_row(heading, number, text, kind)
            if self.end:
                continue
            if kind:
                self.end = End(self.rows, kind, number)
            elif time is not None:
                yield time

    def look_at_heading(self, line: NumberedLine) -> Heading:
        heading = self.heading = Heading(line, self.kinds, self.requests)
        self.columns = [Column(name, self.kinds[name], index) for name, index in heading.inputs.items()]
        self.pointed = [column for column in self.columns
                        if column.room and (heading.separator == ";" or column.index in heading.thousands)]
        number, _, kind = line
        self.end = None if heading.is_right else End(0, kind or Kind.BAD_HEADING, number)
        return heading

    def look_at_row(self, heading: Heading, number: int, text: str, kind: Optional[Kind]) -> Tuple[Optional[Kind], Optional[int]]:
        """What makes a row malformed, where something does, and its time."""
        if kind or text.startswith(SIGN):
            kind = kind or Kind.BAD_TEXT
            self.problems.note(f"kind {kind}", number, text)
            return kind, None
        fields = heading.fields(text)
        if len(fields) != len(heading.names):
            self.problems.note("quote" if text.count('"') % 2 else "fields", number, text)
            return Kind.FIELD_COUNT, None
        if text == heading.text:
            self.problems.note("heading", number, text)
            return Kind.BAD_TIME, None
        time = None if heading.time is None else time_of(fields[heading.time])
        if time is not None:
            self.clock.tick(time, number, text)
        elif heading.time is not None:
            self.problems.note(wrong_time(fields[heading.time]), number, text, fields[heading.time])
        if self.pointed:
            self.look_at_points(split(text, heading.separator), number, text)
        is_right = self.look_at_values(fields, number, text)
        return (Kind.BAD_TIME if time is None else None if is_right else Kind.BAD_VALUE), time

    def look_at_points(self, fields: List[str], number: int, text: str) -> None:
        """Looks at the columns of which it is not known yet that their points are decimal points."""
        for column in self.pointed:
            column.look_at_points(fields[column.index], number, text)
        self.pointed = [column for column in self.pointed if "decimal" not in column.points]

    def look_at_values(self, fields: List[str], number: int, text: str) -> bool:
        """Whether each input's field is a value of its kind, or none."""
        is_right = True
        for column in self.columns:
            value = fields[column.index]
            if value not in column.known:
                is_right = column.look(value, number, text) and is_right
        return is_right


class Taken(NamedTuple):
    """What a run takes: accepted rows, late ones of each source, and the times that it begins and ends with."""

    accepted: int
    late: List[int]
    start: Optional[int]
    first: Optional[int]
    last: Optional[int]


Stamp = Tuple[int, int]  # the time of a row, and the number of its source
Order = Callable[[List[Iterator[Stamp]]], Iterator[Stamp]]


def by_time(streams: List[Iterator[Stamp]]) -> Iterator[Stamp]:
    """The rows of all sources, merged by time."""
    return iter(heapq.merge(*streams))


def in_turns(streams: List[Iterator[Stamp]]) -> Iterator[Stamp]:
    """A row of each source in turn, while it has one."""
    return filter(None, chain.from_iterable(zip_longest(*streams)))


def take(sources: List[Source], start: Optional[int], order: Order) -> Taken:
    """Takes the rows as a run does, in an order."""
    rows = order([zip(source.times(), repeat(number)) for number, source in enumerate(sources)])
    accepted = 0
    late = [0] * len(sources)
    first = None
    merged = start or 0
    for time, number in rows:
        if time < merged:
            late[number] += 1
            continue
        merged = time
        accepted += 1
        if first is None:
            first = time
    return Taken(accepted, late, first if start is None else start, first, merged if accepted else None)
