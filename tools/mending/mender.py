"""Mends the rows of a source one by one, and counts what it changed and what it lost."""
from __future__ import annotations

from argparse import Namespace
from typing import IO, Iterator, List, Optional, Set, Tuple

from commands.command import say
from commands.failures import Failure
from commands.progress import Progress
from explaining.places import shown, shown_name
from sources.columns import Column, Problems
from sources.lines import LONGEST, SIGN, Heading, Kind, NumberedLine, join, read_lines, split
from sources.reading import Source
from sources.values import BLANKS, NOTHING, UNITS, Loss, mended_time, mended_value, unit_of, written_time
from specifications.specification import Specification

TOOL = "lolamon-mend"
MANY_DECIMALS = 4
UNIT_POWERS = {"s": 0, "ms": 3, "us": 6, "ns": 9}

Row = Tuple[int, bytes]  # its time and its line


class CannotMend(Failure):
    """A reason why nothing is written."""

    status = 2


class LeftOut(Exception):
    """A reason why a row is left out."""


class Asked(Namespace):
    """What was asked for: a source, written anew."""

    specification: str
    source: str
    out: str  # the file, or `-` for standard output
    sort: bool
    scale: List[Tuple[str, int]]  # columns, and the powers of ten that they are written times
    thousands: List[str]  # columns whose points part thousands
    rename: List[Tuple[str, str]]  # columns, and their new names
    unit: Optional[str]  # of the times, where it is not to be found by looking


class Mender:
    """Mends the rows of a source that was looked at."""

    def __init__(self, source: Source, asked: Asked) -> None:
        heading = source.heading
        if heading is None or heading.time is None:
            raise CannotMend(f"{shown_name(source.name)} has no column that could be that of the times; --rename COLUMN=time names one")
        self.heading = heading
        self.time = heading.time  # the index of its column
        self.head = heading.mended({})
        if max(len(heading.text.encode()), len(self.head.encode())) > LONGEST:
            raise CannotMend(f"the heading of {shown_name(source.name)} is longer than a line may be, which is {LONGEST:,} bytes")
        check_names(source, heading, asked)
        check_points(source.columns, asked)
        self.unit = UNIT_POWERS[asked.unit] if asked.unit else unit_of_times(source, heading)
        scales = dict(asked.scale)
        self.columns = [(column, scales.get(column.name, column.power())) for column in source.columns]
        self.changed = Problems()
        self.lost = Problems()
        self.rows = 0

    def mended(self, file: IO[bytes], name: str) -> Iterator[Row]:
        """The rows that can be kept."""
        rows = read_lines(file, Progress(TOOL, f"writing {shown_name(name)}"))
        next(rows, None)  # the heading
        for line in rows:
            try:
                row = self.row(line)
            except LeftOut as why:
                number, text, _ = line
                self.lost.note(f"row{{s}} left out: {why}", number, text)
                continue
            self.rows += 1
            yield row

    def row(self, line: NumberedLine) -> Row:
        number, text, kind = line
        if kind is Kind.ROW_TOO_LONG:
            raise LeftOut("too long")
        if kind is Kind.BAD_TEXT:
            self.changed.note("line{s} taken for Latin-1", number, text)
        fields = self.heading.fields(text.lstrip(SIGN))
        wanted = len(self.heading.names)
        if len(fields) < wanted or any(field.strip(BLANKS) for field in fields[wanted:]):
            raise LeftOut("another number of fields than the heading")
        if text == self.heading.text:
            raise LeftOut("the heading again")
        time = mended_time(fields[self.time], self.unit)
        if time is None:
            raise LeftOut("no time")
        fields[self.time] = written_time(time)
        for column, power in self.columns:
            fields[column.index] = self.field(fields[column.index], column, power, number)
        mended = join(fields[:wanted]).encode()
        if len(mended) > LONGEST:
            raise LeftOut("too long")
        return time, mended

    def field(self, text: str, column: Column, power: int, number: int) -> str:
        value, loss = mended_value(text, column.kind, power)
        if loss is Loss.ROUNDED:
            self.lost.note(f"value{{s}} of {column.name} rounded", number, text)
        elif loss is Loss.DROPPED:
            self.lost.note(f"value{{s}} of {column.name} made missing, as no {column.kind} can be made of what stands there", number, text)
        elif value == "#" and column.kind != "String" and text.strip(BLANKS) not in NOTHING:
            self.changed.note(f"value{{s}} of {column.name} such as NaN or null made #", number, text)
        return value

    def tell(self, source: Source, specification: Specification) -> None:
        """Tells what is done to all rows."""
        if self.heading.separator != ",":
            say(TOOL, f"fields were separated by {self.heading.separator!r}, and are by commas; "
                      "in numbers a comma or a point is the decimal point")
        self.tell_names()
        if self.unit:
            say(TOOL, f"times are taken for {UNITS[self.unit]}, and written in seconds")
        if "date" in source.problems:
            say(TOOL, "dates are written as seconds since 1970; those without a zone are taken for UTC")
        for column, power in self.columns:
            if column.index in self.heading.thousands:
                self.tell_points(column)
            if power:
                self.tell_scale(column.name, power, specification)

    def tell_names(self) -> None:
        heading = self.heading
        for index, (old, new) in enumerate(zip(heading.old_names, split(self.head))):
            if old != new:
                why = ("it is taken for that of the times" if index == self.time
                       else "as was asked" if heading.names[index] == new else "another one is read")
                say(TOOL, f"the column {index + 1} is renamed from {shown(old.encode())!r} to {shown(new.encode())!r}: {why}")

    def tell_points(self, column: Column) -> None:
        certain = column.with_thousands()
        why = f"as {shown(certain.field.encode())} in line {certain.number} shows" if certain else "as was asked"
        say(TOOL, f"points in the numbers of {column.name} are taken for thousands points, {why}, and left out")

    def tell_scale(self, name: str, power: int, specification: Specification) -> None:
        reading = specification.reading_lines(name)
        where = f"; it is read in line {', '.join(map(str, reading))}" if reading else ""
        fewer = f"; --scale={name}=2 keeps two decimals alone" if power > MANY_DECIMALS else ""
        say(TOOL, f"{name} is written times {10**power:,}; numbers that {shown_name(specification.name)} compares it with, or "
                  f"what comes of it, have to be so too{where}{fewer}")

    def tell_counts(self) -> None:
        for problems in (self.changed, self.lost):
            for what, problem in problems.items():
                say(TOOL, f"{problem.count:,} {what.format(s='' if problem.count == 1 else 's')}, the first in line {problem.number}")


def unit_of_times(source: Source, heading: Heading) -> int:
    """The unit of the times as a power of ten: by the column's name, or what most of those look like that cannot be read."""
    strange = source.problems.get("unit")
    found = unit_of(strange.field) if strange and 2 * strange.count > source.rows else 0
    return heading.unit() or found


def check_names(source: Source, heading: Heading, asked: Asked) -> None:
    """Sees to it that the options name columns that are there."""
    numbers: Set[str] = {column.name for column in source.columns if column.room}
    for option, names in (("scale", dict(asked.scale)), ("thousands", asked.thousands)):
        for name in sorted(set(names) - numbers):
            raise CannotMend(f"--{option} names {name!r}, and no input of numbers has a column of that name")
    for name in sorted(set(dict(asked.rename)) - set(heading.old_names)):
        raise CannotMend(f"--rename names {name!r}, and there is no column of that name")


def check_points(columns: List[Column], asked: Asked) -> None:
    """Sees to it that it is known of each column what a point in its numbers is."""
    for column in columns:
        decimal, doubt = column.points.get("decimal"), column.in_doubt()
        if column.name in asked.thousands and decimal:
            raise CannotMend(f"--thousands names {column.name!r}, and in line {decimal.number} it has {shown(decimal.field.encode())}, "
                             "whose point is no thousands point")
        if doubt and column.name not in asked.thousands and column.name not in dict(asked.scale):
            raise CannotMend(f"the points of {column.name} may be thousands points, since three digits stand behind each, as in "
                             f"{shown(doubt.field.encode())} in line {doubt.number}: --thousands={column.name} says that they are, and "
                             f"--scale={column.name}={column.power()} that they are decimal points")
