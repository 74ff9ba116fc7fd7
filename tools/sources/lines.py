"""Lines of a source, their fields, and what a heading has, by the rules of docs/formats.md."""
from __future__ import annotations

import csv
import os
import re
from enum import IntEnum
from functools import partial
from typing import IO, BinaryIO, Collection, Dict, Iterator, List, NamedTuple, Optional, Set, Tuple

from commands.progress import Progress
from sources.values import BLANKS, is_grouped

MARK = b"\xef\xbb\xbf"  # the byte order mark
SIGN = "\ufeff"  # the same, decoded
LONGEST = 65_536
BLOCK = MOST_READ = LONGEST + 1  # so much at once, and of a line; one that is longer is too long
TIME_NAMES = ("time", "ts", "timestamp")
SEPARATORS = (",", ";", "\t", "|")

UTF_16 = "the file is in UTF-16; 'iconv -f utf-16 -t utf-8' makes UTF-8 of it"
WORKBOOK = "the file is a spreadsheet's own, or an archive; have the spreadsheet save it as CSV"
FOREIGN = {"ÿþ": UTF_16, "þÿ": UTF_16, "PK\x03\x04": WORKBOOK}  # how it begins

UNIT = r"n(?:ano)?s(?:ec(?:ond)?s?)?|nanos|us(?:ecs?)?|µs|micros(?:econds?)?|ms(?:ecs?)?|millis(?:econds?)?|s(?:ec(?:ond)?s?)?"
NAMED_TIME = re.compile(rf"(?:time|timestamp|ts|t|date|datetime|epoch|clock|utc)?[\W_]*(?:in[\W_]+)?({UNIT})?[\W_]*")
UNIT_POWERS = {"n": 9, "us": 6, "µs": 6, "mic": 6, "m": 3}  # by how its name begins


class Kind(IntEnum):
    """What makes a line malformed, by the number that the end line tells."""

    BAD_HEADING = 1
    FIELD_COUNT = 2
    BAD_TIME = 3
    BAD_VALUE = 4
    BAD_TEXT = 5
    BARE_CR = 6
    ROW_TOO_LONG = 7

    @property
    def label(self) -> str:
        """The name that the end line tells, such as BadHeading."""
        return self.name.title().replace("_", "")


NumberedLine = Tuple[int, str, Optional[Kind]]  # the line's number in the file, from 1, its text, and what makes it malformed


def open_source(name: str) -> BinaryIO:
    """A source by its name; `-` is standard input."""
    return os.fdopen(os.dup(0), "rb") if name == "-" else open(name, "rb")


def read_blocks(file: IO[bytes]) -> Iterator[bytes]:
    """Lines, many at a time. Of one that is too long only the front is kept."""
    for block in iter(partial(file.read, BLOCK), b""):
        rest = file.readline(MOST_READ)
        yield block + rest
        while len(rest) == MOST_READ and not rest.endswith(b"\n"):
            rest = file.readline(MOST_READ)


def read_lines(file: IO[bytes], progress: Progress) -> Iterator[NumberedLine]:
    """The lines that are not empty.

    A mark at the start of the file is dropped, and a line that is no UTF-8 is shown as Latin-1, which each byte is.
    """
    number = 0
    for block in read_blocks(file):
        if number == 0 and block.startswith(MARK):
            block = block[len(MARK):]
        lines = block.split(b"\n")
        ends = len(lines) - 1  # so many have an LF
        for index, data in enumerate(lines[:ends] if not lines[ends] else lines):
            kind = Kind.ROW_TOO_LONG if len(data) > LONGEST else None
            if b"\r" in data:
                if index < ends and data.endswith(b"\r"):
                    data = data[:-1]
                kind = kind or (Kind.BARE_CR if b"\r" in data else None)
            if not data:
                continue
            try:
                yield number + index + 1, data.decode(), kind
            except UnicodeDecodeError:
                yield number + index + 1, data.decode("latin-1"), kind or Kind.BAD_TEXT
        number += ends + bool(lines[ends])
        progress.add(ends)


def split(line: str, separator: str = ",") -> List[str]:
    """The fields of a line. Where it has a sign that no right line has, quotes do not count."""
    if '"' in line:
        try:
            return next(csv.reader([line], delimiter=separator))
        except (csv.Error, StopIteration):
            pass
    return line.split(separator)


def join(fields: List[str]) -> str:
    """A line of these fields."""
    return ",".join('"' + text.replace('"', '""') + '"' if "," in text or '"' in text or text.startswith(SIGN) else text
                    for text in fields)


def separator_of(text: str) -> str:
    """What separates the names: a comma, unless something else gives a column of times and a comma does not."""
    for separator in SEPARATORS:
        if any(name.strip(BLANKS) in TIME_NAMES for name in split(text, separator)):
            return separator
    return max(SEPARATORS, key=lambda separator: len(split(text, separator)))


class Requests(NamedTuple):
    """What was asked for of columns: other names, and which inputs have numbers whose points part thousands."""

    new_names: Dict[str, str]
    thousands: Collection[str]


NO_REQUESTS = Requests({}, ())


class Heading:
    """A heading: its names, what separates them, and its columns."""

    def __init__(self, line: NumberedLine, kinds: Dict[str, str], requests: Requests) -> None:
        self.number, self.text, kind = line
        bare = self.text.lstrip(SIGN)
        self.separator = separator_of(bare)
        self.old_names = [name.strip(BLANKS) for name in split(bare, self.separator)]
        self.names = [requests.new_names.get(name, name) for name in self.old_names]
        self.times = [index for index, name in enumerate(self.names) if name in TIME_NAMES]
        likely = self.times or [index for index, name in enumerate(self.names) if name and NAMED_TIME.fullmatch(name.lower())]
        self.time = likely[0] if likely else None  # the column that the times seem to stand in
        self.inputs: Dict[str, int] = {}  # the columns that inputs have; a second one of a name is none
        for index, name in enumerate(self.names):
            if name in kinds and name not in TIME_NAMES:
                self.inputs.setdefault(name, index)
        self.thousands = [index for name, index in self.inputs.items() if name in requests.thousands]
        self.numbers = likely[:1] + [index for name, index in self.inputs.items() if kinds[name] != "String"]
        twice = any(self.names.count(name) > 1 for name in self.inputs)
        self.is_right = not kind and self.separator == "," and len(self.times) == 1 and not twice and self.text == bare
        self.foreign = next((why for begin, why in FOREIGN.items() if self.text.startswith(begin)), "")
        # Whether it is a line that the program takes, but perhaps for its characters.
        self.is_whole = kind not in (Kind.BARE_CR, Kind.ROW_TOO_LONG) and not self.foreign

    def unit(self) -> int:
        """The unit of the times, as a power of ten, by the name of their column."""
        match = NAMED_TIME.fullmatch(self.names[self.time or 0].lower())
        name = (match[1] if match else None) or "s"
        return next((power for front, power in UNIT_POWERS.items() if name.startswith(front)), 0)

    def fields(self, line: str) -> List[str]:
        """The fields of a line. Where commas do not separate them, one in a number is taken for the decimal point."""
        fields = split(line, self.separator)
        for index in self.thousands if self.separator == "," else self.numbers:
            if index < len(fields):
                fields[index] = self.with_decimal_point(fields[index], index)
        return fields

    def with_decimal_point(self, text: str, index: int) -> str:
        """A number of a column whose only point, where it has one, is the decimal point."""
        if index in self.thousands and is_grouped(text.strip(BLANKS)):
            text = text.replace(".", "")
        return text.replace(",", ".")

    def mended(self, new_names: Dict[int, str]) -> str:
        """The heading as it has to be, with some columns renamed: one column `time`, commas, and no name twice."""
        names = [new_names.get(index, name) for index, name in enumerate(self.names)]
        for index in self.times:
            names[index] += "_too"
        if self.time is not None:
            names[self.time] = self.names[self.time] if self.time in self.times else "time"
        seen: Set[str] = set()
        for index, name in enumerate(names):
            if name in seen:
                names[index] = f"{name}_{index + 1}"
            seen.add(names[index])
        return join(names)
