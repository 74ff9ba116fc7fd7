"""Trace lines: what `lolamon run` writes on standard error, a line for each row that was read."""
from __future__ import annotations

import csv
import re
from typing import Iterator, List, NamedTuple

from answers.verdicts import TIME, nanoseconds
from commands.failures import Unfit

BEFORE_INPUTS = 4  # source, row, time and mark
HEAD = re.compile(rf"[0-9]+,[0-9]+,{TIME},(?:A|L{TIME})(?:,|\Z)")
ABSENT = "#"
csv.field_size_limit(1 << 24)


class Row(NamedTuple):
    """A row that was read. An absent field is `#`."""

    time: int
    is_late: bool
    fields: List[str]


def fields_of(line: str) -> List[str]:
    return line.split(",") if '"' not in line else next(csv.reader([line], strict=True))


def rows_of(name: str, lines: Iterator[List[str]], inputs: int) -> Iterator[Row]:
    """The rows of a trace, which has so many inputs."""
    number = 0
    for block in lines:
        for line in block:
            number += 1
            if HEAD.match(line) is None:
                raise Unfit(f"{name}, line {number}: it is no trace line: {line[:60]!r}")
            try:
                fields = fields_of(line)
            except (csv.Error, StopIteration):
                raise Unfit(f"{name}, line {number}: a quote is not closed") from None
            if len(fields) - BEFORE_INPUTS != inputs:
                raise Unfit(f"{name}, line {number}: it has {len(fields) - BEFORE_INPUTS} inputs, "
                            f"and the specification {inputs}")
            yield Row(nanoseconds(fields[2]), fields[3] != "A", fields[BEFORE_INPUTS:])
