"""Compares two lists of verdicts, each a file of verdict lines or a long table, moment by moment.

The streams of one moment are compared by their names, so that their order does not matter; the values of one stream in their order.
"""
from __future__ import annotations

import csv
import json
import re
from itertools import chain, groupby, zip_longest
from typing import Dict, Iterator, List, NamedTuple, Optional, Tuple

from answers.lines import Input
from answers.verdicts import NUMBER, TIME, Instance, Verdicts, nanoseconds, plain, seconds
from commands.failures import Unfit
from commands.progress import Progress
from tabling.forms import LONG_HEADING, TOOL, parameters_field

IS_TIME = re.compile(TIME)
BARE = re.compile(rf"{NUMBER}|true|false")
csv.field_size_limit(1 << 24)


class Row(NamedTuple):
    """A row of a long table."""

    time: int
    instance: Instance  # with its parameters as the table has them
    value: str


class Moment(NamedTuple):
    """All rows of one time."""

    time: int
    rows: List[Row]


class Side:
    """One of the two that are compared."""

    def __init__(self, source: Input) -> None:
        self.source = source
        self.name = source.name
        self.verdicts: Optional[Verdicts] = None

    def rows(self) -> Iterator[Row]:
        rest = self.source.lines(Progress(TOOL, f"comparing {self.name}"))
        first: List[str] = next(rest, [])
        lines = chain([first], rest)
        if first and first[0].rstrip("\r") == ",".join(LONG_HEADING):
            return self.table_rows(chain.from_iterable(lines))
        return self.verdict_rows(lines)

    def verdict_rows(self, lines: Iterator[List[str]]) -> Iterator[Row]:
        self.verdicts = Verdicts(self.name, lines)
        for verdict in self.verdicts:
            instance = Instance(verdict.stream, parameters_field(verdict.parameters))
            yield Row(nanoseconds(verdict.time), instance, plain(verdict.value))

    def table_rows(self, lines: Iterator[str]) -> Iterator[Row]:
        reader = csv.reader((line + "\n" for line in lines), strict=True)
        next(reader, None)  # the heading, which was seen
        try:
            for fields in reader:
                if len(fields) != len(LONG_HEADING) or not IS_TIME.fullmatch(fields[0]):
                    raise Unfit(f"{self.name}, line {reader.line_num}: it is no row of a long table")
                yield Row(nanoseconds(fields[0]), Instance(*fields[1:3]), fields[3])
        except csv.Error as failure:
            raise Unfit(f"{self.name}, line {reader.line_num}: it is no CSV: {failure}") from None

    def moments(self) -> Iterator[Moment]:
        last = -1
        for time, rows in groupby(self.rows(), key=lambda row: row.time):
            if time < last:
                raise Unfit(f"{self.name}: {seconds(time)} stands behind {seconds(last)}; rows have to be in order of time")
            last = time
            yield Moment(time, list(rows))

    @property
    def end(self) -> Optional[str]:
        return self.verdicts.end if self.verdicts else None


class Comparison:
    """What was found so far."""

    def __init__(self, one: Side, other: Side) -> None:
        self.one = one
        self.other = other
        self.same = self.different = self.only_one = self.only_other = 0
        self.first: Optional[str] = None  # the first difference

    def run(self) -> None:
        for here, there in paired(self.one.moments(), self.other.moments()):
            if here == there:
                self.same += len(here.rows)
            else:
                self.compare(here, there)

    def compare(self, here: Moment, there: Moment) -> None:
        one, other = values_of(here.rows), values_of(there.rows)
        for instance in {**one, **other}:
            for value, another in zip_longest(one.get(instance, []), other.get(instance, [])):
                self.compare_values(here.time, instance, value, another)

    def compare_values(self, time: int, instance: Instance, value: Optional[str], another: Optional[str]) -> None:
        if value == another:
            self.same += 1
        elif value is None:
            self.only_other += 1
        elif another is None:
            self.only_one += 1
        else:
            self.different += 1
        if value != another and self.first is None:
            told = f"{shown(value)} in {self.one.name}, {shown(another)} in {self.other.name}"
            self.first = f"first difference: {seconds(time)} {instance.name}: {told}"

    @property
    def ends_differ(self) -> bool:
        """Whether both have verdict lines and end in another way."""
        return None not in (self.one.verdicts, self.other.verdicts) and self.one.end != self.other.end

    @property
    def is_same(self) -> bool:
        return self.first is None and not self.ends_differ

    def told(self) -> str:
        lines = [] if self.first is None else [self.first]
        lines.append(f"rows: {self.same} the same, {self.different} with another value, {self.only_one} only in {self.one.name}, "
                     f"{self.only_other} only in {self.other.name}")
        if self.ends_differ:
            lines += [f"end of {side.name}: {side.end or 'no end line'}" for side in (self.one, self.other)]
        return "".join(line + "\n" for line in lines)


def shown(value: Optional[str]) -> str:
    if value is None:
        return "nothing"
    return value if BARE.fullmatch(value) else json.dumps(value, ensure_ascii=False)


def values_of(rows: List[Row]) -> Dict[Instance, List[str]]:
    values: Dict[Instance, List[str]] = {}
    for row in rows:
        values.setdefault(row.instance, []).append(row.value)
    return values


def paired(one: Iterator[Moment], other: Iterator[Moment]) -> Iterator[Tuple[Moment, Moment]]:
    """The moments of both in their order; of one that the other does not have, it has no row."""
    left, right = next(one, None), next(other, None)
    while left or right:
        nothing = Moment(min(moment.time for moment in (left, right) if moment), [])
        here = left if left and left.time == nothing.time else nothing
        there = right if right and right.time == nothing.time else nothing
        yield here, there
        left = next(one, None) if here is left else left
        right = next(other, None) if there is right else right
