"""Makes findings of what was seen: each has a level, a place, and where there is one the line and how it is to be."""
from __future__ import annotations

import difflib
import shlex
from math import inf
from typing import Dict, Iterator, List, Optional, Tuple

from commands.times import SECOND
from explaining.places import Place, shown, shown_name
from findings.finding import ERROR, LEVELS, NOTE, WARNING, Finding, counted
from findings.forecast import Forecast, left, unreadable
from sources.columns import Column, Problem
from sources.lines import SIGN, TIME_NAMES, Heading, Kind, join
from sources.reading import Source, Taken
from sources.values import BLANKS, UNITS, Loss, mended_time, mended_value, seconds, time_of, unit_of, written_time
from specifications.deadlines import count_deadlines
from specifications.specification import Specification

TOOL = "lolamon-doctor"
LINES = {  # what is told of whole lines and of times, by the sort of the problem
    "kind 5": "{lines} not in UTF-8, or with a byte order mark in front, as where files were joined",
    "kind 6": "{lines} with a carriage return that no line feed follows",
    "kind 7": "{lines} of more than 65,536 bytes",
    "fields": "{rows} of another number of fields than the heading, which has {wanted}",
    "quote": "{rows} of another number of fields than the heading, with a quote that is not closed: no field has a line end in it",
    "heading": "{rows} where the heading stands again, as where files were joined",
    "no time": "{rows} without a time",
    "date": "{rows} with a date for a time, which is a number of seconds such as those since 1970",
    "time": "{rows} with a time that is no number of seconds, as digits with at most one point",
    "unit": "{rows} with a time that is not written as digits with at most one point, or is above 4,000,000,000 seconds{unit}",
}
FIELDS = {  # and of fields
    "blanks": "{fields} with blanks at an end, as '{field}': they belong to the text",
    "missing": "{fields} such as '{field}', which is no {kind}: a missing value is nothing, or #",
    "decimals": "{fields} with decimals or an exponent, and {kind} is whole; --fix writes {name} times {scale:,}, and what the "
                "specification compares it with has to be so too",
    "certain": "{fields} with thousands points, such as '{field}': --fix leaves the points of {name} out",
    "thousands": "{fields} such as '{field}', whose points may be thousands points, since three digits stand behind each: --fix writes "
                 "nothing until --thousands={name} says that they are, or --scale={name}={power} that they are decimal points",
    "truth": "{fields} such as '{field}', where Bool is true or false",
    "range": "{fields} out of the range of {kind}, such as {field}{room}",
    "other": "{fields} such as '{field}', which is no {kind}",
}
NAMES = 8  # so many columns are named
MOST_NEAR = 1000  # so many columns are compared with the names of inputs
SLOW_STEP = 10 * SECOND


class Doctor:
    """Tells of one specification and its sources, after they were looked at. Each part gives findings."""

    def __init__(self, specification: Specification, sources: List[Source], taken: Taken) -> None:
        self.specification = specification
        self.sources = sources
        self.taken = taken
        self.headings = [(source, source.heading) for source in sources if source.heading and source.heading.is_whole]
        # The columns that no input has, each with the first source that has it.
        self.free = {name: source for source, heading in reversed(self.headings) for name in self.free_names(heading)}
        self.nearest = self.nearest_columns()

    def free_names(self, heading: Heading) -> List[str]:
        return [name for index, name in enumerate(heading.names)
                if name not in self.specification.inputs and index != heading.time and name not in TIME_NAMES]

    def has_no_column(self, name: str) -> bool:
        return bool(self.headings) and name not in TIME_NAMES and not any(name in heading.inputs for _, heading in self.headings)

    def nearest_columns(self) -> Dict[str, str]:
        """For inputs without a column the one whose name is nearest, which no input has."""
        found: Dict[str, str] = {}
        for name in filter(self.has_no_column, self.specification.inputs):
            near = nearest(name, [column for column in list(self.free)[:MOST_NEAR] if column and column not in found.values()])
            if near:
                found[name] = near
        return found

    def findings(self) -> List[Finding]:
        found = list(self.of_inputs())
        for number, source in enumerate(self.sources):
            found += sorted(self.of_source(number, source), key=place_and_level)
        return found + Forecast(self.specification, self.sources, self.taken).findings()

    def of_inputs(self) -> Iterator[Finding]:
        """Inputs that get no value, and have no column that might be meant."""
        for name in self.specification.inputs:
            place = self.specification.place(name) or Place(0, 0, "", name)
            line = place.before + place.behind
            if name in TIME_NAMES:
                message = (f"the input {name} gets no value, since a column of this name is that of the times; it needs another name, "
                           "here, where it is read, and for a column of its own")
                better = f"{place.before}stamp{place.behind[len(name):]}"
                yield Finding(WARNING, self.specification.name, place.line, message, line, better)
            elif self.has_no_column(name) and name not in self.nearest:
                message = f"no source has a column for the input {name}, so what reads it is never computed"
                yield Finding(WARNING, self.specification.name, place.line, message, line)

    def of_source(self, number: int, source: Source) -> Iterator[Finding]:
        failed, malformed = unreadable(source), left(number, source)
        if failed:
            yield failed
            return
        if source.heading:
            yield from self.of_rows(number, source, source.heading)
        else:
            yield Finding(ERROR, source.name, 1, "there is no line, so there is no heading")
        if malformed:
            yield malformed

    def of_rows(self, number: int, source: Source, heading: Heading) -> Iterator[Finding]:
        """The heading of a source, and what stands behind it."""
        new_names = {heading.names.index(column): name for name, column in self.nearest.items() if self.free[column] is source}
        yield from self.of_heading(source, heading, new_names)
        for sort, problem in source.problems.items():
            yield of_line(source, heading, sort, problem)
        for column in source.columns:
            yield from self.of_column(source, heading, column)
        yield from self.of_order(number, source)
        yield from self.of_steps(source, heading)
        yield from self.of_mending(source, heading, new_names)

    def of_heading(self, source: Source, heading: Heading, new_names: Dict[int, str]) -> Iterator[Finding]:
        better = heading.mended(new_names) if heading.is_whole and heading.time is not None else ""
        if not heading.is_right:
            message = f"the heading is malformed: {why_malformed(source, heading)}"
            yield Finding(ERROR, source.name, heading.number, message, heading.text, better)
        for index, name in new_names.items():
            place = self.specification.place(name)
            of = f"{shown_name(self.specification.name)}:{place.line if place else 1}"
            message = (f"no source has a column for the input {name} of {of}, so what reads it is never computed; the nearest is "
                       f"'{shown(heading.names[index].encode())}'")
            yield Finding(WARNING, source.name, heading.number, message, heading.text, better)
        free = self.free_names(heading)
        if free and heading.is_whole:
            names = ", ".join(shown(name.encode()) or "(no name)" for name in free[:NAMES])
            more = f" and {len(free) - NAMES} more" if len(free) > NAMES else ""
            yield Finding(NOTE, source.name, heading.number, f"{counted(len(free), 'column')} that no input has: {names}{more}")

    def of_column(self, source: Source, heading: Heading, column: Column) -> Iterator[Finding]:
        if source.rows and not column.places and not column.problems:
            yield Finding(WARNING, source.name, heading.number, f"the column {column.name} has no value in any row")
        doubt, certain = column.in_doubt(), column.with_thousands()
        for sort, pointed in (("thousands", doubt), ("certain", certain)):
            if pointed:
                yield Finding(ERROR, source.name, pointed.number, told_of_field(sort, pointed, column), pointed.text)
        for sort, problem in column.problems.items():
            is_told = sort == "decimals" and (doubt or certain) or sort == "other" and certain and problem.count == certain.count
            if not is_told:
                yield of_field(source, heading, column, sort, problem)

    def of_order(self, number: int, source: Source) -> Iterator[Finding]:
        """Rows that go back, jumps, and whether a row ahead of all others makes both."""
        clock = source.clock
        back, jump = clock.problems.get("back"), clock.problems.get("jump")
        is_ahead = back is not None and jump is not None and clock.line_ahead in (jump.number, clock.longest.number)
        if back:
            why = ", which jumps ahead and may be what is wrong" if is_ahead else ""
            message = (f"{counted(back.count, 'row')} behind a row of a later time, by {seconds(clock.furthest_back)} s at most: they are "
                       f"late and not judged; the first is behind line {clock.line_ahead}{why}")
            yield Finding(WARNING, source.name, back.number, message, back.text)
        if jump:
            length, time, line, text = clock.longest
            deadlines = count_deadlines(self.specification.rates(), length).moments
            due = f" and {deadlines:,} deadlines" if deadlines else ""
            what_helps = "" if is_ahead else f"; if the clock was set there, --start {written_time(time)} leaves out what comes before"
            message = (f"the time jumps by {seconds(length)} s{due}, where {seconds(clock.usual)} s are usual; "
                       f"{counted(jump.count, 'jump')}, the first at line {jump.number}{what_helps}")
            yield Finding(WARNING, source.name, line, message, text)
        late = self.taken.late[number]
        if late > (back.count if back else 0) or late and source.end:
            yield Finding(WARNING, source.name, 0, f"{counted(late, 'row')} of {source.rows:,} will be late in the run")

    def of_steps(self, source: Source, heading: Heading) -> Iterator[Finding]:
        """Steps from row to row that are so long that the times may be of another unit."""
        usual = source.clock.usual
        if usual < SLOW_STEP or usual % SECOND:
            return
        longest = self.specification.longest()
        is_long = 0 < longest <= usual
        behind = f", and no window or period of the specification is longer than {seconds(longest)} s" if is_long else ""
        message = (f"{seconds(usual)} s from row to row are usual{behind}: if the times are milliseconds or microseconds, --fix with "
                   "--unit ms or us makes seconds of them")
        yield Finding(WARNING if is_long else NOTE, source.name, heading.number, message)

    def of_mending(self, source: Source, heading: Heading, new_names: Dict[int, str]) -> Iterator[Finding]:
        """How to have a source written anew, where that mends something."""
        options = [f"--rename={heading.names[index]}={name}" for index, name in new_names.items()]
        options += ["--sort"] if "back" in source.clock.problems else []
        doubted = [column for column in source.columns if column.in_doubt()]
        options += [f"--thousands={column.name}" for column in doubted]
        if heading.time is not None and (options or source.end):
            words = " ".join(map(shlex.quote, [TOOL, "--fix", "fixed.csv", *options, self.specification.name, source.name]))
            others = "".join(f"; with --scale={column.name}={column.power()} in the place of --thousands={column.name} where its points "
                             "are decimal points" for column in doubted)
            yield Finding(NOTE, source.name, 0, f"a source fixed.csv that can be read is written by: {shown_name(words)}{others}")


def replaced(fields: List[str], index: int, text: str) -> str:
    """A line with one field replaced."""
    return join([text if place == index else old for place, old in enumerate(fields)])


def place_and_level(finding: Finding) -> Tuple[float, int]:
    """What the findings of a source are sorted by. Those without a line come last."""
    return finding.number or inf, LEVELS.index(finding.level)


def of_line(source: Source, heading: Heading, sort: str, problem: Problem) -> Finding:
    """Lines or times that have one thing wrong."""
    unit = unit_of(problem.field)
    message = LINES[sort].format(lines=counted(problem.count, "line"), rows=counted(problem.count, "row"), wanted=len(heading.names),
                                 unit=f"; these look like {UNITS[unit]}" if unit else "")
    time = mended_time(problem.field, unit) if sort in ("date", "unit") else None
    better = "" if time is None or heading.time is None else replaced(heading.fields(problem.text), heading.time, written_time(time))
    return Finding(ERROR, source.name, problem.number, message, problem.text, better)


def of_field(source: Source, heading: Heading, column: Column, sort: str, problem: Problem) -> Finding:
    """Fields of a column that have one thing wrong."""
    fields = heading.fields(problem.text)
    message = told_of_field(sort, problem, column)
    if sort == "blanks":
        better = replaced(fields, column.index, problem.field.strip(BLANKS))
        return Finding(WARNING, source.name, problem.number, message, problem.text, better)
    mended = mended_value(problem.field, column.kind, column.power())
    better = "" if mended.loss is Loss.DROPPED else replaced(fields, column.index, mended.text)
    return Finding(ERROR, source.name, problem.number, message, problem.text, better)


def told_of_field(sort: str, problem: Problem, column: Column) -> str:
    """What is told of the fields of a column that have one thing wrong."""
    power = column.power()
    return FIELDS[sort].format(fields=f"{counted(problem.count, 'field')} of {column.name}", field=shown(problem.field.encode())[:40],
                               kind=column.kind, name=column.name, power=power, scale=10**power,
                               room=wider(column.name, problem.field) if sort == "range" else "")


def nearest(name: str, columns: List[str]) -> Optional[str]:
    """The column whose name is most like that of an input, or begins as it."""
    lowered = {column.lower(): column for column in reversed(columns)}
    near = difflib.get_close_matches(name.lower(), lowered, n=1)
    near += [column for column in lowered if column.startswith(name.lower()) or name.lower().startswith(column)]
    return lowered[near[0]] if near else None


def why_malformed(source: Source, heading: Heading) -> str:
    if heading.foreign:
        return heading.foreign
    if source.end and source.end.kind in (Kind.ROW_TOO_LONG, Kind.BARE_CR, Kind.BAD_TEXT):
        return LINES[f"kind {source.end.kind}"].format(lines="it is one")
    if heading.separator != ",":
        return f"its fields are separated by {heading.separator!r} and not by commas"
    if len(heading.times) > 1:
        return f"it has {len(heading.times)} columns of times, where one of time, ts and timestamp may be"
    if not heading.times:
        if heading.time is not None:
            return f"no column is called time, ts or timestamp; {shown(heading.names[heading.time].encode())!r} may be it"
        has_number = any(time_of(name) is not None for name in heading.names)
        return "no column is called time, ts or timestamp" + ("; the first line has to have the names of the columns" if has_number else "")
    if heading.text.startswith(SIGN):
        return "a byte order mark stands before it that is not at the start of the file, or one too many"
    return "it names an input twice"


def wider(name: str, text: str) -> str:
    """The kind that has room for a number, said behind the finding."""
    kinds = [kind for kind in ("Int8", "Int16", "Int32", "Int64", "UInt64") if mended_value(text, kind, 0).loss is Loss.NOTHING]
    return f"; in the specification {name}: {kinds[0]} has room" if kinds else ""
