"""Writes verdicts as CSV, long or wide, or as JSON lines. What is written is as exact as what was read."""
from __future__ import annotations

import json
import tempfile
from typing import IO, Callable, Dict, Iterator, List, NamedTuple, Optional

from answers.lines import Input
from answers.verdicts import Instance, Verdict, Verdicts, plain, texts_of
from commands.command import say, write
from commands.progress import Progress

TOOL = "lolamon-table"
LONG_HEADING = ["time", "stream", "parameters", "value"]
MANY_COLUMNS = 1000
AS_NUMBERS = {"true": "1", "false": "0"}
NEEDS_QUOTES = frozenset(',"\r\n')


def field(text: str) -> str:
    """A field of CSV. An empty text stands between quotes, so that it differs from no value."""
    if text and NEEDS_QUOTES.isdisjoint(text):
        return text
    return '"' + text.replace('"', '""') + '"'


def row_of(texts: List[str]) -> str:
    return ",".join(map(field, texts)) + "\n"


def parameters_field(parameters: str) -> str:
    """The parameters of an instance as one text: a row of CSV, in which a single one mostly stands as it is."""
    return ",".join(field(plain(text)) for text in texts_of(parameters)) if parameters else ""


def json_value(value: str) -> str:
    """The value as JSON. Numbers and truth values are written there as here."""
    return json.dumps(plain(value), ensure_ascii=False) if value.startswith('"') else value


class Table(NamedTuple):
    """A table that is made of a source. Truth values are numbers in it where that is wanted."""

    source: Input
    wants_numbers: bool

    def value(self, verdict: Verdict) -> str:
        """The value as a text; of a trigger its message, or 1 where numbers are wanted."""
        if not self.wants_numbers:
            return plain(verdict.value)
        return "1" if verdict.is_trigger else AS_NUMBERS.get(verdict.value) or plain(verdict.value)

    def long_row(self, verdict: Verdict) -> str:
        parameters = parameters_field(verdict.parameters)
        shown = field(parameters) if parameters else ""
        return f"{verdict.time},{verdict.stream},{shown},{field(self.value(verdict))}\n"

    def json_row(self, verdict: Verdict) -> str:
        parameters = ", ".join(map(json_value, texts_of(verdict.parameters))) if verdict.parameters else ""
        key = "message" if verdict.is_trigger else "value"
        value = AS_NUMBERS.get(verdict.value, verdict.value) if self.wants_numbers else verdict.value
        return f'{{"time": "{verdict.time}", "stream": "{verdict.stream}", "parameters": [{parameters}], "{key}": {json_value(value)}}}\n'

    def wide_rows(self, verdicts: Verdicts, columns: List[Instance]) -> Iterator[str]:
        """A row for each time, as many at once as have come. Where a stream has several values at one time, so many rows have that time."""
        places = {column: place for place, column in enumerate(columns)}
        time = ""
        cells: Dict[int, str] = {}
        for block in verdicts.blocks():
            rows = []
            for verdict in block:
                place = places[Instance(verdict.stream, verdict.parameters)]
                if cells and (verdict.time != time or place in cells):
                    rows.append(wide_row(time, cells, len(columns)))
                    cells = {}
                time = verdict.time
                cells[place] = field(self.value(verdict))
            yield "".join(rows)
        if cells:
            yield wide_row(time, cells, len(columns))


def wide_row(time: str, cells: Dict[int, str], columns: int) -> str:
    fields = [cells.get(place, "") for place in range(columns)]
    return f"{time},{','.join(fields)}\n"


def write_rows(table: Table, row: Callable[[Verdict], str]) -> Optional[str]:
    """Writes a row for each verdict, when its line has come, and gives the end line."""
    verdicts = Verdicts(table.source.name, table.source.lines(Progress(TOOL, "writing")))
    for block in verdicts.blocks():
        write("".join([row(verdict) for verdict in block]))
    return verdicts.end


def write_long(table: Table) -> Optional[str]:
    write(row_of(LONG_HEADING))
    return write_rows(table, table.long_row)


def write_json(table: Table) -> Optional[str]:
    return write_rows(table, table.json_row)


class Spooled(Input):
    """An input that cannot be read twice, whose bytes are kept in another file as they are read."""

    def __init__(self, source: Input, file: IO[bytes]) -> None:
        super().__init__(source.name, file)
        self.source: Optional[Input] = source

    def blocks(self) -> Iterator[bytes]:
        if self.source is None:
            yield from super().blocks()
            return
        for block in self.source.blocks():
            self.file.write(block)
            yield block
        self.source = None


def columns_of(verdicts: Verdicts) -> List[Instance]:
    """A column for each stream and each instance: streams in the order in which they first come, and each one's instances likewise."""
    streams: Dict[str, Dict[str, None]] = {}
    for verdict in verdicts:
        streams.setdefault(verdict.stream, {})[verdict.parameters] = None
    return [Instance(stream, parameters) for stream, instances in streams.items() for parameters in instances]


def write_wide(table: Table) -> Optional[str]:
    """Writes a column for each stream and each instance, for which the source is read twice."""
    if not table.source.is_regular:
        with tempfile.TemporaryFile() as file:
            return write_wide(table._replace(source=Spooled(table.source, file)))
    columns = columns_of(Verdicts(table.source.name, table.source.lines(Progress(TOOL, "looking for columns"))))
    if len(columns) > MANY_COLUMNS:
        say(TOOL, f"the table has {len(columns):,} columns; --long has four")
    table.source.again()
    verdicts = Verdicts(table.source.name, table.source.lines(Progress(TOOL, "writing")))
    write(row_of(["time", *(column.name for column in columns)]))
    for rows in table.wide_rows(verdicts, columns):
        write(rows)
    return verdicts.end
