"""Verdict lines and the end line: what `lolamon run` writes on standard output.

Values stay as they are written. `plain` takes the quotes and escapes off a text, and `texts_of` parts the parameters of
an instance.
"""
from __future__ import annotations

import re
from typing import Iterator, List, NamedTuple, Optional, Tuple

from commands.failures import Unfit
from commands.times import SECOND

NAME = r"[A-Za-z_][A-Za-z_0-9]*"
TEXT = r'"[^"\\]*(?:\\["\\nrt][^"\\]*)*"'
NUMBER = r"-?(?:0|[1-9][0-9]{0,19})"
VALUE = rf"(?:{NUMBER}|true|false|{TEXT})"
TIME = r"[0-9]{1,10}\.[0-9]{9}"
LINE = re.compile(rf"({TIME}) ({NAME})(?: ({TEXT})|(?:\(({VALUE}(?:,{VALUE}){{0,3}})\))? = ({VALUE}))")
END = re.compile(rf"= (?:done accepted [0-9]+ late [0-9]+ steps [0-9]+ lines [0-9]+|usage|refused E[0-9]+ [A-Za-z]+ at [0-9]+"
                 rf"|malformed source [0-9]+ row [0-9]+ kind [0-9]+ [A-Za-z]+|fault {NAME} [0-9]+ [A-Za-z]+ at {TIME}"
                 rf"|unreadable (?:specification|state|source [0-9]+)"
                 rf"|damaged state line [0-9]+|state of another specification|too many steps)")
TRACE_LINE = re.compile(rf"[0-9]+,[0-9]+,{TIME},")
ONE_VALUE = re.compile(VALUE)
ESCAPE = re.compile(r'\\(["\\nrt])')
ESCAPES = {'"': '"', "\\": "\\", "n": "\n", "r": "\r", "t": "\t"}
STATUSES = {"done": 0, "same": 0, "differs": 1, "usage": 2, "refused": 3, "malformed": 4, "fault": 5, "unreadable": 6,
            "damaged": 9, "state": 9, "too": 9}
SHOWN = 60  # so many characters of a line that does not fit are shown


class Instance(NamedTuple):
    """A stream, or an instance of one by its parameters as they stand in the brackets."""

    stream: str
    parameters: str

    @property
    def name(self) -> str:
        return f"{self.stream}({self.parameters})" if self.parameters else self.stream


class Verdict(NamedTuple):
    """One line. A trigger's has a message, the others have a value; the parameters are as they stand in the brackets."""

    time: str
    stream: str
    parameters: str
    value: str
    is_trigger: bool

    @property
    def name(self) -> str:
        """The stream's name, with the parameters of an instance."""
        return Instance(self.stream, self.parameters).name


def plain(value: str) -> str:
    """A value without the quotes and escapes of a text."""
    if not value.startswith('"'):
        return value
    inner = value[1:-1]
    return ESCAPE.sub(lambda escape: ESCAPES[escape[1]], inner) if "\\" in inner else inner


def texts_of(parameters: str) -> List[str]:
    """The parameters of an instance, each as it is written."""
    return ONE_VALUE.findall(parameters)


def nanoseconds(time: str) -> int:
    """A time as it is written, in whole nanoseconds."""
    return int(time.replace(".", "", 1))


def seconds(time: int) -> str:
    """Whole nanoseconds as a time is written."""
    sign = "-" if time < 0 else ""
    return f"{sign}{abs(time) // SECOND}.{abs(time) % SECOND:09}"


def trigger_order(name: str) -> Tuple[int, str]:
    """What triggers are sorted by, so that trigger_10 stands behind trigger_9."""
    return len(name), name


def status_of(end: str) -> int:
    """The status with which the run ended that wrote this end line."""
    return STATUSES[end.split(" ", 2)[1]]


class Verdicts:
    """The verdict lines of what has this name, in the order in which they stand, and then the end line."""

    def __init__(self, name: str, lines: Iterator[List[str]]) -> None:
        self.name = name
        self.lines = lines
        self.end: Optional[str] = None
        self.number = 0

    def blocks(self) -> Iterator[List[Verdict]]:
        """The verdicts, as many at a time as have come."""
        for lines in self.lines:
            found: List[Verdict] = []
            for line in lines:
                self.number += 1
                match = LINE.fullmatch(line)
                if match is None or self.end is not None:
                    if found:
                        yield found
                        found = []
                    self.take_other(line)
                    continue
                time, stream, message, parameters, value = match.groups()
                found.append(Verdict(time, stream, parameters or "", message if value is None else value, value is None))
            if found:
                yield found

    def __iter__(self) -> Iterator[Verdict]:
        for block in self.blocks():
            yield from block

    def take_other(self, line: str) -> None:
        """Takes the end line, and nothing else."""
        if self.end is not None:
            self.refuse(line, "it stands behind the end line")
        if TRACE_LINE.match(line):
            self.refuse(line, "it is a line of the trace, which stands on standard error: 2>trace.txt keeps it apart")
        if END.fullmatch(line) is None:
            self.refuse(line, "it is no verdict line")
        self.end = line

    def refuse(self, line: str, why: str) -> None:
        shown = line if len(line) <= SHOWN else line[:SHOWN] + ".."
        raise Unfit(f"{self.name}, line {self.number}: {why}: {shown!r}")
