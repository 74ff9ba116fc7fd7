"""Tells how a line of a trace or of verdicts differs from what a run writes: the line as it is, and as it should be.

What is right in a trace follows from the lines before it. What stands in the verdicts, and whether a run ended before a line, is asked
of lolamon, which runs the accepted rows of the trace once more.
"""
from __future__ import annotations

import os
import re
import subprocess
import tempfile
from typing import IO, Callable, Dict, Iterator, List, NamedTuple, Optional

from commands.failures import Failure
from commands.times import SECOND
from explaining.places import opens_again, show_line, shown, shown_name
from explaining.program import analyse, find_program
from explaining.words import Command
from specifications.report import streams_of

ENTRY = re.compile(rb"([0-9]{1,18}),([0-9]{1,19}),([0-9]{1,10}\.[0-9]{9}),(A|L[0-9]{1,10}\.[0-9]{9})((?:,[^\n]*)?)\n")
DONE = re.compile(rb"(= done accepted [0-9]+ late )0( steps [0-9]+ lines [0-9]+\n)")
MOST_SOURCES = 64
NO_ENTRY = ("It is no line of a trace: such a line has a source from 0 to 63, the number of a row, a time, a mark, and a field for each "
            "input.")
OTHER_FIELDS = "Its number and its mark are right, so its fields are not spelled as a trace of this specification has them."
OTHER_ENDS = "Lines with which a run ends one of whose sources is malformed or cannot be read may stand here too."
NOT_TOLD = "What should stand there is not told, since the accepted rows of the trace could not be run once more."


class Entry(NamedTuple):
    """A line of a trace; the fields stand with a comma before each."""

    source: int
    number: int
    time: bytes
    mark: bytes
    fields: bytes

    @property
    def moment(self) -> int:
        return nanoseconds(self.time)

    def line(self) -> bytes:
        return b"%d,%d,%s,%s%s\n" % (self.source, self.number, self.time, self.mark, self.fields)


class Course:
    """What the lines of a trace tell one after another: the number of each source's last row, and the merged time."""

    def __init__(self, start: int) -> None:
        self.numbers: Dict[int, int] = {}
        self.merged = start

    def right(self, entry: Entry) -> Entry:
        """The entry with the number and the mark that it has behind those before it."""
        mark = b"A" if entry.moment >= self.merged else b"L%d.%09d" % divmod(self.merged, SECOND)
        return entry._replace(number=self.numbers.get(entry.source, 0) + 1, mark=mark)

    def take(self, entry: Entry) -> None:
        self.numbers[entry.source] = entry.number
        if entry.mark == b"A":
            self.merged = entry.moment


def nanoseconds(time: bytes) -> int:
    """A time as a trace has it, in whole nanoseconds."""
    return int(time.replace(b".", b"", 1))


def start_of(command: Command) -> int:
    """Where the merged time begins."""
    seconds, _, decimals = command.options.get("--start", "0").partition(".")
    return int(seconds or "0") * SECOND + int(decimals[:9].ljust(9, "0"))


def entry_of(line: bytes) -> Optional[Entry]:
    """The entry of a line, whether or not it has its line feed."""
    match = ENTRY.fullmatch(line.rstrip(b"\n") + b"\n")
    if match is None or int(match[1]) >= MOST_SOURCES:
        return None
    return Entry(int(match[1]), int(match[2]), match[3], match[4], match[5])


def lines_of(path: str, tell: Callable[[int], None]) -> Iterator[bytes]:
    """The lines of a file, each with its line feed if it has one. `tell` is called with each line's number."""
    with open(path, "rb") as file:
        for number, line in enumerate(file, 1):
            tell(number)
            yield line


class Rerun(NamedTuple):
    """What a run of accepted rows wrote: its end line, and the line that was asked for, if there is one."""

    end: bytes
    line: Optional[bytes]


def write_rows(command: Command, before: Optional[int], file: IO[bytes], tell: Callable[[int], None]) -> int:
    """Writes the accepted rows of a trace as a source, up to a line, and gives how many are late."""
    analysis = analyse(command.specification).stdout.decode("utf-8", "replace")
    inputs = [stream.name for stream in streams_of(analysis.splitlines()) if stream.is_input]
    file.write(",".join(["time", *inputs]).encode() + b"\n")
    late = 0
    for number, line in enumerate(lines_of(command.sources[0], tell), 1):
        if number == before:
            break
        entry = entry_of(line)
        if entry is not None and entry.mark == b"A":
            file.write(entry.time + entry.fields + b"\n")
        else:
            late += 1
    file.flush()
    return late


def rerun(command: Command, before: Optional[int], number: int, tell: Callable[[int], None]) -> Optional[Rerun]:
    """The line of this number that a run writes of the accepted rows of the trace, up to a line of it."""
    options = [f"{name}={value}" for name, value in command.options.items()]
    with tempfile.NamedTemporaryFile(suffix=".csv") as rows, tempfile.TemporaryFile() as out:
        late = write_rows(command, before, rows, tell)
        ran = subprocess.run([find_program(), "run", *options, "--", command.specification, rows.name], stdin=subprocess.DEVNULL,
                             stdout=out, stderr=subprocess.DEVNULL, env={**os.environ, "LOLAMON_PLAIN": "1"})
        if ran.returncode not in (0, 5):
            return None
        out.seek(0)
        end, found = b"", None
        for place, line in enumerate(out, 1):
            end = DONE.sub(rb"\g<1>%d\g<2>" % late, line)
            if place == number:
                found = end
    return Rerun(end, found)


def rerun_of(command: Command, before: Optional[int], number: int, tell: Callable[[int], None]) -> Optional[Rerun]:
    """The same, or none where it cannot be run."""
    if not opens_again(command.sources[0]) or not opens_again(command.specification):
        return None
    try:
        return rerun(command, before, number, tell)
    except (OSError, Failure):
        return None


class Teller:
    """Tells of one line that differs. Each part gives lines of text."""

    def __init__(self, command: Command, number: int, width: int, tell: Callable[[int], None]) -> None:
        self.command = command
        self.number = number
        self.width = width
        self.tell = tell

    def shown(self, line: bytes) -> str:
        return show_line(shown(line.rstrip(b"\n")), self.width)

    def as_it_is(self, path: str, line: bytes) -> List[str]:
        end = "" if line.endswith(b"\n") else ", without a line feed at its end"
        return [f"{shown_name(path)}, line {self.number}, as it is{end}:", self.shown(line)]

    def trace(self) -> List[str]:
        path = self.command.sources[0]
        course = Course(start_of(self.command))
        line = b""
        for place, line in enumerate(lines_of(path, self.tell), 1):
            entry = entry_of(line)
            if place == self.number:
                break
            if entry is not None:
                course.take(entry)
        return self.as_it_is(path, line) + self.of_entry(line, course)

    def of_entry(self, line: bytes, course: Course) -> List[str]:
        entry = entry_of(line)
        if entry is None:
            return [NO_ENTRY]
        right = course.right(entry).line()
        if right != line:
            return ["and as it should be:", self.shown(right)]
        before = rerun_of(self.command, self.number, 0, self.tell)
        if before is not None and before.end.startswith(b"= fault "):
            return ["No line should stand there, since the run ended before it:", self.shown(before.end)]
        return [OTHER_FIELDS if before is not None else NOT_TOLD]

    def verdicts(self) -> List[str]:
        path = self.command.sources[1]
        line = next((line for place, line in enumerate(lines_of(path, self.tell), 1) if place == self.number), None)
        if line is not None:
            return self.as_it_is(path, line) + self.of_verdict("and as it should be:")
        return self.of_verdict(f"{shown_name(path)} ends before line {self.number}, where this should stand:")

    def of_verdict(self, heading: str) -> List[str]:
        ran = rerun_of(self.command, None, self.number, self.tell)
        if ran is None:
            return [NOT_TOLD]
        if ran.line is None:
            return ["No line should stand there, behind the end line."]
        others = [OTHER_ENDS] if ran.line.startswith(b"= done ") else []
        return [heading, self.shown(ran.line), *others]


def told(command: Command, what: str, number: int, width: int, tell: Callable[[int], None]) -> List[str]:
    """What a person is told of the line of this number, of the trace or of the verdicts."""
    path = command.sources[0 if what == "trace" else 1]
    if not opens_again(path):
        return [f"{shown_name(path)}, line {number}"]
    teller = Teller(command, number, width, tell)
    try:
        return teller.trace() if what == "trace" else teller.verdicts()
    except OSError:
        return [f"{shown_name(path)}, line {number}"]
