"""Tells a person how a run ended: what the end line means, where to look, and which rows were late."""
from __future__ import annotations

import errno
import os
import re
import signal
import stat
import textwrap
import time
from typing import List, Optional

from explaining import differing, places, saving
from explaining.folders import documents
from explaining.messages import read_messages
from explaining.places import shown_name
from explaining.outcome import ERRORS, OUTPUT, Outcome
from explaining.words import Command, NotACommand, asks_for_help, read_command

REFUSED = re.compile(r"= refused (E\d+) \w+ at (\d{1,18})")
MALFORMED = re.compile(r"= malformed source (\d{1,18}) row (\d{1,18}) (kind \d+) \w+")
FAULT = re.compile(r"= fault (\w+) (\d+) \w+ at ([\d.]+)")
UNREADABLE = re.compile(r"= unreadable (specification|state|trace|verdicts|source (\d{1,18}))")
DAMAGED = re.compile(r"= damaged state line (\d{1,18})")
OTHER_SPECIFICATION = "= state of another specification"
DIFFERS = re.compile(r"= differs (trace|verdicts) (\d{1,18})")
LATE_ROWS = "docs/formats.md#trace-lines-on-standard-error"
SEVERAL = "docs/formats.md#several-sources"
MOST_LATE_SOURCES = 4  # so many sources with late rows are named
QUIET_SIGNALS = (signal.SIGINT, signal.SIGTERM, signal.SIGHUP, signal.SIGQUIT, signal.SIGPIPE)

HELP = """\
lolamon reads CSV files of readings by a specification, and writes a line
wherever one of its triggers is true.

  lolamon run [OPTION..] SPEC SOURCE..   reads 1 to 64 source files
  lolamon analyse SPEC                   tells what the specification has
  lolamon drill NUMBER ROWS WORKERS      tries the machine with made-up rows
  lolamon replay SPEC TRACE VERDICTS     checks what a run of SPEC wrote
  lolamon snapshot [OPTION] SPEC SOURCE..   writes the state behind rows

run writes verdicts and the end line to standard output, and each row that
it read to standard error, which is the trace. Its options, each once:

  --show outputs   writes the values of outputs too; else: --show triggers
      lolamon run --show outputs height.lola flight.csv
  --in-turns       takes a row of each source in turn, whatever their times
      lolamon run --in-turns zones.lola vehicle.csv ground.csv
  --intake queue   has sources queue rows, not take turns; else: --intake lock
      lolamon run --intake queue zones.lola vehicle.csv ground.csv
  --start T        counts time from T seconds, not from the first row
      lolamon run --start 0 height.lola flight.csv
  --resume STATE   goes on from what a snapshot wrote
      lolamon run --resume state height.lola tuesday.csv
  --workers N      shares the instances out among 1 to 64 threads
      lolamon run --workers 4 devices.lola messages.csv

A drill of 10,000 rows for each of two sources on four threads:

      lolamon drill 1 10000 4

A snapshot takes --start or --resume, and its text becomes a file:

      lolamon snapshot height.lola monday.csv >new && mv new state

A replay takes --show and --start as the run was given them:

      lolamon replay --show outputs height.lola trace.txt verdicts.txt
"""


class Manual:
    """The table of codes, and where the documents that it names stand on this machine."""

    def __init__(self) -> None:
        self.documents = documents()
        self.messages = read_messages()

    def path(self, section: str) -> str:
        """A document's path, as short as it can be from the current folder."""
        path = os.path.normpath(os.path.join(self.documents, section))
        try:
            near = os.path.relpath(path)
        except OSError:
            return path
        return path if near.startswith(os.pardir) else near

    def meaning(self, code: str) -> List[str]:
        message = self.messages.get(code)
        if message is None:
            return [f"{code[:20]} is nothing that is known here; another version of lolamon may have written it."]
        lines = [f"{code} {message.name}: {message.sentence}", *self.more(message.section)]
        if os.path.exists(self.path("docs/errors.md")):
            heading = f"{code} {message.name}".lower().replace(" ", "-")
            lines.append("An example and what mends it: " + self.path(f"docs/errors.md#{heading}"))
        return lines

    def more(self, section: str) -> List[str]:
        return [f"More: {self.path(section)}"]


class Teller:
    """Tells of one run, on a stream. Each part gives lines of text."""

    def __init__(self, manual: Manual, outcome: Outcome, words: List[str], stream: int = ERRORS) -> None:
        self.manual = manual
        self.stream = stream
        self.outcome = outcome
        self.words = words
        self.end_line = outcome.watch.end_line.decode("utf-8", "replace")
        self.width = terminal_width(stream)
        self.command = command_of(words)

    def all(self) -> List[str]:
        parts = {1: self.differs, 2: self.usage, 3: self.refused, 4: self.malformed, 5: self.fault,
                 6: self.unreadable, 7: self.write, 8: self.memory, 9: self.state}
        if self.outcome.signal is not None:
            return self.crash(self.outcome.signal)
        part = parts.get(self.outcome.status or 0)
        return (part() if part else []) + self.late()

    def crash(self, number: int) -> List[str]:
        if number in QUIET_SIGNALS:
            return []
        return [f"The program was ended by signal {number}, {signal.strsignal(number)}. What it wrote may not be all."]

    def usage(self) -> List[str]:
        lines = []
        if not asks_for_help(self.words):
            try:
                read_command(self.words)
            except NotACommand as reason:
                lines = [f"These words are no command: {shown_name(str(reason))}.", ""]
        return lines + HELP.splitlines() + ["", *self.manual.more(self.manual.messages["status 2"].section)]

    def refused(self) -> List[str]:
        match = REFUSED.fullmatch(self.end_line)
        if not match or not self.command:
            return []
        path = self.command.specification
        return self.at_place(path, int(match.group(2))) + self.manual.meaning(match.group(1))

    def at_place(self, path: str, at: int) -> List[str]:
        text = places.read_specification(path)
        if text is None or at > len(text):
            return [f"{shown_name(path)}, byte {at}"]
        place = places.place_in(text, at)
        end = ", the end of the text" if at == len(text) else ""
        head = f"{shown_name(path)}, line {place.line}, column {place.column}{end}:"
        return [head, *places.show_place(place, self.width, mark(self.stream))]

    def malformed(self) -> List[str]:
        match = MALFORMED.fullmatch(self.end_line)
        path = self.source(match.group(1)) if match else None
        if not match or path is None:
            return []
        return self.row(path, int(match.group(2))) + self.manual.meaning(match.group(3))

    def row(self, path: str, number: int) -> List[str]:
        what = f"{shown_name(path)}, " + (f"row {number}" if number else "the heading")
        if not places.opens_again(path):
            return [what]
        try:
            row = places.find_row(path, number, Patience(what).tell)
        except OSError:
            return [what]
        if row is None:
            return [what if number else f"{shown_name(path)} has no line"]
        return [f"{what}, in line {row.line} of the file:", places.show_line(places.shown(row.text), self.width)]

    def fault(self) -> List[str]:
        match = FAULT.fullmatch(self.end_line)
        if not match:
            return [self.manual.messages["status 5"].sentence]
        stream, kind, moment = match.groups()
        lines = [f"In the step at {moment} the stream {stream} has a fault, and the run ended there."]
        return lines + self.declared(stream) + self.manual.meaning(f"fault {kind}")

    def declared(self, stream: str) -> List[str]:
        """The lines of the specification that declare the stream."""
        path = self.command.specification if self.command else ""
        text = places.read_specification(path) if path else None
        lines = []
        for at in places.declarations(text or b"", stream):
            lines += self.at_place(path, at)
        return lines

    def differs(self) -> List[str]:
        match = DIFFERS.fullmatch(self.end_line)
        if not match or not self.command:
            return []
        what, number = match.groups()
        patience = Patience(f"line {number} of the {what}")
        lines = differing.told(self.command, what, int(number), self.width, patience.tell)
        return lines + self.manual.more(self.manual.messages["status 1"].section)

    def unreadable(self) -> List[str]:
        match = UNREADABLE.fullmatch(self.end_line)
        if not match or not self.command:
            return []
        what, number = match.groups()
        path = self.unread(what, number)
        if path is None:
            return []
        return [f"{what.capitalize() if number else f'The {what}'}, {shown_name(path)}, cannot be read{why_unreadable(path)}.",
                *self.manual.more(self.manual.messages["status 6"].section)]

    def unread(self, what: str, number: Optional[str]) -> Optional[str]:
        """The file that the end line tells of."""
        if what in ("specification", "state") and self.command:
            return self.command.options.get("--resume") if what == "state" else self.command.specification
        return self.source(number or {"trace": "0", "verdicts": "1"}[what])

    def write(self) -> List[str]:
        if any(failure.errno == errno.EPIPE for failure in self.outcome.failures.values()):
            return []  # a reader that has enough, such as `head`
        names = {OUTPUT: "Standard output", ERRORS: "Standard error"}
        lines = [f"{names[stream]} could not be written: {failure.strerror}."
                 for stream, failure in self.outcome.failures.items()]
        message = self.manual.messages["status 7"]
        return lines + [message.sentence, *self.manual.more(message.section)]

    def memory(self) -> List[str]:
        message = self.manual.messages["status 8"]
        return [f"{message.sentence} How much a run takes is told by 'lolamon analyse' and the manual.",
                *self.manual.more(message.section)]

    def state(self) -> List[str]:
        """What is wrong with a saved state: the damaged line, or where its specification differs."""
        path = self.command.options.get("--resume") if self.command else None
        lines = []
        match = DAMAGED.fullmatch(self.end_line)
        if path is not None and match:
            lines = saving.damaged_line(path, int(match.group(1)), self.width)
        elif path is not None and self.command and self.end_line == OTHER_SPECIFICATION:
            lines = saving.other_specification(path, self.command.specification, self.width)
        return lines + self.manual.meaning("status 9")

    def late(self) -> List[str]:
        late = sorted(self.outcome.watch.late.items())
        if not late or not self.command or self.outcome.failures:
            return []
        lines = ["Late rows, which are traced and have no other effect:"]
        for source, count in late[:MOST_LATE_SOURCES]:
            path = self.source(str(source)) or ""
            lines.append(f"  {count} of source {source}, {shown_name(path)}")
        if len(late) > MOST_LATE_SOURCES:
            rest = late[MOST_LATE_SOURCES:]
            lines.append(f"  {sum(count for _, count in rest)} of {len(rest)} other sources")
        several = len(self.command.sources) > 1
        return [*lines, why_late(self.command), *self.manual.more(LATE_ROWS), *(self.manual.more(SEVERAL) if several else [])]

    def source(self, number: str) -> Optional[str]:
        sources = self.command.sources if self.command else []
        return sources[int(number)] if int(number) < len(sources) else None


class Patience:
    """Says once what takes so long, where it takes more than a second."""

    def __init__(self, what: str) -> None:
        self.what = what
        self.until = time.monotonic() + 1

    def tell(self, line: int) -> None:
        if line % 10_000 == 0 and time.monotonic() > self.until:
            write_told([f"Looking for {self.what} .."], ERRORS)
            self.until = float("inf")


def wrapped(line: str, width: int) -> List[str]:
    """A sentence as lines of the terminal's width; what begins with a blank is laid out already."""
    if line.startswith(" "):
        return [line]
    return textwrap.wrap(line, width, break_long_words=False, break_on_hyphens=False) or [""]


def write_told(lines: List[str], stream: int) -> None:
    """Writes lines to a stream, two blanks before each."""
    width = min(terminal_width(stream), 100) - 3
    text = "".join(f"  {piece}".rstrip() + "\n" for line in lines for piece in wrapped(line, width))
    os.write(stream, text.encode("utf-8", "backslashreplace"))


def command_of(words: List[str]) -> Optional[Command]:
    try:
        return read_command(words)
    except NotACommand:
        return None


def terminal_width(stream: int) -> int:
    try:
        return os.get_terminal_size(stream).columns or 80
    except OSError:
        return 80


def mark(stream: int) -> str:
    """The mark below a place, in bold where the stream is a terminal that can and may."""
    is_plain = os.environ.get("NO_COLOR") or os.environ.get("TERM", "dumb") == "dumb" or not os.isatty(stream)
    return "^" if is_plain else "\x1b[1m^\x1b[0m"


def why_late(command: Command) -> str:
    reason = "A row is late where its time is below that of a row that was taken before it, or below --start."
    if len(command.sources) <= 1:
        return reason if "--start" in command.options else f"{reason} So the times of this source go back."
    if "--in-turns" in command.options:
        return f"{reason} In turns the source with fewer rows gets ahead of the others. Without --in-turns files are merged by time."
    return (f"{reason} Files are merged by time, so the times of a file with late rows go back. A late row of a pipe came behind a later "
            "one.")


def why_unreadable(path: str) -> str:
    """What the system tells of a file that the program could not read."""
    try:
        mode = os.stat(path).st_mode
        if stat.S_ISDIR(mode):
            return ": it is a folder"
        if stat.S_ISREG(mode):
            os.close(os.open(path, os.O_RDONLY))
    except (OSError, ValueError) as failure:
        return f": {getattr(failure, 'strerror', failure)}"
    return ""


def told(outcome: Outcome, words: List[str], stream: int) -> List[str]:
    """What a person needs to be told of a run; of one without a fault and without late rows nothing."""
    return Teller(Manual(), outcome, words, stream).all()


def tell(outcome: Outcome, words: List[str]) -> None:
    """Tells of a run on standard error, behind what it wrote there itself."""
    lines = told(outcome, words, ERRORS)
    if lines:
        write_told(([""] if not outcome.in_a_line else ["", ""]) + lines, ERRORS)
