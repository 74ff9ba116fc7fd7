"""What a run will have: the rows that it takes, its steps and deadlines, and the time and the memory that they take."""
from __future__ import annotations

from typing import List, NamedTuple, Optional

from commands.times import SECOND
from findings.finding import ERROR, NOTE, WARNING, Finding, counted
from sources.reading import Source, Taken
from sources.values import seconds, written_time
from specifications.deadlines import Deadlines, count_deadlines
from specifications.report import Stream
from specifications.specification import Specification

MOST_INSTANCES = 65_536
SLOW = 60 * SECOND  # a run that takes longer for its deadlines is warned of
ROW_TIME, STREAM_TIME, DEADLINE_TIME = 600, 150, 100  # nanoseconds: of a row, of a stream in it, and of a stream at a deadline
VALUE, PANE = 32, 48  # bytes of a value that is kept, and of a pane
INSTANCE, WINDOW, SPAWNED, LOCAL = 570, 100, 170, 24  # bytes beside these: of any instance, for each window, if spawned, and if it counts
PIECES, AHEAD = 128 * 1024, 384 * 1024  # bytes of a source, and of one that is read ahead


class Memory(NamedTuple):
    """The bytes of an instance, as a rule and at most."""

    usual: int
    most: int


class Forecast:
    """What a run will have, foretold of a specification and its sources after they were looked at."""

    def __init__(self, specification: Specification, sources: List[Source], taken: Taken) -> None:
        self.specification = specification
        self.sources = sources
        self.taken = taken

    def findings(self) -> List[Finding]:
        if any(source.failure for source in self.sources):
            return []  # a run takes no row of any source
        told = [self.memory(), self.run()]
        if not any(stream.name.startswith("trigger_") for stream in self.specification.streams):
            told.append(self.of_run(NOTE, "there is no trigger, so a run writes its end line alone, unless with --show outputs"))
        start = self.start()
        return [*told, start] if start else told

    def of_run(self, level: str, message: str, line: str = "", better: str = "") -> Finding:
        return Finding(level, self.specification.name, 0, message, line, better)

    def run(self) -> Finding:
        taken = self.taken
        deadlines, is_exact = self.deadlines()
        row_time = ROW_TIME + STREAM_TIME * len(self.specification.streams)
        time = (taken.accepted + sum(taken.late)) * row_time + self.time_of(deadlines)
        births = "; deadlines that count from births come on top" if self.specification.has_local() else ""
        return self.of_run(
            WARNING if self.time_of(deadlines) > SLOW or not taken.accepted else NOTE,
            f"a run accepts {counted(taken.accepted, 'row')}, finds {sum(taken.late):,} late and has {'' if is_exact else 'at most '}"
            f"{counted(taken.accepted + deadlines, 'step')}, {deadlines:,} of them deadlines; it takes {duration(time)}{births}")

    def deadlines(self) -> Deadlines:
        """How many moments of deadlines a run has."""
        if self.taken.last is None or self.taken.start is None:
            return Deadlines(0, True)
        return count_deadlines(self.specification.rates(), self.taken.last - self.taken.start)

    def time_of(self, deadlines: int) -> int:
        """How long so many deadlines take, in nanoseconds."""
        return deadlines * DEADLINE_TIME * max(1, sum(stream.pacing.endswith("Hz") for stream in self.specification.streams))

    def start(self) -> Optional[Finding]:
        """What --start does, where it is not the time of the first row."""
        start, first = self.taken.start, self.taken.first
        firsts = [source.clock.first for source in self.sources if source.clock.first is not None]
        if start is None or start == first or not firsts:
            return None
        before, better = f"--start {written_time(start)}", f"--start {written_time(min(firsts) if first is None else first)}"
        if first is None:
            return self.of_run(WARNING, "--start lies behind all rows", before, better)
        deadlines = count_deadlines(self.specification.rates(), first - start - 1).moments  # at one time rows come first
        message = f"the first row that is accepted comes {seconds(first - start)} s behind --start, and {deadlines:,} deadlines before it"
        if self.time_of(deadlines) > SLOW:
            return self.of_run(WARNING, message, before, better)
        return self.of_run(NOTE, message) if deadlines else None

    def memory(self) -> Finding:
        streams = self.specification.streams
        least = sum(self.instance(stream).usual for stream in streams if not stream.spawn)
        files = sum(AHEAD if source.is_read_ahead(PIECES, len(self.sources) > 1) else PIECES for source in self.sources)
        message = f"a run takes about {size(least + files)} of memory beside the program, {size(files)} of them for its sources"
        for stream in streams:
            if stream.spawn:
                usual, most = self.instance(stream)
                message += (f"; each instance of {stream.name} takes {size(usual)} to {size(most)}, and {MOST_INSTANCES:,} of them, "
                            f"which is the most, {size(MOST_INSTANCES * most)}")
        texts = "; texts that are kept come on top" if any(stream.kind == "String" for stream in streams) else ""
        return self.of_run(NOTE, message + texts)

    def instance(self, stream: Stream) -> Memory:
        """What an instance of the stream takes, by the sum of docs/formats.md."""
        onto = [window for window in self.specification.windows if window.target == stream.name]
        values = VALUE * stream.kept + sum(PANE * window.panes for window in onto)
        others = INSTANCE + WINDOW * len(onto) + (SPAWNED if stream.spawn else 0) + (LOCAL if "Local" in stream.pacing else 0)
        return Memory(values + others, values + 2 * others)


def unreadable(source: Source) -> Optional[Finding]:
    """The finding that a source cannot be read, where that is so."""
    return Finding(ERROR, source.name, 0, f"it cannot be read: {source.failure}") if source.failure else None


def left(number: int, source: Source) -> Optional[Finding]:
    """The finding that a run leaves the source before its end, where that is so."""
    if source.end is None:
        return None
    row, kind, line = source.end
    where = f"row {row:,}" if row else "its heading"
    return Finding(ERROR, source.name, line, f"a run leaves source {number} at {where}: kind {kind} {kind.label}, status 4")


def size(count: int) -> str:
    """A number of bytes as a person says it."""
    for unit, power in (("gigabytes", 10**9), ("megabytes", 10**6), ("kilobytes", 1000)):
        if count >= power:
            return f"{(count + power // 2) // power:,} {unit}"
    return f"{count} bytes"


def duration(nanoseconds: int) -> str:
    """A time as a person says it, roughly."""
    whole = nanoseconds // SECOND
    for unit, length in (("days", 86400), ("hours", 3600), ("minutes", 60), ("seconds", 1)):
        if whole >= 2 * length:
            return f"about {whole // length:,} {unit}"
    return "about a second" if whole else "less than a second"
