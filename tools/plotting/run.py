"""Takes the rows of a trace and the verdicts of a run into a picture."""
from __future__ import annotations

import re
from typing import Iterable, List, Optional

from answers.trace import ABSENT, Row
from answers.verdicts import NAME, TIME, Instance, Verdicts, nanoseconds, plain
from commands.failures import Unfit
from pictures.panel import Panel, Span, fits
from pictures.picture import Fault, Groups, Picture
from pictures.specification import Streams

FAULT = re.compile(rf"= fault ({NAME}) [0-9]+ ([A-Za-z]+) at ({TIME})")


def fault_of(end: Optional[str]) -> Optional[Fault]:
    """The fault that an end line tells."""
    match = FAULT.fullmatch(end or "")
    return Fault(nanoseconds(match[3]), f"{match[1]}: {match[2]}") if match else None


def name_of(panel: Panel, stream: str, parameters: str) -> str:
    """What a line is called below the panel's title: where all lines are of one stream, its parameters."""
    return Instance("" if parameters and len(panel.wanted) == 1 else stream, parameters).name


class Run(Picture):
    """A picture of one run. Whether an instance still lives is not known, so nothing is said of it behind its last value."""

    nothing = "neither the trace nor the verdicts have a line at these times"

    def __init__(self, title: str, streams: Streams, groups: Optional[Groups], span: Span) -> None:
        super().__init__(title, streams.all, groups, span)
        self.inputs = streams.inputs

    def take_trace(self, name: str, rows: Iterable[Row]) -> None:
        for row in rows:
            if self.span.is_behind(row.time):
                continue
            self.note_time(row.time)
            if row.is_late and self.span.has(row.time):
                self.late.add(row.time)
            for stream, text in zip(self.inputs, row.fields):
                if text == ABSENT:
                    continue
                if not fits(text, stream.kind):
                    raise Unfit(f"{name}: {text[:60]!r} is no value of {stream.name}: {stream.kind}; is it another trace?")
                for shown in self.by_stream.get(stream.name, []):
                    self.take_input(shown.panel, stream.name, row, text)

    def take_input(self, panel: Panel, stream: str, row: Row, text: str) -> None:
        if not row.is_late:
            panel.add(stream, True, row.time, text, self.span)
        elif self.span.has(row.time):
            panel.late.add(row.time, panel.value(text))

    def take_verdicts(self, verdicts: Verdicts) -> None:
        for verdict in verdicts:
            time = nanoseconds(verdict.time)
            if self.span.is_behind(time):
                continue
            self.note_time(time)
            if verdict.is_trigger:
                self.mark(verdict.stream, plain(verdict.value), time)
                continue
            for panel in self.panels_of(verdicts.name, verdict):
                name = name_of(panel, verdict.stream, verdict.parameters)
                panel.add(name, not verdict.parameters, time, plain(verdict.value), self.span)
        self.end = verdicts.end
        self.fault = fault_of(self.end)

    def finish(self) -> List[str]:
        return super().finish() + ([] if self.end else ["the verdicts have no end line: the run was cut off"])
