"""Takes the verdicts of several runs into one picture: a line and a row of marks for each run."""
from __future__ import annotations

import os
from typing import List, Optional, Tuple

from answers.verdicts import Instance, Verdict, Verdicts, nanoseconds, plain, status_of, trigger_order
from commands.failures import Unfit
from pictures.panel import Span
from pictures.picture import Groups, Picture, Trigger
from pictures.specification import Streams

KEPT = "verdicts.txt"  # the name that the verdicts of each log have in the results of a batch


def names_of(paths: List[str]) -> List[str]:
    """What the runs are called: their paths, without what all have in common in front, and of a batch's results the logs."""
    logs = [os.path.dirname(path) or path if os.path.basename(path) == KEPT else path for path in paths]
    if len(set(map(os.path.isabs, logs))) > 1:
        return logs
    common = os.path.commonpath([os.path.dirname(log) for log in logs])
    return [os.path.relpath(log, common) if common else log for log in logs]


class Overlay(Picture):
    """A picture of several runs by one specification."""

    nothing = "no verdicts have a line at these times"

    def __init__(self, title: str, streams: Streams, groups: Optional[Groups], span: Span) -> None:
        super().__init__(title, streams.outputs, groups, span)
        self.runs: List[str] = []
        self.told: List[str] = []

    def take(self, run: str, verdicts: Verdicts, start: Optional[int]) -> None:
        """Takes the verdicts of a run, whose times count from a start, or from the first line where there is none."""
        if run in self.runs:
            raise Unfit(f"two runs are called {run}")
        self.runs.append(run)
        for verdict in verdicts:
            moment = nanoseconds(verdict.time)
            start = moment if start is None else start
            self.take_verdict(run, verdicts.name, verdict, moment - start)
        if verdicts.end is None:
            self.told.append(f"{run} has no end line: the run was cut off")
        elif status_of(verdicts.end) != 0:
            self.told.append(f"{run} ended with: {verdicts.end}")

    def take_verdict(self, run: str, source: str, verdict: Verdict, time: int) -> None:
        if self.span.is_behind(time):
            return
        self.note_time(time)
        if verdict.is_trigger:
            self.mark(f"{run} {verdict.stream}", plain(verdict.value), time)
            return
        for panel in self.panels_of(source, verdict):
            name = run if len(panel.wanted) == 1 else f"{run} {verdict.stream}"
            panel.add(Instance(name, verdict.parameters).name, False, time, plain(verdict.value), self.span)

    def triggers_in_order(self) -> List[Trigger]:
        """The marks trigger by trigger, and of each run by run."""
        return sorted(self.triggers.values(), key=lambda trigger: self.place_of(trigger.name))

    def place_of(self, name: str) -> Tuple[Tuple[int, str], int]:
        run, _, trigger = name.rpartition(" ")
        return trigger_order(trigger), self.runs.index(run)

    def finish(self) -> List[str]:
        self.end = "1 run" if len(self.runs) == 1 else f"{len(self.runs)} runs"
        return super().finish() + self.told
