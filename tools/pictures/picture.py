"""What a picture shows: a panel for each stream or group of streams, and marks for triggers and late rows."""
from __future__ import annotations

import re
from typing import Dict, List, NamedTuple, Optional

from answers.verdicts import NAME, VALUE, Verdict, plain, trigger_order
from commands.failures import Unfit
from commands.times import SECOND
from pictures.panel import MOST_COUNTED, MOST_LINES, Panel, Span, Wanted, fits
from pictures.series import Marks
from specifications.report import Stream

MOST_PANELS = 16
HALF_A_SECOND = SECOND // 2
ITEM = re.compile(rf"({NAME})(?:\(({VALUE}(?:,{VALUE})*)\))?(\+|,|\Z)")

Groups = List[List[Wanted]]  # what each panel shows


def read_groups(text: str) -> Groups:
    """The streams of an option: `a,b` are two panels, `a+b` is one, and `a("x")` is an instance."""
    groups: Groups = [[]]
    place = 0
    sign = ","
    while sign:
        match = ITEM.match(text, place)
        if match is None:
            raise Unfit(f"--streams is a list such as a,b+c,d(\"x\"), and not {text!r}")
        groups[-1].append(Wanted(match[1], match[2]))
        place, sign = match.end(), match[3]
        if sign == ",":
            groups.append([])
    return groups


class Trigger(NamedTuple):
    name: str
    message: str
    marks: Marks

    @property
    def title(self) -> str:
        return f"{self.name}: {self.message}" if self.message else self.name


class Fault(NamedTuple):
    """The fault that ended a run: its time, and what it was."""

    time: int
    told: str


class Bounds(NamedTuple):
    """The first and the last time of a picture, in nanoseconds."""

    first: int
    last: int


class Shown(NamedTuple):
    """A panel that shows a stream, or the instance of it with these parameters."""

    parameters: Optional[str]
    panel: Panel


class Picture:
    """Panels and marks, and the time that they take. Who fills it says what stands in it."""

    nothing = "there are no lines at these times"  # why there may be nothing to draw

    def __init__(self, title: str, streams: List[Stream], groups: Optional[Groups], span: Span) -> None:
        self.title = title
        self.by_name = {stream.name: stream for stream in streams}
        self.span = span
        self.groups_are_given = groups is not None
        self.panels: List[Panel] = []
        self.by_stream: Dict[str, List[Shown]] = {}
        for wanted in groups or [[Wanted(stream.name, None)] for stream in streams]:
            self.add_panel(wanted)
        self.triggers: Dict[str, Trigger] = {}
        self.late = Marks()
        self.end: Optional[str] = None
        self.fault: Optional[Fault] = None
        self.first: Optional[int] = None
        self.last: Optional[int] = None
        self.has_outputs = False

    def add_panel(self, wanted: List[Wanted]) -> None:
        for name, _ in wanted:
            if name not in self.by_name:
                raise Unfit(f"the specification has no stream {name}; it has {', '.join(self.by_name) or 'none'}")
        panel = Panel([self.by_name[name] for name, _ in wanted], wanted)
        self.panels.append(panel)
        for name, parameters in wanted:
            self.by_stream.setdefault(name, []).append(Shown(parameters, panel))

    def note_time(self, time: int) -> None:
        if self.span.has(time):
            self.first = time if self.first is None else min(self.first, time)
            self.last = time if self.last is None else max(self.last, time)

    def panels_of(self, source: str, verdict: Verdict) -> List[Panel]:
        """The panels that show the value of an output, which is looked at first."""
        stream = self.by_name.get(verdict.stream)
        is_text = verdict.value.startswith('"')
        if stream is None or not fits(plain(verdict.value), stream.kind) or (stream.kind == "String") != is_text:
            raise Unfit(f"{source}: the specification has no such stream: {verdict.name} = {verdict.value[:60]}")
        self.has_outputs = True
        return [shown.panel for shown in self.by_stream.get(verdict.stream, []) if shown.parameters in (None, verdict.parameters)]

    def mark(self, name: str, message: str, time: int) -> None:
        """Marks a moment at which a trigger was true."""
        if not self.span.has(time):
            return
        if name not in self.triggers:
            self.triggers[name] = Trigger(name, message, Marks())
        self.triggers[name].marks.add(time)

    def finish(self) -> List[str]:
        """Leaves out the panels without values, and those that are too many, and tells what a person should know."""
        if self.first is None:
            raise Unfit(f"there is nothing to draw: {self.nothing}")
        if self.fault:
            self.note_time(self.fault.time)
        return self.choose_panels() + self.told_of_outputs() + self.told_of_lines()

    def choose_panels(self) -> List[str]:
        if self.groups_are_given:
            return []
        self.panels = [panel for panel in self.panels if panel.drawn() or panel.late.points]
        many = len(self.panels)
        self.panels = self.panels[:MOST_PANELS]
        return [f"of {many} streams the first {MOST_PANELS} are drawn; --streams chooses others"] if many > MOST_PANELS else []

    def told_of_outputs(self) -> List[str]:
        has_none = self.has_outputs or all(stream.is_input for stream in self.by_name.values())
        return [] if has_none else ["the verdicts have no values of outputs; a run with --show outputs writes them"]

    def told_of_lines(self) -> List[str]:
        told: List[str] = []
        for panel in self.panels:
            if panel.left_out:
                more = " or more" if len(panel.left_out) == MOST_COUNTED else ""
                told.append(f"of the {MOST_LINES + len(panel.left_out)} lines{more} of {panel.title} the first {MOST_LINES} "
                            "are drawn; --streams chooses others")
        longest = max((panel.stretch() for panel in self.panels), default=0)
        if longest:
            told.append(f"lines of many values are thinned: of each {longest / SECOND:.3g} s or less the first, the least, the greatest "
                        "and the last stay, and each text once; --from and --to draw a part more finely")
        return told

    def bounds(self) -> Bounds:
        """The time that the picture has on its axis."""
        first = (self.first or 0) if self.span.start is None else self.span.start
        last = (self.last or 0) if self.span.stop is None else self.span.stop
        return Bounds(first, last) if first < last else Bounds(first - HALF_A_SECOND, first + HALF_A_SECOND)

    def triggers_in_order(self) -> List[Trigger]:
        return sorted(self.triggers.values(), key=lambda trigger: trigger_order(trigger.name))
