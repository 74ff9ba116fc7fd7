"""One axis of a picture: numbers, truth values or texts, with a line for each that is drawn on it."""
from __future__ import annotations

import re
from typing import Dict, List, NamedTuple, Optional, Set

from answers.verdicts import NUMBER, Instance
from commands.failures import Unfit
from pictures.series import Dots, Line, Scattered
from specifications.report import Stream

MOST_LINES = 24
MOST_COUNTED = 10_000  # so many lines that are not drawn are told apart
MOST_NAMES = 24
OTHERS = "others"
TRUTH = {"false": 0, "true": 1}
IS_NUMBER = re.compile(NUMBER)


class Wanted(NamedTuple):
    """A stream, and the parameters where one instance alone is wanted."""

    stream: str
    parameters: Optional[str]


class Span(NamedTuple):
    """The part of time that is drawn; None where it has no bound."""

    start: Optional[int]
    stop: Optional[int]

    def has(self, time: int) -> bool:
        return (self.start is None or time >= self.start) and (self.stop is None or time <= self.stop)

    def is_behind(self, time: int) -> bool:
        return self.stop is not None and time > self.stop


class Drawn(NamedTuple):
    """A line that has points."""

    name: str
    is_held: bool  # whether its last value holds to the end
    line: Line


class Panel:
    """An axis for some streams, with its lines by the names that they have there."""

    def __init__(self, streams: List[Stream], wanted: List[Wanted]) -> None:
        self.wanted = wanted
        self.title = " + ".join(Instance(stream, parameters or "").name for stream, parameters in wanted)
        kinds = {sort_of(stream.kind) for stream in streams}
        if "text" in kinds and len(kinds) > 1:
            raise Unfit(f"texts and numbers have no axis in common: {self.title}")
        self.sort = "number" if len(kinds) > 1 else kinds.pop()
        self.kind = ", ".join(dict.fromkeys(stream.kind for stream in streams))
        self.has_inputs = all(stream.is_input for stream in streams)
        self.lines: Dict[str, Line] = {}
        self.held: Set[str] = set()  # the lines whose last value is held
        self.left_out: Set[str] = set()
        self.names: Dict[str, int] = {}  # of texts
        self.late = Scattered()

    def value(self, text: str) -> int:
        """A value as a number: of a text the number of its name."""
        if self.sort != "text":
            return TRUTH[text] if text in TRUTH else int(text)
        if text not in self.names and len(self.names) >= MOST_NAMES:
            text = OTHERS
        return self.names.setdefault(text, len(self.names))

    def add(self, name: str, holds: bool, time: int, text: str, span: Span) -> None:
        """A value of the line of this name. Whether its last one is held is said with the first."""
        line = self.lines.get(name) or self.new_line(name, holds, span)
        if line:
            line.add(time, self.value(text))

    def new_line(self, name: str, holds: bool, span: Span) -> Optional[Line]:
        if len(self.lines) >= MOST_LINES:
            if len(self.left_out) < MOST_COUNTED:
                self.left_out.add(name)
            return None
        line = self.lines[name] = Dots(span.start) if self.sort == "text" else Line(span.start)
        if holds and self.sort != "text":
            self.held.add(name)
        return line

    def drawn(self) -> List[Drawn]:
        """The lines that have points."""
        return [Drawn(name, name in self.held, line) for name, line in self.lines.items() if line.all()]

    def stretch(self) -> int:
        """The longest stretch that one of its lines was thinned to, or 0."""
        return max((line.stretch for line in self.lines.values()), default=0)


def sort_of(kind: str) -> str:
    return {"Bool": "truth", "String": "text"}.get(kind, "number")


def fits(text: str, kind: str) -> bool:
    """Whether a text without quotes and escapes may be a value of the kind."""
    if kind == "String":
        return True
    return text in TRUTH if kind == "Bool" else IS_NUMBER.fullmatch(text) is not None
