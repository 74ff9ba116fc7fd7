"""How the times of a source go on: where they go back, where they jump, and which step from row to row is usual."""
from __future__ import annotations

from typing import List, NamedTuple, Optional

from sources.columns import Problems

STEPS = 1000  # the usual step from row to row is the median of so many
FAR = 100  # a jump is a step of more than so many usual ones
MOST_TEXT = 200  # characters of a line that is kept


class Step(NamedTuple):
    """A step to a time that is greater than all before: its length, and the time, the line and the line's text that it leads to."""

    length: int
    time: int
    number: int
    text: str


class Clock:
    """How the times of a source go on: where they go back and where they jump. Times are nanoseconds."""

    def __init__(self) -> None:
        self.problems = Problems()  # of the sorts `back` and `jump`
        self.first: Optional[int] = None
        self.greatest = -1
        self.greatest_line = 0
        self.furthest_back = 0
        self.line_ahead = 0  # of the time that the first row which goes back is behind
        self.steps: List[Step] = []  # until so many are known that one is usual
        self.usual = self.far = 0  # 0 until then
        self.longest = Step(0, 0, 0, "")

    def tick(self, time: int, number: int, text: str) -> None:
        length = time - self.greatest
        if length > self.far:
            self.take(Step(length, time, number, text[:MOST_TEXT]))
        elif length < 0:
            self.problems.note("back", number, text)
            self.furthest_back = max(self.furthest_back, -length)
            self.line_ahead = self.line_ahead or self.greatest_line
            return
        self.greatest, self.greatest_line = time, number

    def take(self, step: Step) -> None:
        """Takes a step that is a jump, or one from before it is known how far a jump is."""
        if self.first is None:
            self.first = step.time
        elif self.usual:
            self.problems.note("jump", step.number, step.text)
            self.longest = max(self.longest, step)
        else:
            self.steps.append(step)
            if len(self.steps) == STEPS:
                self.settle()

    def settle(self) -> None:
        """Takes the median of the steps so far as the usual one."""
        if self.steps and not self.usual:
            self.usual = sorted(self.steps)[(len(self.steps) - 1) // 2].length
            self.far = FAR * self.usual
            for step in self.steps:
                if step.length > self.far:
                    self.take(step)
