"""The lines that a batch writes: one for each log, one for each trigger that was true, and the end line."""
from __future__ import annotations

import time
from typing import Dict, Iterable, List, NamedTuple

from answers.verdicts import trigger_order
from batches.command import NOT_WELL
from batches.results import Result
from commands.command import say, write
from explaining.places import shown, shown_name

FIRST_WORD = 1.0  # so many seconds pass before the first word of progress
NEXT_WORD = 10.0
TRIGGER_CAME = 1
KINDS = ("done", "malformed", "fault", "unreadable", "other")


class Seen(NamedTuple):
    """What a trigger came to in all logs."""

    often: int
    logs: int
    first_log: str
    first: str
    message: str


class Totals:
    """The sums of a batch."""

    def __init__(self) -> None:
        self.kinds = dict.fromkeys(KINDS, 0)
        self.accepted = 0
        self.late = 0
        self.kept = 0
        self.missing = 0
        self.triggers: Dict[str, Seen] = {}

    def add(self, result: Result, was_kept: bool) -> None:
        self.kinds[result.kind()] += 1
        self.accepted += result.accepted
        self.late += result.late
        self.kept += was_kept
        for name, found in result.triggers.items():
            before = self.triggers.get(name) or Seen(0, 0, result.log, found.first, found.message)
            self.triggers[name] = before._replace(often=before.often + found.often, logs=before.logs + 1)

    def went_well(self) -> bool:
        return self.missing == 0 and sum(self.kinds.values()) == self.kinds["done"]

    def came(self, asked: Iterable[str]) -> List[str]:
        """Which triggers that are asked for were true: by name, by message, or `any`."""
        wanted = set(asked)
        return [name for name in self.in_order()
                if "any" in wanted or name in wanted or self.triggers[name].message in wanted]

    def in_order(self) -> List[str]:
        return sorted(self.triggers, key=trigger_order)

    def lines(self) -> List[str]:
        lines = []
        for name in self.in_order():
            seen = self.triggers[name]
            lines.append(f'{name} "{shown(seen.message.encode("utf-8", "replace"))}": {seen.often} in {counted(seen.logs, "log")}, '
                         f"first in {shown_name(seen.first_log)} at {seen.first}")
        logs = sum(self.kinds.values()) + self.missing
        kinds = " ".join(f"{kind} {count}" for kind, count in self.kinds.items())
        return [*lines, f"= logs {logs} {kinds} missing {self.missing} kept {self.kept} accepted {self.accepted} late {self.late}"]


def counted(number: int, what: str) -> str:
    return f"{number} {what}" if number == 1 else f"{number} {what}s"


def line_of(result: Result) -> str:
    triggers = "".join(f", {name} {result.triggers[name].often} first {result.triggers[name].first}"
                       for name in sorted(result.triggers, key=trigger_order))
    return f"{shown_name(result.log)}: {result.told_end()}, accepted {result.accepted}, late {result.late}{triggers}"


class LogsProgress:
    """Says now and then how far a batch has come, and nothing within its first second."""

    def __init__(self, tool: str) -> None:
        self.tool = tool
        self.due = time.monotonic() + FIRST_WORD

    def tell(self, number: int, of: int) -> None:
        if time.monotonic() >= self.due:
            self.due = time.monotonic() + NEXT_WORD
            say(self.tool, f"{number} of {counted(of, 'log')}")


def tell_totals(totals: Totals, fail_on: List[str]) -> int:
    """Writes the sums, and gives the status of a batch that came to them."""
    write("".join(line + "\n" for line in totals.lines()))
    if totals.came(fail_on):
        return TRIGGER_CAME
    return 0 if totals.went_well() else NOT_WELL
