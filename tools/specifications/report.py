"""The lines of the report that `lolamon analyse` writes, as docs/formats.md has them."""
from __future__ import annotations

import re
from typing import List, NamedTuple

STREAM = re.compile(r"stream [0-9]+ (\w+) (\w+) (?:spawn (.+) layer [0-9]+ )?pacing (.+) layer ([0-9]{1,18}) kept ([0-9]{1,18})")
WINDOW = re.compile(r"window [0-9]+ in \w+ onto (\w+) over ([0-9]{1,18})\.([0-9]{9}) panes ([0-9]{1,18})")


class Stream(NamedTuple):
    """An input, an output or a trigger. The k-th trigger is called trigger_k, and others may be called so too."""

    name: str
    kind: str
    spawn: str  # the pacing of its spawn clause, empty where there is none
    pacing: str
    layer: int
    kept: int

    @property
    def is_input(self) -> bool:
        """An input is paced by itself, and reads nothing."""
        return self.name == self.pacing and self.layer == 0


class Window(NamedTuple):
    target: str
    length: int  # nanoseconds
    panes: int


def streams_of(report: List[str]) -> List[Stream]:
    """The streams in the order of the text: inputs, outputs and triggers."""
    matches = [STREAM.fullmatch(line) for line in report]
    return [Stream(match[1], match[2], match[3] or "", match[4], int(match[5]), int(match[6])) for match in matches if match]


def without_triggers(streams: List[Stream]) -> List[Stream]:
    others: List[Stream] = []
    triggers = 0
    for stream in streams:
        if stream.kind == "Bool" and stream.name == f"trigger_{triggers + 1}" and not stream.is_input:
            triggers += 1
        else:
            others.append(stream)
    return others


def windows_of(report: List[str]) -> List[Window]:
    matches = [WINDOW.fullmatch(line) for line in report]
    return [Window(match[1], int(match[2] + match[3]), int(match[4])) for match in matches if match]
