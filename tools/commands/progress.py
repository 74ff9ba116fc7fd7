"""Tells how far a tool is where that takes long."""
from __future__ import annotations

import time

from commands.command import say

FIRST_WORD = 1.0  # seconds until the first word of how far it is; the next ones come twice as late each time
LAST_WORD = 60.0


class Progress:
    """Tells on standard error how many lines were read, at first after a second and then ever more seldom."""

    def __init__(self, tool: str, doing: str) -> None:
        self.tool = tool
        self.doing = doing
        self.lines = 0
        self.wait = FIRST_WORD
        self.next = time.monotonic() + self.wait

    def add(self, lines: int) -> None:
        self.lines += lines
        now = time.monotonic()
        if now >= self.next:
            say(self.tool, f"{self.doing}: {self.lines:,} lines so far")
            self.wait = min(self.wait * 2, LAST_WORD)
            self.next = now + self.wait
