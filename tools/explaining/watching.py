"""Looks at the lines that pass and keeps what is needed afterwards, in bounded memory.

That is the end line, and how many rows of each source were late.
"""
from __future__ import annotations

import re
from typing import Dict

LONGEST = 4096  # so many bytes of a line are looked at
LATE_ROW = re.compile(rb"^(\d{1,2}),\d+,\d+\.\d{9},L", re.MULTILINE)


class Watch:
    """What was seen of a run."""

    def __init__(self) -> None:
        self.end_line = b""
        self.late: Dict[int, int] = {}  # how many rows of a source were late

    def see(self, lines: bytes) -> None:
        """Looks at whole lines."""
        end = (b"\n" + lines).rfind(b"\n= ")
        if end >= 0:
            self.end_line = lines[end:].split(b"\n", 1)[0]
        if b",L" in lines:
            for source in LATE_ROW.findall(lines):
                self.late[int(source)] = self.late.get(int(source), 0) + 1


class Lines:
    """Cuts the bytes of one stream into lines for a watch. Of a line that is not yet whole the beginning is kept."""

    def __init__(self, watch: Watch) -> None:
        self.watch = watch
        self.begun = b""

    def look(self, block: bytes) -> None:
        text = self.begun + block
        whole = text.rfind(b"\n") + 1
        if whole:
            self.watch.see(text[:whole])
        self.begun = text[whole:whole + LONGEST]
