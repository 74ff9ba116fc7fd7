"""How a run of the program ended, as it is told to people."""
from __future__ import annotations

from typing import Dict, NamedTuple, Optional

from explaining.watching import Watch

OUTPUT = 1
ERRORS = 2


class Outcome(NamedTuple):
    """How the program ended, by a status or by a signal, and what was seen of it."""

    status: Optional[int]
    signal: Optional[int]
    watch: Watch
    failures: Dict[int, OSError]  # by the stream that could not be written
    in_a_line: bool  # whether the last byte on standard error was no line feed
