"""How the tools for batches fail and end."""
from __future__ import annotations

import os
import signal
import sys
from functools import partial
from typing import Callable, List, NoReturn

from commands import command
from commands.failures import INTERRUPTED, Failure
from explaining.places import shown_name

REFUSED, NOT_WELL = 3, 4

Main = Callable[[List[str]], int]


class Refused(Failure):
    """The specification is refused, with an end line such as `= refused E6 Unknown at 102`, which is told on standard output too."""

    status = REFUSED

    def __init__(self, path: str, end_line: str, status: int) -> None:
        super().__init__(f"the specification is not accepted: {shown_name(path)}: {end_line.removeprefix('= ') or f'status {status}'}")
        self.end_line = end_line


class Unreachable(Failure):
    """A file cannot be read or written."""

    status = NOT_WELL


def answered(tool: str, main: Main, words: List[str]) -> int:
    """The status of a tool. What goes wrong with a file is told with its name; a failure without one is that of standard output."""
    try:
        return main(words)
    except Refused as refused:
        command.say(tool, str(refused))
        command.write(refused.end_line + "\n")
        return refused.status
    except OSError as failure:
        if failure.filename is None:
            raise
        raise Unreachable(f"{failure.filename}: {failure.strerror}") from None


def run(tool: str, main: Main, at_interrupt: str = "interrupted") -> NoReturn:
    """Runs a tool, and ends with its status, at an interrupt without waiting for threads. A reader that has enough ends it at once."""
    signal.signal(signal.SIGPIPE, signal.SIG_DFL)
    status = command.run(tool, partial(answered, tool, main), sys.argv[1:])
    if status == INTERRUPTED:
        command.say(tool, at_interrupt)
        os._exit(status)
    sys.exit(status)
