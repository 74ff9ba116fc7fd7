"""Why a tool ends before its work is done. Each reason is one line for a person, and has the status that the tool ends with."""
from __future__ import annotations

UNFIT = 1
USAGE = 2
WRITE_FAILED = 7
NO_PROGRAM = 70
INTERRUPTED = 130


class Failure(Exception):
    """A reason to end: the line that a person is told behind the tool's name, perhaps with some below it."""

    status: int

    def __init__(self, message: str, *below: str) -> None:
        super().__init__(message)
        self.below = below


class Unfit(Failure):
    """The input is not what it has to be."""

    status = UNFIT


class WrongWords(Failure):
    """What was asked for is no command."""

    def __init__(self, message: str, status: int = USAGE) -> None:
        super().__init__(f"{message}; --help tells more")
        self.status = status


class NoProgram(Failure):
    """There is no lolamon that can be started."""

    status = NO_PROGRAM


def reason(failure: Exception) -> str:
    """What the system says of a failure, as one sentence's end."""
    return getattr(failure, "strerror", None) or str(failure)
