"""The streams of a specification that a picture may show, as `lolamon analyse` tells them."""
from __future__ import annotations

from typing import List, NamedTuple

from commands.failures import Unfit
from explaining.program import analyse
from specifications.report import Stream, streams_of, without_triggers


class Streams(NamedTuple):
    """The streams in the order of the text, without the triggers."""

    all: List[Stream]

    @property
    def inputs(self) -> List[Stream]:
        return [stream for stream in self.all if stream.is_input]

    @property
    def outputs(self) -> List[Stream]:
        return [stream for stream in self.all if not stream.is_input]


def read_streams(path: str) -> Streams:
    ran = analyse(path)
    report = ran.stdout.decode("utf-8", "replace").splitlines()
    if ran.returncode != 0 or not report:
        end = report[-1] if report else f"status {ran.returncode}"
        raise Unfit(f"{path}: lolamon analyse ends with: {end}")
    return Streams(without_triggers(streams_of(report[:-1])))
