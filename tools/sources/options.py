"""The words of the tools that look at sources as a run reads them."""
from __future__ import annotations

import argparse
from typing import List, Optional

from commands.command import Words
from explaining.words import MOST_SOURCES, is_time
from sources.reading import Order, by_time, in_turns
from sources.values import time_of


class RunAsked(argparse.Namespace):
    """The run that was asked for. The start is told in nanoseconds."""

    start: Optional[int]
    in_turns: bool
    specification: str
    sources: List[str]

    @property
    def order(self) -> Order:
        return in_turns if self.in_turns else by_time


def start_of(word: str) -> int:
    """The value of --start, in nanoseconds."""
    time = time_of(word) if is_time(word) else None
    if time is None:
        raise argparse.ArgumentTypeError(f"a time in seconds, such as 0 or 1735689600.5, was expected, and not {word!r}")
    return time


def add_run(words: Words) -> None:
    words.options.add_argument("--start", type=start_of)
    words.options.add_argument("--in-turns", action="store_true")
    words.names.add_argument("specification", metavar="SPEC")
    words.names.add_argument("sources", metavar="SOURCE", nargs="+")


def check_run(words: Words, asked: RunAsked) -> None:
    if len(asked.sources) > MOST_SOURCES:
        words.error(f"these are {len(asked.sources)} sources, and {MOST_SOURCES} at most can be read")
