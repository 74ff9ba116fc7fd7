"""The words that say which logs a batch has, and how each of them is run."""
from __future__ import annotations

import argparse
from typing import Callable, List, Optional

from commands.command import Words
from explaining.places import shown_name
from explaining.words import is_time

MOST_WORKERS = 64


class BatchAsked(argparse.Namespace):
    """What was asked for of a batch."""

    join: bool
    results: Optional[str]
    show: Optional[str]
    start: Optional[str]
    in_turns: bool
    workers: Optional[int]
    names: List[str]  # the specification first


def number_up_to(most: int) -> Callable[[str], int]:
    def read(word: str) -> int:
        if not (word.isascii() and word.isdigit() and len(word) < 6 and 1 <= int(word) <= most):
            raise argparse.ArgumentTypeError(f"a number from 1 to {most} was expected, and not '{shown_name(word)}'")
        return int(word)
    return read


def add_options(words: Words) -> None:
    words.options.add_argument("--join", action="store_true")
    words.options.add_argument("--results")
    words.options.add_argument("--show", choices=("triggers", "outputs"))
    words.options.add_argument("--start")
    words.options.add_argument("--in-turns", action="store_true")
    words.options.add_argument("--workers", type=number_up_to(MOST_WORKERS))
    words.names.add_argument("names", nargs="*")


def check_options(words: Words, asked: BatchAsked) -> None:
    if asked.start is not None and not is_time(asked.start):
        words.error(f"the value of --start is a time in seconds, and not '{shown_name(asked.start)}'")


def options_of(asked: BatchAsked) -> List[str]:
    """The options that are lolamon's."""
    options = [f"--{name}={getattr(asked, name)}" for name in ("show", "start", "workers") if getattr(asked, name)]
    return options + (["--in-turns"] if asked.in_turns else [])
