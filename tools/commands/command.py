"""How a tool reads its words, writes, speaks to a person, and ends."""
from __future__ import annotations

import argparse
import os
import sys
from itertools import takewhile
from typing import Callable, List, NoReturn, TypeVar

from commands.failures import INTERRUPTED, USAGE, WRITE_FAILED, Failure, WrongWords, reason
from explaining.places import shown_name

OUTPUT, ERRORS = 1, 2

Asked = TypeVar("Asked", bound=argparse.Namespace)


class Parser(argparse.ArgumentParser):
    """Reads words of one sort. What is wrong with them is no reason to end at once."""

    def __init__(self, status_of_wrong_words: int, prefix_chars: str = "-") -> None:
        super().__init__(add_help=False, allow_abbrev=False, prefix_chars=prefix_chars)
        self.status_of_wrong_words = status_of_wrong_words

    def error(self, message: str) -> NoReturn:
        raise WrongWords(message, self.status_of_wrong_words)


class Words:
    """Reads a tool's words. Options stand before, between and behind the names; behind `--` all words are names.

    argparse reads options and names one after the other, since it would take words behind `--` for options if both were mixed.
    """

    def __init__(self, manual: str, status_of_wrong_words: int = USAGE) -> None:
        self.manual = manual
        self.options = Parser(status_of_wrong_words)
        self.names = Parser(status_of_wrong_words, "\0")  # no word has that sign, so that all are names

    def read(self, words: List[str], asked: Asked) -> Asked:
        """Fills in what was asked for. With --help the manual is written, and nothing else is done."""
        front = list(takewhile(lambda word: word != "--", words))
        if "--help" in front or "-h" in front:
            write(self.manual)
            sys.exit(0)
        for word in front:
            if word.startswith("--") and word.endswith("=--"):  # argparse would take the value for an empty list
                self.error(f"argument {word[:-3]}: expected one argument")
        _, rest = self.options.parse_known_args(front, asked)
        unknown = [word for word in rest if word.startswith("-") and word != "-"]
        names = [word for word in rest if word not in unknown] + words[len(front) + 1:]
        _, surplus = self.names.parse_known_args(names, asked)
        if unknown or surplus:
            self.error(f"unrecognized arguments: {' '.join(unknown + surplus)}")
        return asked

    def error(self, message: str) -> NoReturn:
        self.options.error(message)


def tell(*lines: str) -> None:
    """Tells a person some lines, where standard error can be written. What a terminal would obey is written as an escape."""
    if sys.stderr is None:
        return
    try:
        print(*map(shown_name, lines), sep="\n", file=sys.stderr, flush=True)
    except OSError:
        abandon(ERRORS)


def say(tool: str, message: str, *below: str) -> None:
    """Tells a person a line in the tool's name, and perhaps some below it."""
    tell(f"{tool}: {message}", *below)


def await_input(tool: str, what: str) -> None:
    """Tells a person who has to type what is read that it is waited for."""
    if sys.stdin is not None and sys.stdin.isatty():
        say(tool, f"reads {what}, to its end")


def write(text: str) -> None:
    """Writes to standard output at once, unless that is closed. What of a file's name is no text is written as an escape."""
    if sys.stdout is not None:
        sys.stdout.buffer.write(text.encode("utf-8", "backslashreplace"))
        sys.stdout.buffer.flush()


def abandon(stream: int) -> None:
    """What could not be written is not tried again when Python ends."""
    os.dup2(os.open(os.devnull, os.O_WRONLY), stream)


def run(tool: str, main: Callable[[List[str]], int], words: List[str]) -> int:
    """The status of a tool, however it ends. A reader that has enough is no reason to say anything."""
    try:
        return main(words)
    except Failure as failure:
        say(tool, str(failure), *failure.below)
        return failure.status
    except KeyboardInterrupt:
        return INTERRUPTED
    except BrokenPipeError:
        abandon(OUTPUT)
    except OSError as failure:
        abandon(OUTPUT)
        say(tool, f"what was to be written cannot be: {reason(failure)}")
    return WRITE_FAILED
