"""Reads the words behind the program's name as the program reads them, and says why words are no command.

The program decides whether they are one. What stands here is for people: the names of the files, and the reason.
"""
from __future__ import annotations

import re
from typing import Dict, List, NamedTuple, Sequence

from commands.times import MOST_TIME, SECOND

FLAG = "--in-turns"
VALUES = {
    "--show": "'triggers' or 'outputs'",
    "--workers": "a number from 1 to 64",
    "--start": "a time in seconds, such as 0 or 1735689600.5",
    "--intake": "'lock' or 'queue'",
    "--resume": "the name of a saved state",
}
MOST_SOURCES = 64
MOST_SEED = 2_147_483_646
MOST_ROWS = 1_000_000


class Command(NamedTuple):
    """A command with its names; the specification is empty for a drill, and the sources of a replay are a trace and verdicts. A saved state
    is an option's value."""

    name: str
    options: Dict[str, str]
    specification: str
    sources: List[str]


class NotACommand(Exception):
    """Words that are no command, with the reason."""


def is_number(word: str, digits: int, least: int, most: int) -> bool:
    return bool(re.fullmatch(f"[0-9]{{1,{digits}}}", word)) and least <= int(word) <= most


def is_time(word: str) -> bool:
    """Whether a word is a time in seconds. Decimals behind the ninth do not count."""
    if not re.fullmatch(r"[0-9]+\.?[0-9]*|\.[0-9]+", word):
        return False
    seconds, _, decimals = word.partition(".")
    seconds = seconds.lstrip("0")
    return len(seconds) <= 10 and int(seconds or "0") * SECOND + int(decimals[:9].ljust(9, "0")) <= MOST_TIME


def is_value(option: str, word: str) -> bool:
    if option == "--show":
        return word in ("triggers", "outputs")
    if option == "--intake":
        return word in ("lock", "queue")
    if option == "--workers":
        return is_number(word, 2, 1, 64)
    return option == "--resume" or is_time(word)


class Reader:
    """Takes the words behind a command one after another. No option stands between two names, but behind the first where that may stand
    apart."""

    def __init__(self, words: List[str], options: Sequence[str] = (), apart: bool = False) -> None:
        self.rest = list(words)
        self.known = options
        self.apart = apart
        self.options: Dict[str, str] = {}
        self.names: List[str] = []
        self.is_closed = False  # an option came, behind which no name may stand

    def read(self) -> None:
        while self.rest:
            word = self.rest.pop(0)
            if word == "--":
                for name in self.rest:
                    self.take_name(name)
                return
            if word.startswith("-") and len(word) > 1:
                self.take_option(word)
            else:
                self.take_name(word)

    def take_name(self, name: str) -> None:
        if self.is_closed:
            what = "sources" if self.apart else "names"
            raise NotACommand(f"an option stands between two {what}, before '{name}'; it stands before or behind all")
        self.names.append(name)

    def take_option(self, word: str) -> None:
        name, equals, value = word.partition("=")
        if name not in self.known or (name == FLAG and equals):
            raise NotACommand(f"there is no option '{word}' here; names that begin with '-' stand behind the word '--'")
        if name in self.options:
            raise NotACommand(f"the option {name} comes twice")
        if name != FLAG:
            value = value if equals else self.value_of(name)
            if not is_value(name, value):
                raise NotACommand(f"the value of {name} is {VALUES[name]}, and not '{value}'")
        self.options[name] = value
        self.is_closed = len(self.names) > (1 if self.apart else 0)

    def value_of(self, option: str) -> str:
        """The next word, as an option's value."""
        if not self.rest or self.rest[0].startswith("-"):
            raise NotACommand(f"behind {option} stands its value: {VALUES[option]}")
        return self.rest.pop(0)


def read_rows(name: str, words: List[str], options: Sequence[str]) -> Command:
    """A command that takes the rows of sources."""
    reader = Reader(words, options, apart=True)
    reader.read()
    if "--start" in reader.options and "--resume" in reader.options:
        raise NotACommand("--start and --resume stand in one command: a saved state tells from when time counts")
    if not reader.names:
        raise NotACommand("the names of a specification and of a source file are missing")
    if len(reader.names) == 1:
        raise NotACommand(f"behind the specification '{reader.names[0]}' the name of a source file is missing")
    if len(reader.names) > 1 + MOST_SOURCES:
        raise NotACommand(f"these are {len(reader.names) - 1} sources, and {MOST_SOURCES} at most can be read")
    return Command(name, reader.options, reader.names[0], reader.names[1:])


def read_run(words: List[str]) -> Command:
    return read_rows("run", words, (*VALUES, FLAG))


def read_snapshot(words: List[str]) -> Command:
    return read_rows("snapshot", words, ("--start", "--resume"))


def read_analyse(words: List[str]) -> Command:
    reader = Reader(words)
    reader.read()
    if not reader.names:
        raise NotACommand("the name of a specification is missing")
    if len(reader.names) > 1:
        raise NotACommand(f"'analyse' reads one specification and no sources, so '{reader.names[1]}' is too much")
    return Command("analyse", {}, reader.names[0], [])


def read_drill(words: List[str]) -> Command:
    reader = Reader(words)
    reader.read()
    if len(reader.names) != 3:
        raise NotACommand("behind 'drill' stand three numbers: NUMBER ROWS WORKERS")
    number, rows, workers = reader.names
    if not is_number(number, 10, 0, MOST_SEED):
        raise NotACommand(f"NUMBER is a number from 0 to {MOST_SEED}, and not '{number}'")
    if not is_number(rows, 7, 1, MOST_ROWS):
        raise NotACommand(f"ROWS is a number from 1 to {MOST_ROWS}, and not '{rows}'")
    if not is_number(workers, 2, 1, 64):
        raise NotACommand(f"WORKERS is a number from 1 to 64, and not '{workers}'")
    return Command("drill", {}, "", [])


def read_replay(words: List[str]) -> Command:
    reader = Reader(words, ("--show", "--start"))
    reader.read()
    if len(reader.names) != 3:
        raise NotACommand("behind 'replay' stand three names: a specification, and what a run of it wrote, its trace and its verdicts")
    return Command("replay", reader.options, reader.names[0], reader.names[1:])


def read_command(words: List[str]) -> Command:
    """The command that the words are."""
    if not words:
        raise NotACommand("no command was given")
    readers = {"run": read_run, "analyse": read_analyse, "drill": read_drill, "replay": read_replay, "snapshot": read_snapshot}
    if words[0] not in readers:
        raise NotACommand(f"there is no command '{words[0]}'; there are run, analyse, drill, replay and snapshot")
    return readers[words[0]](words[1:])


def asks_for_help(words: List[str]) -> bool:
    return bool(words) and words[0] in ("--help", "-h", "help", "--version")
