"""Which logs a batch has."""
from __future__ import annotations

import os
from typing import Callable, Iterable, Iterator, List, NamedTuple, Set

from commands.failures import WrongWords
from explaining.places import shown_name

MOST_FILES = 64


class Log(NamedTuple):
    """A log: what it is called, and the files that are its sources."""

    name: str
    files: List[str]


def csv_files(folder: str) -> List[str]:
    try:
        names = sorted(os.listdir(folder))
    except OSError as failure:
        raise WrongWords(f"the folder {shown_name(folder)} cannot be read: {failure.strerror}") from None
    found = [os.path.join(folder, name) for name in names if name.lower().endswith(".csv")]
    found = [name for name in found if os.path.isfile(name)]
    if not found:
        raise WrongWords(f"the folder {shown_name(folder)} has no file NAME.csv")
    return found


def each_file(folder: str) -> List[Log]:
    """Each file of a folder as a log of its own."""
    return [Log(file, [file]) for file in csv_files(folder)]


def joined(folder: str) -> List[Log]:
    """All files of a folder as one log."""
    files = csv_files(folder)
    if len(files) > MOST_FILES:
        raise WrongWords(f"the folder {shown_name(folder)} has {len(files)} files, and {MOST_FILES} at most make one log")
    return [Log(folder.rstrip("/") or folder, files)]


def words_and_lines(words: Iterable[str], lines: Iterable[bytes]) -> Iterator[str]:
    """The names that stand on the command line, and where the word `-` stands those on standard input."""
    for word in words:
        if word == "-":
            yield from (os.fsdecode(line.rstrip(b"\r\n")) for line in lines if line.strip())
        else:
            yield word


def find_logs(words: Iterable[str], lines: Iterable[bytes], logs_of_folder: Callable[[str], List[Log]]) -> List[Log]:
    """The logs of a batch in their order."""
    found: List[Log] = []
    seen: Set[str] = set()
    for word in words_and_lines(words, lines):
        if "\0" in word or not word:
            raise WrongWords("a log has no name, or one with a zero byte")
        for log in logs_of_folder(word) if os.path.isdir(word) else [Log(word, [word])]:
            path = os.path.abspath(log.name)
            if path in seen:
                raise WrongWords(f"the log {shown_name(log.name)} stands twice")
            seen.add(path)
            found.append(log)
    return found
