"""Reads files and pipes line by line, as they come."""
from __future__ import annotations

import os
import stat
from contextlib import contextmanager
from typing import IO, Iterator, List

from commands.failures import Unfit, reason
from commands.progress import Progress

BLOCK = 1 << 18
LONGEST_LINE = 1 << 22  # more than any line of a run may have
STANDARD_INPUT = ("-", "/dev/stdin")


class Input:
    """What is read of a file or a pipe, from where it stands. The name is the one that a person is told."""

    def __init__(self, name: str, file: IO[bytes]) -> None:
        self.name = name
        self.file = file
        self.is_regular = stat.S_ISREG(os.fstat(file.fileno()).st_mode)
        self.begin = file.tell() if self.is_regular else 0

    def blocks(self) -> Iterator[bytes]:
        """What is there, as it comes."""
        while True:
            try:
                block = self.file.read(BLOCK)
            except OSError as failure:
                raise Unfit(f"{self.name} cannot be read: {reason(failure)}") from None
            if not block:
                return
            yield block

    def lines(self, progress: Progress) -> Iterator[List[str]]:
        """The lines, as many at a time as have come, without their line feeds. The last one may lack it."""
        begun = b""
        number = 0
        for block in self.blocks():
            whole, feed, rest = block.rpartition(b"\n")
            if not feed:
                begun += rest
            else:
                lines = self.decoded(begun + whole, number).split("\n")
                begun = rest
                number += len(lines)
                progress.add(len(lines))
                yield lines
            if len(begun) > LONGEST_LINE:
                raise Unfit(f"{self.name}, line {number + 1}: it has more than {LONGEST_LINE:,} bytes")
        if begun:
            yield [self.decoded(begun, number)]

    def decoded(self, lines: bytes, before: int) -> str:
        try:
            return lines.decode("utf-8")
        except UnicodeDecodeError as failure:
            line = before + lines.count(b"\n", 0, failure.start) + 1
            raise Unfit(f"{self.name}, line {line}: it is not UTF-8") from None

    def again(self) -> None:
        """Goes back to where the reading began. Only a regular file can be read again."""
        self.file.seek(self.begin)


@contextmanager
def opened(path: str) -> Iterator[Input]:
    """A file by its path; `-` is standard input."""
    is_standard = path in STANDARD_INPUT
    name = "standard input" if is_standard else path
    try:
        file = open(os.dup(0) if is_standard else path, "rb", buffering=0)
    except (OSError, ValueError) as failure:
        raise Unfit(f"{name} cannot be opened: {reason(failure)}") from None
    with file:
        yield Input(name, file)
