"""Runs the program, and tells what it wrote and how it ended."""
from __future__ import annotations

import subprocess
from typing import List, NamedTuple, Sequence

from sources_parts.program import PROGRAM

LONGEST_RUN = 60.0  # seconds


class Ran(NamedTuple):
    """What a command wrote to standard output and to standard error, and its status."""

    out: bytes
    trace: bytes
    status: int


def ran(words: Sequence[str], handed: bytes = b"") -> Ran:
    done = subprocess.run([PROGRAM, *words], input=handed, capture_output=True, timeout=LONGEST_RUN)
    return Ran(done.stdout, done.stderr, done.returncode)


def lines_of(text: bytes) -> List[bytes]:
    return text.splitlines(keepends=True)


def joined_traces(traces: Sequence[bytes]) -> bytes:
    """The traces of parts as that of one run: rows of each source are numbered on."""
    numbers: dict[bytes, int] = {}
    lines = []
    for line in lines_of(b"".join(traces)):
        source, _, rest = line.split(b",", 2)
        numbers[source] = numbers.get(source, 0) + 1
        lines.append(b"%s,%d,%s" % (source, numbers[source], rest))
    return b"".join(lines)


def settled(verdicts: bytes, again: bytes) -> bytes:
    """The verdict lines of a part without those of the deadlines at its last stamp, which a run from the state behind it writes first. So
    many lines does such a run write over a heading alone; each of the two has an end line too."""
    lines = lines_of(verdicts)
    return b"".join(lines[:len(lines) - len(lines_of(again))])
