"""Writes a source anew: it is read first to find scales, thousands points and the unit of the times, and then to write."""
from __future__ import annotations

import heapq
import io
import os
import stat
import tempfile
from contextlib import ExitStack
from functools import partial
from itertools import islice
from operator import itemgetter
from typing import IO, Iterable, Iterator, List, NamedTuple

from commands.command import say
from commands.failures import reason
from commands.progress import Progress
from explaining.places import shown_name
from findings.finding import counted
from mending.mender import TOOL, Asked, CannotMend, Mender, Row
from sources.lines import Kind, Requests, open_source
from sources.reading import Source
from specifications.specification import Specification

SOME_LOST = 1
BLOCK = 1 << 16
SORTED_AT_ONCE = 200_000  # rows that are in order in memory; those of a longer source are merged from files


class Readable(NamedTuple):
    """A source that was looked through, and its file, which can be read again and has no CR alone."""

    source: Source
    file: IO[bytes]


def copied(file: IO[bytes], files: ExitStack) -> IO[bytes]:
    """A copy in a temporary file, each line of which ends with LF."""
    copy = files.enter_context(tempfile.TemporaryFile())
    progress = Progress(TOOL, "making a copy")
    for block in iter(partial(io.TextIOWrapper(file, encoding="latin-1", newline=None).read, BLOCK), ""):
        copy.write(block.encode("latin-1"))
        progress.add(block.count("\n"))
    return copy


def looked_through(name: str, specification: Specification, requests: Requests, file: IO[bytes]) -> Source:
    """The source, after its file was read from its beginning to its end."""
    file.seek(0)
    source = Source(TOOL, name, specification.inputs, requests)
    for _ in source.times_in(file):
        pass
    return source


def has_bare_cr(source: Source) -> bool:
    """Whether lines may end with CR alone, so that those of the file are none."""
    if source.end and source.end.row == 0 and source.end.kind in (Kind.BARE_CR, Kind.ROW_TOO_LONG):
        return True
    return f"kind {Kind.BARE_CR:d}" in source.problems


def readable(name: str, specification: Specification, requests: Requests, files: ExitStack) -> Readable:
    """A source in a file that can be read again.

    Where the numbers of a column show that they have thousands points, it is looked through again without these.
    """
    try:
        file: IO[bytes] = files.enter_context(open_source(name))
        if not stat.S_ISREG(os.fstat(file.fileno()).st_mode):
            file = copied(file, files)
        source = looked_through(name, specification, requests, file)
        if has_bare_cr(source):
            file.seek(0)
            file = copied(file, files)
            source = looked_through(name, specification, requests, file)
        grouped = [column.name for column in source.columns if column.with_thousands()]
        if not set(grouped) <= set(requests.thousands):
            source = looked_through(name, specification, requests._replace(thousands=[*requests.thousands, *grouped]), file)
    except (OSError, ValueError) as failure:
        raise CannotMend(f"{shown_name(name)} cannot be read: {reason(failure)}") from None
    if source.failure:
        raise CannotMend(f"{shown_name(name)} cannot be read: {source.failure}")
    return Readable(source, file)


def in_order(rows: Iterator[Row], files: ExitStack) -> Iterator[Row]:
    """The rows in order of time, those of equal times as they came. Of many, pieces in order lie in temporary files."""
    pieces: List[Iterable[Row]] = []
    while True:
        piece = sorted(islice(rows, SORTED_AT_ONCE), key=itemgetter(0))
        if len(piece) < SORTED_AT_ONCE:
            return iter(heapq.merge(*pieces, piece, key=itemgetter(0)))
        file = files.enter_context(tempfile.TemporaryFile())
        file.writelines(b"%d %s\n" % row for row in piece)
        file.seek(0)
        pieces.append((int(time), line) for time, _, line in (row[:-1].partition(b" ") for row in file))


def told_of(rows: Iterator[Row], progress: Progress) -> Iterator[Row]:
    """The rows, of whose number is told where they take long."""
    for row in rows:
        progress.add(1)
        yield row


def check_out(out: str, kept: Iterable[str]) -> None:
    """Sees to it that none of the files that are read is written over."""
    for name in kept:
        if os.path.isfile(out) and os.path.exists(name) and os.path.samefile(out, name):
            raise CannotMend(f"{shown_name(out)} would be written over {shown_name(name)}, which is read")


def mend(specification: Specification, asked: Asked) -> int:
    """Writes the source anew. 0 where all was kept, 1 where something was lost."""
    check_out(asked.out, (asked.source, specification.name))
    with ExitStack() as files:
        source, file = readable(asked.source, specification, Requests(dict(asked.rename), asked.thousands), files)
        mender = Mender(source, asked)
        mender.tell(source, specification)
        out = files.enter_context(os.fdopen(os.dup(1), "wb") if asked.out == "-" else open(asked.out, "wb"))
        file.seek(0)
        rows = mender.mended(file, asked.source)
        if asked.sort:
            rows = told_of(in_order(rows, files), Progress(TOOL, "writing rows in order"))
        out.write(mender.head.encode() + b"\n")
        out.writelines(line + b"\n" for _, line in rows)
    mender.tell_counts()
    order = ", in order of time" if asked.sort else ""
    say(TOOL, f"{counted(mender.rows, 'row')} of {source.rows:,} written to {shown_name(asked.out)}{order}")
    return SOME_LOST if mender.lost else 0
