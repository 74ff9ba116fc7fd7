"""Runs of ./lolamon, and what has to come of them."""
from __future__ import annotations

import os
import subprocess
from typing import Any, NamedTuple

from terminal_parts.harness import LOLAMON, LONGEST_RUN, Checks, write

SHOWN = 2000  # characters of what is told of a failed check


class Came(NamedTuple):
    """How a run ended (below 0: by a signal), and what it wrote."""

    status: int
    out: bytes
    trace: bytes


def run(*words: str, **streams: Any) -> Came:
    """Runs ./lolamon with standard output and standard error read, where no others are given."""
    for name, stream in (("stdin", subprocess.DEVNULL), ("stdout", subprocess.PIPE), ("stderr", subprocess.PIPE)):
        if name != "stdin" or "input" not in streams:
            streams.setdefault(name, stream)
    ended = subprocess.run([LOLAMON, *words], timeout=LONGEST_RUN, check=False, **streams)
    return Came(ended.returncode, ended.stdout or b"", ended.stderr or b"")


def expect(checks: Checks, what: str, came: Came, status: int, out: str | bytes, trace: str | bytes = b"") -> None:
    """The run ended with this status, and wrote just this."""
    texts = [text.encode() if isinstance(text, str) else text for text in (out, trace)]
    expected = Came(status, *texts)
    checks.note(came == expected, what, repr(expected)[:SHOWN], repr(came)[:SHOWN])


def expect_refused(checks: Checks, what: str, text: str | bytes, code: str, place: int) -> None:
    """The specification is refused, with this code and name at this place."""
    expect(checks, what, run("analyse", write("refused.lola", text)), 3, f"= refused {code} at {place}\n")


def expect_streams(checks: Checks, what: str, text: str | bytes, streams: int) -> None:
    """The specification is accepted, with so many streams and no window."""
    came = run("analyse", write("accepted.lola", text))
    end = b"= done streams %d windows 0\n" % streams
    holds = came.status == 0 and came.out.endswith(end) and came.out.count(b"\n") == streams + 1
    checks.note(holds, what, repr(end), repr(came)[:SHOWN])


def expect_malformed(checks: Checks, what: str, content: bytes, row: int, kind: str, trace: bytes = b"", spec: str = "") -> None:
    """The source is malformed at this row; the rows before it have this trace."""
    words = ["run", write("malformed.lola", spec or "input a: Int64\n"), write("malformed.csv", content)]
    expect(checks, what, run(*words), 4, f"= malformed source 0 row {row} kind {kind}\n", trace)


def expect_rows(checks: Checks, what: str, content: bytes, trace: bytes, spec: str = "") -> None:
    """The rows of the source are accepted and have this trace, with and without `--in-turns`; no line is written of them."""
    words = ["run", write("good.lola", spec or "input a: Int64\n"), write("good.csv", content)]
    count = trace.count(b"\n")
    for way in ([], ["--in-turns"]):
        expect(checks, f"{what} {way}", run(*words, *way), 0, f"= done accepted {count} late 0 steps {count} lines 0\n", trace)


def remove(name: str) -> str:
    """The name of a file that is not there."""
    if os.path.exists(name):
        os.remove(name)
    return name
