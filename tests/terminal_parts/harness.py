"""Runs commands under a pseudo-terminal and counts checks."""
from __future__ import annotations

import fcntl
import os
import pty
import select
import signal
import struct
import subprocess
import sys
import termios
import time
import traceback
from typing import Any, Callable, Dict, List, NamedTuple, Optional, Sequence

CHECKOUT = os.path.dirname(os.path.dirname(os.path.dirname(os.path.realpath(__file__))))
LOLAMON = os.path.join(CHECKOUT, "lolamon")
EXPLAIN = os.path.join(CHECKOUT, "tools", "explain")
LONGEST_RUN = 60.0  # seconds

SUM = 'input a: Int64\noutput b: Int64 := a + 1\ntrigger b > 2 "high"\n'


# A shell starts what it leaves in the background with SIGINT ignored, and whoever is started by that ignores it too. Programs that are tested
# have it as a shell's command has.
signal.signal(signal.SIGINT, signal.default_int_handler)


class Ended(NamedTuple):
    """How a command ended (below 0: by a signal), what stood on the terminal, and what its output was elsewhere."""

    status: int
    terminal: str
    output: bytes


class Checks:
    """Counts checks and tells of each that fails what was expected and what came."""

    def __init__(self) -> None:
        self.passed = 0
        self.failed = 0
        self.test = ""

    def run(self, name: str, test: Callable[[Checks], None]) -> None:
        self.test = name
        try:
            test(self)
        except Exception:
            self.note(False, "the test itself", "no exception", traceback.format_exc())

    def note(self, holds: bool, what: str, expected: object, came: object) -> None:
        if holds:
            self.passed += 1
        else:
            self.failed += 1
            print(f"{self.test}: {what}\n--- expected\n{expected}\n--- came\n{came}\n---", file=sys.stderr)

    def same(self, what: str, expected: object, came: object) -> None:
        self.note(expected == came, what, expected, came)

    def has(self, what: str, piece: str, text: str) -> None:
        """The text has the piece; blanks and line ends between words do not matter, since sentences are wrapped."""
        self.note(" ".join(piece.split()) in " ".join(text.split()), what, f"a text with: {piece}", text)

    def lacks(self, what: str, piece: str, text: str) -> None:
        self.note(piece not in text, what, f"a text without: {piece}", text)


def write(name: str, content: str | bytes) -> str:
    """Writes a file into the current folder."""
    with open(name, "wb") as file:
        file.write(content.encode() if isinstance(content, str) else content)
    return name


def stand_in(name: str, script: str) -> str:
    """Writes a program that stands in for lolamon."""
    write(name, f"#!/bin/sh\n{script}\n")
    os.chmod(name, 0o755)
    return os.path.abspath(name)


def environment(changes: Optional[Dict[str, str]]) -> Dict[str, str]:
    """The environment of a run: a plain terminal, and nothing that turns help off."""
    dropped = ("LOLAMON_PLAIN", "NO_COLOR", "PYTHONDONTWRITEBYTECODE")
    kept = {name: value for name, value in os.environ.items() if name not in dropped}
    return {**kept, "TERM": "dumb", **(changes or {})}


class Terminal:
    """A command with a pseudo-terminal as its standard error, and as its standard output where no other is given."""

    def __init__(self, command: Sequence[str], columns: int = 80, **streams: Any) -> None:
        self.master, slave = pty.openpty()
        fcntl.ioctl(slave, termios.TIOCSWINSZ, struct.pack("HHHH", 24, columns, 0, 0))
        modes = termios.tcgetattr(slave)
        modes[1] &= ~termios.OPOST  # a line feed stays one byte
        modes[3] &= ~termios.ECHO
        termios.tcsetattr(slave, termios.TCSANOW, modes)
        variables = environment(streams.pop("variables", None))
        streams.setdefault("stdin", subprocess.DEVNULL)
        streams.setdefault("stdout", slave)
        self.process = subprocess.Popen(command, stderr=slave, env=variables, start_new_session=True,
                                        preexec_fn=lambda: fcntl.ioctl(2, termios.TIOCSCTTY, 0), **streams)
        os.close(slave)
        self.text = b""

    def read(self, until: Optional[bytes] = None) -> bytes:
        """Reads what comes on the terminal, to its end or until something stands there."""
        limit = time.monotonic() + LONGEST_RUN
        while until is None or until not in self.text:
            if not select.select([self.master], [], [], max(0.0, limit - time.monotonic()))[0]:
                self.process.kill()
                raise TimeoutError(f"no end after {LONGEST_RUN} seconds; so far: {self.text[-1000:]!r}")
            try:
                piece = os.read(self.master, 65536)
            except OSError:  # the last one that had the terminal has closed it
                break
            if not piece:
                break
            self.text += piece
        return self.text

    def type(self, keys: bytes) -> None:
        os.write(self.master, keys)

    def end(self) -> Ended:
        text = self.read().decode("utf-8", "backslashreplace")
        status = self.process.wait(LONGEST_RUN)
        os.close(self.master)
        return Ended(status, text, b"")


def on_terminal(*words: str, **streams: Any) -> Ended:
    """Runs ./lolamon with standard output and standard error on one terminal."""
    return Terminal([LOLAMON, *words], **streams).end()


def explained(program: str, *words: str, **streams: Any) -> Ended:
    """Runs a program that stands in for lolamon under tools/explain, on one terminal."""
    return Terminal([EXPLAIN, program, *words], **streams).end()


def output_elsewhere(command: List[str], **streams: Any) -> Ended:
    """Runs a command whose standard output is a file and whose standard error is a terminal."""
    with open("standard_output", "w+b") as file:
        ended = Terminal(command, stdout=file, **streams).end()
        file.seek(0)
        return ended._replace(output=file.read())


def split(ended: Ended, own: str) -> str:
    """What stands on the terminal behind the program's own lines; these have to be there first."""
    if not ended.terminal.startswith(own):
        raise AssertionError(f"the terminal begins otherwise; expected\n{own}\ncame\n{ended.terminal}")
    return ended.terminal[len(own):]
