"""Runs tools whose modules are loaded already, so that a thousand runs take seconds.

Such a run has its own words, streams, variables and folder, and ends with a status or by a signal, as one that a shell starts. Mostly it takes
place in this process, whose streams are its own meanwhile; where that could end this process too, in one that is forked off.
"""
from __future__ import annotations

import importlib
import io
import os
import signal
import sys
import threading
import traceback
from types import CodeType, FrameType
from typing import Callable, Dict, List, NamedTuple, NoReturn, Optional

from tool_parts.calling import Tool

LONGEST = 10  # seconds that a run may take
FILE, FULL, NOBODY = "a file", "a full device", "a pipe that nobody reads"  # where standard output goes
FORKING = ("explain",)  # tools that start threads and handle signals
end_process = os._exit


class Given(NamedTuple):
    """What a tool is given: words, what stands on standard input, where standard output goes and in which encoding, and variables."""

    words: List[str]
    handed: bytes = b""
    output: str = FILE
    encoding: str = "utf-8"
    variables: Dict[str, str] = {}


class Ended(NamedTuple):
    """How a run ended (below 0: by a signal), and what it wrote. One that took too long has ended by SIGALRM."""

    status: int
    output: bytes
    errors: bytes


class Loaded(NamedTuple):
    """A program that has been read, and whose modules are there."""

    name: str
    path: str
    code: CodeType
    manual: str


class TookTooLong(BaseException):
    """A run has had all of its time."""


def load(name: str) -> Loaded:
    tool = Tool(name)
    if name in FORKING:
        importlib.import_module("explaining.telling")  # which it does only when it needs it
    with open(tool.path, encoding="utf-8") as file:
        code = compile(file.read(), tool.path, "exec", dont_inherit=True)
    return Loaded(name, tool.path, code, tool.module.__doc__ or "")


def content(path: str) -> bytes:
    with open(path, "rb") as file:
        return file.read()


def open_streams(given: Given) -> List[int]:
    """Three streams for a run. Those that are files lie in the parent of this folder."""
    flags = os.O_RDWR | os.O_CREAT | os.O_TRUNC
    with open("../input", "wb") as file:
        file.write(given.handed)
    if given.output == NOBODY:
        reading, output = os.pipe()
        os.close(reading)
    else:
        output = os.open("/dev/full", os.O_WRONLY) if given.output == FULL else os.open("../output", flags, 0o600)
    return [os.open("../input", os.O_RDONLY), output, os.open("../errors", flags, 0o600)]


def run(loaded: Loaded, given: Given) -> Ended:
    """Runs a tool in this folder, which is one that nobody else needs."""
    runs = forked if given.output != FILE or loaded.name in FORKING else within
    status = runs(loaded, given, open_streams(given))
    return Ended(status, content("../output") if given.output == FILE else b"", content("../errors"))


def forked(loaded: Loaded, given: Given, streams: List[int]) -> int:
    """Runs a tool in a process of its own, which is ended by SIGALRM where it takes too long, and whatever it started with it."""
    child = os.fork()
    if child == 0:
        try:
            os.setpgid(0, 0)
            signal.signal(signal.SIGALRM, signal.SIG_DFL)
            signal.alarm(LONGEST)
            take_streams(streams, given.encoding)
            end_process(lived(loaded, given))
        finally:
            end_process(71)
    for stream in streams:
        os.close(stream)
    status = os.waitstatus_to_exitcode(os.waitpid(child, 0)[1])
    try:
        os.killpg(child, signal.SIGKILL)
    except ProcessLookupError:
        pass
    return status


def within(loaded: Loaded, given: Given, streams: List[int]) -> int:
    """Runs a tool in this process."""
    def tell(number: int, frame: Optional[FrameType]) -> NoReturn:
        raise TookTooLong

    kept = [os.dup(number) for number in range(3)]
    objects = sys.stdin, sys.stdout, sys.stderr
    handlers = {number: signal.getsignal(number) for number in (signal.SIGPIPE, signal.SIGINT, signal.SIGALRM)}
    variables = dict(os.environ)
    folder = os.getcwd()
    signal.signal(signal.SIGALRM, tell)
    signal.alarm(LONGEST)
    try:
        take_streams(streams, given.encoding)
        return lived(loaded, given)
    except TookTooLong:
        return -signal.SIGALRM
    finally:
        signal.alarm(0)
        for number, handler in handlers.items():
            signal.signal(number, handler)
        sys.stdin, sys.stdout, sys.stderr = objects
        for number, stream in enumerate(kept):
            os.dup2(stream, number)
            os.close(stream)
        os.environ.clear()
        os.environ.update(variables)
        os.chdir(folder)


def take_streams(streams: List[int], encoding: str) -> None:
    """Makes these streams those of this process, as Python has them when it starts."""
    for number, stream in enumerate(streams):
        os.dup2(stream, number)
        os.close(stream)
    sys.stdin = io.TextIOWrapper(io.BufferedReader(io.FileIO(0, closefd=False)), encoding="utf-8", errors="surrogateescape")
    sys.stdout = io.TextIOWrapper(io.BufferedWriter(io.FileIO(1, "w", closefd=False)), encoding=encoding)
    sys.stderr = io.TextIOWrapper(io.BufferedWriter(io.FileIO(2, "w", closefd=False)), encoding=encoding, errors="backslashreplace",
                                  line_buffering=True)


def lived(loaded: Loaded, given: Given) -> int:
    """The status with which a run ends. What would end the process or put another program in its place is done within it."""
    others: Dict[str, Callable[..., NoReturn]] = {"_exit": sys.exit, "execv": become}
    right = {name: getattr(os, name) for name in others}
    os.environ.update(given.variables)
    for name, other in others.items():
        setattr(os, name, other)
    try:
        return flushed(status_of(loaded, given.words))
    finally:
        for name, function in right.items():
            setattr(os, name, function)


def become(path: str, words: List[str]) -> NoReturn:
    """Takes the place of os.execv where one tool becomes another."""
    sys.exit(status_of(load(os.path.basename(words[1])), words[2:]))


def status_of(loaded: Loaded, words: List[str]) -> int:
    """The status with which Python ends behind a program: 1 where an exception comes out of it, with a traceback."""
    sys.argv = [loaded.path, *words]
    try:
        exec(loaded.code, {"__name__": "__main__", "__file__": loaded.path})
        status = 0
    except SystemExit as end:
        status = end.code & 255 if isinstance(end.code, int) else 1
    except TookTooLong:
        raise
    except BaseException:
        traceback.print_exc()
        status = 1
    for thread in threading.enumerate():
        if thread is not threading.current_thread() and not thread.daemon:
            thread.join()
    return status


def flushed(status: int) -> int:
    """Writes what is left to be written, as Python does when it ends: where that fails it tells so, with the status 120."""
    try:
        sys.stdout.flush()
    except Exception as failure:
        print(f"Exception ignored in: standard output: {failure!r}", file=sys.stderr)
        return 120
    return status
