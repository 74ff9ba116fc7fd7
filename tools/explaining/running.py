"""Runs the program with the caller's words and streams and passes on what it writes, byte for byte, as it comes.

The program writes into pipes, so that its lines can be looked at as they pass. Where both of its streams go to one
place they share one pipe, and so their lines keep their order.
"""
from __future__ import annotations

import os
import resource
import select
import signal
import threading
from typing import Callable, Dict, Iterable, List, NoReturn, Set, Tuple

from explaining.outcome import ERRORS, OUTPUT, Outcome
from explaining.watching import Lines, Watch

BLOCK = 65536
WRITE_FAILED = 7  # the program's status where a write failed
PASSED_ON = (signal.SIGINT, signal.SIGTERM, signal.SIGHUP, signal.SIGQUIT)


def is_open(stream: int) -> bool:
    """Whether the caller handed in this stream."""
    try:
        os.fstat(stream)
    except OSError:
        return False
    return True


def go_to_one_place(first: int, second: int) -> bool:
    """Whether two streams are one terminal, file or pipe."""
    one, other = os.fstat(first), os.fstat(second)
    return (one.st_dev, one.st_ino, one.st_rdev) == (other.st_dev, other.st_ino, other.st_rdev)


def write_whole(stream: int, block: bytes) -> None:
    """Writes all of the block, and waits where the stream is one that does not wait by itself."""
    rest = memoryview(block)
    while rest:
        try:
            rest = rest[os.write(stream, rest):]
        except BlockingIOError:
            select.select([], [stream], [])


def pass_on(pipe: int, stream: int, look: Callable[[bytes], None], failures: Dict[int, OSError]) -> None:
    """Passes on what comes from the pipe until it ends.

    Where the stream takes no more the pipe is closed, so that the program meets that too.
    """
    while True:
        block = os.read(pipe, BLOCK)
        if not block:
            break
        try:
            write_whole(stream, block)
        except OSError as failure:
            failures[stream] = failure
            break
        look(block)
    os.close(pipe)


def end_by(number: int) -> NoReturn:
    """Ends this process by the signal by which the program ended, without a core dump of its own."""
    resource.setrlimit(resource.RLIMIT_CORE, (0, 0))
    if number != signal.SIGKILL:
        signal.signal(number, signal.SIG_DFL)
    os.kill(os.getpid(), number)
    os._exit(128 + number)


class Run:
    """One run of the program, from its start to the end of all that it wrote."""

    def __init__(self) -> None:
        self.failures: Dict[int, OSError] = {}
        self.watch = Watch()
        self.lines: Dict[int, Lines] = {}  # by stream

    def passing(self, pipe: int, streams: List[int]) -> threading.Thread:
        """A thread that passes on what comes from the pipe to these streams, which go to one place."""
        lines = Lines(self.watch)
        for stream in streams:
            self.lines[stream] = lines
        return threading.Thread(target=pass_on, args=(pipe, streams[0], lines.look, self.failures), daemon=True)

    def start(self, program: str, words: List[str], mask: Set[int]) -> Tuple[int, List[threading.Thread]]:
        """Starts the program, with this mask of signals, and a thread for each pipe."""
        together = [[OUTPUT, ERRORS]] if go_to_one_place(OUTPUT, ERRORS) else [[OUTPUT], [ERRORS]]
        pipes = [os.pipe() for _ in together]
        actions = [(os.POSIX_SPAWN_DUP2, writing, stream)
                   for (_, writing), streams in zip(pipes, together) for stream in streams]
        child = os.posix_spawn(program, [program, *words], os.environ, file_actions=actions, setsigmask=mask,
                               setsigdef=[signal.SIGPIPE, signal.SIGXFSZ])
        for _, writing in pipes:
            os.close(writing)
        threads = [self.passing(reading, streams) for (reading, _), streams in zip(pipes, together)]
        for thread in threads:
            thread.start()
        return child, threads

    def outcome(self, ended: int, threads: List[threading.Thread]) -> Outcome:
        """How the program ended, once all that it wrote has been passed on."""
        for thread in threads:
            thread.join()
        in_a_line = bool(self.lines[ERRORS].begun)
        if os.WIFSIGNALED(ended):
            return Outcome(None, os.WTERMSIG(ended), self.watch, self.failures, in_a_line)
        status = WRITE_FAILED if self.failures else os.WEXITSTATUS(ended)
        return Outcome(status, None, self.watch, self.failures, in_a_line)


def wait(child: int, signals: Iterable[int]) -> int:
    """Waits for the end of the program. Signals, which are blocked so that none is missed, are passed on to it."""
    while True:
        number = signal.sigwait(signals)
        if number != signal.SIGCHLD:
            os.kill(child, number)
            continue
        found, ended = os.waitpid(child, os.WNOHANG)
        if found:
            return ended


def run(program: str, words: List[str]) -> Outcome:
    """Runs the program to its end. What would end this process before ends the program, and then this process."""
    signal.signal(signal.SIGCHLD, signal.SIG_DFL)
    signals = {number for number in PASSED_ON if signal.getsignal(number) != signal.SIG_IGN} | {signal.SIGCHLD}
    mask = signal.pthread_sigmask(signal.SIG_BLOCK, signals)
    this = Run()
    child, threads = this.start(program, words, mask)
    ended = wait(child, signals)
    for number in signals:
        signal.signal(number, signal.SIG_DFL)
    signal.pthread_sigmask(signal.SIG_SETMASK, mask)
    return this.outcome(ended, threads)
