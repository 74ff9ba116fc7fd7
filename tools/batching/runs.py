"""Runs lolamon over one log, and keeps of all that it writes what a line of the batch tells."""
from __future__ import annotations

import json
import os
import re
import selectors
import subprocess
import time
from typing import BinaryIO, Dict, List, NamedTuple, Optional

from batches.logs import Log
from batches.plan import Plan, origin_of
from batches.results import RESULT, TRACE, VERDICTS, Found, Kept, Result, fields_of, folder_of
from explaining.watching import Lines, Watch

BLOCK = 65536
VERDICT = re.compile(rb'^(\d+\.\d{9}) (trigger_\d+) "(.*)"$', re.MULTILINE)
LASTING = (0, 4, 5)  # the statuses that another run over the same files would give again


class Verdicts(Watch):
    """Looks at verdict lines and counts the triggers that were true."""

    def __init__(self) -> None:
        super().__init__()
        self.triggers: Dict[str, Found] = {}

    def see(self, lines: bytes) -> None:
        super().see(lines)
        for moment, name, message in VERDICT.findall(lines):
            self.count(name.decode(), moment, message)

    def count(self, name: str, moment: bytes, message: bytes) -> None:
        before = self.triggers.get(name)
        if before:
            self.triggers[name] = before._replace(often=before.often + 1)
        else:
            self.triggers[name] = Found(1, moment.decode(), message.decode("utf-8", "replace"))


class Trace(Watch):
    """Looks at trace lines and counts the rows."""

    def __init__(self) -> None:
        super().__init__()
        self.rows = 0

    def see(self, lines: bytes) -> None:
        super().see(lines)
        self.rows += lines.count(b"\n")


class Stream(NamedTuple):
    """One stream of a run: where its lines are looked at, and the file that gets them too."""

    lines: Lines
    file: Optional[BinaryIO]

    def take(self, block: bytes) -> None:
        self.lines.look(block)
        if self.file:
            self.file.write(block)


def follow(streams: Dict[int, Stream]) -> None:
    """Reads the pipes of a run to their ends."""
    with selectors.DefaultSelector() as selector:
        for pipe in streams:
            selector.register(pipe, selectors.EVENT_READ)
        while selector.get_map():
            for key, _ in selector.select():
                block = os.read(key.fd, BLOCK)
                if block:
                    streams[key.fd].take(block)
                else:
                    selector.unregister(key.fd)


def run_log(command: List[str], log: str, verdicts: Optional[BinaryIO], trace: Optional[BinaryIO]) -> Result:
    """Runs the command to its end. Where files are given they get what it writes."""
    seen, rows = Verdicts(), Trace()
    with subprocess.Popen(command, stdin=subprocess.DEVNULL, stdout=subprocess.PIPE, stderr=subprocess.PIPE) as process:
        assert process.stdout and process.stderr
        try:
            follow({process.stdout.fileno(): Stream(Lines(seen), verdicts),
                    process.stderr.fileno(): Stream(Lines(rows), trace)})
        except BaseException:
            process.kill()
            raise
    late = sum(rows.late.values())
    end = seen.end_line[2:].decode("utf-8", "replace")
    return Result(log, process.returncode, end, rows.rows - late, late, seen.triggers)


def keep(path: str, kept: Kept, began: int) -> None:
    """Writes what is kept of a log. It counts as written when the run began, so that what changed meanwhile is newer."""
    unfinished = f"{path}.unfinished"
    with open(unfinished, "w", encoding="utf-8") as file:
        json.dump(fields_of(kept), file)
    os.utime(unfinished, ns=(began, began))
    os.rename(unfinished, path)


def run_in_folder(plan: Plan, log: Log, folder: str) -> Result:
    """Runs a log, whose folder gets the verdicts and the trace, and last the result."""
    os.makedirs(folder, exist_ok=True)
    path = os.path.join(folder, RESULT)
    if os.path.lexists(path):
        os.remove(path)
    began = time.time_ns()
    with open(os.path.join(folder, VERDICTS), "wb") as verdicts, open(os.path.join(folder, TRACE), "wb") as trace:
        result = run_log(plan.words(log), log.name, verdicts, trace)
    if result.status in LASTING:
        keep(path, Kept(origin_of(plan, log), plan.trigger_names, result), began)
    return result


def run_and_keep(plan: Plan, log: Log) -> Result:
    """Runs a log, and keeps what it writes where that is wanted."""
    if plan.folder is None:
        return run_log(plan.words(log), log.name, None, None)
    return run_in_folder(plan, log, folder_of(plan.folder, log.name))
