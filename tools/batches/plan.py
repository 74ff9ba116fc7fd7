"""What all runs of a batch have in common, and which results of earlier ones still hold."""
from __future__ import annotations

import os
import sys
from typing import List, NamedTuple, Optional, Sequence, Set

from batches import results
from batches.command import Refused
from batches.logs import Log, each_file, find_logs, joined
from batches.options import BatchAsked, options_of
from batches.results import RESULT, TRACE, VERDICTS, Origin, Result, folder_of, read_result
from commands.command import await_input
from commands.failures import WrongWords
from explaining.places import WORD, read_specification, shown_name
from explaining.program import analyse, files_of, find_program


class Plan(NamedTuple):
    """What every run of a batch has in common, and the files whose times decide whether a result still holds."""

    command: List[str]
    specification: str
    program_files: List[str]
    trigger_names: List[str]
    folder: Optional[str]

    def words(self, log: Log) -> List[str]:
        return [*self.command, "--", self.specification, *log.files]


class Batch(NamedTuple):
    """The logs of a batch, or of a part of one, and how they are run."""

    plan: Plan
    logs: List[Log]


class Triggers(NamedTuple):
    """The triggers of a specification by name, and all texts that stand in it, as verdict lines spell them."""

    names: List[str]
    texts: Set[str]


def triggers_of(specification: bytes) -> Triggers:
    words = [match.group() for match in WORD.finditer(specification)]
    count = sum(word == b"trigger" for word in words)
    texts = {word[1:-1].decode("utf-8", "replace") for word in words if word.startswith(b'"')}
    return Triggers([f"trigger_{number}" for number in range(1, count + 1)], texts)


def check_specification(path: str) -> None:
    """Has the specification analysed, so that one that is refused is told once."""
    done = analyse(path)
    if done.returncode != 0:
        raise Refused(path, done.stdout.decode("utf-8", "replace").rstrip("\n").rpartition("\n")[2], done.returncode)


def check_triggers(asked: Sequence[str], triggers: Triggers) -> None:
    for name in asked:
        if name != "any" and name not in triggers.names and name not in triggers.texts:
            raise WrongWords(f"--fail-on: the specification has no trigger '{shown_name(name)}', by name or message")


def plan_of(specification: str, asked: BatchAsked, fail_on: Sequence[str]) -> Plan:
    text = read_specification(specification)
    if text is None:
        raise WrongWords(f"the specification {shown_name(specification)} is no file that can be read")
    triggers = triggers_of(text)
    check_triggers(fail_on, triggers)
    program = find_program()
    check_specification(specification)
    return Plan([program, "run", *options_of(asked)], specification, files_of(program), triggers.names, asked.results)


def named_logs(tool: str, asked: BatchAsked) -> List[Log]:
    """The logs that were named."""
    names = asked.names[1:]
    if "-" in names:
        await_input(tool, "the names of logs")
    return find_logs(names, sys.stdin.buffer if sys.stdin else (), joined if asked.join else each_file)


def planned(logs: List[Log], asked: BatchAsked, fail_on: Sequence[str]) -> Batch:
    """How these logs are run. Where results are kept, their folder is made."""
    plan = plan_of(asked.names[0], asked, fail_on)
    if plan.folder is not None:
        results.check_folders(plan.folder, logs)
        os.makedirs(plan.folder, exist_ok=True)
    return Batch(plan, logs)


def prepare(tool: str, asked: BatchAsked, fail_on: Sequence[str] = ()) -> Batch:
    """What is to be run of a batch. Where results are kept, their folder has a list of the logs."""
    logs = named_logs(tool, asked)
    if not logs:
        raise WrongWords("there is no log")
    batch = planned(logs, asked, fail_on)
    if batch.plan.folder is not None:
        results.write_lines(os.path.join(batch.plan.folder, results.ALL), [log.name for log in logs])
    return batch


def prepare_part(tool: str, asked: BatchAsked, fail_on: Sequence[str]) -> Batch:
    """What is to be run of a part of a batch, which may have no log."""
    return planned(named_logs(tool, asked), asked, fail_on)


def origin_of(plan: Plan, log: Log) -> Origin:
    sizes = [os.stat(name).st_size if os.path.exists(name) else -1 for name in [plan.specification, *log.files]]
    return Origin(log.name, log.files, plan.specification, plan.command[1:], sizes)


def is_newest(plan: Plan, log: Log, folder: str) -> bool:
    """Whether the result is newer than all that decides it, and all else that a run writes is there."""
    try:
        began = os.stat(os.path.join(folder, RESULT)).st_mtime_ns
        read = [plan.specification, *log.files, *plan.program_files]
        is_whole = all(os.path.isfile(os.path.join(folder, name)) for name in (VERDICTS, TRACE))
        return is_whole and all(os.stat(name).st_mtime_ns < began for name in read)
    except OSError:
        return False


def kept_result(plan: Plan, log: Log) -> Optional[Result]:
    """The result of an earlier run, where it still holds."""
    if plan.folder is None:
        return None
    folder = folder_of(plan.folder, log.name)
    kept = read_result(folder)
    return kept.result if kept and kept.origin == origin_of(plan, log) and is_newest(plan, log, folder) else None
