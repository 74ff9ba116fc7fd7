"""The folder of a batch's results: for each log its verdicts, its trace and its result, and a table of all."""
from __future__ import annotations

import csv
import json
import os
from typing import Any, Dict, List, NamedTuple, Optional

from batches.logs import Log
from commands.failures import WrongWords
from explaining.places import shown_name

RESULT = "result.json"
VERDICTS = "verdicts.txt"
TRACE = "trace.txt"
SUMMARY = "summary.csv"
ALL = "logs.txt"
LEFT = "left.txt"
NAMED = {0: "done", 4: "malformed", 5: "fault", 6: "unreadable"}


class Found(NamedTuple):
    """How often a trigger was true in a log, when first, and its message as the verdict line spells it."""

    often: int
    first: str
    message: str


class Result(NamedTuple):
    """What came of a log. A status below 0 is a signal; the end is the end line without its mark."""

    log: str
    status: int
    end: str
    accepted: int
    late: int
    triggers: Dict[str, Found]

    def kind(self) -> str:
        return NAMED.get(self.status, "other")

    def told_end(self) -> str:
        if self.status == 0:
            return "done"
        if self.status < 0:
            return f"ended by signal {-self.status}"
        return self.end or f"status {self.status}"


class Origin(NamedTuple):
    """What a result is a result of. Sizes tell apart files of one name that stood in different places."""

    log: str
    files: List[str]
    specification: str
    options: List[str]
    sizes: List[int]


class Kept(NamedTuple):
    """What is kept of a log: its result, what that came of, and the triggers that the specification has."""

    origin: Origin
    trigger_names: List[str]
    result: Result


def folder_of(results: str, name: str) -> str:
    """The folder of a log's results: its path below the results, with `up` for `..`."""
    parts = [part for part in os.path.normpath(name).split("/") if part not in ("", ".")]
    return os.path.join(results, *("up" if part == ".." else part for part in parts))


def check_folders(results: str, logs: List[Log]) -> None:
    """No two logs may have one folder, and none that would be a file of the results."""
    seen: Dict[str, str] = {}
    for log in logs:
        folder = folder_of(results, log.name)
        if folder in seen:
            raise WrongWords(f"the results of {shown_name(seen[folder])} and {shown_name(log.name)} would have one folder")
        if os.path.relpath(folder, results) in (SUMMARY, ALL, LEFT, "."):
            raise WrongWords(f"a log is called {shown_name(log.name)}, which is the name of a file of the results")
        if "\n" in log.name:
            raise WrongWords(f"the name {shown_name(log.name)} has a line feed")
        seen[folder] = log.name


def write_lines(path: str, lines: List[str]) -> None:
    with open(path, "w", encoding="utf-8", errors="surrogateescape") as file:
        file.writelines(line + "\n" for line in lines)


def read_result(folder: str) -> Optional[Kept]:
    """What is kept of a log, or nothing where that is no result."""
    try:
        with open(os.path.join(folder, RESULT), encoding="utf-8") as file:
            fields = json.load(file)
        os.fsencode(json.dumps(fields, ensure_ascii=False))  # what is no text and no name of a file cannot be told
        return kept_of(fields)
    except (OSError, ArithmeticError, ValueError, KeyError, TypeError, AttributeError, RecursionError):
        return None


def kept_of(fields: Dict[str, Any]) -> Kept:
    """What the fields of a file say. It may have been changed by anybody."""
    triggers = {str(name): Found(int(often), str(first), str(message)) for name, (often, first, message) in fields["triggers"].items()}
    result = Result(str(fields["log"]), int(fields["status"]), str(fields["end"]), int(fields["accepted"]), int(fields["late"]), triggers)
    trigger_names = [str(name) for name in fields.get("trigger_names") or []]
    return Kept(Origin._make(fields.get(name) for name in Origin._fields), trigger_names, result)


def fields_of(kept: Kept) -> Dict[str, Any]:
    """The fields of the file in which that is kept."""
    result = kept.result
    return {**kept.origin._asdict(), "trigger_names": kept.trigger_names, "status": result.status, "end": result.end,
            "accepted": result.accepted, "late": result.late, "triggers": {name: list(found) for name, found in result.triggers.items()}}


def write_summary(results: str, rows: List[Result], trigger_names: List[str]) -> None:
    """The table: a row a log, and two columns a trigger."""
    heading = ["log", "status", "end", "accepted", "late"]
    heading += [column for name in trigger_names for column in (name, f"{name}_first")]
    unfinished = os.path.join(results, f"{SUMMARY}.{os.getpid()}")
    with open(unfinished, "w", encoding="utf-8", errors="surrogateescape", newline="") as file:
        table = csv.writer(file, lineterminator="\n")
        table.writerow(heading)
        for result in rows:
            told: List[object] = [result.log, result.status, result.told_end(), result.accepted, result.late]
            for name in trigger_names:
                found = result.triggers.get(name)
                told += [found.often, found.first] if found else [0, ""]
            table.writerow(told)
    os.rename(unfinished, os.path.join(results, SUMMARY))
