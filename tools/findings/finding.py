"""A finding: a level, a place, a message, and where there is one the line as it is and as it is to be."""
from __future__ import annotations

from typing import List, NamedTuple

from commands.command import write
from explaining.messages import read_messages
from explaining.places import shown, shown_name
from specifications.specification import Refusal

ERROR, WARNING, NOTE = LEVELS = ("error", "warning", "note")
STATUSES = {NOTE: 0, WARNING: 1, ERROR: 2}
WRONG_WORDS = 3  # the status for them, since 2 is that of errors
WIDTH = 100  # characters of a line that are shown


class Finding(NamedTuple):
    level: str
    name: str  # of the specification or source
    number: int  # of the line, or 0
    message: str
    line: str = ""
    better: str = ""

    def text(self) -> str:
        told = f"{shown_name(self.name)}{f':{self.number}' if self.number else ''}: {self.level}: {self.message}"
        for what, line in (("is:", self.line), ("to be:", self.better)):
            if line:
                told += f"\n    {what:6} {cut(line)}"
        return told


def cut(line: str) -> str:
    line = shown(line.encode("utf-8", "surrogateescape"))
    return line if len(line) <= WIDTH else line[:WIDTH] + "..."


def counted(count: int, what: str) -> str:
    return f"{count:,} {what}" + ("" if count == 1 else "s")


def refused(name: str, refusal: Refusal) -> Finding:
    """The finding that a specification is not accepted."""
    meaning = read_messages().get(refusal.code)
    message = f"{refusal}: {meaning.sentence}" if meaning else str(refusal)
    place = refusal.place
    if place is None:
        return Finding(ERROR, name, 0, message)
    return Finding(ERROR, name, place.line, message, place.before + place.behind)


def tell(teller: str, findings: List[Finding]) -> int:
    """Writes findings and how many there are of each level, and gives the status that the worst one has."""
    counts = {level: sum(finding.level == level for finding in findings) for level in LEVELS}
    told = [finding.text() for finding in findings]
    told.append(f"{teller}: " + ", ".join(counted(count, level) for level, count in counts.items()))
    write("\n".join(told) + "\n")
    return max((STATUSES[finding.level] for finding in findings), default=0)
