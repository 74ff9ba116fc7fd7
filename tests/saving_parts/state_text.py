"""Which bytes are a state text of a specification, and at which line others are damaged: written from the rules of docs/formats.md, and
apart from the program. What of a specification matters for that is told by a list of forms, one for each stream."""
from __future__ import annotations

import re
from functools import reduce
from typing import Any, List, Match, NamedTuple, Optional, Sequence, Set, Tuple

NUMBER = rb"(?:0|[1-9][0-9]*)"
INTEGER = rb"(?:0|-?[1-9][0-9]*)"
TIME = rb"(?:(?:0|[1-9][0-9]*)\.[0-9]{9}|-)"
TEXT = rb'(?:"(?:[^"\\\n\r\t]|\\["\\nrt])*")'
TRUTH = rb"(?:true|false)"
OTHER = "= state of another specification\n"
MOST_TIME = 4 * 10**18
MOST_STEPS = 2**62
MOST_INSTANCES = 65_536
PARTIALS = {"count": NUMBER, "sum": INTEGER, "min": rb"(?:-|" + INTEGER + rb")", "max": rb"(?:-|" + INTEGER + rb")",
            "avg": INTEGER + rb"/" + NUMBER, "forall": TRUTH, "exists": TRUTH}


class Window(NamedTuple):
    """A window onto a stream: its number among all, its aggregation, the length of a pane in nanoseconds, and how many are kept."""

    number: int
    how: str
    pane: int
    count: int


class Form(NamedTuple):
    """What of a stream its states depend on."""

    kind: str
    kept: int = 1
    windows: Tuple[Window, ...] = ()
    spawns: bool = False
    parameters: Tuple[str, ...] = ()


class Times(NamedTuple):
    start: Optional[int]
    last: Optional[int]
    steps: int


class Damaged(Exception):
    """The line that was taken last is damaged."""


def expect(holds: bool) -> None:
    if not holds:
        raise Damaged


class Lines:
    """Takes lines, each of a form, and counts them."""

    def __init__(self, text: bytes, number: int) -> None:
        self.rest = text
        self.number = number

    def take(self, form: bytes) -> Match[bytes]:
        self.number += 1
        line, feed, self.rest = self.rest.partition(b"\n")
        match = re.fullmatch(form, line)
        if match is None or not feed:
            raise Damaged
        return match


def bounds(kind: str) -> Tuple[int, int]:
    """The least and the greatest number of a kind."""
    bits = int(kind.lstrip("UInt"))
    return (0, 2**bits - 1) if kind.startswith("U") else (-(2 ** (bits - 1)), 2 ** (bits - 1) - 1)


def how_many_values(kind: str) -> int:
    """So many values a kind has; of texts it is more than there can be instances."""
    if kind == "String":
        return MOST_INSTANCES
    return 2 if kind == "Bool" else bounds(kind)[1] - bounds(kind)[0] + 1


def word_of(kind: str) -> bytes:
    return {"Bool": TRUTH, "String": TEXT}.get(kind, INTEGER)


def check_value(kind: str, word: bytes) -> None:
    """A word of a kind's form: a number is in the kind's range, and a text is UTF-8."""
    if kind == "String":
        expect(word.decode("utf-8", "ignore").encode() == word)
    elif kind != "Bool":
        least, greatest = bounds(kind)
        expect(least <= int(word) <= greatest)


def time_of(word: bytes) -> Optional[int]:
    if word == b"-":
        return None
    time = int(word.replace(b".", b""))
    expect(time <= MOST_TIME)
    return time


def words_behind(kinds: Sequence[str], many: bool = False) -> bytes:
    """A group of words, a blank before each: one of each kind, or any number of one kind."""
    return rb"((?: " + word_of(kinds[0]) + rb")*)" if many else rb"(" + b"".join(b" " + word_of(kind) for kind in kinds) + rb")"


def words_in(kind: str, text: bytes) -> List[bytes]:
    return re.findall(rb" (" + word_of(kind) + rb")", text)


def take_times(lines: Lines) -> Times:
    start = time_of(lines.take(rb"start (" + TIME + rb")")[1])
    last = time_of(lines.take(rb"last (" + TIME + rb")")[1])
    expect(last is None or (start is not None and start <= last))
    steps = int(lines.take(rb"steps (" + NUMBER + rb")")[1])
    expect(steps <= MOST_STEPS)
    return Times(start, last, steps)


def take_panes(lines: Lines, form: Form, window: Window, times: Times) -> None:
    partial = PARTIALS[window.how]
    match = lines.take(rb"panes %d (?:-|(%s)((?: %s)*))" % (window.number, NUMBER, partial))
    if match[1] is None:
        return
    last, partials = int(match[1]), match[2].split()
    expect(times.last is not None)
    expect(last * window.pane < (times.last or 0) - (times.start or 0) + window.pane)
    expect(len(partials) == min(last + 1, window.count))
    counted = total = 0
    for word in partials:
        if window.how in ("min", "max") and word != b"-":
            check_value(form.kind, word)
        elif window.how == "count":
            counted += int(word)
        elif window.how == "sum":
            total += abs(int(word))
        elif window.how == "avg":
            its_total, its_count = map(int, word.split(b"/"))
            least, greatest = bounds(form.kind)
            expect(its_count * least <= its_total <= its_count * greatest)
            counted, total = counted + its_count, total + abs(its_total)
    expect(counted <= times.steps and total <= times.steps * 2**64)


def take_instance(lines: Lines, form: Form, times: Times, low: Optional[int], seen: Set[bytes]) -> Optional[int]:
    """Takes an instance behind one that was born at `low`, and answers when it was born."""
    match = lines.take(rb"inst (" + TIME + rb")" + words_behind(form.parameters))
    born, parameters = time_of(match[1]), match[2]
    expect((born is not None) == form.spawns)
    expect(born is None or (low or 0) <= born <= (times.last or 0))
    pieces = re.fullmatch(b"".join(rb" (" + word_of(kind) + rb")" for kind in form.parameters), parameters)
    for kind, word in zip(form.parameters, pieces.groups() if pieces else ()):
        check_value(kind, word)
    expect(parameters not in seen)
    seen.add(parameters)
    values = words_in(form.kind, lines.take(rb"ring" + words_behind([form.kind], many=True))[1])
    expect(len(values) <= (0 if times.last is None else form.kept))
    for word in values:
        check_value(form.kind, word)
    for window in form.windows:
        take_panes(lines, form, window, times)
    return born


def take_stream(lines: Lines, number: int, form: Form, times: Times) -> None:
    count = int(lines.take(rb"stream %d (%s)" % (number, NUMBER))[1])
    many = reduce(lambda so_far, kind: min(MOST_INSTANCES, so_far * how_many_values(kind)), form.parameters, 1)
    expect(count <= (0 if times.last is None else many) if form.spawns else count == 1)
    low, seen = times.start, set()  # type: Any, Set[bytes]
    for _ in range(count):
        low = take_instance(lines, form, times, low, seen)


def complaint(spec: bytes, forms: Sequence[Form], text: bytes) -> str:
    """The end line of a run that goes on from this text; nothing of a state text."""
    lines = Lines(text, 0)
    try:
        lines.take(rb"lolamon-state 1")
        size = int(lines.take(rb"spec (" + NUMBER + rb")")[1])
        if size != len(spec) or not lines.rest.startswith(spec + b"\n"):
            return OTHER
        lines = Lines(lines.rest[size + 1:], 3 + spec.count(b"\n"))
        times = take_times(lines)
        for number, form in enumerate(forms):
            take_stream(lines, number, form, times)
        lines.take(rb"end")
        if lines.rest:
            lines.number += 1
            raise Damaged
    except Damaged:
        return f"= damaged state line {lines.number}\n"
    return ""
