"""A specification that `lolamon analyse` accepts: its inputs and where they stand, and the rates of its deadlines."""
from __future__ import annotations

import re
from fractions import Fraction
from typing import Iterator, List, NamedTuple, Optional, Set

from commands.times import SECOND
from explaining.places import LONGEST_SPECIFICATION, Place, place_in, read_specification
from explaining.program import analyse
from specifications.report import streams_of, windows_of

REFUSED = re.compile(r"= refused (E\d+) \w+ at (\d{1,18})")
RATE = re.compile(r"(\d{1,40})(?:/(\d{1,40}))?Hz")
WORD = re.compile(rb'//[^\r\n]*|/\*.*?\*/|"(?:\\.|[^"\\])*"|\w+|\S', re.DOTALL)
CLOSE = re.compile(rb"close@(?:Global\()?([0-9]+(?:\.[0-9]+)?)([a-zA-Z]+?)\)?when")
LENGTHS = {b"ns": Fraction(1, SECOND), b"us": Fraction(1, 10**6), b"ms": Fraction(1, 1000), b"s": Fraction(1), b"min": Fraction(60),
           b"h": Fraction(3600), b"d": Fraction(86400)}
RATES = {b"mHz": Fraction(1, 1000), b"Hz": Fraction(1), b"kHz": Fraction(1000), b"MHz": Fraction(10**6)}


class Refusal(Exception):
    """A specification that is not accepted: the program's end line, and where it is known the code and the place."""

    def __init__(self, end_line: str, text: bytes) -> None:
        super().__init__(end_line)
        match = REFUSED.fullmatch(end_line)
        self.code = match[1] if match else ""
        self.place = place_in(text, int(match[2])) if match and text else None


class Word(NamedTuple):
    """A word of a specification, and where it stands."""

    text: bytes
    at: int


class Specification:
    """What the tools ask of a specification, by its text and by the report of its analysis."""

    def __init__(self, name: str, text: bytes, report: List[str]) -> None:
        self.name = name
        self.text = text
        words = [Word(match.group(), match.start()) for match in WORD.finditer(text)]
        self.words = [word for word in words if not word.text.startswith((b"//", b"/*"))]
        self.streams = streams_of(report)
        self.windows = windows_of(report)
        self.inputs = {stream.name: stream.kind for stream in self.streams if stream.is_input}

    def declarations(self, name: str) -> Iterator[Word]:
        """Where inputs of this name are declared."""
        in_inputs = False
        for word, behind in zip(self.words, self.words[1:]):
            in_inputs = word.text == b"input" or in_inputs and word.text not in (b"output", b"constant", b"trigger")
            if word.text == name.encode() and in_inputs and behind.text == b":":
                yield word

    def place(self, name: str) -> Optional[Place]:
        """Where an input is declared."""
        declared = next(self.declarations(name), None)
        return place_in(self.text, declared.at) if declared else None

    def reading_lines(self, name: str) -> List[int]:
        """The lines in which the name of an input stands where it is not declared."""
        named = {word for word in self.words if word.text == name.encode()}
        return sorted({self.text.count(b"\n", 0, word.at) + 1 for word in named.difference(self.declarations(name))})

    def rates(self) -> Set[Fraction]:
        """The rates, in Hz, whose deadlines count from the start of the run. The report does not tell those behind `close`."""
        pacings = [pacing for stream in self.streams for pacing in (stream.pacing, stream.spawn)]
        matches = [RATE.fullmatch(pacing) for pacing in pacings]
        found = {Fraction(int(match[1]), int(match[2] or 1)) for match in matches if match}
        for number, unit in CLOSE.findall(b"".join(word.text for word in self.words if not word.text.startswith(b'"'))):
            quantity = Fraction(number.decode())
            if unit in RATES:
                found.add(quantity * RATES[unit])
            elif unit in LENGTHS:
                found.add(1 / (quantity * LENGTHS[unit]))
        return found

    def has_local(self) -> bool:
        return any(stream.pacing.startswith("Local(") for stream in self.streams) or any(word.text == b"Local" for word in self.words)

    def longest(self) -> int:
        """The longest window or period, in nanoseconds; 0 where time plays no part."""
        return max([window.length for window in self.windows] + [int(SECOND / rate) for rate in self.rates()], default=0)


def read_pipe(name: str) -> Optional[bytes]:
    """The text of a specification that is no file and cannot be read twice."""
    try:
        with open(name, "rb") as file:
            return file.read(LONGEST_SPECIFICATION)
    except OSError:
        return None


def read(name: str) -> Specification:
    """Reads a specification by `lolamon analyse`. Raises Refusal where that does not accept it."""
    text = read_specification(name)
    handed = read_pipe(name) if text is None else None
    ran = analyse(name, handed)
    report = ran.stdout.decode("utf-8", "replace").splitlines()
    if ran.returncode != 0:
        raise Refusal(report[-1] if report else f"the program ended with status {ran.returncode}", text or handed or b"")
    return Specification(name, text or handed or b"", report)
