"""Finds places in specifications and rows in source files, and shows lines on a terminal.

A file is read a second time only where it is a regular one. Bytes that are no text, and characters that a terminal
would obey instead of showing, are written as escapes.
"""
from __future__ import annotations

import os
import re
import stat
import unicodedata
from typing import Callable, List, NamedTuple, Optional

LONGEST_SPECIFICATION = 2_097_152  # so many bytes are read: more than a specification may have, so E1's line is whole
LONGEST_LINE = 65_540
LONGEST_SHOWN = 10_000  # so many bytes before and behind a place are made fit to be shown
MARK = b"\xef\xbb\xbf"  # the byte order mark
TAB = 8
INDENT = "      "
MARGIN = len(INDENT) + 3  # two blanks stand before each line that is told, and one cell stays free
DOTS = "..."


class Place(NamedTuple):
    """A place in a text: the line and the column of a person, and the line's text before and behind it, as far as anybody sees it."""

    line: int
    column: int
    before: str
    behind: str


def opens_again(path: str) -> bool:
    """Whether the path leads to a regular file, which a second reading does not change."""
    try:
        return stat.S_ISREG(os.stat(path).st_mode)
    except (OSError, ValueError):
        return False


def read_specification(path: str) -> Optional[bytes]:
    if not opens_again(path):
        return None
    try:
        with open(path, "rb") as file:
            return file.read(LONGEST_SPECIFICATION)
    except OSError:
        return None


def shown(data: bytes) -> str:
    """The bytes as a terminal can show them."""
    text = data.decode("utf-8", "backslashreplace")
    return "".join(sign if is_shown(sign) else sign.encode("unicode_escape").decode() for sign in text)


def is_shown(sign: str) -> bool:
    return sign.isprintable() or sign == "\t"


def shown_name(name: str) -> str:
    return shown(name.encode("utf-8", "surrogateescape"))


def place_in(text: bytes, at: int) -> Place:
    """The place of a byte. A place at the text's end is told behind the last thing that stands there."""
    if at >= len(text):
        at = len(text.rstrip(b" \t\r\n"))
    begin = text.rfind(b"\n", 0, at) + 1
    end = text.find(b"\n", at)
    line = text[begin:len(text) if end < 0 else end].rstrip(b"\r")
    before = line[:at - begin]
    column = len(before.decode("utf-8", "replace")) + 1
    return Place(text.count(b"\n", 0, at) + 1, column, shown(before[-LONGEST_SHOWN:]), shown(line[at - begin:][:LONGEST_SHOWN]))


def cells(sign: str) -> int:
    """How many cells of a terminal a character takes, of a tab the most that it may take."""
    if sign == "\t":
        return TAB
    if unicodedata.combining(sign):
        return 0
    return 2 if unicodedata.east_asian_width(sign) in "WF" else 1


def beginning(text: str, room: int) -> str:
    """As much of the text's beginning as there is room for, with dots where something is left out."""
    if sum(map(cells, text)) <= room:
        return text
    room -= len(DOTS)
    count = 0
    while count < len(text) and cells(text[count]) <= room:
        room -= cells(text[count])
        count += 1
    return text[:count] + DOTS


def ending(text: str, room: int) -> str:
    """As much of the text's end as there is room for."""
    return beginning(text[::-1], room)[::-1]


def show_line(text: str, width: int) -> str:
    return INDENT + beginning(text, width - MARGIN)


def show_place(place: Place, width: int, mark: str) -> List[str]:
    """The line, and below it the mark under the place."""
    room = max(width - MARGIN, 20)
    before = ending(place.before, room * 2 // 3)
    behind = beginning(place.behind, room - sum(map(cells, before)))
    blank = "".join("\t" if sign == "\t" else " " * cells(sign) for sign in before)
    return [INDENT + before + behind, INDENT + blank + mark]


class Row(NamedTuple):
    """A row of a source: the number of its line in the file, from 1, and the line without its end."""

    line: int
    text: bytes


def find_row(path: str, number: int, tell: Callable[[int], None]) -> Optional[Row]:
    """The row of this number; the heading is row 0, and empty lines have no number.

    `tell` is called with each line's number.
    """
    found = -1
    line = 0
    with open(path, "rb") as file:
        if file.peek(3)[:3] == MARK:
            file.seek(3)
        while True:
            piece = file.readline(LONGEST_LINE)
            if not piece:
                return None
            line += 1
            tell(line)
            text = piece
            while piece and not piece.endswith(b"\n"):
                piece = file.readline(LONGEST_LINE)
            if text not in (b"\n", b"\r\n"):
                found += 1
                if found == number:
                    return Row(line, re.sub(rb"\r?\n\Z", b"", text))


WORD = re.compile(rb'//[^\n]*|/\*.*?\*/|"(?:\\.|[^"\\])*"|[A-Za-z_][A-Za-z_0-9]*', re.DOTALL)


def declarations(text: bytes, stream: str) -> List[int]:
    """Where the streams of this name are declared: an output at its name, the k-th trigger at the word `trigger`."""
    found = []
    triggers = 0
    word_before = b""
    for match in WORD.finditer(text):
        word = match.group()
        if word.startswith((b"/", b'"')):
            continue
        if word == b"trigger":
            triggers += 1
            if stream == f"trigger_{triggers}":
                found.append(match.start())
        elif word_before == b"output" and word == stream.encode():
            found.append(match.start())
        word_before = word
    return found
