"""Tells what is wrong with a saved state: its damaged line, or the line in which its specification differs from the command's."""
from __future__ import annotations

import re
from itertools import islice, zip_longest
from typing import List, Optional

from explaining import places
from explaining.places import LONGEST_SHOWN, shown, shown_name

HEAD = re.compile(rb"lolamon-state 1\nspec ([0-9]{1,7})\n")
LONGEST_HEAD = 100


def line_of(path: str, number: int) -> bytes:
    """A line with its end, nothing where the file has none of this number."""
    with open(path, "rb") as file:
        return next(islice(file, number - 1, None), b"")


def specification_of(path: str) -> bytes:
    """The specification that a state has; nothing where it is not to be found."""
    with open(path, "rb") as file:
        text = file.read(LONGEST_HEAD + places.LONGEST_SPECIFICATION)
    head = HEAD.match(text)
    return text[head.end():head.end() + int(head[1])] if head else b""


def damaged_line(path: str, number: int, width: int) -> List[str]:
    """The damaged line as it is, or that it is missing or cut."""
    what = f"The state {shown_name(path)} is damaged in line {number}"
    if not places.opens_again(path):
        return [f"{what}."]
    try:
        line = line_of(path, number)
    except OSError:
        return [f"{what}."]
    if not line:
        return [f"{what}, which is missing."]
    is_cut = not line.endswith(b"\n")
    return [f"{what}, which is cut:" if is_cut else f"{what}:", places.show_line(shown(line.rstrip(b"\n")[:LONGEST_SHOWN]), width)]


def other_specification(path: str, specification: str, width: int) -> List[str]:
    """The first line in which the two specifications differ."""
    what = f"The state {shown_name(path)} was saved under another text than that of {shown_name(specification)}."
    own = places.read_specification(specification)
    if own is None or not places.opens_again(path):
        return [what]
    try:
        saved = specification_of(path)
    except OSError:
        return [what]
    for number, (line, own_line) in enumerate(zip_longest(saved.split(b"\n"), own.split(b"\n")), start=1):
        if line != own_line:
            return [f"{what} Line {number} of the state's:", shown_or_end(line, width),
                    "and of the command's:", shown_or_end(own_line, width)]
    return [what]


def shown_or_end(line: Optional[bytes], width: int) -> str:
    """A line of a specification, none where it has ended before."""
    return places.show_line("(it has ended)" if line is None else shown(line[:LONGEST_SHOWN]), width)
