"""The words that tools which draw have in common, and the writing of what was drawn."""
from __future__ import annotations

import argparse
import sys
from typing import Optional

from commands.command import Words, say, write
from commands.failures import USAGE, Failure
from commands.times import exact_time
from pictures import drawing
from pictures.page import page
from pictures.panel import Span
from pictures.picture import Groups, Picture, read_groups

FORMS = ("html", "png", "svg")


class NotForATerminal(Failure):
    """A page would be written to a terminal."""

    status = USAGE


class PictureAsked(argparse.Namespace):
    """What was asked for of a picture. Times are nanoseconds."""

    out: Optional[str]
    streams: Optional[str]
    start: Optional[int]
    stop: Optional[int]
    spec: str

    @property
    def groups(self) -> Optional[Groups]:
        return None if self.streams is None else read_groups(self.streams)

    @property
    def span(self) -> Span:
        return Span(self.start, self.stop)


def time_of(text: str) -> int:
    """A time of the words, in whole nanoseconds."""
    time = exact_time(text)
    if time is None:
        raise argparse.ArgumentTypeError(f"a time is a number of seconds such as 12.5, and not {text!r}")
    return time


def form_of(path: Optional[str]) -> str:
    """What is written: a page, unless the name's ending says something else."""
    return "html" if path is None else path.rpartition(".")[2].lower()


def add_options(words: Words) -> None:
    words.options.add_argument("--out")
    words.options.add_argument("--streams")
    words.options.add_argument("--from", dest="start", type=time_of)
    words.options.add_argument("--to", dest="stop", type=time_of)


def check_options(words: Words, asked: PictureAsked) -> None:
    if form_of(asked.out) not in FORMS:
        words.error(f"the name behind --out ends with .html, .png or .svg, and not as {asked.out!r}")
    if asked.start is not None and asked.stop is not None and asked.start >= asked.stop:
        words.error("--from is before --to")


def check_out(out: Optional[str]) -> None:
    """Sees to it that it can be drawn at all, before long inputs are read."""
    if out is None and sys.stdout is not None and sys.stdout.isatty():
        raise NotForATerminal("a page is nothing for a terminal: --out FILE.html writes it into a file")
    if form_of(out) != "html":
        drawing.load()


def write_picture(tool: str, picture: Picture, out: Optional[str]) -> None:
    """Writes the picture, and tells what a person should know of it."""
    notes = picture.finish()
    for note in notes:
        say(tool, note)
    if out is None:
        write(page(picture, notes))
    elif form_of(out) == "html":
        with open(out, "w", encoding="utf-8", errors="backslashreplace", newline="\n") as file:
            file.write(page(picture, notes))
    else:
        say(tool, f"drawing {out}")
        drawing.draw(picture, out, form_of(out))
