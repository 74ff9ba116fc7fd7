"""Values over time, of which no more are kept than a picture can show.

Where more than MOST points have come, time is cut into stretches of one length, a power of two, and of each the first, the least, the
greatest and the last value stay, and of texts each once. So a line looks the same, and the memory stays the same however many rows come.
Stretches of a greater length are made of whole ones of a smaller: what was left out before is never missing.
"""
from __future__ import annotations

from typing import Dict, List, Optional, Tuple

STRETCHES = 1500
MOST = 16 * STRETCHES

Point = Tuple[int, int]


def stretch(first: int, last: int, many: int = STRETCHES) -> int:
    """The length of a stretch where so much time is to have so many of them at most."""
    return 1 << ((last - first) // many).bit_length()


def thinned(points: List[Point], length: int) -> List[Point]:
    """Of each stretch of this length what a line has to show."""
    kept: List[Point] = []
    begin = 0
    for place in range(1, len(points) + 1):
        if place == len(points) or points[place][0] // length != points[begin][0] // length:
            kept += extremes(points[begin:place])
            begin = place
    return kept


def firsts(points: List[Point], length: int) -> List[Point]:
    """Of each stretch of this length each value once, where it comes first."""
    found: Dict[Point, int] = {}
    for time, value in points:
        found.setdefault((time // length, value), time)
    return [(time, value) for (_, value), time in found.items()]


def extremes(points: List[Point]) -> List[Point]:
    """The first, the least, the greatest and the last of some points, in their order and each once."""
    if len(points) < 3:
        return points
    values = [value for _, value in points]
    places = {0, values.index(min(values)), values.index(max(values)), len(points) - 1}
    return [points[place] for place in sorted(places)]


class Line:
    """The numbers of a stream or an instance, in order of time. What came before `start` counts as its value there."""

    reduce = staticmethod(thinned)
    stretches = STRETCHES

    def __init__(self, start: Optional[int] = None) -> None:
        self.start = start
        self.before: Optional[Point] = None
        self.points: List[Point] = []
        self.stretch = 0  # the length of the stretches it was thinned to, if it was

    def add(self, time: int, value: int) -> None:
        if self.start is not None and time < self.start:
            self.before = (self.start, value)
            return
        self.points.append((time, value))
        if len(self.points) > MOST:
            self.thin()

    def thin(self) -> None:
        self.stretch = stretch(self.points[0][0], self.points[-1][0], self.stretches)
        self.points = self.reduce(self.points, self.stretch)

    def all(self) -> List[Point]:
        return [self.before, *self.points] if self.before else self.points

    def few(self, first: int, last: int, many: int) -> List[Point]:
        """What a picture of this time can show that is so many points wide."""
        points = self.all()
        return points if len(points) <= many else self.reduce(points, stretch(first, last, many))


class Dots(Line):
    """Values that are names, by their numbers: none lies between others, and none is held. An axis has 25 names, so that of
    these stretches far fewer points stay than MOST."""

    reduce = staticmethod(firsts)
    stretches = STRETCHES // 2

    def all(self) -> List[Point]:
        return self.points


class Scattered:
    """Points in any order of time, as late rows have them."""

    def __init__(self) -> None:
        self.points: List[Point] = []

    def add(self, time: int, value: int) -> None:
        self.points.append((time, value))
        if len(self.points) > MOST:
            self.points.sort()
            self.points = thinned(self.points, stretch(self.points[0][0], self.points[-1][0]))

    def all(self) -> List[Point]:
        return sorted(self.points)


class Marks:
    """Moments, and how many there were of each that is kept."""

    def __init__(self) -> None:
        self.counts: Dict[int, int] = {}

    def add(self, time: int) -> None:
        self.counts[time] = self.counts.get(time, 0) + 1
        if len(self.counts) > MOST:
            self.thin()

    def thin(self) -> None:
        length = stretch(min(self.counts), max(self.counts))
        kept: Dict[int, Tuple[int, int]] = {}
        for time, count in sorted(self.counts.items()):
            first, before = kept.get(time // length, (time, 0))
            kept[time // length] = (first, before + count)
        self.counts = dict(kept.values())

    def all(self) -> List[Point]:
        return sorted(self.counts.items())
