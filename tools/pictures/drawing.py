"""A picture as PNG or SVG, by matplotlib.

All is laid out in inches from the top. Places are numbers behind the first time, since matplotlib computes with those;
what is written at an axis is exact.
"""
from __future__ import annotations

import warnings
from typing import Any, List, NamedTuple

from commands.failures import Unfit
from pictures.axes import Tick, time_ticks, value_ticks
from pictures.panel import Panel
from pictures.picture import Bounds, Picture
from pictures.series import Point

WIDTH = 9.0
RIGHT = 0.2
TITLE = 0.44
HEADER = 0.27
ROW = 0.17
FOOT = 0.5
GAP = 0.1
NUMBER = 0.95
TRUTH = 0.4
NAME = 0.19
STRIP = 0.38
DIGIT = 0.068
LETTER, BOLD = 0.062, 0.08  # the width of one in the names of lines, and in titles
APART = 0.16  # between names
SEVERAL = 6  # an axis of more lines is twice as high
PIXELS = 600
FEW = 60  # a line of so many points has a dot at each, and so many marks of triggers a line through all panels
LONGEST = 24

TEXT, FAINT, GRID, FRAME = "#1f2328", "#5b6470", "#e4e7eb", "#b9c0c8"
INPUT, OUTPUT, ALARM, LATE = "#0072b2", "#00805c", "#c43d00", "#8a4b8f"
PALETTE = ["#0072b2", "#d55e00", "#009e73", "#cc79a7", "#e69f00", "#56b4e9", "#7f7f7f", "#8c564b", "#b59a00", "#9467bd",
           "#17a2b8", "#c23b22"]
SETTINGS = {"font.size": 8.5, "font.family": "sans-serif", "svg.hashsalt": "lolamon", "svg.fonttype": "none",
            "axes.edgecolor": FRAME, "axes.linewidth": 0.8, "xtick.color": FRAME, "ytick.color": FRAME,
            "xtick.labelcolor": FAINT, "ytick.labelcolor": FAINT, "text.color": TEXT, "path.simplify": True}


def load() -> Any:
    """matplotlib, without a screen."""
    try:
        import matplotlib
        matplotlib.use("agg")
        from matplotlib import figure
    except ImportError:
        raise Unfit("PNG and SVG need matplotlib, which is not installed (Debian: apt-get install python3-matplotlib); "
                    "an .html needs nothing") from None
    matplotlib.rcParams.update(SETTINGS)
    return figure


def shown(text: str, most: int = 200) -> str:
    """A text as matplotlib shows it: no sign that would begin a formula, and none that is no letter."""
    signs = "".join(sign if sign.isprintable() else sign.encode("unicode_escape").decode() for sign in text)
    return (signs if len(signs) <= most else signs[:most - 1] + "\u2026").replace("$", r"\$")


def name_of(name: str, place: int) -> str:
    """What a line is called; those behind the colours are dashed."""
    return ("" if place < len(PALETTE) else "-- ") + shown(name, LONGEST)


def name_rows(title: str, names: List[str], width: float) -> List[List[int]]:
    """Which names stand beside the title, and which in each row below it; none where there is but one."""
    rows: List[List[int]] = [[]]
    room = width - BOLD * len(title) - APART
    for place in range(len(names) if len(names) > 1 else 0):
        needed = len(name_of(names[place], place)) * LETTER + APART
        if needed > room:
            rows.append([])
            room = width
        rows[-1].append(place)
        room -= needed
    return rows


def height_of(panel: Panel) -> float:
    if panel.sort == "number":
        return 2 * NUMBER if len(panel.drawn()) > SEVERAL else NUMBER
    return TRUTH if panel.sort == "truth" else max(NAME * len(panel.names), TRUTH)


class Curve(NamedTuple):
    """A line of a panel, as a picture of this width can show it."""

    name: str
    is_held: bool
    points: List[Point]


class Range(NamedTuple):
    """The least and the greatest value of an axis."""

    low: int
    high: int


class Axis(NamedTuple):
    """All that is drawn of a panel."""

    panel: Panel
    curves: List[Curve]
    range: Range
    ticks: List[Tick]


class Strip(NamedTuple):
    """The marks of a trigger or of late rows, below their name."""

    title: str
    marks: List[Point]
    color: str


def range_of(panel: Panel, curves: List[Curve]) -> Range:
    if panel.sort == "truth":
        return Range(0, 1)
    if panel.sort == "text":
        return Range(0, max(len(panel.names) - 1, 0))
    values = [value for points in [*(curve.points for curve in curves), panel.late.all()] for _, value in points]
    low, high = min(values, default=0), max(values, default=1)
    return Range(low, high) if low < high else Range(low - 1, low + 1)


def ticks_of(panel: Panel, seen: Range) -> List[Tick]:
    if panel.sort == "truth":
        return [Tick(0, "false"), Tick(1, "true")]
    if panel.sort == "text":
        return [Tick(place, shown(name, LONGEST)) for name, place in panel.names.items()]
    room = (seen.high - seen.low) // 10
    return value_ticks(seen.low - room, seen.high + room, 4)


def axis_of(panel: Panel, bounds: Bounds) -> Axis:
    curves = [Curve(name, is_held, line.few(bounds.first, bounds.last, PIXELS)) for name, is_held, line in panel.drawn()]
    seen = range_of(panel, curves)
    return Axis(panel, curves, seen, ticks_of(panel, seen))


def strips_of(picture: Picture) -> List[Strip]:
    strips = [Strip(trigger.title, trigger.marks.all(), ALARM) for trigger in picture.triggers_in_order()]
    return [*strips, Strip("late rows", picture.late.all(), LATE)] if picture.late.counts else strips


class Canvas:
    """A figure that is filled from the top."""

    def __init__(self, picture: Picture) -> None:
        self.picture = picture
        self.first, self.last = bounds = picture.bounds()
        self.axes_of_panels = [axis_of(panel, bounds) for panel in picture.panels]
        self.strips = strips_of(picture)
        longest = max((len(tick.label) for axis in self.axes_of_panels for tick in axis.ticks), default=0)
        self.left = max(0.35, DIGIT * longest + 0.18)
        headers = sum(self.header_height(axis) for axis in self.axes_of_panels)
        panels = sum(height_of(panel) + GAP for panel in picture.panels)
        self.height = TITLE + headers + panels + STRIP * len(self.strips) + FOOT
        self.figure = load().Figure(figsize=(WIDTH, self.height), dpi=100, facecolor="white")
        self.top = 0.0

    def name_rows(self, axis: Axis) -> List[List[int]]:
        return name_rows(shown(axis.panel.title, 80), [curve.name for curve in axis.curves], WIDTH - RIGHT - self.left)

    def header_height(self, axis: Axis) -> float:
        return HEADER + ROW * (len(self.name_rows(axis)) - 1)

    def x(self, time: int) -> int:
        return time - self.first

    def axes(self, height: float) -> Any:
        """An axis of this height below what is there already."""
        self.top += height
        width = WIDTH - self.left - RIGHT
        place = (self.left / WIDTH, 1 - self.top / self.height, width / WIDTH, height / self.height)
        axes = self.figure.add_axes(place)
        margin = (self.last - self.first) * 0.012
        axes.set_xlim(-margin, self.last - self.first + margin)
        axes.set_xticks([])
        return axes

    def text(self, left: float, down: float, text: str, **look: Any) -> Any:
        """A text, its middle so many inches below the present top."""
        place = (left / WIDTH, 1 - (self.top + down) / self.height)
        return self.figure.text(*place, text, va="center", **look)

    def title(self) -> None:
        self.text(self.left, TITLE / 2, shown(self.picture.title), weight="bold", size=10.5)
        self.text(WIDTH - RIGHT, TITLE / 2, shown(self.picture.end or ""), color=FAINT, size=7.5, ha="right")
        self.top += TITLE

    def header(self, axis: Axis) -> None:
        """The panel's name, and where it has several lines, their names in their colours."""
        self.text(self.left, HEADER * 0.55, shown(axis.panel.title, 80), weight="bold")
        if len(axis.curves) < 2:
            self.text(WIDTH - RIGHT, HEADER * 0.55, axis.panel.kind, color=FAINT, size=7.5, ha="right")
        for number, row in enumerate(self.name_rows(axis)):
            left = WIDTH - RIGHT
            for place in reversed(row):
                name = name_of(axis.curves[place].name, place)
                self.text(left, HEADER * 0.55 + ROW * number, name, color=PALETTE[place % len(PALETTE)], ha="right", size=7.5)
                left -= len(name) * LETTER + APART
        self.top += self.header_height(axis)

    def curve(self, axes: Any, curve: Curve, color: str, style: str) -> None:
        places = [self.x(time) for time, _ in curve.points]
        values = [value for _, value in curve.points]
        held = ([*places, self.x(self.last)], [*values, values[-1]]) if curve.is_held else (places, values)
        axes.plot(*held, color=color, linewidth=1.2, linestyle=style, drawstyle="steps-post", solid_joinstyle="miter")

    def dots(self, axes: Any, points: List[Point], color: str) -> None:
        axes.plot([self.x(time) for time, _ in points], [value for _, value in points], color=color, linestyle="", marker="o", markersize=3,
                  zorder=3)

    def curves(self, axes: Any, axis: Axis) -> None:
        alone = INPUT if axis.panel.has_inputs else OUTPUT
        is_text = axis.panel.sort == "text"
        for place, curve in enumerate(axis.curves):
            color = PALETTE[place % len(PALETTE)] if len(axis.curves) > 1 else alone
            if not is_text:
                self.curve(axes, curve, color, "-" if place < len(PALETTE) else "--")
            if is_text or len(curve.points) <= FEW:
                self.dots(axes, curve.points, color)

    def axis(self, axis: Axis) -> None:
        """A panel: its header, its axis and its lines."""
        self.header(axis)
        axes = self.axes(height_of(axis.panel))
        low, high = axis.range
        room = (high - low) * 0.1 if axis.panel.sort == "number" else 0.5
        axes.set_ylim(low - room, high + room)
        axes.set_yticks([float(tick.place) for tick in axis.ticks], [tick.label for tick in axis.ticks])
        axes.grid(axis="y", color=GRID, linewidth=0.7)
        axes.set_axisbelow(True)
        self.curves(axes, axis)
        late = axis.panel.late.all()
        axes.plot([self.x(time) for time, _ in late], [value for _, value in late], linestyle="", marker="x", markersize=6,
                  markeredgewidth=1.6, color=LATE)
        self.through(axes)
        self.top += GAP

    def through(self, axes: Any) -> None:
        """Thin lines where triggers are true, unless they are many, and one where the run had its fault."""
        alarms = [time for strip in self.strips if strip.color == ALARM for time, _ in strip.marks]
        for time in alarms if len(alarms) <= FEW else []:
            axes.axvline(self.x(time), color=ALARM, linewidth=0.7, alpha=0.35, zorder=0.5)
        if self.picture.fault:
            axes.axvline(self.x(self.picture.fault.time), color=ALARM, linewidth=1.2, linestyle="--")

    def strip(self, strip: Strip) -> None:
        self.text(self.left, STRIP * 0.3, shown(strip.title, 110), size=8)
        self.top += STRIP * 0.5
        axes = self.axes(STRIP * 0.5)
        axes.axis("off")
        axes.set_ylim(-1, 1)
        axes.axhline(0, color=GRID, linewidth=0.8)
        span = self.last - self.first
        places = [self.x(time) for time, _ in strip.marks]
        pixels = sorted({round(place * PIXELS / span) for place in places})
        if len(pixels) > FEW:
            places = [pixel * span // PIXELS for pixel in pixels]
        axes.plot(places, [0] * len(places), linestyle="", marker="|", markersize=10, markeredgewidth=2, color=strip.color)

    def times(self) -> None:
        """The axis of time, below all, with lines through the panels."""
        ticks, title = time_ticks(self.first, self.last, 9)
        places = [float(self.x(tick.place)) for tick in ticks]
        for axes in self.figure.axes:
            for place in places:
                axes.axvline(place, color=GRID, linewidth=0.7, zorder=0)
        axes = self.axes(0.04)
        axes.set_yticks([])
        for side in ("left", "right", "bottom"):
            axes.spines[side].set_visible(False)
        axes.set_xticks(places, [tick.label for tick in ticks])
        self.text(WIDTH - RIGHT, FOOT - 0.14, title, color=FAINT, ha="right")
        if self.picture.fault:
            self.text(self.left, FOOT - 0.14, "fault " + shown(self.picture.fault.told), color=ALARM)

    def draw(self) -> Any:
        self.title()
        for axis in self.axes_of_panels:
            self.axis(axis)
        for strip in self.strips:
            self.strip(strip)
        self.times()
        return self.figure


def draw(picture: Picture, path: str, form: str) -> None:
    """Writes the picture. The same picture is written with the same bytes."""
    load()
    metadata = {"Date": None, "Creator": None} if form == "svg" else {"Software": None}
    with warnings.catch_warnings():
        warnings.simplefilter("ignore")
        Canvas(picture).draw().savefig(path, format=form, metadata=metadata, facecolor="white")
