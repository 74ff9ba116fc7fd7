"""A picture as one HTML page, which needs no network: its data as JSON, and the scripts that draw it."""
from __future__ import annotations

import html
import json
import os
from typing import Any, Dict, List, Union

from pictures.axes import FIRST_DATE
from pictures.panel import Drawn, Panel
from pictures.picture import Picture
from pictures.series import Point

SCRIPTS = ("axes.js", "drawing.js", "acting.js")
GREATEST = 2**53 - 1  # the greatest whole number that JavaScript's numbers have exactly

Number = Union[int, str]


def number(value: int) -> Number:
    """A whole number that stays exact: where JavaScript's numbers have it not, a text."""
    return value if abs(value) <= GREATEST else str(value)


def points_data(points: List[Point], start: int) -> Dict[str, List[Number]]:
    return {"times": [number(time - start) for time, _ in points], "values": [number(value) for _, value in points]}


def line_data(drawn: Drawn, start: int) -> Dict[str, Any]:
    return {"name": drawn.name, "holds": drawn.is_held, "stretch": number(drawn.line.stretch), **points_data(drawn.line.all(), start)}


def panel_data(panel: Panel, start: int) -> Dict[str, Any]:
    return {"title": panel.title, "kind": panel.kind, "sort": panel.sort, "inputs": panel.has_inputs, "names": list(panel.names),
            "lines": [line_data(drawn, start) for drawn in panel.drawn()], "late": points_data(panel.late.all(), start)}


def marks_data(title: str, marks: List[Point], start: int) -> Dict[str, Any]:
    return {"title": title, "times": [number(time - start) for time, _ in marks], "counts": [count for _, count in marks]}


def page_data(picture: Picture, notes: List[str]) -> Dict[str, Any]:
    """All that the page shows. Times are nanoseconds behind `start`."""
    first, last = picture.bounds()
    triggers = [marks_data(trigger.title, trigger.marks.all(), first) for trigger in picture.triggers_in_order()]
    fault = picture.fault
    return {
        "start": str(first), "range": [0, number(last - first)], "dates": first >= FIRST_DATE, "end": picture.end or "",
        "notes": notes, "panels": [panel_data(panel, first) for panel in picture.panels], "triggers": triggers,
        "late": marks_data("late rows", picture.late.all(), first),
        "fault": {"time": number(fault.time - first), "told": fault.told} if fault else None,
    }


def beside(name: str) -> str:
    with open(os.path.join(os.path.dirname(os.path.realpath(__file__)), name), encoding="utf-8") as file:
        return file.read()


def page(picture: Picture, notes: List[str]) -> str:
    """The page. No text of a log can end the script that it stands in, or begin another."""
    data = json.dumps(page_data(picture, notes), separators=(",", ":"))
    parts = {"@TITLE@": html.escape(picture.title), "@SCRIPT@": "".join(map(beside, SCRIPTS)).rstrip(),
             "@DATA@": data.replace("<", "\\u003c")}
    text = beside("page.html")
    for mark, part in parts.items():
        text = text.replace(mark, part)
    return text
