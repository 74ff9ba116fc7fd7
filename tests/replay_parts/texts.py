"""Texts of finished runs that stand in the repository: those of the examples and of the worked rows. They were written down before they
were run."""
from __future__ import annotations

import importlib.machinery
import importlib.util
import os
import shlex
import sys
from pathlib import Path
from typing import Any, Iterator, List, NamedTuple

from terminal_parts.harness import CHECKOUT

TOP = Path(CHECKOUT)
OPTIONS = ("--show", "--start")
FINISHED = (0, 4, 5, 6)  # the statuses of runs that come to an end line


class Texts(NamedTuple):
    """What a run wrote: the words of its replay but for trace and verdicts, the folder of its specification, and the two texts."""

    name: str
    words: List[str]
    folder: Path
    trace: bytes
    verdicts: bytes

    @property
    def start(self) -> int:
        """Where the merged time begins."""
        for word in self.words:
            if word.startswith("--start="):
                seconds, _, decimals = word[8:].partition(".")
                return int(seconds or "0") * 10**9 + int(decimals[:9].ljust(9, "0"))
        return 0


def replay_words(words: List[str]) -> List[str]:
    """The words of a replay of the run that these are, up to the specification."""
    rest, options, names = list(words[1:]), [], []
    while rest:
        word = rest.pop(0)
        if word == "--":
            names += rest
            break
        if word.startswith("--") and word != "--in-turns":
            name, equals, value = word.partition("=")
            value = value if equals else rest.pop(0)
            options += [f"{name}={value}"] if name in OPTIONS else []
        elif word != "--in-turns":
            names.append(word)
    return [*options, "--", names[0]]


def example_texts() -> Iterator[Texts]:
    for folder in sorted(path.parent for path in (TOP / "examples").glob("*/arguments")):
        words = shlex.split((folder / "arguments").read_text(encoding="utf-8"))
        if words[0] == "run":
            yield Texts(folder.name, replay_words(words), folder, (folder / "trace.txt").read_bytes(), (folder / "verdicts.txt").read_bytes())


def rows_module() -> Any:
    """The script that runs the worked rows, which reads their files."""
    path = str(TOP / "tests" / "rows" / "run")
    sys.path.insert(0, os.path.dirname(path))
    spec = importlib.util.spec_from_loader("rows_run", importlib.machinery.SourceFileLoader("rows_run", path))
    assert spec is not None and spec.loader is not None
    module = importlib.util.module_from_spec(spec)
    sys.modules["rows_run"] = module
    spec.loader.exec_module(module)
    return module


def row_texts(place: Path) -> Iterator[Texts]:
    """The worked rows that are runs which came to an end line and whose streams did not fail. Each is laid out in a folder of its own."""
    rows = rows_module()
    for number, case in enumerate(rows.find_cases([])):
        folder = place / str(number)
        folder.mkdir()
        rows.lay_out(case, folder)
        words, expected = rows.read_words(folder), rows.read_expected(folder)
        ends = expected.out.rpartition(b"\n= ")[2]
        if words[:1] == ["run"] and expected.status in FINISHED and not expected.failing_out and not expected.failing_trace \
                and not ends.endswith(b"unreadable specification\n") and expected.out:
            yield Texts(case.name, replay_words(words), folder, expected.trace, expected.out)
