"""Which state a run has, by the evaluator of tests/random, and what its parts write."""
from __future__ import annotations

import importlib.machinery
import importlib.util
import os
import sys
from pathlib import Path
from typing import Any, Iterator, List, Optional

from terminal_parts.harness import CHECKOUT

RANDOM = os.path.join(CHECKOUT, "tests", "random")
sys.path.insert(0, RANDOM)
from evaluator import Fault as Fault, Run, Stream, shown_time as shown_time  # noqa: E402


def random_module() -> Any:
    """The script tests/random/run, which makes specifications and rows."""
    path = os.path.join(RANDOM, "run")
    spec = importlib.util.spec_from_loader("random_run", importlib.machinery.SourceFileLoader("random_run", path))
    assert spec is not None and spec.loader is not None
    module = importlib.util.module_from_spec(spec)
    spec.loader.exec_module(module)
    return module


def expressions_of(streams: List[Stream]) -> Iterator[Any]:
    """All expressions of a specification, with what they consist of."""
    def parts(expression: Any) -> Iterator[Any]:
        if isinstance(expression, tuple):
            yield expression
            for part in expression:
                yield from parts(part)

    for stream in streams:
        for clause in (stream.spawn, stream.eval, stream.close):
            if clause is not None:
                yield from parts((clause.when, clause.with_))


def kept_values(streams: List[Stream]) -> List[int]:
    """Of each stream how many values are kept: one, and as many more as the greatest offset onto it."""
    offsets = [(part[1], part[3]) for part in expressions_of(streams) if part and part[0] == "offset"]
    return [1 + max([places for name, places in offsets if name == stream.name], default=0) for stream in streams]


def time_or_dash(time: Optional[int]) -> str:
    return "-" if time is None else shown_time(time)


def state_of(specification: bytes, run: Run) -> bytes:
    """The text of the state of a run that took some rows."""
    has_row = run.passed is not None
    lines = [f"start {time_or_dash(run.start if has_row else run.given_start)}", f"last {time_or_dash(run.merged if has_row else None)}",
             f"steps {run.steps}"]
    for number, (stream, instances, kept) in enumerate(zip(run.streams, run.living, kept_values(run.streams))):
        lines.append(f"stream {number} {len(instances)}")
        for instance in instances:
            lines.append(" ".join(["inst", time_or_dash(instance.born if stream.spawn else None), *map(str, instance.parameters)]))
            lines.append(" ".join(["ring", *map(str, instance.values[-kept:])]))
    return b"lolamon-state 1\nspec %d\n%s\n" % (len(specification), specification) + "\n".join([*lines, "end", ""]).encode()


def put(name: str, content: bytes, folder: Path) -> str:
    """Writes a file into a folder, and answers its path."""
    (folder / name).write_bytes(content)
    return str(folder / name)
