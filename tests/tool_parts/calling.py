"""Calls a tool, in this process or in one of its own."""
from __future__ import annotations

import contextlib
import importlib
import importlib.machinery
import importlib.util
import io
import os
import subprocess
import sys
import tempfile
from typing import Any, Dict, List, NamedTuple

from terminal_parts.harness import CHECKOUT, Checks

SPEC = "input altitude: Int64\ninput terrain: Int64\ntrigger altitude - terrain > 120 \"high\"\n"
RATED = "input altitude: Int64\noutput seen: UInt64 @1Hz := altitude.aggregate(over: 5s, using: count)\n"
ROWS = "time,altitude,terrain\n0,412,352\n1,431,352\n"


class Told(NamedTuple):
    status: int
    output: str
    errors: str


class Tool:
    """A tool as a module, so that many calls of it start one process."""

    def __init__(self, name: str) -> None:
        self.path = os.path.join(CHECKOUT, "tools", name)
        loader = importlib.machinery.SourceFileLoader(name.replace("-", "_"), self.path)
        spec = importlib.util.spec_from_loader(loader.name, loader)
        assert spec
        self.module: Any = importlib.util.module_from_spec(spec)
        loader.exec_module(self.module)

    def within(self, *words: str) -> Told:
        """The tool, called in this process."""
        output, errors = io.TextIOWrapper(io.BytesIO(), encoding="utf-8"), io.StringIO()
        with contextlib.redirect_stdout(output), contextlib.redirect_stderr(errors):
            try:
                status = importlib.import_module("commands.command").run(self.module.TOOL, self.module.main, list(words))
            except SystemExit as end:
                status = end.code
        return Told(status, output.buffer.getvalue().decode(), errors.getvalue())  # type: ignore[attr-defined]

    def ran(self, *words: str, handed: str = "", **variables: str) -> Told:
        ran = subprocess.run([self.path, *words], input=handed.encode("latin-1"), capture_output=True, env={**os.environ, **variables})
        return Told(ran.returncode, ran.stdout.decode(), ran.stderr.decode())


def run_tests(name: str, tests: Dict[str, Any], manual: str, wanted: List[str]) -> int:
    """Runs all tests of a module, or those that are named, each in a folder of its own, and gives the status."""
    if any(word.startswith("-") for word in wanted):
        print(manual)
        return 0 if wanted == ["--help"] else 2
    checks = Checks()
    for test_name, test in list(tests.items()):
        if test_name.startswith("test_") and (not wanted or test_name[5:] in wanted):
            print(f"{name}: {test_name[5:].replace('_', ' ')}", file=sys.stderr)
            with tempfile.TemporaryDirectory() as folder:
                os.chdir(folder)
                checks.run(test_name, test)
                os.chdir("/")
    print(f"{name}: {checks.passed} passed, {checks.failed} failed")
    return 0 if checks.passed and not checks.failed else 1
