"""Counts what passed and what failed, and tells of each failure what was expected and what came."""

import sys
from typing import TextIO


class Tally:
    def __init__(self, complaints: TextIO = sys.stderr) -> None:
        self.complaints = complaints
        self.passed = 0
        self.failed = 0

    def expect(self, right: bool, where: str, expected: str, came: str) -> bool:
        """Counts one test. Where it failed, says where it stands, what was expected and what came."""
        if right:
            self.passed += 1
        else:
            self.failed += 1
            print(f"{where}\n  expected: {expected}\n  came: {came}", file=self.complaints, flush=True)
        return right
