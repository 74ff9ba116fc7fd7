"""Stacks as small as a system may give: no specification ends the program by a signal."""
from __future__ import annotations

import resource

from hostile_parts.runs import Came, expect, run
from terminal_parts.harness import Checks, write

INPUT = "input a: Int64\n"
KIBIBYTES = (1024, 512, 256)
DEEP = {  # the deepest expressions within 512 marks, each with its value where a is 0
    "choices": ("if true then 1 else " * 512 + "a", 1),
    "signs": ("- " * 512 + "a", 0),
    "brackets": ("(" * 512 + "a" + ")" * 512, 0),
    "sums from the right": ("a + (" * 256 + "a" + ")" * 256, 0),
    "products from the right": ("a * (" * 256 + "a" + ")" * 256, 0),
}


def run_small(kibibytes: int, *words: str) -> Came:
    """Runs ./lolamon where the system gives a program so much stack."""
    most = resource.getrlimit(resource.RLIMIT_STACK)[1]
    return run(*words, preexec_fn=lambda: resource.setrlimit(resource.RLIMIT_STACK, (kibibytes * 1024, most)))


def test_stacks(checks: Checks) -> None:
    row = write("row.csv", "time,a\n0,0\n")
    unclosed = write("unclosed.lola", INPUT + "output b: Int64 := " + "(" * 1_000_000)
    place = len(INPUT + "output b: Int64 := ") + 512
    for kibibytes in KIBIBYTES:
        for what, (expression, value) in DEEP.items():
            spec = write("deep.lola", INPUT + "".join(f"output {name}: Int64 := {expression}\n" for name in "bc"))
            end = f"0.000000000 b = {value}\n0.000000000 c = {value}\n= done accepted 1 late 0 steps 1 lines 2\n"
            for way in ([], ["--in-turns"], ["--workers", "2"]):
                came = run_small(kibibytes, "run", "--show", "outputs", *way, spec, row)
                expect(checks, f"{what} in {kibibytes} KiB {way}", came, 0, end, "0,1,0.000000000,A,0\n")
        expect(checks, f"a megabyte of brackets in {kibibytes} KiB", run_small(kibibytes, "analyse", unclosed), 3, f"= refused E4 TooDeep at {place}\n")
