"""The script of examples/days, which runs a log in pieces: it is killed again and again, and gives what one run gives."""
from __future__ import annotations

import os
import random
import signal
import subprocess
import sys
import time
from pathlib import Path
from typing import List, Tuple

from saving_parts.calling import Ran, ran
from sources_parts.program import PROGRAM
from terminal_parts.harness import CHECKOUT, Checks, write

DAYS = os.path.join(CHECKOUT, "examples", "days")
SCRIPT = [sys.executable, os.path.join(DAYS, "run_in_pieces")]
SPEC, LOG = os.path.join(DAYS, "days.lola"), os.path.join(DAYS, "log.csv")
KILLS = 200
MOST_STARTS = 2000
ENVIRONMENT = {**os.environ, "LOLAMON": PROGRAM, "PYTHONDONTWRITEBYTECODE": "1"}


def pieced(*words: str) -> Ran:
    done = subprocess.run([*SCRIPT, *words], capture_output=True, env=ENVIRONMENT)
    return Ran(done.stdout, done.stderr, done.returncode)


def killed(words: List[str], seconds: float) -> Tuple[bool, Ran]:
    """Starts the script and kills it with all that it has started, unless it ends before. Whether it was killed, and else how it ended."""
    with open("out", "wb") as out, open("trace", "wb") as trace:
        started = subprocess.Popen([*SCRIPT, *words], stdout=out, stderr=trace, env=ENVIRONMENT, start_new_session=True)
        try:
            status = started.wait(seconds)
        except subprocess.TimeoutExpired:
            os.killpg(started.pid, signal.SIGKILL)
            status = started.wait()
    return status == -signal.SIGKILL, Ran(Path("out").read_bytes(), Path("trace").read_bytes(), status)


def test_killed_at_any_moment(checks: Checks) -> None:
    """Whole runs, each killed until it comes to its end, 200 kills in all: what stands there then is what one run gives."""
    expected = ran(["run", "--show=outputs", SPEC, LOG])
    dice = random.Random(7)
    begun = time.monotonic()
    pieced("--rows", "3", SPEC, LOG, "undisturbed")
    longest = 0.8 * (time.monotonic() - begun)
    kills = starts = runs = 0
    while kills < KILLS and starts < MOST_STARTS:
        runs += 1
        words = ["--show", "outputs", "--rows", str(dice.randint(1, 6)), SPEC, LOG, f"kept{runs}"]
        was_killed = True
        while was_killed and starts < MOST_STARTS:
            was_killed, came = killed(words, dice.uniform(0, longest))
            kills, starts = kills + was_killed, starts + 1
        checks.same(f"run {runs}, {words}", expected, came)
    checks.note(kills >= KILLS and runs > 2, "kills in several runs", f"{KILLS} and more", f"{kills} in {runs} runs, {starts} starts")


def test_killed_before_each_rename(checks: Checks) -> None:
    """Killed where a file is written and has not its name yet, each such moment once, it goes on and gives the same."""
    expected = ran(["run", "--show=outputs", SPEC, LOG])
    write("sitecustomize.py", "import os\nleft, rename = int(os.environ['RENAMES']), os.replace\ndef replace(*names):\n    global left\n"
          "    if left == 0:\n        os.kill(os.getpid(), 9)\n    left -= 1\n    rename(*names)\nos.replace = replace\n")
    status, renames = -signal.SIGKILL, 0
    while status == -signal.SIGKILL:
        words = ["--show", "outputs", "--rows", "9", SPEC, LOG, f"renames{renames}"]
        environment = {**ENVIRONMENT, "PYTHONPATH": os.getcwd(), "RENAMES": str(renames)}
        status = subprocess.run([*SCRIPT, *words], capture_output=True, env=environment).returncode
        checks.same(f"killed before rename {renames + 1}", expected, pieced(*words))
        renames += 1
    checks.note(status == 0 and renames > 10, "renames of a run", "more than ten", (status, renames))


def test_pieces_of_all_sizes(checks: Checks) -> None:
    expected = ran(["run", SPEC, LOG])
    for size in (1, 2, 3, 7, 12, 13, 26, 27, 28, 1000):
        checks.same(f"pieces of {size}", expected, pieced("--rows", str(size), SPEC, LOG, f"pieces{size}"))
        checks.same(f"pieces of {size}, once more", expected, pieced("--rows", str(size), SPEC, LOG, f"pieces{size}"))


def test_ends_of_runs(checks: Checks) -> None:
    """Faults and malformed lines in a piece or at its end, headings alone, and what cannot be run."""
    write("sum", 'input a: Int64\noutput b: Int64 := a + 1\ntrigger b > 2 "high"\n')
    write("over", 'input a: Int64\noutput b: Int64 @1Hz := 1 / a.hold(or: 0)\n')
    for name, spec, source in (
            ("malformed", "sum", "time,a\n0,1\n1,2\n2,3\n3,x\n4,5\n"), ("malformed_heading", "sum", "a\n0\n"), ("nothing", "sum", "time,a\n"),
            ("empty", "sum", ""), ("fault", "sum", "time,a\n0,1\n1,2\n2,9223372036854775807\n3,4\n"), ("late", "sum", "time,a\n5,1\n1,2\n0,2\n7,4\n"),
            ("fault_at_the_end", "over", "time,a\n0,1\n1,0\n"), ("fault_that_a_row_prevents", "over", "time,a\n0,1\n1,0\n1,5\n2,#\n"),
            ("no_line_feed", "sum", "\n\r\ntime,a\r\n0,2\r\n\r\n1,3\r\n2,4")):
        write(f"{name}.csv", source)
        expected = ran(["run", "--show=outputs", spec, f"{name}.csv"])
        for size in (1, 2, 3):
            checks.same(f"{name} in pieces of {size}", expected, pieced("--show", "outputs", "--rows", str(size), spec, f"{name}.csv", f"{name}{size}"))
    started = ran(["run", "--start", "3.5", "sum", "late.csv"])
    checks.same("a start", started, pieced("--start", "3.5", "--rows", "1", "sum", "late.csv", "started"))
    write("bad", "input a: Int64\noutput b: Int64 := c\n")
    for words, out, status in ((["bad", LOG, "k1"], b"= refused E6 Unknown at 34\n", 3), (["nowhere", LOG, "k2"], b"= unreadable specification\n", 6),
                               (["--show", "all", "sum", LOG, "k3"], b"= usage\n", 2), (["sum", "nowhere", "k4"], b"", 6), (["sum"], b"", 2),
                               (["--rows", "0", "sum", LOG, "k5"], b"", 2), (["sum", "late.csv", "started"], b"", 2)):
        came = pieced(*words)
        checks.same(f"{words}", (out, status), (came.out, came.status))
