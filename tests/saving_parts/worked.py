"""Worked rows: states and what goes on from them, written down by the rules of docs/formats.md before the program was run."""
from __future__ import annotations

import os
import subprocess
from typing import List, NamedTuple, Tuple

from saving_parts.calling import Ran, ran
from saving_parts.state_text import Form, Window, complaint
from sources_parts.program import PROGRAM
from terminal_parts.harness import Checks, write

FIRST = 'input a: Int64\noutput b: Int64 := a + 1\ntrigger b > 2 "high"\n'
FIRST_FORMS = [Form("Int64"), Form("Int64"), Form("Bool")]
FIRST_STATE = f"""lolamon-state 1
spec 61
{FIRST}
start 0.000000000
last 0.000000000
steps 1
stream 0 1
inst -
ring 1
stream 1 1
inst -
ring 2
stream 2 1
inst -
ring false
end
"""
COUNT = "input a: Int64\noutput n: UInt64 @1Hz := a.aggregate(over: 10s, using: count)"
COUNT_FORMS = [Form("Int64", windows=(Window(0, "count", 10**9, 10),)), Form("UInt64")]
COUNT_STATE = f"""lolamon-state 1
spec {len(COUNT)}
{COUNT}
start 0.000000000
last 1.000000000
steps 2
stream 0 1
inst -
ring 6
panes 0 1 1 1
stream 1 1
inst -
ring
end
"""
EMPTY_STATE = f"""lolamon-state 1
spec {len(COUNT)}
{COUNT}
start {{}}
last -
steps 0
stream 0 1
inst -
ring
panes 0 -
stream 1 1
inst -
ring
end
"""
DEVICES = """input device: String
input gone: String
output seen(name: String): UInt64
  spawn with device
  eval @device when device == name with seen(name).last(or: 0) + 1
  close @gone when gone == name
output looked(name: String): UInt64
  spawn with device
  eval @Local(1s) with seen(name).hold(or: 0)
output lately: UInt64 @1Hz := seen("a").aggregate(over: 2s, using: sum)
"""
DEVICES_FORMS = [Form("String"), Form("String"), Form("UInt64", 2, (Window(0, "sum", 10**9, 2),), True, ("String",)),
                 Form("UInt64", spawns=True, parameters=("String",)), Form("UInt64")]
DEVICES_ROWS = 'time,device,gone\n0.5,a,\n0.75,"b ""c"" d\\",\n1.5,a,\n2,,a\n2.25,a,\n'
DEVICES_STATE = f"""lolamon-state 1
spec {len(DEVICES)}
{DEVICES}
start 0.500000000
last 2.250000000
steps 7
stream 0 1
inst -
ring "a"
stream 1 1
inst -
ring "a"
stream 2 2
inst 0.750000000 "b \\"c\\" d\\\\"
ring 1
panes 0 1 0 1
inst 2.250000000 "a"
ring 1
panes 0 2 0 1
stream 3 2
inst 0.500000000 "a"
ring 2
inst 0.750000000 "b \\"c\\" d\\\\"
ring 1
stream 4 1
inst -
ring 3
end
"""
OVER = "input a: Int64\noutput b: Int64 @1Hz := 1 / a.hold(or: 0)"
OVER_STATE = f"""lolamon-state 1
spec {len(OVER)}
{OVER}
start 0.000000000
last 1.000000000
steps 2
stream 0 1
inst -
ring 0
stream 1 1
inst -
ring
end
"""


class Row(NamedTuple):
    """Words, what is on standard input, and what has to come: standard output, standard error, the status."""

    words: str
    handed: str
    out: str
    trace: str = ""
    status: int = 0


ROWS: List[Row] = [
    Row("snapshot first -", "time,a\n0,1\n", FIRST_STATE),
    Row("run --resume first.state first -", "time,a\n1,2\n", '1.000000000 trigger_1 "high"\n= done accepted 1 late 0 steps 1 lines 1\n',
        "0,1,1.000000000,A,2\n"),
    Row("run --resume=first.state --show outputs first -", "time,a\n0,2\n",
        '0.000000000 b = 3\n0.000000000 trigger_1 "high"\n= done accepted 1 late 0 steps 1 lines 2\n', "0,1,0.000000000,A,2\n"),
    Row("run first --resume first.state -", "time,a\n", "= done accepted 0 late 0 steps 0 lines 0\n"),
    Row("run first - --resume first.state", "a,time\n2,0.25\n1,0\n", '0.250000000 trigger_1 "high"\n= done accepted 1 late 1 steps 1 lines 1\n',
        "0,1,0.250000000,A,2\n0,2,0.000000000,L0.250000000,1\n"),
    Row("snapshot --resume first.state first -", "time,a\n", FIRST_STATE),
    Row("snapshot --resume=first.state first -", "time,a\n1,2\n",
        FIRST_STATE.replace("last 0", "last 1").replace("steps 1", "steps 2").replace("ring 2", "ring 3").replace("ring 1", "ring 2")
        .replace("ring false", "ring true")),
    Row("snapshot count -", "time,a\n0,5\n1,6\n", COUNT_STATE),
    Row("run --show outputs --resume count.state count -", "time,a\n0.5,1\n1,7\n",
        "1.000000000 n = 3\n= done accepted 1 late 1 steps 2 lines 1\n", "0,1,0.500000000,L1.000000000,1\n0,2,1.000000000,A,7\n"),
    Row("run --show outputs --resume count.state count -", "time,a\n", "1.000000000 n = 2\n= done accepted 0 late 0 steps 1 lines 1\n"),
    Row("run --show outputs --resume count.state count -", "time,a\n3,#\n",
        "1.000000000 n = 2\n2.000000000 n = 2\n3.000000000 n = 2\n= done accepted 1 late 0 steps 4 lines 3\n", "0,1,3.000000000,A,#\n"),
    Row("snapshot count -", "time,a\n", EMPTY_STATE.format("-")),
    Row("snapshot --start 7.5 count -", "time,a\n7,1\n", EMPTY_STATE.format("7.500000000")),
    Row("run --resume started.state count -", "time,a\n7.25,1\n", "= done accepted 0 late 1 steps 0 lines 0\n", "0,1,7.250000000,L7.500000000,1\n"),
    Row("run --show outputs --resume started.state count -", "time,a\n8.5,1\n",
        "8.500000000 n = 1\n= done accepted 1 late 0 steps 2 lines 1\n", "0,1,8.500000000,A,1\n"),
    Row("run --show outputs --resume empty.state count -", "time,a\n8,1\n9,#\n",
        "9.000000000 n = 1\n= done accepted 2 late 0 steps 3 lines 1\n", "0,1,8.000000000,A,1\n0,2,9.000000000,A,#\n"),
    Row("snapshot devices -", DEVICES_ROWS, DEVICES_STATE),
    Row("run --show outputs --resume devices.state devices -", "time,device,gone\n2.5,a,\n",
        '2.500000000 seen("a") = 2\n2.500000000 looked("a") = 2\n2.500000000 lately = 3\n= done accepted 1 late 0 steps 2 lines 3\n',
        "0,1,2.500000000,A,a,#\n"),
    # what is refused
    Row("run --resume ring_x first -", "time,a\n1,2\n", "= damaged state line 12\n", status=9),
    Row("run --resume cut first -", "time,a\n1,2\n", "= damaged state line 19\n", status=9),
    Row("snapshot --resume cut first -", "time,a\n1,2\n", "= damaged state line 19\n", status=9),
    Row("run --resume first.state low -", "time,a\n1,2\n", "= state of another specification\n", status=9),
    Row("snapshot --resume first.state low -", "time,a\n1,2\n", "= state of another specification\n", status=9),
    Row("run --resume first.state count -", "time,a\n1,2\n", "= state of another specification\n", status=9),
    Row("run --resume nothing first -", "time,a\n1,2\n", "= damaged state line 1\n", status=9),
    Row("run --resume twice first -", "time,a\n1,2\n", "= damaged state line 20\n", status=9),
    Row("snapshot --resume many first -", "time,a\n1,2\n", "= too many steps\n", status=9),
    Row("snapshot --resume many first -", "time,a\n", FIRST_STATE.replace("steps 1", f"steps {2**62}")),
    Row("run --resume many first -", "time,a\n1,2\n", '1.000000000 trigger_1 "high"\n= done accepted 1 late 0 steps 1 lines 1\n', "0,1,1.000000000,A,2\n"),
    Row("run --resume more first -", "time,a\n1,2\n", "= damaged state line 9\n", status=9),
    # what stands before what
    Row("run --resume nowhere nowhere nowhere", "", "= unreadable specification\n", status=6),
    Row("run --resume nowhere bad nowhere", "", "= refused E6 Unknown at 34\n", status=3),
    Row("run --resume ring_x bad nowhere", "", "= refused E6 Unknown at 34\n", status=3),
    Row("snapshot --resume ring_x bad nowhere", "", "= refused E6 Unknown at 34\n", status=3),
    Row("run --resume nowhere first nowhere", "", "= unreadable state\n", status=6),
    Row("snapshot --resume nowhere first -", "time,a\n1,2\n", "= unreadable state\n", status=6),
    Row("run --resume . first -", "time,a\n1,2\n", "= unreadable state\n", status=6),
    Row("run --resume= first -", "time,a\n1,2\n", "= unreadable state\n", status=6),
    Row("run --resume ring_x first nowhere", "", "= damaged state line 12\n", status=9),
    Row("snapshot --resume first.state low nowhere", "", "= state of another specification\n", status=9),
    Row("run --resume first.state first nowhere", "", "= unreadable source 0\n", status=6),
    Row("run --resume count.state count - nowhere", "time,a\n1,2\n", "= unreadable source 1\n", status=6),
    Row("snapshot first - nowhere", "time,a\n1,2\n", "= unreadable source 1\n", status=6),
    Row("snapshot first -", "time,a\n1,2\n2,x\n", "= malformed source 0 row 2 kind 4 BadValue\n", status=4),
    Row("snapshot --resume many first -", "time,a\n1,2\n2,x\n", "= malformed source 0 row 2 kind 4 BadValue\n", status=4),
    Row("snapshot first -", "time,a\n1,2\n2,9223372036854775807\n3,x\n", "= fault b 1 Overflow at 2.000000000\n", status=5),
    Row("snapshot --resume first.state first -", "time,a\n1,9223372036854775807\n", "= fault b 1 Overflow at 1.000000000\n", status=5),
    Row("snapshot over -", "time,a\n0,1\n1,0\n", OVER_STATE),
    Row("run --resume over.state over -", "time,a\n", "= fault b 2 DivZero at 1.000000000\n", status=5),
    Row("run --resume over.state over -", "time,a\n1,5\n", "= done accepted 1 late 0 steps 2 lines 0\n", "0,1,1.000000000,A,5\n"),
    # a state that no run comes to has causes too
    Row("run --resume odd first -", "time,a\n1,2\n", '1.000000000 trigger_1 "high"\n= done accepted 1 late 0 steps 1 lines 1\n', "0,1,1.000000000,A,2\n"),
    Row("run --resume odd first -", "time,a\n1,2\n2,x\n", '1.000000000 trigger_1 "high"\n= malformed source 0 row 2 kind 4 BadValue\n',
        "0,1,1.000000000,A,2\n", 4),
    Row("run --resume odd first -", "", "= malformed source 0 row 0 kind 1 BadHeading\n", status=4),
    Row("run --resume odd first .", "", "= unreadable source 0\n", status=6),
    Row("run --resume odd first - nowhere", "time,a\n1,2\n", "= unreadable source 1\n", status=6),
    Row("run --resume odd first nowhere .", "", "= unreadable source 0\n", status=6),
    Row("snapshot --resume odd first -", "time,a\n", FIRST_STATE.replace("ring 2", "ring 7")),
    Row("snapshot --resume odd first -", "time,a\n1,2\n2,x\n", "= malformed source 0 row 2 kind 4 BadValue\n", status=4),
    Row("snapshot --resume odd first .", "", "= unreadable source 0\n", status=6),
    Row("snapshot --resume odd first - nowhere", "time,a\n1,2\n", "= unreadable source 1\n", status=6),
    # what is no command
    *(Row(words, "", "= usage\n", status=2) for words in (
        "run --resume first.state --start 0 first -", "run --start=0 first - --resume=first.state", "run first - --resume",
        "run --resume first.state --resume first.state first -", "run --resume - first -", "run --resume first.state first",
        "snapshot", "snapshot first", "snapshot --show outputs first -", "snapshot --workers 1 first -", "snapshot --in-turns first -",
        "snapshot --intake lock first -", "snapshot --start 0 --resume first.state first -", "snapshot --resume=first.state --start=0 first -",
        "snapshot first - --start 0 -", "snapshot --start x first -", "snapshot --resume", "replay --resume first.state first - -",
        "analyse --resume first.state first", "drill --resume first.state 1 1 1", "Snapshot first -", "resume first.state first -"))]


def lay_out() -> None:
    """Writes the specifications and the states that words name. The words' - is standard input."""
    lines = FIRST_STATE.splitlines(keepends=True)
    for name, text in (
            ("first", FIRST), ("low", FIRST.replace('"high"', '"low "')), ("count", COUNT), ("devices", DEVICES), ("bad", "input a: Int64\noutput b: Int64 := c\n"),
            ("over", OVER), ("over.state", OVER_STATE),
            ("first.state", FIRST_STATE), ("count.state", COUNT_STATE), ("empty.state", EMPTY_STATE.format("-")), ("devices.state", DEVICES_STATE),
            ("started.state", EMPTY_STATE.format("7.500000000")), ("nothing", ""), ("twice", FIRST_STATE * 2),
            ("ring_x", "".join([*lines[:11], "ring x\n", *lines[12:]])), ("cut", "".join(lines[:18])),
            ("odd", FIRST_STATE.replace("ring 2", "ring 7")),
            ("many", FIRST_STATE.replace("steps 1", "steps 4611686018427387904")), ("more", FIRST_STATE.replace("steps 1", "steps 4611686018427387905"))):
        write(name, text)


def with_input(words: str) -> List[str]:
    return ["/dev/stdin" if word == "-" and place > 1 and not words.split()[place - 1].startswith("--") else word
            for place, word in enumerate(words.split())]


def test_worked_rows(checks: Checks) -> None:
    lay_out()
    for row in ROWS:
        came = ran(with_input(row.words), row.handed.encode())
        checks.same(f"{row.words} {row.handed!r}", (row.out, row.trace, row.status), (came.out.decode(), came.trace.decode(), came.status))


def test_other_ways(checks: Checks) -> None:
    """Each row that is a run of one source writes the same in turns, with four workers, at the other intake and over a file."""
    lay_out()
    for row in ROWS:
        if not row.words.startswith("run ") or row.status == 2 or " - nowhere" in row.words:
            continue
        write("source.csv", row.handed)
        for way in (["--in-turns"], ["--workers=4"], ["--intake=queue"], ["--workers=4", "--in-turns"]):
            words = [word if word != "/dev/stdin" else "source.csv" for word in with_input(row.words)]
            came = ran(["run", *way, *words[1:]])
            checks.same(f"{way} {row.words} {row.handed!r}", Ran(row.out.encode(), row.trace.encode(), row.status), came)


def test_the_checker_itself(checks: Checks) -> None:
    """The states that are written down here are state texts, and the others are not, by the rules as the tests have them."""
    lay_out()
    forms = {"first": (FIRST, FIRST_FORMS), "count": (COUNT, COUNT_FORMS), "devices": (DEVICES, DEVICES_FORMS)}
    cases: List[Tuple[str, str, str]] = [
        ("first", "first.state", ""), ("count", "count.state", ""), ("count", "empty.state", ""), ("count", "started.state", ""),
        ("devices", "devices.state", ""), ("first", "ring_x", "= damaged state line 12\n"), ("first", "cut", "= damaged state line 19\n"),
        ("first", "many", ""), ("first", "odd", ""), ("first", "more", "= damaged state line 9\n"), ("first", "count.state", "= state of another specification\n"),
        ("first", "nothing", "= damaged state line 1\n"), ("first", "twice", "= damaged state line 20\n")]
    for specification, state, expected in cases:
        with open(state, "rb") as file:
            checks.same(f"{state} of {specification}", expected, complaint(forms[specification][0].encode(), forms[specification][1], file.read()))


def test_failed_writes(checks: Checks) -> None:
    """A state that cannot be written is status 7; what ends otherwise keeps its status, but for a malformed source's line."""
    lay_out()
    for words, source, status in (
            ("snapshot first -", "time,a\n0,1\n", 7), ("snapshot first -", "time,a\n0,x\n", 7), ("snapshot --resume ring_x first -", "time,a\n", 9),
            ("snapshot --resume many first -", "time,a\n1,2\n", 9), ("run --resume cut first -", "time,a\n", 9), ("snapshot first", "", 2),
            ("snapshot --resume nowhere first -", "time,a\n", 6), ("snapshot bad -", "time,a\n", 3),
            ("snapshot first -", "time,a\n0,9223372036854775807\n", 5), ("run --resume first.state first -", "time,a\n", 7),
            ("run --resume odd first -", "time,a\n", 7), ("run --resume odd first -", "time,a\n1,x\n", 7),
            ("run --resume odd first - nowhere", "time,a\n1,2\n", 6), ("snapshot --resume odd first -", "time,a\n1,x\n", 7)):
        with open("/dev/full", "wb") as full:
            came = subprocess.run([PROGRAM, *with_input(words)], input=source.encode(), stdout=full, stderr=subprocess.PIPE)
        checks.same(f"{words} {source!r} to a full device", (status, b""), (came.returncode, came.stderr))


def test_state_through_a_pipe(checks: Checks) -> None:
    """A state may come from a pipe, and go into one."""
    lay_out()
    write("one.csv", "time,a\n0,1\n")
    write("two.csv", "time,a\n1,2\n")
    environment = {**os.environ, "LOLAMON": PROGRAM}
    came = subprocess.run(["sh", "-c", '"$LOLAMON" snapshot first one.csv | "$LOLAMON" run --resume /dev/stdin first two.csv'],
                          capture_output=True, env=environment)
    checks.same("a state through a pipe", (b'1.000000000 trigger_1 "high"\n= done accepted 1 late 0 steps 1 lines 1\n', b"0,1,1.000000000,A,2\n", 0),
                (came.stdout, came.stderr, came.returncode))
