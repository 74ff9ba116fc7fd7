"""What becomes of the program's bytes, of signals, and of readers that go away."""
from __future__ import annotations

import os
import signal
import subprocess

from terminal_parts.harness import (CHECKOUT, EXPLAIN, LOLAMON, SUM, Checks, Terminal, environment, explained,
                                    on_terminal, output_elsewhere, split, stand_in, write)

TRACE = "0,1,0.000000000,A,1\n0,2,1.000000000,A,2\n"
VERDICTS = '1.000000000 trigger_1 "high"\n= done accepted 2 late 0 steps 2 lines 1\n'


def write_run() -> list[str]:
    """A run that ends well: its words."""
    return ["run", write("sum.lola", SUM), write("good.csv", "time,a\n0,1\n1,2\n")]


def test_a_good_run_gets_nothing_more(checks: Checks) -> None:
    ended = on_terminal(*write_run())
    checks.same("status", 0, ended.status)
    checks.same("lines in the order in which they were written", TRACE + VERDICTS, ended.terminal)


def test_order_of_many_lines(checks: Checks) -> None:
    script = "i=0; while [ $i -lt 2000 ]; do echo $i; echo $i >&2; i=$((i + 1)); done"
    ended = explained(stand_in("many_lines", script), "run")
    checks.same("standard output and error in turns", "".join(f"{i}\n{i}\n" for i in range(2000)), ended.terminal)


def test_output_into_a_file(checks: Checks) -> None:
    ended = output_elsewhere([LOLAMON, *write_run()])
    checks.same("status", 0, ended.status)
    checks.same("terminal", TRACE, ended.terminal)
    checks.same("file", VERDICTS, ended.output.decode())
    write("unknown.lola", "input a: Int64\noutput b: Int64 := c\n")
    ended = output_elsewhere([LOLAMON, "analyse", "unknown.lola"])
    checks.same("status of a refusal", 3, ended.status)
    checks.same("file of a refusal", b"= refused E6 Unknown at 34\n", ended.output)
    checks.has("terminal of a refusal", "E6 Unknown:", ended.terminal)


def test_without_a_terminal_no_byte_is_added(checks: Checks) -> None:
    good = write_run()
    write("unknown.lola", "input a: Int64\noutput b: Int64 := c\n")
    write("bad.csv", "time,a\n0,1\n1\n")
    write("late.csv", "time,a\n5,1\n4,1\n")
    write("over.csv", "time,a\n0,9223372036854775807\n")
    late = "0,1,5.000000000,A,1\n0,2,4.000000000,L5.000000000,1\n"
    cases = [  # words, status, standard output, standard error
        (good, 0, VERDICTS, TRACE),
        (["--help"], 2, "= usage\n", ""),
        (["run", "unknown.lola", "good.csv"], 3, "= refused E6 Unknown at 34\n", ""),
        (["run", "sum.lola", "bad.csv"], 4, "= malformed source 0 row 2 kind 2 FieldCount\n", "0,1,0.000000000,A,1\n"),
        (["run", "sum.lola", "over.csv"], 5, "= fault b 1 Overflow at 0.000000000\n",
         "0,1,0.000000000,A,9223372036854775807\n"),
        (["run", "sum.lola", "none.csv"], 6, "= unreadable source 0\n", ""),
        (["run", "sum.lola", "late.csv"], 0, "= done accepted 1 late 1 steps 1 lines 0\n", late),
    ]
    for words, status, output, errors in cases:
        ended = subprocess.run([LOLAMON, *words], capture_output=True, text=True)
        came = (ended.returncode, ended.stdout, ended.stderr)
        checks.same(f"without a terminal, {words}", (status, output, errors), came)
        ended = on_terminal(*words, variables={"LOLAMON_PLAIN": "1"})
        checks.same(f"plain status of {words}", status, ended.status)
        lines = sorted((output + errors).splitlines())
        checks.same(f"plain lines of {words}", lines, sorted(ended.terminal.splitlines()))
    ended = on_terminal("--help", variables={"LOLAMON_PLAIN": ""})
    checks.has("an empty LOLAMON_PLAIN changes nothing", "lolamon analyse SPEC", ended.terminal)


def test_full_device(checks: Checks) -> None:
    with open("/dev/full", "wb") as full:
        ended = Terminal([LOLAMON, *write_run()], stdout=full).end()
    checks.same("status", 7, ended.status)
    checks.has("reason", "Standard output could not be written: No space left on device.", split(ended, TRACE))
    quick = stand_in("quick", "echo '= done accepted 0 late 0 steps 0 lines 0'")
    with open("/dev/full", "wb") as full:
        ended = Terminal([EXPLAIN, quick, "run", "a", "b"], stdout=full).end()
    checks.same("status, though the program ended well before", 7, ended.status)
    both = explained(stand_in("failed", "printf '0,1,0.0'; exit 7"), "run", "a.lola", "a.csv")
    checks.same("status of a failed write", 7, both.status)
    checks.has("a line of its own", "A write to standard output or standard error failed", split(both, "0,1,0.0\n\n  "))


def test_reader_that_goes_away(checks: Checks) -> None:
    reading, writing = os.pipe()
    os.close(reading)
    ended = Terminal([LOLAMON, *write_run()], stdout=writing).end()
    checks.same("status", 7, ended.status)
    checks.same("nothing is said", True, TRACE.startswith(ended.terminal))
    endless = stand_in("endless", "while echo line; do :; done 2>/dev/null; exit 7")
    ended = Terminal([EXPLAIN, endless, "run", "a", "b"], stdout=writing).end()
    os.close(writing)
    checks.same("a program without end is ended", (True, ""), (ended.status in (7, -signal.SIGPIPE), ended.terminal))


def test_all_bytes_pass(checks: Checks) -> None:
    rows = b"0,1,1.000000000,A,1\n" * 100_000
    content = bytes(range(256)) * 1000 + b"\n" + b"x" * 300_000 + b"\n" + rows + b"no line feed"
    write("content", content)
    ended = output_elsewhere([EXPLAIN, stand_in("both", "cat content; cat content >&2; exit 42"), "run"])
    checks.same("status", 42, ended.status)
    checks.note(ended.output == content, "standard output", f"{len(content)} bytes", f"{len(ended.output)} bytes")
    shown = ended.terminal.encode("utf-8", "surrogateescape")
    checks.same("terminal", content.decode("utf-8", "backslashreplace").encode(), shown)


def test_rows_come_at_once(checks: Checks) -> None:
    """A row's lines stand on the terminal before the next row is there; then ^C ends both, and nothing is said."""
    write("sum.lola", SUM)
    reading, writing = os.pipe()
    run = Terminal([LOLAMON, "run", "sum.lola", "/dev/stdin"], stdin=reading)
    os.close(reading)
    os.write(writing, b"time,a\n0,5\n1,1\n")
    expected = b'0,1,0.000000000,A,5\n0.000000000 trigger_1 "high"\n0,2,1.000000000,A,1\n'
    checks.same("two rows", expected, run.read(until=b"A,1\n"))
    run.type(b"\x03")
    ended = run.end()
    os.close(writing)
    checks.same("ends by the signal", -signal.SIGINT, ended.status)
    checks.lacks("no help", "  ", ended.terminal.replace("^C", ""))


def test_signals_are_passed_on(checks: Checks) -> None:
    script = "trap 'echo caught; trap - TERM; kill -TERM $$' TERM\necho begun\nwhile :; do sleep 0.05; done"
    run = Terminal([EXPLAIN, stand_in("catches", script), "run"])
    run.read(until=b"begun\n")
    run.process.send_signal(signal.SIGTERM)
    ended = run.end()
    checks.same("status", -signal.SIGTERM, ended.status)
    checks.same("what it still wrote", "begun\ncaught\n", ended.terminal)
    script = "trap 'echo caught; exit 0' INT\necho begun\nwhile :; do sleep 0.05; done"
    run = Terminal([EXPLAIN, stand_in("goes_on", script), "run"])
    run.read(until=b"begun\n")
    run.type(b"\x03")
    ended = run.end()
    checks.same("a program that ends well in spite of ^C", 0, ended.status)
    checks.has("its line", "caught", ended.terminal)


def test_streams_are_handed_in(checks: Checks) -> None:
    program = stand_in("copies", "cat; cat <&3")
    reading, writing = os.pipe()
    os.write(writing, b"further stream\n")
    os.close(writing)
    with open(write("input", "standard input\n"), "rb") as file:
        command = ["sh", "-c", f"exec {EXPLAIN} {program} run 3<&{reading}"]
        ended = Terminal(command, stdin=file, pass_fds=[reading]).end()
    os.close(reading)
    checks.same("what was read", "standard input\nfurther stream\n", ended.terminal)
    closed = Terminal(["sh", "-c", f"exec {LOLAMON} --help >&-"]).end()
    checks.same("a closed standard output", "", closed.terminal)


def test_statuses_stay(checks: Checks) -> None:
    for status in (0, 1, 2, 3, 4, 5, 6, 7, 8, 9, 70, 126, 255):
        checks.same("status", status, explained(stand_in("ends", f"exit {status}"), "run", "a", "b").status)
    ended = Terminal([EXPLAIN, "./no_such_program", "run"]).end()
    checks.same("status where there is no program", 70, ended.status)
    checks.has("reason where there is no program", "lolamon: the program cannot be started: ", ended.terminal)


def test_help_of_explain(checks: Checks) -> None:
    explained(stand_in("fails", "exit 8"), "run", "a", "b")
    ended = subprocess.run([EXPLAIN, "--help"], capture_output=True, text=True, env=environment(None))
    checks.same("status", 0, ended.returncode)
    checks.has("what it does", "Runs the program lolamon with these words", ended.stdout)
    left = os.path.join(CHECKOUT, "tools", "explaining", "__pycache__")
    checks.same("no file is left in tools", False, os.path.exists(left))
