"""What is told after each end of a run."""
from __future__ import annotations

import os
import re
import sys

from terminal_parts.harness import CHECKOUT, SUM, Checks, explained, on_terminal, split, stand_in, write

sys.path.insert(0, os.path.join(CHECKOUT, "tools"))
from explaining.outcome import Outcome  # noqa: E402
from explaining.telling import Manual, Teller  # noqa: E402
from explaining.watching import Watch  # noqa: E402

INPUT = "input a: Int64\n"


def test_usage_and_help(checks: Checks) -> None:
    for words in ([], ["--help"], ["-h"], ["help"], ["--version"]):
        ended = on_terminal(*words)
        checks.same(f"status of {words}", 2, ended.status)
        told = split(ended, "= usage\n")
        for piece in ("lolamon run", "lolamon analyse SPEC", "lolamon drill NUMBER ROWS WORKERS", "lolamon snapshot", "--show outputs",
                      "--in-turns", "--intake queue", "--start 0", "--resume state", "--workers 4", "docs/formats.md#command-words"):
            checks.has(f"help of {words}", piece, told)
        if words:
            checks.lacks(f"no complaint of {words}", "no command", told)


def test_refused_with_its_place(checks: Checks) -> None:
    write("unknown.lola", INPUT + "output b: Int64 := c\n")
    ended = on_terminal("run", "unknown.lola", "no_source")
    checks.same("status", 3, ended.status)
    told = split(ended, "= refused E6 Unknown at 34\n")
    checks.has("heading", "unknown.lola, line 2, column 20:", told)
    checks.has("sentence", "E6 Unknown: Nothing is known by this name in this place", told)
    checks.has("section", "docs/language.md#names-and-limits", told)
    checks.same("line and mark", ["        output b: Int64 := c", " " * 27 + "^"], told.splitlines()[2:4])


def test_places_in_lines(checks: Checks) -> None:
    """The column counts characters and not bytes, tabs stay, and wide characters take two cells."""
    cases = {
        "tab": ("\toutput b: Int64 := c", 'line 2, column 21:', "\t" + " " * 19 + "^"),
        "two bytes": ("/* é */ output b: Int64 := c", "line 2, column 28:", " " * 27 + "^"),
        "wide": ("/* 高 */ output b: Int64 := c", "line 2, column 28:", " " * 28 + "^"),
        "carriage return": ("output b: Int64 := c\r", "line 2, column 20:", " " * 19 + "^"),
        "escape": ("/* \x1b */ output b: Int64 := c", "line 2, column 28:", " " * 30 + "^"),
    }
    for name, (line, heading, mark) in cases.items():
        write("place.lola", INPUT + line + "\n")
        told = on_terminal("analyse", "place.lola").terminal
        checks.has(name, f"place.lola, {heading}", told)
        checks.note(f"\n{' ' * 8}{mark}\n" in told, f"mark of {name}", mark, told)
        checks.lacks(f"no escape of {name}", "\x1b", told)


def test_places_at_the_end(checks: Checks) -> None:
    for name, end in (("no line feed", ""), ("a line feed", "\n"), ("blanks and lines", " \t\n\n")):
        text = INPUT + "output b: Int64 :="
        write("end.lola", text + end)
        told = split(on_terminal("analyse", "end.lola"), f"= refused E3 Unexpected at {len(text + end)}\n")
        checks.has(name, "end.lola, line 2, column 19, the end of the text:", told)
        checks.same(f"mark of {name}", [" " * 8 + "output b: Int64 :=", " " * 26 + "^"], told.splitlines()[2:4])


def test_long_lines_are_cut(checks: Checks) -> None:
    write("long.lola", INPUT + f"output b: Int64 := {'a + ' * 100}c{' + a' * 100}\n")
    for columns in (60, 80, 132):
        told = on_terminal("analyse", "long.lola", columns=columns).terminal
        line, mark = told.splitlines()[3:5]
        checks.note(len(line) < columns, f"line of {columns} columns", f"less than {columns}", len(line))
        checks.same(f"what the mark stands under, of {columns} columns", "c", line[mark.index("^")])
        checks.same(f"dots of {columns} columns", [8, len(line) - 3], [line.index("..."), line.rindex("...")])


def test_malformed_rows(checks: Checks) -> None:
    write("sum.lola", SUM)
    rows = "0,1,0.000000000,A,1\n"
    cases = {  # the file; row and kind; what is told
        "after an empty line": (b"time,a\n\n0,1\n1e3,2\n", "row 2 kind 3 BadTime", "in line 4 of the file: 1e3,2"),
        "after a mark": (b"\xef\xbb\xbftime,a\n0,1\n1\n", "row 2 kind 2 FieldCount", "in line 3 of the file: 1 kind 2"),
        "after a mark alone": (b"\xef\xbb\xbf\ntime,a\n0,1\n1\n", "row 2 kind 2 FieldCount", "in line 4 of the"),
        "with CR LF": (b"time,a\r\n\r\n0,1\r\n1,x\r\n", "row 2 kind 4 BadValue", "in line 4 of the file: 1,x kind 4"),
        "without a line feed": (b"time,a\n0,1\n1,x", "row 2 kind 4 BadValue", "in line 3 of the file: 1,x kind 4"),
        "that are no text": (b"time,a\n0,1\n1,\xff\n", "row 2 kind 5 BadText", "in line 3 of the file: 1,\\xff kind 5"),
        "with a CR": (b"time,a\n0,1\n1\r,2\n", "row 2 kind 6 BareCr", "in line 3 of the file: 1\\r,2 kind 6"),
        "in the heading": (b"\nclock,a\n", "row 0 kind 1 BadHeading", "the heading, in line 2 of the file: clock,a"),
        "without any line": (b"", "row 0 kind 1 BadHeading", "rows.csv has no line kind 1 BadHeading:"),
    }
    for name, (content, kind, told) in cases.items():
        trace = rows if kind.startswith("row 2") else ""
        write("rows.csv", content)
        ended = on_terminal("run", "sum.lola", "rows.csv")
        checks.same(f"status {name}", 4, ended.status)
        checks.has(name, told, split(ended, f"{trace}= malformed source 0 {kind}\n"))


def test_malformed_second_source(checks: Checks) -> None:
    write("sum.lola", SUM)
    write("good.csv", "time,a\n0,1\n")
    write("bad.csv", f"time,a\n{'x' * 70000},1\n")
    told = split(on_terminal("run", "--in-turns", "sum.lola", "good.csv", "bad.csv"),
                 "0,1,0.000000000,A,1\n= malformed source 1 row 1 kind 7 RowTooLong\n")
    checks.has("name and row", "bad.csv, row 1, in line 2 of the file: xxx", told)
    checks.note(max(map(len, told.splitlines())) < 80, "cut line", "less than 80", max(map(len, told.splitlines())))


def test_malformed_pipe(checks: Checks) -> None:
    write("sum.lola", SUM)
    reading, writing = os.pipe()
    os.write(writing, b"time,a\nx,1\n")
    ended = on_terminal("run", "sum.lola", "/dev/stdin", stdin=reading)  # would wait for ever if it read on
    os.close(writing)
    os.close(reading)
    told = split(ended, "= malformed source 0 row 1 kind 3 BadTime\n")
    checks.has("the name alone", "/dev/stdin, row 1 kind 3 BadTime:", told)


def test_faults(checks: Checks) -> None:
    text = (f"// output b\n{INPUT}trigger a < 0\n"
            "output /* next */ b: Int64 := a + 1\ntrigger 1 / a > 5 \"much\"\n")
    write("fault.lola", text)
    write("overflow.csv", "time,a\n0,9223372036854775807\n")
    ended = on_terminal("run", "fault.lola", "overflow.csv")
    checks.same("status", 5, ended.status)
    told = split(ended, "0,1,0.000000000,A,9223372036854775807\n= fault b 1 Overflow at 0.000000000\n")
    checks.has("step", "In the step at 0.000000000 the stream b has a fault", told)
    checks.has("declaration", "fault.lola, line 4, column 19: output /* next */ b: Int64 := a + 1", told)
    checks.has("sentence", "fault 1 Overflow: A result is outside the range", told)
    write("zero.csv", "time,a\n3,0\n")
    told = split(on_terminal("run", "fault.lola", "zero.csv"),
                 "0,1,3.000000000,A,0\n= fault trigger_2 2 DivZero at 3.000000000\n")
    checks.has("trigger", 'fault.lola, line 5, column 1: trigger 1 / a > 5 "much"', told)
    checks.has("sentence of a trigger", "fault 2 DivZero: A number was to be divided by zero.", told)
    write("many.lola", INPUT + "output z(p: Int64): Int64 spawn with a eval @a with 1\n")
    program = stand_in("many", "echo '= fault z 3 TooManyInstances at 0.500000000'\nexit 5")
    told = explained(program, "run", "many.lola", "many.csv").terminal
    checks.has("instances", "many.lola, line 2, column 8: output z(p", told)
    checks.has("sentence of instances", "fault 3 TooManyInstances: A stream would have more than 65,536", told)


def test_unreadable(checks: Checks) -> None:
    write("sum.lola", SUM)
    write("good.csv", "time,a\n0,1\n")
    os.makedirs("folder", exist_ok=True)
    cases = {  # the names; what is unreadable; what is told
        "none.lola good.csv": ("specification", "The specification, none.lola, cannot be read: No such file"),
        "sum.lola good.csv none.csv": ("source 1", "Source 1, none.csv, cannot be read: No such file"),
        "sum.lola folder": ("source 0", "Source 0, folder, cannot be read: it is a folder."),
    }
    for names, (what, piece) in cases.items():
        ended = on_terminal("run", *names.split())
        checks.same(f"status of {names}", 6, ended.status)
        checks.has(f"reason of {names}", piece, split(ended, f"= unreadable {what}\n"))


HIGH = '1.000000000 trigger_1 "high"\n'
ENTRY = "0,1,0.000000000,A,1\n"
DONE = "= done accepted 2 late 0 steps 2 lines 1\n"


def test_a_trace_that_differs(checks: Checks) -> None:
    """The line as it is, and as the lines before it say; or why none should stand there."""
    write("sum.lola", SUM)
    write("v", HIGH + DONE)
    cases = {  # the line; what is told
        "0,2,1.000000000,L0.000000000,2\n": "as it is: 0,2,1.000000000,L0.000000000,2 and as it should be: 0,2,1.000000000,A,2 More",
        "0,3,1.000000000,A,2\n": "as it is: 0,3,1.000000000,A,2 and as it should be: 0,2,1.000000000,A,2 More",
        "0,2,1.000000000,A,2": "without a line feed at its end: 0,2,1.000000000,A,2 and as it should be: 0,2,1.000000000,A,2 More",
        "64,1,1.000000000,A,2\n": "It is no line of a trace: such a line has a source from 0 to 63",
        "\x1b[2J\n": "\\x1b[2J It is no line of a trace:",
        "0,2,1.000000000,A,+2\n": "so its fields are not spelled as a trace of this specification has them. More",
    }
    for line, piece in cases.items():
        write("t", ENTRY + line)
        ended = on_terminal("replay", "sum.lola", "t", "v")
        checks.same(f"status of {line!r}", 1, ended.status)
        told = split(ended, "= differs trace 2\n")
        checks.has(f"{line!r}", piece, told)
        checks.has(f"place of {line!r}", "t, line 2, as it is", told)
    write("t", "0,1,0.000000000,A,9223372036854775807\n0,2,1.000000000,A,2\n")
    told = split(on_terminal("replay", "sum.lola", "t", "v"), "= differs trace 2\n")
    checks.has("behind a fault", "No line should stand there, since the run ended before it: = fault b 1 Overflow at 0.000000000", told)


def test_verdicts_that_differ(checks: Checks) -> None:
    """The line as it is, and as another run over the accepted rows writes it."""
    write("sum.lola", SUM)
    write("t", ENTRY + "0,2,1.000000000,A,2\n0,3,0.500000000,L1.000000000,2\n")
    done = DONE.replace("late 0", "late 1")
    cases = {  # the verdicts; the line; what is told
        HIGH.replace("high", "low") + done: (1, f"as it is: {HIGH.replace('high', 'low')} and as it should be: {HIGH} More"),
        done: (1, f"as it is: {done} and as it should be: {HIGH} More"),
        HIGH + DONE: (2, f"as it is: {DONE} and as it should be: {done} Lines with which a run ends one of whose sources"),
        HIGH: (2, f"v ends before line 2, where this should stand: {done}"),
        HIGH + done + "x": (3, "as it is, without a line feed at its end: x No line should stand there, behind the end line."),
    }
    for verdicts, (line, piece) in cases.items():
        write("v", verdicts)
        ended = on_terminal("replay", "sum.lola", "t", "v")
        checks.same(f"status of {verdicts!r}", 1, ended.status)
        checks.has(f"{verdicts!r}", piece, split(ended, f"= differs verdicts {line}\n"))
    write("v", f"0.000000000 b = 2\n1.000000000 b = 4\n{HIGH}{done}")
    told = split(on_terminal("replay", "--start", "0", "--show=outputs", "sum.lola", "t", "v"), "= differs verdicts 2\n")
    checks.has("with options", "as it is: 1.000000000 b = 4 and as it should be: 1.000000000 b = 3", told)


def test_a_replay_that_finds_nothing(checks: Checks) -> None:
    write("sum.lola", SUM)
    write("t", ENTRY + "0,2,1.000000000,A,2\n")
    write("v", HIGH + DONE)
    ended = on_terminal("replay", "sum.lola", "t", "v")
    checks.same("the same", (0, "= same entries 2 lines 1\n"), (ended.status, ended.terminal))
    for names, what in (("none v", "trace"), ("t none", "verdicts")):
        ended = on_terminal("replay", "sum.lola", *names.split())
        checks.same(f"status of {names}", 6, ended.status)
        checks.has(f"reason of {names}", f"The {what}, none, cannot be read: No such file", split(ended, f"= unreadable {what}\n"))


def test_states(checks: Checks) -> None:
    """The damaged line as it is, the line in which two specifications differ, and a state that is not there."""
    write("sum.lola", SUM)
    write("low.lola", SUM.replace("high", "low"))
    write("a.csv", "time,a\n0,1\n")
    head = f"lolamon-state 1\nspec {len(SUM)}\n{SUM}\n"
    write("kept", head + "start 0.000000000\nlast 0.000000000\nsteps x\n")
    write("cut", head + "start 0.0000")
    write("short", head)
    for state, line, piece in (("kept", 9, "The state kept is damaged in line 9: steps x status 9 state: What is to be gone on from"),
                               ("cut", 7, "The state cut is damaged in line 7, which is cut: start 0.0000 status 9"),
                               ("short", 7, "The state short is damaged in line 7, which is missing. status 9"),
                               ("a.csv", 1, "The state a.csv is damaged in line 1: time,a status 9"),
                               ("/dev/null", 1, "The state /dev/null is damaged in line 1. status 9")):
        for command in ("run", "snapshot"):
            ended = on_terminal(command, f"--resume={state}", "sum.lola", "a.csv")
            checks.same(f"status of {command} {state}", 9, ended.status)
            told = split(ended, f"= damaged state line {line}\n")
            checks.has(f"{command} {state}", piece, told)
            checks.has(f"{command} {state}, the page", "docs/errors.md#status-9-state", told)
    ended = on_terminal("run", "--resume", "kept", "low.lola", "a.csv")
    told = split(ended, "= state of another specification\n")
    checks.has("another specification", "The state kept was saved under another text than that of low.lola. Line 3 of the state's: "
               'trigger b > 2 "high" and of the command\'s: trigger b > 2 "low" status 9', told)
    write("longer.lola", SUM + "\n// more\n")
    told = split(on_terminal("run", "--resume", "kept", "longer.lola", "a.csv"), "= state of another specification\n")
    checks.has("a longer one", "Line 5 of the state's: (it has ended) and of the command's: // more", told)
    ended = on_terminal("run", "--resume", "none", "sum.lola", "a.csv")
    checks.has("no state", "The state, none, cannot be read: No such file", split(ended, "= unreadable state\n"))
    ended = explained(stand_in("many", "echo '= too many steps'; exit 9"), "snapshot", "--resume", "kept", "sum.lola", "a.csv")
    checks.has("too many steps", "status 9 state: What is to be gone on from is no state of this specification, or a snapshot would", ended.terminal)


def test_no_memory(checks: Checks) -> None:
    ended = explained(stand_in("no_memory", "exit 8"), "run", "a.lola", "a.csv")
    checks.same("status", 8, ended.status)
    checks.has("sentence", "There was not enough memory.", ended.terminal)
    checks.has("section", "docs/formats.md#how-much-memory-a-run-takes", ended.terminal)


def test_a_crash_is_told(checks: Checks) -> None:
    ended = explained(stand_in("crash", "echo begun; kill -SEGV $$"), "run", "a.lola", "a.csv")
    checks.same("ends by the same signal", -11, ended.status)
    checks.has("signal", "The program was ended by signal 11, Segmentation fault.", split(ended, "begun\n"))


def test_late_rows(checks: Checks) -> None:
    write("sum.lola", SUM)
    write("one.csv", "time,a\n5,1\n4,1\n3,1\n")
    write("two.csv", "time,a\n1,1\n")
    own = "0,1,5.000000000,A,1\n0,2,4.000000000,L5.000000000,1\n0,3,3.000000000,L5.000000000,1\n"
    told = split(on_terminal("run", "sum.lola", "one.csv"), own + "= done accepted 1 late 2 steps 1 lines 0\n")
    checks.has("one source", "2 of source 0, one.csv", told)
    checks.has("it goes back", "So the times of this source go back.", told)
    checks.lacks("no turns for one source", "--in-turns", told)
    own = ("1,1,1.000000000,A,1\n0,1,5.000000000,A,1\n0,2,4.000000000,L5.000000000,1\n"
           "0,3,3.000000000,L5.000000000,1\n= done accepted 2 late 2 steps 2 lines 0\n")
    told = split(on_terminal("run", "sum.lola", "one.csv", "two.csv"), own)
    checks.has("merged by time", "2 of source 0, one.csv A row", told)
    checks.has("why", "the times of a file with late rows go back", told)
    own = ("0,1,5.000000000,A,1\n1,1,1.000000000,L5.000000000,1\n0,2,4.000000000,L5.000000000,1\n"
           "0,3,3.000000000,L5.000000000,1\n= done accepted 1 late 3 steps 1 lines 0\n")
    told = split(on_terminal("run", "--in-turns", "sum.lola", "one.csv", "two.csv"), own)
    checks.has("in turns", "2 of source 0, one.csv 1 of source 1, two.csv", told)
    checks.has("what to do", "Without --in-turns files are merged by time.", told)


def test_late_rows_of_many_sources(checks: Checks) -> None:
    script = ("for s in 0 1 2 3 4 5 63; do echo \"$s,1,1.000000000,L5.000000000,2\" >&2; done\n"
              "echo '= done accepted 0 late 7 steps 0 lines 0'")
    names = [f"{number}.csv" for number in range(64)]
    told = explained(stand_in("many_late", script), "run", "a.lola", *names).terminal
    checks.has("the first few", "1 of source 3, 3.csv 3 of 3 other sources", told)


def test_all_codes_have_a_heading(checks: Checks) -> None:
    """Each section that is named, by the table or by the code, is a heading of its document."""
    with open(os.path.join(CHECKOUT, "tools", "messages.tsv"), encoding="utf-8") as file:
        lines = [line.rstrip("\n").split("\t") for line in file]
    checks.same("columns", ["code", "name", "sentence", "section"], lines[0])
    codes = [f"E{n}" for n in (*range(1, 20), 21)] + [f"kind {n}" for n in range(1, 9)] + [f"fault {n}" for n in range(1, 4)]
    checks.same("codes", codes + [f"status {n}" for n in range(10)], [line[0] for line in lines[1:]])
    named = {line[3] for line in lines[1:]}
    for code, _, sentence, _ in lines[1:]:
        checks.note(sentence.endswith("."), f"sentence of {code}", "a full stop at its end", sentence)
    with open(os.path.join(CHECKOUT, "tools", "explaining", "telling.py"), encoding="utf-8") as file:
        named |= set(re.findall(r'"(docs/\w+\.md#[\w-]+)"', file.read()))
    for section in sorted(named):
        document, _, anchor = section.partition("#")
        with open(os.path.join(CHECKOUT, document), encoding="utf-8") as file:
            titles = re.findall(r"^#+ (.*)$", file.read(), re.MULTILINE)
        anchors = [re.sub(r"[^\w -]", "", title.lower()).strip().replace(" ", "-") for title in titles]
        checks.note(anchor in anchors, section, "a heading", anchors)


def test_each_code_is_told(checks: Checks) -> None:
    """Each refusal, kind and fault gets its own sentence and section, which are those of the table."""
    with open(os.path.join(CHECKOUT, "tools", "messages.tsv"), encoding="utf-8") as file:
        rows = [line.rstrip("\n").split("\t") for line in file][1:]
    lines = {"E": (3, "= refused {} {} at 0"), "k": (4, "= malformed source 0 row 0 {} {}"), "f": (5, "= {} {} at 0.5")}
    manual = Manual()
    examples = os.path.exists(os.path.join(CHECKOUT, "docs", "errors.md"))
    for code, name, sentence, section in rows:
        if code[0] in lines:
            status, line = lines[code[0]]
            watch = Watch()
            watch.end_line = line.format(code.replace("fault", "fault b"), name).encode()
            told = Teller(manual, Outcome(status, None, watch, {}, False), ["run", "a.lola", "a.csv"]).all()
            checks.has(code, f"{code} {name}: {sentence}", "\n".join(told))
            checks.has(f"section of {code}", section, told[-2] if examples else told[-1])
            if examples:
                heading = f"{code} {name}".lower().replace(" ", "-")
                checks.has(f"example of {code}", f"docs/errors.md#{heading}", told[-1])


def test_marks_are_bold_where_they_may(checks: Checks) -> None:
    write("unknown.lola", INPUT + "output b: Int64 := c\n")
    cases = (({"TERM": "xterm"}, True), ({"TERM": "dumb"}, False), ({"TERM": "xterm", "NO_COLOR": "1"}, False))
    for variables, bold in cases:
        told = on_terminal("analyse", "unknown.lola", variables=variables).terminal
        checks.same(f"bold with {variables}", bold, "\x1b[1m^\x1b[0m" in told)
        checks.same(f"escapes with {variables}", bold, "\x1b" in told)
