"""The most that there may be of everything, and one more."""
from __future__ import annotations

from hostile_parts.runs import expect, expect_malformed, expect_refused, expect_rows, expect_streams, run
from terminal_parts.harness import Checks, write

KEYWORDS = "input output constant trigger spawn eval close with when if then else true false".split()
OTHER_WORDS = ("Bool Int8 Int16 Int32 Int64 UInt8 UInt16 UInt32 UInt64 String Global Local time ts timestamp offset hold get last or by over "
               "over_exactly using aggregate defaults to count sum min max avg forall exists ns us ms s min_ h d mHz Hz kHz MHz trigger_1 _ _0").split()
INPUT = "input a: Int64\n"
MOST_BYTES = 1_048_576
MARKS = 512  # operators, points and opening brackets of an expression


def test_sources(checks: Checks) -> None:
    spec = write("total.lola", INPUT + "output total: Int64 := total.last(or: 0) + a\n")
    names = [write(f"source{k}.csv", f"time,a\n{k},{k}\n") for k in range(65)]
    trace = "".join(f"{k},1,{k}.000000000,A,{k}\n" for k in range(64))
    verdicts = "".join(f"{k}.000000000 total = {k * (k + 1) // 2}\n" for k in range(64))
    end = "= done accepted 64 late 0 steps 64 lines 64\n"
    for way in ([], ["--in-turns"]):
        expect(checks, f"64 sources {way}", run("run", "--show", "outputs", *way, spec, *names[:64]), 0, verdicts + end, trace)
        expect(checks, f"65 sources {way}", run("run", *way, spec, *names), 2, "= usage\n")


def test_columns(checks: Checks) -> None:
    """Ten thousand columns, of which three count; most of the others have one name."""
    columns = 10_000
    spec = "input near: Int64\ninput far: Int64\n"
    heading = ["other"] * columns
    heading[1], heading[columns // 2], heading[columns - 1] = "far", "time", "near"

    def line(stamp: int, near: int, far: int) -> str:
        fields = ["x"] * columns
        fields[1], fields[columns // 2], fields[columns - 1] = str(far), str(stamp), str(near)
        return ",".join(fields)

    rows = [",".join(heading), *(line(n, n + 1, -n) for n in range(3))]
    trace = "".join(f"0,{n + 1},{n}.000000000,A,{n + 1},{-n}\n" for n in range(3)).encode()
    expect_rows(checks, "10,000 columns", "\n".join(rows).encode(), trace, spec)
    for what, last in (("one field more", rows[3] + ",x"), ("one field fewer", rows[3][2:])):
        content = "\n".join([*rows[:3], last, ""]).encode()
        expect_malformed(checks, what, content, 3, "2 FieldCount", b"".join(trace.splitlines(True)[:2]), spec)


def test_lines(checks: Checks) -> None:
    """A line has at most 65,536 bytes before its line feed, a carriage return counted."""
    first = b"0,1,0.000000000,A,7\n"
    most = 65_536
    heading, row = b"time,a," + b"h" * (most - 7), b"0,7," + b"r" * (most - 4)
    for what, ending in (("LF", b"\n"), ("CR LF", b"\r\n")):
        cut = 1 - len(ending) or None
        expect_rows(checks, f"the longest lines, {what}", heading[:cut] + ending + row[:cut] + ending, first)
        kept = heading[:cut] + ending
        expect_malformed(checks, f"a row too long, {what}", kept + row[:cut] + b"r" + ending, 1, "7 RowTooLong")
        expect_malformed(checks, f"a heading too long, {what}", heading[:cut] + b"h" + ending + b"0,7,r" + ending, 0, "7 RowTooLong")
    expect_rows(checks, "the longest lines, no last line feed", heading + b"\n" + row, first)
    expect_malformed(checks, "a row too long, no last line feed", heading + b"\n" + row + b"r", 1, "7 RowTooLong")
    expect_rows(checks, "a byte order mark is none of them", b"\xef\xbb\xbf" + heading + b"\n" + row + b"\n", first)
    quoted = b'0,7,"' + b'""' * ((most - 6) // 2) + b'"'
    expect_rows(checks, "the longest quoted field", b"time,a,h\n" + quoted + b"\n", first)
    expect_malformed(checks, "a line without end", b"time,a\n0,7\n1," + b"0" * 10_000_000, 2, "7 RowTooLong", first)


def test_streams(checks: Checks) -> None:
    outputs = "".join(f"output b{n}: Int64 := a\n" for n in range(1024))
    most = INPUT + outputs[:outputs.rindex("output")]
    expect_streams(checks, "1,024 streams", most, 1024)
    expect_refused(checks, "1,025 streams", INPUT + outputs, "E7 TooMany", len(INPUT) + outputs.index("b1023"))
    expect_refused(checks, "1,025 streams, the last a trigger", most + "trigger a > 0\n", "E7 TooMany", len(most))
    inputs = "".join(f"input c{n}: Bool\n" for n in range(65))
    expect_streams(checks, "64 inputs", inputs[:inputs.rindex("input")], 64)
    expect_refused(checks, "65 inputs", inputs, "E7 TooMany", inputs.index("c64"))


def test_parameters(checks: Checks) -> None:
    four = INPUT + "output z(p: Int64, q: Int64, r: Int64, s: Int64): Int64\n  spawn with (a, a, a, a)\n  eval @a with p + s\n"
    words = ["run", "--show", "outputs", write("four.lola", four), write("row.csv", "time,a\n0,3\n")]
    expect(checks, "four parameters", run(*words), 0, "0.000000000 z(3,3,3,3) = 6\n= done accepted 1 late 0 steps 1 lines 1\n", "0,1,0.000000000,A,3\n")
    five = four.replace("s: Int64)", "s: Int64, t: Int64)").replace("(a, a, a, a)", "(a, a, a, a, a)")
    expect_refused(checks, "five parameters", five, "E7 TooMany", five.index("t: Int64)"))


def test_names(checks: Checks) -> None:
    """Words that are nearly keywords are names; keywords are none."""
    near = [name for word in KEYWORDS for name in (word + "s", word + "_", "_" + word, word.capitalize(), word.upper(), word + "1", word[:-1] + "_")]
    names = [*dict.fromkeys([*near, *OTHER_WORDS])]
    spec = write("names.lola", INPUT + "".join(f"output {name}: Int64 := a\n" for name in names))
    lines = "".join(f"0.000000000 {name} = 4\n" for name in names)
    came = run("run", "--show", "outputs", spec, write("row.csv", "time,a\n0,4\n"))
    expect(checks, "names", came, 0, f"{lines}= done accepted 1 late 0 steps 1 lines {len(names)}\n", "0,1,0.000000000,A,4\n")
    for word in KEYWORDS:
        expect_refused(checks, f"{word} is no name", INPUT + f"output {word}: Int64 := a\n", "E3 Unexpected", len(INPUT + "output "))
    for name in ("a" * 60_000, "_" * 60_000):
        words = ["run", "--show", "outputs", write("long.lola", f"input {name}: Int64\noutput b := {name}\n"), write("row.csv", f"time,{name}\n0,4\n")]
        expect(checks, "a long name", run(*words), 0, "0.000000000 b = 4\n= done accepted 1 late 0 steps 1 lines 1\n", "0,1,0.000000000,A,4\n")


def test_marks(checks: Checks) -> None:
    """512 marks of an expression or a formula, and one more; and as many as fit into a specification."""
    number, truth, formula = INPUT + "output b: Int64 := ", INPUT + "output b: Bool := ", INPUT + "output b: Int64 @("
    nested = {  # what stands before, what is repeated, where the mark stands in it, the innermost with its marks, and what is repeated behind
        "brackets": (number, "(", 0, "a", 0, ")"),
        "signs": (number, "- ", 0, "a", 0, ""),
        "negations": (truth, "!", 0, "(a > 0)", 2, ""),
        "choices": (number, "if true then 1 else ", 0, "a", 0, ""),
        "conditions": (truth, "if ", 0, "a > 0", 1, " then true else true"),
        "sums": (number, "a + ", 2, "a", 0, ""),
        "brackets of a formula": (formula, "(", 0, "a", 0, ")"),
        "signs of a formula": (formula, "a || ", 2, "a", 0, ""),
    }
    for what, (before, mark, at, inner, marks_inside, behind) in nested.items():
        end = ") := a" if before == formula else ""
        most, place = MARKS - marks_inside, len(before) + len(mark) * MARKS + at
        expect_streams(checks, f"512 {what}", before + mark * most + inner + behind * most + end, 2)
        expect_refused(checks, f"600 {what}", before + mark * 600 + inner + behind * 600 + end, "E4 TooDeep", place)
        many = (MOST_BYTES - len(before)) // len(mark)
        expect_refused(checks, f"a megabyte of {what} without end", before + mark * many, "E4 TooDeep", place)
    piece = ".defaults(to: a"
    expect_refused(checks, "a megabyte of defaults", number + "a" + piece * 60_000, "E4 TooDeep", len(number) + 1 + len(piece) * (MARKS // 2))
    spawn = INPUT + "output z(p: Int64): Int64 spawn with "
    expect_refused(checks, "513 brackets, of which one may be a list's", spawn + "(" * 513, "E3 Unexpected", len(spawn) + 513)
    expect_refused(checks, "and one bracket more", spawn + "(" * 514, "E4 TooDeep", len(spawn) + 513)


def test_long_specifications(checks: Checks) -> None:
    filled = INPUT + "//" + "x" * (MOST_BYTES - len(INPUT) - 2)
    expect_streams(checks, "the longest comment", filled, 1)
    expect_refused(checks, "one byte too long", filled + "x", "E1 TooLong", MOST_BYTES)
    expect_refused(checks, "ten megabytes", INPUT * 700_000, "E1 TooLong", MOST_BYTES)
    message = "y" * (MOST_BYTES - len(INPUT) - len('trigger a > 0 ""'))
    words = ["run", write("message.lola", f'{INPUT}trigger a > 0 "{message}"'), write("row.csv", "time,a\n0,1\n")]
    expect(checks, "the longest message", run(*words), 0, f'0.000000000 trigger_1 "{message}"\n= done accepted 1 late 0 steps 1 lines 1\n', "0,1,0.000000000,A,1\n")
    name = "n" * (MOST_BYTES - len("input : Int64"))
    expect(checks, "the longest name", run("analyse", write("name.lola", f"input {name}: Int64")), 0,
           f"stream 0 {name} Int64 pacing {name} layer 0 kept 1\n= done streams 1 windows 0\n")
    many = "input a: Int64\n" * (MOST_BYTES // 15)
    expect_refused(checks, "many declarations of one name", many, "E5 Duplicate", 15 + len("input "))
    expect_refused(checks, "digits without end", INPUT + "output b := " + "7" * 1_000_000, "E2 BadToken", len(INPUT + "output b := "))
    expect_refused(checks, "a text without end", INPUT + 'trigger a > 0 "' + "t" * 1_000_000, "E2 BadToken", len(INPUT + "trigger a > 0 "))
    expect_refused(checks, "a comment without end", INPUT + "/*" + "*" * 1_000_000, "E2 BadToken", len(INPUT))
