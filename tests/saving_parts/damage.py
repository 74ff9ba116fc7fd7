"""States that are cut, and states with a line or a byte that is left out, doubled, replaced or exchanged: each is refused at the line that
the rules name, or it is a state text too, and then a snapshot behind it gives the same bytes."""
from __future__ import annotations

import os
import random
from concurrent.futures import ThreadPoolExecutor
from typing import Iterable, Iterator, List, Tuple

from saving_parts.calling import Ran, lines_of, ran
from saving_parts.state_text import OTHER, Form, Window, complaint
from saving_parts.worked import DEVICES, DEVICES_FORMS, DEVICES_STATE, FIRST, FIRST_FORMS, FIRST_STATE
from terminal_parts.harness import Checks, write

SECOND = 10**9
RICH = r"""input w: Int8
input u: UInt64
input up: Bool
input device: String
input gone: String
input never: Int32
output label: String @device := if device == "x" then "two\nlines\t\"q\" \\ \r ä" else device
output small(x: Int8, on: Bool): Int8
  spawn @(w && up) with (w, up)
  eval @w when w == x with small(x, on).offset(by: -2).defaults(to: w)
output named(text: String, number: UInt64): Bool
  spawn @(device && u) with (label, u)
  eval @device with label == text
  close @gone when gone == text
output two(on: Bool): UInt8
  spawn @up with up
  eval @w with 200
output counted: UInt64 @1Hz := w.aggregate(over: 3s, using: count)
output total: Int8 @1Hz := w.aggregate(over: 2500ms, using: sum)
output least: Int8 @1Hz := w.aggregate(over: 3s, using: min).defaults(to: 0)
output greatest: UInt64 @1Hz := u.aggregate(over: 3s, using: max).defaults(to: 0)
output mean: UInt64 @1Hz := u.aggregate(over: 3s, using: avg).defaults(to: 0)
output all: Bool @1Hz := up.aggregate(over: 3s, using: forall)
output some: Bool @1Hz := up.aggregate(over: 3s, using: exists)
output none: Int32 @1Hz := never.aggregate(over: 3s, using: sum)
output of_one: Int8 @1Hz := small(5, true).aggregate(over: 2s, using: sum)
trigger @1Hz counted > 2 "many"
"""
RICH_FORMS = [
    Form("Int8", 1, (Window(0, "count", SECOND, 3), Window(1, "sum", SECOND // 2, 5), Window(2, "min", SECOND, 3))),
    Form("UInt64", 1, (Window(3, "max", SECOND, 3), Window(4, "avg", SECOND, 3))),
    Form("Bool", 1, (Window(5, "forall", SECOND, 3), Window(6, "exists", SECOND, 3))),
    Form("String"), Form("String"), Form("Int32", 1, (Window(7, "sum", SECOND, 3),)), Form("String"),
    Form("Int8", 3, (Window(8, "sum", SECOND, 2),), True, ("Int8", "Bool")), Form("Bool", 1, (), True, ("String", "UInt64")),
    Form("UInt8", 1, (), True, ("Bool",)), *[Form(kind) for kind in ("UInt64", "Int8", "Int8", "UInt64", "UInt64", "Bool", "Bool", "Int32", "Int8", "Bool")]]
RICH_ROWS = """time,w,u,up,device,gone
100.25,5,18446744073709551615,true,"a ""b"" \\c d",
100.5,-7,,,,
100.75,5,7,false,x,
101.25,5,,true,,
101.25,,3,,,"a ""b"" \\c d"
103.5,5,,,plain,
104,,18446744073709551615,,"a ""b"" \\c d",
104.5,,,,,plain
104.75,-3,0,,,
"""
STRANGE = ["", "end", "inst -", "inst 101.000000000", "ring", "ring 5 5 5 5", "ring 1", "ring -0", "ring 01", "ring true", 'ring "x"', 'ring "a\\qb"',
           'ring "\\r', "ring  5", "ring 5 ", "panes 0 -", "panes 1 -", "panes 0 0 1", "panes 2 1 - -", "panes 4 0 99/1", "stream 0 1", "stream 7 0",
           "stream 7 65537", "steps 4611686018427387904", "steps 0", "start -", "last -", "start 100.25", "last 104.750000001",
           "last 4000000000.000000001", "lolamon-state 1", "lolamon-state 2", "spec 1"]
BYTES = b'0123456789-./" \\\nabnrtx\xc3\xa4\xff'
RANDOM_CHANGES = 400

Case = Tuple[str, bytes]


def judged(specification: str, text: str, forms: List[Form], cases: Iterable[Case], checks: Checks) -> None:
    """Each changed state is refused as the rules say, or goes on."""
    write(specification, text)
    write("heading.csv", "time\n")

    def tried(numbered: Tuple[int, Case]) -> Tuple[str, Ran, Ran]:
        number, (how, state) = numbered
        name = write(f"{specification}.{number}", state)
        expected = complaint(text.encode(), forms, state)
        came = ran(["snapshot", "--resume", name, specification, "heading.csv"])
        os.remove(name)
        return how, Ran(expected.encode(), b"", 9) if expected else Ran(state, b"", 0), came

    with ThreadPoolExecutor(os.cpu_count()) as pool:
        for how, expected, came in pool.map(tried, enumerate(cases)):
            checks.same(f"{specification}: {how}", expected, came)


def changed_lines(state: bytes) -> Iterator[Case]:
    """Each line is left out, doubled, replaced, and exchanged with the next."""
    lines = lines_of(state)
    for place, line in enumerate(lines):
        before, behind = lines[:place], lines[place + 1:]
        where = f"line {place + 1}, {line!r},"
        yield f"{where} left out", b"".join(before + behind)
        yield f"{where} doubled", b"".join(before + [line, line] + behind)
        if behind:
            yield f"{where} exchanged with the next", b"".join(before + [behind[0], line] + behind[1:])
        for other in STRANGE:
            yield f"{where} is {other!r}", b"".join(before + [other.encode() + b"\n"] + behind)
        for word in range(line.count(b" ") + 1):
            words = line[:-1].split(b" ")
            yield f"{where} without its word {word}", b"".join(before + [b" ".join(words[:word] + words[word + 1:]) + b"\n"] + behind)
            for other in ("0", "1", "-1", "127", "128", "18446744073709551616", "-", "true", "7/0", "0/1", '""', '"x"'):
                yield f"{where} its word {word} is {other}", b"".join(before + [b" ".join([*words[:word], other.encode(), *words[word + 1:]]) + b"\n"] + behind)


def changed_bytes(state: bytes, maker: random.Random) -> Iterator[Case]:
    """Bytes that are left out, put in or replaced."""
    for _ in range(RANDOM_CHANGES):
        place, byte = maker.randrange(len(state)), bytes([maker.choice(BYTES)])
        yield from ((f"without byte {place}", state[:place] + state[place + 1:]), (f"{byte!r} before byte {place}", state[:place] + byte + state[place:]),
                    (f"{byte!r} as byte {place}", state[:place] + byte + state[place + 1:]))


def behind_specification(specification: str, state: bytes) -> int:
    return len(b"lolamon-state 1\nspec %d\n" % len(specification)) + len(specification) + 1


def test_cuts(checks: Checks) -> None:
    """A state that is cut, wherever, is no state text; cut at the end of a line it is damaged at the next one."""
    for name, text, forms, state in (("first", FIRST, FIRST_FORMS, FIRST_STATE), ("devices", DEVICES, DEVICES_FORMS, DEVICES_STATE)):
        whole = state.encode()
        cases = [(f"cut behind byte {size}", whole[:size]) for size in range(len(whole))]
        checks.same(f"{name}: cuts that the rules do not refuse", [], [how for how, cut in cases if not complaint(text.encode(), forms, cut)])
        for size in range(behind_specification(text, whole), len(whole)):
            line = whole[:size].count(b"\n") + 1
            checks.same(f"{name}: the rules on a cut behind byte {size}", f"= damaged state line {line}\n", complaint(text.encode(), forms, whole[:size]))
        judged(name, text, forms, cases, checks)


def test_other_specifications(checks: Checks) -> None:
    """A state whose specification differs in one byte, or in its length, is that of another specification."""
    state = FIRST_STATE.encode()
    begin = state.index(FIRST.encode())
    cases = [(f"byte {place} of the specification", state[:begin + place] + bytes([state[begin + place] ^ 1]) + state[begin + place + 1:])
             for place in range(len(FIRST) + 1)]
    cases += [(f"a length of {size}", state.replace(b"spec 61", b"spec %d" % size)) for size in (0, 1, 60, 62, 610, 2**64, 10**40)]
    for how, changed in cases:
        checks.same(f"the rules on {how}", OTHER, complaint(FIRST.encode(), FIRST_FORMS, changed))
    cases += [(f"a length {size}", state.replace(b"spec 61", b"spec " + size)) for size in (b"061", b"", b"61 ", b"+61", b"-61", b"6x")]
    judged("first", FIRST, FIRST_FORMS, cases, checks)


def test_changed_lines_and_bytes(checks: Checks) -> None:
    write("rich", RICH)
    saved = ran(["snapshot", "rich", "/dev/stdin"], RICH_ROWS.encode())
    checks.same("the rich state is a state text", (0, b"", ""), (saved.status, saved.trace, complaint(RICH.encode(), RICH_FORMS, saved.out)))
    behind = behind_specification(RICH, saved.out)
    for piece in (b'"two\\nlines\\t\\"q\\" \\\\ \\r \xc3\xa4"', b'"a \\"b\\" \\\\c d"', b"panes 7 -\n", b"-"):
        checks.note(piece in saved.out[behind:], "what a rich state has", piece, saved.out)
    for number, how in enumerate(("count", "sum", "min", "max", "avg", "forall", "exists")):
        checks.note(b"\npanes %d 5 " % number in saved.out or b"\npanes %d 4 " % number in saved.out or b"\npanes %d 9 " % number in saved.out
                    or b"\npanes %d 1 " % number in saved.out, f"panes of {how}", "a line with a number", saved.out)
    maker = random.Random(1)
    head, body = saved.out[:behind], saved.out[behind:]
    cases = [(how, head + changed) for how, changed in (*changed_lines(body), *changed_bytes(body, maker))]
    texts = [how for how, changed in cases if not complaint(RICH.encode(), RICH_FORMS, changed)]
    checks.note(20 < len(texts) < len(cases) // 4, "changed states that are state texts too", "some", len(texts))
    judged("rich", RICH, RICH_FORMS, cases, checks)


def test_changed_heads(checks: Checks) -> None:
    """The first lines, by which all that follows is counted."""
    state = DEVICES_STATE.encode()
    judged("devices", DEVICES, DEVICES_FORMS, [*changed_lines(state), *changed_bytes(state, random.Random(2))], checks)
