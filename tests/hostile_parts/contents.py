"""Files of every byte."""
from __future__ import annotations

from hostile_parts.runs import expect, expect_malformed, expect_refused, expect_rows, expect_streams, run
from terminal_parts.harness import Checks, write

TEXTS = "input s: String\ninput n: Int64\noutput t: String := s\n"
INPUT = "input a: Int64\n"
BLANKS = " \t\n\r"
SIGNS = ":,().@+-*/%!<>"
LETTERS = "abcdefghijklmnopqrstuvwxyzABCDEFGHIJKLMNOPQRSTUVWXYZ_"
DIGITS = "0123456789"


def row_kind(byte: int) -> str | None:
    """What is wrong with a row whose middle field is this byte, if anything."""
    if byte >= 0x80:
        return "5 BadText"
    if byte == ord("\r"):
        return "6 BareCr"
    return "2 FieldCount" if chr(byte) in ',"\n' else None


def escaped(text: str) -> str:
    return "".join({'"': '\\"', "\\": "\\\\", "\t": "\\t"}.get(letter, letter) for letter in text)


def test_every_byte_in_a_row(checks: Checks) -> None:
    good = [byte for byte in range(256) if row_kind(byte) is None]
    source = b"time,s,n\n" + b"".join(b"%d,%c,7\n" % (place, byte) for place, byte in enumerate(good))
    trace = b"".join(b"0,%d,%d.000000000,A,%c,7\n" % (place + 1, place, byte) for place, byte in enumerate(good))
    lines = "".join(f'{place}.000000000 t = "{escaped(chr(byte))}"\n' for place, byte in enumerate(good) if chr(byte) != "#")
    end = f"= done accepted {len(good)} late 0 steps {len(good)} lines {len(good) - 1}\n"
    words = ["run", "--show", "outputs", write("texts.lola", TEXTS), write("bytes.csv", source)]
    for way in ([], ["--in-turns"]):
        expect(checks, f"bytes that texts may have {way}", run(*words, *way), 0, lines + end, trace)
    for byte in range(256):
        kind = row_kind(byte)
        if kind is not None:
            expect_malformed(checks, f"a field of the byte {byte}", b"time,s,n\n0,%c,7\n" % byte, 1, kind, spec=TEXTS)


def test_every_byte_in_a_heading(checks: Checks) -> None:
    """The byte stands in the name of a column that nobody asks for."""
    for byte in range(256):
        what, content = f"a heading with the byte {byte}", b"time,a,x%cx\n0,7,y\n" % byte
        if chr(byte) in ",\n":  # a column more; a row of one field
            expect_malformed(checks, what, content, 1, "2 FieldCount")
        elif byte >= 0x80 or chr(byte) == "\r":
            expect_malformed(checks, what, content, 0, row_kind(byte) or "")
        else:
            words = ["run", write("good.lola", INPUT), write("good.csv", content)]
            expect(checks, what, run(*words), 0, "= done accepted 1 late 0 steps 1 lines 0\n", "0,1,0.000000000,A,7\n")


def test_every_byte_in_a_specification(checks: Checks) -> None:
    """A byte behind a declaration: a blank, a token with which nothing can go on, or none."""
    for byte in range(256):
        text, letter = INPUT.encode() + b"%c\n" % byte, chr(byte)
        what = f"a specification with the byte {byte}"
        if letter in BLANKS:
            expect_streams(checks, what, text, 1)
        elif letter == ",":  # another name may follow, and none does
            expect_refused(checks, what, text, "E3 Unexpected", len(text))
        elif letter in SIGNS + LETTERS + DIGITS:
            expect_refused(checks, what, text, "E3 Unexpected", len(INPUT))
        else:
            expect_refused(checks, what, text, "E2 BadToken", len(INPUT))


def test_texts_in_utf_8(checks: Checks) -> None:
    good = ["\x00", "\x7f", "\x80", "\u07ff", "\u0800", "\ud7ff", "\ue000", "\ufeff", "\uffff", "\U00010000", "\U0010ffff", "e\u0301", "\u202e"]
    source = "time,s,n\n" + "".join(f"{place},{text},7\n" for place, text in enumerate(good))
    trace = "".join(f"0,{place + 1},{place}.000000000,A,{text},7\n" for place, text in enumerate(good))
    expect_rows(checks, "characters at the ends of their ranges", source.encode(), trace.encode(), "input s: String\ninput n: Int64\n")
    bad = ["c080", "c1bf", "e08080", "e09fbf", "eda080", "edbfbf", "f0808080", "f08fbfbf", "f4908080", "f5808080", "f888808080", "fe", "ff",
           "c2", "e282", "f09f98", "80", "bf", "c2c2", "e28228"]
    for digits in bad:
        content = b"time,s,n\n0,x,7\n1," + bytes.fromhex(digits) + b",7\n"
        expect_malformed(checks, f"no UTF-8: {digits}", content, 2, "5 BadText", b"0,1,0.000000000,A,x,7\n", "input s: String\ninput n: Int64\n")
    for digits in bad:
        text = INPUT.encode() + b"/*" + bytes.fromhex(digits) + b"*/"
        came = run("analyse", write("refused.lola", text))
        checks.same(f"a comment that is no UTF-8: {digits}", (3, True), (came.status, came.out.startswith(b"= refused E2 BadToken at ")))
    content = b"time,a\n\xef\xbb\xbf0,7\n"
    expect_malformed(checks, "a row that begins with a byte order mark", content, 1, "5 BadText")
    expect_malformed(checks, "two byte order marks", b"\xef\xbb\xbf" * 2 + b"time,a\n", 0, "1 BadHeading")


def test_line_ends(checks: Checks) -> None:
    trace = b"0,1,0.000000000,A,7\n0,2,1.000000000,A,8\n"
    lines = [b"time,a", b"0,7", b"1,8"]
    for what, content in (
        ("LF", b"\n".join(lines) + b"\n"),
        ("no last line feed", b"\n".join(lines)),
        ("CR LF", b"\r\n".join(lines) + b"\r\n"),
        ("CR LF, and none at the end", b"\r\n".join(lines)),
        ("both", b"time,a\r\n0,7\n1,8\r\n"),
        ("empty lines", b"\n\r\n\n" + b"\n\n\r\n".join(lines) + b"\r\n\n\n"),
        ("a byte order mark", b"\xef\xbb\xbf" + b"\n".join(lines)),
        ("a zero byte in a column that nobody asks for", b"time,a,b\n0,7,\0\n1,8,\0\0\n"),
    ):
        expect_rows(checks, what, content, trace)
    first = b"0,1,0.000000000,A,7\n"
    expect_malformed(checks, "CR as the last byte", b"time,a\n0,7\n1,8\r", 2, "6 BareCr", first)
    expect_malformed(checks, "CR CR LF", b"time,a\n0,7\n1,8\r\r\n", 2, "6 BareCr", first)
    expect_malformed(checks, "lines that end with CR", b"time,a\r0,7\r1,8\r", 0, "6 BareCr")
    expect_malformed(checks, "a line of a blank is no empty line", b"time,a\n0,7\n \n1,8\n", 2, "2 FieldCount", first)
    for what, content in (("no byte", b""), ("one line feed", b"\n"), ("CR LF alone", b"\r\n\r\n"), ("a byte order mark alone", b"\xef\xbb\xbf")):
        expect_malformed(checks, what, content, 0, "1 BadHeading")
    expect_malformed(checks, "a million bytes of 0", bytes(1_000_000), 0, "7 RowTooLong")
    expect(checks, "a specification of no byte", run("analyse", write("empty.lola", b"")), 0, "= done streams 0 windows 0\n")
    expect_streams(checks, "a specification with CR LF", b"input a: Int64\r\noutput b := a\r\n", 2)
