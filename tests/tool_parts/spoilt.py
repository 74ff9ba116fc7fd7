"""Spoilt sources, and how the program's run over them ends."""
from __future__ import annotations

import random
import re
import subprocess
from typing import List, Sequence, Tuple

from sources_parts.program import PROGRAM

KINDS = "input a: Int64, b: Bool, c: String, d: UInt8\n" \
        "output n: UInt64 @2Hz := a.aggregate(over: 2s, using: count)\noutput m @3Hz := d.hold(or: 0)\ntrigger b\n"
PIECES = [b'"', b'""', b";", b",", b"\t", b"\r", b"\n", b"\r\n", b"\xef\xbb\xbf", b"\xff", b"\x00", b"NaN", b"1.5", b"1e400", b"-",
          b"#", b" ", b".",
          b"9" * 30, b"256", b"-9223372036854775809", b"true", b"time", b"a", b"x" * 66_000, b"2026-03-01T10:00:00", b"1700000000000",
          "é".encode()]
FIELDS = {"time": ["0", "1.5", ".25", "3.", "2.0000000019", "7"], "a": ["1", "-4", "+0012", "#", "", " 5 "], "b": ["true", " false", "#"],
          "c": ["x", '"y, ""z"""', " #", "", '""'], "d": ["0", "255", "#"], "other": ["", "1.5", "é"]}


def spoilt(dice: random.Random) -> bytes:
    """A source that may be right, with a few of its bytes replaced."""
    names = dice.sample(list(FIELDS), dice.randint(1, 6))
    names = names if "time" in names else ["time", *names]
    rows = [",".join(dice.choice(FIELDS[name]) for name in names) for _ in range(dice.randint(0, 12))]
    data = ("\n".join([",".join(names), *rows]) + dice.choice(["\n", "", "\n\n"])).encode()
    return with_pieces(dice, data, PIECES)


def with_pieces(dice: random.Random, data: bytes, pieces: Sequence[bytes]) -> bytes:
    """Data with a few of its bytes replaced by pieces."""
    for _ in range(dice.choice([0, 0, 1, 1, 2, 5])):
        at = dice.randint(0, len(data))
        data = data[:at] + dice.choice(pieces) + data[at + dice.randint(0, 2):]
    return data


def with_other_lines(dice: random.Random, data: bytes) -> bytes:
    """Data of which two lines are exchanged, one stands twice or is left out, or the end is cut off."""
    lines = data.splitlines(keepends=True) or [b""]
    one, other = dice.randrange(len(lines)), dice.randrange(len(lines))
    way = dice.randrange(4)
    if way == 0:
        lines[one], lines[other] = lines[other], lines[one]
    elif way == 1:
        lines.insert(one, lines[other])
    elif way == 2:
        del lines[one]
    else:
        return data[:dice.randint(0, len(data))]
    return b"".join(lines)


def came(names: List[str], options: List[str], specification: str = "s.lola") -> Tuple[str, int, int]:
    """The same of the program's run."""
    ran = subprocess.run([PROGRAM, "run", *options, specification, *names], capture_output=True)
    end = ran.stdout.decode("utf-8", "replace").splitlines()[-1]
    marks = re.findall(rb"^\d+,\d+,[\d.]+,([AL])", ran.stderr, re.MULTILINE)
    return re.sub(r" lines \d+$", "", end), marks.count(b"A"), marks.count(b"L")
