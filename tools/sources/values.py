"""What fields spell by the rules of docs/formats.md, and what people mean by those that spell nothing there.

Times are whole nanoseconds, and other numbers are decimals of so many digits that nothing is rounded: nothing is a float.
"""
from __future__ import annotations

import re
from datetime import datetime
from decimal import ROUND_FLOOR, ROUND_HALF_UP, Context, Decimal
from enum import Enum
from typing import Dict, NamedTuple, Optional, Tuple

from commands.times import MOST_TIME, SECOND

BLANKS = " \t"
NOTHING = ("", "#")
LONGEST_NUMBER = 40  # characters, and the greatest power of ten, of numbers that are mended
EXACT = Context(prec=4 * LONGEST_NUMBER)
UNITS = {0: "seconds", 3: "milliseconds", 6: "microseconds", 9: "nanoseconds"}
BITS = (8, 16, 32, 64)
RANGES: Dict[str, Tuple[int, int]] = {
    **{f"Int{bits}": (-(1 << bits - 1), (1 << bits - 1) - 1) for bits in BITS},
    **{f"UInt{bits}": (0, (1 << bits) - 1) for bits in BITS},
}

WHOLE = re.compile(r"[+-]?[0-9]+")
NUMBER = re.compile(r"[+-]?(?:[0-9]+\.?[0-9]*|\.[0-9]+)(?:[eE][+-]?[0-9]{1,4})?")
GROUPED = re.compile(r"[+-]?[1-9][0-9]{0,2}(?:\.[0-9]{3})+(?:,[0-9]+)?")
DATE = re.compile(r"([0-9]{4})[-/]([0-9]{2})[-/]([0-9]{2})[T ]([0-9]{2}:[0-9]{2}:[0-9]{2})(?:[.,]([0-9]+))? ?(Z|[+-][0-9]{2}:?[0-9]{2})?")
MISSING = {  # as spreadsheets and libraries write it
    "nan", "na", "n/a", "null", "none", "nil", "nul", "-", "--", "?", "inf", "+inf", "-inf", "infinity", "-infinity",
    "#n/a", "#nv", "#value!", "#wert!", "#div/0!", "#num!", "#zahl!", "#null!", "#ref!", "#bezug!", "#name?",
}
TRUTHS = {
    **dict.fromkeys(("true", "1", "yes", "on", "t", "wahr"), "true"),
    **dict.fromkeys(("false", "0", "no", "off", "f", "falsch"), "false"),
}


def read_number(text: str) -> Optional[Decimal]:
    """The number that a text spells, perhaps with a decimal point or an exponent, without zeros at its end."""
    if len(text) > LONGEST_NUMBER or not NUMBER.fullmatch(text):
        return None
    number = EXACT.normalize(Decimal(text))
    return number if abs(number.adjusted()) <= LONGEST_NUMBER else None


def is_grouped(text: str) -> bool:
    """Whether the points of a number may part thousands, as in 15.100 and 1.234.567,5: each has exactly three digits behind it.

    Those of 0.125 and 1500.250 cannot.
    """
    return GROUPED.fullmatch(text) is not None


def fits(text: str, kind: str) -> bool:
    """Whether digits, with or without a sign, are in the kind's range."""
    size = int(text.lstrip("+-0")[:21] or 0)  # more digits are in no range
    return in_range(-size if text.startswith("-") else size, kind)


def in_range(value: int, kind: str) -> bool:
    least, most = RANGES[kind]
    return least <= value <= most


def wrong_value(text: str, kind: str) -> str:
    """Why a field without blanks at its ends is no value of its kind; empty where it is one."""
    if text in NOTHING or kind == "String":
        return ""
    if kind == "Bool":
        return "" if text in ("true", "false") else "missing" if text.lower() in MISSING else "truth"
    if WHOLE.fullmatch(text):
        return "" if fits(text, kind) else "range"
    return "missing" if text.lower() in MISSING else "decimals" if read_number(text) is not None else "other"


class Loss(Enum):
    """What is lost of a field that is mended."""

    NOTHING = 0
    ROUNDED = 1
    DROPPED = 2


class Mended(NamedTuple):
    """A field as it can be read."""

    text: str
    loss: Loss


DROPPED = Mended("#", Loss.DROPPED)


def mended_value(text: str, kind: str, power: int) -> Mended:
    """A field as it can be read, a number times 10 to that power."""
    if kind == "String":
        return Mended(text, Loss.NOTHING)
    text = text.strip(BLANKS)
    if text in NOTHING or text.lower() in MISSING:
        return Mended("#", Loss.NOTHING)
    if kind == "Bool":
        truth = TRUTHS.get(text.lower())
        return Mended(truth, Loss.NOTHING) if truth else DROPPED
    number = read_number(text)
    if number is None:
        return DROPPED
    scaled = number.scaleb(power, EXACT)
    value = int(scaled.to_integral_value(ROUND_HALF_UP))
    if not in_range(value, kind):
        return DROPPED
    return Mended(str(value), Loss.NOTHING if value == scaled else Loss.ROUNDED)


def time_of(text: str) -> Optional[int]:
    """The nanoseconds of a time in seconds: digits with at most one point."""
    whole, _, decimals = text.strip(BLANKS).partition(".")
    digits = whole + decimals
    if not digits.isdigit() or not digits.isascii():
        return None
    if len(decimals) > 9 or len(whole) > 10:
        whole, decimals = whole.lstrip("0"), decimals[:9]
        digits = whole + decimals
    if len(whole) > 10:
        return None
    time = int(digits or 0) * 10 ** (9 - len(decimals))
    return time if time <= MOST_TIME else None


def date_of(text: str) -> Optional[int]:
    """The nanoseconds since 1970 of a date with a time of day, which is that of UTC where no zone stands behind it."""
    match = DATE.fullmatch(text.strip(BLANKS))
    if not match:
        return None
    *day, clock, decimals, zone = match.groups()
    try:
        moment = datetime.strptime(f"{'-'.join(day)} {clock} {zone or 'Z'}", "%Y-%m-%d %H:%M:%S %z")
        return int(moment.timestamp()) * SECOND + int((decimals or "")[:9].ljust(9, "0"))
    except (ValueError, OverflowError):
        return None


def wrong_time(text: str) -> str:
    """What a field has that is no time."""
    text = text.strip(BLANKS)
    if text in NOTHING:
        return "no time"
    return "date" if date_of(text) is not None else "unit" if read_number(text) is not None else "time"


def mended_time(text: str, unit: int) -> Optional[int]:
    """The nanoseconds of a time in a unit of 10 to the -unit seconds, or of a date; decimals behind the ninth are dropped."""
    number = read_number(text.strip(BLANKS))
    time = date_of(text) if number is None else int(number.scaleb(9 - unit, EXACT).to_integral_value(ROUND_FLOOR))
    return time if time is not None and 0 <= time <= MOST_TIME else None


def unit_of(text: str) -> int:
    """The greatest unit, as a power of ten, in which a number is a time that the program takes; 0 for what is none."""
    return next((unit for unit in UNITS if mended_time(text, unit) is not None), 0)


def seconds(time: int) -> str:
    """A time as people write it: without the zeros behind."""
    decimals = f"{time % SECOND:09d}".rstrip("0")
    return f"{time // SECOND:,}" + (f".{decimals}" if decimals else "")


def written_time(time: int) -> str:
    """A time as a source has it."""
    return seconds(time).replace(",", "")
