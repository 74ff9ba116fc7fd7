"""Times are whole nanoseconds, and are counted without a float."""
from __future__ import annotations

import re
from typing import Optional

SECOND = 10**9
MOST_TIME = 4_000_000_000 * SECOND  # the latest time of a row
EXACT = re.compile(r"([0-9]{1,10})(?:\.([0-9]{1,9}))?")


def exact_time(word: str) -> Optional[int]:
    """A time in seconds, with nine decimals at most; none where the word is something else."""
    match = EXACT.fullmatch(word)
    return int(match[1]) * SECOND + int((match[2] or "").ljust(9, "0")) if match else None


def divided_up(number: int, by: int) -> int:
    """The least whole number that is no smaller than the quotient."""
    return -(-number // by)
