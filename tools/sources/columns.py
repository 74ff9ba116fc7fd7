"""What the columns of a source hold: values that are wrong, and how many digits the numbers have."""
from __future__ import annotations

from dataclasses import dataclass
from typing import Dict, Optional, Set

from sources.values import BLANKS, NOTHING, RANGES, is_grouped, read_number, wrong_value

MOST_DECIMALS = 9
MOST_KNOWN = 1000


@dataclass
class Problem:
    """Lines that have one thing wrong: how many, and of the first one its number, its text and the field."""

    count: int
    number: int
    text: str
    field: str


class Problems(Dict[str, Problem]):
    """What is wrong, by its sort."""

    def note(self, sort: str, number: int, text: str, wrong_field: str = "") -> None:
        if sort in self:
            self[sort].count += 1
        else:
            self[sort] = Problem(1, number, text, wrong_field)


class Column:
    """The column of an input: what is wrong in it, and how many digits its numbers have."""

    def __init__(self, name: str, kind: str, index: int) -> None:
        self.name = name
        self.kind = kind
        self.index = index
        self.room = len(str(RANGES[kind][1])) - 1 if kind in RANGES else 0  # so many digits are in the range, whichever they are
        self.places = 0  # the most characters of a right value, and digits before the point of others
        self.decimals = 0
        self.known: Set[str] = set()  # values that are right
        self.problems = Problems()
        self.points = Problems()  # numbers with points, by what these may be: `thousands`, of them `certain` ones, or `decimal`

    def look(self, text: str, number: int, line: str) -> bool:
        """Whether a field is a value of the kind, or none."""
        if text.isdigit() and len(text) <= min(self.places, self.room) and text.isascii():
            return True
        bare = text.strip(BLANKS)
        wrong = "blanks" if self.kind == "String" and bare != text else wrong_value(bare, self.kind)
        is_right = wrong in ("", "blanks")
        if wrong:
            self.problems.note(wrong, number, line, text)
        elif len(self.known) < MOST_KNOWN:
            self.known.add(text)
        else:
            self.known.clear()
        spelt = read_number(bare) if wrong == "decimals" else None
        if spelt is not None:
            self.places = max(self.places, spelt.adjusted() + 1, 1)
            self.decimals = max(self.decimals, -int(spelt.as_tuple().exponent))
        elif is_right and bare not in NOTHING:
            self.places = max(self.places, len(bare))
        return is_right

    def look_at_points(self, text: str, number: int, line: str) -> None:
        """Looks at a field as it stands in the line: whether its points may part thousands."""
        bare = text.strip(BLANKS)
        if "." not in bare:
            return
        if is_grouped(bare):
            self.points.note("thousands", number, line, bare)
            if bare.count(".") > 1 or "," in bare:
                self.points.note("certain", number, line, bare)
        elif read_number(bare.replace(",", ".")) is not None:
            self.points.note("decimal", number, line, bare)

    def with_thousands(self) -> Optional[Problem]:
        """The numbers whose points can only part thousands, as in 1.234.567, where no other number has a decimal point."""
        return None if "decimal" in self.points else self.points.get("certain")

    def in_doubt(self) -> Optional[Problem]:
        """The numbers whose points may part thousands, where no number of the column shows whether they do."""
        return None if "decimal" in self.points or "certain" in self.points else self.points.get("thousands")

    def power(self) -> int:
        """The power of ten that makes the numbers whole, as far as the kind has room for them."""
        return max(0, min(self.decimals, MOST_DECIMALS, self.room - self.places))
