"""Where ticks stand on an axis, and what is written at them. All is whole numbers: times are nanoseconds."""
from __future__ import annotations

from datetime import datetime, timezone
from typing import List, NamedTuple, Optional

from commands.times import SECOND, divided_up

MINUTE = 60 * SECOND
HOUR = 60 * MINUTE
DAY = 24 * HOUR
FIRST_DATE = 100_000_000 * SECOND  # times from here on, in 1973, are dates
MANY_ZEROS = 7
CLOCK_STEPS = ([SECOND * count for count in (1, 2, 5, 10, 15, 30)] + [MINUTE * count for count in (1, 2, 5, 10, 15, 30)]
               + [HOUR * count for count in (1, 2, 3, 6, 12)])


class Tick(NamedTuple):
    place: int
    label: str


class TimeAxis(NamedTuple):
    """The ticks of an axis of time, and what stands below it."""

    ticks: List[Tick]
    title: str


class Unit(NamedTuple):
    """A unit of time, and from which span on times are told in it. Both are nanoseconds."""

    name: str
    length: int
    least_span: int


UNITS = (Unit("d", DAY, 3 * DAY), Unit("h", HOUR, 3 * HOUR), Unit("min", MINUTE, 10 * MINUTE), Unit("s", SECOND, 0))


def round_step(least: int) -> int:
    """The least of 1, 2, 5, 10, 20, 50 and so on that is no smaller."""
    power = 1
    while power * 10 <= least:
        power *= 10
    return next(power * digit for digit in (1, 2, 5, 10) if power * digit >= least)


def first_of(steps: List[int], least: int) -> Optional[int]:
    """The first of some rising steps that is no smaller."""
    return next((step for step in steps if step >= least), None)


def places(low: int, high: int, step: int) -> List[int]:
    """The multiples of a step that lie between two numbers."""
    return list(range(divided_up(low, step) * step, high + 1, step))


def value_ticks(low: int, high: int, most: int) -> List[Tick]:
    """So many round numbers at most, or if these were less than two, twice as many."""
    found = places(low, high, round_step(max(1, divided_up(high - low, most))))
    if len(found) < 2:
        found = places(low, high, round_step(max(1, divided_up(high - low, 2 * most))))
    return [Tick(place, short(place)) for place in found]


def short(number: int) -> str:
    """A number, with an exponent in the place of many zeros: 1.5e19."""
    digits = str(abs(number))
    told = digits.rstrip("0")
    if number == 0 or len(digits) - len(told) < MANY_ZEROS:
        return str(number)
    rest = "." + told[1:] if told[1:] else ""
    return f"{'-' if number < 0 else ''}{told[0]}{rest}e{len(digits) - 1}"


def decimal(number: int, unit: int, step: int) -> str:
    """The number in this unit, with as many decimals as the multiples of the step need."""
    decimals = next(count for count in range(19) if step * 10**count % unit == 0)
    whole, rest = divmod(abs(number), unit)
    sign = "-" if number < 0 else ""
    return f"{sign}{whole}" + (f".{rest * 10**decimals // unit:0{decimals}}" if decimals else "")


def unit_step(least: int, unit: int) -> int:
    """The least round step in this unit, or in a part of it that is a whole number of nanoseconds."""
    if unit == SECOND:
        return round_step(least)
    parts = [unit // count for count in (100, 50, 20, 10, 5, 2)]
    return first_of(parts, least) or unit * round_step(divided_up(least, unit))


def elapsed_ticks(low: int, high: int, most: int) -> TimeAxis:
    """Ticks in seconds, minutes, hours or days."""
    unit = next(unit for unit in UNITS if high - low >= unit.least_span)
    step = unit_step(max(1, divided_up(high - low, most)), unit.length)
    return TimeAxis([Tick(place, decimal(place, unit.length, step)) for place in places(low, high, step)], f"time in {unit.name}")


def clock(time: int, step: int) -> str:
    """What is written at a date, by the step from one tick to the next."""
    moment = datetime.fromtimestamp(time // SECOND, timezone.utc)
    if step >= DAY:
        return moment.strftime("%m-%d")
    if step >= MINUTE:
        return moment.strftime("%H:%M")
    shown = moment.strftime("%H:%M:%S")
    return shown if step >= SECOND else shown + decimal(time % SECOND, SECOND, step)[1:]


def date_ticks(low: int, high: int, most: int) -> TimeAxis:
    """Ticks at round times of the day, and the days."""
    least = max(1, divided_up(high - low, most))
    if least <= SECOND // 2:
        step = round_step(least)
    else:
        step = first_of(CLOCK_STEPS, least) or DAY * round_step(divided_up(least, DAY))
    days = [datetime.fromtimestamp(time // SECOND, timezone.utc).strftime("%Y-%m-%d") for time in (low, high)]
    title = " to ".join(dict.fromkeys(days)) + ", UTC"
    return TimeAxis([Tick(place, clock(place, step)) for place in places(low, high, step)], title)


def time_ticks(low: int, high: int, most: int) -> TimeAxis:
    return date_ticks(low, high, most) if low >= FIRST_DATE else elapsed_ticks(low, high, most)
