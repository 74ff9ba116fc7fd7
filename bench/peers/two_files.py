"""python3 two_files.py TEMPERATURES HUMIDITIES: at each second of the rows the mean of a minute's temperatures, the
last humidity, and how often a device came."""
import csv
import heapq
import sys
from collections import Counter, deque


def rows(name, place):
    with open(name, newline="") as file:
        lines = csv.reader(file)
        next(lines)
        for stamp, *device, value in lines:
            yield float(stamp), place, device, int(value)


def main():
    window, seen, total, last_humidity, second = deque(), Counter(), 0, 0, None

    def tell():
        nonlocal total, second
        while window and window[0][0] <= second - 60:
            total -= window.popleft()[1]
        if window and total // len(window) >= 224 and last_humidity > 60 and seen["d0"] % 2 == 0:
            print(f'{second:.9f} trigger_1 "warm and damp"')
        second += 1

    for stamp, place, device, value in heapq.merge(rows(sys.argv[1], 0), rows(sys.argv[2], 1)):
        if second is None:
            second = stamp + 1
        while second < stamp:
            tell()
        if place == 0:
            window.append((stamp, value))
            total += value
            seen[device[0]] += 1
        else:
            last_humidity = value
    if second <= stamp:
        tell()


main()
