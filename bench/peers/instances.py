"""python3 instances.py FILE: tells when a device comes for the third time."""
import csv
import sys
from collections import Counter


def main():
    seen = Counter()
    with open(sys.argv[1], newline="") as file:
        lines = csv.reader(file)
        next(lines)
        for stamp, device in lines:
            seen[device] += 1
            if seen[device] == 3:
                whole, _, part = stamp.partition(".")
                print(f'{whole}.{part:0<9} trigger_1 "the third time"')


main()
