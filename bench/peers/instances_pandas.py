"""python3 instances_pandas.py FILE: tells when a device comes for the third time."""
import sys

import pandas

rows = pandas.read_csv(sys.argv[1], dtype=str)
for stamp in rows["time"][rows.groupby("dev").cumcount() == 2]:
    whole, _, part = stamp.partition(".")
    print(f'{whole}.{part:0<9} trigger_1 "the third time"')
