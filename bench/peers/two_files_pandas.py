"""python3 two_files_pandas.py TEMPERATURES HUMIDITIES: at each second of the rows the mean of a minute's temperatures,
the last humidity, and how often a device came."""
import sys

import numpy
import pandas

temperatures, humidities = (pandas.read_csv(name) for name in sys.argv[1:])
start = temperatures["time"].iloc[0]
last = max(temperatures["time"].iloc[-1], humidities["time"].iloc[-1])
seconds = numpy.arange(1, int(last - start) + 1)
# of each second what came since the one before, its end counted
second_of = [numpy.ceil(rows["time"] - start).astype(int) for rows in (temperatures, humidities)]
seconds_and_start = range(0, len(seconds) + 1)
panes = temperatures["temp"].groupby(second_of[0]).agg(["sum", "count"])
minutes = panes.reindex(seconds_and_start, fill_value=0).rolling(60, min_periods=1).sum().loc[1:]
last_humidity = humidities["hum"].groupby(second_of[1]).last().reindex(seconds_and_start).ffill().fillna(0).loc[1:]
seen = (temperatures["dev"] == "d0").groupby(second_of[0]).sum().reindex(seconds_and_start, fill_value=0).cumsum().loc[1:]
is_warm = (minutes["count"] > 0) & (minutes["sum"] // minutes["count"].clip(lower=1) >= 224)
told = is_warm & (last_humidity > 60) & (seen % 2 == 0)
for second in seconds[told.to_numpy()]:
    print(f'{start + second:.9f} trigger_1 "warm and damp"')
