#!/usr/bin/env python3
"""Makes one table of several runs: bench/run > 1; bench/run > 2; bench/run > 3; bench/summary.py 1 2 3

A row has the median of the runs' times in microseconds, the median of their ratios, and from where to where these go. `bench/page.py` puts the table of the
runs that are kept into docs/BENCHMARKS.md."""

import sys
from collections import namedtuple
from statistics import median

Row = namedtuple('Row', 'ours theirs ratio low high')


def read(name):
    """(call, beside) -> verified time, other time, ratio"""
    rows = {}
    with open(name, encoding='utf-8') as f:
        for line in f:
            numbers = line[69:].split()
            if len(numbers) == 3 and numbers[2][0].isdigit():
                rows[line[:44].strip(), line[45:69].strip()] = [float(x) for x in numbers]
    return rows


def summary(names):
    """(call, beside) -> Row, of the runs in these files, which must have the same rows."""
    runs = [read(name) for name in names]
    for name, run in zip(names, runs):
        if list(run) != list(runs[0]) or not run:
            sys.exit('summary: %s and %s have not the same rows' % (names[0], name))
    rows = {}
    for row in runs[0]:
        ours, theirs, ratios = zip(*(run[row] for run in runs))
        rows[row] = Row(median(ours), median(theirs), median(ratios), min(ratios), max(ratios))
    return rows


def table(rows):
    lines = ['| call | beside | verified µs | other µs | ratio | spread |', '|---|---|---:|---:|---:|---|']
    lines += ['| %s | %s | %.1f | %.1f | %.2f | %.2f to %.2f |' % (*row, *figures) for row, figures in rows.items()]
    return '\n'.join(lines)


if __name__ == '__main__':
    if len(sys.argv) < 2:
        sys.exit('usage: summary.py RUN...')
    print(table(summary(sys.argv[1:])))
