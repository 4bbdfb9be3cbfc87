#!/usr/bin/env python3
"""Writes what was measured into docs/BENCHMARKS.md, between its markers.

    bench/page.py            writes
    bench/page.py --check    writes nothing, and fails where something else stands there

Of the runs that bench/measure keeps in bench/runs: where they come from, the table of times, the goals, the transform beside the plain product, the stack. Of docs/pictures/growth.txt: the tables of
how times grow. Where no runs are kept, these alone are written."""

import glob
import os
import pathlib
import sys

ROOT = pathlib.Path(__file__).resolve().parent.parent
RUNS = ROOT / 'bench' / 'runs'
sys.dont_write_bytecode = True
sys.path[:0] = [str(ROOT / 'docs'), str(ROOT / 'docs' / 'pictures')]
import growth  # noqa: E402
import summary  # noqa: E402
from marked import place  # noqa: E402

LARGE = 'd = 64, L = 8'
FAST, PATHS = 'fast, plain x86-64', 'verified, path by path'
# call, beside whom, the ratio that is wanted
GOALS = [(call + ', ' + LARGE, beside, most)
         for beside, most in [(FAST, 1.0), ('FLINT nmod_poly', 0.4), ('FLINT, reduced once', 0.4), ('NTL zz_pX', 0.25), ('NTL, summed transforms', 0.25)]
         for call in ('commit', 'open')]
GOALS += [('tree check, ' + LARGE, FAST, 1.5), ('tree check, ' + LARGE, PATHS, 0.1), ('extract, d = 64, L = 3', FAST, 1.5), ('extract, d = 64, L = 4', FAST, 1.5), ('extract, d = 4, L = 8', FAST, 1.5),
          ('read, 65536 bytes', FAST, 1.5), ('write, 65536 bytes', FAST, 1.5), ('open, ' + LARGE, FAST, 0.4)]
GOALS += [(call + ', d = 4, L = 8', FAST, 2.0) for call in ('commit', 'open', 'judge')] + [(call + ', ' + LARGE, FAST, 1.3) for call in ('check', 'session')]
GOALS += [('names line, 1000 times', 'C, a loop of bytes', 0.5)]
SMALL, PLAIN = ', L = 8, q = 12289', 'verified, plain product'
GOALS += [('commit, d = 64' + SMALL, 'verified, q = 12347', 0.65), ('open, d = 64' + SMALL, 'verified, q = 12347', 0.6),
          ('commit, d = 128' + SMALL, PLAIN, 0.42), ('open, d = 128' + SMALL, PLAIN, 0.35)]
GOALS += [('%s, d = 64, L = 8%s, four rows' % (call, q), 'verified, one row', 3.6) for q in ('', ', q = 12289') for call in ('commit', 'open')]
GOALS += [('%s a key, 1024 numbers, four rows' % call, 'verified, one row', 1.05) for call in ('write', 'read')]


def origin(names):
    lines = (RUNS / 'from.txt').read_text(encoding='utf-8').splitlines()
    rows = [line.split(': ', 1) for line in lines] + [['runs', str(len(names))]]
    return '\n'.join(['| | |', '|---|---|'] + ['| %s | %s |' % tuple(row) for row in rows])


def unsteady(rows):
    """The call whose own time differs most between its rows."""
    times = {}
    for (call, _), row in rows.items():
        times.setdefault(call, []).append(row.ours)
    call, least, most = max(((call, min(own), max(own)) for call, own in times.items()), key=lambda found: found[2] / found[1])
    return 'Times compare within a row only: %s has medians of our own time from %.1f to %.1f µs in different rows.' % (call, least, most)


def goals(rows):
    lines = ['| call | beside | ratio wanted, at most | ratio | spread | |', '|---|---|---:|---:|---|---|']
    for call, beside, most in GOALS:
        if (call, beside) in rows:
            row = rows[call, beside]
            word = 'met' if row.high <= most else 'met by the median' if row.ratio <= most else 'not met'
            lines.append('| %s | %s | %.2f | %.3f | %.3f to %.3f | %s |' % (call, beside, most, row.ratio, row.low, row.high, word))
        else:
            lines.append('| %s | %s | %.2f | | | not measured |' % (call, beside, most))
    return '\n'.join(lines)


def transform(rows):
    lines = ['| d | transform µs | plain µs | ratio | transform, times the degree before | plain, times the degree before |', '|---:|---:|---:|---:|---:|---:|']
    before = None
    for degree in (32, 64, 128):
        row = rows.get(('commit, d = %d%s' % (degree, SMALL), PLAIN))
        if row is None:
            return 'Not measured yet.'
        grown = ['%.2f' % (now / then) for now, then in zip(row, before)][:2] if before else ['', '']
        lines.append('| %d | %.1f | %.1f | %.3f | %s | %s |' % (degree, row.ours, row.theirs, row.ratio, *grown))
        before = row
    return '\n'.join(lines)


def stack():
    rows = []
    for line in (RUNS / 'stack.txt').read_text(encoding='utf-8').splitlines():
        rows.append('| %s | %s |' % (line[:44].strip(), '{:,}'.format(int(line[44:].split()[0]))))
    return '\n'.join(['| call | bytes of stack |', '|---|---:|'] + rows)


def main():
    check = sys.argv[1:] == ['--check']
    if sys.argv[1:] and not check:
        sys.exit('usage: bench/page.py [--check]')
    parts = {'growth': growth.tables(growth.read())}
    names = sorted(glob.glob(os.path.join(RUNS, '[0-9]*.txt')))
    if names:
        rows = summary.summary(names)
        parts.update({'origin': origin(names), 'times': unsteady(rows) + '\n\n' + summary.table(rows), 'goals': goals(rows), 'transform': transform(rows), 'stack': stack()})
    page = ROOT / 'docs' / 'BENCHMARKS.md'
    differ = [name for name, text in parts.items() if not place(page, name, 'bench/page.py', text, check)]
    if check and differ:
        sys.exit('page: docs/BENCHMARKS.md has other figures than were measured: ' + ', '.join(differ))
    print('page: ' + ('written: ' + ', '.join(differ) if differ else 'docs/BENCHMARKS.md has what was measured') + ('' if names else '; no runs are kept in bench/runs'))


main()
