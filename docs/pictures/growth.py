#!/usr/bin/env python3
"""Draws growth.svg from growth.txt, which differential's `growth` prints, and prints its numbers as tables: growth.py [FOLDER]

The picture goes to FOLDER, or to the folder that this file is in. bench/page.py puts the tables into docs/BENCHMARKS.md."""

import os
from math import log10

from draw import HERE, INK, LINE, SOFT, Picture

DEGREES = [2, 4, 8, 16, 32, 64]
DEPTHS = range(9)
COLOURS = ['#9fb3c8', '#627d98', '#3a7ca5', '#2f855a', '#c05621', '#9b2c2c']
TIMES = ['0.1 µs', '1 µs', '10 µs', '100 µs', '1 ms', '10 ms', '100 ms']
# call in growth.txt, its title, and what its time is divided by in the second table: how many of these there are, and their name
CALLS = [('commit', 'Commitment', lambda d, n: n * d * d, 'n·d² products of coefficients'),
         ('open', 'Whole opening', lambda d, n: n * d * d, 'n·d² products of coefficients'),
         ('check', 'Check of a transcript', lambda d, n: n * d, 'n·d numbers of the key'),
         ('session', 'Session of all its rounds', lambda d, n: n * d, 'n·d numbers of the key')]
# A depth at which trees are extracted at every degree.
ALWAYS_EXTRACTED = 4


def read():
    """(call, d, L) -> microseconds; where the extractor refuses the growth, its time is the check of the tree."""
    with open(os.path.join(HERE, 'growth.txt')) as f:
        lines = [line.split() for line in f.read().splitlines()[1:]]
    return {(call, int(d), int(depth)): float(time) for call, d, depth, time in lines}


class Panel:
    """A square with two logarithmic axes: 1 to the last of the marks across, 0.1 µs to 100 ms up."""

    def __init__(self, picture, left, top, title, across, marks):
        self.p, self.left, self.top, self.most = picture, left, top, marks[-1]
        picture.text(left + 120, top + 28, title, 14, INK, 'bold', 'middle')
        picture.text(left + 120, top + 348, across, 12, SOFT, 'normal', 'middle')
        for power, words in enumerate(TIMES, -1):
            y = self.y(10.0 ** power)
            self.grid(left, y, left + 240, y)
            picture.text(left - 6, y + 4, words, 10, SOFT, 'normal', 'end')
        for count in marks:
            self.grid(self.x(count), top + 40, self.x(count), top + 310)
            picture.text(self.x(count), top + 326, str(count), 10, SOFT, 'normal', 'middle')

    def grid(self, x1, y1, x2, y2):
        self.p.parts.append('<line x1="%.1f" y1="%.1f" x2="%.1f" y2="%.1f" stroke="%s" stroke-width="0.5"/>' % (x1, y1, x2, y2, LINE))

    def x(self, count):
        return self.left + 240 * log10(count) / log10(self.most)

    def y(self, time):
        return self.top + 310 - 45 * (log10(time) + 1)

    def curve(self, points, colour, open_points=()):
        path = ' '.join('%.1f,%.1f' % (self.x(a), self.y(b)) for a, b in points)
        self.p.parts.append('<polyline points="%s" fill="none" stroke="%s" stroke-width="1.6"/>' % (path, colour))
        for point in points:
            fill = '#ffffff' if point in open_points else colour
            self.p.parts.append('<circle cx="%.1f" cy="%.1f" r="2.6" fill="%s" stroke="%s"/>' % (self.x(point[0]), self.y(point[1]), fill, colour))


def draw(times):
    p = Picture(1000, 740, 'How the time of the calls grows')
    places = [(70, 0), (390, 0), (70, 370), (390, 370)]
    panels = [Panel(p, *place, title.lower(), 'elements of a table, 2^L', (1, 4, 16, 64, 256)) for place, (_, title, _, _) in zip(places, CALLS)]
    trees = Panel(p, 710, 0, 'extraction', 'leaves of the tree, 3^L', (1, 9, 81, 729, 6561))
    for i, (d, colour) in enumerate(zip(DEGREES, COLOURS)):
        for panel, (call, _, _, _) in zip(panels, CALLS):
            panel.curve([(2 ** depth, times[call, d, depth]) for depth in DEPTHS], colour)
        checks = [(3 ** depth, times['tree', d, depth]) for depth in DEPTHS if ('tree', d, depth) in times]
        whole = [(3 ** depth, times['extract', d, depth]) for depth in DEPTHS if ('extract', d, depth) in times]
        trees.curve(whole + checks, colour, checks)
        y = 430 + 26 * i
        p.parts.append('<line x1="710" y1="%d" x2="740" y2="%d" stroke="%s" stroke-width="3"/>' % (y, y, colour))
        p.text(750, y + 4, 'd = %d' % d)
    p.text(710, 606, 'open points: refused by 14', 11, SOFT)
    p.text(710, 622, 'after the check of the whole tree', 11, SOFT)
    p.save('growth.svg')


def table(title, head, rows):
    """Rows begin with their own cell of the first column."""
    lines = [title, '', '| ' + ' | '.join(head) + ' |', '|---' * len(head) + '|']
    return '\n'.join(lines + ['| ' + ' | '.join(row) + ' |' for row in rows])


def number(time):
    return '%.1f' % time if time < 100 else '%d' % round(time)


def by_degree(title, cell, head=tuple('L = %d' % depth for depth in DEPTHS)):
    return table(title, ['d', *head], [[str(d)] + [cell(d, depth) for depth in DEPTHS] for d in DEGREES])


def step(times, call, title, depth):
    """How many times as long a call takes at the next degree, and at the next depth."""
    degrees = ['%.1f' % (times[call, after, depth] / times[call, before, depth]) for before, after in zip(DEGREES, DEGREES[1:])]
    return ['%s, L = %d' % (title.lower(), depth), *degrees, '%.1f' % (times[call, DEGREES[-1], depth] / times[call, DEGREES[-1], depth - 1])]


def tables(times):
    def tree(d, depth):
        if ('extract', d, depth) in times:
            return number(times['extract', d, depth])
        return '(%s)' % number(times['tree', d, depth])

    steps = ['%d to %d' % pair for pair in zip(DEGREES, DEGREES[1:])]
    rows = [step(times, call, title, DEPTHS[-1]) for call, title, _, _ in CALLS]
    rows.append(step(times, 'extract', 'Extraction', ALWAYS_EXTRACTED))
    made = [table('How many times as long one step takes: from degree to degree, and from the depth before at d = %d' % DEGREES[-1], ['call', *steps, 'one deeper'], rows)]
    for call, title, many, what in CALLS:
        made.append(by_degree(title + ', µs', lambda d, depth: number(times[call, d, depth])))
        made.append(by_degree('%s, ns for each of the %s' % (title, what), lambda d, depth: '%.2f' % (1000 * times[call, d, depth] / many(d, 2 ** depth))))
    leaves = ['%d' % 3 ** depth for depth in DEPTHS]
    made.append(by_degree('Extraction by the number of leaves, µs; in brackets the check alone, where the growth is refused', tree, leaves))
    return '\n\n'.join(made)


if __name__ == '__main__':
    measured = read()
    draw(measured)
    print(tables(measured))
