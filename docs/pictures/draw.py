#!/usr/bin/env python3
"""Draws layers.svg, rounds.svg and tree.svg: draw.py [FOLDER]

They go to FOLDER, or to the folder that this file is in. The layers are those of crates.txt."""

import os
import sys

from layers import placed

HERE = os.path.dirname(os.path.abspath(__file__))
CRATES = os.path.join(HERE, '..', '..', 'crates.txt')

INK = '#1f2933'
SOFT = '#52606d'
LINE = '#9aa5b1'
MATH = '#e3f0ea'
BELIEVE = '#fdf1d6'
CODE = '#e4ecf7'
PROGRAM = '#f3e8f7'
FONT = 'font-family="sans-serif"'


class Picture:
    def __init__(self, width, height, title):
        self.parts = ['<svg xmlns="http://www.w3.org/2000/svg" viewBox="0 0 %d %d" width="%d" height="%d" role="img" aria-label="%s">' % (width, height, width, height, title),
                      '<rect width="100%" height="100%" fill="#ffffff"/>',
                      '<defs><marker id="tip" viewBox="0 0 8 8" refX="7" refY="4" markerWidth="7" markerHeight="7" orient="auto"><path d="M0,0 L8,4 L0,8 z" fill="%s"/></marker></defs>' % SOFT]

    def box(self, x, y, w, h, fill):
        self.parts.append('<rect x="%d" y="%d" width="%d" height="%d" rx="%d" fill="%s" stroke="%s"/>' % (x, y, w, h, h / 5, fill, LINE))

    def text(self, x, y, words, size=12, colour=INK, weight='normal', anchor='start'):
        how = '%s font-size="%d" fill="%s" font-weight="%s" text-anchor="%s"' % (FONT, size, colour, weight, anchor)
        self.parts.append('<text x="%d" y="%d" %s>%s</text>' % (x, y, how, words.replace('&', '&amp;').replace('<', '&lt;')))

    def arrow(self, x1, y1, x2, y2, colour=SOFT):
        self.parts.append('<line x1="%d" y1="%d" x2="%d" y2="%d" stroke="%s" stroke-width="1.4" marker-end="url(#tip)"/>' % (x1, y1, x2, y2, colour))

    def link(self, x1, y1, x2, y2, high, tip):
        """From the lower edge of the row at y1 down to the row at y2, through that row where there is no tip."""
        start, middle = y1 + high, (y1 + high + y2) / 2
        way = 'M%d,%d C%d,%d %d,%d %d,%d' % (x1, start, x1, middle, x2, middle, x2, y2)
        way, end = (way, ' marker-end="url(#tip)"') if tip else ('%s V%d' % (way, y2 + high), '')
        self.parts.append('<path d="%s" fill="none" stroke="%s" stroke-width="1.4"%s/>' % (way, LINE, end))

    def line(self, x1, y1, x2, y2):
        self.parts.append('<line x1="%d" y1="%d" x2="%d" y2="%d" stroke="%s"/>' % (x1, y1, x2, y2, LINE))

    def circle(self, x, y, r, fill, label):
        self.parts.append('<circle cx="%d" cy="%d" r="%d" fill="%s" stroke="%s"/>' % (x, y, r, fill, LINE))
        self.text(x, y + 4, label, 12, INK, 'normal', 'middle')

    def save(self, name):
        with open(os.path.join(folder(), name), 'w', encoding='utf-8') as f:
            f.write('\n'.join(self.parts) + '\n</svg>\n')


def folder():
    return sys.argv[1] if len(sys.argv) > 1 else HERE


def crates():
    """What crates.txt says: crate -> what it rests on, and crate -> the heading that it stands under. Crates of the kit are left out."""
    rests, headings, heading = {}, {}, ''
    with open(CRATES, encoding='utf-8') as f:
        for line in f.read().splitlines():
            if line.startswith('#'):
                heading = line[1:].strip()
            elif ':' in line:
                name, _, others = line.partition(':')
                name = name.split()[0]  # 'staticlib' may stand behind it
                rests[name] = others.split()
                headings[name] = heading
    return {name: [other for other in others if other in rests] for name, others in rests.items()}, headings


def layers():
    rests, headings = crates()
    names = list(rests)
    wide, high, gap, top = 24 + 9 * max(map(len, names)), 30, 46, 76
    rows, down, middle = placed(rests, wide)
    caption = 'A line leads down to what a crate rests on; what it rests on through another one is left out.'
    legend = [(BELIEVE, 'definitions'), (MATH, 'mathematics alone'), (CODE, 'proved code'), (PROGRAM, 'programs')]
    width = int(max(40 + max(x + (wide / 2 if node in rests else 0) for node, x in middle.items()), 40 + 7 * len(caption)))
    p = Picture(width, top + (high + gap) * len(rows) - gap + 20, 'The layers: what rests on what')
    at = {node: (20 + middle[node], top + (high + gap) * (len(rows) - 1 - i)) for i, row in enumerate(rows) for node in row}
    for node in down:
        for end in down[node]:
            p.link(*at[node], *at[end], high, end in rests)
    definitions = max(names, key=lambda name: sum(name in others for others in rests.values()))
    for name in names:
        heading = headings[name]
        fill = BELIEVE if name == definitions else MATH if 'mathematics' in heading else PROGRAM if 'program' in heading else CODE
        p.box(at[name][0] - wide / 2, at[name][1], wide, high, fill)
        p.text(at[name][0], at[name][1] + 20, name, 14, INK, 'bold', 'middle')
    p.text(20, 24, caption, 12, SOFT)
    left = 20
    for fill, words in legend:
        p.box(left, 36, 16, 16, fill)
        p.text(left + 22, 48, words, 12, SOFT)
        left += 50 + 7 * len(words)
    p.save('layers.svg')


def rounds():
    p = Picture(820, 400, 'The rounds of an opening')
    p.text(190, 28, 'prover', 15, INK, 'bold', 'middle')
    p.text(630, 28, 'verifier', 15, INK, 'bold', 'middle')
    p.line(190, 40, 190, 380)
    p.line(630, 40, 630, 340)

    def send(y, words, right=True):
        if right:
            p.arrow(195, y, 624, y)
        else:
            p.arrow(624, y, 196, y)
        p.text(410, y - 6, words, 13, INK, 'normal', 'middle')

    send(70, 'commitment C = Σ m_i·G_i')
    p.text(640, 75, 'claim = C', 12, SOFT)
    p.parts.append('<rect x="20" y="92" width="780" height="170" rx="6" fill="none" stroke="%s" stroke-dasharray="4 4"/>' % LINE)
    p.text(30, 110, 'round i = 1 .. L', 12, SOFT)
    p.text(30, 134, 'halves (m0, m1),', 12, SOFT)
    p.text(30, 150, '(G0, G1) of what is left', 12, SOFT)
    send(140, 'c0, c1, c2 = half^i·(⟨m0,G0⟩, ⟨m0,G1⟩+⟨m1,G0⟩, ⟨m1,G1⟩)')
    p.text(640, 158, '2·(c0+c2) = claim ?', 12, SOFT)
    send(195, 'challenge r = X^e', False)
    p.text(30, 225, 'm ← m0 + r·m1', 12, SOFT)
    p.text(30, 243, 'G ← G0 + r·G1', 12, SOFT)
    p.text(640, 225, 'claim ← c0 + r·c1', 12, SOFT)
    p.text(640, 243, '+ r²·c2', 12, SOFT)
    send(300, 'final element f: all that is left of m')
    p.text(640, 305, 'f within ±n·B ?', 12, SOFT)
    p.text(640, 323, "claim = half^L·f·G' ?", 12, SOFT)
    p.text(630, 365, 'accepted or rejected', 13, INK, 'bold', 'middle')
    p.save('rounds.svg')


def tree():
    p = Picture(760, 380, 'The tree of depth 2 and its numbering')
    level = {0: 60, 1: 170, 2: 290}
    xs = {0: 380}
    for j in range(3):
        xs[1 + j] = 140 + 240 * j
    for k in range(1, 4):
        for j in range(3):
            xs[3 * k + 1 + j] = xs[k] + 76 * (j - 1)
    for k in range(0, 4):
        for j in range(3):
            c = 3 * k + 1 + j
            y = level[0] if k == 0 else level[1]
            yc = level[1] if k == 0 else level[2]
            p.line(xs[k], y + 18, xs[c], yc - 18)
            if k == 0:
                p.text((xs[k] + xs[c]) // 2 + (8 if j == 2 else -8), (y + yc) // 2 - 4, 'r%d' % (j + 1), 12, SOFT, 'normal', 'start' if j == 2 else 'end')
    for k in range(0, 13):
        y = level[0] if k == 0 else level[1] if k < 4 else level[2]
        p.circle(xs[k], y, 18, CODE if k < 4 else BELIEVE, str(k))
        if k >= 4:
            p.text(xs[k], level[2] + 36, 'leaf %d' % (k - 4), 11, SOFT, 'normal', 'middle')
    p.text(410, 50, 'root: c0, c1, c2 and three different challenges', 12, SOFT)
    p.text(20, 30, 'Children of node k: 3k+1, 3k+2, 3k+3.', 12, SOFT)
    p.text(20, 48, 'L = 2: N = 4 branching nodes, number N + j is leaf j.', 12, SOFT)
    p.text(20, 350, 'A leaf has a final element. Going up, a node makes Σ μ_j·v_j followed by Σ μ_j·r_j·v_j of its children’s vectors;', 12, SOFT)
    p.text(20, 368, 'the root’s vector w opens 4^L times the commitment.', 12, SOFT)
    p.save('tree.svg')


if __name__ == '__main__':
    layers()
    rounds()
    tree()
