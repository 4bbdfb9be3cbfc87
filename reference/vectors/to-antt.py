#!/usr/bin/env python3
"""Turns drawn cases (the format of the program `cases`) into rows of worked examples for the prover.

Usage: to-antt.py < small.txt > ../../crates/drawn/proofs/Drawn.antt
Each case becomes one row: what the definitions give for its inputs, and the outputs that the reference gave. What is passed by value for each row of a
key is written as the elements of the four rows, a round polynomial as a list of three such."""
import sys
import textwrap

lines = [line.split() for line in sys.stdin.read().split('\n')]
at = 0


def take():
    global at
    at += 1
    return [int(word) for word in lines[at - 1]]


def table():
    numbers = take()
    assert numbers[0] == len(numbers) - 1
    return numbers[1:]


def listed(words):
    return '(' + ''.join(word + ' ∷ ' for word in words) + '[])' if words else '[]'


def naturals(l):
    return listed([str(n) for n in l])


def text(l):
    """Bytes as a quoted text, in pieces that end with a line feed or are long enough; as numbers where one has no character here."""
    if not l or any(not (32 <= n < 127 or n == 10) or n in (34, 92) for n in l):
        return naturals(l)
    pieces = ['']
    for n in l:
        pieces[-1] += '\\n' if n == 10 else '·' if n == 32 else chr(n)
        if len(pieces[-1]) > (100 if n == 10 else 140):
            pieces.append('')
    return '(bytes (%s))' % ' ++ '.join('"%s"' % piece for piece in pieces if piece)


def integer(z):
    return 'pos %d' % z if z >= 0 else 'negsuc %d' % (-z - 1)


def integers(l):
    return listed([integer(z) for z in l])


def settings(s):
    return '(set %d %d %d %d %d)' % tuple(s)


def rows():
    """The elements of four rows that are passed by value, a line each."""
    return '(by_row %s)' % ' '.join(naturals(table()) for _ in range(4))


def polynomial():
    """Rows of c0, of c1 and of c2."""
    return listed([rows() for _ in range(3)])


def record():
    s = take()
    done, closed = take()
    claims = rows()
    challenges = take()
    return '(session %s %d %s %s %s)' % (settings(s), done, claims, naturals(challenges), 'true' if closed else 'false')


def tables():
    key, message, commitment, rounds, challenges, last, claims = (table() for _ in range(7))
    residues = [naturals(l) for l in (commitment, rounds, challenges)]
    return '(seven_tables %s %s %s %s %s)' % (naturals(key), integers(message), ' '.join(residues), integers(last), naturals(claims))


def parts():
    return '(seven_parts %s)' % ' '.join('true' if p else 'false' for p in take())


def verdict(v):
    return ['Silent', 'Holds', 'Accepted', 'Rejected'][v]


def cause(c, t):
    return ['Cause.none', '(Cause.round %d)' % t, 'Cause.bound', 'Cause.equation'][c]


def case(name):
    if name == 'commit':
        s = settings(take()); key = naturals(table()); message = integers(table())
        return 'commit_row %s %s %s %d %s' % (s, key, message, take()[0], rows())
    if name == 'round':
        s = settings(take()); t = take()[0]; key = naturals(table()); message = integers(table())
        return 'round_row %s %d %s %s %d %s' % (s, t, key, message, take()[0], polynomial())
    if name == 'fold':
        s = settings(take()); t, e = take(); key = naturals(table()); message = integers(table())
        return 'fold_row %s %d %d %s %s %d %s %s' % (s, t, e, key, message, take()[0], naturals(table()), integers(table()))
    if name == 'end':
        s = settings(take()); t = take()[0]; message = integers(table())
        return 'end_row %s %d %s %d %s' % (s, t, message, take()[0], integers(table()))
    if name == 'opening':
        s = settings(take()); key = naturals(table()); message = integers(table()); e = naturals(table()); rounds = naturals(table())
        n, v = take()
        return 'opening_row %s %s %s %s %s %d %s %s %s %s %s %s' % (s, key, message, e, rounds, n, verdict(v), rows(), integers(table()), naturals(table()), integers(table()), naturals(table()))
    if name == 'start':
        s = settings(take()); c = rows()
        return 'start_row %s %s %d %s' % (s, c, take()[0], record())
    if name == 'session_round':
        r = record(); p = polynomial(); e = take()[0]
        n, v = take()
        return 'move_row %s %s %d %d %s %s' % (r, p, e, n, verdict(v), record())
    if name == 'session_end':
        r = record(); f = integers(table()); key = naturals(table())
        n, v = take()
        return 'close_row %s (full_signed %s) %s %d %s %s' % (r, f, key, n, verdict(v), record())
    if name == 'check':
        s = settings(take()); c = rows(); f = integers(table()); key = naturals(table()); rounds = naturals(table()); e = naturals(table())
        n, v = take()
        why, t = take()
        return 'check_row %s %s (full_signed %s) %s %s %s %d %s %s' % (s, c, f, key, rounds, e, n, verdict(v), cause(why, t))
    if name == 'judge':
        s = settings(take()); c = rows(); slack = take()[0]; key = naturals(table()); w = integers(table())
        n, yes = take()
        return 'judge_row %s %s %d %s %s %d %s' % (s, c, slack, key, w, n, 'true' if yes else 'false')
    if name == 'extract':
        s = settings(take()); c = rows(); key = naturals(table()); rounds = naturals(table()); e = naturals(table()); leaves = integers(table()); w = integers(table())
        return 'extract_row %s %s %s %s %s %s %s %d %s' % (s, c, key, rounds, e, leaves, w, take()[0], integers(table()))
    if name == 'read':
        p = parts(); given = text(table()); t = tables()
        n = take()[0]
        return 'read_row %s %s %s %d %s %s' % (p, given, t, n, settings(take()), tables())
    if name == 'write':
        s = settings(take()); p = parts(); t = tables(); room, byte = take()
        n, length = take()
        return 'write_row %s %s %s %d %d %d %d %s' % (s, p, t, room, byte, n, length, text(table()))
    if name == 'prove':
        given = text(table()); room, byte = take()
        n, length = take()
        return 'prove_row %s %d %d %d %d %s' % (given, room, byte, n, length, text(table()))
    if name == 'verify':
        given = text(table())
        n, v = take()
        return 'verify_row %s %d %s' % (given, n, verdict(v))
    raise SystemExit('unknown case ' + name)


groups = {}
while at < len(lines):
    head = lines[at]
    at += 1
    if head:
        row = case(head[0])
        groups.setdefault(row.split()[0], []).append(row)
print('''-- Made by reference/vectors/to-antt.py from reference/vectors/small.txt: drawn cases, whose outputs come from another author's implementation.
-- For each call a table of its cases, and that the definitions give what the reference gave.
use mathlib.Core.Path.{◌≡◌, refl}
use mathlib.Core.Bool.{true, false}
use mathlib.Core.List.{List, [], ◌∷◌}
use Prim.Native.String.{◌++◌}
use lib.IntN.{pos, negsuc}
use Rattle.protocol.specs.Answers.Verdict.{Silent, Holds, Accepted, Rejected}
use Rattle.protocol.specs.Basic.{all}
use Rattle.protocol.specs.Rows.{Cause}
use Rattle.text_format.specs.Text.{bytes}
use Rattle.protocol.proofs.Examples.{Example, agree, agreeing}
use Rattle.protocol.proofs.Compute.{computed}
use Rattle.text_format.proofs.ComputeText.{computed_text}
use Rattle.drawn.proofs.Rows.{rows_unfolded, set, session, by_row, full_signed, seven_tables, seven_parts, commit_row, round_row, fold_row, end_row, opening_row}
use Rattle.drawn.proofs.Rows.{start_row, move_row, close_row, check_row, judge_row, extract_row, read_row, write_row, prove_row, verify_row}''')
for name, examples in groups.items():
    print('''
unfoldable pub %ss : List Example
%ss =''' % (name, name))
    for row in examples:
        head = '    ' if row is examples[0] else '    ∷ '
        # a dot stands for a space in a quoted text, so that no line is broken there
        print(textwrap.fill(row, width=180, initial_indent=head, subsequent_indent='    ', break_long_words=False, break_on_hyphens=False).replace('·', ' '))
    print('''    ∷ []

pub %ss-agree : all agree %ss ≡ true
unfolding computed computed_text agreeing rows_unfolded %ss
%ss-agree = refl''' % (name, name, name, name))
