#!/usr/bin/env python3
"""Document 02's A2 stated once more, by regular expressions that share nothing with the crates: sources, and what a listing of them says.

usage: tests/numbers.py frames|answers all|few

`all` is every source of up to six of the characters `0 1 e E + - . _ x b a ;`. `few`, which the gate replays, is A2's table, every source of up
to two of them, and of those in which an `e` or `E` is followed by a sign each 397th. Frames are what the program `replay` reads, answers
what it has to print.
"""
import itertools
import re
import sys

ALPHABET = '01eE+-._xba;'
LONGEST = 6
TOKEN = re.compile(r'''
      (?P<number> 0[xbo]\w*(?:\.\d\w*)?              # begins with 0x, 0b or 0o: no sign in it
                | \d[\d_]*[eE][+-]\d[\d_]*           # the whole part is digits and _, then one e or E: with sign and digits, and there it ends
                | \d\w*\.\d[\d_]*[eE][+-]\d[\d_]*    # the part after the . is
                | \d\w*(?:\.\d\w*)? )                # document 01's own rule
    | (?P<word> [A-Za-z_]\w* )
    | (?P<operator> \.\. | [-+.;] )
    ''', re.X | re.A)
OPERATORS = {'+': 25, '-': 27, '.': 28, ';': 31, '..': 52}
EXPONENT = re.compile(r'[eE][+-]')

# A2's own table, by hand.
TABLE = [
    ('1e-3', '8 0 4'), ('1.5e+2', '8 0 6'), ('1_0E-0_3;', '8 0 8,31 8 9'), ('0e-3', '8 0 4'), ('1e-3.5', '8 0 4,28 4 5,8 5 6'),
    ('1e-3e-4', '8 0 4,6 4 5,27 5 6,8 6 7'), ('1e-x', '8 0 2,27 2 3,6 3 4'), ('0xe-3', '8 0 3,27 3 4,8 4 5'), ('0b1e-3', '8 0 4,27 4 5,8 5 6'),
    ('0o7e+1', '8 0 4,25 4 5,8 5 6'), ('1ae-3', '8 0 3,27 3 4,8 4 5'), ('1e5e-3', '8 0 4,27 4 5,8 5 6'), ('1ee-3', '8 0 3,27 3 4,8 4 5'),
    ('1e_-3', '8 0 3,27 3 4,8 4 5'), ('1.5.2e-1', '8 0 3,28 3 4,8 4 8'), ('0x1.5e+2', '8 0 6,25 6 7,8 7 8'), ('0Xe-3', '8 0 3,27 3 4,8 4 5'),
    ('1e\u22123', '8 0 2,refused 18 2 5'),
]


def listed(source):
    """The lines of a listing."""
    lines = []
    for m in TOKEN.finditer(source):
        text = m.group()
        kind = {'number': 8, 'word': 7 if text == '_' else 6, 'operator': OPERATORS.get(text)}[m.lastgroup]
        lines.append(f'{kind} {m.start()} {m.end()}')
    return lines + [f'end {len(lines)}']


def sources(longest):
    for length in range(longest + 1):
        yield from map(''.join, itertools.product(ALPHABET, repeat=length))


def cases(which):
    """Each source with its answer."""
    if which == 'few':
        for source, tokens in TABLE:
            lines = tokens.split(',')
            yield source, lines if 'refused' in tokens else lines + [f'end {len(lines)}']
        chosen = itertools.chain(sources(2), itertools.islice(filter(EXPONENT.search, sources(LONGEST)), 0, None, 397))
    else:
        chosen = sources(LONGEST)
    for source in chosen:
        yield source, listed(source)


def main(what, which):
    out = sys.stdout.buffer
    for source, lines in cases(which):
        if what == 'frames':
            payload = source.encode()
            out.write(b'L' + len(payload).to_bytes(4, 'little') + payload)
        else:
            out.write(('\n'.join(lines) + '\n.\n').encode())


if len(sys.argv) != 3 or sys.argv[1] not in ('frames', 'answers') or sys.argv[2] not in ('all', 'few'):
    sys.exit(__doc__.split('\n\n')[1])
main(*sys.argv[1:])
