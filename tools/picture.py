#!/usr/bin/env python3
"""Draws docs/crates.svg from crates.txt: an arrow goes down from a crate to one that it stands on, unless a longer way leads there too.

usage: tools/picture.py            writes docs/crates.dot and docs/crates.svg (needs Debian's graphviz)
       tools/picture.py --check    exits 1 where docs/crates.dot is not what crates.txt gives (needs python3 alone)

A crate that has no line in docs/ARCHITECTURE.md is told in both cases, with exit status 1.
"""
import glob
import os
import shutil
import subprocess
import sys

ROOT = os.path.join(os.path.dirname(os.path.abspath(__file__)), '..')
DOT = 'docs/crates.dot'
SVG = 'docs/crates.svg'
LOOKS = {
    'program': 'shape=box, style="rounded,filled", fillcolor="#dcebff"',
    'face': 'shape=box, style=filled, fillcolor="#ffe6bf"',
    'theorems': 'shape=ellipse, style=filled, fillcolor="#e4f3dc"',
    'library': 'shape=box, style=filled, fillcolor="#ffffff"',
}


def read(path):
    with open(os.path.join(ROOT, path), encoding='utf-8') as f:
        return f.read()


def crates():
    """Each crate with those of ours that it stands on; the kit's own are left out."""
    lines = [l.split('#')[0].split(':') for l in read('crates.txt').splitlines() if l.split('#')[0].strip()]
    lines = [(name.split()[0], below) for name, below in lines]
    names = {name for name, below in lines}
    return {name: [b for b in below.split() if b in names] for name, below in lines}


def reached(stands_on):
    """All that lies below each crate. crates.txt names a crate only after those that it stands on."""
    all_below = {}
    for name, below in stands_on.items():
        late = [b for b in below if b not in all_below]
        if late:
            sys.exit(f'tools/picture.py: crates.txt: {name} stands on {late[0]}, which comes after it: move its line up')
        all_below[name] = set(below).union(*(all_below[b] for b in below))
    return all_below


def arrows(stands_on):
    """The arrows that do not follow from others."""
    all_below = reached(stands_on)
    return [(name, b) for name, below in stands_on.items() for b in below if not any(b in all_below[other] for other in below)]


def sort_of(name):
    sources = [read(os.path.relpath(p, ROOT)) for p in sorted(glob.glob(os.path.join(ROOT, 'crates', name, 'src', '*.rt')))]
    if os.path.exists(os.path.join(ROOT, 'crates', name, 'src', 'main.rt')):
        return 'program'
    if any('extern "C"' in s for s in sources):
        return 'face'
    if not any('fn ' in s for s in sources):
        return 'theorems'
    return 'library'


def dot_text():
    stands_on = crates()
    out = ['// Written by tools/picture.py from crates.txt.', 'digraph crates {', '    rankdir=TB; nodesep=0.15; ranksep=0.35;',
           '    node [fontname="Helvetica", fontsize=12, height=0.3, margin="0.08,0.04"];', '    edge [arrowsize=0.6, color="#555555"];']
    out += [f'    {name} [{LOOKS[sort_of(name)]}];' for name in stands_on]
    out += [f'    {name} -> {below};' for name, below in arrows(stands_on)]
    return '\n'.join(out + ['}', ''])


def without_a_line():
    told = read('docs/ARCHITECTURE.md')
    return [name for name in crates() if f'`{name}`' not in told]


def main(words):
    text = dot_text()
    unsaid = without_a_line()
    if unsaid:
        sys.exit(f'tools/picture.py: docs/ARCHITECTURE.md does not say what these crates are: {" ".join(unsaid)}: write a line for each')
    if words == ['--check']:
        if not os.path.exists(os.path.join(ROOT, DOT)) or read(DOT) != text:
            sys.exit(f'tools/picture.py: {DOT} is not what crates.txt gives: run tools/picture.py, which draws {SVG} too')
    elif words:
        sys.exit(__doc__)
    else:
        if not shutil.which('dot'):
            sys.exit("tools/picture.py: no dot on the path: install Debian's graphviz")
        with open(os.path.join(ROOT, DOT), 'w', encoding='utf-8') as f:
            f.write(text)
        subprocess.run(['dot', '-Tsvg', '-o', os.path.join(ROOT, SVG), os.path.join(ROOT, DOT)], check=True)


main(sys.argv[1:])
