#!/usr/bin/env python3
"""Whether the definitions and files that docs/READING.md names are there: a name there is MODULE.DEFINITION, of crates/*/specs/MODULE.antt.

usage: tools/names.py --check        says which are not, and exits 1
"""
import glob
import os
import re
import sys

ROOT = os.path.join(os.path.dirname(os.path.abspath(__file__)), '..')
PAGE = 'docs/READING.md'


def read(path):
    with open(path, encoding='utf-8') as f:
        return f.read()


def defined():
    """The names that the definitions' files declare, each as MODULE.NAME."""
    names = set()
    for path in glob.glob(os.path.join(ROOT, 'crates/*/specs/*.antt')):
        module = os.path.basename(path)[:-len('.antt')]
        names |= {f'{module}.{name}' for name in re.findall(r'^\s*(?:abbrev |unfoldable )?pub (?:record |data )?([A-Za-z0-9_]+)', read(path), re.M)}
    return names


def missing(page):
    names = set(re.findall(r'`([A-Z][A-Za-z0-9]*\.[A-Za-z0-9_]+)`', page)) - {os.path.basename(p) for p in glob.glob(os.path.join(ROOT, 'crates/*/specs/*.antt'))}
    paths = {path for path in re.findall(r'`(crates/[^`\s]*)`', page) if not glob.glob(os.path.join(ROOT, path))}
    return sorted(names - defined()) + sorted(paths)


def main(words):
    if words != ['--check']:
        sys.exit(__doc__)
    lost = missing(read(os.path.join(ROOT, PAGE)))
    if lost:
        sys.exit(f'tools/names.py: {PAGE} names what is not in crates/: {" ".join(lost)}: correct the page, or the name')


main(sys.argv[1:])
