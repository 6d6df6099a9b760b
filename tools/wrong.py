#!/usr/bin/env python3
"""Tries the wrong answers that the gate does not try: crates/NAME/wrong/*.edit, which the proofs must refuse.

usage (run at the repository's root): tools/wrong.py NAME..

They are written as those of crates/NAME/must-fail are. For each crate NAME, a copy of the repository's crates is made in a folder outside the
repository, in which its edits stand in must-fail/, and `rt must-fail` tries them there. What it says is printed, and its status is the exit status: an edit
that is taken, or that cannot be applied, fails. What a proof file names and an edit takes away says little of a contract, and `rt` says so.
"""
import glob
import os
import shutil
import subprocess
import sys
import tempfile


def fail(text):
    print(text, file=sys.stderr)
    sys.exit(2)


def tried(names, room):
    """The status of `rt must-fail` over a copy in the folder room."""
    shutil.copytree('crates', f'{room}/crates', ignore=shutil.ignore_patterns('out', 'must-fail', 'wrong'))
    shutil.copy('crates.txt', room)
    for name in names:
        os.makedirs(f'{room}/crates/{name}/must-fail')
        for path in glob.glob(f'crates/{name}/wrong/*.edit'):
            shutil.copy(path, f'{room}/crates/{name}/must-fail')
    for name in names:
        # What is proved of the crate as it stands is proved of the copy: that spares a check for each edit.
        if subprocess.run(['rt', 'check'], cwd=f'{room}/crates/{name}').returncode:
            fail(f'tools/wrong.py: {name} is not proved as it stands')
    return subprocess.run(['rt', 'must-fail', *names], cwd=room).returncode


def main(names):
    if not names or any(not os.path.isdir(f'crates/{name}/wrong') for name in names):
        fail(__doc__)
    with tempfile.TemporaryDirectory() as room:
        status = tried(names, room)
    sys.exit(status)


main(sys.argv[1:])
