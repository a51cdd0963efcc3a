#!/usr/bin/env python3
"""Tries one must-fail edit and prints where the prover refuses it, or that it is bad.

    try_edit.py CRATE NAME        crates/CRATE/must-fail/NAME.edit, by `rt must-fail` on a copy of the crates that has this edit alone

The copy begins with what checks of the same crates kept; what was not checked before is proved first.
"""
import os
import shutil
import subprocess
import sys
import tempfile


def main():
    if len(sys.argv) != 3:
        sys.exit(__doc__.strip())
    crate, name = sys.argv[1:]
    edit = f'crates/{crate}/must-fail/{name}.edit'
    if not os.path.isfile(edit):
        sys.exit(f'{edit}: not there')
    with tempfile.TemporaryDirectory() as copy:
        shutil.copytree('crates', f'{copy}/crates', ignore=shutil.ignore_patterns('out', 'must-fail'))
        shutil.copyfile('crates.txt', f'{copy}/crates.txt')
        os.mkdir(f'{copy}/crates/{crate}/must-fail')
        shutil.copyfile(edit, f'{copy}/{edit}')
        sys.exit(subprocess.run(['rt', 'must-fail', crate], cwd=copy).returncode)


if __name__ == '__main__':
    main()
