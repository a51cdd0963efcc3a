#!/usr/bin/env python3
"""Prints a table of each crate's lines of code, definitions and proofs, and its must-fail edits.

    figures.py [LOG]        LOG is what .ci/run printed: the edits are then those that it refused

The log has no seconds.
"""
import glob
import re
import sys

from layers import crates_in


def lines(pattern):
    """How many lines the files have."""
    return sum(sum(1 for _ in open(name, encoding='utf-8')) for name in glob.glob(pattern, recursive=True))


def refused(log):
    """How many edits of each crate the log says were refused."""
    with open(log, encoding='utf-8', errors='replace') as f:
        found = re.findall(r'(?m)^rt: must-fail (\w+)/\S+: refused', f.read())
    return {crate: found.count(crate) for crate in found}


def main():
    if len(sys.argv) > 2 or '--help' in sys.argv:
        sys.exit(__doc__.strip())
    edits = refused(sys.argv[1]) if sys.argv[1:] else None
    rows = []
    for _, crate, _ in crates_in('crates.txt'):
        at = f'crates/{crate}'
        tried = len(glob.glob(f'{at}/must-fail/*.edit')) if edits is None else edits.get(crate, 0)
        rows.append((crate, [lines(f'{at}/src/**/*.rt'), lines(f'{at}/specs/**/*.antt'), lines(f'{at}/proofs/**/*.antt'), tried]))
    print('| Crate | code | specs | proofs | edits |\n|---|---|---|---|---|')
    for crate, row in sorted(rows, key=lambda r: -r[1][0]) + [('all', [sum(column) for column in zip(*(row for _, row in rows))])]:
        print(f'| {crate} | ' + ' | '.join(f'{n:,}' for n in row) + ' |')


if __name__ == '__main__':
    main()
