#!/usr/bin/env python3
"""Holds the proofs to facts by the names of their steps: prints each line that counts steps back, `.before .before`; exit 1 if there is one.

    names.py check
"""
import glob
import re
import sys

CHAIN = re.compile(r'(?: ?\.before\b){2,}')


def main():
    if sys.argv[1:] != ['check']:
        sys.exit(__doc__.strip())
    bad = False
    for path in sorted(glob.glob('crates/*/proofs/**/*.antt', recursive=True)):
        with open(path, encoding='utf-8') as f:
            for number, line in enumerate(f, 1):
                if CHAIN.search(line):
                    print(f'names: {path}:{number}: steps counted back by .before; a fact has its step in its name, c.STEP.FIELD', file=sys.stderr)
                    bad = True
    sys.exit(bad)


if __name__ == '__main__':
    main()
