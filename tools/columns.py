#!/usr/bin/env python3
"""Holds the parameters of every function to one order of the columns: docs/ARCHITECTURE.md, "The state". Prints each function that breaks it; exit 1 if there is one.

    columns.py

The columns that a function is lent, whether it writes them or not, stand in the order of COLUMNS, and the answer lists after them. Pins may be lent as `node`,
`start`, `end`, `count`. A struct of columns (GROUPS) stands where its first one would, and has its own in that order. What is printed or tested of the answers
alone (ANSWERS) has lists under short names.
"""
import glob
import re
import sys

COLUMNS = ('parent depth len run words node start end id stamp touched write count pin_node pin_start pin_end pin_count marks bytes books').split()
LISTS = re.compile(r'(path|out|span)_\w+|list')
ANSWERS = {'text_answer', 'pool_out', 'path_fits', 'outs_fit', 'tiers_fit'}
# by the type's name, the column that each struct of columns begins with; '' is an answer list
GROUPS = {'RangesRef': 'node', 'RangesMut': 'node', 'PinsRef': 'pin_node', 'PinsMut': 'pin_node', 'OutsMut': ''}
FN = re.compile(r'\bfn (\w+)(?:<(?:[^<>()]|->|\([^<>()]*\)|<[^<>()]*>)*>)?\(([^)]*)\)')
STRUCT = re.compile(rf'\bstruct ({"|".join(GROUPS)})\b[^{{]*\{{([^}}]*)\}}')
LENT = re.compile(rf"(\w+):\s*(?:&(?:'\w+ )?(?:mut )?\[|&?(?:'\w+ )?(?:mut )?(?:\w+::)?({'|'.join(GROUPS)})\b)")


def lent(parameters):
    """The columns, by the name of each slice among the parameters and by the first one of each struct."""
    return [GROUPS[m[2]] if m[2] else '' if LISTS.fullmatch(m[1]) else m[1] for m in LENT.finditer(parameters)]


def main():
    if len(sys.argv) != 1:
        sys.exit(__doc__.strip())
    bad = False
    seen = set()
    for path in sorted(glob.glob('crates/*/src/*.rt')):
        with open(path, encoding='utf-8') as f:
            text = f.read()
        seen |= {m[1] for m in STRUCT.finditer(text)}
        for m in [*FN.finditer(text), *STRUCT.finditer(text)]:
            if m[1] not in GROUPS and ANSWERS & {path.split('/')[1], m[1]}:
                continue
            places = [(COLUMNS + ['']).index(n) for n in lent(m[2]) if n in COLUMNS + ['']]
            if places != sorted(places):
                print(f'columns: {path}:{text.count(chr(10), 0, m.start()) + 1}: {m[1]} has its columns in another order', file=sys.stderr)
                bad = True
    for name in sorted(GROUPS.keys() - seen):
        print(f'columns: no struct {name}', file=sys.stderr)
        bad = True
    sys.exit(bad)


if __name__ == '__main__':
    main()
