#!/usr/bin/env python3
"""Checks docs/COVERAGE.md: each file that a row names is there and has the names that the row says. Prints what is not so; exit 1 if anything.

    coverage.py

FILE.antt is of crates/model/specs, CRATE/FILE.antt of crates/CRATE/proofs, CRATE/lib.rt of crates/CRATE/src. A name `..-kept` or `.._kept` stands for those that end so;
an implementation is named as it is written, `From<u32> for WriteId`, and a method by its type, `RangesMut::put`.
"""
import os
import re
import sys

PAGE = 'docs/COVERAGE.md'
FILE = re.compile(r'`?([\w/-]+\.(?:antt|rt|edit|md))`?')
NAME = re.compile(r'[A-Za-z][\w-]*(?:\.[A-Za-z]\w*)?$')
IMPL = re.compile(r'\w+(?:<\w+>)? for \w+$')
METHOD = re.compile(r'(\w+)::(\w+)$')
# words that a row may have where names stand
PROSE = re.compile(r'^(?:and )?(?:every call|every other|tested first$|on removal$|over the stores$|remove$|pins and the calls$)')


def path_of(name, folder):
    """Where a file of the page stands, and the folder that the next .edit may leave out."""
    parts = name.split('/')
    if name.startswith(('docs/', 'crates/')):
        return name, folder
    if name.endswith('.edit'):
        found = f'crates/{name}' if len(parts) > 1 else f'{folder}/{name}'
        return found, os.path.dirname(found)
    if len(parts) == 1:
        return f'crates/model/specs/{name}', folder
    if len(parts) == 2:
        return f'crates/{parts[0]}/{"src" if name.endswith(".rt") else "proofs"}/{parts[1]}', folder
    return f'crates/{name}', folder


def defines(text, name, code):
    """Does the text, code or not, define the name, the field of a record, the method of a type, or the implementation?"""
    if IMPL.match(name):
        return re.search(rf'(?m)^impl {re.escape(name)} \{{', text) is not None
    if method := METHOD.match(name):
        parts = re.findall(rf'(?ms)^impl {method[1]}\b.*?^}}', text)
        return any(defines(p, method[2], code) for p in parts)
    if '.' in name:
        record, field = name.split('.')
        m = re.search(rf'(?m)^(?:pub )?(?:record|struct) {record}\b(?:.*\n)(?:(?:[ ]+.*|)\n)*?[ ]+(?:pub )?{field}\s*:', text)
        return m is not None
    at = re.escape(name)
    if code:
        return re.search(rf'(?m)^\s*(?:pub )?(?:fn|struct|enum|const|ghost) {at}(?= |:|\(|<|$)', text) is not None
    return re.search(rf'(?m)^\s*(?:abbrev |unfoldable )?(?:pub )?(?:record |data )?{at}(?= |:|$)', text) is not None


def names_in(text):
    """The names of 'a, b (remark), c', and words that are none of them."""
    text = re.sub(r'\([^()]*\)', '', text)
    return [n.strip().strip('`') for n in text.split(',') if n.strip()]


def broken(cell):
    """What a cell says that is not so."""
    folder = ''
    for piece in cell.split(';'):
        found = list(FILE.finditer(piece))
        for k, m in enumerate(found):
            path, folder = path_of(m[1], folder)
            if not os.path.isfile(path):
                yield f'no file {path}'
                continue
            rest = piece[m.end():found[k + 1].start() if k + 1 < len(found) else len(piece)]
            if not rest.startswith(': ') or not path.endswith(('.antt', '.rt')):
                continue
            with open(path, encoding='utf-8') as f:
                text = f.read()
            for name in names_in(rest[2:]):
                name = re.sub(r' and$', '', name)
                suffix = re.match(r'(?:a|every) \.\.([-_]\w+)', name)
                if suffix:
                    if not re.search(rf'(?m)^\s*(?:pub )?[\w-]+{suffix[1]} :', text):
                        yield f'{path} has no name that ends in {suffix[1]}'
                elif NAME.match(name) or METHOD.match(name) or IMPL.match(name):
                    if not defines(text, name, path.endswith('.rt')):
                        yield f'{path} has no {name}'
                elif not PROSE.match(name):
                    yield f'not understood: {name}'


def main():
    if len(sys.argv) != 1:
        sys.exit(__doc__.strip())
    bad = []
    with open(PAGE, encoding='utf-8') as f:
        for number, line in enumerate(f, 1):
            if line.startswith('| ') and not line.startswith('| Sentence'):
                for cell in line.rstrip().strip('|').split(' | ')[1:]:
                    bad += [f'{PAGE}:{number}: {b}' for b in broken(cell)]
            if re.search(r'\.rt:\d|\.antt:\d', line):
                bad.append(f'{PAGE}:{number}: a line number')
    for line in bad:
        print(f'coverage: {line}', file=sys.stderr)
    sys.exit(1 if bad else 0)


if __name__ == '__main__':
    main()
