#!/usr/bin/env python3
"""Holds crates.txt and the imports to the rule of docs/ARCHITECTURE.md. Prints each line that breaks it; exit 1 if there is one.

    layers.py

A crate's layer is its name, or what stands before the first `_`. It names only crates of layers to its left and, within its own layer, those
that crates.txt has before it. It names just what its files use, and where types reach it through another crate also theirs: model or a shape.
A file of specs, and a contract, imports no proofs.
"""
import os
import re
import sys

# From left to right. What the kit has (std, io) may be named by anyone.
LAYERS = ['model', 'shape', 'theory', 'pool', 'test', 'rule', 'call', 'known', 'public', 'radix', 'promise', 'text', 'prog', 'replay', 'report', 'trial', 'damaged', 'rust']
PATH = re.compile(r'Rattle\.([a-z0-9_]+)\.(specs|proofs)\b')
CALL = re.compile(r'(?<![\w:`])([a-z0-9_]+)::')


def crates_in(name):
    """[(line number, crate, what it names)] of crates.txt."""
    found = []
    with open(name, encoding='utf-8') as f:
        for number, line in enumerate(f, 1):
            line = line.split('#')[0].strip()
            if line:
                crate, names = line.split(':')
                found.append((number, crate.split()[0], names.split()))
    return found


def lines_of(crate):
    """(path, line number, line) of each line of its code, specs and proofs."""
    for part in ('src', 'specs', 'proofs'):
        for folder, _, files in sorted(os.walk(f'crates/{crate}/{part}')):
            for file in sorted(files):
                if file.endswith(('.rt', '.antt')):
                    path = os.path.join(folder, file)
                    with open(path, encoding='utf-8') as f:
                        for number, line in enumerate(f, 1):
                            yield path, number, line


def layer(crate):
    return crate.split('_')[0]


def main():
    if len(sys.argv) != 1:
        sys.exit(__doc__.strip())
    bad, before = [], []
    crates = crates_in('crates.txt')
    own = {crate for _, crate, _ in crates}
    for number, crate, names in crates:
        here = f'crates.txt:{number}'
        if layer(crate) not in LAYERS:
            bad.append(f'{here}: {crate} is of no layer')
            continue
        for name in names:
            if name not in own or layer(name) not in LAYERS:
                continue
            if LAYERS.index(layer(name)) > LAYERS.index(layer(crate)):
                bad.append(f'{here}: {crate} names {name}, which stands to its right')
            elif name not in before:
                bad.append(f'{here}: {crate} names {name}, which comes after it')
        before.append(crate)
        used = set()
        for path, at, line in lines_of(crate):
            found = {m[1] for m in PATH.finditer(line)}
            if path.endswith('.rt'):
                found |= {m for m in CALL.findall(line) if m in own}
            for name in sorted(found - {crate} - set(names)):
                if name in own or name != 'std' and 'Rattle.' + name in line:
                    bad.append(f'{path}:{at}: {name} is used, and crates.txt does not have it for {crate}')
            used |= found
            if not path.startswith(f'crates/{crate}/proofs/') and any(m[2] == 'proofs' and m[1] in own for m in PATH.finditer(line)):
                bad.append(f'{path}:{at}: a proof is imported outside of proofs/')
        for name in names:
            if name in own and name not in used and layer(name) not in ('model', 'shape'):
                bad.append(f'{here}: {crate} names {name} and does not use it')
    for line in bad:
        print(f'layers: {line}', file=sys.stderr)
    sys.exit(1 if bad else 0)


if __name__ == '__main__':
    main()
