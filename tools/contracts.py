#!/usr/bin/env python3
"""Breaks the contracts of .rt files over lines, so that none is longer than 160 bytes: at the loosest operator, then between arguments.

    contracts.py FILE..
"""
import re
import sys

WIDTH = 160
STEP = 4
LOOSE = [['→'], ['×'], ['⊎'], ['≡', '≤', '<'], ['∷', '++'], ['+', '-'], ['*']]


def size(line):
    return len(line.encode())


def parse(text):
    """The words of a term, a bracketed part as one list; one with a field behind it is a word."""
    stack, word = [[]], ''

    def end():
        nonlocal word
        if word:
            stack[-1].append(word)
            word = ''

    for at, c in enumerate(text):
        if c == '(':
            end()
            stack.append([])
        elif c == ')':
            end()
            part = stack.pop()
            if text[at + 1:at + 2] == '.':
                word = '(' + flat(part) + ')'
            else:
                stack[-1].append(part)
        elif c == ' ':
            end()
        else:
            word += c
    end()
    assert len(stack) == 1, text
    return stack[0]


def flat(term):
    """The term on one line."""
    return ' '.join('(' + flat(w) + ')' if isinstance(w, list) else w for w in term)


def lay(term, indent, before='', after=''):
    """The term's lines, from the column on, with what stands before its first and after its last word."""
    line = ' ' * indent + before + flat(term) + after
    if size(line) <= WIDTH:
        return [line]
    for ops in LOOSE:
        cuts = [i for i, w in enumerate(term) if w in ops]
        if cuts:
            return by_operator(term, cuts, indent, before, after)
    return by_argument(term, indent, before, after)


def by_operator(term, cuts, indent, before, after):
    lines, start, lead = [], 0, before
    for cut in cuts + [len(term)]:
        last = cut == len(term)
        lines += lay(term[start:cut], indent, lead, after if last else '')
        if not last:
            lead = term[cut] + ' '
        start = cut + 1
    return lines


def by_argument(term, indent, before, after):
    if len(term) == 1 and isinstance(term[0], list):
        return lay(term[0], indent, before + '(', ')' + after)
    head = [w for w in term[:1]]
    lines, line = [], ' ' * indent + before
    if isinstance(term[0], list):
        head = []
        line = ' ' * indent + before.rstrip()
    else:
        line += term[0]
    pad = ' ' * (indent + STEP)
    for i in range(len(head), len(term)):
        w = term[i]
        tail = after if i == len(term) - 1 else ''
        text = ('(' + flat(w) + ')' if isinstance(w, list) else w) + tail
        if line.strip() and size(line) + 1 + size(text) <= WIDTH:
            line = line + ' ' + text
        elif len(pad) + size(text) <= WIDTH:
            if line.strip():
                lines.append(line)
            line = pad + text
        else:
            if line.strip():
                lines.append(line)
            line = ''
            lines += lay(w, indent + STEP, '(', ')' + tail)
    if line.strip():
        lines.append(line)
    return lines


def clause(line):
    m = re.match(r'( *)((?:requires|ensures)(?: \w+)?) \{ (.*) \}$', line)
    if not m or flat(parse(m[3])) != ' '.join(m[3].split()):
        return None
    return lay(parse(m[3]), len(m[1]), f'{m[2]} {{ ', ' }')


def main():
    if len(sys.argv) < 2:
        sys.exit(__doc__.strip())
    left = 0
    for name in sys.argv[1:]:
        with open(name, encoding='utf-8') as f:
            old = f.read().split('\n')
        new = []
        for line in old:
            lines = clause(line) if size(line) > WIDTH else None
            new += lines or [line]
        left += sum(size(l) > WIDTH for l in new)
        if new != old:
            with open(name, 'w', encoding='utf-8') as f:
                f.write('\n'.join(new))
    if left:
        print(f'{left} lines are longer than {WIDTH} bytes still')


if __name__ == '__main__':
    main()
