#!/usr/bin/env python3
"""Counts, in the code of crates/*/src, the places at which an older form of the language shows: docs/DESIGN-PASS.md has what became of them.

    tools/places.py            a line for each kind of place: its point, how many, what
    tools/places.py -v         and each place, as file:line
"""
import glob
import re
import sys
from collections import defaultdict

LISTED = [line.split(':')[0].split()[0] for line in open('crates.txt') if line.strip() and not line.startswith('#')]
places = defaultdict(list)


def add(point, what, name, text, at):
    places[point, what].append(f'{name}:{text.count(chr(10), 0, at) + 1}')


def bodies(text):
    """Each function: its name, where it begins, its signature and clauses, its body."""
    for m in re.finditer(r'^(?:    )?(?:pub )?(?:final )?(?:extern "C" )?fn (\w+)', text, re.M):
        indent = '    ' if text[m.start()] == ' ' else ''
        end = re.search(r'^%s\}' % indent, text[m.start():], re.M)
        whole = text[m.start():m.start() + end.end()] if end else text[m.start():]
        yield m.group(1), m.start(), whole


def count(name, text):
    code = re.sub(r'//[^\n]*', lambda m: ' ' * len(m.group(0)), text)
    # 1: enums with the shape of Option or Result, a flag or a number beside a value
    for m in re.finditer(r'enum (\w+) \{\n(.*?)\n\}', code, re.S):
        variants = re.findall(r'^    (\w+)(\()?', m.group(2), re.M)
        if len(variants) == 2 and (bool(variants[0][1]) != bool(variants[1][1]) or m.group(1) == 'Display'):
            add(1, 'an enum of the shape of Option or Result', name, code, m.start())
    for m in re.finditer(r'struct (\w+)(?:<\w+>)? \{\n(.*?)\n\}', code, re.S):
        fields = re.findall(r'(\w+): ([\w:\[\]; ]+)', m.group(2))
        names = [f for f, _ in fields]
        if 'verdict' in names:
            add(1, 'a verdict beside a value', name, code, m.start())
        elif any(f in ('found', 'hit', 'set') and t == 'bool' for f, t in fields) and len(fields) > 1:
            add(1, 'a flag beside a value', name, code, m.start())
        elif 'next' in names or names == ['start', 'end']:
            add(1, 'a value beside a position that may be LOST', name, code, m.start())
    for m in re.finditer(r'\bLOST\b', code):
        add(1, 'LOST, a number for nothing', name, code, m.start())
    # 3: loops
    for m in re.finditer(r'\n( +)while (\w+) < [^\n]*\{|\n( +)while 0 < (\w+) \{|\n( +)while (\w+) < (\w+) \{', code):
        add(3, 'an index counted by hand', name, code, m.start() + 1)
    # 4: equality, order and logic by hand
    for f, at, whole in bodies(code):
        if re.match(r'(same|same_\w+|equal|has_key|has_no_key|hangs_under|differ|is_highest)$', f):
            add(4, 'an equality by hand', name, code, at)
        if re.match(r'(compare|compare_bools|then|after|bit)$', f):
            add(4, 'an order by hand', name, code, at)
        if re.match(r'(both|either|not)$', f):
            add(4, '&&, || and ! by calls', name, code, at)
        if re.match(r'(flag|flag_of|low|kind|row_of|method_at|\w+_tag|refusal_number)$', f):
            add(4, 'a conversion by hand', name, code, at)
    # 6: a buffer with its length beside it
    for m in re.finditer(r'(?:rows|bytes): \[[^\]]*\],\n +(?:pub )?(?:count|length): usize', code):
        add(6, 'an array with a length beside it', name, code, m.start())
    # 7: a value that says which step or test to run
    for m in re.finditer(r'pub enum (Which|Change|Towards|Order)\b', code):
        add(7, 'an enum that says which step or test to run', name, code, m.start())
    for m in re.finditer(r'sorted::(both|either|not)\(', code):
        add('4b', 'a call of &&, || or ! by its function', name, code, m.start())


for path in sorted(glob.glob('crates/*/src/**/*.rt', recursive=True)):
    if path.split('/')[1] in LISTED:
        count(path, open(path).read())

# 2: functions of one name and one shape in several crates, and structs that differ in one type
shapes = defaultdict(list)
for path in sorted(glob.glob('crates/*/src/**/*.rt', recursive=True)):
    if path.split('/')[1] not in LISTED:
        continue
    text = re.sub(r'//[^\n]*', '', open(path).read())
    for f, at, whole in bodies(text):
        shape = re.sub(r'\bensures \{.*?\}\n\{', '{', whole, flags=re.S)
        shape = re.sub(r'\b[A-Z]\w*\b', 'T', re.sub(r'\b\d+\b', '0', re.sub(r'\b\w+::', '', shape)))
        shape = re.sub(r'b"\w+"', 'b""', shape)
        shape = re.sub(r'^(\s*(?:pub )?fn) \w+', r'\1 f', shape)
        shapes['fn', re.sub(r'\s+', ' ', shape)].append((path, f))
    for m in re.finditer(r'struct (\w+) \{\n(.*?)\n\}', text, re.S):
        shape = re.sub(r': [A-Z]\w*(::\w+)*', ': T', re.sub(r': (u16|u32|bool|usize),\n\s+pub next', ': T,\n    pub next', m.group(2)))
        shapes['struct', re.sub(r'\s+', ' ', shape)].append((path, m.group(1)))
for (kind, shape), who in shapes.items():
    if len(who) > 1 and len(shape) > (60 if kind == 'fn' else 30):
        for path, f in who:
            places[2, f'a {"function" if kind == "fn" else "struct"} that differs from others in names and types alone'].append(f'{path}: {f}')

for key in sorted(places, key=str):
    print(key[0], len(places[key]), key[1])
    if '-v' in sys.argv:
        for p in places[key]:
            print('    ', p)
