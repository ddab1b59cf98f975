#!/usr/bin/env python3
"""Wrote the proof files of the typed writers that have no loop, with the older kit: see needs.py. It was run in the repository as tools/writers.py CRATE [FUNCTION ..].

A writer's contract is `Writes term before at after next` of csexp, or `Items terms ..` for terms that may be absent. Its proof is a
law of csexp's proofs/write/Steps for each call, one to a line: `open_list` or `open_word`, writers of parts and `close_list`, lists in
lists too; a call that ensures `Items` is spliced in. Behind a `match` the tool rewrites by the arm's equation. A return that it has no law
for, as one behind an `if`, gets a hole. It goes round until no more files come, since a caller's lines are printed only once its callees
are proved. A loop is proved by hand, over the laws items-.. of the same file."""
import glob, re, sys
from needs import dots, ensures, left

crate, only = sys.argv[1], sys.argv[2:]
source = ''.join(open(f).read() for f in glob.glob('crates/*/src/**/*.rt', recursive=True))
items = {n.replace('_', '-') for n in re.findall(r'fn (\w+)\([^{]*\)[^{]*\n\s+ensures \{ λ \w+\. ⌜ Items ', source)}
opening = {'open-list': 'opened', 'open-word': 'opened-word'}


def base(call):
    """The callee's name: a second call of `word` is `word2`."""
    return call if call in items else re.sub(r'\d+$', '', call)


def chain(calls, at):
    """A law for each call from `at` on up to the ')' that closes this list: the lines, how many stand open, and the next call."""
    lines = []
    while True:
        b, here = base(calls[at][0]), ensures(*calls[at])
        if b == 'close-list':
            return lines + [f'(closed {here}'], len(lines) + 1, at + 1
        if b in items and base(calls[at + 1][0]) == 'close-list':
            return lines + [f'(ended {here} {ensures(*calls[at + 1])}'], len(lines) + 1, at + 2
        if b in opening:
            inner, open_, at = chain(calls, at + 1)
            lines += ['\n'.join([f'(passed ({opening[b]} {here}'] + inner) + ')' * (open_ + 1)]
        else:
            lines += [f'({"spliced" if b in items else "passed"} {here}']
            at += 1


def answer(calls, is_items):
    if not calls:
        return ['(absent _ _ (omega arith))'] if is_items else None
    b = base(calls[0][0])
    if b in opening:
        lines, open_, _ = chain(calls, 1)
        lines = [f'({opening[b]} {ensures(*calls[0])}'] + lines
        if is_items:
            lines, open_ = [f'(single {lines[0]}'] + lines[1:], open_ + 1
        return '\n'.join(lines[:-1] + [lines[-1] + ')' * (open_ + 1)]).split('\n')
    if len(calls) == 1:
        one = ensures(*calls[0])
        return [f'(single {one})' if is_items and b not in items else one]
    return None


def named(lines):
    """The lines with a name for each place that they go back to, where these are more than two: c₁ is the last, c₂ lies before it."""
    back = r'\bc((?: \.before)+)'
    steps = sorted({m.count('.before') for line in lines for m in re.findall(back, line)})
    if len(steps) < 3:
        return lines
    names = {n: 'c' + str(i + 1).translate(str.maketrans('0123456789', '₀₁₂₃₄₅₆₇₈₉')) for i, n in enumerate(steps)}
    lets = [f'let {names[n]} = {names.get(b, "c")}{" .before" * (n - b)} in' for b, n in zip([0] + steps, steps)]
    return lets + [re.sub(back, lambda m: names[m.group(1).count('.before')], line) for line in lines]


def write(f):
    arms = {re.sub(r'^enum-known-(.*?)(?:-(\d+))?$', lambda k: k.group(1) + (k.group(2) or ''), n) for n in f.spec if n.startswith('enum-known-')}
    body, laws = [], set()
    for need in f.holes:
        way = f.way(need)
        calls = [(thing, steps) for thing, place, steps in way if thing in f.calls]
        told = [(thing, steps) for thing, place, steps in way if thing in arms or re.fullmatch(r'enum-told\d*', thing)]
        body += [f'{need} : tie.Need-{need}']
        if need.startswith('same-length') and calls:
            # `search needs` finds this for at most eight calls
            kept = [f'({dots(steps)} .{thing} .kept .0)' for thing, steps in calls[::-1]]
            body += [f'{need} c ='] + ['    ' + line for line in named([kept[0]] + ['∙ ' + k for k in kept[1:]])] + ['']
            laws.add('∙')
            continue
        tested = any(re.fullmatch(r'if\d+', thing) for thing, place, steps in way)
        lines = answer(calls, f.name.replace('_', '-') in items) if need.startswith('returns') and not tested else None
        if lines and told:
            lines = [f'rw ({dots(told[-1][1])} .{told[-1][0]} .given .1)'] + lines
        laws |= set(re.findall(r'\((opened|opened-word|passed|closed|spliced|ended|single|absent) ', ' '.join(lines or [])))
        body += [f'{need} c = ?', ''] if not lines else [f'{need} c = ' + ' '.join(lines), ''] if len(lines) < 3 else [f'{need} c ='] + ['    ' + line for line in named(lines)] + ['']
    uses = ['use borrow.Author.Needs.{needs}']
    uses += ['use native.Mathlib.Omega.{arith}'] if 'absent' in laws else []
    uses += ['use mathlib.Core.Path.{_∙_}'] if '∙' in laws else []
    uses += [f'use Rattle·csexp.proofs.write.Steps.{{{", ".join(sorted(laws - {"∙"}))}}}'] if laws - {'∙'} else []
    f.write('a law for each call.', uses, body)


while True:
    found = list(left(crate, only))
    if not found:
        break
    for f in found:
        write(f)
