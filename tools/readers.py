#!/usr/bin/env python3
"""Wrote the proof files of the typed readers that have no loop, with the older kit: see needs.py. It was run in the repository as tools/readers.py CRATE [FUNCTION ..].

A reader's contract is `Reads decoder text at value next` of csexp, or its like `Rest` and `Tries`. The tool takes the functions that have such a contract,
no loop and no proof file yet, has `rt dev` write down what is known at each place of their code, and answers:

  - where the code reads '(', fields and ')' with no test between them, a law of csexp's proofs/Steps for each call, one to a line: `passed` for
    a call that ensures `Reads`, `tried` for one that ensures `Tries`; a last call that ensures `Rest` takes the place of the ')';
  - at a return of a choice whose values are handed on as they are (the functions named after `--choices`), `other` for each call that
    found nothing and `chosen` for the one that did;
  - at any other return `search readers`, which finds the laws itself where there are at most eight calls or so;
  - elsewhere `search needs`.

A file that is there is never written over: remove it to have it written anew. What does not go by these rules is proved by hand."""
import glob, os, re, subprocess, sys, tempfile

from needs import Places, rows

crate, only = sys.argv[1], [a for a in sys.argv[2:] if a != '--choices']
as_choices = '--choices' in sys.argv[2:]
HEAD = r'fn (\w+)(?:<[^>]*>)?\([^{]*\)[^{]*\n\s+ensures \{ λ \w+\. ⌜ (Reads|Rest|Tries|Marks) '
says = {n.replace('_', '-'): c for f in glob.glob('crates/*/src/**/*.rt', recursive=True) for n, c in re.findall(HEAD, open(f).read())}


def missing():
    """The readers without a loop that have no proof file: name, module and the file to write."""
    for f in sorted(glob.glob(f'crates/{crate}/src/*.rt')):
        room = os.path.basename(f)[:-3]
        text = open(f).read()
        for m in re.finditer(HEAD, text):
            body = text[m.end():text.index('\n}\n', m.end())]
            path = '/'.join(['crates', crate, 'proofs'] + ([] if room == 'lib' else [room]) + [m.group(1), 'Proof.antt'])
            if not os.path.exists(path) and not re.search(r'\b(loop|while)\b', body) and (not only or m.group(1) in only):
                yield m.group(1), ([] if room == 'lib' else [room]) + [m.group(1)], path


def contract(call):
    """What a call ensures: a second call of `mark` is `mark2`."""
    return says.get(call) or says.get(re.sub(r'\d+$', '', call))


class Code(Places):
    def __init__(self, made, rooms):
        folder = f'{made}/Rattle·{crate}·proofs/proofs/{"/".join(rooms)}'
        super().__init__(folder)
        self.needs = re.findall(r'^abbrev pub Need-(\S+) :', open(f'{folder}/Tie.antt').read(), re.M)


def fact(steps, *names):
    return '(' + ' '.join(['c'] + ['.before'] * steps + [f'.{n}' for n in names]) + ')'


def straight(way):
    """A law for each call, where the way to a return is '(', fields and ')' with no test."""
    calls = [(thing, steps) for thing, place, steps in way if contract(thing)]
    kinds = [contract(thing) for thing, steps in calls]
    if len(calls) < 2 or kinds[0] != 'Marks' or kinds[-1] not in ('Marks', 'Rest') or any(re.fullmatch(r'if\d+', thing) for thing, place, steps in way):
        return None
    facts = [fact(steps, thing, 'ensures') for thing, steps in calls]
    lines = [f'(opened {facts[0]}'] + [f'({"tried" if k == "Tries" else "passed"} _ {f}' for f, k in zip(facts[1:-1], kinds[1:-1])]
    last = f'(closed {facts[-1]})' if kinds[-1] == 'Marks' else facts[-1]
    return lines + [last + ')' * len(lines)]


def choice(way):
    """`other` for each call that found nothing; then `chosen` where the last found something, or what it says where it is not tested."""
    lines, call = [], None
    for thing, place, steps in way:
        if contract(thing):
            call = fact(steps, thing, 'ensures')
        elif re.fullmatch(r'if\d+', thing):
            if place.startswith('Else'):
                lines.append(f'(other _ (missed {call} {fact(steps, thing, "left")})')
            else:
                call = f'(chosen _ {call} {fact(steps, thing, "taken")})'
    return lines + [call + ')' * len(lines)]


def write(name, rooms, path, code):
    body, laws, args = [], set(), []
    for need in code.needs:
        if not need.startswith('returns'):
            args.append('(λ c κs. search needs)' if '-requires' in need else '(λ c. search needs)')
            continue
        lines = straight(code.way(need)) or (as_choices and choice(code.way(need)))
        body += [f'{need} : tie.Need-{need}', f'{need} c ='] + ['    ' + line for line in lines or ['search readers depth 16']] + ['']
        laws |= set(re.findall(r'\((opened|passed|tried|closed|other|missed|chosen) ', ' '.join(lines))) if lines else {'readers'}
        args.append(need)
    module = f'Rattle·{crate}·proofs.proofs.{".".join(rooms)}'
    spec = name.replace('_', '-') + '-spec'
    out = [f'-- `{"::".join([crate] + rooms)}` meets its contract: a law for each call.', 'use borrow.Author.Needs.{needs}',
           f'use Rattle·csexp.proofs.Steps.{{{", ".join(sorted(laws))}}}', f'use {module}.Statement.{{statement}}', f'use {module}.Tie as tie', '']
    out += body + [f'pub {spec} : {{M : Type 1}} → statement M', f'{spec} =', '    tie.close'] + rows('    (tie.spec', args, ')')
    open(path, 'w').write('\n'.join(out) + '\n')
    print('wrote', path)


todo = list(missing())
for name, rooms, path in todo:
    os.makedirs(os.path.dirname(path), exist_ok=True)
    open(path, 'w').write('-- to be written\n')
with tempfile.TemporaryDirectory() as made:
    subprocess.run(['rt', 'dev', crate, '--generated', made], capture_output=True, env=dict(os.environ, RT_CUT='0'))
    for name, rooms, path in todo:
        try:
            write(name, rooms, path, Code(made, rooms))
        except (OSError, KeyError) as e:
            os.remove(path)
            print('not written:', path, e)
