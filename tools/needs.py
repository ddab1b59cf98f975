"""What `rt dev CRATE` of the older kit (rattle-kit-5b) said is left to prove, for the tools that wrote proof files by it (readers.py, writers.py).

Today's `rt` has no such command, and names places, goals and rules otherwise. The three tools are kept as a record of how those proofs were made, and stop at once.
"""
import os, re, subprocess, sys, tempfile

sys.exit('readers.py and writers.py are of the older kit: what they wrote stands in crates/*/proofs and is kept by hand')

ENV = dict(os.environ, RT_CUT='0')


class Places:
    """What is known at each place of a function's code, as the prover has it in `folder`."""

    def __init__(self, folder):
        lts = open(f'{folder}/Lts.antt').read()
        self.places = {p: (b, t) for p, b, t in re.findall(r'pub record (\S+) : Type 0 where\n\s+pub before : (\S+)\n\s+pub (\S+) :', lts)}
        self.where = dict(re.findall(r'Need-(\S+) =\s*\(c : (\S+)\)', lts))

    def way(self, need):
        """What lies on the way to a need, first to last: its name, its place, and how many `.before` lead back to it."""
        place, steps, found = self.where[need], 0, []
        while place in self.places:
            before, thing = self.places[place]
            found.append((thing, place, steps))
            place, steps = before, steps + 1
        return found[::-1]


class Left(Places):
    """A function with no proof file: the lines that `rt dev` prints for it, and what is known at each of its places."""

    def __init__(self, crate, path, text, made):
        self.path, self.name = path, os.path.basename(os.path.dirname(path))
        folder = re.search(r'/proofs/(.*)/Proof\.antt$', path).group(1)
        self.label = '::'.join([crate] + folder.split('/'))
        self.spec = re.search(r'tie\.spec\s+([^)]*)\)', text).group(1).split()
        self.answers = dict(re.findall(r'^(\S+) c(?: κs)? = (.*)$', text, re.M))
        self.takes_lifetimes = {n for n, k in re.findall(r'^(\S+) c( κs)? = ', text, re.M) if k}
        self.module = re.search(r'^use (\S+)\.Statement', text, re.M).group(1)
        super().__init__(f'{made}/Rattle·{crate}·proofs/proofs/{folder}')
        self.calls = {re.sub(r'-requires(?:-(\d+))?$', lambda k: k.group(1) or '', n) for n in self.spec if '-requires' in n}
        self.holes = [n for n in self.spec if self.answers[n] == '?']

    def write(self, first, uses, body):
        """The proof file: these answers, and `search needs` for every need that it closes."""
        fn = self.name.replace('_', '-')
        args = [n if n in self.holes else '(λ c κs. search needs)' if n in self.takes_lifetimes else '(λ c. search needs)' for n in self.spec]
        out = [f'-- `{self.label}` meets its contract: {first}'] + uses + [f'use {self.module}.Statement.{{statement}}', f'use {self.module}.Tie as tie', '']
        out += body + [f'pub {fn}-spec : {{M : Type 1}} → statement M', f'{fn}-spec =', '    tie.close'] + rows('    (tie.spec', args, ')')
        os.makedirs(os.path.dirname(self.path), exist_ok=True)
        open(self.path, 'w').write('\n'.join(out) + '\n')
        print('wrote', self.label, '(with a hole)' if any(line.endswith('= ?') for line in body) else '')


def dots(steps):
    return 'c' + ' .before' * steps


def ensures(name, steps):
    return f'({dots(steps)} .{name} .ensures)'


def rows(head, words, last):
    """Words in rows of at most 130 characters."""
    done, row = [], head
    for w in words:
        if len(row) + 1 + len(w) > 130:
            done.append(row)
            row = '   '
        row += ' ' + w
    return done + [row + last]


def left(crate, only):
    """The functions of a crate that have no loop, call themselves by no way, and have no proof file."""
    r = subprocess.run(['rt', 'dev', crate], capture_output=True, text=True, env=ENV)
    found = list(re.finditer(r'^help: write (\S+Proof\.antt) with these lines.*?\n((?:    .*\n|\n)+)', r.stdout + r.stderr, re.M))
    if not found:
        return
    with tempfile.TemporaryDirectory() as made:
        subprocess.run(['rt', 'dev', crate, '--generated', made], capture_output=True, text=True, env=ENV)
        for m in found:
            path, text = m.group(1), re.sub(r'^    ', '', m.group(2), flags=re.M)
            name = os.path.basename(os.path.dirname(path))
            if (only and name not in only) or os.path.exists(path):
                continue
            if 'Inv-loop' in text or name.startswith('+'):
                print('has a loop or is a cycle, left to you:', name)
                continue
            yield Left(crate, path, text, made)
