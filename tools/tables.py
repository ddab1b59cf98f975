#!/usr/bin/env python3
"""Writes a crate for each table of the browser in lent memory, over the crates `sorted`, `types`, `tables`, `labels`, `memory`, `rows` and `layouts`,
and in `layouts` the definitions of where each table lies and what its numbers say.

    tools/tables.py [FOLDER [CRATE..]]
    tools/tables.py check       which files of the crates are not as it writes them

tools/nine_tables.py describes the tables; FOLDER has the crates (`crates` beside this folder where none is given). For each table the folder CRATE is written:

    src/lib.rt                   how many rows there are at most; the unit struct that is a `rows::Table`; the functions of the description
    src/heads.rt                 of waiting rows: what tests look at
    specs/, proofs/              of waiting rows: their heads, what is read of a row that was written, and that it is; else what the description has
    must-fail/, and MORE         the edits that the description names, and of waiting rows HEADER_EDITS, of others row_edits

What a table does stands once, in `rows`. What is written is in the layout of `rt fmt` and names no more than `rt tidy` leaves. It is committed and read like any other code;
it is written anew when a description changes.

A table is described by its fields, one after the other as they lie in a row (Plain, Number, Half, Short, Flag, Tag, Part, Struct, Header), and by its key;
offsets, widths and bases are counted.
"""
import os
import re
import shutil
import subprocess
import sys
import tempfile
from dataclasses import dataclass, field

RATTLE = os.path.join(os.path.dirname(os.path.realpath(shutil.which('rt'))), 'rattle')
WIDE_HEADER = 193    # numbers of a Cookie header: its count and 64 pairs of three
MORE = 'more'    # where a crate's edits stand that the gate does not try


# ---------------------------------------------------------------- fields of a row

@dataclass
class Leaf:
    """A field that is read at once: of one number, by the function `read`, or of `width` numbers. `meaning` says what the numbers {x} say."""
    type: str
    width: int
    read: str
    write: str
    meaning: str

    def wrapped(self):
        return self.width == 1 and self.meaning.startswith('record')


def Plain():
    return Leaf('u32', 1, None, None, '{x}')


def Number(type):
    return Leaf(type, 1, None, None, 'record {{ 0 = {x} }}')


def Half(type):
    return Leaf(type, 1, 'half', 'low', 'record {{ 0 = {x} % 65536 }}')


def Short():
    return Leaf('u16', 1, 'half', 'low', '{x} % 65536')


def Flag():
    return Leaf('bool', 1, 'flag_of', 'flag', 'flag_of ({x})')


def Tag(type, name):
    return Leaf(type, 1, f'{name}_of', f'{name}_tag', name + '_of ({x})')


def Part(type, width, name):
    return Leaf(type, width, f'{name}_at', f'{name}_numbers', name + '_of ({x})')


@dataclass
class Struct:
    type: str
    fields: list


@dataclass
class Header:
    """A Cookie header. It lies behind all other fields of the row."""
    type: str = 'Jar'


def leaves(fields, path=()):
    for name, f in fields:
        if isinstance(f, Struct):
            yield from leaves(f.fields, path + (name,))
        else:
            yield path + (name,), f


# ---------------------------------------------------------------- descriptions

@dataclass
class Key:
    """What a row is found by."""
    type: str                 # 'WindowNumber'
    code: str                 # of a head h: 'h.number'
    sorts: str                # what rows are sorted by in the definitions: 'ℕ'
    sort: str                 # that of a key: 'key.0'
    parts: list               # of keys a and b: what is compared, the first part first: ['{k}.0 as u64']
    seen: str = None          # that of a head in the definitions, where it is not the row's

    def compared(self):
        each = ['{}.cmp(&{})'.format(part.lstrip('!').format(k='a'), part.lstrip('!').format(k='b')) for part in self.parts]
        return each[0] + ''.join(f'.then({e})' for e in each[1:])


@dataclass
class Table:
    name: str                 # in the definitions' word; `key_of NAME`, `cmp NAME` are its key and order there
    type: str                 # the unit struct: 'Windows'
    layout: str               # of crate layouts: 'windows_in'
    row: str                  # the struct of types::rows
    decode: str               # what a row's numbers say: 'window_of'
    capacity: tuple           # ('WINDOWS', 32)
    fields: list
    key: Key
    about: str                # the first line of src/lib.rt, without its full stop
    ordered: str              # what layouts says of it
    mentions: str = ''        # whether a head h speaks of a label l, where rows speak of labels
    offered: str = ''         # further code
    head: list = field(default_factory=list)      # [(name, path)]: what tests look at, where that is not the whole row
    meanings: str = ''        # of a head, in the definitions
    meant: list = field(default_factory=list)     # what these cite
    more: dict = field(default_factory=dict)      # further files of definitions and laws: {'specs/Filled.antt': text}
    edits: dict = field(default_factory=dict)     # of more/
    gated: dict = field(default_factory=dict)     # of must-fail, which the gate tries
    component: str = ''                           # the paper's name of the component, where it is spelt otherwise
    base: int = 0

    def __post_init__(self):
        self.at, k, self.header = {}, 0, None
        for path, f in leaves(self.fields):
            if isinstance(f, Header):
                self.header = path
            else:
                self.at[path], k = k, k + f.width
        self.own = k                                            # numbers of a row without its header
        self.width = k + (WIDE_HEADER if self.header else 0)

    def end(self):
        return self.base + 1 + self.capacity[1] * self.width

    def leaf(self, path):
        return dict(leaves(self.fields))[path]

    def record(self, leaf, indent=0, fields=None, path=()):
        """A record of the row, with `leaf(path, field)` at each field."""
        out = 'record {\n'
        for name, f in fields or self.fields:
            inner = self.record(leaf, indent + 1, f.fields, path + (name,)) if isinstance(f, Struct) else leaf(path + (name,), f)
            out += '  ' * (indent + 1) + f'{name} = {inner};\n'
        return out + '  ' * indent + '}'

    def says(self, path, f):
        """What a field is, of the row's numbers c."""
        if isinstance(f, Header):
            return 'j'
        k = self.at[path]
        return f.meaning.format(x=f'get_or c {k} 0' if f.width == 1 else f'take {f.width} (drop {k} c)' if k else f'take {f.width} c')


# ---------------------------------------------------------------- templates: @word@ is filled in

LIB = '''// @about@, in lent memory. Written by tools/tables.py.
#![tactic(auto)]
@rooms@
@ghosts@
@uses@

// How many rows there is room for.
pub const @CAPACITY@: usize = @capacity@;

pub struct @Type@;

impl Table for @Type@ {
    type Row = @Row@;

    type Head = @Head@;

    type Key = @Key@;

    const COUNT: usize = @base@;

    const WIDTH: usize = @width@;

    const CAPACITY: usize = @CAPACITY@;

    ghost COUNT = { @base@ };

    ghost WIDTH = { @width@ };

    ghost CAPACITY = { @capacity@ };

    ghost decode = { @decode@ };

    ghost head_of = { @head_of@ };

    ghost kept = { @kept@ };

    ghost Sort = { @sorts@ };

    ghost sort = { λ key. @sort@ };

    ghost key_of = { @key_of@ };

    ghost cmp = { cmp @name@ };

    fn read(c: &[u32]) -> @Row@ {
@readbody@
    }

    fn glance(c: &[u32]) -> @Head@ {
@glancebody@
    }

    fn write(c: &mut [u32], row: @Row@) {
@writebody@
    }

    fn head(row: @Row@) -> @Head@ {
@headbody@
    }

    fn key(h: @Head@) -> @Key@ {
        @keycode@
    }

    fn order(a: @Key@, b: @Key@) -> Ordering {
        @compared@
    }

    ghost fits = { Prim.search rules };

    ghost few = { Prim.search rules };

    ghost same_key = { λ row. refl };
}
@labelled@
// A row's numbers@allbut@.
fn numbers_of(row: @Row@) -> [u32; @own@]
    ensures { @coded@ ≡ row }
{
@numbersbody@
}
@offered@'''

LABELLED = '''
impl Labelled for @Type@ {
    ghost mentions = { @mentions@ };

    ghost clean = { clean @name@ };

    fn mentions(h: @Head@, l: Label) -> bool {
        @mentioned@
    }

    ghost cleaned = { clean_where_none @name@ };
}
'''

HEADS = '''// What tests of waiting requests look at. Written by tools/tables.py.
@uses@

#[derive(Clone, Copy)]
pub struct Head {
@headfields@
}
'''

HEAD_SPECS = '''-- What tests look at. Written by tools/tables.py.
@cites@

abbrev pub head_of : @Row@ → Head
head_of r = record { @headparts@ }
@meanings@'''

TIDIED = '''-- A row with whatever stood behind the count of its header made blank: that is what is read of its numbers. Written by tools/tables.py.
use Rattle.tables.specs.Nouns.{Jar, @Row@}
use Rattle.layouts.specs.Jars.{tidy}

abbrev pub with_jar : Jar → @Row@ → @Row@
with_jar j r = @withjar@

abbrev pub tidied : @Row@ → @Row@
tidied r = with_jar (tidy r@jarpath@) r
'''

ANSWERS = '''-- @why@ Written by tools/tables.py.
@cites@
use Rattle.@name@.proofs.@Type@Table.@fn@.Goals as goal

pub returns : goal.returns
returns c = @answer@
'''

RULES = 'use Rattle.std.proofs.Common.{rules}\nuse Rattle.@name@.proofs.Coded.'
HEADER_ANSWERS = {
    'read': ('Field by field.', RULES + '{row_says}', 'row_says c.args.c.now _ (search rules)'),
    'glance': ('Field by field.', RULES + '{head_says}', 'head_says c.args.c.now _ (search rules)'),
    'write': ('The head is stored, then the header is written.', RULES + '{written}', 'λ l. written c.args.c.now _ _ _ c.args.row l (search rules) c.numbers_of.ensures c.store.ensures c.write.ensures'),
}

# What the code, the contracts and the definitions cite: of each line only the names that occur in the file are written.
USES = {
    'std::cmp': ['Ordering'], 'rows': ['Labelled', 'Table'], 'memory': ['Memory'],
    'types': ['Address', 'Data', 'Host', 'Origin', 'Parameters', 'Path', 'Protocol', 'Request', 'DnsNumber', 'DocumentNumber', 'DocumentNumbers', 'KeyNumber',
              'Label', 'RequestNumber', 'Url', 'WindowNumber', 'Method', 'OriginHeader', 'Policy', 'Reference', 'Referrer', 'Seal'],
    'types::commands': ['Script', 'ScriptState'],
    'types::cookies': ['Cookie', 'CookieName', 'CookieValue', 'Jar', 'SetCookies'],
    'types::items': ['Stored'],
    'types::rows': ['Window', 'Document', 'HostCookie', 'LocalValue', 'SessionValue', 'Input', 'Question', 'Waiting', 'StrictHost', 'News'],
}
CITES = {
    'Rattle.std.specs.Prelude': ['◌≡◌', 'Bool', 'not', '◌&&◌', 'List', '[]', '◌∷◌', '◌++◌', 'map', 'ℕ', '◌≤◌', 'length', 'get_or', 'take', 'drop', '◌%◌'],
    'Rattle.std.proofs.Common': ['refl', 'rules'],
    'Rattle.sorted.specs.Table': ['find', 'keep', 'at', 'is_some'],
    'Rattle.memory.specs.Rows': ['table'],
    'Rattle.types.specs.Lists': ['document_numbers', 'cookies_in'],
    'Rattle.tables.specs.Nouns': ['Question', 'Waiting', 'Document', 'DocumentNumber', 'Host', 'Protocol', 'HostCookie'],
    'Rattle.tables.specs.Tables': ['windows', 'documents', 'cookies', 'local_storage', 'session_storage', 'inputs', 'pending_dns', 'pending_requests', 'sts', 'key_of', 'cmp', 'is_secure'],
    'Rattle.tables.specs.Labels': ['mentions', 'clean', 'leads', 'seal_label', 'Label', 'dns', 'request'],
    'Rattle.tables.specs.Rows': ['same_host', 'goes_over', 'pair_of', 'jar'],
    'Rattle.rows.specs.Tables': ['Decides'],
    'Rattle.rows.proofs.Clean': ['clean_where_none'],
    'Rattle.layouts.specs.Codes': ['flag_of', 'parent_of', 'opener_of', 'policy_of', 'method_of', 'url_of', 'referrer_of', 'reference_of', 'origin_of', 'site_of', 'news_of', 'seal_of'],
    'Rattle.layouts.specs.Jars': ['jar_at'],
}


# ---------------------------------------------------------------- a row's code

def read_leaf(table, path):
    """The expression that reads a field of the row of the numbers c."""
    f = table.leaf(path)
    if isinstance(f, Header):
        return f'layouts::jars::read(c, {table.own})'
    k = table.at[path]
    if f.width > 1:
        return f'layouts::{f.read}(c, {k})'
    got = f'layouts::number(c, {k})'
    got = f'layouts::{f.read}({got})' if f.read else got
    return f'{f.type}({got})' if f.wrapped() else got


def literal(table, fields=None, path=()):
    """A value of the row, read field by field."""
    out = ''
    for name, f in fields or table.fields:
        at = path + (name,)
        out += f'{name}: ' + (f'{f.type} {{ {literal(table, f.fields, at)} }}' if isinstance(f, Struct) else read_leaf(table, at)) + ', '
    return out


def numbers_words(table):
    """The code of `numbers_of`: parts of several numbers first."""
    lines, cells = [], []
    for path, f in leaves(table.fields):
        if isinstance(f, Header):
            continue
        v, value = '_'.join(path), 'row.' + '.'.join(path)
        if f.width > 1:
            lines.append(f'    let {v} = layouts::{f.write}({value});')
            cells += [f'{v}[{i}]' for i in range(f.width)]
        else:
            value += '.0' if f.wrapped() else ''
            cells.append(f'layouts::{f.write}({value})' if f.write else value)
    return '\n'.join(lines + [f'    [{", ".join(cells)}]'])


def head_words(table):
    """A head as it is read of numbers, and as it is taken from a row; its fields."""
    paths = [(name, tuple(p.split('.'))) for name, p in table.head]
    return {'glancebody': 'Head { ' + ', '.join(f'{n}: {read_leaf(table, p)}' for n, p in paths) + ' }',
            'headbody': 'Head { ' + ', '.join(f'{n}: row.{".".join(p)}' for n, p in paths) + ' }',
            'headfields': '\n'.join(f'    pub {n}: {table.leaf(p).type},' for n, p in paths),
            'headparts': '; '.join(f'{n} = r.{".".join(p)}' for n, p in paths)}


def with_jar(table):
    """The row r with the header j."""
    j, update = table.header, 'j'
    for depth in range(len(j) - 1, -1, -1):
        holder, at = 'r' + ''.join(f'.{x}' for x in j[:depth]), table.fields
        for x in j[:depth]:
            at = dict(at)[x].fields
        update = 'record { ' + '; '.join(f'{n} = {update if n == j[depth] else f"{holder}.{n}"}' for n, _ in at) + ' }'
    return update


def coded(table):
    """The laws of a row with a header: a row's numbers but for its header's are the first; what is written is read."""
    w, of, jar = table.own, table.decode, 'r' + ''.join(f'.{x}' for x in table.header)
    told, first = [], table.leaf(next(p for p, _ in leaves(table.fields))).width > 1
    for path, f in leaves(table.fields):
        if isinstance(f, Header):
            continue
        k = table.at[path]
        told.append(f'get_or-take {w} c {k} 0 (omega arith)' if f.width == 1 else f'take-take {f.width} {w} c (omega arith)' if k == 0 else f'part {f.width} {k} {w} 0 c (omega arith)')
    return f'''-- A row's first numbers are all but its header's, and what is written is read. Written by tools/tables.py.
use mathlib.Core.Path.{{◌≡◌, sym, ap, ◌∙◌}}
use mathlib.Core.List.{{List}}
use Prim.Native.Nat.{{ℕ}}
use native.Mathlib.Omega.{{arith}}
use lib.ListN.{{length, take}}
use lib.Seq.{{{'take-take, ' if first else ''}get_or-take}}
use Rattle.tables.specs.Nouns.{{Jar, {table.row}}}
use Rattle.memory.specs.Rows.{{Stored}}
use Rattle.memory.proofs.Parts.{{part}}
use Rattle.layouts.specs.Jars.{{jar_at, tidy, Wrote}}
use Rattle.layouts.specs.Rows.{{{of}, {of}_with}}
use Rattle.layouts.proofs.Headed.{{headed}}
use Rattle.{table.name}.specs.declared.heads.Head.{{Head}}
use Rattle.{table.name}.specs.Heads.{{head_of}}
use Rattle.{table.name}.specs.Tidied.{{with_jar, tidied}}

pub at_first : (c : List ℕ) (j : Jar) → {of}_with (take {w} c) j ≡ {of}_with c j
at_first c j = rw ({", ".join(told)})

pub row_says : (c : List ℕ) (r : {table.row}) → r ≡ {of}_with c (jar_at {w} c) → r ≡ {of} c
row_says c r e = e ∙ sym (at_first c (jar_at {w} c))

pub head_says : (c : List ℕ) (h : Head) → h ≡ head_of ({of}_with c (jar_at {w} c)) → h ≡ head_of ({of} c)
head_says c h e = e ∙ ap head_of (sym (at_first c (jar_at {w} c)))

pub written : (m m₁ n c : List ℕ) (r : {table.row}) → length m ≡ {table.width} → length c ≡ {w} → {of}_with c {jar} ≡ r → Stored m 0 c m₁ → Wrote {w} {jar} m₁ n → {of} n ≡ tidied r
written m m₁ n c r l z e s w = headed {w} {of}_with {jar} l z s w ∙ ap (with_jar (tidy {jar})) e
'''


# ---------------------------------------------------------------- writing

def fill(text, words):
    """The text with each @word@ filled in, also those of what was filled in."""
    while re.search(r'@[\w-]+@', text):
        text = re.sub(r'@([\w-]+)@', lambda m: str(words[m.group(1)]), text)
    return text


def occurs(name, text):
    bare = name.split(' as ')[-1].strip('◌')
    around = r'[\w₂-]' if re.match(r'\w', bare) else r'[^\s()]'
    return re.search(f'(?<!{around})(?<!\\.){re.escape(bare)}(?!{around})(?! = )', text)


def cited(text, cites, line):
    """A line for each module of which the text has a name."""
    text = re.sub(r'--.*', '', text)
    lines = []
    for module, names in cites.items():
        there = [n for n in names if occurs(n, text)]
        if there:
            lines.append(line.format(module=module, names='{' + ', '.join(there) + '}'))
    return '\n'.join(lines)


def used(text):
    """The `use` lines of a file of code."""
    code = '\n'.join(l for l in text.split('\n') if not re.match(r'\s*(//|ghost |ensures |requires )', l))
    lines = []
    for module, names in USES.items():
        there = [n for n in names if re.search(rf'(?<![\w:]){n}\b', code)]
        if there:
            lines.append(f'use {module}::' + (there[0] if len(there) == 1 else '{' + ', '.join(there) + '}') + ';')
    return lines


def write(path, text):
    os.makedirs(os.path.dirname(path), exist_ok=True)
    with open(path, 'w') as f:
        f.write(re.sub(r'\n\n\n+', '\n\n', text))
    WROTE.append(path)


WROTE, EDITED = [], []


def words_of(table):
    row = '.'.join(('row',) + (table.header or ()))
    words = {'name': table.name, 'about': table.about, 'Type': table.type, 'Row': table.row, 'Head': 'Head' if table.head else table.row, 'Key': table.key.type,
             'CAPACITY': table.capacity[0], 'capacity': table.capacity[1], 'base': table.base, 'width': table.width, 'own': table.own, 'own-': table.own - 1, 'decode': table.decode,
             'head_of': 'head_of' if table.head else 'λ row. row', 'kept': 'tidied' if table.header else 'λ row. row',
             'sorts': table.key.sorts, 'sort': table.key.sort, 'key_of': table.key.seen or f'key_of {table.name}', 'keycode': table.key.code, 'compared': table.key.compared(),
             'readbody': f'{table.row} {{ {literal(table)} }}', 'glancebody': 'Self::read(c)', 'headbody': 'row', 'numbersbody': numbers_words(table),
             'labelled': LABELLED if table.mentions else '', 'mentioned': table.mentions, 'mentions': 'head_mentions' if table.head else f'mentions {table.name}', 'offered': table.offered,
             'allbut': ", all but its header's" if table.header else '', 'meanings': table.meanings, 'uses': '', 'ghosts': '', 'cites': '',
             'coded': f'{table.decode}_with result {row}' if table.header else f'{table.decode} result', 'rooms': '\nmod heads; // what tests look at\n' if table.head else '',
             'writebody': f'memory::store(c, 0, &numbers_of(row)); layouts::jars::write(c, {table.own}, {row});' if table.header else
                          'let numbers = numbers_of(row); if c.len() == numbers.len() { c.copy_from_slice(&numbers); }'}
    if table.header:
        words['method'] = table.at['request', 'method']
        words['method-'] = words['method'] - 1
    return words | (head_words(table) if table.head else {})


def crate(table, folder):
    words, root = words_of(table), os.path.join(folder, table.name)
    here = f'Rattle.{table.name}.specs'
    own = {f'{here}.Heads': ['head_of', 'head_mentions'], f'{here}.Tidied': ['tidied'], 'Rattle.layouts.specs.Tables': [table.layout], 'Rattle.layouts.specs.Rows': [table.decode, f'{table.decode}_with']}
    for name, text in table.more.items():
        if name.startswith('specs/'):
            own[f'{here}.{os.path.basename(name)[:-5]}'] = re.findall(r'^(?:abbrev pub|pub record) (\S+)', text, re.M)
    text = fill(LIB, words)
    claims = '\n'.join(l for l in text.split('\n') if re.match(r'\s*(ghost \w+ = |ensures )', l))
    words['ghosts'] = re.sub(r'^use', 'ghost use', cited(re.sub(r'ghost \w+ = ', '', claims), CITES | own, 'use {module}.{names};'), flags=re.M)
    words['uses'] = '\n'.join(sorted(used(text) + (['use heads::Head;'] if table.head else []), key=lambda l: l.removeprefix('pub '))).replace('use heads::Head', 'pub use heads::Head')
    write(f'{root}/src/lib.rt', fill(LIB, words))
    specs = {name: text for name, text in table.more.items()}
    if table.head:
        words['uses'] = '\n'.join(used(fill(HEADS, words | {'uses': ''})))
        write(f'{root}/src/heads.rt', fill(HEADS, words))
        text = fill(HEAD_SPECS, words)
        words['cites'] = cited(text, {m: n for m, n in CITES.items() if 'rows' not in m} | {f'{here}.declared.heads.Head': ['Head']}, 'use {module}.{names}')
        specs['specs/Heads.antt'] = fill(HEAD_SPECS, words)
        words['withjar'], words['jarpath'] = with_jar(table), ''.join(f'.{x}' for x in table.header)
        specs['specs/Tidied.antt'] = fill(TIDIED, words)
        specs['proofs/Coded.antt'] = coded(table)
        for fn, (why, cites, proof) in HEADER_ANSWERS.items():
            specs[f'proofs/{table.type}Table/{fn}/Answers.antt'] = fill(ANSWERS, words | {'fn': fn, 'why': why, 'answer': proof, 'cites': cites})
    for name, text in specs.items():
        write(f'{root}/{name}', text)
    for kind, about in (('specs', 'What the contracts of this crate cite.'), ('proofs', "The laws of this table's rows.")):
        mods = [os.path.basename(name)[:-5] for name in specs if re.match(rf'{kind}/\w+\.antt', name)]
        if mods:
            write(f'{root}/{kind}/Lib.antt', f'-- {about}\n' + ''.join(f'pub mod {m}\n' for m in mods))

    # what a check must refuse
    for place, edits in (('must-fail', table.gated), (MORE, (HEADER_EDITS if table.header else row_edits(table)) | table.edits)):
        for label, (old, new) in edits.items():
            EDITED.append((f'{root}/src/lib.rt', label, fill(old, words)))
            write(f'{root}/{place}/{label}.edit', fill(f'file: src/lib.rt\nold: {old}\nnew: {new}\n', words))


# ---------------------------------------------------------------- where the tables lie

def layouts(tables, folder):
    root = os.path.join(folder, 'layouts', 'specs')
    rows = ''
    for t in tables:
        first = f', the first {t.own} of them its head' if t.header else ''
        rows += f'\n-- {t.component or t.name}: {t.width} number{"s" if t.width > 1 else ""}{first}\n'
        says = t.record(t.says)
        if t.header:
            rows += f'abbrev pub {t.decode}_with : List ℕ → Jar → {t.row}\n{t.decode}_with c j = {says}\n\nabbrev pub {t.decode} : List ℕ → {t.row}\n'
            rows += f'{t.decode} c = {t.decode}_with (take {t.own} c) (jar_at {t.own} c)\n'
        else:
            rows += f'abbrev pub {t.decode} : List ℕ → {t.row}\n{t.decode} c = {says}\n'
    nouns = ', '.join(t.row for t in tables)
    cites = {m: CITES[m] for m in ('Rattle.layouts.specs.Codes', 'Rattle.layouts.specs.Jars')}
    write(f'{root}/Rows.antt', f'''-- A row of each table as its numbers. Any numbers say something. Written by tools/tables.py.
use Rattle.std.specs.Prelude.{{List, ℕ, ◌%◌, get_or, take, drop}}
use Rattle.tables.specs.Nouns.{{{nouns}, Jar}}
{cited(rows, cites, 'use {module}.{names}')}
{rows}''')
    lie = ''.join(f'''
-- {t.ordered}
abbrev pub {t.layout} : Layout {t.row}
{t.layout} = record {{ base = {t.base}; width = {t.width}; capacity = {t.capacity[1]}; decode = {t.decode} }}
''' for t in tables)
    write(f'{root}/Tables.antt', f'''-- The nine tables, one behind the other from the first number on. Behind them the memory has room for what a browser holds beside its tables.
-- Written by tools/tables.py.
use Rattle.tables.specs.Nouns.{{{nouns}}}
use Rattle.memory.specs.Rows.{{Layout}}
use Rattle.layouts.specs.Rows.{{{', '.join(t.decode for t in tables)}}}
{lie}''')


# Edits of src/lib.rt that a check must refuse: (old, new). The same operations, and a fact that no longer holds; of a table whose row has a header, behind @own@ numbers.
HEADER_EDITS = {
    'row_starts_its_header_too_soon': ('cookies: layouts::jars::read(c, @own@),', 'cookies: layouts::jars::read(c, @own-@),'),
    'row_starts_its_method_too_soon': ('method: layouts::method_of(layouts::number(c, @method@)),', 'method: layouts::method_of(layouts::number(c, @method-@)),'),
    'put_writes_the_header_too_soon': ('layouts::jars::write(c, @own@, row.request.cookies);', 'layouts::jars::write(c, @own-@, row.request.cookies);'),
}



def row_edits(table):
    """The same of a row without a header: its first part read from one number further on, and nothing of it written."""
    first = 'site_at' if table.type in ('LocalStorage', 'SessionStorage') else 'number'
    return {
        'row_starts_one_number_late': (f'layouts::{first}(c, 0)', f'layouts::{first}(c, 1)'),
        'row_is_not_written': ('            c.copy_from_slice(&numbers);', '            c[0] = 0;'),
    }


def make(tables, folder, only):
    """Writes the crates of these names, or all, into a folder."""
    base = 0
    for t in tables:
        t.base = base
        base = t.end()
    layouts(tables, folder)
    for t in tables:
        if not only or t.name in only:
            crate(t, folder)
    sources = [w for w in WROTE if w.endswith(('.rt', '.antt'))]
    subprocess.run([RATTLE, 'fmt', '--write'] + sources, check=True, stdout=subprocess.DEVNULL)
    for path, label, old in EDITED:
        if open(path).read().count(old) != 1:
            print(f'{path}: the text of the edit {label} is not there just once')


def main(words):
    sys.path.insert(0, os.path.dirname(os.path.abspath(__file__)))
    sys.modules['tables'] = sys.modules['__main__']
    from nine_tables import TABLES
    crates = os.path.join(os.path.dirname(os.path.dirname(os.path.abspath(__file__))), 'crates')
    if words != ['check']:
        return make(TABLES, words[0] if words else crates, words[1:])
    with tempfile.TemporaryDirectory() as folder:
        make(TABLES, folder, [])
        names = [os.path.relpath(path, folder) for path in WROTE]
        text = lambda top, name: open(f'{top}/{name}').read() if os.path.exists(f'{top}/{name}') else None
        other = [name for name in names if text(folder, name) != text(crates, name)]
    print('\n'.join(f'not as written: {name}' for name in other) or f'{len(names)} files, all as written')
    return bool(other)


if __name__ == '__main__':
    sys.exit(main(sys.argv[1:]))
