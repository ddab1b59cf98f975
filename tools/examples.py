#!/usr/bin/env python3
"""examples.py [check]: makes examples/NAME.in and NAME.out from the code lines of examples/NAME.md, and copies the folder to where the player plays it in the gate,
crates/player/data/examples; with `check`, says which files are not as made or not as copied.

In NAME.md an item stands on a line of its own behind four spaces, and the line that the player prints for it right below, behind four spaces
and `-> `. NAME.in has the items one behind the other without a line break, NAME.out the printed lines; so the three cannot drift apart.
"""
import glob, os, shutil, sys

TOP = os.path.dirname(os.path.dirname(os.path.abspath(__file__)))
FOLDER, COPY = os.path.join(TOP, 'examples'), os.path.join(TOP, 'crates', 'player', 'data', 'examples')
ITEM, PRINTED = '    (', '    -> '


def played(path):
    """The items of a run, and the lines that are printed for them."""
    lines = open(path).read().split('\n')
    items = [n for n, line in enumerate(lines) if line.startswith(ITEM)]
    printed = [n for n, line in enumerate(lines) if line.startswith(PRINTED)]
    if [n + 1 for n in items] != printed:
        sys.exit(f'{path}: each item needs the line that is printed for it right below')
    return [lines[n].strip() for n in items], [lines[n][len(PRINTED):] for n in printed]


def made():
    """Each file to be made, with what stands in it."""
    for path in sorted(glob.glob(os.path.join(FOLDER, '*.md'))):
        items, printed = played(path)
        if items:
            yield path[:-3] + '.in', ''.join(items)
            yield path[:-3] + '.out', ''.join(line + '\n' for line in printed)


def stands(path, text):
    return os.path.exists(path) and open(path, newline='').read() == text


def apart():
    """The names of the files that are not the same in the folder and in its copy."""
    text = lambda folder, name: open(os.path.join(folder, name), 'rb').read() if os.path.isfile(os.path.join(folder, name)) else None
    return [name for name in sorted({*os.listdir(FOLDER), *os.listdir(COPY)}) if text(FOLDER, name) != text(COPY, name)]


def main(words):
    if words == ['check']:
        stale = [os.path.basename(path) for path, text in made() if not stands(path, text)]
        said = [f'{what}: {" ".join(names)}' for what, names in (('not as made', stale), ('not as copied', apart())) if names]
        print('\n'.join(said or ['all as made, and as copied']))
        return bool(said)
    if words:
        sys.exit(__doc__)
    for path, text in made():
        open(path, 'w', newline='').write(text)
    for name in apart():
        at = os.path.join(FOLDER, name)
        if os.path.isfile(at):
            shutil.copyfile(at, os.path.join(COPY, name))
        else:
            print(f'only in the copy: {name}')
    return False


if __name__ == '__main__':
    sys.exit(main(sys.argv[1:]))
