#!/usr/bin/env python3
"""edits.py [CRATE]...: tries the must-fail edits of these crates, or of all, also those that the gate does not try. edits.py --rows: whether docs/PROMISES.md names just the edits that there are.

The gate tries the edits right in crates/CRATE/must-fail/, by `rt ci`. The others stand in a folder `more` of the crate. Here a copy of the repository is made in a temporary
folder, all edits stand in must-fail/ there, and `rt must-fail` tries them; what it says is passed on. It begins with what `rt check` kept of a crate on this machine.

A control, NAME.control beside NAME.edit, is a text of the edit's shape that changes no meaning. It is tried as an edit, NAME.control.edit, and must not be refused.

The last line is 'N refused, M not refused, K bad, L not tried; controls: A accepted, B not accepted'.
"""
import glob
import os
import re
import shutil
import subprocess
import sys
import tempfile

TOP = os.path.dirname(os.path.dirname(os.path.abspath(__file__)))
SAID = re.compile(r"(?:rt: )?must-fail (\w+)/(.*?)(\.control)?\.edit: (refused|NOT REFUSED|BAD EDIT|NOT TRIED)")
LISTED = {line.split(":")[0].split()[0] for line in open(f"{TOP}/crates.txt") if ":" in line.split("#")[0]}


def crate_of(path):
    return os.path.relpath(path, f"{TOP}/crates").split(os.sep)[0]


def found(ending):
    """The files of that ending, with the crate of each: those right in must-fail/, and those of its folder `more`."""
    places = [f"{TOP}/crates/*/must-fail/*{ending}", f"{TOP}/crates/*/more/*{ending}"]
    return sorted((crate_of(path), path) for place in places for path in glob.glob(place) if crate_of(path) in LISTED)


def name_of(path):
    return os.path.basename(path).rsplit(".", 1)[0]


def rows(edits):
    """What docs/PROMISES.md names and is no edit, and the edits that it does not name."""
    text = open(f"{TOP}/docs/PROMISES.md").read()
    names, named = {name_of(path) for crate, path in edits}, set(re.findall(r"`(\w+)`", text))
    ruled_out = {name for row in re.findall(r"^\|.*\|.*\|(.*)\|$", text, re.M) for told in re.findall(r"\(((?:`\w+`(?:, | and )?)+)\)", row) for name in re.findall(r"\w+_\w+", told)}
    lines = [f"no edit: {name}" for name in sorted(ruled_out - names)] + [f"in no row: {crate}/{name_of(path)}" for crate, path in edits if name_of(path) not in named]
    print("\n".join(lines + [f"{len(names & named)} names, {len(lines)} amiss"]))
    return bool(lines)


def copied(to, edits, controls):
    """The repository's crates in another folder, with these edits and controls right in must-fail/."""
    leave = lambda folder, names: [n for n in names if n == "out" or (os.path.dirname(folder) == f"{TOP}/crates" and n in ("must-fail", "more"))]
    shutil.copytree(f"{TOP}/crates", f"{to}/crates", ignore=leave)
    for name in ("crates.txt", "HANDLES"):
        if os.path.exists(f"{TOP}/{name}"):
            shutil.copy(f"{TOP}/{name}", to)
    for ending, files in ((".edit", edits), (".control.edit", controls)):
        for crate, path in files:
            os.makedirs(f"{to}/crates/{crate}/must-fail", exist_ok=True)
            at = f"{to}/crates/{crate}/must-fail/{name_of(path)}{ending}"
            if os.path.exists(at):
                sys.exit(f"{crate} has two edits called {name_of(path)}")
            shutil.copy(path, at)


def main(words):
    edits, controls = found(".edit"), found(".control")
    if words == ["--rows"]:
        return rows(edits)
    crates = {crate for crate, path in edits}
    if set(words) - crates:
        sys.exit(f"no crate with edits: {' '.join(sorted(set(words) - crates))}\n\n{__doc__}")
    wanted = sorted(set(words) or crates)
    count = dict.fromkeys([(told, control) for told in ("refused", "NOT REFUSED", "BAD EDIT", "NOT TRIED") for control in (False, True)], 0)
    with tempfile.TemporaryDirectory() as folder:
        copied(folder, *([(crate, path) for crate, path in files if crate in wanted] for files in (edits, controls)))
        asked = subprocess.Popen(["rt", "must-fail", *wanted], cwd=folder, stdout=subprocess.PIPE, stderr=subprocess.STDOUT, text=True, errors="replace")
        for line in asked.stdout:
            print(line, end="", flush=True)
            told = SAID.match(line)
            if told:
                count[told[4], bool(told[3])] += 1
        asked.wait()
    tally = [count[told, False] for told in ("refused", "NOT REFUSED", "BAD EDIT", "NOT TRIED")]
    accepted = count["NOT REFUSED", True]
    others = sum(n for (told, control), n in count.items() if control) - accepted
    print("{} refused, {} not refused, {} bad, {} not tried; controls: {} accepted, {} not accepted".format(*tally, accepted, others))
    asked_of = sum(crate in wanted for crate, path in edits), sum(crate in wanted for crate, path in controls)
    return (tally[0], accepted) != asked_of


if __name__ == "__main__":
    sys.exit(main(sys.argv[1:]))
