#!/usr/bin/env python3
"""times.py [CRATE]...: proves and builds crates from nothing, and tells what each costs: processor seconds, and the most memory in MB.

Without names it takes every crate; with names these and those below them. JOBS (default 2) go at once, a crate as soon as those below it are built. Tests and must-fail
edits are not in it. It asks the kit's prover itself, in a temporary folder, since `rt` would begin with what earlier checks kept.
"""
import os
import shutil
import subprocess
import sys
import tempfile

TOP = os.path.dirname(os.path.dirname(os.path.abspath(__file__)))
KIT = os.path.dirname(os.path.dirname(os.path.realpath(shutil.which("rt"))))
LISTED = {name: needs.split() for name, needs in (line.split("#")[0].split(":") for line in open(f"{TOP}/crates.txt") if ":" in line.split("#")[0])}


def start(crate, made):
    root = next(f for f in ("src/main.rt", "src/lib.rt") if os.path.exists(f"{TOP}/crates/{crate}/{f}"))
    words = [f"{KIT}/bin/rattle", "build", "--crate-name", crate, root, "--extern", f"std={KIT}/rlibs/std.rlib", "-L", f"dependency={KIT}/rlibs", "-L", f"dependency={made}"]
    for name in LISTED[crate]:
        words += ["--extern", f"{name}={made if name in LISTED else f'{KIT}/rlibs'}/{name}.rlib"]
    words += ["--antt-project", f"{KIT}/rattle/logic/antt-project.json", "--logic-built", f"{KIT}/logic_built", "--jobs", "1"]
    words += ["--toolchain", f"{KIT}/toolchain", "--backend", "llvm", "-o", f"{made}/{crate}.o"] if root == "src/main.rt" else ["-o", f"{made}/{crate}.rlib"]
    with open(f"{made}/{crate}.say", "w") as said:
        return subprocess.Popen(words, cwd=f"{TOP}/crates/{crate}", stdin=subprocess.DEVNULL, stdout=said, stderr=subprocess.STDOUT).pid


def below(crate):
    return {crate}.union(*(below(name) for name in LISTED[crate] if name in LISTED))


def main(wanted):
    if set(wanted) - set(LISTED):
        sys.exit(__doc__)
    names = set().union(*map(below, wanted)) if wanted else set(LISTED)
    waiting, running, total = [c for c in LISTED if c in names], {}, 0
    with tempfile.TemporaryDirectory() as made:
        while waiting or running:
            unbuilt = set(waiting) | set(running.values())
            ready = [c for c in waiting if not unbuilt & set(LISTED[c])]
            for crate in ready[: int(os.environ.get("JOBS", "2")) - len(running)]:
                waiting.remove(crate)
                running[start(crate, made)] = crate
            pid, status, used = os.wait4(-1, 0)
            crate, seconds = running.pop(pid), used.ru_utime + used.ru_stime
            if status:
                print(open(f"{made}/{crate}.say").read())
                sys.exit(f"{crate} is not proved")
            total += seconds
            print(f"{crate} {seconds:.0f} s {used.ru_maxrss // 1024} MB", flush=True)
    print(f"in all {total:.0f} s")


if __name__ == "__main__":
    main(sys.argv[1:])
