#!/usr/bin/env python3
"""fuzz.py RUNS [SEED]: plays mutated runs through the built player and looks for a crash, a hang or a line that is none.

The runs of crates/player/data are cut, and bytes of them flipped, dropped, doubled or moved. `./run player` must have built the player before.
"""
import glob
import os
import random
import re
import subprocess
import sys
import tempfile
from concurrent.futures import ThreadPoolExecutor

TOP = os.path.dirname(os.path.dirname(os.path.abspath(__file__)))
LINE = re.compile(rb"\(\)|[1-8]|\(.*\)", re.S)
BYTES = b"()0123456789:\n"
TOGETHER = 50


def mutated(text, dice):
    text = bytearray(text[: dice.randrange(40, 800)])
    for _ in range(dice.randrange(0, 4)):
        at = dice.randrange(len(text)) if text else 0
        kind = dice.randrange(5)
        if kind == 0:
            text[at:at + 1] = bytes([dice.randrange(256)])
        elif kind == 1:
            text[at:at + 1] = bytes([dice.choice(BYTES)])
        elif kind == 2:
            del text[at:at + dice.randrange(1, 40)]
        elif kind == 3:
            text[at:at] = text[at:at + dice.randrange(1, 400)]
        else:
            text += text[:at]
    return bytes(text)


def answers(texts):
    """What the player prints of each text, all played by one start; or what is wrong with the start."""
    with tempfile.TemporaryDirectory() as folder:
        names = [f"run{n}" for n in range(len(texts))]
        for name, text in zip(names, texts):
            open(f"{folder}/{name}", "wb").write(text)
        try:
            done = subprocess.run([TOP + "/run", "--built", "player", *names], cwd=folder, capture_output=True, timeout=600)
        except subprocess.TimeoutExpired:
            return "hangs"
    if done.returncode != 0:
        return f"exit status {done.returncode}"
    printed = re.split(rb"^run\d+\n", done.stdout, flags=re.M)[1:]
    return printed if len(printed) == len(texts) else "a run without its name"


def complaint(printed):
    """What is wrong with the lines of a run, or None."""
    lines = printed.split(b"\n")
    if lines.pop() != b"":
        return "the last line is cut"
    if not all(LINE.fullmatch(line) for line in lines):
        return "a line that is none"
    if b"1" in lines[:-1]:
        return "goes on after 1"
    return None


def complaints(texts):
    """What is wrong with the answers to texts, one by one. Where one start cannot play them all, each has its own."""
    printed = answers(texts)
    if isinstance(printed, list):
        return [complaint(p) for p in printed]
    return [printed] if len(texts) == 1 else [wrong for text in texts for wrong in complaints([text])]


def main(runs, seed):
    sources = [open(name, "rb").read() for name in sorted(glob.glob(TOP + "/crates/player/data/*/*.in"))]
    dice = random.Random(seed)
    texts = [mutated(dice.choice(sources), dice) for _ in range(runs)]
    starts = [texts[at:at + TOGETHER] for at in range(0, runs, TOGETHER)]
    bad = 0
    with ThreadPoolExecutor(2) as pool:
        for start, wrongs in zip(starts, pool.map(complaints, starts)):
            for text, wrong in zip(start, wrongs):
                if wrong:
                    bad += 1
                    print(wrong, text[:2000])
    print(f"{runs - bad} passed, {bad} failed")
    return bad != 0


if __name__ == "__main__":
    sys.exit(main(int(sys.argv[1]), int(sys.argv[2]) if len(sys.argv) > 2 else 1))
