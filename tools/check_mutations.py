#!/usr/bin/env python3
"""Holds `check` against an independent judge over thousands of changed files, the same in each run.

Good triples of soup, mesh and report are made with the program. Then one or a few changes are made at
random, blind ones (bytes, numbers, lines) and ones that keep the rules of the texts (`file_changes.py`), and
the status and the line of `check` have to be those of `plain_check.py`. It prints how often each answer came.
Files on which the two differ are kept under `check_differs/` in the working folder, and the status is then 1.

Usage: check_mutations.py [--program PATH] [--runs N] [--seed S]
"""

import argparse
import random
import re
import subprocess
import sys
import tempfile
from collections import Counter, namedtuple
from pathlib import Path

from file_changes import CHANGES, Files, MeshText
from plain_check import judge

TOP = Path(__file__).resolve().parent.parent
sys.path.insert(0, str(TOP / "bench"))

from measured import program

NAMES = ("in.off", "out.msh", "report")
Case = namedtuple("Case", "texts digits")

# rolled back as stray at its sharp corner
SHARP = b"OFF\n4 1 0\n0 0 0\n8 0 0\n8 8 0\n0 -2 6\n3 0 1 2\n"
# rolled back as degenerate beside a triangle that is cut in
FLAT = b"OFF\n4 2 0\n0 0 0\n8 0 0\n8 8 0\n0 0 4\n3 0 1 1\n3 0 1 2\n"
# the soup, the words behind the names, and the digits
MADE = [
    ("empty.off", "--cells 1 --budget 2", None),
    ("cube.off", "--budget 0", None),
    ("triangle.off", "--budget 40", None),
    ("octahedron.off", "--cells 2 --epsilon 20 --budget 4000", None),
    ("octahedron.off", "--cells 1 --budget 60", None),
    (SHARP, "--epsilon 1 --cells 2 --budget 0", None),
    (FLAT, "--cells 2 --budget 10", None),
    ("decimal.off", "--budget 0 --digits 1", 1),
]


def run(path, folder, words):
    done = subprocess.run([path, *words], cwd=folder, capture_output=True, check=False, timeout=60)
    return done.returncode, done.stdout.decode("latin-1").removesuffix("\n")


def made(path, folder, soup, words, digits):
    """A good triple, or nothing where the program does not take the words."""
    text = soup if isinstance(soup, bytes) else (TOP / "examples" / soup).read_bytes()
    Path(folder, NAMES[0]).write_bytes(text)
    status, line = run(path, folder, ["mesh", *NAMES, *words.split()])
    if status == 2:
        print(f"left out: the program refuses {words}")
        return None
    if status != 0:
        sys.exit(f"{words}: status {status}, {line}")
    texts = [Path(folder, name).read_bytes() for name in NAMES]
    if MeshText(texts[1]).written() != texts[1]:
        sys.exit(f"{words}: the mesh is not written as it was read")
    return Case(texts, digits)


def changed(case, dice, serves_digits):
    """The texts of a case after some changes, and the digits asked for, at times not the right ones."""
    files = Files(case.texts)
    for _ in range(dice.choice((1, 1, 1, 2, 3))):
        try:
            dice.choice(CHANGES)(files, dice)
        except (ValueError, IndexError, KeyError, StopIteration, TypeError):
            # an earlier change took the form away that this one builds on
            continue
    other = dice.choice((None, 0, 1, 2, 5))
    digits = other if serves_digits and dice.random() < 0.05 else case.digits
    return [bytes(text) for text in files.texts], digits


def answer(path, folder, texts, digits):
    for name, text in zip(NAMES, texts):
        Path(folder, name).write_bytes(text)
    return run(path, folder, ["check", *NAMES, *([] if digits is None else ["--digits", str(digits)])])


def kind(status, line):
    """The answer without its numbers."""
    return f"{status} {re.sub('-?[0-9]+', 'N', line)}"


def keep(number, texts, theirs, ours, digits):
    folder = Path("check_differs", str(number))
    folder.mkdir(parents=True, exist_ok=True)
    for name, text in zip(NAMES, texts):
        (folder / name).write_bytes(text)
    print(f"{folder} (digits {digits}): the program answers {theirs}, the judge {ours}")


def main():
    parser = argparse.ArgumentParser(description="Holds check against an independent judge.")
    parser.add_argument("--program", help="the program, where it is not the one of this folder")
    parser.add_argument("--runs", type=int, default=2000)
    parser.add_argument("--seed", type=int, default=1)
    words = parser.parse_args()
    path = Path(words.program).resolve() if words.program else program()
    dice, counts, differences = random.Random(words.seed), Counter(), 0
    with tempfile.TemporaryDirectory() as folder:
        cases = [case for case in (made(path, folder, *each) for each in MADE) if case]
        for number in range(-len(cases), words.runs):
            case = cases[number] if number < 0 else dice.choice(cases)
            texts, digits = case if number < 0 else changed(case, dice, len(cases) == len(MADE))
            theirs, ours = answer(path, folder, texts, digits), judge(*texts, digits)
            counts[kind(*ours)] += number >= 0
            if theirs != ours:
                differences += 1
                keep(number, texts, theirs, ours, digits)
    for name, many in sorted(counts.items()):
        print(f"{many:6} {name}")
    print(f"{words.runs} changed triples, {len(cases)} unchanged ones, {differences} differences")
    sys.exit(1 if differences else 0)


if __name__ == "__main__":
    main()
