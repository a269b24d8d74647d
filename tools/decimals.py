#!/usr/bin/env python3
"""Compares what is read of some thousands of decimal coordinates with exact fractions.

Each word is read with 0 to 5 digits by a program over the proved reader, which is built in a folder of its
own. The words are the same in each run. The first that is read otherwise than `fractions` says is printed,
and ends the script with status 1.

Usage: decimals.py [WORDS [SEED]]
"""

import random
import re
import subprocess
import sys
import tempfile
from fractions import Fraction
from math import floor
from pathlib import Path

TOP = Path(__file__).resolve().parent.parent
sys.path.insert(0, str(TOP / "bench"))

from built import build

CRATES = ["off_text", "soup", "items", "grid"]
FORM = re.compile(r"[+-]?(\d+\.?\d*|\.\d+)([eE][+-]?\d+)?\Z", re.ASCII)
LARGEST = 10**9
MOST_BYTES = 32


def digits_of(numbers, most):
    """Up to so many digits, zeros and nines more often than others."""
    return "".join(numbers.choice("0000123456789995") for _ in range(numbers.randrange(most + 1)))


def exponent(numbers):
    """No exponent, one near zero, one near the powers that no number fits, or any."""
    size = numbers.choice([0, numbers.randrange(12), numbers.randrange(28, 45), numbers.randrange(10**12)])
    return numbers.choice(["", f"{numbers.choice('eE')}{numbers.choice(['', '+', '-'])}{size}"])


def half(numbers):
    """A number that is half a unit of some digits, or next to it."""
    places = numbers.randrange(1, 7)
    units = numbers.randrange(2000) * 10 + numbers.choice([4, 5, 6])
    return f"{units / 10**places:.{places}f}" + numbers.choice(["", "0", "00000000001"])


def long_half(numbers):
    """Many digits that are half a unit of some digits, or just below."""
    size = numbers.randrange(1, 28)
    units = numbers.choice(["5" + "0" * size, "4" + "9" * size, "0" + "5" * size])
    return f"{units}e-{max(size + 1 - numbers.randrange(7), 0)}"


def near_largest(numbers):
    """A number of units near the limit, for some digits."""
    units = LARGEST * 10 + numbers.randrange(-20, 21)
    return f"{units}e-{numbers.randrange(1, 7)}"


def word(numbers):
    """A word that is a coordinate or nearly one."""
    sign = numbers.choice(["", "", "-", "+"])
    point = numbers.choice(["", ".", "."])
    plain = digits_of(numbers, 18) + point + digits_of(numbers, 14) + exponent(numbers)
    text = sign + numbers.choice([plain, plain, half(numbers), long_half(numbers), near_largest(numbers)])
    if numbers.random() < 0.05:
        at = numbers.randrange(len(text) + 1)
        text = text[:at] + numbers.choice(["e", ".", "-", "x", "+"]) + text[at:]
    return text or "0"


def expected(text, digits):
    """The units, or the name of the refusal."""
    if not FORM.match(text) or len(text) > MOST_BYTES:
        return "BadNumber"
    number, _, power = text.lower().partition("e")
    if Fraction(number) == 0 or abs(int(power or 0)) > 100:
        return "TooLarge" if Fraction(number) != 0 and int(power) > 0 else "0"
    units = floor(Fraction(number) * Fraction(10) ** (int(power or 0) + digits) + Fraction(1, 2))
    return "TooLarge" if abs(units) > LARGEST else str(units)


def main():
    count = int(sys.argv[1]) if len(sys.argv) > 1 else 10000
    numbers = random.Random(int(sys.argv[2]) if len(sys.argv) > 2 else 1)
    words = [word(numbers) for _ in range(count)]
    with tempfile.TemporaryDirectory() as folder:
        source = (TOP / "bench" / "decimals" / "main.rt.txt").read_text()
        files = {"src/main.rt": source, "proofs/Lib.antt": ""}
        program = build(Path(folder), "decimals", CRATES, files)
        text = "\n".join(words) + "\n"
        done = subprocess.run([program], input=text, capture_output=True, text=True, check=True)
    answers = [line.split() for line in done.stdout.splitlines()]
    if len(answers) != count:
        sys.exit(f"{len(answers)} answers to {count} words")
    for text, given in zip(words, answers):
        want = [expected(text, digits) for digits in range(6)]
        if given != want:
            sys.exit(f"{text} is read as {' '.join(given)} and not as {' '.join(want)}")
    refused = sum(given[0] in ("BadNumber", "TooLarge") for given in answers)
    print(f"{count} words are read right with 0 to 5 digits; {refused} of them are refused with 0")


if __name__ == "__main__":
    main()
