#!/usr/bin/env python3
"""Feeds the program some thousands of mutated OFF files, the same in each run.

Each run is held to a memory limit and to a time in proportion to the file. It has to end with status
0 and the summary line, or with status 3 and a line that says why. The first that does not is kept as
`fuzz_failed.off` in the working folder, and ends the script with status 1.

Usage: fuzz_off.py [RUNS [SEED]]
"""

import random
import re
import resource
import subprocess
import sys
import tempfile
from pathlib import Path

TOP = Path(__file__).resolve().parent.parent
sys.path.insert(0, str(TOP / "bench"))

from measured import program

MEMORY = 512 << 20
WORDS = ["mesh", "in.off", "out.msh", "report", "--cells", "2", "--budget", "0"]
DONE = re.compile(
    r"points \d+ tets \d+ tracked \d+ kept \d+ inserted \d+ rolled-back \d+ tries 0 end (settled|stopped)\n"
)
REFUSED = re.compile(r"tetsoup: input: (byte \d+: [A-Za-z ]+|extent \d+ is too wide)\n")
PIECES = [
    b"OFF", b"COFF", b"BINARY", b"#", b"\n", b"\r\n", b"\r", b"\t", b" ", b"\0", b"\xff", b"-", b"+", b".",
    b"e9", b"1e", b"8.000", b"0.5", b"-0", b"1e400", b"1000000000", b"1000000001", b"-1000000000", b"9" * 40,
    b"1048576", b"1048577", b"4294967296", b"3 0 1 2\n", b"3", b"2", b"0", b"262136", b"\xef\xbb\xbf",
]


def mutated(seeds, numbers):
    """One of the seeds with a few pieces put in, taken out, doubled or changed."""
    text = bytearray(numbers.choice(seeds))
    for _ in range(numbers.randrange(1, 6)):
        at = numbers.randrange(len(text) + 1)
        kind = numbers.randrange(4)
        if kind == 0:
            text[at:at] = numbers.choice(PIECES)
        elif kind == 1:
            del text[at : at + numbers.randrange(1, 12)]
        elif kind == 2 and at < len(text):
            text[at] = numbers.randrange(256)
        else:
            end = min(len(text), at + numbers.randrange(1, 40))
            text[at:at] = text[at:end]
    return bytes(text)


def limit():
    resource.setrlimit(resource.RLIMIT_AS, (MEMORY, MEMORY))


def fault(mesh, folder, text, digits):
    """What is wrong with the program's answer to a text and to these words on digits, or nothing."""
    Path(folder, "in.off").write_bytes(text)
    seconds = 5 + len(text) / 1e6
    try:
        done = subprocess.run(
            [mesh, *WORDS, *digits], cwd=folder, capture_output=True, timeout=seconds, preexec_fn=limit,
            check=False,
        )
    except subprocess.TimeoutExpired:
        return "no answer in time"
    line = done.stdout.decode(errors="replace")
    right = {0: DONE, 3: REFUSED}.get(done.returncode)
    if right is None or not right.fullmatch(line):
        return f"status {done.returncode}, printed {line!r}"
    return None


def main():
    runs = int(sys.argv[1]) if len(sys.argv) > 1 else 3000
    numbers = random.Random(int(sys.argv[2]) if len(sys.argv) > 2 else 1)
    seeds = [path.read_bytes() for path in sorted((TOP / "examples").glob("*.off"))]
    mesh = program()
    statuses = {}
    with tempfile.TemporaryDirectory() as folder:
        for run in range(runs):
            text = mutated(seeds, numbers)
            digits = numbers.choice(([], [f"--digits={numbers.randrange(6)}"]))
            wrong = fault(mesh, folder, text, digits)
            if wrong:
                Path("fuzz_failed.off").write_bytes(text)
                sys.exit(f"run {run} {' '.join(digits)}: {wrong}")
            key = Path(folder, "out.msh").exists()
            statuses[key] = statuses.get(key, 0) + 1
            Path(folder, "out.msh").unlink(missing_ok=True)
    print(f"{runs} runs: {statuses.get(True, 0)} meshed, {statuses.get(False, 0)} refused")


if __name__ == "__main__":
    main()
