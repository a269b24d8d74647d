#!/usr/bin/env python3
"""Megabytes a second of writing and of reading the text of a mesh, on one core.

The mesh has 100000 nodes, 600000 tetrahedra and 100000 tracked faces. The time of making the mesh and
its first text is taken off: it is that of a run that reads and writes nothing more.
"""

import sys
import tempfile
from pathlib import Path

from built import build
from measured import TOP, best, table, write_section

ABOUT = (
    "Writing and reading the text of a mesh of 100000 nodes, 600000 tetrahedra and 100000 tracked faces, on "
    "one core, by the digits behind the point."
)

TIMES = 10
CRATES = ["msh_text", "items", "grid"]


def program(folder, digits, reads, writes):
    source = (TOP / "bench" / "texts" / "main.rt.txt").read_text()
    source = source.replace("DIGITS: u32 = 0", f"DIGITS: u32 = {digits}")
    source = source.replace("READS: u32 = 10", f"READS: u32 = {reads}")
    source = source.replace("WRITES: u32 = 10", f"WRITES: u32 = {writes}")
    return build(folder, "texts_bench", CRATES, {"src/main.rt": source, "proofs/Lib.antt": ""})


def seconds(folder, digits, reads, writes):
    done = best([program(folder, digits, reads, writes)], folder)
    if done.status != 0 or (int(done.printed) > 0) != (reads + writes > 0):
        sys.exit(f"the program ended with status {done.status} and printed {done.printed}")
    return done.seconds, int(done.printed)


def main():
    lines = []
    with tempfile.TemporaryDirectory() as name:
        for digits in (0, 2):
            nothing, _ = seconds(Path(name), digits, 0, 0)
            writing, written = seconds(Path(name), digits, 0, TIMES)
            reading, read = seconds(Path(name), digits, TIMES, 0)
            turns = ((written, writing), (read, reading))
            lines.append([f"{digits}", *[f"{size / (taken - nothing) / 1e6:.0f}" for size, taken in turns]])
    write_section("texts.py", ABOUT, table(["digits", "MB/s written", "MB/s read"], lines))


if __name__ == "__main__":
    main()
