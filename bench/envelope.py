#!/usr/bin/env python3
"""Times building an envelope and asking it for the least near triangle, over 10^3 to 10^6 triangles.

A row has the count of triangles, the greatest length of their sides in grid steps, the distance e, whether
they lie at random or are all equal, the milliseconds of building, the microseconds of a question and the part
of the questions that were answered by the triangle whose corners were asked for. Triangles as large as the
box have bounding boxes that all overlap: there the tree is no better than a scan.
"""

import sys
import tempfile
from pathlib import Path

from built import build
from measured import TOP, run, table, write_section

ABOUT = (
    "An envelope: building it, and asking for the least triangle that three points are near, for triangles "
    "with sides of at most so many grid steps. \"Own\" is the part of the questions that the triangle at "
    "whose corners they are asked answers."
)
NAMES = ["triangles", "size", "e", "lie", "build, ms", "question, microseconds", "own"]


def program(folder):
    here = TOP / "bench" / "envelope"
    files = {
        "src/main.rt": (here / "main.rt.txt").read_text(),
        "proofs/Lib.antt": "",
        "proofs/triangles/Invariants.antt": (here / "triangles_invariants.antt.txt").read_text(),
        "proofs/triangles/Answers.antt": (here / "triangles_answers.antt.txt").read_text(),
    }
    return build(folder, "envelope_bench", ["envelope_tree", "grid", "anyhow"], files)


def main():
    with tempfile.TemporaryDirectory() as name:
        done = run([program(Path(name))], name)
    if done.status != 0:
        sys.exit(f"the program ended with status {done.status}")
    lines = []
    for line in done.printed.splitlines():
        count, size, e, same, built, asked, answered, own = line.split()
        lie = "equal" if same == "true" else "random"
        each = int(answered) / int(asked)
        share = int(own) / int(asked)
        lines.append([count, size, e, lie, f"{int(built) / 1e3:.1f}", f"{each:.2f}", f"{share:.0%}"])
    write_section("envelope.py", f"{ABOUT} At most {done.megabytes:.0f} MiB.", table(NAMES, lines))


if __name__ == "__main__":
    main()
