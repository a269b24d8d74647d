#!/usr/bin/env python3
"""Times two uses of the store, over lattices of four sizes.

Gives for each number of tetrahedra the microseconds of a turn (open, refine by one edge, roll back) and
of a search for the tetrahedra at a point. The time of making the mesh and the store is taken off: it is that
of a run without turns and searches. Both figures should hardly grow with the mesh.
"""

import sys
import tempfile
from pathlib import Path

from built import build, with_value
from measured import TOP, best, table, write_section

CELLS = {4: 2, 8: 3, 16: 4, 32: 5}  # the power of two that each is
TIMES = 500000
ABOUT = (
    "The store over a lattice: a turn (begin, refine by one edge, roll back), and a search for the "
    "tetrahedra at a point."
)
CRATES = ["mesh_store", "tet_slots", "background", "mesh_types", "grid"]


def program(folder, cells, power, turns, searches):
    here = TOP / "bench" / "store"
    source = (here / "main.rt.txt").read_text()
    for name, value in (("CELLS", cells), ("TURNS", turns), ("SEARCHES", searches)):
        source = with_value(source, name, value)
    answers = (here / "all_turns_answers.antt.txt").read_text().replace("power = 2;", f"power = {power};", 1)
    files = {
        "src/main.rt": source,
        "proofs/Lib.antt": "",
        "proofs/turns/Invariants.antt": (here / "turns_invariants.antt.txt").read_text(),
        "proofs/all_turns/Answers.antt": answers,
    }
    return build(folder, "store_bench", CRATES, files)


def seconds(folder, cells, power, turns, searches):
    done = best([program(folder, cells, power, turns, searches)], folder)
    if done.status != 0 or done.printed.split() != [str(turns), str(searches)]:
        sys.exit(f"the program ended with status {done.status} and printed {done.printed}")
    return done.seconds


def main():
    lines = []
    with tempfile.TemporaryDirectory() as name:
        for cells, power in CELLS.items():
            nothing = seconds(Path(name), cells, power, 0, 0)
            turned = seconds(Path(name), cells, power, TIMES, 0) - nothing
            found = seconds(Path(name), cells, power, 0, TIMES) - nothing
            lines.append([f"{6 * cells**3}", f"{turned / TIMES * 1e6:.2f}", f"{found / TIMES * 1e6:.2f}"])
    head = ["tetrahedra", "microseconds a turn", "microseconds a search"]
    write_section("store.py", ABOUT, table(head, lines))


if __name__ == "__main__":
    main()
