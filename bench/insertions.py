#!/usr/bin/env python3
"""Compares the insertion of triangles into a store with that into plain lists.

Inserts each triangle of random soups, in small boxes and with every size of epsilon, in both ways, and
compares the outcome and the mesh after each. Prints how many outcomes of each kind there were, and how many
differed; ends with status 1 where one did. The program is run without a proof, and slowly: SIZES says how
many of the numbers of cells 1, 2, 4, 8, 16 and 32 take part.

Usage: insertions.py [SOUPS [SIZES]], by default 200 and 2
"""

import sys
import tempfile
from pathlib import Path

from built import tried, with_value
from measured import TOP

CRATES = ["insertion", "mesh_store", "background", "plain_ops", "envelope_tree", "mesh_types", "grid"]


def main():
    source = (TOP / "bench" / "insertions" / "main.rt.txt").read_text()
    for name, value in zip(("SOUPS", "SIZES"), sys.argv[1:]):
        source = with_value(source, name, int(value))
    files = {"src/main.rt": source}
    with tempfile.TemporaryDirectory() as name:
        printed = tried(Path(name), "insertions_compared", CRATES, files)
    print(printed, end="")
    sys.exit("differing 0" not in printed.splitlines())


if __name__ == "__main__":
    main()
