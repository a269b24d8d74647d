#!/usr/bin/env python3
"""Compares the verdicts on tries in a store with those over plain lists.

Makes small meshes by insertions and tries, makes every candidate of each in both ways, and compares the
verdict and the mesh after each: after a refusal it has to be the one before. Prints how many verdicts of each
kind there were, and how many differed; ends with status 1 where one did. The program is run without a proof.

Usage: tries.py [MESHES], by default 100
"""

import sys
import tempfile
from pathlib import Path

from built import tried, with_value
from measured import TOP

CRATES = [
    *["insertion", "local_ops", "mesh_store", "background", "plain_ops", "envelope_tree"],
    *["mesh_types", "grid", "items"],
]


def main():
    source = (TOP / "bench" / "tries" / "main.rt.txt").read_text()
    for name, value in zip(("MESHES",), sys.argv[1:]):
        source = with_value(source, name, int(value))
    files = {"src/main.rt": source}
    with tempfile.TemporaryDirectory() as name:
        printed = tried(Path(name), "tries_compared", CRATES, files)
    print(printed, end="")
    sys.exit("differing 0" not in printed.splitlines())


if __name__ == "__main__":
    main()
