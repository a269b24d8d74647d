#!/usr/bin/env python3
"""Times the exact distance test `near` over ten million random points and triangles.

Beside it the same test in floating point (bench/near/float.c, by gcc -O2), in the same run. Prints how
many points were near by each, calls per second of each, and in which part of its triangle the closest
point lies: interior, edge or corner. The times include making the points, which both do alike.

The program stands in bench/near/main.rt.txt, since code of the repository stands only in its crates: it
is built in a folder of its own over copies of the crates that `near` stands on.
"""

import subprocess
import sys
import tempfile
from pathlib import Path

from built import build
from measured import TOP, best, table, write_section

CALLS = 10_000_000


def exact_program(folder):
    source = (TOP / "bench" / "near" / "main.rt.txt").read_text()
    return build(folder, "near_bench", ["tri_distance", "grid"], {"src/main.rt": source})


def float_program(folder):
    program = folder / "float"
    subprocess.run(["gcc", "-O2", "-o", program, TOP / "bench" / "near" / "float.c"], check=True)
    return program


def main():
    lines, parts = [], ""
    with tempfile.TemporaryDirectory() as name:
        folder = Path(name)
        rows = {"exact": exact_program(folder), "float": float_program(folder)}
        for label, program in rows.items():
            done = best([program], folder)
            if done.status != 0:
                sys.exit(f"{label} ended with status {done.status}")
            found, regions, *_ = done.printed.split("\n")
            lines.append([label, found, f"{CALLS / done.seconds / 1e6:.2f}", f"{done.megabytes:.1f}"])
            if regions:
                face, edge, _ = (f"{int(n) / CALLS:.0%}" for n in regions.split())
                parts = f"The closest point lay inside for {face}, on an edge for {edge}, else at a corner."
    about = f"The distance test over {CALLS} random points and triangles, and in floating point.\n{parts}"
    write_section("near.py", about, table(["test", "near", "million calls a second", "MiB"], lines))


if __name__ == "__main__":
    main()
