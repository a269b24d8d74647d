#!/usr/bin/env python3
"""Times `mesh` on a file without faces for each number of cells, beside `cat` of the mesh it wrote."""

import subprocess
import sys
import tempfile
from pathlib import Path

from measured import best, program, table, write_section

CELLS = [1, 2, 4, 8, 16, 32]
NAMES = ["cells", "tetrahedra", "bytes", "mesh s", "mesh MiB", "cat s"]
ABOUT = "`mesh` on a file without faces, and `cat` of the mesh that it wrote."


def main():
    mesh, lines = program(), []
    with tempfile.TemporaryDirectory() as folder:
        Path(folder, "in.off").write_text("OFF\n0 0 0\n")
        for cells in CELLS:
            words = [mesh, "mesh", "in.off", "out.msh", "report", "--cells", str(cells), "--budget", "0"]
            done = best(words, folder)
            if done.status != 0:
                sys.exit(f"mesh ended with status {done.status}: {done.printed}")
            cat = best(["cat", "out.msh"], folder, output=subprocess.DEVNULL)
            size = Path(folder, "out.msh").stat().st_size
            row = [f"{cells}", f"{6 * cells**3}", f"{size}", f"{done.seconds:.3f}", f"{done.megabytes:.1f}"]
            lines.append([*row, f"{cat.seconds:.3f}"])
    write_section("mesh.py", ABOUT, table(NAMES, lines))


if __name__ == "__main__":
    main()
