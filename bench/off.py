#!/usr/bin/env python3
"""Times `mesh` on OFF files up to the limits (2^20 vertices and 2^20 triangles), up to its answer.

Beside it `cat` of the same file, and where they are installed `gmsh` and `meshio` reading it. What does not
read the file is said to have failed, and has no time.
"""

import random
import shutil
import subprocess
import sys
import tempfile
from importlib.util import find_spec
from pathlib import Path

from measured import best, program, table, write_section

ABOUT = "Seconds and MiB for an OFF file with as many triangles as vertices; of `mesh` up to its answer."


def write_soup(path, count):
    """A soup of `count` vertices and `count` triangles, the same for each run."""
    numbers = random.Random(1)
    with open(path, "w", encoding="ascii") as file:
        file.write(f"OFF\n{count} {count} 0\n")
        for _ in range(count):
            file.write(" ".join(str(numbers.randrange(200000)) for _ in range(3)) + "\n")
        for i in range(count):
            file.write(f"3 {i} {(i + 1) % count} {numbers.randrange(count)}\n")


def readers(path):
    """What else is installed that reads the file."""
    if shutil.which("gmsh"):
        yield "gmsh", ["sh", "-c", f"rm -f read.msh && gmsh -0 {path} -o read.msh && test -s read.msh"]
    if find_spec("meshio"):
        yield "meshio", [sys.executable, "-c", f"import meshio; assert len(meshio.read({path!r}).points) > 0"]


def measured(name, words, folder):
    """Seconds and memory of a command, or that it failed. `mesh` may refuse the soup after it has read it."""
    done = best(words, folder, output=subprocess.DEVNULL if name == "cat" else subprocess.PIPE)
    if done.status != 0 and not (name == "mesh" and done.status == 3):
        if name == "mesh":
            sys.exit(f"mesh ended with status {done.status}: {done.printed}")
        return f"failed with status {done.status}"
    return f"{done.seconds:.3f}, {done.megabytes:.1f}"


def main():
    mesh, lines, names = program(), [], []
    with tempfile.TemporaryDirectory() as folder:
        for power in (14, 17, 20):
            path = str(Path(folder, "in.off"))
            write_soup(path, 2**power)
            commands = {"cat": ["cat", path]}
            commands["mesh"] = [mesh, "mesh", "in.off", "out.msh", "report", "--cells", "4", "--budget", "0"]
            commands.update(readers(path))
            names = list(commands)
            figures = [measured(name, words, folder) for name, words in commands.items()]
            lines.append([f"{2**power}", f"{Path(path).stat().st_size}", *figures])
    write_section("off.py", ABOUT, table(["vertices", "bytes", *names], lines))


if __name__ == "__main__":
    main()
