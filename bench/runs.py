#!/usr/bin/env python3
"""Times whole runs of `mesh` over a cube, spheres, height fields and random triangles.

The insertion alone, the run with tries, and `check` of what that wrote are timed in turn.

With another program that takes the same words, its seconds stand beside: runs.py [PROGRAM [WORD ..]]
"""

import math
import random
import sys
import tempfile
from dataclasses import dataclass
from pathlib import Path

from measured import best, program, table, write_section

ABOUT = (
    "Whole runs of `mesh` with 16 cells along each axis: with budget 0, with the default budget, and `check` "
    "of what that wrote."
)


@dataclass
class Case:
    """A surface, and whether tries are made."""

    name: str
    surface: tuple
    has_tries: bool = True


def off(points, faces):
    rows = [f"{x} {y} {z}" for x, y, z in points] + [f"3 {a} {b} {c}" for a, b, c in faces]
    return "\n".join(["OFF", f"{len(points)} {len(faces)} 0", *rows, ""])


def cube(side):
    points = [(x * side, y * side, z * side) for x in (0, 1) for y in (0, 1) for z in (0, 1)]
    squares = [(0, 1, 3, 2), (4, 6, 7, 5), (0, 4, 5, 1), (2, 3, 7, 6), (0, 2, 6, 4), (1, 5, 7, 3)]
    return points, [face for a, b, c, d in squares for face in ((a, b, c), (a, c, d))]


def sphere(radius, turns):
    """An icosahedron whose triangles are quartered so many times, on the sphere."""
    g = (1 + math.sqrt(5)) / 2
    points = [p for s in (1, -1) for t in (g, -g) for p in ((0, s, t), (s, t, 0), (t, 0, s))]
    pairs = ((i, j) for i in range(12) for j in range(12) if i != j)
    near = {(i, j) for i, j in pairs if math.dist(points[i], points[j]) < 2.1}
    faces = sorted(
        (i, j, k) for i, j in near for k in range(12) if i < j < k and (j, k) in near and (i, k) in near
    )
    for _ in range(turns):
        points, faces = quartered(points, faces)
    scale = [radius / math.hypot(*p) for p in points]
    return [tuple(round(x * s) for x in p) for p, s in zip(points, scale)], faces


def quartered(points, faces):
    points, middles, made = list(points), {}, []

    def middle(i, j):
        key = (min(i, j), max(i, j))
        if key not in middles:
            sum_ = [x + y for x, y in zip(points[i], points[j])]
            length = math.hypot(*sum_) / math.hypot(*points[i])
            points.append(tuple(x / length for x in sum_))
            middles[key] = len(points) - 1
        return middles[key]

    for a, b, c in faces:
        ab, bc, ca = middle(a, b), middle(b, c), middle(c, a)
        made += [(a, ab, ca), (b, bc, ab), (c, ca, bc), (ab, bc, ca)]
    return points, made


def height_field(count, step):
    def height(x, y):
        return round(3 * step * math.sin(x / 3) * math.cos(y / 4))

    points = [(x * step, y * step, height(x, y)) for x in range(count + 1) for y in range(count + 1)]
    faces = []
    for x in range(count):
        for y in range(count):
            a = x * (count + 1) + y
            b = a + count + 1
            faces += [(a, b, b + 1), (a, b + 1, a + 1)]
    return points, faces


def scattered(count, size, width):
    """Random triangles of about the size, in a cube of the width; the same ones in each run."""
    numbers, points = random.Random(1), []
    for _ in range(count):
        middle = [numbers.randrange(size, width - size) for _ in range(3)]
        points += [tuple(x + numbers.randrange(-size, size) for x in middle) for _ in range(3)]
    return points, [(i, i + 1, i + 2) for i in range(0, 3 * count, 3)]


def timed(start, words, folder):
    done = best([*start, *words], folder)
    if done.status != 0:
        sys.exit(f"{start[0]} ended with status {done.status}: {done.printed}")
    return done


def row(case, folder, programs):
    """The seconds of each program, and what the last run printed."""
    (folder / "in.off").write_text(off(*case.surface))
    mesh = ["mesh", "in.off", "out.msh", "report", "--cells", "16"]
    cells = [case.name, f"{len(case.surface[1])}"]
    for start in programs:
        first = timed(start, [*mesh, "--budget", "0"], folder)
        cells += [f"{first.seconds:.2f}"]
        if case.has_tries:
            whole = timed(start, mesh, folder)
            judged = timed(start, ["check", "in.off", "out.msh", "report"], folder)
            cells += [f"{whole.seconds:.2f}", f"{whole.megabytes:.0f}", f"{judged.seconds:.2f}"]
        else:
            cells += ["", f"{first.megabytes:.0f}", ""]
    said = first.printed.split()
    return [*cells, said[said.index("inserted") + 1]]


def main():
    cases = [
        Case("cube", cube(4096)),
        Case("sphere, radius 8192", sphere(8192, 2)),
        Case("sphere, radius 8192", sphere(8192, 3)),
        Case("sphere, radius 8192", sphere(8192, 4)),
        Case("sphere, radius 90000", sphere(90000, 2), has_tries=False),
        Case("sphere, radius 90000", sphere(90000, 3), has_tries=False),
        Case("sphere, radius 90000", sphere(90000, 4), has_tries=False),
        Case("height field, 16 squares a side", height_field(16, 512)),
        Case("height field, 64 squares a side", height_field(64, 128)),
        Case("random triangles", scattered(500, 400, 8192)),
    ]
    names = ["surface", "triangles", "budget 0, s", "mesh, s", "MiB", "check, s"]
    programs = [[program()]]
    if len(sys.argv) > 1:
        programs.append(sys.argv[1:])
        names += ["other, budget 0, s", "other, s", "other, MiB", "other, check, s"]
    with tempfile.TemporaryDirectory() as name:
        lines = [row(case, Path(name), programs) for case in cases]
    write_section("runs.py", ABOUT, table([*names, "inserted"], lines))


if __name__ == "__main__":
    main()
