#!/usr/bin/env python3
"""Times the tries of each kind on a lattice of 24576 tetrahedra.

The tries go kind by kind. So the report of one long run tells where each kind begins, and the times of runs
that end there tell what the tries of each kind took. Kept splits make more tetrahedra on the way.
"""

import sys
import tempfile
from pathlib import Path

from measured import program, run, table, write_section

BUDGET = 1000000
ABOUT = (
    "Tries of each kind by `mesh` on a file without faces, with 16 cells along each axis: 24576 tetrahedra, "
    "and more with each split that is kept."
)


def mesh(start, budget, folder):
    words = ["mesh", "in.off", "out.msh", "report", "--cells", "16", "--budget", str(budget)]
    done = run([start, *words], folder)
    if done.status != 0:
        sys.exit(f"mesh ended with status {done.status}: {done.printed}")
    return done


def beginnings(report):
    """The number of tries before the first of each kind, and before the second round."""
    places, kinds = [], []
    tries = [line.split()[0] for line in report.splitlines() if line.endswith("kept") or " refused " in line]
    for place, kind in enumerate(tries):
        if not kinds or kind != kinds[-1]:
            if kind in kinds:
                return kinds, [*places, place]
            kinds.append(kind)
            places.append(place)
    return kinds, [*places, len(tries)]


def main():
    start, lines = program(), []
    with tempfile.TemporaryDirectory() as name:
        folder = Path(name)
        (folder / "in.off").write_text("OFF\n0 0 0\n")
        mesh(start, BUDGET, folder)
        kinds, places = beginnings((folder / "report").read_text())
        times = [mesh(start, place, folder).seconds for place in places]
        for i, kind in enumerate(kinds):
            count, taken = places[i + 1] - places[i], times[i + 1] - times[i]
            lines.append([kind, f"{count}", f"{taken:.2f}", f"{count / max(taken, 0.01):.0f}"])
    write_section("attempts.py", ABOUT, table(["kind", "tries", "s", "in a second"], lines))


if __name__ == "__main__":
    main()
