#!/usr/bin/env python3
"""Says of a surface how large it is, how many decimals its coordinates have, and which words fit it.

Usage: off_info.py IN

Digits is the number of decimals that can be kept: with 10^digits steps of the grid to an input unit the
surface just fits into the largest box. From 0 to 5 they are given to the mesher as `--digits`, and only a
file that is not OFF is turned into OFF before; beyond, the surface is scaled by `to_off.py`. Epsilon is a
thousandth of the diagonal, in steps of the grid, and the edges of the background mesh are about a twentieth
of the diagonal.
"""

import math
import sys
from decimal import Decimal
from pathlib import Path

from surfaces import plain, read

LARGEST_SIDE = 1 << 18
LEAST_SIDE = 16
LARGEST_COORDINATE = 10**9
LARGEST_EPSILON = 4095
MOST_DIGITS = 5
CELLS = (1, 2, 4, 8, 16, 32)


def decimals(number):
    """How many digits stand behind the point, without zeros at the end."""
    return max(0, -number.normalize().as_tuple().exponent) if number else 0


def epsilon_for(diagonal, scale):
    return min(LARGEST_EPSILON, max(1, round(diagonal * float(scale) / 1000)))


def side_for(extent, epsilon):
    """The side of the box in steps: the least power of two with room."""
    side = LEAST_SIDE
    while side < extent + 2 * epsilon + 4:
        side *= 2
    return side


def digits_for(extent, diagonal, largest):
    """The most digits with which the surface fits into the largest box, 9 at most, and 0 for a point."""
    if not extent:
        return 0
    for digits in range(9, -13, -1):
        scale = Decimal(10) ** digits
        fits = math.ceil(extent * scale) + 2 * epsilon_for(diagonal, scale) + 4 <= LARGEST_SIDE
        if fits and largest * scale <= LARGEST_COORDINATE:
            return digits
    sys.exit("no scale fits")


def ways(path, digits, kept):
    """What is to be done before, if anything, and the words on digits."""
    if not 0 <= digits <= MOST_DIGITS:
        return f"tools/to_off.py {path} scaled.off --scale {plain(Decimal(10) ** digits)}", ""
    before = "" if Path(path).suffix.lower() == ".off" else f"tools/to_off.py {path} {Path(path).stem}.off"
    return before, f" --digits {digits}" if digits or kept else ""


def main():
    if len(sys.argv) != 2:
        sys.exit("usage: off_info.py IN")
    surface = read(sys.argv[1])
    if not surface.vertices:
        sys.exit("no vertices")
    axes = list(zip(*surface.vertices))
    spans = [max(axis) - min(axis) for axis in axes]
    diagonal = math.sqrt(sum(float(span) ** 2 for span in spans))
    kept = max(decimals(number) for vertex in surface.vertices for number in vertex)
    print(f"vertices {len(surface.vertices)}, faces {len(surface.faces)}")
    for name, axis in zip("xyz", axes):
        print(f"{name} from {plain(min(axis))} to {plain(max(axis))}")
    print(f"extent {plain(max(spans))}, diagonal {diagonal:.6g}, decimals {kept}")
    digits = digits_for(max(spans), diagonal, max(abs(number) for axis in axes for number in axis))
    scale = Decimal(10) ** digits
    epsilon = epsilon_for(diagonal, scale)
    side = side_for(math.ceil(max(spans) * scale), epsilon)
    wanted = 20 * side / (diagonal * float(scale)) if diagonal else 1
    cells = min(CELLS, key=lambda n: abs(math.log2(n) - math.log2(wanted)))
    print(f"digits {digits}: a step of the grid is {plain(1 / scale)}, the box has {side} steps a side")
    print(f"epsilon {epsilon} steps, which are {epsilon / float(scale):.6g}")
    print(f"cells {cells}, whose edges are {side / cells / float(scale):.6g}")
    before, words = ways(sys.argv[1], digits, kept)
    if before:
        print(f"first: {before}")
    print(f"words: --cells {cells} --epsilon {epsilon}{words}")


if __name__ == "__main__":
    main()
