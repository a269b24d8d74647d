#!/usr/bin/env python3
"""Turns a surface in STL, OBJ, PLY or OFF, or in any format that meshio reads, into OFF.

Usage: to_off.py IN OUT.off [--scale S]

Without --scale the coordinates are written as they are, and the mesher reads decimals with `--digits`. With
it each coordinate is multiplied by S and rounded to a whole number: one unit of the result is one step of the
mesher's grid. `off_info.py IN` says whether a scale is needed, and which. Vertices that become equal become
one, and faces with fewer than three different corners are left out; the script says how many.
"""

import argparse
from decimal import ROUND_HALF_UP, Decimal

from surfaces import Surface, read, write_off


def scaled(surface, scale):
    """The surface on whole numbers."""
    result = Surface()
    numbers = []
    for vertex in surface.vertices:
        moved = [(number * scale).quantize(Decimal(1), ROUND_HALF_UP) for number in vertex]
        numbers.append(result.add_vertex(moved))
    result.faces = [[numbers[corner] for corner in face] for face in surface.faces]
    return result


def main():
    parser = argparse.ArgumentParser(description="Turns a surface into OFF.")
    parser.add_argument("input")
    parser.add_argument("output")
    parser.add_argument("--scale", type=Decimal, help="multiply the coordinates, and round them")
    words = parser.parse_args()
    surface = read(words.input)
    if words.scale is not None:
        surface = scaled(surface, words.scale)
    whole = [face for face in surface.faces if len(set(face)) >= 3]
    left_out = len(surface.faces) - len(whole)
    surface.faces = whole
    write_off(words.output, surface)
    print(f"{len(surface.vertices)} vertices, {len(whole)} faces, {left_out} faces left out")


if __name__ == "__main__":
    main()
