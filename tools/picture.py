#!/usr/bin/env python3
"""Draws a mesh file as SVG: the boundary of what is kept, and the other tracked faces.

Usage: picture.py IN.msh OUT.svg [--turn DEGREES] [--tilt DEGREES] [--width PIXELS]

The view is orthographic: --turn goes round the vertical axis z, and --tilt looks from above. Faces are
painted from far to near and shaded by their direction. A mesh that keeps and tracks nothing is drawn by the
outside of its box.
"""

import argparse
import math
import sys

KEPT, OUTSIDE = 1, 2
TRIANGLE, TETRAHEDRON = 2, 4
BOUNDARY_COLOUR, TRACKED_COLOUR = (118, 164, 209), (232, 165, 88)
MARGIN = 8


def sections(path):
    """The lines of each section of an MSH file, by its name."""
    found, name = {}, None
    with open(path, encoding="ascii") as file:
        for line in (raw.strip() for raw in file):
            if line.startswith("$End"):
                name = None
            elif line.startswith("$"):
                name = line[1:]
                found[name] = []
            elif name:
                found[name].append(line)
    return found


def read_mesh(path):
    """The points by their numbers, the corners of the tetrahedra by their tag, and the tracked faces."""
    parts = sections(path)
    if "Nodes" not in parts or "Elements" not in parts:
        sys.exit(f"{path}: not an MSH file")
    points = {int(row[0]): tuple(map(float, row[1:4])) for row in map(str.split, parts["Nodes"][1:])}
    tets, tracked = {KEPT: [], OUTSIDE: []}, []
    for row in (list(map(int, line.split())) for line in parts["Elements"][1:]):
        corners = row[3 + row[2] :]
        if row[1] == TETRAHEDRON:
            tets[row[3]].append(corners)
        elif row[1] == TRIANGLE:
            tracked.append(corners)
    return points, tets, tracked


def boundary(tets):
    """The faces that one tetrahedron has alone, turned outwards."""
    seen = {}
    for a, b, c, d in tets:
        for face in ((a, c, b), (a, b, d), (a, d, c), (b, c, d)):
            key = tuple(sorted(face))
            seen[key] = None if key in seen else face
    return [face for face in seen.values() if face]


def less(p, q):
    return tuple(a - b for a, b in zip(p, q))


def dot(p, q):
    return sum(a * b for a, b in zip(p, q))


def cross(p, q):
    return (p[1] * q[2] - p[2] * q[1], p[2] * q[0] - p[0] * q[2], p[0] * q[1] - p[1] * q[0])


def unit(p):
    length = math.sqrt(dot(p, p))
    return tuple(a / length for a in p) if length else p


class View:
    """Three directions: to the right, upwards, and towards the eye."""

    def __init__(self, turn, tilt):
        t, u = math.radians(turn), math.radians(tilt)
        self.eye = (math.cos(u) * math.cos(t), math.cos(u) * math.sin(t), math.sin(u))
        self.right = (-math.sin(t), math.cos(t), 0.0)
        self.up = cross(self.eye, self.right)
        parts = zip(self.eye, self.up, self.right)
        self.light = unit(tuple(0.5 * eye + 0.7 * up - 0.4 * right for eye, up, right in parts))

    def shade(self, colour, normal):
        strength = 0.7 + 0.3 * dot(normal, self.light)
        return "#" + "".join(f"{round(part * strength):02x}" for part in colour)


def painted(points, faces, colour, view, both_sides):
    """Each face that the eye sees: its depth, its places in the picture and its colour."""
    for face in faces:
        corners = [points[corner] for corner in face]
        normal = unit(cross(less(corners[1], corners[0]), less(corners[2], corners[0])))
        towards = dot(normal, view.eye)
        if towards <= 0 and not both_sides:
            continue
        if towards < 0:
            normal = tuple(-part for part in normal)
        depth = sum(dot(corner, view.eye) for corner in corners)
        places = [(dot(corner, view.right), -dot(corner, view.up)) for corner in corners]
        yield depth, places, view.shade(colour, normal)


def chosen(tets, tracked):
    """What is drawn: closed faces, and single ones."""
    closed = boundary(tets[KEPT])
    keys = {tuple(sorted(face)) for face in closed}
    single = [face for face in tracked if tuple(sorted(face)) not in keys]
    if not closed and not single:
        closed = boundary(tets[KEPT] + tets[OUTSIDE])
    return closed, single


def write_svg(path, polygons, width):
    xs = [x for _, places, _ in polygons for x, _ in places]
    ys = [y for _, places, _ in polygons for _, y in places]
    left, top = min(xs), min(ys)
    scale = (width - 2 * MARGIN) / max(max(xs) - left, max(ys) - top, 1e-9)
    span, height = (max(xs) - left) * scale + 2 * MARGIN, (max(ys) - top) * scale + 2 * MARGIN
    with open(path, "w", encoding="ascii") as file:
        file.write(f'<svg xmlns="http://www.w3.org/2000/svg" viewBox="0 0 {span:.0f} {height:.0f}">\n')
        file.write('<g stroke="#33475b" stroke-width="0.4" stroke-linejoin="round">\n')
        for _, places, colour in sorted(polygons, key=lambda polygon: polygon[0]):
            moved = (((x - left) * scale + MARGIN, (y - top) * scale + MARGIN) for x, y in places)
            corners = " ".join(f"{x:.1f},{y:.1f}" for x, y in moved)
            file.write(f'<polygon fill="{colour}" points="{corners}"/>\n')
        file.write("</g>\n</svg>\n")


def main():
    parser = argparse.ArgumentParser(description="Draws a mesh file as SVG.")
    parser.add_argument("input")
    parser.add_argument("output")
    parser.add_argument("--turn", type=float, default=35)
    parser.add_argument("--tilt", type=float, default=25)
    parser.add_argument("--width", type=int, default=640)
    words = parser.parse_args()
    points, tets, tracked = read_mesh(words.input)
    closed, single = chosen(tets, tracked)
    view = View(words.turn, words.tilt)
    polygons = list(painted(points, closed, BOUNDARY_COLOUR, view, both_sides=False))
    polygons += painted(points, single, TRACKED_COLOUR, view, both_sides=True)
    if not polygons:
        sys.exit(f"{words.input}: there is nothing to draw")
    write_svg(words.output, polygons, words.width)
    print(f"{len(closed)} faces of the boundary, {len(single)} other tracked faces, {len(polygons)} drawn")


if __name__ == "__main__":
    main()
