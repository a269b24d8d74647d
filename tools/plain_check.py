#!/usr/bin/env python3
"""Judges a mesh file and a report beside the soup that they are of, as `tetsoup check` does, in plain Python.

Usage: plain_check.py IN.off OUT.msh REPORT [--digits D]

It shares no code with the program and was written from the rules of the texts and of the faults. It prints
the same line and ends with the same status: 0 good, 1 a fault, 3 a text that is refused. All numbers are
whole, of any size.
"""

import argparse
import sys
from collections import namedtuple
from pathlib import Path

from plain_texts import SIDES, Refused, read_mesh, read_off, read_report

Soup = namedtuple("Soup", "triangles side shift")


def minus(a, b):
    return (a[0] - b[0], a[1] - b[1], a[2] - b[2])


def dot(a, b):
    return a[0] * b[0] + a[1] * b[1] + a[2] * b[2]


def cross(a, b):
    return (a[1] * b[2] - a[2] * b[1], a[2] * b[0] - a[0] * b[2], a[0] * b[1] - a[1] * b[0])


def det(a, b, c, d):
    return dot(minus(b, a), cross(minus(c, a), minus(d, a)))


def place(raw, epsilon, cells):
    """The soup in its box."""
    axes = list(zip(*raw.vertices)) or [(0,)] * 3
    spans = [max(axis) - min(axis) for axis in axes]
    room = max(spans) + 2 * epsilon + 4
    if room > SIDES[-1]:
        raise Refused(f"tetsoup: input: extent {max(spans)} is too wide")
    side = min(power for power in SIDES if power >= max(room, 4 * cells))
    shift = tuple(min(axis) - (side - span) // 2 for axis, span in zip(axes, spans))
    if not raw.vertices:
        shift = (0, 0, 0)
    points = [minus(vertex, shift) for vertex in raw.vertices]
    return Soup([tuple(points[corner] for corner in each) for each in raw.triangles], side, shift)


# ---- distance and certificates


def near_segment(p, a, b, reach):
    """Whether p is within the root of reach of a segment."""
    along, to_p = minus(b, a), minus(p, a)
    foot, length = dot(along, to_p), dot(along, along)
    if foot <= 0:
        return dot(to_p, to_p) <= reach
    if foot >= length:
        return dot(minus(p, b), minus(p, b)) <= reach
    away = cross(along, to_p)
    return dot(away, away) <= reach * length


def near(p, tri, reach):
    """Whether p is within the root of reach of a triangle."""
    edges = [(tri[i], tri[(i + 1) % 3]) for i in range(3)]
    normal = cross(minus(tri[1], tri[0]), minus(tri[2], tri[0]))
    if any(normal) and all(dot(cross(minus(b, a), minus(p, a)), normal) >= 0 for a, b in edges):
        return dot(normal, minus(p, tri[0])) ** 2 <= reach * dot(normal, normal)
    return any(near_segment(p, a, b, reach) for a, b in edges)


def plus(a, b):
    return (a[0] + b[0], a[1] + b[1], a[2] + b[2])


def covers(soup, epsilon, face, level, cert):
    """Whether the certificate covers the face, whose corners stand at the scale 2^level."""
    a, b, c = face
    if isinstance(cert, int):
        if cert >= len(soup.triangles):
            return False
        scaled = [tuple(number << level for number in corner) for corner in soup.triangles[cert]]
        return all(near(p, scaled, (epsilon << level) ** 2) for p in face)
    ab, ac, bc = plus(a, b), plus(a, c), plus(b, c)
    pieces = [(plus(a, a), ab, ac), (ab, plus(b, b), bc), (ac, bc, plus(c, c)), (ab, bc, ac)]
    return all(covers(soup, epsilon, piece, level + 1, part) for piece, part in zip(pieces, cert))


# ---- the faults


def faces_of(tet):
    a, b, c, d = tet
    return [(a, c, b), (a, b, d), (a, d, c), (b, c, d)]


def key(face):
    """The same for the rotations of a face alone."""
    a, b, c = face
    return min(face, (b, c, a), (c, a, b))


def reverse(face):
    return (face[0], face[2], face[1])


def sides_of(point, side):
    return {(axis, end) for axis in range(3) for end in (0, side) if point[axis] == end}


def pairing_fault(tets, points, side):
    seen = set()
    for face in (face for tet in tets for face in faces_of(tet)):
        if key(face) in seen:
            return "twice {} {} {}".format(*face)
        seen.add(key(face))
    for face in (face for tet in tets for face in faces_of(tet)):
        is_loose = key(reverse(face)) not in seen
        if is_loose and not set.intersection(*(sides_of(points[corner], side) for corner in face)):
            return "loose {} {} {}".format(*face)
    return None


def outside(tets, tracked):
    """The tetrahedra that a flood from the loose faces reaches through faces that are not tracked."""
    owner = {key(face): i for i, tet in enumerate(tets) for face in faces_of(tet)}
    walls = set(tracked)
    reached = {i for i, tet in enumerate(tets) if any(key(reverse(f)) not in owner for f in faces_of(tet))}
    todo = list(reached)
    while todo:
        for face in faces_of(tets[todo.pop()]):
            other = owner.get(key(reverse(face)))
            if other is not None and other not in reached and tuple(sorted(face)) not in walls:
                reached.add(other)
                todo.append(other)
    return reached


def covering_fault(soup, mesh, report, points):
    for i in range(max(len(mesh.triangles), len(report.faces))):
        if i >= min(len(mesh.triangles), len(report.faces)):
            return f"not-covered {i + 1}"
        face, cert = report.faces[i]
        corners = [points[corner] for corner in face] if face == mesh.triangles[i] else None
        if corners is None or not covers(soup, report.epsilon, corners, 0, cert):
            return f"not-covered {i + 1}"
    return None


def tets_fault(soup, mesh, points):
    """The first fault of the nodes and of the tetrahedra."""
    tets = [corners for _, corners in mesh.tets]
    for number, point in points.items():
        if not all(0 <= coordinate <= soup.side for coordinate in point):
            return f"not-in-box {number}"
    dets = [det(*(points[corner] for corner in tet)) for tet in tets]
    for i, value in enumerate(dets):
        if value <= 0:
            return f"not-positive {i + 1}"
    fault = pairing_fault(tets, points, soup.side)
    if not fault and sum(dets) != 6 * soup.side**3:
        fault = f"volume {sum(dets)}"
    return fault


def tracked_fault(soup, mesh, report, points):
    """The first fault of the tracked triangles and of the regions."""
    tets = [corners for _, corners in mesh.tets]
    triples = {tuple(sorted(face)) for tet in tets for face in faces_of(tet)}
    for i, triangle in enumerate(mesh.triangles):
        if triangle not in triples:
            return f"not-a-face {len(tets) + i + 1}"
    fault = covering_fault(soup, mesh, report, points)
    reached = outside(tets, mesh.triangles) if not fault else ()
    for i, (tag, _) in enumerate(mesh.tets if not fault else ()):
        if tag != (2 if i in reached else 1):
            return f"region {i + 1}"
    return fault


def fault_of(soup, mesh, report, digits):
    """The first fault, or None."""
    if (report.side, report.shift, report.digits) != (soup.side, soup.shift, digits):
        return "header"
    points = {number: minus(at, soup.shift) for number, at in mesh.nodes.items()}
    fault = tets_fault(soup, mesh, points) or tracked_fault(soup, mesh, report, points)
    back = [number for number, is_back in enumerate(report.outcomes) if is_back]
    is_even = len(report.outcomes) == len(soup.triangles) and report.second in (None, back)
    return fault or (None if is_even else f"triangle-lines {len(report.outcomes)}")


def judge(soup_text, mesh_text, report_text, digits=None):
    """The status and the line for the bytes of the three files."""
    try:
        raw = read_off(soup_text, digits)
        mesh = read_mesh(mesh_text, digits or 0)
        report = read_report(report_text)
        soup = place(raw, report.epsilon, report.cells)
    except Refused as refused:
        return 3, str(refused)
    fault = fault_of(soup, mesh, report, digits)
    return (1, f"bad {fault}") if fault else (0, "good")


def main():
    parser = argparse.ArgumentParser(description="Judges a mesh file and a report.")
    for name in ("input", "mesh", "report"):
        parser.add_argument(name)
    parser.add_argument("--digits", type=int, choices=range(6))
    words = parser.parse_args()
    texts = [Path(name).read_bytes() for name in (words.input, words.mesh, words.report)]
    status, line = judge(*texts, words.digits)
    print(line)
    sys.exit(status)


if __name__ == "__main__":
    main()
