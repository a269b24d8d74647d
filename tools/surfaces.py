"""Surfaces as lists of vertices and faces, read from OFF, STL, OBJ and PLY and written as OFF.

A vertex is three decimals as they stand in the file, a face a list of vertex numbers from 0. Other formats
are read through meshio where it is installed.
"""

import struct
import sys
from decimal import Decimal, InvalidOperation
from pathlib import Path

PLY_TYPES = {
    "char": "b", "uchar": "B", "short": "h", "ushort": "H", "int": "i", "uint": "I", "float": "f",
    "double": "d", "int8": "b", "uint8": "B", "int16": "h", "uint16": "H", "int32": "i", "uint32": "I",
    "float32": "f", "float64": "d",
}
FLAT = ("triangle", "quad", "polygon")


class Surface:
    """Vertices and faces. Equal vertices become one, as STL repeats them for each triangle."""

    def __init__(self):
        self.vertices, self.faces, self.numbers = [], [], {}

    def add_vertex(self, vertex):
        """The number of the vertex."""
        vertex = tuple(vertex)
        if vertex not in self.numbers:
            self.numbers[vertex] = len(self.vertices)
            self.vertices.append(vertex)
        return self.numbers[vertex]


def decimal32(number):
    """The shortest decimal that is this float of 32 bits."""
    bits = struct.pack("<f", number)
    for digits in range(6, 10):
        text = f"{number:.{digits}g}"
        if struct.pack("<f", float(text)) == bits:
            break
    return Decimal(text)


def made(vertices, faces):
    """A surface from its lists, where the faces name places of the first."""
    surface = Surface()
    numbers = [surface.add_vertex(vertex) for vertex in vertices]
    surface.faces = [[numbers[corner] for corner in face] for face in faces]
    return surface


def read_off(data):
    """Words in any lines; what stands behind a face in its last line is passed over."""
    lines = enumerate(data.decode("ascii", "replace").split("\n"))
    words = [(word, number) for number, line in lines for word in line.split("#")[0].split()]
    if not words or not words[0][0].endswith("OFF"):
        raise ValueError("no OFF keyword")
    many, faces_many, at = int(words[1][0]), int(words[2][0]), 4
    numbers = [Decimal(word) for word, _ in words[at : at + 3 * many]]
    at += 3 * many
    faces = []
    for _ in range(faces_many):
        end = at + int(words[at][0])
        faces.append([int(word) for word, _ in words[at + 1 : end + 1]])
        at = end + 1
        while at < len(words) and words[at][1] == words[end][1]:
            at += 1
    return made([tuple(numbers[3 * i : 3 * i + 3]) for i in range(many)], faces)


def read_stl(data):
    surface = Surface()
    count = struct.unpack_from("<I", data, 80)[0] if len(data) >= 84 else 0
    if len(data) >= 84 and len(data) == 84 + 50 * count:
        for triangle in range(count):
            floats = struct.unpack_from("<12f", data, 84 + 50 * triangle)[3:]
            numbers = [decimal32(number) for number in floats]
            surface.faces.append([surface.add_vertex(numbers[i : i + 3]) for i in (0, 3, 6)])
        return surface
    corners = []
    for row in (line.split() for line in data.decode("ascii", "replace").split("\n")):
        if row[:1] == ["vertex"]:
            corners.append(surface.add_vertex(map(Decimal, row[1:4])))
        elif row[:1] == ["endloop"]:
            surface.faces.append(corners)
            corners = []
    return surface


def read_obj(data):
    vertices, faces = [], []
    for row in (line.split("#")[0].split() for line in data.decode("utf-8", "replace").split("\n")):
        if row[:1] == ["v"]:
            vertices.append(tuple(map(Decimal, row[1:4])))
        elif row[:1] == ["f"]:
            numbers = [int(word.split("/")[0]) for word in row[1:]]
            faces.append([n - 1 if n > 0 else len(vertices) + n for n in numbers])
    return made(vertices, faces)


def ply_header(data):
    """The format, the elements with their counts and properties, and where the body begins."""
    head, _, _ = data.partition(b"end_header")
    body = data.index(b"\n", len(head)) + 1
    form, elements = None, []
    for row in (line.split() for line in head.decode("ascii", "replace").split("\n")):
        if row[:1] == ["format"]:
            form = row[1]
        elif row[:1] == ["element"]:
            elements.append((row[1], int(row[2]), []))
        elif row[:1] == ["property"]:
            elements[-1][2].append((row[-1], row[1:-1]))
    return form, elements, body


class PlyBody:
    """The numbers of a PLY file's body, one after the other."""

    def __init__(self, data, at, is_ascii):
        self.words = iter(data[at:].split()) if is_ascii else None
        self.data, self.at = data, at

    def number(self, kind):
        if self.words:
            return Decimal(next(self.words).decode())
        code = "<" + PLY_TYPES[kind]
        number = struct.unpack_from(code, self.data, self.at)[0]
        self.at += struct.calcsize(code)
        return decimal32(number) if code == "<f" else Decimal(repr(number))

    def property(self, kinds):
        if kinds[0] != "list":
            return self.number(kinds[0])
        return [int(self.number(kinds[2])) for _ in range(int(self.number(kinds[1])))]


def read_ply(data):
    form, elements, at = ply_header(data)
    if form not in ("ascii", "binary_little_endian"):
        raise ValueError(f"PLY of the format {form} is not read")
    body = PlyBody(data, at, form == "ascii")
    vertices, faces = [], []
    for name, count, properties in elements:
        for _ in range(count):
            values = {key: body.property(kinds) for key, kinds in properties}
            if name == "vertex":
                vertices.append((values["x"], values["y"], values["z"]))
            elif name == "face":
                faces.append(values.get("vertex_indices", values.get("vertex_index")))
    return made(vertices, faces)


def read_by_meshio(path):
    try:
        import meshio
    except ImportError:
        sys.exit(f"{path}: only OFF, STL, OBJ and PLY are read where meshio is not installed")
    mesh = meshio.read(path)
    faces = [list(map(int, face)) for block in mesh.cells if block.type in FLAT for face in block.data]
    vertices = [tuple(Decimal(str(number)) for number in point[:3]) for point in mesh.points]
    return made(vertices, faces)


READERS = {".off": read_off, ".stl": read_stl, ".obj": read_obj, ".ply": read_ply}


def read(path):
    """The surface in a file, whose format its ending tells."""
    reader = READERS.get(Path(path).suffix.lower())
    if reader is None:
        return read_by_meshio(path)
    try:
        return reader(Path(path).read_bytes())
    except (OSError, ValueError, InvalidOperation, IndexError, StopIteration, struct.error) as error:
        sys.exit(f"{path}: not read: {error}")


def plain(number):
    """A decimal without exponent and without zeros at its end."""
    text = f"{number:f}"
    return text.rstrip("0").rstrip(".") if "." in text else text


def write_off(path, surface):
    with open(path, "w", encoding="ascii") as file:
        file.write(f"OFF\n{len(surface.vertices)} {len(surface.faces)} 0\n")
        for vertex in surface.vertices:
            file.write(" ".join(plain(number) for number in vertex) + "\n")
        for face in surface.faces:
            file.write(f"{len(face)} {' '.join(map(str, face))}\n")
