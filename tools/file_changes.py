"""Changes of a soup, a mesh file and a report at random: blind ones, and ones that keep the texts' rules.

A change takes the texts (`Files`) and a source of random numbers, and changes the texts in place.
"""

import re
from decimal import Decimal

NUMBER = re.compile(rb"(?<![^\s(])-?[0-9]+(?![^\s)])")
DECIMAL = re.compile(rb"(?<!\S)[+-]?([0-9]+\.?[0-9]*|\.[0-9]+)(?!\S)")
PIECES = [
    b"OFF", b"#", b"\n", b"\r\n", b" ", b"\0", b"\xff", b"-", b"+", b".", b"8.000", b"0.5", b"-0", b"1e1",
    b"1.005", b"-.5", b"1e400", b"9" * 33, b"(0 0 0 0)", b"(", b")", b"kept", b"refused worse", b"inserted 0",
    b"second 1\n", b"digits 0\n", b"rolled-back degenerate", b"rolled-back stray 0 0 0 0 0 0 0 0 0",
    b"split 1 2 kept\n",
]
NUMBERS = [b"0", b"1", b"2", b"3", b"4", b"-1", b"01", b"6", b"7", b"8", b"16", b"32", b"4096", b"262140"]
NUMBERS += [b"1048576", b"1048577", b"16777217", b"2000000000", b"2000000001", b"-2000000001", b"0.5"]
NUMBERS += [b"-0.0"]


class Files:
    """The texts of the soup, of the mesh and of the report."""

    def __init__(self, texts):
        self.texts = [bytearray(text) for text in texts]

    def mesh(self):
        return MeshText(self.texts[1])

    def lines(self, which):
        return self.texts[which].split(b"\n")

    def put_lines(self, which, lines):
        self.texts[which] = bytearray(b"\n".join(lines))


class MeshText:
    """The nodes, tetrahedra and triangles of a mesh text, as words."""

    def __init__(self, text):
        lines = text.decode("latin-1").split("\n")
        begin, middle = lines.index("$Nodes"), lines.index("$Elements")
        self.head = lines[: begin + 1]
        self.nodes = [line.split(" ") for line in lines[begin + 2 : middle - 1]]
        elements = [line.split(" ") for line in lines[middle + 2 : lines.index("$EndElements")]]
        self.tets = [(words[3], [int(w) for w in words[5:]]) for words in elements if words[1] == "4"]
        self.triangles = [tuple(int(w) for w in words[5:]) for words in elements if words[1] == "2"]

    def written(self):
        elements = [["4", "2", tag, tag, *map(str, corners)] for tag, corners in self.tets]
        elements += [["2", "2", "3", "3", *map(str, corners)] for corners in self.triangles]
        lines = [*self.head, str(len(self.nodes)), *(" ".join(node) for node in self.nodes)]
        lines += ["$EndNodes", "$Elements", str(len(elements))]
        lines += [" ".join([str(i + 1), *words]) for i, words in enumerate(elements)]
        return bytearray("\n".join([*lines, "$EndElements", ""]).encode("latin-1"))


# ---- blind changes


def change_bytes(files, dice):
    text = files.texts[dice.randrange(3)]
    at = dice.randrange(len(text) + 1)
    kind = dice.randrange(4)
    if kind == 0:
        text[at:at] = dice.choice(PIECES)
    elif kind == 1:
        del text[at : at + dice.randrange(1, 12)]
    elif kind == 2 and at < len(text):
        text[at] = dice.randrange(256)
    else:
        text[at:at] = text[at : at + dice.randrange(1, 40)]


def change_number(files, dice):
    text = files.texts[dice.choice((0, 1, 2, 2))]
    places = list(NUMBER.finditer(text))
    if places:
        place = dice.choice(places[:40] if dice.random() < 0.5 else places)
        near = str(int(place[0]) + dice.choice((-1, 1, 2, -4, 4))).encode()
        text[place.start() : place.end()] = dice.choice((near, dice.choice(places)[0], dice.choice(NUMBERS)))


def change_lines(files, dice):
    which = dice.randrange(3)
    lines = files.lines(which)
    i, j = dice.randrange(len(lines)), dice.randrange(len(lines))
    kind = dice.randrange(4)
    if kind == 0:
        del lines[i]
    elif kind == 1:
        lines.insert(j, lines[i])
    elif kind == 2:
        lines[i], lines[j] = lines[j], lines[i]
    else:
        lines[i] = dice.choice(PIECES)
    files.put_lines(which, lines)


# ---- changes of the mesh that keep the rules of its text


def change_corners(mesh, dice):
    """Swaps, turns or replaces corners of a tetrahedron."""
    _, corners = dice.choice(mesh.tets)
    i, j, k = dice.sample(range(4), 3)
    kind = dice.randrange(4)
    if kind == 0:
        corners[i], corners[j] = corners[j], corners[i]
    elif kind == 1:
        corners[i], corners[j], corners[k] = corners[j], corners[k], corners[i]
    elif kind == 2:
        corners[i] = int(dice.choice(mesh.nodes)[0])
    else:
        corners[:] = dice.choice(mesh.tets)[1]


def change_tets(mesh, dice):
    """Drops, doubles or moves tetrahedra."""
    i, j = dice.randrange(len(mesh.tets)), dice.randrange(len(mesh.tets))
    kind = dice.randrange(4)
    if kind == 0:
        del mesh.tets[i]
    elif kind == 1:
        mesh.tets.insert(j, mesh.tets[i])
    elif kind == 2:
        mesh.tets[i], mesh.tets[j] = mesh.tets[j], mesh.tets[i]
    else:
        dice.shuffle(mesh.tets)


def change_volume(mesh, dice):
    """No tetrahedra, or all of them twice, on nodes of their own."""
    last = int(mesh.nodes[-1][0])
    copies = [(tag, [corner + last for corner in corners]) for tag, corners in mesh.tets]
    mesh.nodes += [[str(int(node[0]) + last), *node[1:]] for node in mesh.nodes]
    mesh.tets = mesh.tets + copies if dice.random() < 0.7 else []


def change_tags(mesh, dice):
    many = dice.choice((1, 1, 2, len(mesh.tets)))
    for i in dice.sample(range(len(mesh.tets)), min(many, len(mesh.tets))):
        tag, corners = mesh.tets[i]
        mesh.tets[i] = ("3" if dice.random() < 0.05 else str(3 - int(tag)), corners)


def move_node(mesh, dice):
    node = dice.choice(mesh.nodes)
    axis, step = dice.randrange(1, 4), dice.choice((-1, 1, -1, 1, 2, -3, 100000))
    whole, point, behind = node[axis].partition(".")
    value = int(whole + behind) + step
    digits = str(abs(value)).rjust(len(behind) + 1, "0")
    at = len(digits) - len(behind)
    node[axis] = ("-" if value < 0 else "") + digits[:at] + point + digits[at:]


def change_triangles(mesh, dice):
    """Drops or adds a tracked triangle, or gives one another corner."""
    _, corners = dice.choice(mesh.tets)
    new = tuple(sorted(dice.sample(corners, 3)))
    kind = dice.randrange(3) if mesh.triangles else 1
    if kind == 0:
        del mesh.triangles[dice.randrange(len(mesh.triangles))]
    elif kind == 1:
        mesh.triangles = sorted({*mesh.triangles, new})
    else:
        i = dice.randrange(len(mesh.triangles))
        other = {*mesh.triangles[i][:2], int(dice.choice(mesh.nodes)[0])}
        if len(other) == 3:
            mesh.triangles[i] = tuple(sorted(other))
            mesh.triangles = sorted(set(mesh.triangles))


def in_mesh(change):
    def changed(files, dice):
        mesh = files.mesh()
        if mesh.tets and mesh.nodes:
            change(mesh, dice)
            files.texts[1] = mesh.written()

    return changed


# ---- changes of the mesh and of the report, or of the report alone, that keep the rules


def change_tracked(files, dice):
    """Drops or adds a tracked triangle in both texts."""
    mesh, lines = files.mesh(), files.lines(2)
    before = set(mesh.triangles)
    change_triangles(mesh, dice)
    count = next(i for i, line in enumerate(lines) if line.startswith(b"tracked "))
    kept = {tuple(map(int, line.split()[1:4])): line for line in lines[count + 1 : -1]}
    leaf = dice.choice(list(kept.values()) or [b"f 0 0 0 0"]).split(b" ", 4)[4]
    for face in {*mesh.triangles} - before:
        kept[face] = b"f %d %d %d " % face + leaf
    lines[count:] = [b"tracked %d" % len(mesh.triangles), *(kept[face] for face in mesh.triangles), b""]
    files.texts[1] = mesh.written()
    files.put_lines(2, lines)


def change_numbers_of_nodes(files, dice):
    """Gives all nodes from one on higher numbers, in both texts. The files stay good."""
    mesh, lines, step = files.mesh(), files.lines(2), dice.randrange(1, 1000)
    least = int(dice.choice(mesh.nodes)[0])

    def moved(number):
        return int(number) + (step if int(number) >= least else 0)

    mesh.nodes = [[str(moved(node[0])), *node[1:]] for node in mesh.nodes]
    mesh.tets = [(tag, [moved(corner) for corner in corners]) for tag, corners in mesh.tets]
    mesh.triangles = [tuple(moved(corner) for corner in corners) for corners in mesh.triangles]
    for i, line in enumerate(lines):
        if line.startswith(b"f "):
            words = line.split(b" ", 4)
            lines[i] = b"f %d %d %d " % tuple(map(moved, words[1:4])) + words[4]
    files.texts[1] = mesh.written()
    files.put_lines(2, lines)


def change_certificate(files, dice):
    """Another leaf, or a split in place of a leaf, as deep as it comes."""
    lines = files.lines(2)
    places = [i for i, line in enumerate(lines) if line.startswith(b"f ")]
    if not places:
        return
    i = dice.choice(places)
    head, cert = lines[i][: lines[i].index(b" ", 8)], lines[i][lines[i].index(b" ", 8) + 1 :]
    for _ in range(dice.choice((1, 1, 2, 6, 7))):
        leaves = list(re.finditer(rb"[0-9]+", cert))
        leaf = dice.choice(leaves)
        parts = [leaf[0]] * 4
        if dice.random() < 0.3:
            parts[dice.randrange(4)] = str(dice.randrange(14)).encode()
        new = b"(" + b" ".join(parts) + b")" if dice.random() < 0.7 else str(dice.randrange(14)).encode()
        cert = cert[: leaf.start()] + new + cert[leaf.end() :]
    lines[i] = head + b" " + cert
    files.put_lines(2, lines)


def change_outcomes(files, dice):
    """Drops or adds the last triangle line, or changes an outcome."""
    lines = files.lines(2)
    count = next(i for i, line in enumerate(lines) if line.startswith(b"triangles "))
    many, kind = int(lines[count].split()[1]), dice.randrange(3)
    if kind == 0 and many:
        del lines[count + many]
        lines[count] = b"triangles %d" % (many - 1)
    elif kind == 1:
        lines.insert(count + many + 1, b"t %d inserted 0" % many)
        lines[count] = b"triangles %d" % (many + 1)
    elif many:
        at = dice.randrange(many)
        words = dice.choice((b"inserted 1", b"rolled-back degenerate", b"rolled-back full"))
        lines[count + 1 + at] = b"t %d " % at + words
    files.put_lines(2, lines)


def change_second(files, dice):
    """Drops a line of the second part, or puts a second part in."""
    lines = files.lines(2)
    begin = next((i for i, line in enumerate(lines) if line.startswith(b"second ")), None)
    if begin is None:
        end = next(i for i, line in enumerate(lines) if line.startswith(b"end "))
        again = sorted({dice.randrange(6) for _ in range(dice.randrange(1, 3))})
        new = [b"second %d" % len(again), *(b"t %d inserted 0" % i for i in again)]
        lines[end + 1 : end + 1] = [*new, b"tries 0", b"end stopped"]
    else:
        many = int(lines[begin].split()[1])
        del lines[begin + 1 + dice.randrange(many)]
        lines[begin] = b"second %d" % (many - 1)
    files.put_lines(2, lines)


def change_head(files, dice):
    """Another epsilon, number of cells, budget, number of digits, box or shift."""
    lines = files.lines(2)
    i = dice.randrange(1, 7)
    words = lines[i].split()
    if len(words) > 1:
        at = dice.randrange(1, len(words))
        steps = (2, 2, 4) if words[0] in (b"cells", b"box") else (0, 1, 1)
        number = int(words[at]) * steps[0] if steps[0] else int(words[at]) + dice.choice((-1, 1, 30))
        words[at] = str(number).encode()
        lines[i] = b" ".join(words)
    files.put_lines(2, lines)


def change_faces_of_soup(files, dice):
    """One face more, or one less, or the faces in another order."""
    text = bytes(files.texts[0])
    match = re.match(rb"OFF\s+([0-9]+)\s+([0-9]+)", text)
    if not match:
        return
    faces, kind = int(match[2]), dice.randrange(3)
    lines = text.rstrip(b"\n").split(b"\n")
    if kind == 0:
        lines.append(b"3 0 0 0")
    elif kind == 1:
        del lines[-1]
    else:
        i, j = dice.randrange(1, faces + 1 or 2), 1
        lines[-i], lines[-j] = lines[-j], lines[-i]
    text = b"\n".join([*lines, b""])
    many = faces + (1, -1, 0)[kind]
    files.texts[0] = bytearray(text[: match.start(2)] + str(max(many, 0)).encode() + text[match.end(2) :])


def change_spelling(files, dice):
    """Another spelling of a decimal coordinate, of the same value or of one beside it."""
    text = files.texts[0]
    if b"." not in text:
        return
    word = dice.choice(list(DECIMAL.finditer(text)))
    step = dice.choice(("0", "0", "0.04", "-0.04", "0.05", "-0.05", "0.0499999999999999999"))
    value, power = Decimal(word[0].decode()) + Decimal(step), dice.randrange(-9, 10)
    spelled = f"{value.scaleb(-power):f}" + dice.choice("eE") + ("+" if power > 0 else "") + str(power)
    text[word.start() : word.end()] = spelled.encode()


CHANGES = [
    *[change_bytes] * 4, *[change_number] * 6, *[change_lines] * 3,
    *[in_mesh(change_corners)] * 2, in_mesh(change_tets), in_mesh(change_volume),
    *[in_mesh(change_tags)] * 2, *[in_mesh(move_node)] * 3, *[in_mesh(change_triangles)] * 2,
    *[change_tracked] * 3, change_numbers_of_nodes, *[change_certificate] * 4, *[change_outcomes] * 2,
    change_second, change_head, change_faces_of_soup, *[change_spelling] * 3,
]
