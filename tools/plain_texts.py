"""The texts that a judge reads, in plain Python: soup, mesh and report, each with its first refusal.

It shares no code with the program and was written from the rules of the texts.
"""

import re
from collections import namedtuple

MOST = 1 << 20
MOST_FACES = 1 << 24
FAR = 2 * 10**9
LEVELS = 6
SIDES = [1 << power for power in range(4, 19)]
NUMBER = re.compile(r"0|[1-9][0-9]{0,11}")
SIGNED = re.compile(r"0|-?[1-9][0-9]{0,11}")
COORDINATE = re.compile(rb"([+-]?)([0-9]+(?:\.[0-9]*)?|\.[0-9]+)(?:[eE]([+-]?[0-9]+))?")

Raw = namedtuple("Raw", "vertices triangles")
Mesh = namedtuple("Mesh", "nodes tets triangles")  # nodes: number to point, tets: (tag, corners)
Report = namedtuple("Report", "epsilon cells digits side shift outcomes second faces")


class Refused(Exception):
    """A text that is refused, with the line that says so."""


# ---- the soup


def off_words(data):
    """The words outside comments, each with its place."""
    return [(m.start(), m[0]) for m in re.finditer(rb"#[^\n]*|[^ \t\r\n#]+", data) if m[0][:1] != b"#"]


def saturated(digits):
    """The value of a word of digits, where one that is too long for any limit is a large number."""
    digits = digits.lstrip(b"0") or b"0"
    return int(digits) if len(digits) < 40 else 10**40


class OffReader:
    """Takes the words of an OFF text from left to right."""

    def __init__(self, data):
        self.data, self.words, self.at = data, off_words(data), 0
        self.place = len(data)

    def refuse(self, text):
        raise Refused(f"tetsoup: input: byte {self.place}: {text}")

    def next(self):
        if self.at == len(self.words):
            self.place = len(self.data)
            self.refuse("ended early")
        self.place, word = self.words[self.at]
        self.at += 1
        return word

    def count(self):
        word = self.next()
        return saturated(word) if word.isdigit() else self.refuse("bad count")

    def pass_line(self):
        """Passes over what stands up to the next line."""
        place, word = self.words[self.at - 1]
        end = self.data.find(b"\n", place + len(word))
        end = len(self.data) if end < 0 else end
        while self.at < len(self.words) and self.words[self.at][0] < end:
            self.at += 1

    def keyword(self):
        if not self.words:
            self.refuse("no OFF keyword")
        word = self.next()
        if not word.endswith(b"OFF"):
            self.refuse("no OFF keyword")
        variant = word != b"OFF"
        if not variant and self.words[1:] and self.words[1][1] == b"BINARY":
            self.next()
            variant = True
        if variant:
            self.refuse("another OFF variant")

    def counts(self):
        many = []
        for _ in range(2):
            many.append(self.count())
            if many[-1] > MOST:
                self.refuse("too many")
        self.count()
        return many

    def coordinate(self, digits):
        word = self.next()
        match = COORDINATE.fullmatch(word)
        if not match or (digits is not None and len(word) > 32):
            self.refuse("bad number")
        whole, _, behind = match[2].partition(b".")
        if digits is None and (match[3] is not None or behind.strip(b"0")):
            self.refuse("not a whole number")
        if digits is None:
            value = saturated(whole) * (-1 if match[1] == b"-" else 1)
        else:
            value = units(match[1], whole, behind, match[3] or b"0", digits)
        return value if abs(value) <= 10**9 else self.refuse("number too large")

    def face(self, vertices, room):
        """The triangles of a face, of which there may be so many more."""
        corners = self.count()
        if corners < 3:
            self.refuse("face of fewer than three corners")
        if corners - 2 > room:
            self.refuse("too many")
        numbers = []
        for _ in range(corners):
            word = self.next()
            if not word.isdigit():
                self.refuse("bad number")
            numbers.append(saturated(word))
            if numbers[-1] >= vertices:
                self.refuse("no such vertex")
        self.pass_line()
        return [(numbers[0], *numbers[i : i + 2]) for i in range(1, corners - 1)]


def units(sign, whole, behind, exponent, digits):
    """A decimal as a number of units of 10^-digits, a half going up."""
    value = int(whole + behind) * (-1 if sign == b"-" else 1)
    power = int(exponent) - len(behind) + digits
    if value == 0 or power < -40:
        return 0
    if power >= 0:
        return value * 10 ** min(power, 40)
    return (2 * value + 10**-power) // (2 * 10**-power)


def read_off(data, digits):
    reader = OffReader(data)
    reader.keyword()
    vertices, faces = reader.counts()
    points = [tuple(reader.coordinate(digits) for _ in range(3)) for _ in range(vertices)]
    triangles = []
    for _ in range(faces):
        triangles += reader.face(vertices, MOST - len(triangles))
    return Raw(points, triangles)


# ---- the texts of the mesh and of the report


class LineReader:
    """Takes the lines of a text, each held against its rule."""

    def __init__(self, data, name):
        self.lines, self.name, self.number = data.decode("latin-1").split("\n"), name, 0

    def refuse(self):
        raise Refused(f"tetsoup: {self.name}: line {self.number}")

    def next(self):
        self.number += 1
        # what stands behind the last LF is no line
        return self.lines[self.number - 1] if self.number < len(self.lines) else self.refuse()

    def demand(self, holds):
        if not holds:
            self.refuse()

    def fixed(self, text):
        self.demand(self.next() == text)

    def numbers(self, words, form=NUMBER):
        self.demand(all(form.fullmatch(word) for word in words))
        return [int(word) for word in words]

    def named(self, name, most, least=0):
        """A line of a word and a number within limits."""
        return self.named_in(self.next(), name, most, least)

    def named_in(self, line, name, most, least=0):
        words = line.split(" ")
        self.demand(len(words) == 2 and words[0] == name)
        (number,) = self.numbers(words[1:])
        self.demand(least <= number <= most)
        return number

    def alone(self, most):
        """A line of a number alone."""
        return self.named_in(f"number {self.next()}", "number", most)

    def end(self):
        self.number += 1
        self.demand(self.number == len(self.lines) and not self.lines[-1])


HEAD = ["$MeshFormat", "2.2 0 8", "$EndMeshFormat", "$PhysicalNames", "3", '2 3 "tracked"', '3 1 "kept"']
HEAD += ['3 2 "outside"', "$EndPhysicalNames", "$Nodes"]


def units_of(reader, word, digits):
    """A coordinate in the one spelling with so many digits behind the point."""
    if digits:
        reader.demand(re.fullmatch(rf"-?(0|[1-9][0-9]{{0,11}})\.[0-9]{{{digits}}}", word))
        value = int(word.replace(".", ""))
        reader.demand(value or word[0] != "-")
    else:
        (value,) = reader.numbers([word], SIGNED)
    reader.demand(abs(value) <= FAR)
    return value


def read_mesh(data, digits):
    reader = LineReader(data, "mesh")
    for text in HEAD:
        reader.fixed(text)
    nodes, last = {}, 0
    for _ in range(reader.alone(MOST)):
        words = reader.next().split(" ")
        reader.demand(len(words) == 4)
        (number,) = reader.numbers(words[:1])
        reader.demand(last < number <= MOST)
        nodes[number] = tuple(units_of(reader, word, digits) for word in words[1:])
        last = number
    reader.fixed("$EndNodes")
    reader.fixed("$Elements")
    tets, triangles = [], []
    for number in range(1, reader.alone(MOST_FACES) + 1):
        read_element(reader, number, nodes, tets, triangles)
    reader.fixed("$EndElements")
    reader.end()
    return Mesh(nodes, tets, triangles)


def read_element(reader, number, nodes, tets, triangles):
    words = reader.numbers(reader.next().split(" "))
    reader.demand(len(words) > 5 and words[0] == number)
    tag, corners = words[3], tuple(words[5:])
    reader.demand(words[2] == 2 and words[4] == tag and all(corner in nodes for corner in corners))
    if words[1] == 4:
        reader.demand(len(corners) == 4 and tag in (1, 2) and not triangles)
        tets.append((tag, corners))
    else:
        reader.demand(words[1] == 2 and len(corners) == 3 and tag == 3)
        reader.demand(corners[0] < corners[1] < corners[2])
        reader.demand(not triangles or triangles[-1] < corners)
        triangles.append(corners)


CAUSES = {"degenerate": 0, "full": 0, "inverted": 4, "unresolved": 4, "stray": 3, "uncovered": 3}
TRIES = {"split": 2, "shift": 2, "collapse": 2, "face-swap": 3, "edge-swap": 2}
REASONS = ("box", "rim", "tracked", "full", "inverted", "doubled", "worse", "uncovered")


def read_triangle_line(reader, side, shift):
    """The number of a triangle, and whether it was rolled back."""
    words = reader.next().split(" ")
    reader.demand(len(words) >= 4 and words[0] == "t")
    (number,) = reader.numbers(words[1:2])
    if words[2] == "inserted":
        reader.demand(len(words) == 4 and reader.numbers(words[3:])[0] <= MOST)
        return number, False
    reader.demand(words[2] == "rolled-back" and words[3] in CAUSES)
    values = reader.numbers(words[4:], SIGNED)
    reader.demand(len(values) == 3 * CAUSES[words[3]])
    reader.demand(all(0 <= value - shift[i % 3] <= side for i, value in enumerate(values)))
    return number, True


def read_try(reader):
    words = reader.next().split(" ")
    many = TRIES.get(words[0])
    reader.demand(many)
    numbers, verdict = reader.numbers(words[1 : 1 + many]), words[1 + many :]
    reader.demand(len(numbers) == many)
    reader.demand(verdict == ["kept"] or verdict[:1] == ["refused"] and verdict[1:] in [[w] for w in REASONS])
    points = numbers[:1] if words[0] == "shift" else numbers
    reader.demand(all(1 <= point <= MOST for point in points))
    if words[0] == "shift":
        reader.demand(numbers[1] <= 1)
    elif words[0] == "collapse":
        reader.demand(numbers[0] != numbers[1])
    else:
        reader.demand(all(u < v for u, v in zip(numbers, numbers[1:])))


def read_journal(reader, budget):
    """Passes over the tries and their end, and says how many there are."""
    tries = reader.named("tries", budget)
    for _ in range(tries):
        read_try(reader)
    reader.demand(reader.next() in ("end settled", "end stopped"))
    return tries


def read_cert(reader, text, at, level):
    """The certificate that stands at a place of the line, and where it ends."""
    if text[at : at + 1] != "(":
        match = NUMBER.match(text, at)
        reader.demand(match and int(match[0]) < MOST)
        return int(match[0]), match.end()
    reader.demand(level < LEVELS)
    parts = []
    for before in ("(", " ", " ", " "):
        reader.demand(text[at : at + 1] == before)
        part, at = read_cert(reader, text, at + 1, level + 1)
        parts.append(part)
    reader.demand(text[at : at + 1] == ")")
    return tuple(parts), at + 1


def read_covering(reader):
    words = reader.next().split(" ", 4)
    reader.demand(len(words) == 5 and words[0] == "f")
    face = tuple(reader.numbers(words[1:4]))
    reader.demand(1 <= face[0] < face[1] < face[2] <= MOST)
    cert, end = read_cert(reader, words[4], 0, 0)
    reader.demand(end == len(words[4]))
    return face, cert


def read_second(reader, line, triangles, side, shift, budget):
    """The triangles of the second part, and the line behind it."""
    again = []
    for _ in range(reader.named_in(line, "second", triangles, least=1)):
        number, _ = read_triangle_line(reader, side, shift)
        reader.demand(number < triangles and (not again or again[-1] < number))
        again.append(number)
    read_journal(reader, budget)
    return again, reader.next()


def read_report(data):
    reader = LineReader(data, "report")
    reader.fixed("tetsoup report 1")
    epsilon = reader.named("epsilon", 4095, least=1)
    cells = reader.named("cells", 32, least=1)
    reader.demand(cells.bit_count() == 1)
    budget = reader.named("budget", 1000000)
    line, digits = reader.next(), None
    if line.startswith("digits "):
        digits, line = reader.named_in(line, "digits", 5), reader.next()
    side = reader.named_in(line, "box", SIDES[-1])
    reader.demand(side in SIDES)
    words = reader.next().split(" ")
    reader.demand(len(words) == 4 and words[0] == "shift")
    shift = tuple(reader.numbers(words[1:], SIGNED))
    reader.demand(all(abs(number) <= FAR for number in shift))
    outcomes = []
    for number in range(reader.named("triangles", MOST)):
        found, is_back = read_triangle_line(reader, side, shift)
        reader.demand(found == number)
        outcomes.append(is_back)
    left = budget - read_journal(reader, budget)
    line, second = reader.next(), None
    if line.startswith("second "):
        second, line = read_second(reader, line, len(outcomes), side, shift, left)
    faces = [read_covering(reader) for _ in range(reader.named_in(line, "tracked", MOST_FACES))]
    reader.end()
    return Report(epsilon, cells, digits, side, shift, outcomes, second, faces)
