#!/usr/bin/env python3
"""Checks the order of the repository, outside the gate: prints what it finds, and ends with 1 if any.

Usage: house.py [KIND..], where the kinds are

  alike    lemmas alike up to the names of their binders, other than predicates, and other than what a
           module keeps to itself, which speaks of its parameters
  uncited  lemmas and definitions that nothing cites, other than what `search` finds by itself, which has
           a comment "for `search`" above them
  wide     lines over 110 columns, other than those that `rt fmt` lays out, and rows of tables
  limits   named limits that are written as numbers, other than in texts and in the list of all powers of two
  tables   crates that the README or docs/ARCHITECTURE.md lacks, or names in another order
  long     files past 500 lines, and functions past 40
"""

import re
import sys
from collections import defaultdict
from itertools import groupby
from pathlib import Path

TOP = Path(__file__).resolve().parent.parent
WIDEST, LONGEST_FILE, LONGEST_FUNCTION = 110, 500, 40
LIMIT = re.compile(r"(?<![\w.])(?:4095|262_?144|2 \^ 18|1 << 18|2 \^ 20|2 \^ 22|1 << 20|1 << 22)(?!\w)")
NAMES_LIMIT = re.compile(r"^\w+ = [^ ]+( \^ \d+)?$|\bconst [A-Z_]+:")
TEXT = re.compile(r'"[^"]*"')
POWERS = re.compile(r"131072 . 262144|^ *[|] 262144")
LIMIT_HOMES = re.compile(r"/specs/Limits\.antt$|/src/limits\.rt$|/tests(/|\.rt$)")
DECLARED = re.compile(r"^(?:abbrev |unfoldable )?(?:pub )?([^\s:(){}]+)((?: [({].*?[)}])*) :(?= |$)(.*)$")
RECORD = re.compile(r"^(?:pub )?(?:record|data) (\S+)")
LAID_OUT = re.compile(r'^\s*(ghost|requires|ensures)|[λ≡→]|b?"[^"]{60}')
TOKEN = re.compile(r"[^\s(){}\[\],;.⟦⟧⟨⟩\"`]+")
FOUND_BY_SEARCH = re.compile(r" *-- .*for `search`")
RUST_PATH = re.compile(r"\b(\w+)::proofs::(\w+)::(\w+)")
BINDER = re.compile(r"[({]((?:[^\s(){}:]+ )+):(?= )")


def sources(*endings):
    """The files of the repository with these endings, other than what was built."""
    for path in sorted(TOP.rglob("*")):
        parts = path.relative_to(TOP).parts
        if path.is_file() and path.name.endswith(endings) and not {"out", ".git", "__pycache__"} & set(parts):
            yield path


def place(path, line):
    return f"{path.relative_to(TOP)}:{line}"


class Declaration:
    """A named statement or definition of a specs or proofs file: where it stands, and its lines."""

    def __init__(self, path, first, name, kind, text, comment):
        self.path, self.first, self.name, self.kind, self.text = path, first, name, kind, text
        self.comment = comment

    def place(self):
        return place(self.path, self.first + 1)

    def is_kept_in(self):
        """Whether a module keeps it to itself."""
        return self.text[0].startswith(" ") and not self.text[0].lstrip().startswith("pub ")

    def is_predicate(self):
        return self.kind.endswith("Type 0")


def declarations(path, lines):
    """The declarations at the left margin, and those of modules, whose parameters then begin their types."""
    module, margin, found = "", "", []
    for number, line in enumerate(lines):
        if line and not line.startswith(" "):
            module, margin = "", ""
        if re.match(r" *module _ ", line):
            module += line.strip().removeprefix("module _ ").removesuffix(" where") + " → "
            margin = line[: len(line) - len(line.lstrip())] + "  "
            continue
        text = line.removeprefix(margin)
        if text.startswith((" ", "--")) or not line.startswith(margin):
            continue
        record = RECORD.match(text)
        match = record or DECLARED.match(text)
        if match:
            kind = "" if record else f"{module}{match.group(2)} {match.group(3)}"
            found.append((number, match.group(1), kind, margin))
    return [made(path, lines, *each) for each in found]


def made(path, lines, number, name, kind, margin):
    """A declaration with its lines: up to the next one at its margin that does not define it."""
    end = number + 1
    while end < len(lines):
        text = lines[end].removeprefix(margin)
        inside = lines[end].startswith(margin) and text.startswith((" ", "unfolding"))
        if lines[end].strip() and not inside and TOKEN.findall(text + " ")[:1] != [name]:
            break
        end += 1
    more = []
    for line in lines[number + 1 : end]:
        text = line.removeprefix(margin)
        if not text.startswith("    →"):
            break
        more.append(text.strip())
    comment = lines[number - 1] if number else ""
    return Declaration(path, number, name, " ".join([kind, *more]).strip(), lines[number:end], comment)


def all_declarations():
    for path in sources(".antt"):
        if path.name not in ("Answers.antt", "Invariants.antt", "Lib.antt"):
            yield from declarations(path, path.read_text().split("\n"))


def shape(kind):
    """A statement with its binders numbered in the order in which they stand."""
    names = [name for group in BINDER.findall(kind) for name in group.split()]
    numbers = {name: f"#{number}" for number, name in enumerate(dict.fromkeys(names))}
    tokens = re.findall(TOKEN.pattern + r"|[(){}\[\],;.]", kind)
    return " ".join(numbers.get(token, token) for token in tokens), len(numbers)


def alike():
    seen = {}
    for each in all_declarations():
        if "/proofs/" not in str(each.path) or "goal." in each.kind:
            continue
        if each.is_kept_in() or each.is_predicate():
            continue
        text, binders = shape(each.kind)
        if binders == 0 or len(text) < 30:
            continue
        if text in seen:
            yield f"{each.place()}: {each.name} is like {seen[text].name} of {seen[text].place()}"
        else:
            seen[text] = each


def imports():
    """The names that some file takes from each module; "*" where the module itself is taken under a name."""
    taken = defaultdict(set)
    for path in sources(".antt", ".rt", ".antt.txt", ".rt.txt"):
        text = path.read_text()
        for module, names in re.findall(r"\buse ([\w.+-]+)\.\{([^}]*)\}", text):
            taken[module] |= {name.split(" as ")[0].strip() for name in names.split(",")}
        for module, name in re.findall(r"\buse ([\w.+-]+)\.([^\s.{};]+)(?: as [^\s;]+)?;?$", text, re.M):
            taken[module].add(name)
            taken[f"{module}.{name}"].add("*")
        for crate, file, name in RUST_PATH.findall(text):
            home = path.relative_to(TOP / "crates").parts[0] if crate == "crate" else crate
            taken[f"Rattle.{home}.proofs.{file}"].add(name)
    return taken


def citations(lines):
    """How often each token stands in these lines, outside those that only import it."""
    counts = defaultdict(int)
    for line in lines:
        if not line.strip().startswith(("use ", "--")):
            for token in TOKEN.findall(line):
                counts[token.lstrip("!'")] += 1
    return counts


def uncited():
    """Examples are left out: their lemmas are tests of definitions."""
    taken = imports()
    for path, found in groupby(all_declarations(), lambda each: each.path):
        if "Example" in path.stem:
            continue
        module = ".".join(["Rattle", *path.relative_to(TOP / "crates").with_suffix("").parts])
        counts = citations(path.read_text().split("\n"))
        for each in found:
            if FOUND_BY_SEARCH.match(each.comment):
                continue
            names = {each.name, each.name.strip("◌")}
            own = citations(each.text)
            if all(counts[name] <= own[name] for name in names) and not taken[module] & (names | {"*"}):
                yield f"{each.place()}: nothing cites {each.name}"


def wide():
    for path in sources(".rt", ".py", ".md", ".sh", "tetsoup"):
        for number, line in enumerate(path.read_text().split("\n"), 1):
            laid_out = path.suffix == ".rt" and LAID_OUT.search(line)
            if len(line) > WIDEST and not laid_out and not line.startswith("|"):
                yield f"{place(path, number)}: {len(line)} columns"


def limits():
    for path in sources(".rt", ".antt"):
        if LIMIT_HOMES.search(str(path)):
            continue
        for number, line in enumerate(path.read_text().split("\n"), 1):
            found = not POWERS.search(line) and LIMIT.search(TEXT.sub("", line))
            if found and not line.strip().startswith(("--", "//")) and not NAMES_LIMIT.search(line):
                yield f"{place(path, number)}: {found.group()}"


def crates():
    """The crates of crates.txt in its order, each with those that it names."""
    rows = (line.split("#")[0] for line in (TOP / "crates.txt").read_text().split("\n"))
    return {row.split(":")[0].split()[0]: row.split(":")[1].split() for row in rows if ":" in row}


def section(path, title):
    """The lines of a section of a page, with their numbers."""
    lines = list(enumerate(path.read_text().split("\n"), 1))
    begin = next(number for number, line in lines if line.startswith(title))
    end = next((number for number, line in lines[begin:] if line.startswith("## ")), len(lines) + 1)
    return lines[begin : end - 1]


def in_table(path, found, named):
    """What a page says of the crates, as (line, name), against crates.txt."""
    order = [name for _, name in found]
    for name in named:
        if name not in order:
            yield f"{path.relative_to(TOP)}: {name} is missing"
    for number, name in found:
        if name not in named:
            yield f"{place(path, number)}: there is no crate {name}"
    known = [name for name in order if name in named]
    if known != sorted(known, key=list(named).index):
        yield f"{path.relative_to(TOP)}: the crates stand in another order than in crates.txt"


def tables():
    named = crates()
    readme, page = TOP / "README.md", TOP / "docs" / "ARCHITECTURE.md"
    found = []
    for number, line in section(readme, "## What is proved"):
        if line.startswith("- `"):
            found += [(number, name) for name in re.findall(r"`(\w+)`", line.split(":")[0])]
    yield from in_table(readme, found, {name: low for name, low in named.items() if name != "tetsoup"})
    rows = [(number, line) for number, line in section(page, "## The crates") if line.startswith("| `")]
    yield from in_table(page, [(number, line.split("`")[1]) for number, line in rows], named)
    for number, line in rows:
        for name in re.findall(r"\w+", line.split("|")[3]):
            if name not in named and "all of" not in line:
                yield f"{place(page, number)}: there is no crate {name} to stand on"


def functions(path, lines):
    """The functions of a Rattle or Python file: name, line and number of the lines of the body."""
    for number, line in enumerate(lines):
        match = re.match(r"^(\s*)(?:pub(?:\([a-z]+\))? )?(?:const )?(?:unsafe )?(?:fn|def) (\w+)", line)
        if not match:
            continue
        indent, end, begin = match.group(1), number + 1, number
        if path.suffix == ".py":
            while end < len(lines) and (not lines[end].strip() or lines[end].startswith(indent + " ")):
                end += 1
            while not lines[end - 1].strip():
                end -= 1
        else:
            while end < len(lines) and lines[end] not in (indent + "}", indent + "{}"):
                begin = end if lines[end] == indent + "{" else begin
                end += 1
        yield match.group(2), number + 1, end - begin - 1


def long():
    for path in sources(".rt", ".antt", ".py"):
        lines = path.read_text().split("\n")
        if len(lines) - 1 > LONGEST_FILE:
            yield f"{place(path, 1)}: {len(lines) - 1} lines"
        if path.suffix != ".antt":
            for name, number, length in functions(path, lines):
                if length > LONGEST_FUNCTION:
                    yield f"{place(path, number)}: {name} has {length} lines"


KINDS = {"alike": alike, "uncited": uncited, "wide": wide, "limits": limits, "tables": tables, "long": long}


def main():
    chosen = sys.argv[1:] or list(KINDS)
    if not set(chosen) <= set(KINDS):
        sys.exit(__doc__)
    found = [f"{kind}: {line}" for kind in chosen for line in KINDS[kind]()]
    print("\n".join(found + [f"{len(found)} findings"] if found else ["nothing found"]))
    return 1 if found else 0


if __name__ == "__main__":
    sys.exit(main())
