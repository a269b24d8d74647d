"""Programs for measuring, built in a folder of their own over copies of the crates that they stand on.

Their code stands in bench/NAME/, as text: code of the repository stands only in its crates.
"""

import shutil
import subprocess
import sys

from measured import TOP


def crate_lines(names):
    """The lines of crates.txt of these crates and of those below them."""
    below = {}
    for line in (TOP / "crates.txt").read_text().splitlines():
        name, _, deps = line.partition(":")
        below[name.strip()] = deps.split()
    wanted, left = {}, list(names)
    while left:
        name = left.pop()
        if name in below and name not in wanted:
            wanted[name] = below[name]
            left.extend(below[name])
    return wanted


def with_value(source, name, value):
    """The source with another value of a constant."""
    before, _, after = source.partition(f"const {name}: u32 = ")
    return f"{before}const {name}: u32 = {value};{after.partition(';')[2]}"


def lay_out(folder, name, deps, files):
    """Writes the program `name` from {path in its crate: text} beside what it stands on. Gives its folder."""
    wanted = crate_lines(deps)
    for crate in wanted:
        ignored = shutil.ignore_patterns("out", "must-fail")
        shutil.copytree(TOP / "crates" / crate, folder / "crates" / crate, ignore=ignored, dirs_exist_ok=True)
    lines = [f"{crate}: {' '.join(below)}" for crate, below in wanted.items()] + [f"{name}: {' '.join(deps)}"]
    (folder / "crates.txt").write_text("\n".join(lines) + "\n")
    home = folder / "crates" / name
    for path, text in files.items():
        (home / path).parent.mkdir(parents=True, exist_ok=True)
        (home / path).write_text(text)
    if not (folder / ".git").exists():
        subprocess.run(["git", "init", "-q", folder], check=True)
    return home


def build(folder, name, deps, files):
    """Builds the program `name` from {path in its crate: text}, and gives its path."""
    home = lay_out(folder, name, deps, files)
    empty = subprocess.DEVNULL
    built = subprocess.run(["rt", "run"], cwd=home, stdin=empty, capture_output=True, text=True, check=False)
    program = home / "out" / name
    if not program.exists():
        sys.exit(built.stdout + built.stderr)
    return program


def tried(folder, name, deps, files):
    """Runs the program `name` without a proof, and gives what it printed."""
    home = lay_out(folder, name, deps, files)
    words = ["rt", "try", "--seconds", "1200", "--steps", str(10**13)]
    done = subprocess.run(words, cwd=home, capture_output=True, text=True, check=False)
    if done.returncode != 0:
        sys.exit(done.stdout + done.stderr)
    return done.stdout
