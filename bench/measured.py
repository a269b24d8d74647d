"""Commands with the processor's time and the memory that they took, and the page of their figures."""

import datetime
import os
import platform
import re
import shutil
import subprocess
import sys
import tempfile
import textwrap
from dataclasses import dataclass
from pathlib import Path

TOP = Path(__file__).resolve().parent.parent
PAGE = TOP / "docs" / "PERFORMANCE.md"
HEAD = """# Performance

What the scripts of `bench/` measured last. Each writes its own section anew, with the day and the machine.
They stand outside the gate: no proof speaks of time or memory. Seconds are the processor's, in the program
and in the system for it. The fastest of three runs counts, or the one run where it takes long.
"""


@dataclass
class Run:
    """What a run of a command answered and took."""

    status: int
    printed: str
    seconds: float
    megabytes: float


def program():
    """The proved program, built first where it is missing or older than its sources."""
    subprocess.run([TOP / "tetsoup"], stdout=subprocess.DEVNULL, check=False)
    path = TOP / "crates" / "tetsoup" / "out" / "kept" / "tetsoup"
    if not path.exists():
        sys.exit("the program could not be built")
    return path


def run(words, folder, output=subprocess.PIPE):
    """Runs a command once.

    GNU time starts it and tells its time and its peak memory: started from here, a command would be counted
    the memory of this script as well.
    """
    timer = shutil.which("time") or sys.exit("GNU time is needed: apt-get install time")
    with tempfile.TemporaryDirectory() as room:
        figures = os.path.join(room, "figures")
        child = subprocess.run(
            [timer, "--quiet", "-o", figures, "-f", "%U %S %M", *words],
            cwd=folder, stdout=output, stderr=subprocess.DEVNULL, check=False,
        )
        user, system, kilobytes = Path(figures).read_text().split()[-3:]
    printed = (child.stdout or b"").decode(errors="replace")
    return Run(child.returncode, printed, float(user) + float(system), int(kilobytes) / 1024)


def best(words, folder, times=3, output=subprocess.PIPE):
    """The fastest of several runs. One that fails ends them: what fails at once has not done the work."""
    runs = []
    for _ in range(times):
        runs.append(run(words, folder, output))
        if runs[-1].status != 0:
            return runs[-1]
    return min(runs, key=lambda one: one.seconds)


def machine():
    """The processor, how many there are, the memory and the system."""
    info = Path("/proc/cpuinfo")
    names = re.findall(r"^model name\s*: (.*)$", info.read_text(), re.M) if info.exists() else []
    memory = os.sysconf("SC_PAGE_SIZE") * os.sysconf("SC_PHYS_PAGES") / 2**30
    name = names[0] if names else platform.machine()
    return f"{name}, {os.cpu_count()} processors, {memory:.0f} GiB, {platform.system()}"


def write_section(script, about, rows):
    """Prints the rows, and puts them into the page as the section of this script."""
    print("\n".join(rows))
    page = PAGE.read_text() if PAGE.exists() else HEAD
    head, *sections = re.split(r"(?m)^(?=## )", page)
    title = f"## `{script}`"
    told = textwrap.fill(about, 110, break_long_words=False)
    body = "\n".join([title, "", told, "", *rows, "", f"{datetime.date.today()}, {machine()}.", ""])
    sections = [one.strip() + "\n" for one in sections if not one.startswith(title + "\n")] + [body]
    PAGE.write_text("\n".join([head.strip() + "\n", *sorted(sections)]))


def table(names, lines):
    """The rows of a table in Markdown."""
    return ["| " + " | ".join(cells) + " |" for cells in [names, ["---:"] * len(names), *lines]]
