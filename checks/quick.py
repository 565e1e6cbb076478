"""Runs every test, and each program on what lies beside it, from their sources by `rt try`: several
at a time, and without a proof.

`rt try` stops at an index out of bounds, a sum that wraps or a failed `prove!`. It looks at no
contract. Words name the crates to run.
"""

import os
import re
import shutil
import subprocess
import sys
from concurrent.futures import ThreadPoolExecutor, as_completed
from dataclasses import dataclass
from pathlib import Path
from time import monotonic

from harness.patience import PATIENCE
from harness.program import ROOT
from harness.words import NAME, given_words

# How much memory is left for each that runs, in kilobytes.
MEMORY = 2_000_000
# These run longest, so they begin first.
LONGEST = ("check_tasks", "tests_store")
# How many seconds one may run once it is compiled. `rt try` looks at each access of memory, which
# makes all slower.
LIMIT = 3 * PATIENCE
# Each crate's name, with those of the crates that it names.
NAMES = {
    line.split(":")[0].split()[0]: line.split(":")[1].split()
    for line in (ROOT / "crates.txt").read_text().splitlines()
    if ":" in line and not line.startswith("#")
}
PASSED = re.compile(r"^test result: ok\. (\d+) passed; 0 failed; 0 ignored", re.MULTILINE)


@dataclass
class Crate:
    """A crate that has tests or is a program."""

    folder: Path

    @property
    def name(self):
        return self.folder.name

    def text(self, name):
        """A file beside the sources, or nothing."""
        path = self.folder / name
        return path.read_text() if path.exists() else ""

    def is_program(self):
        return (self.folder / "src" / "main.rt").exists()

    def has_tests(self):
        return any("#[test]" in path.read_text() for path in self.folder.glob("src/**/*.rt"))

    def lines(self):
        """How many lines of sources are compiled: its own, and those of all crates below."""
        folders, found = [self.name], {self.name}
        for name in folders:
            more = [each for each in NAMES.get(name, ()) if each in NAMES and each not in found]
            folders += more
            found |= set(more)
        return sum(
            path.read_text().count("\n")
            for name in folders
            for path in (ROOT / "crates" / name).glob("src/**/*.rt")
        )

    def try_out(self):
        """What is shown if all is right, or else all that was printed; and how many tests there
        were."""
        began = monotonic()
        run = self.run()
        passed = PASSED.search(run.stdout)
        is_right = run.stdout == self.text("stdout") if self.is_program() else passed
        if run.returncode != 0 or not is_right:
            return None, f"{run.stdout}{run.stderr}status {run.returncode}"
        tests = 0 if self.is_program() else int(passed[1])
        shown = f"{tests} tests" if tests else "prints what it should"
        return tests, f"{shown}, {monotonic() - began:.0f} s"

    def run(self):
        words = ["rt", "try", "--seconds", str(LIMIT)]
        if self.is_program():
            for path in self.folder.glob("data/*"):
                words += ["--data", f"{path.name}={path.relative_to(self.folder)}"]
            words += ["--", *self.text("args").split()]
        else:
            words.append("--test")
        options = {"cwd": self.folder, "input": self.text("stdin"), "text": True}
        return subprocess.run(words, capture_output=True, **options)


def crates():
    """Those that can be run, the longest first: most of the time is for compiling."""
    every = [Crate(path) for path in sorted(ROOT.glob("crates/*")) if (path / "src").exists()]
    chosen = [each for each in every if each.is_program() or each.has_tests()]
    return sorted(chosen, key=lambda each: (each.name not in LONGEST, -each.lines()))


def together():
    """How many run at a time: one on each processor, if there is memory for them."""
    with open("/proc/meminfo") as lines:
        free = next(int(line.split()[1]) for line in lines if line.startswith("MemAvailable:"))
    return max(1, min(len(os.sched_getaffinity(0)), free // MEMORY))


def main():
    every = crates()
    names = given_words(*(each.name for each in every))
    if shutil.which("rt") is None:
        sys.exit(f"{NAME}: rt is not on the path")
    chosen = [each for each in every if each.name in names or not names]
    began, tests, wrong = monotonic(), 0, False
    with ThreadPoolExecutor(together()) as threads:
        running = {threads.submit(each.try_out): each for each in chosen}
        for ended in as_completed(running):
            passed, shown = ended.result()
            print(f"{NAME}: {running[ended].name}: {shown}", flush=True)
            wrong = wrong or passed is None
            tests += passed or 0
    if wrong:
        sys.exit(f"{NAME}: not all is right")
    seconds = int(monotonic() - began)
    programs = sum(each.is_program() for each in chosen)
    print(f"{NAME}: {tests} tests and {programs} programs in {seconds} s; nothing was proved")


if __name__ == "__main__":
    main()
