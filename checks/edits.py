"""Tries the edits that the full check leaves out, those of crates/*/must-fail-outside: the prover
has to refuse each. Words name the crates whose edits are tried.

It works on a copy of the sources, in which these edits stand in place of the others.
"""

import shutil
import subprocess
import sys
from pathlib import Path
from tempfile import TemporaryDirectory

from harness.program import ROOT
from harness.words import NAME, given_words

OUTSIDE = "must-fail-outside"


def copied(folder):
    """Copies what the prover reads into this folder."""
    shutil.copytree(ROOT / "crates", folder / "crates", ignore=shutil.ignore_patterns("out"))
    for name in ("crates.txt", "HANDLES"):
        shutil.copy(ROOT / name, folder)


def main():
    every = sorted(path.parent.name for path in ROOT.glob(f"crates/*/{OUTSIDE}"))
    names = given_words(*every) or every
    with TemporaryDirectory() as folder:
        copied(Path(folder))
        for name in names:
            crate = Path(folder) / "crates" / name
            shutil.rmtree(crate / "must-fail", ignore_errors=True)
            (crate / OUTSIDE).rename(crate / "must-fail")
        tried = subprocess.run(["rt", "must-fail", *names], cwd=folder)
    if tried.returncode != 0:
        sys.exit(f"{NAME}: an edit was not refused, or not tried")
    print(f"{NAME}: each edit is refused, of {', '.join(names)}")


if __name__ == "__main__":
    main()
