"""Where the built programs lie, what is loaded before one, and how much memory one takes."""

import subprocess
import sys
from pathlib import Path

ROOT = Path(__file__).resolve().parents[1]


def crate(name="rstored"):
    """The folder of a program's crate."""
    return ROOT / "crates" / name


def program(name="rstored"):
    """The path of a program, which `rt ci` or `rt run` has built."""
    path = crate(name) / "out" / name
    if not path.exists():
        sys.exit(f"build {name} first: rt run in crates/{name}")
    return str(path)


def preloaded(name, folder):
    """A library in this folder that is to be loaded before a program.

    It is a C file of checks/, compiled by the toolchain's C compiler.
    """
    start = subprocess.run(["rt", "doc"], capture_output=True, text=True, check=True).stdout
    compiler = Path(start.strip()).parent / "toolchain" / "bin" / "clang"
    path = f"{folder}/{name}.so"
    words = [compiler, "-O1", "-shared", "-fPIC", "-o", path, ROOT / "checks" / f"{name}.c"]
    subprocess.run(words, check=True)
    return path


def most_memory(pid):
    """The most kilobytes that a running program has held so far."""
    with open(f"/proc/{pid}/status") as lines:
        return next(int(line.split()[1]) for line in lines if line.startswith("VmHWM:"))
