"""Debian packages that some scripts need."""

import os
import shutil
import subprocess
import sys

from harness.words import NAME


def has(packages):
    """Whether all these packages are there, after an attempt to install the missing ones.

    With CI set in the environment a missing package is a failure. Without it the check is skipped,
    with a line that says so.
    """
    missing = [name for name in packages if not is_installed(name)]
    if missing and os.geteuid() == 0 and shutil.which("apt-get"):
        install(missing)
        missing = [name for name in missing if not is_installed(name)]
    if missing and os.environ.get("CI"):
        sys.exit(f"missing packages: {' '.join(missing)}")
    if missing:
        print(f"{NAME}: skipped what needs {' '.join(missing)}")
    return not missing


def is_installed(name):
    return version(name) is not None


def version(name):
    """The version of an installed package, or None."""
    if shutil.which("dpkg-query") is None:
        return None
    words = ["dpkg-query", "--show", "--showformat", "${db:Status-Status} ${Version}", name]
    run = subprocess.run(words, capture_output=True, text=True)
    status, _, number = run.stdout.partition(" ")
    return number if status == "installed" else None


def install(packages):
    quiet = {**os.environ, "DEBIAN_FRONTEND": "noninteractive"}
    for words in (["update"], ["install", "--yes", "--no-install-recommends", *packages]):
        apt = ["apt-get", "--quiet", "--quiet", *words]
        subprocess.run(apt, env=quiet, stdout=subprocess.DEVNULL, stderr=subprocess.DEVNULL)
