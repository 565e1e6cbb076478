"""The program as a server on the loopback."""

import os
import re
import subprocess

from harness.patience import PATIENCE
from harness.program import program


# A host and a port that were bound.
BOUND = r"([0-9.]+|\[[0-9a-f:]+\]):([0-9]+)\n"


def start(address, *words, environment=None, errors=None, inside=()):
    """Starts the program as a server, with this added to the environment, by the command `inside`.

    If its errors are not to be read, they go to a "closed pipe" or to a "full disk", or standard
    error is "closed".
    """
    words = [*inside, program(), "listen", "--address", address, *words]
    environment = {**os.environ, **(environment or {})}
    stderr, before = subprocess.PIPE, None
    if errors == "closed pipe":
        reading, stderr = os.pipe()
        os.close(reading)
    elif errors == "full disk":
        stderr = os.open("/dev/full", os.O_WRONLY)
    elif errors == "closed":
        stderr, before = None, lambda: os.close(2)
    pipes = {"stdout": subprocess.PIPE, "stderr": stderr, "text": True}
    run = subprocess.Popen(words, env=environment, preexec_fn=before, **pipes)
    if errors in ("closed pipe", "full disk"):
        os.close(stderr)
    return run


class Server:
    """A running `rstored listen`, which is killed at the end of a `with`."""

    def __init__(self, address="127.0.0.1:0", environment=None, errors=None, inside=(), **options):
        """The options are those of the command line, a flag as True, and None for one that is not
        to be given. Those that are left out are here."""
        options = {"places": 4, "topics": 10_000, "connections": 1_000_000, **options}
        words = []
        for name, value in options.items():
            if value is not None:
                words += [f"--{name}"] if value is True else [f"--{name}", str(value)]
        self.run = start(address, *words, environment=environment, errors=errors, inside=inside)
        self.host, self.port = self.bound("listening")
        if options.get("metrics"):
            self.metrics = self.bound("metrics")

    def bound(self, what):
        """The host and the port that the next line says that it does this on."""
        line = self.run.stdout.readline()
        found = re.fullmatch(f"rstored: {what} on {BOUND}", line)
        if found is None:
            self.stop()
            raise RuntimeError(f"listen printed {line!r}, and not where it is {what}")
        return found[1].strip("[]"), int(found[2])

    def __enter__(self):
        return self

    def __exit__(self, *_):
        self.stop()

    def stop(self):
        self.run.kill()
        self.run.communicate()

    def ended(self):
        """Waits until the program ends: its status, what it printed after its first line, and its
        errors."""
        printed, errors = self.run.communicate(timeout=PATIENCE)
        return self.run.returncode, printed, errors or ""
