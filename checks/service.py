"""Looks at the units of `contrib/`: systemd knows each of their lines, the program takes the words
of its service, and the health check tells whether a client is answered.

systemd-analyze and mosquitto_pub are of Debian packages.
"""

import shlex
import subprocess
import tempfile
from contextlib import ExitStack, contextmanager
from pathlib import Path
from types import SimpleNamespace

from checks.listening_messages import wanted
from harness import debian
from harness.client import Client
from harness.patience import PATIENCE
from harness.program import ROOT, program
from harness.server import start
from harness.words import run_named

UNITS = ("rstored.service", "rstored-health.service", "rstored-health.timer")
# Where the service has the program, and the address at which it listens.
INSTALLED, HOST = "/usr/local/bin/rstored", "192.0.2.10"


def text(unit):
    return (ROOT / "contrib" / unit).read_text()


def words(unit):
    """The command of a service."""
    lines = [line for line in text(unit).splitlines() if line.startswith("ExecStart=")]
    wanted(len(lines) == 1, f"{unit} has {len(lines)} commands")
    return shlex.split(lines[0].removeprefix("ExecStart="))


def units_are_known():
    """systemd-analyze finds no fault in any of them, while the built program stands in the place of
    the one that is installed."""
    with tempfile.TemporaryDirectory() as folder:
        paths = [Path(folder) / unit for unit in UNITS]
        for path in paths:
            path.write_text(text(path.name).replace(INSTALLED, program()))
        verify = ["systemd-analyze", "verify", *map(str, paths)]
        run = subprocess.run(verify, capture_output=True, text=True, timeout=PATIENCE)
    # Its status is 0 even if it knows a line not. It may tell of units of the machine, too.
    told = [line for line in run.stderr.splitlines() if "rstored" in line]
    wanted(run.returncode == 0 and not told, "\n".join(told) or run.stderr)


@contextmanager
def served():
    """A server that is started by the words of its service, at another address, and for as few
    clients as it has places."""
    path, name, option, address, *options = words("rstored.service")
    told = (path, name, option, address)
    keeping = options.index("--keep") + 1
    wanted(options[keeping] == "${STATE_DIRECTORY}", f"it keeps in {options[keeping]}")
    wanted(told == (INSTALLED, "listen", "--address", f"{HOST}:1883"), f"it begins with {told}")
    places = options[options.index("--places") + 1]
    options[options.index("--clients") + 1] = places
    with tempfile.TemporaryDirectory() as folder:
        options[keeping] = folder
        yield from listening(options, int(places))


def listening(options, places):
    run = start("127.0.0.1:0", *options)
    try:
        line = run.stdout.readline()
        wanted(line.startswith("rstored: listening on "), f"it printed {line!r}")
        port = int(line.rpartition(":")[2])
        yield SimpleNamespace(host="127.0.0.1", port=port, clients=places)
    finally:
        run.kill()
        run.communicate()


def is_healthy(server, seconds=PATIENCE):
    """Whether the health check succeeds, if it may take so long."""
    program_of_time, _, *command = words("rstored-health.service")
    command = [word.replace(HOST, server.host) for word in command]
    check = [program_of_time, str(seconds), *command, "-p", str(server.port)]
    return subprocess.run(check, capture_output=True).returncode == 0


def the_health_check():
    """It succeeds while a client is served, and fails while as many are connected as may be, and
    without a server."""
    with served() as server:
        wanted(is_healthy(server), "a client is not answered")
        with ExitStack() as clients:
            for _ in range(server.clients):
                clients.enter_context(Client(server)).connect()
            wanted(not is_healthy(server, 1), "one client more than may be is answered")
        wanted(is_healthy(server), "a client is not answered any more")
    wanted(not is_healthy(server), "there is no server, and a client is answered")


CHECKS = (units_are_known, the_health_check)


if __name__ == "__main__":
    if debian.has(["systemd", "mosquitto-clients"]):
        run_named(CHECKS)
