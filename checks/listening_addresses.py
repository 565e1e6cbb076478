"""The addresses that a server takes, and a restart on the same one. Part of `checks/listening`."""

import socket

from checks.listening_messages import wanted
from harness.client import Client
from harness.patience import PATIENCE
from harness.server import Server, start


def restart():
    """A server takes the port of one that has just ended, though the old connection still waits to
    be forgotten (TIME-WAIT)."""
    address = "127.0.0.1:0"
    for _ in range(10):
        with Server(places=1, connections=1, address=address) as server:
            Client(server).connect().disconnect()
            wanted(server.ended() == (0, "rstored: served 1\n", ""), "another end")
            address = f"127.0.0.1:{server.port}"


def cannot_listen(address):
    """Whether the program ends with status 1 and says why."""
    run = start(address, "--connections", "1")
    printed, errors = run.communicate(timeout=PATIENCE)
    return (run.returncode, printed, errors) == (1, "", "rstored: cannot listen\n")


def has_ipv6():
    try:
        with socket.socket(socket.AF_INET6) as trial:
            trial.bind(("::1", 0))
    except OSError:
        print("listening: this machine has no IPv6")
        return False
    return True


def addresses():
    """A name, an IPv4 and an IPv6 address are taken. One that is in use, and a text that is none,
    are not."""
    for address in ("localhost:0", "127.0.0.1:0", *(["[::1]:0"] if has_ipv6() else [])):
        with Server(address=address) as server:
            Client(server).connect().disconnect()
            host = f"[{server.host}]" if ":" in server.host else server.host
            wanted(cannot_listen(f"{host}:{server.port}"), f"{address} was bound twice")
    for address in ("", "127.0.0.1", "127.0.0.1:65536", "127.0.0.1:none"):
        wanted(cannot_listen(address), f"{address!r} was bound")
