"""Clients that are silent, and a limit for how long they may be. Part of `checks/operating`."""

import os
import shutil
import signal
import subprocess
import sys
from concurrent.futures import ThreadPoolExecutor
from contextlib import ExitStack, contextmanager
from time import monotonic, sleep

from checks.listening_messages import publish, replayed, wanted
from harness.client import Client
from harness.packets import CONNACK, CONNECT, PUBACK, SUBACK, subscribe
from harness.server import Server

PINGREQ, PINGRESP = bytes.fromhex("C000"), bytes.fromhex("D000")

# A hundred messages of this size are more than the system keeps for a client that never reads.
LARGE = b"x" * 200_000


def serves_the_next(server):
    """A place is free, or becomes free: another client is served there, and leaves."""
    with Client(server) as client:
        client.ask(CONNECT + PINGREQ, CONNACK + PINGRESP)
        client.disconnect()


def is_cut_off(client):
    """The server has closed or closes the connection, in whatever way."""
    try:
        while client.socket.recv(65_536):
            pass
    except ConnectionError:
        pass


def silent_clients():
    """With one place and a second: clients that are silent in each phase are cut off, and the next
    one is served. So it is if as many as may be share the place."""
    for clients in (1, 3):
        with Server(places=1, clients=clients, idle=1) as server:
            for sent, answer in (
                (b"", b""),
                (CONNECT[:7], b""),
                (CONNECT, CONNACK),
                (CONNECT + PINGREQ[:1], CONNACK),
                (CONNECT + publish(b"s", b"x"), CONNACK + PUBACK),
            ):
                with ExitStack() as closed:
                    silent = [closed.enter_context(Client(server)) for _ in range(clients)]
                    for client in silent:
                        client.ask(sent, answer)
                    for client in silent:
                        client.take_end()
                    serves_the_next(server)


def not_too_early():
    """A silent client is served for as many seconds as `--idle` says, and no less. So it is if as
    many as may be share a place."""
    for clients in (1, 3):
        with Server(places=1, clients=clients, idle=2) as server, ExitStack() as closed:
            start = monotonic()
            for _ in range(clients):
                closed.enter_context(Client(server)).connect()
            serves_the_next(server)
            held = monotonic() - start
            wanted(held > 2, f"a client was served for {held} seconds")


def silent_clients_that_stay():
    """Without `--idle`, and with a longer one, a silent client stays."""
    for options in ({}, {"idle": 86_400}, {"clients": 2}, {"clients": 2, "idle": 86_400}):
        with Server(places=1, **options) as server, Client(server).connect() as client:
            sleep(2.5)
            client.ask(PINGREQ, PINGRESP)
            client.disconnect()


def a_client_that_never_reads():
    """A client for which more waits than the system keeps, and which reads nothing, is cut off.
    What was published stays. Those that share its place are served meanwhile."""
    for clients in (1, 2):
        with Server(places=1, clients=clients, idle=1) as server:
            with Client(server).connect() as client:
                for number in range(100):
                    client.ask(publish(b"n/%03d" % number, LARGE), PUBACK)
                client.disconnect()
            with Client(server, room=4096).connect() as client:
                client.send(subscribe([b"#"]))
                serves_the_next(server)
                is_cut_off(client)
            with Client(server).connect() as client:
                client.ask(subscribe([b"n/007"]), SUBACK + replayed(b"n/007", LARGE))
                client.disconnect()


def a_client_that_pings():
    """A client that sends a packet twice a second stays, and is answered each time. A machine that
    is held up for a second may cut it off: of twenty tries one counts."""
    for clients in (1, 2):
        with Server(places=1, clients=clients, idle=1) as server:
            wanted(any(may_stay(server) for _ in range(20)), "a client that pings is cut off")


def may_stay(server):
    """Whether a client that pings for five seconds is not cut off."""
    try:
        with Client(server).connect() as client:
            for _ in range(10):
                client.ask(PINGREQ, PINGRESP)
                sleep(0.5)
            client.disconnect()
    except (AssertionError, ConnectionError):
        return False
    return True


@contextmanager
def pinging(server, *inside):
    """A process with a client that pings for ever, started inside what these words name."""
    source = (
        "import socket, time\n"
        f"client = socket.create_connection(({server.host!r}, {server.port}))\n"
        f"client.sendall(bytes.fromhex({CONNECT.hex()!r}))\n"
        "print(client.recv(100).hex(), flush=True)\n"
        "while True: time.sleep(0.1); client.sendall(bytes.fromhex('C000'))\n"
    )
    words = [*inside, sys.executable, "-c", source]
    with subprocess.Popen(words, stdout=subprocess.PIPE, text=True) as client:
        try:
            wanted(client.stdout.readline() == f"{CONNACK.hex()}\n", "no CONNACK")
            yield client
        finally:
            client.kill()


def a_stopped_client():
    """A client whose process is stopped gives its place back, though its system still acknowledges
    what comes."""
    with Server(places=1, idle=1) as server, pinging(server) as client:
        client.send_signal(signal.SIGSTOP)
        serves_the_next(server)


def a_network_that_is_gone():
    """A client whose network is gone, so that none of its pings come, gives its place back.

    Client and server are in a network namespace of their own, whose loopback is then switched off.
    Where none can be made, the check is skipped, with a line that says so.
    """
    name = f"rstored{os.getpid()}"
    inside, loopback = ("ip", "netns", "exec", name), ("ip", "-n", name, "link", "set", "lo")
    if not is_made(name):
        print("operating: skipped what needs a network namespace")
        return
    try:
        subprocess.run([*loopback, "up"], check=True)
        with Server(inside=inside, places=1, connections=1, idle=1) as server:
            with pinging(server, *inside):
                subprocess.run([*loopback, "down"], check=True)
                wanted(server.ended() == (0, "rstored: served 1\n", ""), "another end")
    finally:
        subprocess.run(["ip", "netns", "delete", name], check=True)


def is_made(namespace):
    """Whether a network namespace can be made, and now is."""
    if shutil.which("ip") is None:
        return False
    words = ["ip", "netns", "add", namespace]
    return subprocess.run(words, stderr=subprocess.DEVNULL, check=False).returncode == 0


def many_that_vanish(count=80, together=20):
    """Of many clients none says that it goes. With four places, of one client each or of three, the
    next one is served all the same, though each of them got a place before."""
    for clients in (4, 12):
        options = {"places": 4, "clients": clients, "idle": 1}
        with Server(**options) as server, ThreadPoolExecutor(together) as threads:
            lost = []
            for _ in range(count // together):
                some = list(threads.map(lambda _: Client(server), range(together)))
                for client in some:
                    client.send(CONNECT)
                lost += some
            for client in lost:
                client.take(CONNACK)
            serves_the_next(server)
            for client in lost:
                client.close()
