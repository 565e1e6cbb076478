"""Places of a server: how many clients are served at once, one after the other, and by which
threads. Part of `checks/listening`."""

import itertools
import signal
import tempfile
import threading
from concurrent.futures import ThreadPoolExecutor

from checks.listening_messages import all_replayed, publish, replayed, subscribe, topic, wanted
from harness import packets
from harness.client import Client
from harness.packets import CONNACK, CONNECT, PUBACK, SUBACK, puback
from harness.patience import PATIENCE
from harness.program import preloaded
from harness.server import Server

MANY = 64


def sixty_four_places():
    """All places are served at once. One client more is served when a place is free."""
    with Server(places=MANY) as server:
        clients = [Client(server).connect() for _ in range(MANY)]
        one_more = Client(server)
        one_more.send(CONNECT)
        for number, client in enumerate(clients):
            client.ask(publish(topic(number), b"x"), PUBACK)
        everything = all_replayed(MANY, b"x")
        for client in clients:
            client.ask(subscribe(b"t/#"), SUBACK + everything)
        clients.pop().disconnect()
        one_more.take(CONNACK)
        one_more.ask(subscribe(b"#"), SUBACK + everything)
        for client in [*clients, one_more]:
            client.disconnect()


def short_connections(count=1_000):
    """Many clients connect, publish and end, again and again. Nothing that was acknowledged is
    lost; after the last connection the program ends."""

    def publish_once(server, number):
        with Client(server).connect() as client:
            client.ask(publish(topic(number), b"%d" % number), PUBACK)
            client.disconnect()

    for places in (MANY, MANY // 16):
        options = {"places": places, "clients": MANY, "connections": count + 1}
        with Server(**options) as server, ThreadPoolExecutor(MANY) as threads:
            list(threads.map(publish_once, count * [server], range(count)))
            with Client(server).connect() as reader:
                kept = [replayed(topic(number), b"%d" % number) for number in range(count)]
                reader.ask(subscribe(b"#"), SUBACK + b"".join(kept))
                reader.disconnect()
            wanted(server.ended() == (0, f"rstored: served {count + 1}\n", ""), "another end")


def endless(count=200):
    """Without an end, clients are served until a signal ends the program, which says no more."""
    with Server(places=2, connections=None, endless=True) as server:
        for number in range(count):
            with Client(server).connect() as client:
                client.ask(publish(topic(number), b"x"), PUBACK)
                client.disconnect()
        server.run.terminate()
        wanted(server.ended() == (-signal.SIGTERM, "", ""), "another end")


def bursts(rounds=10, size=200, own=4):
    """64 clients at once send publications of QoS 0, and as many of QoS 1 as they may, in one
    piece, again and again. Each is acknowledged, the last of each topic is there, and at the end
    the store is known to have taken all."""
    acknowledged = range(0, size, size // 15)

    def burst(number, turn):
        """Its bytes, and the acknowledgements."""
        sent = [
            packets.publish(
                topic(number * own + at % own),
                b"%d.%d" % (turn, at),
                qos=int(at in acknowledged),
                identifier=at + 1,
            )
            for at in range(size)
        ]
        return b"".join(sent), b"".join(puback(at + 1) for at in acknowledged)

    def send_all(number):
        made = [burst(number, turn) for turn in range(rounds)]
        with Client(server).connect() as client:
            all_are_ready.wait()
            for sent, answers in made:
                client.ask(sent, answers)
            client.disconnect()

    # If a client fails before, the others do not wait without an end.
    all_are_ready = threading.Barrier(MANY, timeout=PATIENCE)
    with Server(places=MANY, connections=MANY + 1) as server:
        with ThreadPoolExecutor(MANY) as threads:
            list(threads.map(send_all, range(MANY)))
        with Client(server).connect() as reader:
            last = [b"%d.%d" % (rounds - 1, size - own + at) for at in range(own)]
            kept = [replayed(topic(each), last[each % own]) for each in range(MANY * own)]
            reader.ask(subscribe(b"#"), SUBACK + b"".join(kept))
            reader.disconnect()
        wanted(server.ended() == (0, f"rstored: served {MANY + 1}\n", ""), "another end")


def few_threads():
    """The places that get a thread serve all connections. With a client for each, they are served
    at the same time, and one more by the first thread. With more clients than places, all are
    served at the same time, however few the threads. At the end the program says how many places
    had a thread. If the writer or all of them get none, it cannot listen."""
    with tempfile.TemporaryDirectory() as folder:
        library = preloaded("few_threads", folder)
        for given in (-1, 0, 1, 2, 40, MANY - 1, MANY):
            with_threads(library, given, MANY, min(given + 1, MANY))
        for given in (-1, 0, 1, 2, 3, 4, 5):
            with_threads(library, given, 4, 40, clients=40)


def with_threads(library, given, places, together, **options):
    """Runs a server that serves so many at the same time, of whose places so many are given a
    thread."""
    # The writer takes the first thread.
    threads, connections = given + 1, together + places
    environment = {"LD_PRELOAD": library, "THREADS": str(threads)}
    options = {"places": places, "environment": environment, **options}
    with Server(connections=connections, **options) as server:
        if given < 1:
            end = (1, "", "rstored: cannot listen\n")
            wanted(server.ended() == end, f"another end with {threads} threads")
            return
        clients = [Client(server).connect() for _ in range(together)]
        for number, client in enumerate(clients):
            client.ask(publish(topic(number), b"x"), PUBACK)
        for client in clients:
            client.ask(subscribe(b"t/#"), SUBACK + all_replayed(together, b"x"))
            client.disconnect()
        for _ in range(places):
            Client(server).connect().disconnect()
        few = f"rstored: {given} of {places} places had a thread\n"
        status, errors = (0, "") if given >= places else (1, few)
        end = (status, f"rstored: served {connections}\n", errors)
        wanted(server.ended() == end, f"another end with {threads} threads")


def refused_accepts(refused=4, served=3):
    """An accept that fails, as if no descriptor was left, counts as a connection. Clients that come
    later are served, and the program ends after as many as are left, also if none is. So it does
    with more clients than places."""
    with tempfile.TemporaryDirectory() as folder:
        library = preloaded("failing_accepts", folder)
        environment = {"LD_PRELOAD": library, "FAILING": str(refused)}
        for clients, left in itertools.product((2, 5), (served, 0)):
            count = refused + left
            options = {"places": 2, "clients": clients, "connections": count}
            with Server(environment=environment, **options) as server, Client(server) as waiting:
                # Each accept that fails leaves it waiting.
                if left:
                    waiting.connect().disconnect()
                for _ in range(1, left):
                    Client(server).connect().disconnect()
                end = (0, f"rstored: served {count}\n", "")
                wanted(server.ended() == end, f"another end with {clients} clients, {left} served")


def all_connections_served():
    """Connections of all kinds count, and after the last one the program ends, whichever places
    served them."""
    for clients in (4, 40):
        with Server(places=4, clients=clients, connections=6) as server:
            clients = [Client(server).connect() for _ in range(4)]
            clients.pop().reset()
            clients.append(Client(server).connect())
            for client in clients:
                client.disconnect()
            Client(server).close()
            wanted(server.ended() == (0, "rstored: served 6\n", ""), "another end")
