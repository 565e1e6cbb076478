"""Runs the program as a server under a limit of the system on its memory, and fills it until it
refuses publications.

The limit is that of `ulimit -d` and of `LimitDATA`. It is set once all places have their threads,
whose stacks count, too. Each check is made with short messages, with longer ones, and with some of
which each takes more than the server keeps free; by the settings that docs/RUNNING.md has for this
limit, and without them where they are not needed; with a client for each place, and with more
clients than places.
"""

import itertools
import os
import resource
import subprocess
import time
from contextlib import contextmanager

from checks.listening_clients import send_until_stuck
from checks.listening_messages import publish, replayed, subscribe, topic, wanted
from harness.client import Client
from harness.packets import NO_SPACE, PUBACK, SUBACK, packet, suback, unsubscribe
from harness.patience import PATIENCE
from harness.program import ROOT, program
from harness.server import Server
from harness.words import run_named

# The answer to an UNSUBSCRIBE.
UNSUBACK = packet(0xB0, b"\x00\x01\x00\x00")

# So many places, for as many clients, and for more.
PLACES, CLIENTS = 4, (4, 12)
# How many bytes a message has, and how many the server has for all of them.
SPACES = {100: 2_000_000, 20_000: 6_000_000, 200_000: 6_000_000}
# So many publications have to be refused before the server counts as full.
REFUSED = 20
# How many bytes a writer alone has.
WRITER_SPACE = 64_000_000
# How many clients may come, of which none was there when memory ran out.
NEW = 100
# How many clients are connected and silent, and how many bytes each may take, a quarter more than
# it takes.
IDLE, MOST_IDLE = 200, 12_000


def settings():
    """What RUNNING.md adds to the environment of a server at this limit."""
    lines = map(str.strip, (ROOT / "docs/RUNNING.md").read_text().splitlines())
    given = [line.removeprefix("Environment=") for line in lines if line.startswith("Environment=")]
    wanted(given, "RUNNING.md adds nothing to the environment")
    return dict(word.split("=", 1) for word in given)


def space(size):
    """How many bytes the server has for all messages of this size."""
    return SPACES.get(size, max(SPACES.values()))


def payload(number, size):
    return b"%d " % number + size * b"x"


def size_of(server, field):
    """A size of the process in bytes, such as VmData, which counts for the limit."""
    with open(f"/proc/{server.run.pid}/status") as lines:
        return 1_024 * next(int(line.split()[1]) for line in lines if line.startswith(f"{field}:"))


def limit(server, size):
    _, most = resource.prlimit(server.run.pid, resource.RLIMIT_DATA)
    resource.prlimit(server.run.pid, resource.RLIMIT_DATA, (size, most))


@contextmanager
def full_server(size, clients, environment=None, **more):
    """A server that has refused publications because memory was refused, a client that was there
    before, and the numbers of the topics that it acknowledged."""
    options = {"places": PLACES, "clients": clients, "environment": environment, **more}
    with Server(topics=65_536, **options) as server:
        clients = [Client(server).connect() for _ in range(clients)]
        staying = clients.pop()
        for client in clients:
            client.disconnect()
        limit(server, size_of(server, "VmData") + space(size))
        yield server, staying, filled(server, size)


def filled(server, size):
    """Publishes until enough publications were refused, by a client that comes again if its
    connection ends."""
    kept, refused, client = [], 0, None
    for number in range(space(size) // size + 10 * REFUSED):
        try:
            client = client or Client(server).connect()
            client.send(publish(topic(number), payload(number, size)))
            answer = client.take_packet()
            wanted(answer in (PUBACK, NO_SPACE) or answer[0] == 0xE0, f"{answer.hex()} came")
        except (AssertionError, OSError):
            answer = b""
        if answer == PUBACK:
            kept.append(number)
        refused += answer != PUBACK
        if answer not in (PUBACK, NO_SPACE):
            if client:
                client.close()
            client = None
        if refused == REFUSED:
            break
    wanted(refused == REFUSED and kept, f"{refused} publications were refused")
    if client:
        client.disconnect()
    return kept


def read_all(server, size, numbers, staying=None):
    """A client asks for one topic after the other, and gets its message. How many did not come."""
    missed, client = 0, staying
    for number in numbers:
        try:
            client = client or Client(server).connect()
            name = topic(number)
            client.ask(subscribe(name), SUBACK)
            client.take(replayed(name, payload(number, size)))
            client.ask(unsubscribe([name]), UNSUBACK)
        except (AssertionError, OSError):
            missed += 1
            if client:
                client.close()
            client = None
    return missed


def is_lost(size, clients, environment):
    """Looks, once there is memory again, for each message that was acknowledged."""
    with full_server(size, clients, environment) as (server, _, kept):
        limit(server, resource.RLIM_INFINITY)
        missed = read_all(server, size, kept)
        wanted(missed == 0, f"{missed} of {len(kept)} messages of {size} bytes are lost")


def nothing_is_lost():
    """The server lives, and each message that was acknowledged is there once there is memory
    again."""
    for clients in CLIENTS:
        for size in SPACES:
            is_lost(size, clients, None)
        is_lost(max(SPACES), clients, settings())


def can_be_read(size, clients, environment):
    with full_server(size, clients, environment) as (server, staying, kept):
        told = f"of {len(kept)} messages of {size} bytes"
        missed = read_all(server, size, kept)
        wanted(missed == 0, f"a new client could not read {missed} {told}")
        missed = read_all(server, size, kept, staying)
        wanted(missed == 0, f"the staying one could not read {missed} {told}")


def all_can_be_read():
    """At the limit, a client that comes and one that was there before read one topic after the
    other. With more clients than places this needs the settings: whichever thread has
    time serves a client, and each would keep free memory of its own."""
    for size in SPACES:
        can_be_read(size, PLACES, None)
        for clients in CLIENTS:
            can_be_read(size, clients, settings())


def comes(is_there):
    """Whether it is there at last, however slow the machine is."""
    end = time.monotonic() + PATIENCE
    while not is_there():
        if time.monotonic() > end:
            return False
        time.sleep(0.1)
    return True


def wait_for_threads(server, count):
    """Waits until so many threads are there and have taken what they take at first."""
    sizes = [0]

    def are_there():
        sizes.append(size_of(server, "VmData"))
        tasks = os.listdir(f"/proc/{server.run.pid}/task")
        return len(tasks) == count and sizes[-1] == sizes[-2]

    wanted(comes(are_there), f"there are not {count} threads")


def is_read(server, size, number):
    """Whether a new client gets a message. What the clients before it had may still be given back,
    so one that is refused comes again."""
    return comes(lambda: read_all(server, size, [number]) == 0)


def clears(server, numbers):
    """Whether a new client clears these topics. It comes again if it is refused."""

    def are_cleared():
        try:
            with Client(server).connect() as client:
                for number in numbers:
                    client.ask(publish(topic(number), b""), PUBACK)
                client.disconnect()
            return True
        except (AssertionError, OSError):
            return False

    return comes(are_cleared)


def read_and_clear(size, rounds=1):
    """At the limit, clients that come when none was there before read one topic each, and then one
    clears all. So often the server is filled anew."""
    with Server(places=PLACES, clients=NEW, topics=65_536, environment=settings()) as server:
        # Two for each place. The first thread and the writer's are there, too.
        wait_for_threads(server, 2 * PLACES + 2)
        limit(server, size_of(server, "VmData") + space(size))
        for _ in range(rounds):
            kept = filled(server, size)
            for number in itertools.islice(itertools.cycle(kept), 3 * NEW):
                told = f"new clients could not read a message of {size} bytes"
                wanted(is_read(server, size, number), told)
            wanted(clears(server, kept), f"topics of {size} bytes could not be cleared")


def new_clients_read_and_clear():
    """With messages of each size, once."""
    for size in SPACES:
        read_and_clear(size)


def new_ones_fit():
    """Once a client has cleared topics, new messages of others fit, if threads share their
    memory."""
    for size, clients in itertools.product(SPACES, CLIENTS):
        with full_server(size, clients, settings()) as (server, _, kept):
            with Client(server).connect() as client:
                for number in kept[: len(kept) // 2]:
                    client.ask(publish(topic(number), b""), PUBACK)
                for number in range(len(kept) // 4):
                    client.ask(publish(b"new/%d" % number, payload(number, size)), PUBACK)
                client.disconnect()


def a_silent_reader_holds_up_nobody():
    """At the limit, a client that asks for a message again and again, and reads nothing, holds up
    no other, though it shares its place with some of them."""
    for size in sorted(SPACES)[1:]:
        options = {"places": PLACES, "clients": max(CLIENTS) + 1, "environment": settings()}
        with Server(topics=65_536, **options) as server:
            silent = Client(server, room=4_096).connect()
            clients = [Client(server).connect() for _ in range(max(CLIENTS) - 1)]
            limit(server, size_of(server, "VmData") + space(size))
            number = filled(server, size)[0]
            send_until_stuck(silent, 10 * subscribe(topic(number)))
            for client in clients:
                # What the silent one has not read takes memory, too.
                is_there = comes(lambda: is_answered(client, size, number))
                wanted(is_there, f"a message of {size} bytes could not be read")


def is_answered(client, size, number):
    """Whether a client gets a message, and is not refused."""
    client.send(subscribe(topic(number)))
    answer = client.take_packet()
    if answer != SUBACK:
        wanted(answer == suback(b"\x97"), f"{answer.hex()} came")
        return False
    client.take(replayed(topic(number), payload(number, size)))
    return True


def a_full_writer_clears():
    """A writer alone that has no memory but its reserve refuses messages, and clears all topics."""

    def limited():
        resource.setrlimit(resource.RLIMIT_DATA, (WRITER_SPACE, WRITER_SPACE))

    words = [program("check_tasks"), "reserve"]
    options = {"capture_output": True, "text": True, "timeout": PATIENCE}
    run = subprocess.run(words, preexec_fn=limited, **options)
    wanted(run.returncode == 0 and int(run.stdout) > 0, f"{run.stdout!r}, {run.stderr!r} came")


def size_with_idle(count):
    """The bytes in memory of a server with so many clients that are connected, subscribed and
    silent."""
    with Server(places=PLACES, clients=count) as server:
        clients = [Client(server).connect() for _ in range(count)]
        for client in clients:
            client.ask(subscribe(topic(0)), SUBACK)
        return size_of(server, "VmRSS")


def idle_clients_take_little():
    """What one more client takes that is connected, subscribed and silent."""
    each = (size_with_idle(2 * IDLE) - size_with_idle(IDLE)) // IDLE
    print(f"full_memory: {each} bytes for each of {IDLE} idle clients ({MOST_IDLE} at most)")
    wanted(each <= MOST_IDLE, f"an idle client takes {each} bytes")


CHECKS = (
    nothing_is_lost,
    all_can_be_read,
    new_clients_read_and_clear,
    new_ones_fit,
    a_silent_reader_holds_up_nobody,
    a_full_writer_clears,
    idle_clients_take_little,
)


if __name__ == "__main__":
    run_named(CHECKS)
