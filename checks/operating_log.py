"""What `--log` tells of each connection and of a store that is full, and why a server cannot
listen. Part of `checks/operating`."""

import re
import resource
import tempfile
from concurrent.futures import ThreadPoolExecutor
from time import sleep, time

from checks.listening_messages import all_replayed, publish, replayed, wanted
from checks.operating_idle import LARGE, PINGREQ, is_cut_off
from harness.client import Client
from harness.packets import (
    CONNACK,
    CONNECT,
    DISCONNECT,
    NO_SPACE,
    PUBACK,
    counted,
    packet,
    suback,
    subscribe,
    varint,
)
from harness.patience import PATIENCE
from harness.program import preloaded
from harness.server import Server, start
from harness.sessions import WAITING

VISIT = r"([0-9]+) (place|client) ([0-9]+), connection ([0-9]+), ([0-9.]+:[0-9]+)"
LINE = re.compile(rf"\[INFO  rstored\] {VISIT}: (.*)")
COUNTS = r"([0-9]+) packets, ([0-9]+) bytes in, ([0-9]+) bytes out"
END = re.compile(rf"(.*), {COUNTS}(?:, refused (.*))?")
STORE = re.compile(r"\[(WARN|INFO)  rstored\] [0-9]+ (the (?:store|folder|disk|journal) .*)")

# What the log says when the store is full, and when there may be space again.
FULL = ("WARN", "the store is full: a message for a new topic was refused")
SPACE = (
    "INFO",
    "the store may take new topics again: topics were cleared, or their messages expired",
)

# The most clients that a server serves.
MOST_CLIENTS = 10_000

# A CONNECT of MQTT 3.1.1, and the answer.
OLD_CONNECT = bytes.fromhex("100D00044D5154540402003C000161")
OLD_REFUSED = bytes.fromhex("2003008400")


def visits(errors, places=1, clients=1):
    """The connections that the log of a server of so many places and clients tells of: by peer, how
    each ended, its packets and bytes, and what it was refused, if anything.

    Each begins once and ends once, in the order in which its client had them, which count from 1.
    If there are as many clients as places, the log calls each by its place.
    """
    whose = "client" if places < clients else "place"
    current, numbers, told = {}, dict.fromkeys(range(1, clients + 1), 0), {}
    for line in errors.splitlines():
        if STORE.fullmatch(line):
            continue
        found = LINE.fullmatch(line)
        wanted(found, f"a line of the log is {line!r}")
        moment, client, number = map(int, found.group(1, 3, 4))
        peer, what = found.group(5, 6)
        wanted(abs(moment - time()) < PATIENCE, f"{line!r} has another time")
        wanted(found[2] == whose and client in numbers, f"{line!r} tells of nobody")
        if what == "connected":
            is_next = client not in current and number == numbers[client] + 1
            wanted(is_next, f"{line!r} comes too early")
            current[client], numbers[client] = peer, number
            continue
        end = END.fullmatch(what)
        is_current = end and current.pop(client, None) == peer and number == numbers[client]
        wanted(is_current, f"{line!r} ends another connection")
        wanted(peer not in told, f"{line!r} ends a connection again")
        told[peer] = (end[1], *map(int, end.group(2, 3, 4)), *filter(None, [end[5]]))
    wanted(not current, "a connection did not end")
    return told


def name_of(client):
    host, port = client.socket.getsockname()
    return f"{host}:{port}"


def half_close(client):
    client.half_close()
    client.take_end()


# What a client sends, what it is answered, how it then ends, what the log says of that, and how
# many packets came.
ENDS = (
    (
        CONNECT + publish(b"t", b"x") + DISCONNECT,
        CONNACK + PUBACK,
        Client.take_end,
        "client disconnected",
        3,
    ),
    (CONNECT, CONNACK, half_close, "end of input", 1),
    (CONNECT + PINGREQ[:1], CONNACK, half_close, "input cut inside a packet", 1),
    (OLD_CONNECT, OLD_REFUSED, Client.take_end, "closed by the server with 0x84", 1),
    (PINGREQ, b"", Client.take_end, "closed by the server without a reply", 1),
    (CONNECT, CONNACK, Client.take_end, "the read failed or was idle", 1),
    (CONNECT, CONNACK, Client.reset, "the read failed or was idle", 1),
    (
        CONNECT + b"".join(publish(b"l/%03d" % number, LARGE) for number in range(100)),
        CONNACK + PUBACK * 100,
        half_close,
        "end of input",
        101,
    ),
)


def each_end():
    """The log says of each connection how it ended, with its packets and bytes, also with more
    clients than places."""
    for clients in (1, 3):
        ends_of(clients)


def ends_of(clients):
    """One place of so many clients has a connection of each end."""
    count, expected, filters = len(ENDS) + 1, {}, subscribe([b"l/#"])
    options = {"places": 1, "clients": clients, "connections": count}
    with Server(idle=1, log=True, **options) as server:
        for sent, answer, end, ending, packets in ENDS:
            with Client(server) as client:
                client.ask(sent, answer)
                expected[name_of(client)] = (ending, packets, len(sent), len(answer))
                end(client)
        # The last one never reads what waits for it.
        with Client(server, room=4096).connect() as client:
            stuck = name_of(client)
            client.send(filters)
            status, printed, errors = server.ended()
    wanted((status, printed) == (0, f"rstored: served {count}\n"), "another end")
    told = visits(errors, 1, clients)
    for peer, end in expected.items():
        wanted(told.get(peer) == end, f"the log has {told.get(peer)} in the place of {end}")
    ending, packets, read, written = told[stuck]
    is_right = (packets, read) == (2, len(CONNECT + filters)) and written < 100 * len(LARGE)
    is_right = is_right and ending == "the write failed or was idle"
    wanted(is_right, f"a client that never reads ended as {told[stuck]}")


def a_late_write():
    """What waits for a client that never reads is written before the next read. If it cannot be,
    the log says that a write failed, and no read."""
    # No read of the server has a whole packet, so no reply is written out before a read.
    padding = b"\x26" + counted(b"") + counted(b"x" * 8_192)
    section = varint(len(padding)) + padding
    filters = packet(0x82, b"\x00\x01" + section + counted(b"w") + b"\x00")
    with Server(places=1, connections=2, idle=1, log=True) as server:
        with Client(server).connect() as client:
            client.ask(publish(b"w", b"x" * 60_000), PUBACK)
            client.disconnect()
        with Client(server, room=4096).connect() as client:
            stuck = name_of(client)
            client.send(filters * 100)
            status, _, errors = server.ended()
    wanted(status == 0, "another end")
    began, ended = (int(line.split()[2]) for line in errors.splitlines()[-2:])
    wanted(began < ended, f"it began at {began} and ended at {ended}")
    ending, _, _, written = visits(errors)[stuck]
    is_right = ending == "the write failed or was idle" and written < 100 * 60_000
    wanted(is_right, f"a client that never reads ended as {ending} after {written} bytes")


def of_the_store(errors):
    """What a log says of the store, line by line."""
    lines = (STORE.fullmatch(line) for line in errors.splitlines())
    return [line.groups() for line in lines if line]


def refused(errors):
    """What a log says that each connection was refused, by peer, or None."""
    lines = (LINE.fullmatch(line) for line in errors.splitlines())
    ends = ((line[5], END.fullmatch(line[6])) for line in lines if line)
    return {peer: end[5] for peer, end in ends if end}


def a_full_store():
    """Of a store of two topics: the log says once that it is full, however much it refuses, and
    once that a topic was cleared. Of each connection it says what it was refused, if anything."""
    first, second, third, fourth = (publish(b"s/%d" % number, b"x") for number in range(4))
    untold, cleared = replayed(b"s/4", b"x"), publish(b"s/0", b"")
    filled = first + second + third + untold * 3 + fourth + first
    for clients in (1, 3):
        expected, log = {}, {"places": 1, "clients": clients, "connections": 5, "log": True}
        with Server(topics=2, **log) as server:
            for sent, answer, what, is_later in (
                (filled, PUBACK * 2 + NO_SPACE * 2 + PUBACK, "5 publications (store full)", False),
                (first + second, PUBACK * 2, None, True),
                (cleared, PUBACK, None, False),
                (third, PUBACK, None, True),
                (untold, b"", "1 publications (store full)", False),
            ):
                with Client(server).connect() as client:
                    expected[name_of(client)] = what
                    client.ask(sent, answer)
                    client.disconnect()
                # It tells of the store at most once a second.
                sleep(1.1 if is_later else 0)
            _, _, errors = server.ended()
        wanted(refused(errors) == expected, f"with {clients} clients the log is {errors!r}")
        wanted(of_the_store(errors) == [FULL, SPACE, FULL], f"of the store the log says {errors!r}")


def a_long_answer(count=WAITING // 2 + 1):
    """A filter whose answer is longer than what may wait is told as refused."""
    stored = all_replayed(count, b"x")
    with Server(places=1, topics=count, connections=1, log=True) as server:
        with Client(server).connect() as client:
            peer = name_of(client)
            client.ask(stored + subscribe([b"#", b"t/#"]), suback(b"\x00\x97") + stored)
            client.disconnect()
        _, _, errors = server.ended()
    told = visits(errors)[peer]
    wanted(told[1] == count + 3, f"{told[1]} packets came")
    wanted(told[4:] == ("1 filters (too many messages)",), f"a long answer is told as {told}")


def refused_memory():
    """A connection that ends because memory was refused is told so."""
    with tempfile.TemporaryDirectory() as folder:
        library = preloaded("failing_malloc", folder)
        is_shown = any(ends_out_of_memory(library, at) for at in range(1, 2_000))
        wanted(is_shown, "no connection ended out of memory")


def ends_out_of_memory(library, at):
    """Whether a connection ends so if the allocation of this number fails."""
    refusal = {"FAIL_AT": str(at), "FAIL_COUNT": "1", "FAIL_TELL": "1000"}
    environment = {"LD_PRELOAD": library, **refusal}
    try:
        with Server(environment=environment, places=1, connections=1, log=True) as server:
            with Client(server) as client:
                client.send(CONNECT + publish(b"t", b"x") + DISCONNECT)
                is_cut_off(client)
            return ": out of memory, " in server.ended()[2]
    except (RuntimeError, ConnectionError):
        # Memory was refused before the connection was served.
        return False


def sixty_four_at_once(rounds=5, clients=64):
    """Of 64 clients that connect and leave all the time, each at a place of its own or four at
    each place, every line is whole, and each connection is told."""

    def come_and_go(server):
        peers = []
        for _ in range(rounds):
            with Client(server).connect() as client:
                peers.append(name_of(client))
                client.disconnect()
        return peers

    for places in (clients, clients // 4):
        options = {"places": places, "clients": clients, "connections": clients * rounds}
        with Server(log=True, **options) as server, ThreadPoolExecutor(clients + 1) as threads:
            # The log is read meanwhile: a full pipe would hold up the places.
            ended = threads.submit(server.ended)
            peers = sum(threads.map(come_and_go, clients * [server]), [])
            status, printed, errors = ended.result()
        wanted((status, printed) == (0, f"rstored: served {clients * rounds}\n"), "another end")
        end = ("client disconnected", 2, len(CONNECT + DISCONNECT), len(CONNACK))
        told = visits(errors, places, clients)
        wanted(told == dict.fromkeys(peers, end), "the log tells of other connections")


def few_descriptors(limit=20):
    """The log says at the start if the process may have fewer descriptors than its clients need:
    one each, and four more; and with more clients than places one for each place, and one more.
    Then as many as there are descriptors for are served at the same time, and the end says how many
    they were."""
    inside = ("sh", "-c", f'ulimit -n {limit}; exec "$@"', "sh")
    for places, clients, others in (
        (limit - 4, limit - 4, 4),
        (limit - 3, limit - 3, 4),
        (1, limit - 6, 6),
        (1, limit - 5, 6),
        (3, limit - 8, 8),
        (3, limit + 10, 8),
    ):
        together = min(clients, limit - others)
        options = {"places": places, "clients": clients, "connections": together}
        with Server(inside=inside, log=True, **options) as server:
            for client in [Client(server).connect() for _ in range(together)]:
                client.disconnect()
            status, _, errors = server.ended()
        need = f"{clients} clients need {clients + others} descriptors"
        first = f"[WARN  rstored] {need}, and the process may have {limit}\n"
        last = f"rstored: {together} of {clients} clients could be served at the same time\n"
        is_told, is_fewer = together < clients, places < clients and together < clients
        told = (errors.startswith(first), errors.endswith(last), status)
        is_right = told == (is_told, is_fewer, int(is_fewer))
        wanted(is_right, f"{clients} clients at {places} places end with {status}, {errors!r}")


def few_may_wait():
    """The log says at the start if the system lets fewer connections wait than clients are
    served."""
    with open("/proc/sys/net/core/somaxconn") as file:
        most = int(file.read())
    inside = ("sh", "-c", 'ulimit -n "$(ulimit -Hn)"; exec "$@"', "sh")
    others, limit = 6, resource.getrlimit(resource.RLIMIT_NOFILE)[1]
    for clients in (2, most, most + 1):
        if clients > MOST_CLIENTS or clients + others > limit:
            continue
        with Server(inside=inside, log=True, places=1, clients=clients, connections=1) as server:
            Client(server).connect().disconnect()
            _, _, errors = server.ended()
        warning = f"{clients} clients may connect at once, and net.core.somaxconn lets {most} wait"
        is_told = errors.startswith(f"[WARN  rstored] {warning}\n")
        wanted(is_told == (most < clients), f"{clients} clients, {most} may wait: {errors!r}")


def no_log():
    """A log that cannot be written harms no connection. Without `--log`, standard error is
    empty."""
    for errors in ("closed pipe", "full disk", "closed", None):
        options = {} if errors is None else {"log": True}
        with Server(places=1, connections=3, errors=errors, **options) as server:
            for _ in range(3):
                Client(server).connect().disconnect()
            wanted(server.ended() == (0, "rstored: served 3\n", ""), f"another end: {errors}")


def cannot_listen():
    """With `--log` a second line says why. Without it there is none."""
    with Server() as server, tempfile.TemporaryDirectory() as folder:
        no_thread = {"LD_PRELOAD": preloaded("few_threads", folder), "THREADS": "0"}
        used = f"{server.host}:{server.port}"
        told = ("--metrics", used)
        no_metrics = "the address for metrics cannot be listened on: Address already in use"
        for address, more, environment, reason in (
            (used, (), {}, "Address already in use"),
            ("127.0.0.1", (), {}, "invalid socket address"),
            ("192.0.2.1:0", (), {}, "Cannot assign requested address"),
            ("127.0.0.1:0", (), no_thread, "no thread can be started"),
            ("127.0.0.1:0", told, {}, no_metrics),
        ):
            for words in (more, (*more, "--log")):
                run = start(address, "--connections", "1", *words, environment=environment)
                _, errors = run.communicate(timeout=PATIENCE)
                first, *shown = errors.splitlines()
                wanted((run.returncode, first) == (1, "rstored: cannot listen"), errors)
                is_told = len(shown) == 1 and shown[0].startswith("rstored: ")
                is_told = is_told and reason in shown[0]
                wanted(is_told if "--log" in words else not shown, errors)
