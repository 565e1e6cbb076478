"""More clients than places: a few threads serve them. Part of `checks/listening`."""

import contextlib

from checks.listening_messages import all_replayed, publish, replayed, subscribe, topic, wanted
from harness import packets
from harness.client import Client
from harness.packets import CONNACK, CONNECT, PUBACK, SUBACK, suback
from harness.server import Server

# A CONNECT without an identifier, and the properties that every CONNACK has.
NAMELESS = bytes.fromhex("100D00044D5154540502003C000000")
LIMITS = CONNACK[5:]


def given_identifier(client):
    """Connects a client that has no identifier. The one that it is given."""
    client.send(NAMELESS)
    packet = client.take_packet()
    identifier = packet[8 : -len(LIMITS)]
    section = b"\x12" + packets.counted(identifier) + LIMITS
    connack = packets.packet(0x20, b"\x00\x00" + packets.varint(len(section)) + section)
    wanted(identifier and packet == connack, f"{packet.hex()} came, and no CONNACK")
    return identifier


def publish_and_read(clients, payload):
    """Each publishes at the same time as the others, and then reads its own message and that of the
    next one."""
    for number, client in enumerate(clients):
        client.send(publish(topic(number), payload))
    for client in clients:
        client.take(PUBACK)
    pairs = [(topic(at), topic((at + 1) % len(clients))) for at in range(len(clients))]
    for client, pair in zip(clients, pairs):
        client.send(subscribe(*pair))
    for client, pair in zip(clients, pairs):
        client.take(suback(b"\x00\x00") + b"".join(replayed(name, payload) for name in pair))


def many_clients(count=300, rounds=5):
    """Clients that share four places are connected at the same time, publish and read. Nothing is
    lost, and each is given the identifier of its line's first connection."""
    with Server(places=4, clients=count, connections=count + 1) as server:
        clients = [Client(server) for _ in range(count)]
        identifiers = {given_identifier(client) for client in clients}
        lines = {b"rs%d-1" % number for number in range(1, count + 1)}
        wanted(identifiers == lines, "another identifier was given")
        for turn in range(rounds):
            publish_and_read(clients, b"%d" % turn)
        for client in clients:
            client.disconnect()
        with Client(server).connect() as reader:
            reader.ask(subscribe(b"#"), SUBACK + all_replayed(count, b"%d" % (rounds - 1)))
            reader.disconnect()
        wanted(server.ended() == (0, f"rstored: served {count + 1}\n", ""), "another end")


def one_place_for_all(topics=6_000, rounds=100):
    """With one place a client that reads nothing of 6 MB, one that takes no acknowledgement of 64
    publications, and one that goes on sending and takes none, hold up no other."""
    payload, burst = b"x" * 1_000, 64
    with Server(places=1, clients=8, topics=topics + 8) as server:
        with Client(server).connect() as client:
            for first in range(0, topics, 1_000):
                numbers = range(first, first + 1_000)
                sent = b"".join(publish(b"kept/%05d" % number, payload) for number in numbers)
                client.ask(sent, 1_000 * PUBACK)
            client.disconnect()
        reader, publisher, flood = (Client(server, room=1 << 16) for _ in range(3))
        reader.ask(CONNECT + subscribe(b"kept/#"), CONNACK + SUBACK)
        publisher.connect().send(burst * publish(b"burst", b"x"))
        send_until_stuck(flood.connect(), 1_000 * publish(b"flood", b"x"))
        clients = [Client(server).connect() for _ in range(5)]
        for turn in range(rounds):
            publish_and_read(clients, b"%d" % turn)
        publisher.take(burst * PUBACK)
        kept = [replayed(b"kept/%05d" % number, payload) for number in range(topics)]
        reader.take(b"".join(kept))
        flood.reset()
        for client in [*clients, reader, publisher]:
            client.disconnect()


def many_that_read_nothing(count=40, topics=1_000):
    """One client after the other, of two places, reads nothing of 6 MB. Those that share the places
    with them publish and read as ever. Half of the others read in the end, and all is there."""
    payload = b"x" * 6_000
    kept = [b"kept/%05d" % number for number in range(topics)]
    with Server(places=2, clients=count + 6, topics=topics + 5) as server:
        clients = [Client(server).connect() for _ in range(5)]
        for name in kept:
            clients[0].ask(publish(name, payload), PUBACK)
        silent = []
        for number in range(count):
            silent.append(Client(server, room=1 << 12))
            silent[-1].ask(CONNECT + subscribe(b"kept/#"), CONNACK + SUBACK)
            publish_and_read(clients, b"%d" % number)
        for client in silent[::2]:
            client.reset()
        for client in silent[1::2]:
            client.take(b"".join(replayed(name, payload) for name in kept))
            client.disconnect()
        publish_and_read(clients, b"last")
        for client in clients:
            client.disconnect()


def send_until_stuck(client, data, most=2_000):
    """Sends this again and again, until nothing more is taken for half a second, since the server
    waits for room for its acknowledgements. On a slow machine that may be earlier."""
    client.socket.settimeout(0.5)
    with contextlib.suppress(TimeoutError):
        for _ in range(most):
            client.send(data)


def silent_connections(counts=(64, 300), working=100):
    """Others publish and read beside so many clients of which some never say anything, and some
    only connect."""
    with Server(places=4, clients=400) as server:
        silent = []
        for count in counts:
            while len(silent) < count:
                silent += [Client(server), Client(server).connect()]
            clients = [Client(server).connect() for _ in range(working)]
            publish_and_read(clients, b"%d" % count)
            for client in clients:
                client.disconnect()
