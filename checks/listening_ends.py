"""Clients that end, or do not read, or send, as no good client does. Part of `checks/listening`."""

from concurrent.futures import ThreadPoolExecutor
from time import monotonic, sleep

from checks.exchange import long_exchange, replies
from checks.listening_messages import all_replayed, publish, replayed, subscribe, topic, wanted
from harness.client import Client
from harness.packets import CONNACK, CONNECT, DISCONNECT, PUBACK, SUBACK, suback
from harness.server import Server

# The bytes of a whole CONNACK.
WHOLE = len(CONNACK)

# What a client has sent when it ends, after what it has read.
PHASES = {
    "nothing": (b"", 0),
    "a part of CONNECT": (CONNECT[:9], 0),
    "a CONNECT whose CONNACK it does not read": (CONNECT, 0),
    "a CONNECT": (CONNECT, WHOLE),
    "a part of PUBLISH": (CONNECT + publish(b"end/part", b"x")[:-1], WHOLE),
    "a PUBLISH whose PUBACK it does not read": (CONNECT + publish(b"end/whole", b"x"), WHOLE),
    "a PUBLISH of QoS 2 that it does not release": (
        CONNECT + bytes.fromhex("3507000161000500 31"),
        WHOLE + 4,
    ),
    "a SUBSCRIBE whose messages it does not read": (CONNECT + subscribe(b"t/#"), WHOLE),
    "a SUBSCRIBE of whose messages it reads some": (CONNECT + subscribe(b"t/#"), WHOLE + 70_000),
    "a fault": (CONNECT + b"\x00\x00", WHOLE),
    "a DISCONNECT": (CONNECT + DISCONNECT, WHOLE),
}
ENDS = {"reset": Client.reset, "close": Client.close, "half close": Client.half_close}


def abrupt_ends(count=5_000):
    """Whatever a client has sent when it goes, its place serves the next one, a client that stays
    is served as ever, and nothing is lost."""
    payload = b"x" * 1_000
    with Server(places=2) as server, Client(server).connect() as staying:
        for number in range(count):
            staying.ask(publish(topic(number), payload), PUBACK)
        for phase, (sent, taken) in PHASES.items():
            own = phase.encode()
            for way, end in ENDS.items():
                try:
                    leave(server, sent, taken, end)
                    with Client(server).connect() as client:
                        client.ask(subscribe(topic(0)), SUBACK + replayed(topic(0), payload))
                        client.disconnect()
                    staying.ask(publish(b"staying", own), PUBACK)
                    staying.ask(subscribe(b"staying"), SUBACK + replayed(b"staying", own))
                except (AssertionError, OSError) as error:
                    raise AssertionError(f"{way} after {phase}: {error}") from error
        staying.ask(subscribe(b"t/#"), SUBACK + all_replayed(count, payload))
        staying.ask(subscribe(b"end/#"), SUBACK + replayed(b"end/whole", b"x"))


def leave(server, sent, taken, end):
    """A client sends this, reads so many bytes and goes. After a half close it reads to the end."""
    client = Client(server)
    client.send(sent)
    wanted(len(client.reader.read(taken)) == taken, "too little came")
    end(client)
    if end is Client.half_close:
        client.reader.read()
        client.close()


def a_client_that_never_reads(topics=50_000):
    """As many messages as may, 100,000, wait for each of three clients that read nothing more.
    Others publish and read as ever. When two of the three read at last, all is there."""
    payload = b"x" * 64
    with Server(places=4, topics=topics + 2) as server:
        with Client(server).connect() as client:
            for first in range(0, topics, 1_000):
                numbers = range(first, first + 1_000)
                sent = b"".join(publish(topic(number), payload) for number in numbers)
                client.ask(sent, 1_000 * PUBACK)
            client.disconnect()
        silent = [Client(server, room=4_096) for _ in range(3)]
        for client in silent:
            client.ask(CONNECT + subscribe(b"t/#", b"t/#"), CONNACK + suback(b"\x00\x00"))
        with Client(server).connect() as client:
            for number in range(1_000):
                client.ask(publish(b"other", b"%d" % number), PUBACK)
            client.ask(subscribe(b"other"), SUBACK + replayed(b"other", b"999"))
            client.disconnect()
        for number in range(100):
            own = b"%d" % number
            with Client(server).connect() as client:
                client.ask(publish(b"again", own), PUBACK)
                client.ask(subscribe(b"again"), SUBACK + replayed(b"again", own))
                client.disconnect()
        silent.pop().reset()
        for client in silent:
            client.take(2 * all_replayed(topics, payload))
            client.disconnect()
        clients = [Client(server).connect() for _ in range(4)]
        for client in clients:
            client.disconnect()


def half_closed(count=5_000):
    """A client that sends no more is answered whole."""
    payload = b"x" * 1_000
    with Server() as server:
        sent = b"".join(publish(topic(number), payload) for number in range(count))
        with Client(server) as client, ThreadPoolExecutor(1) as threads:

            def send():
                client.send(CONNECT + sent + subscribe(b"#"))
                client.half_close()

            sender = threads.submit(send)
            client.take(CONNACK + count * PUBACK + SUBACK + all_replayed(count, payload))
            client.take_end()
            sender.result()


def byte_by_byte():
    """A client that sends one byte at a time is answered as any other, and holds up none."""
    steps = long_exchange()
    with Server(places=2) as server, Client(server) as staying, Client(server) as client:
        staying.connect()
        for number, byte in enumerate(b"".join(step.sent for step in steps)):
            client.send(bytes([byte]))
            staying.ask(publish(b"$staying", b"%d" % number), PUBACK)
        client.take(replies(steps))
        client.take_end()


# A CONNECT with a will, which is refused (3.1.2.5), and a second CONNECT (3.1), and how they are
# answered.
WILL = bytes.fromhex("1015 0004 4D515454 0506 003C 00 0001 61 00 0001 77 0001 78")
REFUSALS = {
    "a will": (WILL, bytes.fromhex("2003008300")),
    "a second CONNECT": (2 * CONNECT, CONNACK + bytes.fromhex("E00182")),
}
# What a client still sends once it was refused, 960 KiB in all: in pieces, with a pause before
# each, so that a server that closes the connection and discards nothing breaks the sending.
PIECES, PIECE, PAUSE = 15, bytes(1 << 16), 0.005


def refused_early(tries=10, most=100):
    """A client that was refused while it goes on sending can send all, and then reads why.

    The server discards what comes for about a second, so that on a busy machine a client may be
    too late. One that failed after half a second or more tells nothing, and another is tried; of
    ten that tell, half have to read it.
    """
    with Server(places=1) as server:
        for what, (sent, answer) in REFUSALS.items():
            told = []
            for _ in range(most):
                has_read, seconds = reads_why(server, sent, answer)
                if has_read or seconds < 0.5:
                    told.append(has_read)
                if len(told) == tries:
                    break
            shown = f"{what}: {sum(told)} of {len(told)} clients read the code"
            wanted(told and 2 * sum(told) >= len(told), shown)


def reads_why(server, sent, answer):
    """Whether a client sent all and read the answer and the end, and the seconds that it took."""
    began = monotonic()
    with Client(server) as client:
        try:
            client.send(sent)
            for _ in range(PIECES):
                sleep(PAUSE)
                client.send(PIECE)
            client.take(answer)
            client.take_end()
        except OSError:
            return False, monotonic() - began
        return True, monotonic() - began
