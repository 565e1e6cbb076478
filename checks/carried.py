"""Runs `contrib/carry_over.py`, which copies the retained messages of one server to another:
between servers of the program, to mosquitto and back.

What a server holds is read by mosquitto_sub. It and mosquitto are Debian packages.
"""

import socket
import subprocess
import sys
from concurrent.futures import ThreadPoolExecutor
from dataclasses import dataclass
from time import monotonic
from types import SimpleNamespace

from checks.listening_messages import wanted
from harness import debian
from harness.client import Client
from harness.mosquitto import Mosquitto
from harness.packets import acknowledgement, counted, packet, pubrel, varint
from harness.patience import PATIENCE
from harness.program import ROOT
from harness.server import Server
from harness.words import run_named

# What mosquitto_sub prints of a message: topic, QoS, whether it is retained, the payload in hex,
# properties, and what is left of the expiry interval.
FORM = "%t|%q|%r|%x|%F|%C|%R|%D|%P|%E"


@dataclass
class Message:
    topic: str
    payload: bytes
    qos: int
    format: str = ""
    content_type: str = ""
    response_topic: str = ""
    correlation: str = ""
    user: tuple = ()
    expiry: int | None = None

    def section(self):
        """Its properties (3.3.2.3)."""
        texts = ((0x03, self.content_type), (0x08, self.response_topic), (0x09, self.correlation))
        own = b"\x01" + bytes([int(self.format)]) if self.format else b""
        own += b"" if self.expiry is None else b"\x02" + self.expiry.to_bytes(4, "big")
        own += b"".join(bytes([kind]) + counted(text.encode()) for kind, text in texts if text)
        pairs = ((counted(name.encode()), counted(value.encode())) for name, value in self.user)
        return own + b"".join(b"\x26" + name + value for name, value in pairs)

    def exchange(self):
        """What a client sends to publish it, and what it is answered."""
        number = b"\x00\x01" if self.qos else b""
        section = self.section()
        body = counted(self.topic.encode()) + number + varint(len(section)) + section
        sent = packet(0x31 + 2 * self.qos, body + self.payload)
        answers = (b"", acknowledgement(0x40, 1), acknowledgement(0x50, 1))
        if self.qos < 2:
            return sent, answers[self.qos]
        return sent + pubrel(1), answers[2] + acknowledgement(0x70, 1)

    def line(self):
        """What mosquitto_sub prints of it, but for its expiry interval."""
        users = " ".join(f"{name}:{value}" for name, value in self.user)
        texts = (self.format, self.content_type, self.response_topic, self.correlation, users)
        return "|".join((self.topic, str(self.qos), "1", self.payload.hex(), *texts))


def samples(count):
    """So many messages: of each QoS, with each property and without it."""
    for number in range(count):
        has = [number >> bit & 1 for bit in range(6)]
        size = 100_000 if number % 1_000 == 7 else number % 50 + 1
        yield Message(
            topic=f"carried/Zürich/{number % 100}/{number}",
            payload=bytes((number + at) % 256 for at in range(size)),
            qos=number % 3,
            format="1" * has[0],
            content_type="text/plain" * has[1],
            response_topic="answers/東京" * has[2],
            correlation=f"{number}" * has[3],
            user=(("name", f"{number}"), ("a", "1"), ("name", "again")) * has[4],
            expiry=1_000_000 + number if has[5] else None,
        )


def fill(server, messages):
    with Client(server).connect() as client:
        for message in messages:
            client.ask(*message.exchange())
        client.disconnect()


def carry_over(source, target, *filters):
    """The status of the script, what it prints, and what it says of messages that are missed."""
    places = [f"{server.host}:{server.port}" for server in (source, target)]
    words = [sys.executable, "contrib/carry_over.py", *places, *filters]
    options = {"capture_output": True, "text": True, "timeout": PATIENCE, "cwd": ROOT}
    run = subprocess.run(words, **options)
    return run.returncode, run.stdout, run.stderr


def lines_of(server, count):
    """The lines for the messages of a server, of which there are so many."""
    words = ["mosquitto_sub", "-V", "5", "-h", server.host, "-p", str(server.port)]
    words += ["-q", "2", "-t", "#", "-C", str(count), "-F", FORM]
    # mosquitto may send more messages than a lesser one allows, and mosquitto_sub then ends.
    words += ["-D", "connect", "receive-maximum", "65535"]
    run = subprocess.run(words, capture_output=True, text=True, timeout=PATIENCE)
    ended = f"mosquitto_sub: status {run.returncode}, {run.stderr}"
    wanted((run.returncode, run.stderr) == (0, ""), ended)
    return run.stdout.splitlines()


def holds(server, messages, began):
    """The server has these messages and no others, which were first published at this moment or
    later."""
    found = dict(line.rsplit("|", 1) for line in lines_of(server, len(messages)))
    for message in messages:
        expiry = found.pop(message.line(), None)
        wanted(expiry is not None, f"{message.topic} is not there as it was")
        if message.expiry is None:
            wanted(expiry == "", f"{message.topic} has an expiry interval of {expiry}")
            continue
        # Each server counts whole seconds, and four had it at most.
        over = int(monotonic() - began) + 5
        shown = f"{message.topic} has {expiry} seconds left of {message.expiry}"
        wanted(message.expiry - over <= int(expiry) <= message.expiry, shown)
    wanted(not found, f"there is more: {list(found)[:3]}")


def ten_thousand(count=10_000):
    """So many messages are the same after each step: from one server of the program to another, to
    mosquitto, and back."""
    messages, began = list(samples(count)), monotonic()
    with Server() as first, Server() as second, Mosquitto() as other, Server() as last:
        fill(first, messages)
        for source, target in ((first, second), (second, other), (other, last)):
            ended = carry_over(source, target)
            told = (0, f"{count} of {count} messages copied, 0 expired\n", "")
            wanted(ended == told, f"another end: {ended}")
            holds(target, messages, began)


def a_store_that_is_full(few=100):
    """What finds no space is told, at each QoS, and what is there stays."""
    messages = list(samples(few + 30))
    with Server() as source, Server(topics=few) as target:
        fill(source, messages)
        status, printed, errors = carry_over(source, target)
        told = f"{few} of {few + 30} messages copied, 0 expired\n"
        wanted((status, printed) == (1, told), f"status {status}, {printed}")
        why = [line.rsplit(": ", 1)[1] for line in errors.splitlines()]
        causes = set(why) == {"it is not there", "it was refused with 0x97"}
        wanted(len(why) == 30 and causes, errors)
        lines_of(target, few)


def a_packet_that_is_too_large():
    """It is told and not sent, and all others are copied. mosquitto takes longer packets than the
    program."""
    small, large = Message("small", b"x", 1), Message("large", b"x" * 300_000, 2)
    with Mosquitto() as source, Server() as target:
        for message in (small, large):
            words = ["mosquitto_pub", "-V", "5", "-h", source.host, "-p", str(source.port)]
            words += ["-r", "-q", str(message.qos), "-t", message.topic, "-s"]
            subprocess.run(words, input=message.payload, timeout=PATIENCE, check=True)
        status, printed, errors = carry_over(source, target)
        wanted((status, printed) == (1, "1 of 2 messages copied, 0 expired\n"), printed)
        wanted(errors == "large: a packet of 300014 bytes is not taken\n", errors)
        holds(target, [small], monotonic())


def chosen_topics():
    """Only topics that match a filter are copied, and `#` matches none that begins with `$`
    (4.7.2). What the other server has of other topics stays."""
    plain, own, other = (Message(topic, b"x", 1) for topic in ("a/b", "$own/a", "other"))
    for filters, copied in ((), [plain]), (("$own/#",), [own]), (("#", "$own/#"), [plain, own]):
        with Server() as source, Server() as target:
            fill(source, [plain, own])
            fill(target, [other])
            ended = carry_over(source, target, *filters)
            told = (0, f"{len(copied)} of {len(copied)} messages copied, 0 expired\n", "")
            wanted(ended == told, f"another end: {ended}")
            wanted(carry_over(target, source)[0] == 0, "the way back failed")
            holds(source, [plain, other], monotonic())


def a_server_that_is_not_there():
    """Status 2 says that a server cannot be reached, and that it refuses a client."""
    with Server(connections=1) as source, Server() as target:
        Client(source).connect().disconnect()
        source.ended()
        for one, two in (source, target), (target, source):
            status, printed, errors = carry_over(one, two)
            is_told = errors.startswith("carry_over: ") and "refused" in errors
            wanted((status, printed) == (2, "") and is_told, f"status {status}, {errors}")


def a_server_that_ends_inside_a_packet():
    """Status 2 says which server closed the connection."""
    with socket.create_server(("127.0.0.1", 0)) as listener, ThreadPoolExecutor() as threads:
        source = SimpleNamespace(host="127.0.0.1", port=listener.getsockname()[1])
        run = threads.submit(carry_over, source, source)
        client, _ = listener.accept()
        with client:
            client.recv(1_024)
            client.sendall(b"\x20")
        told = f"carry_over: {source.host}:{source.port} closed the connection\n"
        wanted(run.result() == (2, "", told), f"another end: {run.result()}")


CHECKS = (
    ten_thousand,
    a_store_that_is_full,
    a_packet_that_is_too_large,
    chosen_topics,
    a_server_that_is_not_there,
    a_server_that_ends_inside_a_packet,
)


if __name__ == "__main__":
    if debian.has(["mosquitto", "mosquitto-clients"]):
        run_named(CHECKS)
