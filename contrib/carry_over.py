#!/usr/bin/env python3
"""Copies the retained messages of one MQTT 5 server to another.

    carry_over.py FROM TO [FILTER ..]

FROM and TO are HOST:PORT. Without a FILTER it takes all topics but those that begin with `$`, which
`#` does not match (4.7.2). Each message keeps its topic, payload, QoS and properties, and what is
left of its expiry interval. What TO holds of other topics stays. At the end the script reads TO
and compares.

It prints how many messages are there, and to standard error a line for each that is not, with the
reason. Status 0: all are there. Status 1: some are not. Status 2: the command line is wrong, or a
server could not be reached, refused the client or ended the connection.

A server has to answer a PINGREQ after the messages that it can send before, as rstored and
mosquitto do. Numbers such as 4.7.2 are sections of OASIS MQTT Version 5.0.
"""

import socket
import sys
from dataclasses import dataclass
from time import monotonic

# After so many seconds without a byte a server is given up.
SILENCE = 300
# So many publications are unacknowledged at most, however many the server takes.
IN_FLIGHT = 1_000

# The types of packets (2.1.2).
CONNECT, CONNACK, PUBLISH, PUBACK, PUBREC, PUBREL, PUBCOMP, SUBSCRIBE, SUBACK = range(1, 10)
PINGREQ, PINGRESP, DISCONNECT = range(12, 15)

# Properties (2.2.2.2), and how many bytes the value of one has. Those that are not here have two
# bytes of length before them.
EXPIRY, SUBSCRIPTION, USER = 0x02, 0x0B, 0x26
RECEIVE_MAXIMUM, MAXIMUM_QOS, RETAIN_AVAILABLE, LARGEST_PACKET = 0x21, 0x24, 0x25, 0x27
BYTES = {
    **dict.fromkeys((0x01, 0x24, 0x25, 0x28, 0x29, 0x2A), 1),
    **dict.fromkeys((0x13, 0x21, 0x22, 0x23), 2),
    **dict.fromkeys((0x02, 0x11, 0x27), 4),
}

# QoS 2 at most, and retained messages that come later are marked as such (3.8.3.1).
OPTIONS = b"\x0A"


class Failure(Exception):
    """A server that cannot be gone on with."""


def varint(number):
    number, digit = divmod(number, 128)
    return bytes([digit + 128]) + varint(number) if number else bytes([digit])


def counted(data):
    return len(data).to_bytes(2, "big") + data


def packet(kind, body=b"", flags=0):
    return bytes([kind << 4 | flags]) + varint(len(body)) + body


def take_varint(data):
    """The number, and what is behind it."""
    size = next(at for at, digit in enumerate(data, 1) if digit < 128)
    number = sum((digit & 127) << (7 * at) for at, digit in enumerate(data[:size]))
    return number, data[size:]


def take_counted(data):
    size = 2 + int.from_bytes(data[:2], "big")
    return data[2:size], data[size:]


def value_size(identifier, data):
    """How many bytes the value of a property has."""
    if identifier == SUBSCRIPTION:
        return len(data) - len(take_varint(data)[1])
    if identifier == USER:
        return len(data) - len(take_counted(take_counted(data)[1])[1])
    return BYTES.get(identifier) or 2 + int.from_bytes(data[:2], "big")


def take_properties(data):
    """The properties as pairs of identifier and value, and what is behind them."""
    size, data = take_varint(data)
    own, rest, found = data[:size], data[size:], []
    while own:
        end = 1 + value_size(own[0], own[1:])
        found.append((own[0], own[1:end]))
        own = own[end:]
    return found, rest


@dataclass
class Message:
    """A retained message, with its properties but for its expiry interval, in seconds from the
    moment it came."""

    topic: bytes
    payload: bytes
    qos: int
    properties: list
    expiry: int | None
    came: float

    @staticmethod
    def read(flags, body):
        """The message of a PUBLISH (3.3), and its packet identifier."""
        qos = flags >> 1 & 3
        topic, rest = take_counted(body)
        number, rest = (rest[:2], rest[2:]) if qos else (b"", rest)
        found, payload = take_properties(rest)
        expiry = dict(found).get(EXPIRY)
        seconds = None if expiry is None else int.from_bytes(expiry, "big")
        # Only the order of user properties means something (3.3.2.3.7).
        others = [it for it in found if it[0] not in (EXPIRY, SUBSCRIPTION)]
        others.sort(key=lambda pair: pair[0])
        return Message(topic, payload, qos, others, seconds, monotonic()), number

    def left(self):
        """What is left of the expiry interval."""
        return self.expiry - int(monotonic() - self.came)

    def is_over(self, most=0):
        """Whether it has expired, or no more seconds than these are left."""
        return self.expiry is not None and self.left() <= most

    def publish(self, identifier):
        """The retained PUBLISH."""
        own = b"".join(bytes([kind]) + value for kind, value in self.properties)
        if self.expiry is not None:
            own += bytes([EXPIRY]) + self.left().to_bytes(4, "big")
        number = identifier.to_bytes(2, "big") if self.qos else b""
        body = counted(self.topic) + number + varint(len(own)) + own + self.payload
        return packet(PUBLISH, body, self.qos << 1 | 1)

    def is_like(self, other):
        """Whether the other message is this one. How long it lasts is not compared."""
        mine, others = (
            (it.payload, it.qos, it.properties, it.expiry is None) for it in (self, other)
        )
        return mine == others


class Server:
    """A connection to a server."""

    def __init__(self, address):
        self.address = address
        host, _, port = address.rpartition(":")
        if not host or not port.isdecimal():
            raise Failure(f"{address} is not HOST:PORT")
        try:
            self.socket = socket.create_connection((host.strip("[]"), int(port)), SILENCE)
        except OSError as error:
            raise Failure(f"{address}: {error}") from error
        self.socket.setsockopt(socket.IPPROTO_TCP, socket.TCP_NODELAY, 1)
        self.reader = self.socket.makefile("rb")
        # A clean start, no Keep Alive, no property, and an identifier that the server chooses.
        self.send(packet(CONNECT, counted(b"MQTT") + b"\x05\x02\x00\x00\x00" + counted(b"")))
        what, _, body = self.take()
        if what != CONNACK or body[1] != 0:
            raise Failure(f"{address} refused the client with 0x{body[1]:02x}")
        found, _ = take_properties(body[2:])
        self.limits = {name: int.from_bytes(value, "big") for name, value in found}

    def send(self, data):
        self.socket.sendall(data)

    def receive(self, size):
        data = self.reader.read(size)
        if len(data) < size:
            raise Failure(f"{self.address} closed the connection")
        return data

    def take(self):
        """The next packet: its type, its flags, and what follows its length."""
        (first,) = self.receive(1)
        length, shift, digit = 0, 0, 128
        while digit >= 128:
            (digit,) = self.receive(1)
            length |= (digit & 127) << shift
            shift += 7
        body = self.receive(length)
        if first >> 4 == DISCONNECT:
            code = f" with 0x{body[0]:02x}" if body else ""
            raise Failure(f"{self.address} ended the connection{code}")
        return first >> 4, first & 15, body

    def read(self, filters):
        """The retained messages that match a filter, by topic.

        Nothing tells the last one. Once all that came is acknowledged and a PINGREQ is answered
        by nothing but its PINGRESP, all have come.
        """
        texts = b"".join(counted(text.encode()) + OPTIONS for text in filters)
        self.send(packet(SUBSCRIBE, b"\x00\x01\x00" + texts, 2) + packet(PINGREQ))
        found, has_come = {}, False
        while True:
            what, flags, body = self.take()
            if what == PINGRESP:
                if not has_come:
                    return found
                has_come = False
                self.send(packet(PINGREQ))
            elif what == PUBLISH:
                has_come = True
                self.keep(found, flags, body)
            elif what == PUBREL:
                has_come = True
                self.send(packet(PUBCOMP, body[:2]))
            elif what == SUBACK:
                has_come = True
                _, codes = take_properties(body[2:])
                if any(code >= 0x80 for code in codes):
                    raise Failure(f"{self.address} refused a filter with 0x{max(codes):02x}")

    def keep(self, found, flags, body):
        """Keeps a message if it is retained, and acknowledges it."""
        message, number = Message.read(flags, body)
        if message.qos:
            self.send(packet(PUBACK if message.qos == 1 else PUBREC, number))
        if flags & 1:
            found[message.topic] = message
            if not message.payload:
                del found[message.topic]

    def write(self, messages):
        """Publishes the messages: by topic, why some were not taken. Nothing tells whether one of
        QoS 0 was."""
        refused, sent = {}, {}
        quota = min(IN_FLIGHT, self.limits.get(RECEIVE_MAXIMUM, IN_FLIGHT))
        free = set(range(1, quota + 1))
        for message in messages:
            if message.is_over():
                continue
            if not free:
                free.add(self.acknowledged(sent, refused))
            identifier = free.pop()
            data = message.publish(identifier)
            why = self.limit(message, len(data))
            if why:
                refused[message.topic] = why
            else:
                self.send(data)
            if why or not message.qos:
                free.add(identifier)
            else:
                sent[identifier] = message.topic
        while sent:
            self.acknowledged(sent, refused)
        return refused

    def limit(self, message, size):
        """Which limit of the server a message exceeds, if it does one."""
        if not self.limits.get(RETAIN_AVAILABLE, 1):
            return "the server keeps no retained messages"
        if message.qos > self.limits.get(MAXIMUM_QOS, 2):
            return f"QoS {message.qos} is not served"
        if size > self.limits.get(LARGEST_PACKET, size):
            return f"a packet of {size} bytes is not taken"
        return None

    def acknowledged(self, sent, refused):
        """Waits until a publication is done, and gives its identifier back."""
        while True:
            what, _, body = self.take()
            identifier, code = int.from_bytes(body[:2], "big"), body[2] if len(body) > 2 else 0
            if what == PUBREC and code < 0x80:
                self.send(packet(PUBREL, body[:2], 2))
            elif what in (PUBACK, PUBREC, PUBCOMP):
                topic = sent.pop(identifier)
                if code >= 0x80:
                    refused[topic] = f"it was refused with 0x{code:02x}"
                return identifier

    def close(self):
        self.send(packet(DISCONNECT))
        self.reader.close()
        self.socket.close()


def missed(messages, refused, there):
    """The messages that are not at the other server, by topic, with the reason. One that has
    expired is None. The clocks of the servers count whole seconds, so one may expire a second
    early."""
    found = {}
    for topic, message in messages.items():
        other = there.get(topic)
        if topic in refused:
            found[topic] = refused[topic]
        elif other is None:
            found[topic] = None if message.is_over(1) else "it is not there"
        elif not message.is_like(other):
            found[topic] = "another message is there"
    return found


def carry_over(source, target, filters):
    """Copies the messages, and says whether all are there."""
    first = Server(source)
    messages = first.read(filters)
    first.close()
    second = Server(target)
    refused = second.write(messages.values())
    there = second.read(filters)
    second.close()
    found = missed(messages, refused, there)
    expired = list(found.values()).count(None)
    for topic, why in found.items():
        if why is not None:
            print(f"{topic.decode()}: {why}", file=sys.stderr)
    print(f"{len(messages) - len(found)} of {len(messages)} messages copied, {expired} expired")
    return len(found) == expired


def main():
    if len(sys.argv) < 3:
        print(__doc__, file=sys.stderr)
        sys.exit(2)
    try:
        is_whole = carry_over(sys.argv[1], sys.argv[2], sys.argv[3:] or ["#"])
    except (Failure, OSError, ValueError) as error:
        print(f"carry_over: {error}", file=sys.stderr)
        sys.exit(2)
    sys.exit(0 if is_whole else 1)


if __name__ == "__main__":
    main()
