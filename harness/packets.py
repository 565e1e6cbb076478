"""Packets as bytes (OASIS MQTT Version 5.0, section 3), each retained where it can be."""

# What a client and the server say first, and what a client says last.
CONNECT = bytes.fromhex("100E00044D5154540502003C00000161")
CONNACK = bytes.fromhex("200D00000A21001027000400002A00")
DISCONNECT = bytes.fromhex("E000")


def varint(number):
    """A Variable Byte Integer (1.5.5)."""
    number, digit = divmod(number, 128)
    return bytes([digit + 128]) + varint(number) if number else bytes([digit])


def value(data, at):
    """The Variable Byte Integer that begins there, and where it ends."""
    number = shift = 0
    while True:
        number |= (data[at] & 127) << shift
        at, shift = at + 1, shift + 7
        if data[at - 1] < 128:
            return number, at


def counted(data):
    return len(data).to_bytes(2, "big") + data


def packet(first, body):
    return bytes([first]) + varint(len(body)) + body


def packets(data):
    """The packets of some bytes, by their Remaining Length (2.1.4)."""
    while data:
        length, at = value(data, 1)
        yield data[: at + length]
        data = data[at + length :]


def publish(topic, payload, qos=0, identifier=1, expiry=None, user=()):
    """A retained PUBLISH with a Message Expiry Interval and user properties, if they are given. It
    has the packet identifier at QoS 1 and 2 only."""
    section = b"" if expiry is None else b"\x02" + expiry.to_bytes(4, "big")
    section += b"".join(b"\x26" + counted(name) + counted(value) for name, value in user)
    number = identifier.to_bytes(2, "big") if qos else b""
    head = counted(topic) + number + varint(len(section)) + section
    return packet(0x31 + 2 * qos, head + payload)


def acknowledgement(first, identifier, reason=b""):
    return packet(first, identifier.to_bytes(2, "big") + reason)


def puback(identifier, reason=b""):
    return acknowledgement(0x40, identifier, reason)


def pubrel(identifier):
    return acknowledgement(0x62, identifier)


def subscribe(filters, options=0, identifier=1):
    texts = b"".join(counted(text) + bytes([options]) for text in filters)
    return packet(0x82, identifier.to_bytes(2, "big") + b"\x00" + texts)


def unsubscribe(filters):
    return packet(0xA2, b"\x00\x01\x00" + b"".join(counted(text) for text in filters))


def suback(codes, identifier=1):
    return packet(0x90, identifier.to_bytes(2, "big") + b"\x00" + codes)


# The answer to a PUBLISH of QoS 1, the one if there is no space for it, and the answer to a
# SUBSCRIBE to one filter at QoS 0.
PUBACK = puback(1)
NO_SPACE = puback(1, b"\x97")
SUBACK = suback(b"\x00")
