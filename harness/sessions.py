"""Whole sessions of a client: the bytes that it sends, and how many it is answered."""

from harness.packets import (
    CONNACK,
    CONNECT,
    DISCONNECT,
    puback,
    publish,
    pubrel,
    suback,
    subscribe,
    unsubscribe,
)

PAYLOAD = b"x" * 64

# How many PUBLISH packets may be unacknowledged, how many subscriptions a session keeps, and how
# many messages may wait.
QUOTA = 1024
SUBSCRIPTIONS = 256
WAITING = 100_000


def topic(i):
    return b"fleet/%06d/state" % i


def one_level_up(i):
    """A filter that matches the topic of this number alone."""
    return b"fleet/%06d/#" % i


def whole(packets, replies):
    return CONNECT + packets + DISCONNECT, len(CONNACK) + replies


def publications(count, qos):
    packets = []
    for i in range(count):
        packets.append(publish(topic(i), PAYLOAD, qos, i + 1))
        if qos == 2:
            packets.append(pubrel(i + 1))
    # A PUBACK, or a PUBREC and a PUBCOMP, of 4 bytes each.
    return b"".join(packets), 4 * qos * count


def published(count, qos):
    """So many retained publications."""
    return whole(*publications(count, qos))


def replayed(count, qos):
    """So many retained publications, and a SUBSCRIBE that is sent all of them. At QoS 1 each is
    acknowledged.

    An identifier that is free again is given next, so that those of the replay are 1 to 1,024
    again and again.
    """
    packets, replies = publications(count, qos)
    sent = count * len(publish(topic(0), PAYLOAD, qos))
    pubacks = b"".join(puback(i % QUOTA + 1) for i in range(count)) if qos else b""
    return whole(packets + subscribe([b"#"], qos) + pubacks, replies + codes_bytes(1) + sent)


def codes_bytes(count):
    """The length of a SUBACK or UNSUBACK of so many codes."""
    return len(suback(bytes(count)))


def subscribed(count, stored, rounds, in_one):
    """Over so many retained messages, so often a SUBSCRIBE to so many filters, of which each
    matches one message at most, and an UNSUBSCRIBE from them: one packet of all filters, or one
    packet a filter."""
    packets, replies = publications(stored, 0)
    filters = [one_level_up(i) for i in range(count)]
    parts = [filters] if in_one else [[text] for text in filters]
    turn = b"".join(map(subscribe, parts)) + b"".join(map(unsubscribe, parts))
    sent = min(count, stored, SUBSCRIPTIONS) * len(publish(topic(0), PAYLOAD))
    answered = 2 * sum(codes_bytes(len(part)) for part in parts) + sent
    return whole(packets + rounds * turn, replies + rounds * answered)


def flooded(count, stored):
    """Over these retained messages, one SUBSCRIBE of this many filters `#`. They are granted until
    no more messages may wait."""
    packets, _ = publications(stored, 0)
    sent = WAITING // stored * stored * len(publish(topic(0), PAYLOAD))
    return whole(packets + subscribe([b"#"] * count), codes_bytes(count) + sent)
