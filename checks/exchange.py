"""What a client sends in a session, and what it may be answered if memory is refused once.

A topic is one letter below `a/`, and each message is `x`.
"""

from harness import packets
from harness.packets import CONNACK, CONNECT, DISCONNECT, acknowledgement, pubrel, suback

OUT_OF_MEMORY = b"\x97"


class Store:
    """What a session with ample memory keeps, and whether it has ended."""

    def __init__(self):
        self.letters = set()
        self.filters = set()
        self.held = set()
        self.has_ended = False

    def replay(self):
        return b"".join(packets.publish(b"a/" + letter, b"x") for letter in sorted(self.letters))


class Connect:
    kind = "a CONNECT"
    sent = CONNECT

    def replies(self, store, refused):
        store.has_ended = refused
        return bytes.fromhex("2003009700") if refused else CONNACK


class Publish:
    """A retained PUBLISH of this QoS. At QoS 0 a refusal has no answer."""

    def __init__(self, letter, qos, number):
        self.letter, self.qos, self.number = letter, qos, number
        self.kind = f"a PUBLISH of QoS {qos}"
        self.sent = packets.publish(b"a/" + letter, b"x", qos, number)

    def replies(self, store, refused):
        if not refused:
            store.letters.add(self.letter)
            if self.qos == 2:
                store.held.add(self.number)
        if self.qos == 0:
            return b""
        reason = OUT_OF_MEMORY if refused else b""
        return acknowledgement(0x30 + 0x10 * self.qos, self.number, reason)


class Pubrel:
    """Completes a publication of QoS 2. Its answer is the code 0x92 if the PUBLISH was refused
    (3.7.2.1)."""

    kind = "a PUBREL"

    def __init__(self, number):
        self.number = number
        self.sent = pubrel(number)

    def replies(self, store, refused):
        unknown = b"" if self.number in store.held else b"\x92"
        store.held.discard(self.number)
        return acknowledgement(0x70, self.number, unknown)


class Subscribe:
    """A SUBSCRIBE at QoS 0 to one filter that matches every topic. With Retain Handling 1 it
    replays only if it is new (3.8.3.1)."""

    kind = "a SUBSCRIBE"

    def __init__(self, text, handling, number):
        self.text, self.handling, self.number = text, handling, number
        self.sent = packets.subscribe([text], 0x10 * handling, number)

    def replies(self, store, refused):
        if refused:
            return suback(OUT_OF_MEMORY, self.number)
        is_new = self.text not in store.filters
        store.filters.add(self.text)
        granted = suback(b"\x00", self.number)
        return granted + (store.replay() if self.handling == 0 or is_new else b"")


class Disconnect:
    kind = "a DISCONNECT"
    sent = DISCONNECT

    def replies(self, store, refused):
        store.has_ended = True
        return b""


def replies(steps, refused_at=None, is_read=True):
    """All that is answered if memory is refused to the step of this number: to its work, or
    already when it is read."""
    store, answered = Store(), b""
    for number, step in enumerate(steps):
        if store.has_ended:
            break
        if number == refused_at and not is_read:
            # No packet is answered before a CONNECT is accepted; then it is a DISCONNECT (3.14).
            return answered + (bytes.fromhex("E00197") if number else b"")
        answered += step.replies(store, number == refused_at)
    return answered


def possible(steps):
    """Each answer that one refusal may give, with the kind of packet that was refused in its work,
    if one was."""
    answers = {replies(steps): None}
    for number, step in enumerate(steps):
        answers.setdefault(replies(steps, number), step.kind)
        answers.setdefault(replies(steps, number, is_read=False), None)
    return answers


def before_each_packet(steps):
    """All that is answered before each packet is read."""
    return [replies(steps[:count]) for count in range(len(steps))]


def before_each_reply(steps):
    """All that is answered before each reply is written."""
    answers = list(packets.packets(replies(steps)))
    return [b"".join(answers[:count]) for count in range(len(answers))]


# Topics, so many that the store and its answers grow more than once.
LETTERS = [bytes([letter]) for letter in b"abcdefghijklmnopqrst"]


def short_exchange(qos):
    """A publication of this QoS, the first of its store, and a subscription that replays it."""
    publication = [Publish(b"b", qos, qos), *([Pubrel(qos)] if qos == 2 else [])]
    return [Connect(), *publication, Subscribe(b"a/#", 0, 3), Disconnect()]


def long_exchange():
    """Each topic is published and looked at, and published again; then there is a subscription,
    twice."""
    steps = [Connect()]
    for number, letter in enumerate(LETTERS, 1):
        steps += [Publish(letter, 1, number), Subscribe(b"#", 0, 100 + number)]
    steps += [Publish(letter, 1, 50 + number) for number, letter in enumerate(LETTERS, 1)]
    return [*steps, Subscribe(b"a/#", 1, 200), Subscribe(b"a/#", 1, 201), Disconnect()]
