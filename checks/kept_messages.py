"""Numbered changes of a few topics, and what anybody was told of them. Part of `checks/kept`.

Each topic has one publisher, which numbers its changes from 1 on. A message of a number has an
interval and all properties, which follow from the number and from the second in which it was sent.
"""

import struct
import threading
from time import time

from checks.listening_messages import wanted
from harness.packets import counted, packet, value, varint

# Each change of such a number clears its topic.
CLEARS = 9
# The shortest interval. A clock that is read a little earlier or later may differ by so much.
INTERVAL, SLACK = 1_000_000, 2


def is_clear(number):
    return number % CLEARS == 0


def clear_from(number):
    """The first change from this one on that clears."""
    return -(-number // CLEARS) * CLEARS


def interval(number):
    return INTERVAL + number % 1_000


def properties(topic, number, left):
    """The properties of a message in rising order, that of the user twice."""
    section = b"\x01\x01\x02" + struct.pack(">I", left) + b"\x03" + counted(b"text/%d" % number)
    section += b"\x08" + counted(b"answers/" + topic)
    section += b"\x09" + counted(struct.pack(">Q", number))
    pairs = ((b"number", b"%d" % number), (b"topic", topic))
    return section + b"".join(b"\x26" + counted(name) + counted(own) for name, own in pairs)


def payload(number, moment, size):
    return b"%d %d " % (number, moment) + (number % 251 + size) * (b"%d" % (number % 10))


def message(topic, number, moment, left, size, head=b"\x31"):
    """A PUBLISH packet. The head has its first byte, and its packet identifier if it has one."""
    section = properties(topic, number, left)
    body = counted(topic) + head[1:] + varint(len(section)) + section
    return packet(head[0], body + payload(number, moment, size))


def change(topic, number, identifier=None, size=0):
    """The PUBLISH of a change, of QoS 1 if it has an identifier."""
    head = b"\x31" if identifier is None else b"\x33" + struct.pack(">H", identifier)
    if is_clear(number):
        return packet(head[0], counted(topic) + head[1:] + b"\x00")
    return message(topic, number, int(time()), interval(number), size, head)


def shown(data, size=0):
    """The topic and the number of a message that was replayed, which must be whole."""
    _, at = value(data, 1)
    length = struct.unpack_from(">H", data, at)[0]
    topic, at = data[at + 2 : at + 2 + length], at + 2 + length
    section, at = value(data, at)
    # The interval stands behind the format.
    left = struct.unpack_from(">I", data, at + 3)[0]
    number, moment = map(int, data[at + section :].split(b" ", 2)[:2])
    made = message(topic, number, moment, left, size)
    wanted(
        data == made and not is_clear(number), f"{data.hex()} was replayed, and not {made.hex()}"
    )
    over = time() - moment
    is_right = -SLACK <= interval(number) - left <= over + SLACK
    wanted(is_right, f"{left} seconds are left of {interval(number)}, and {over:.1f} are over")
    return topic, number


class Notes:
    """For each topic the number of its last change that was sent, and the number that anybody was
    told of last."""

    def __init__(self, names):
        self.sent, self.told = dict.fromkeys(names, 0), dict.fromkeys(names, 0)
        self.lock = threading.Lock()

    def tell(self, topic, number):
        """Somebody was told that this change stands."""
        with self.lock:
            self.told[topic] = max(self.told[topic], number)

    def forget(self):
        """What was told need not stand any more."""
        self.told = dict.fromkeys(self.told, 0)

    def look(self, found, floor):
        """A replay with the number of each topic that has a message shows nothing older than what
        was told before it, and is noted."""
        sent = dict(self.sent)
        for topic, least in floor.items():
            # Without a message, it was cleared by the first clear that it may be, or a later one.
            number = found.get(topic, clear_from(least))
            is_right = least <= number <= sent[topic]
            told = f"{topic.decode()}: {found.get(topic, 'nothing')} was replayed"
            wanted(is_right, f"{told}, {least} was told before, and {sent[topic]} is the last")
            self.tell(topic, number)
        unknown = found.keys() - floor.keys()
        wanted(not unknown, f"unknown topics were replayed: {unknown}")
