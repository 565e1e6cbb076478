"""The client library paho of Python against a server that listens on a port of 127.0.0.1. Run by
Debian's Python, which has it.

As a client of MQTT 3.1.1 paho does not show the code of a CONNACK that has properties, so that this
refusal is left to the other clients. Prints a line for each item that was shown.
"""

import sys
import time

from paho.mqtt.client import Client, MQTTv5, SubscribeOptions
from paho.mqtt.packettypes import PacketTypes
from paho.mqtt.properties import Properties

from checks.clients_items import MANY_SHOWN, MANY_TOPICS, UNICODE_TOPICS, in_order, show_all, shown
from harness.patience import PATIENCE

PORT = int(sys.argv[1])


def properties(packet, **values):
    made = Properties(packet)
    for name, value in values.items():
        setattr(made, name, value)
    return made


class Session:
    """A client with what came to it. Each call returns when the server has answered it."""

    def __init__(self, name="paho", will=False, **options):
        self.connack, self.codes, self.acknowledged, self.messages = None, {}, set(), []
        self.client = Client(name, protocol=MQTTv5)
        self.client.on_connect = self.on_connect
        self.client.on_message = lambda _client, _data, message: self.messages.append(message)
        self.client.on_publish = lambda _client, _data, number: self.acknowledged.add(number)
        self.client.on_subscribe = self.on_subscribe
        self.client.on_unsubscribe = self.on_unsubscribe
        if will:
            self.client.will_set("will", b"gone")
        own = properties(PacketTypes.CONNECT, **options)
        # Without a Keep Alive, since on a busy machine paho would give up a connection.
        self.client.connect("127.0.0.1", PORT, keepalive=0, clean_start=True, properties=own)
        self.until(lambda: self.connack)

    def on_connect(self, _client, _data, _flags, code, own):
        self.connack = code.value, own

    def on_subscribe(self, _client, _data, number, codes, _properties):
        self.codes[number] = codes

    def on_unsubscribe(self, _client, _data, number, _properties, codes):
        self.codes[number] = codes

    def until(self, is_done):
        """Reads and writes until something is true."""
        start = time.monotonic()
        while not is_done():
            has_ended = self.client.loop(0.1) != 0
            if not is_done() and (has_ended or time.monotonic() - start > PATIENCE):
                sys.exit("paho: the connection ended" if has_ended else "paho: no answer")

    def publish(self, topic, payload, qos=1, **options):
        """A retained publication. paho calls one of QoS 0 acknowledged when it was sent."""
        own = properties(PacketTypes.PUBLISH, **options)
        number = self.client.publish(topic, payload, qos, True, own).mid
        self.until(lambda: number in self.acknowledged)

    def subscribe(self, text, qos=1, handling=0, **options):
        """The codes of the SUBACK."""
        asked = [(text, SubscribeOptions(qos, retainHandling=handling))]
        own = properties(PacketTypes.SUBSCRIBE, **options)
        _, number = self.client.subscribe(asked, properties=own)
        self.until(lambda: number in self.codes)
        return [code.value for code in self.codes[number]]

    def unsubscribe(self, text):
        """The code of the UNSUBACK."""
        _, number = self.client.unsubscribe(text)
        self.until(lambda: number in self.codes)
        code = self.codes[number]
        return code.value if hasattr(code, "value") else code[0].value

    def replayed(self, text, qos=1, handling=0, **options):
        """The messages that a SUBSCRIBE brings: a second one brings a last message after them. At
        QoS 2 that one has QoS 2, too, since paho gives such a message only when it is released."""
        self.messages.clear()
        self.subscribe(text, qos, handling, **options)
        self.subscribe("last", qos)
        self.until(lambda: self.messages and self.messages[-1].topic == "last")
        return self.messages[:-1]

    def end(self):
        self.client.disconnect()
        while self.client.loop(0.1) == 0:
            pass


def kept_and_read_back():
    writer = Session()
    for qos in range(3):
        writer.publish(f"kept/{qos}", b"message %d" % qos, qos)
    writer.publish("last", b"last", 2)
    writer.end()
    reader = Session()
    for granted in range(3):
        messages = reader.replayed("kept/+", granted)
        found = [(each.topic, each.payload, each.qos, each.retain) for each in messages]
        wanted = [(f"kept/{qos}", b"message %d" % qos, min(qos, granted), True) for qos in range(3)]
        shown(f"retained at QoS 0, 1 and 2, read back at {granted}", found == wanted)
    reader.end()


def subscriptions():
    session = Session()
    counts = [len(session.replayed("kept/#", handling=handling)) for handling in (1, 1, 0, 2)]
    shown("Retain Handling", counts == [3, 0, 3, 0])
    found = session.replayed("kept/0", SubscriptionIdentifier=300)
    identifiers = [each.properties.SubscriptionIdentifier for each in found]
    shown("Subscription Identifier", identifiers == [[300]])
    codes = [session.unsubscribe("kept/#") for _ in range(2)]
    shown("UNSUBSCRIBE", codes == [0x00, 0x11] and len(session.replayed("kept/#", handling=1)) == 3)
    session.end()


def properties_and_expiry():
    own = {
        "PayloadFormatIndicator": 1,
        "ContentType": "text/plain",
        "ResponseTopic": "answers",
        "CorrelationData": b"\x00\x01",
        "UserProperty": [("name", "one"), ("name", "two")],
    }
    session = Session()
    session.publish("expiry/long", b"x", MessageExpiryInterval=2_000_000_000, **own)
    session.publish("expiry/none", b"x")
    session.publish("expiry/over", b"x", MessageExpiryInterval=0)
    found = {each.topic: each.properties for each in session.replayed("expiry/#")}
    long, none = found.get("expiry/long"), found.get("expiry/none")
    is_same = all(getattr(long, name) == value for name, value in own.items())
    shown("properties", is_same and not hasattr(none, "UserProperty"))
    left = long.MessageExpiryInterval
    is_less = 1_999_000_000 < left <= 2_000_000_000
    is_own = is_less and not hasattr(none, "MessageExpiryInterval")
    shown("Message Expiry Interval", is_own and len(found) == 2)
    session.publish("expiry/soon", b"x", MessageExpiryInterval=1)
    session.until(lambda: [each.topic for each in session.replayed("expiry/soon")] == [])
    shown("a message expires", True)
    session.end()


def limits():
    one = Session(ReceiveMaximum=1)
    shown("Receive Maximum", [each.qos for each in one.replayed("kept/+", 2)] == [0, 1, 2])
    one.publish("large/1", b"x" * 100)
    one.publish("large/2", b"x" * 101)
    one.end()
    # The PUBLISH of `large/1` at QoS 1 has 2 bytes of fixed header, 9 of the topic, 2 of the
    # identifier, 1 of properties, 100 of payload.
    small = Session(MaximumPacketSize=114)
    shown("Maximum Packet Size", [each.topic for each in small.replayed("large/#")] == ["large/1"])
    small.end()


def identifiers():
    session = Session(name="")
    code, own = session.connack
    shown("assigned identifier", code == 0 and own.AssignedClientIdentifier != "")
    session.end()


def clear():
    session = Session()
    session.publish("clear", b"x")
    before = len(session.replayed("clear"))
    session.publish("clear", b"")
    shown("clear", before == 1 and session.replayed("clear") == [])
    session.end()


def refusals():
    shown("a will is refused", Session(will=True).connack[0] == 0x83)


def texts(messages):
    return [(each.topic, each.payload.decode()) for each in messages]


def unicode_topics():
    session = Session()
    for topic in UNICODE_TOPICS:
        session.publish(topic, topic.encode())
    filters = ("+/Temperatur", "東京/#", "🌡/+")
    found = [text for each in filters for text in texts(session.replayed(each))]
    shown("unicode topics", found == [(topic, topic) for topic in UNICODE_TOPICS])
    session.end()


def many():
    session = Session()
    session.client.max_inflight_messages_set(16)
    for topic in MANY_TOPICS:
        session.client.publish(topic, topic, 1, True)
    session.until(lambda: len(session.acknowledged) == len(MANY_TOPICS))
    wanted = [(topic, topic) for topic in in_order(MANY_TOPICS)]
    for qos in range(3):
        shown(f"{MANY_SHOWN} {qos}", texts(session.replayed("many/#", qos)) == wanted)
    session.end()


if __name__ == "__main__":
    show_all(globals())
