"""The programs mosquitto_pub and mosquitto_sub against a server that listens on a port of
127.0.0.1 and has one place.

With one place a client is served when the one before it has ended, so that a publication of QoS 0,
which nothing acknowledges, is kept before the next client subscribes. These programs have no
option for Retain Handling. Prints a line for each item that was shown.
"""

import re
import socket
import subprocess
import sys
import threading

from checks.clients_items import MANY_SHOWN, MANY_TOPICS, UNICODE_TOPICS, in_order, show_all, shown
from harness.packets import CONNACK, CONNECT, DISCONNECT, publish
from harness.patience import PATIENCE

PORT = sys.argv[1]


def called(name, *words, version="mqttv5"):
    return [name, "-h", "127.0.0.1", "-p", PORT, "-V", version, *words]


def run(*words, **options):
    """A program that ended: its status, and what it printed."""
    done = subprocess.run(called(*words, **options), capture_output=True, timeout=PATIENCE)
    return done.returncode, done.stdout.decode(), done.stderr.decode()


def put(topic, payload, qos=1, *words):
    given = ["-r", "-t", topic, "-m", payload, "-q", str(qos), *words]
    status, _, errors = run("mosquitto_pub", *given)
    if status != 0:
        sys.exit(f"mosquitto_pub: status {status}, {errors}")


def lines_before(is_last, *words):
    """What mosquitto_sub prints before such a line, at which it is stopped."""
    command = ["stdbuf", "-oL", *called("mosquitto_sub", *words)]
    reader = subprocess.Popen(command, stdout=subprocess.PIPE)
    guard = threading.Timer(PATIENCE, reader.kill)
    guard.start()
    lines = []
    for line in reader.stdout:
        text = line.decode().rstrip("\n")
        if is_last(text):
            break
        lines.append(text)
    else:
        sys.exit(f"mosquitto_sub {' '.join(words)} ended")
    guard.cancel()
    reader.kill()
    reader.communicate()
    return lines


def replayed(form, topics, qos=1, *words):
    """The lines for the messages that a SUBSCRIBE brings, in this form. The last filter brings one
    more message."""
    put("last", "last", 2)
    filters = [word for text in [*topics, "last"] for word in ("-t", text)]
    given = ["-q", str(qos), "-F", f"%t {form}", *filters, *words]
    return lines_before(lambda line: line.startswith("last "), *given)


def kept_and_read_back():
    for qos in range(3):
        put(f"kept/{qos}", f"message {qos}", qos)
    for granted in range(3):
        wanted = [f"kept/{qos} {min(qos, granted)} 1 message {qos}" for qos in range(3)]
        found = replayed("%q %r %p", ["kept/+"], granted)
        shown(f"retained at QoS 0, 1 and 2, read back at {granted}", found == wanted)


def subscriptions():
    identifier = ("-D", "subscribe", "subscription-identifier", "300")
    found = replayed("%S", ["kept/0"], 1, *identifier)
    shown("Subscription Identifier", found == ["kept/0 300"])
    lines_before(lambda line: line.endswith("received UNSUBACK"), "-d", "-t", "none", "-U", "none")
    shown("UNSUBSCRIBE", True)


def properties_and_expiry():
    own = (
        ("payload-format-indicator", "1"),
        ("content-type", "text/plain"),
        ("response-topic", "answers"),
        ("correlation-data", "01"),
        ("user-property", "name", "one"),
        ("user-property", "name", "two"),
    )
    words = [word for each in own for word in ("-D", "publish", *each)]
    expiry = ("-D", "publish", "message-expiry-interval")
    put("expiry/long", "x", 1, *words, *expiry, "2000000000")
    put("expiry/none", "x")
    put("expiry/over", "x", 1, *expiry, "0")
    found = replayed("%F|%C|%R|%D|%P|%E|", ["expiry/#"])
    wanted = r"expiry/long 1\|text/plain\|answers\|01\|name:one name:two\|(\d+)\|"
    long = re.fullmatch(wanted, found[0])
    shown("properties", long and found[1:] == ["expiry/none ||||||"])
    shown("Message Expiry Interval", 1_999_000_000 < int(long[1]) <= 2_000_000_000)


def limits():
    found = replayed("%q", ["kept/+"], 2, "-D", "connect", "receive-maximum", "1")
    shown("Receive Maximum", found == ["kept/0 0", "kept/1 1", "kept/2 2"])
    put("large/1", "x" * 100)
    put("large/2", "x" * 101)
    # The PUBLISH of `large/1` at QoS 1 has 2 bytes of fixed header, 9 of the topic, 2 of the
    # identifier, 1 of properties, 100 of payload.
    found = replayed("%l", ["large/#"], 1, "-D", "connect", "maximum-packet-size", "114")
    shown("Maximum Packet Size", found == ["large/1 100"])


def identifiers():
    """Without a name of its own the client sends none, and shows the one that it is given."""
    _, printed, _ = run("mosquitto_sub", "-d", "-t", "none", "-E")
    line = re.search(r"^Client [^(]\S* received CONNACK \(0\)$", printed, re.MULTILINE)
    shown("assigned identifier", line)


def clear():
    put("clear", "x")
    before = replayed("%p", ["clear"])
    status, _, _ = run("mosquitto_pub", "-r", "-t", "clear", "-n")
    after = replayed("%p", ["clear"])
    shown("clear", status == 0 and (before, after) == (["clear x"], []))


def refusals():
    message = ("mosquitto_pub", "-t", "a", "-m", "x")
    status, _, errors = run(*message, "--will-topic", "will", "--will-payload", "gone")
    is_refused = status == 0x83 and "Implementation specific error" in errors
    shown("a will is refused", is_refused)
    status, _, errors = run(*message, version="mqttv311")
    shown("MQTT 3.1.1 is refused", status == 0x84 and "Connection Refused" in errors)


def unicode_topics():
    for topic in UNICODE_TOPICS:
        put(topic, topic)
    found = replayed("%p", ["+/Temperatur", "東京/#", "🌡/+"])
    shown("unicode topics", found == [f"{topic} {topic}" for topic in UNICODE_TOPICS])


def many():
    """They are published over one plain connection; each of these programs publishes to one
    topic."""
    packets = [publish(topic.encode(), topic.encode()) for topic in MANY_TOPICS]
    with socket.create_connection(("127.0.0.1", int(PORT)), timeout=PATIENCE) as plain:
        plain.sendall(CONNECT + b"".join(packets) + DISCONNECT)
        if plain.makefile("rb").read() != CONNACK:
            sys.exit("a plain client was refused")
    wanted = [f"{topic} {topic}" for topic in in_order(MANY_TOPICS)]
    for qos in range(3):
        shown(f"{MANY_SHOWN} {qos}", replayed("%p", ["many/#"], qos) == wanted)


if __name__ == "__main__":
    show_all(globals())
