"""Runs the program behind a mosquitto, by the bridge of `contrib/mosquitto-bridge.conf`: what is
retained there can be read here, also after either of them was started again.

The broker and its clients come from Debian's packages mosquitto and mosquitto-clients.
"""

import socket
import subprocess
import sys
import time

from harness import debian, packets
from harness.client import Client
from harness.mosquitto import Mosquitto
from harness.patience import PATIENCE
from harness.program import ROOT
from harness.server import Server
from harness.words import given_words

BRIDGE = (ROOT / "contrib" / "mosquitto-bridge.conf").read_text()
# Where the bridge goes to.
GIVEN = "127.0.0.1:1884"
# More topics than mosquitto keeps for a bridge by its own settings.
MANY = 1_500
# Seconds.
DAY = 86_400
# The largest packet that the server reads.
LARGEST = 262_144


def free_port():
    with socket.socket() as free:
        free.bind(("127.0.0.1", 0))
        return free.getsockname()[1]


def bridge_to(port):
    """The lines for a mosquitto, which tries again after a second."""
    if BRIDGE.count(GIVEN) != 2:
        sys.exit(f"bridge: the file names {GIVEN} not twice")
    return BRIDGE.replace(GIVEN, f"127.0.0.1:{port}") + "restart_timeout 1\n"


def server_at(port):
    return Server(f"127.0.0.1:{port}", places=4)


def publish(broker, topic, *words, version="mqttv5"):
    to = ["mosquitto_pub", "-h", broker.host, "-p", str(broker.port), "-V", version, "-q", "1"]
    run = subprocess.run([*to, "-t", topic, *words], capture_output=True, timeout=PATIENCE)
    if run.returncode != 0:
        sys.exit(f"bridge: mosquitto_pub ended with {run.returncode}: {run.stderr}")


def publish_many(broker):
    """More retained messages than mosquitto keeps for a bridge by its own settings."""
    messages = [packets.publish(f"many/{number}".encode(), b"m") for number in range(MANY)]
    with Client(broker) as client:
        client.send(packets.CONNECT)
        client.take_packet()
        client.send(b"".join(messages) + packets.DISCONNECT)
        client.reader.read()


def publish_large(broker):
    """A message that is too large for the server."""
    with Client(broker) as client:
        client.send(packets.CONNECT)
        client.take_packet()
        client.send(packets.publish(b"a/large", LARGEST * b"x") + packets.DISCONNECT)
        client.reader.read()


def kept(server, seconds, *filters):
    """What a client reads in so many seconds: the topic, the payload and the properties of each
    message, and whether it expires within a day."""
    words = [word for name in filters for word in ("-t", name)]
    command = ["mosquitto_sub", "-h", server.host, "-p", str(server.port), "-V", "5"]
    form = ["-W", str(seconds), "-F", "%t %p %C %R %D %F %P %E"]
    run = subprocess.run([*command, *words, *form], capture_output=True, text=True)
    messages = [line.split(" ") for line in run.stdout.splitlines()]
    return sorted((*rest, left != "" and 0 < int(left) <= DAY) for *rest, left in messages)


def has(server, wanted, *filters):
    """Waits until this is all that a client reads."""
    start, seconds = time.monotonic(), 1
    while (came := kept(server, seconds, *filters)) != sorted(wanted):
        if time.monotonic() - start > PATIENCE:
            sys.exit(f"bridge: {came} is kept, and not {wanted}")
        seconds = min(2 * seconds, 30)


def last_will(broker):
    """A client that ends without a DISCONNECT, and its will."""
    words = ["-t", "none", "--will-topic", "a/will", "--will-payload", "gone", "--will-retain"]
    to = ["-h", broker.host, "-p", str(broker.port), "-V", "mqttv311", "-d"]
    command = ["stdbuf", "-oL", "mosquitto_sub", *to, *words]
    run = subprocess.Popen(command, stdout=subprocess.PIPE, text=True)
    for line in run.stdout:
        if "SUBACK" in line:
            break
    run.kill()
    run.communicate()


def message(topic, payload, *properties, expires=False):
    return (topic, payload, *(properties or ("",) * 5), expires)


OLD, WILL = message("a/old", "311"), message("a/will", "gone")
LATER = message("a/later", "l")
NEW = message("a/new", "5", "text/plain", "to/me", "17", "1", "site:3", expires=True)
PROPERTIES = (
    *("-D", "publish", "content-type", "text/plain"),
    *("-D", "publish", "response-topic", "to/me"),
    *("-D", "publish", "correlation-data", "17"),
    *("-D", "publish", "payload-format-indicator", "1"),
    *("-D", "publish", "user-property", "site", "3"),
    *("-D", "publish", "message-expiry-interval", str(DAY)),
)


def show(port):
    with Mosquitto(bridge_to(port)) as broker:
        with server_at(port) as server:
            publish(broker, "a/old", "-r", "-m", "311", version="mqttv311")
            publish(broker, "a/new", "-r", "-m", "5", *PROPERTIES)
            publish(broker, "a/live", "-m", "not retained")
            publish(broker, "$own/a", "-r", "-m", "not of #")
            publish_large(broker)
            publish(broker, "a/cleared", "-r", "-m", "x")
            publish(broker, "a/cleared", "-r", "-n")
            last_will(broker)
            has(server, [OLD, NEW, WILL], "a/#", "$own/#")
            publish_many(broker)
        # The server is started again, and something was cleared and set meanwhile.
        publish(broker, "a/will", "-r", "-n")
        publish(broker, "a/later", "-r", "-m", "l")
        with server_at(port) as server:
            has(server, [OLD, NEW, LATER], "a/#")
            many = [message(f"many/{number}", "m") for number in range(MANY)]
            has(server, many, "many/#")
            broker.stop()
            with_another_broker(server, port, [OLD, NEW, LATER])


def with_another_broker(server, port, before):
    """One that retains nothing takes the place of the first: what was kept stays, and what is
    published there comes too."""
    with Mosquitto(bridge_to(port)) as broker:
        has(server, before, "a/#")
        publish(broker, "a/old", "-r", "-m", "312", version="mqttv311")
        has(server, [message("a/old", "312"), *before[1:]], "a/#")


def main():
    given_words()
    if debian.has(["mosquitto", "mosquitto-clients"]):
        show(free_port())
        print(f"bridge: mosquitto {debian.version('mosquitto')} passes on what is retained there")


if __name__ == "__main__":
    main()
