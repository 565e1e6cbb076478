"""What the clients of `checks/listening` publish and ask for, and how one of its checks fails."""

from harness import packets


def topic(number):
    return b"t/%06d" % number


def publish(topic, payload, expiry=None):
    """A retained PUBLISH of QoS 1."""
    return packets.publish(topic, payload, qos=1, expiry=expiry)


def subscribe(*filters):
    """A SUBSCRIBE to filters at QoS 0."""
    return packets.subscribe(filters)


def replayed(topic, payload):
    """A retained PUBLISH as it is sent at QoS 0."""
    return packets.publish(topic, payload)


def all_replayed(count, payload):
    """So many topics with the same payload."""
    return b"".join(replayed(topic(number), payload) for number in range(count))


def wanted(test, what):
    if not test:
        raise AssertionError(what)
