"""The store that all clients of a server share. Part of `checks/listening`."""

from concurrent.futures import ThreadPoolExecutor
from time import monotonic, sleep, time

from checks.listening_messages import publish, replayed, subscribe, topic, wanted
from harness.client import Client
from harness.packets import NO_SPACE, PUBACK, SUBACK
from harness.patience import PATIENCE
from harness.server import Server


def one_history(count=12, topics=4, rounds=50):
    """Clients publish numbers that rise, each on topics of its own, one to three of them together,
    and read all topics after that: at a place each, at a few places, and all at one.

    Of any two reads, whoever made them, one shows of no topic less than the other, since both are
    of one history. A read shows all that its client was told is stored, and no less than the reads
    before it.
    """
    for options in ({"places": count}, {"places": 3, "clients": 40}, {"places": 1, "clients": 40}):
        are_of_one_history(options, count, topics, rounds)


class History:
    """Clients that publish numbers and read all topics, and what each was shown."""

    def __init__(self, count, topics):
        self.names = [[b"h/%02d/%d" % (own, at) for at in range(topics)] for own in range(count)]
        self.kept = [[0] * topics for _ in range(count)]
        self.reads = [[] for _ in range(count)]

    def begin(self, server):
        """Publishes each topic for the first time."""
        with Client(server).connect() as first:
            for name in sum(self.names, []):
                first.ask(publish(name, b"0"), PUBACK)
            first.disconnect()

    def numbers(self, client):
        """What a read shows of each topic, in their order."""
        client.ask(subscribe(b"h/#"), SUBACK)
        shown = []
        for name in sum(self.names, []):
            packet = client.take_packet()
            number = packet[len(replayed(name, b"")) :]
            is_next = packet == replayed(name, number)
            wanted(is_next, f"{packet.hex()} came in the place of {name.decode()}")
            shown.append(int(number))
        return shown

    def publish(self, client, own, together):
        """A client publishes so many numbers of its own together."""
        kept, sent = self.kept[own], b""
        for number in range(max(kept) + 1, max(kept) + together + 1):
            at = number % len(kept)
            kept[at] = number
            sent += publish(self.names[own][at], b"%d" % number)
        client.ask(sent, together * PUBACK)

    def work(self, server, own, rounds):
        """A client publishes one to three numbers, and reads, so often."""
        kept, reads = self.kept[own], self.reads[own]
        with Client(server).connect() as client:
            # If a server was killed before, it is not known which of the last numbers it has.
            self.publish(client, own, len(kept))
            for turn in range(rounds):
                self.publish(client, own, turn % 3 + 1)
                reads.append(self.numbers(client))
                own_read = reads[-1][own * len(kept) : (own + 1) * len(kept)]
                wanted(own_read == kept, "a read does not show what was kept before")
            client.disconnect()

    def look(self):
        """All reads are of one history."""
        for own in [*self.reads, sorted(sum(self.reads, []), key=sum)]:
            wanted(all(map(is_no_later, own, own[1:])), "two reads are not of one history")


def is_no_later(one, other):
    return all(number <= later for number, later in zip(one, other))


def are_of_one_history(options, count, topics, rounds):
    """The same at a server with these options."""
    history = History(count, topics)
    with Server(**options) as server:
        history.begin(server)
        with ThreadPoolExecutor(count) as threads:
            list(threads.map(lambda own: history.work(server, own, rounds), range(count)))
    history.look()


def expired_topics(count=1_000):
    """Messages that have expired make space for as many new topics, and those that have not make
    none.

    The clock counts whole seconds, so that of messages that last a second the first may expire a
    moment after it came. Whether a topic more is refused is judged only if less time than the
    messages last was over when it was answered. If more was, as on a busy machine, it is all done
    again with messages that last twice as long.
    """
    for seconds in (1, 2, 4, 8, 16, 32, 64):
        if refuses_until_expired(count, seconds):
            return
    raise AssertionError("the messages always expire before the store is full")


def refuses_until_expired(count, seconds):
    """Whether the store was full before any of its messages could expire."""
    numbers = range(count)
    with Server(topics=count) as server, Client(server) as client, Client(server) as other:
        client.connect()
        other.connect()
        begin_second()
        began = time()
        sent = b"".join(publish(topic(number), b"x", seconds) for number in numbers)
        client.ask(sent, count * PUBACK)
        other.send(publish(b"more", b"x", seconds))
        answer = other.take_packet()
        ended = time()
        # The server may see the turn of a second a little later or earlier than this clock does.
        is_before_expiry = int(ended + 0.02) - int(began - 0.02) < seconds
        is_right = answer == NO_SPACE or not is_before_expiry and answer == PUBACK
        wanted(is_right, f"a topic more was answered {answer.hex()}")
        wait_until(ended + seconds + 1)
        new = [b"new/%06d" % number for number in numbers]
        client.ask(b"".join(publish(name, b"y") for name in new), count * PUBACK)
        other.ask(publish(b"more", b"y"), NO_SPACE)
        other.ask(subscribe(b"#"), SUBACK + b"".join(replayed(name, b"y") for name in new))
        return is_before_expiry


def begin_second():
    """Waits until a second of the clock has just begun."""
    wait_until(int(time()) + 1)
    sleep(0.05)


def wait_until(moment):
    """Waits until the clock is there."""
    began = monotonic()
    while time() < moment:
        wanted(monotonic() - began < PATIENCE, "the clock stands still")
        sleep(0.02)
