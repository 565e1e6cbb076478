"""Measures the program as a server beside the broker mosquitto, and prints a table in Markdown.

Both listen on the loopback of one machine, and are measured alternately; each number is the median
of five runs, or the least if a measure says so. The clients are bench/load.c. The table is for a
person, on a quiet machine. If Debian's redis-server and redis-tools are installed, a second table
has publications beside Redis' SET, which stores a value in memory, too. With `--fleets` the table
has all fleets of clients, and nothing else, in a network of its own if that may be made, where more
connections may wait. There the server may lose none. With `--once` each measure is made once and
small, and none is judged.
"""

import contextlib
import fcntl
import itertools
import os
import resource
import socket
import statistics
import struct
import subprocess
import sys
import tempfile
import time
from collections.abc import Callable
from dataclasses import dataclass, field
from types import SimpleNamespace

from bench.threads import busiest, on, pin, processor_time, thread_times
from harness import debian
from harness.mosquitto import Mosquitto
from harness.patience import PATIENCE
from harness.program import ROOT, most_memory
from harness.redis import Redis
from harness.server import Server
from harness.words import given_words

RUNS = 5
PACKAGES = ("mosquitto", "gcc", "libc6-dev")

# What the service of contrib/ gives the server, but for the log. A store that is nearly full.
SERVICE = {"places": 16, "clients": 2_000, "memory": "512M", "idle": 120}
TOPICS = 65_536

# A place for each client.
OWN_PLACES = {"places": 8, "clients": None}

# Clients that connect at once, of how many groups they are, and the messages of each group.
FLEET = 1_000
LARGE_FLEET = 5_000
GROUPS = 1_000
GROUP = 10

# The most clients that a server serves, and a server whose clients share one place.
MOST_CLIENTS = 10_000
ONE_PLACE = {"places": 1, "clients": 128}

# How many connections may wait at a port of an own network, and what says that this runs in one.
WAITING = 16_384
OWN_NETWORK = "BENCH_OWN_NETWORK"


def for_fleet(clients, silent=0):
    """How a server is started for a fleet beside silent clients. Those of a run are still leaving
    when the next one begins."""
    return {"places": 16, "clients": min(2 * clients + silent, MOST_CLIENTS)}


class Load:
    """Clients of one broker."""

    def __init__(self, path, broker):
        self.words, self.broker = [path, str(broker.port)], broker

    def start(self, *words):
        return subprocess.Popen([*self.words, *map(str, words)], stdout=subprocess.PIPE, text=True)

    def times(self, *words):
        """The numbers that a job prints, microseconds or how many."""
        run = self.start(*words)
        printed, _ = run.communicate(timeout=PATIENCE)
        if run.returncode != 0:
            sys.exit(f"bench: {' '.join(map(str, words))} ended with status {run.returncode}")
        return [float(line) for line in printed.split()]

    def fill(self, count, size, pattern):
        self.times("fill", count, size, pattern)

    def publish(self, qos, connections, count, topics=10_000, window=16, name="fleet"):
        """Publishes by some connections together: how many, in how many microseconds, and the
        longest time from a send to the next PUBACK."""
        each, own = count // connections, max(1, topics // connections)
        return self.times("publish", qos, connections, each, own, 64, window, name)

    def rate(self, *words, **options):
        """Publications a second of some connections together."""
        published, micros, _ = self.publish(*words, **options)
        return published * 1_000_000 / micros

    def replay(self, text, pattern, messages, qos, rounds, is_delayed=False):
        """The words of a job that subscribes to so many messages, which were filled by this
        pattern."""
        # mosquitto promises no order.
        is_ordered = isinstance(self.broker, Server)
        return "replay", qos, text, messages, rounds, int(is_delayed), pattern, int(is_ordered)

    def answer_time(self, *words, **options):
        """The microseconds from a SUBSCRIBE to its last message: the median of some."""
        return statistics.median(self.times(*self.replay(*words, **options)))


# Each measure fills a broker's store, and gives what is measured there. `scale` divides the number
# of messages and rounds.


def publications(qos):
    return 200_000 if qos == 0 else 100_000


def replaces(qos, connections, window=16):
    """Publications to topics that have a message, but for the first of each."""

    def prepare(load, scale):
        load.publish(qos, connections, 10_000 // scale)
        return lambda: load.rate(qos, connections, publications(qos) // scale, window=window)

    return prepare


def adds(qos, connections):
    """Publications to topics that have no message, others in each run."""

    def prepare(load, scale):
        count, names = 12_000 // scale, (f"new{run}" for run in itertools.count())
        return lambda: load.rate(qos, connections, count, topics=count, name=next(names))

    return prepare


def costs(qos, connections):
    """The broker's processor time for each publication."""

    def prepare(load, scale):
        pid = load.broker.run.pid

        def cost():
            before = processor_time(pid)
            published = load.publish(qos, connections, publications(qos) // scale)[0]
            return (processor_time(pid) - before) / published

        return cost

    return prepare


def replays(qos, count=10_000):
    def prepare(load, scale):
        messages, pattern = count // scale, "fleet/%04d%02d/state"
        load.fill(messages, 64, pattern)
        words = ("#", pattern, messages, qos, max(1, 20 // scale))
        return lambda: messages * 1_000_000 / load.answer_time(*words)

    return prepare


def answers(text, pattern, messages, is_delayed=False):
    """Over 60,000 topics, of which ten are called `x` and ten are below `a/b`."""

    def prepare(load, scale):
        load.fill(59_980 // scale, 64, "site%d/device%02d/state")
        load.fill(10, 64, "site%d/device%02d/x")
        load.fill(10, 64, "a/b/%d%d")
        words = (text, pattern, messages, 0, max(1, 200 // scale), is_delayed)
        return lambda: load.answer_time(*words)

    return prepare


@contextlib.contextmanager
def beside(load, count, *words, is_ready=""):
    """So many jobs that go on for as long as the `with`, which is given them. Each has said that it
    is ready, if it says so."""
    running = [load.start(*words) for _ in range(count)]
    try:
        if not all(job.stdout.readline() == is_ready for job in running if is_ready):
            sys.exit("bench: a job ended")
        yield running
    finally:
        for job in running:
            job.kill()
            job.communicate()


def replaying(load, count, scale, messages=10_000):
    """So many clients that replay so many messages all the time."""
    messages, pattern = messages // scale, "kept/%04d%02d"
    load.fill(messages, 64, pattern)
    words = load.replay("kept/#", pattern, messages, 0, 0)
    return lambda: beside(load, count, *words, is_ready="ready\n")


def beside_replays(readers=3):
    """A publisher's rate beside replaying clients, as a share of its rate beside programs that keep
    the processors busy, one for each."""

    def prepare(load, scale):
        replays = replaying(load, readers, scale)

        def share():
            with beside(load, os.cpu_count(), "burn"):
                burning = load.rate(1, 1, 100_000 // scale)
            with replays():
                return load.rate(1, 1, 100_000 // scale) / burning

        return share

    return prepare


def one_at_a_time(load, count):
    """The longest that one of some publications waits for its PUBACK. Their topics fit in beside
    60,000 others."""
    return load.publish(1, 1, count, topics=1_000, window=1)[2]


def shares(scale):
    """The processors of a publishing client, of the place that serves it, of the writer, and of a
    replaying client with its place. With `--once`, or if there are not four, all have all."""
    usable = sorted(os.sched_getaffinity(0))
    if scale > 1 or len(usable) < 4:
        return [set(usable)] * 4
    return {usable[0]}, {usable[1]}, {usable[2]}, set(usable[3:])


def longest_wait(messages, is_shared=False):
    """The longest that one of 20,000 publications, sent one at a time, waits for its PUBACK beside
    a client that replays so many messages all the time. Each thread on its way has a processor of
    its own, the writer's too. At a place that both clients share, any of its threads may serve
    either, so they have two processors, of which the replaying client has one, too."""

    def prepare(load, scale):
        replays, pid = replaying(load, 1, scale, messages), load.broker.run.pid
        client, place, own, rest = shares(scale)

        def longest():
            with on(rest), replays():
                replayed = busiest(pid, lambda: time.sleep(0.1))
                threads = sorted(thread_times(pid))
                # It is not known which thread will serve the publisher. The others are idle.
                for thread in threads:
                    pin(thread, place | rest if is_shared else place)
                # mosquitto has one thread, which is both. Else the writer's is the first that the
                # program starts.
                if not is_shared:
                    pin(replayed, rest)
                pin(threads[:2][-1], own)
                with on(client):
                    return one_at_a_time(load, 20_000 // scale)

        return longest

    return prepare


def echo_wait(path, scale):
    """What `longest_wait` measures, of a server that only sends each PUBACK back. The replaying
    client is one of rstored."""
    client, _, own, rest = shares(scale)
    with on(rest), Server(topics=TOPICS, **OWN_PLACES) as server:
        load, anywhere = Load(path, server), Load(path, SimpleNamespace(port=0))
        with replaying(load, 1, scale)(), on(own), beside(anywhere, 1, "echo") as [echo]:
            port = int(echo.stdout.readline())
            with on(client):
                return one_at_a_time(Load(path, SimpleNamespace(port=port)), 20_000 // scale)


def lost_connections():
    """How many connections found no room to wait at their port since this network was made."""
    with open("/proc/net/netstat") as lines:
        names, numbers = [line.split() for line in lines if line.startswith("TcpExt:")]
    return int(dict(zip(names, numbers))["ListenOverflows"])


def fleet(clients, delay, stays, silent):
    """The time in which clients that connect at once have each learnt the messages of a group, and
    have left if they do not stay. Some milliseconds pass between what a client is answered and its
    next packet. Beside them are so many connections that say nothing."""

    def prepare(load, scale):
        count, groups = max(32, clients // scale), GROUPS // scale
        for number in range(GROUP):
            load.fill(groups, 64, f"fleet/%02d%02d/{number}")

        def learn():
            with beside(load, int(silent > 0), "silent", silent, is_ready="ready\n"):
                before = lost_connections()
                took = load.times("fleet", count, groups, 1_000 * delay, int(stays))[0]
                lost = lost_connections() - before
            if lost and OWN_NETWORK in os.environ and isinstance(load.broker, Server):
                sys.exit(f"bench: {lost} connections of {count} found no room to wait")
            return took

        return learn

    return prepare


def connected(clients):
    """Peak memory in kilobytes, once so many clients have learnt the messages of a group and
    stay."""

    def prepare(load, scale):
        learn = fleet(clients, delay=0, stays=True, silent=0)(load, scale)

        def peak():
            learn()
            return most_memory(load.broker.run.pid)

        return peak

    return prepare


def crowd(load, scale):
    """Publications a second of clients that each publish one at a time."""

    def rate():
        published, micros = load.times("crowd", max(32, FLEET // scale), 2_000_000 // scale)
        return published * 1_000_000 / micros

    return rate


def beside_publishers(publishers, *words):
    """An answer's time beside clients that each publish one at a time."""

    def prepare(load, scale):
        answer = answers(*words)(load, scale)

        def time_beside():
            with beside(load, 1, "crowd", publishers, 0, is_ready="ready\n"):
                return answer()

        return time_beside

    return prepare


def connects(load, scale):
    return lambda: statistics.median(load.times("connect", 500 // scale))


def memory(count, size):
    """Peak memory in kilobytes."""

    def prepare(load, scale):
        load.fill(count // scale, size, "fleet/%04d%02d/state")
        return lambda: most_memory(load.broker.run.pid)

    return prepare


@dataclass
class Measure:
    """What is measured, in which unit, what is wanted of it, whether the program's value and
    mosquitto's reach that, what is taken of some runs, and options of the server."""

    name: str
    unit: str
    prepare: Callable
    wanted: str
    is_reached: Callable
    choose: Callable = statistics.median
    server: dict = field(default_factory=dict)

    def ratio(self, own, other):
        """How many times as fast the program is, or of memory, how many times as much it takes."""
        return other / own if self.unit == "us" else own / other


def fast(name, unit, prepare, times, **options):
    """A rate, or a time, that has to be so many times as good as mosquitto's."""

    def is_reached(own, other):
        return measure.ratio(own, other) >= times

    measure = Measure(name, unit, prepare, f"at least {times}", is_reached, server=options)
    return measure


def fleets(clients, silents, delays):
    """A fleet that connects at once: alone or beside silent connections, without or with a round
    trip between packets, leaving and staying."""
    for silent, delay, stays in itertools.product(silents, delays, (False, True)):
        trip = f", a round trip of {delay} ms" if delay else ""
        beside = f", beside {silent:,} silent ones" if silent else ""
        does = "stay" if stays else "leave"
        name = f"{clients:,} clients connect at once, learn and {does}{trip}{beside}"
        prepare, times = fleet(clients, delay, stays, silent), 0.67 if delay else 1
        yield fast(name, TIME, prepare, times, **for_fleet(clients, silent))


def small(name, prepare, times=1.5):
    return Measure(name, "kB", prepare, f"at most {times}", lambda own, other: own / other <= times)


RATE, TIME = "a second", "us"

# Filters, the pattern of the topics that one matches, and how many they are.
ONE_LEVEL = ("+/+/x", "site%d/device%02d/x", 10)
BELOW = ("a/b/#", "a/b/%d%d", 10)
ONE_TOPIC = ("site3/device50/state", "site3/device50/state", 1)

MEASURES = (
    fast("replacements at QoS 0, one connection", RATE, replaces(0, 1), 1.5),
    fast("replacements at QoS 0, eight connections", RATE, replaces(0, 8), 1.5),
    fast("new topics at QoS 0, one connection", RATE, adds(0, 1), 1.5),
    fast("new topics at QoS 0, eight connections", RATE, adds(0, 8), 1.5),
    fast("replacements at QoS 1, one connection", RATE, replaces(1, 1), 2),
    fast("replacements at QoS 1, eight connections", RATE, replaces(1, 8), 4),
    fast("new topics at QoS 1, one connection", RATE, adds(1, 1), 2),
    fast("new topics at QoS 1, eight connections", RATE, adds(1, 8), 4),
    fast("replacements at QoS 1, one at a time", RATE, replaces(1, 1, window=1), 1),
    fast("processor time of a publication at QoS 0, one connection", TIME, costs(0, 1), 1),
    fast("processor time of a publication at QoS 0, eight connections", TIME, costs(0, 8), 1),
    fast("processor time of a publication at QoS 1, eight connections", TIME, costs(1, 8), 1),
    fast("replay of 10,000 messages at QoS 0", RATE, replays(0), 5),
    fast("replay of 10,000 messages at QoS 1, acknowledged", RATE, replays(1), 3),
    fast("answer to `+/+/x`, 10 of 60,000 topics", TIME, answers(*ONE_LEVEL), 1),
    fast("answer to `a/b/#`, 10 of 60,000 topics", TIME, answers(*BELOW), 2),
    fast("answer to a filter of one of 60,000 topics", TIME, answers(*ONE_TOPIC), 1.5),
    fast("from connecting to CONNACK", TIME, connects, 1.2),
    *fleets(FLEET, (0, 64), (0, 20)),
    fast("1,000 clients at QoS 1, one at a time each", RATE, crowd, 2, **for_fleet(FLEET)),
    Measure(
        "10 messages for a client with delayed acknowledgements",
        TIME,
        answers(*BELOW, is_delayed=True),
        "less than 1,000 us",
        lambda own, other: own < 1_000,
    ),
    small("peak memory, 60,000 messages of 64 bytes", memory(60_000, 64)),
    small("peak memory, 1,000 messages of 100 kB", memory(1_000, 100_000)),
    Measure(
        "rate beside three replaying clients, as a share of that beside busy processors",
        "",
        beside_replays(),
        "at least 0.9",
        lambda own, other: own >= 0.9,
    ),
    Measure(
        "longest wait for a PUBACK beside a replaying client",
        TIME,
        longest_wait(10_000),
        "less than 2,000 us",
        lambda own, other: own < 2_000,
        # Now and then the machine stops a thread for some milliseconds, the echo's too. What a
        # broker causes comes in each run.
        choose=min,
        server=OWN_PLACES,
    ),
    fast(
        "answer to a filter of one of 60,000 topics beside 64 publishers at its place",
        TIME,
        beside_publishers(64, *ONE_TOPIC),
        1,
        **ONE_PLACE,
    ),
    Measure(
        "longest wait for a PUBACK beside a client at the same place that replays 60,000 messages",
        TIME,
        longest_wait(60_000, is_shared=True),
        "less than 2,000 us",
        lambda own, other: own < 2_000,
        choose=min,
        server=ONE_PLACE,
    ),
)

FLEETS = (
    *fleets(FLEET, (0, 64, 1_000), (0, 20, 100)),
    *fleets(LARGE_FLEET, (0, 64, 1_000), (0, 20, 100)),
    Measure(
        "peak memory, 10,000 clients that stay",
        "kB",
        connected(MOST_CLIENTS),
        "at most 500,000 kB",
        lambda own, other: own <= 500_000,
        server=for_fleet(MOST_CLIENTS),
    ),
)


# What is published beside Redis: the values' size, how many keys, and how many wait for a reply.
SIZE = 64
KEYS = 1_000
PIPELINED = 16


def sets(connections):
    """The rates of publications at QoS 1, and of Redis' SET, each with so many that wait for their
    reply."""

    def prepare(load, redis, scale):
        count = 400_000 // scale
        words = {"topics": KEYS, "window": PIPELINED, "name": "set"}
        return (
            lambda: load.rate(1, connections, count, **words),
            lambda: redis.set_rate(connections, count, KEYS, SIZE, PIPELINED),
        )

    return prepare


BESIDE_REDIS = (
    fast("QoS 1 or SET, 16 at a time, one connection", RATE, sets(1), 1),
    fast("QoS 1 or SET, 16 at a time, eight connections", RATE, sets(8), 1),
)


def values_beside_redis(measure, path, runs, scale):
    """The values of the program and of Redis, which are measured alternately."""
    with Server(topics=TOPICS, **SERVICE) as server, Redis() as redis:
        tools = measure.prepare(Load(path, server), redis, scale)
        for tool in tools:
            # So that each topic and each key has a value.
            tool()
        found = [[tool() for tool in tools] for _ in range(runs)]
    return [measure.choose(each) for each in zip(*found)]


def has_redis():
    """Whether Redis is installed. It is not asked for: nothing else needs it."""
    if debian.is_installed("redis-server") and debian.is_installed("redis-tools"):
        return True
    print("\nskipped what needs redis-server and redis-tools")
    return False


def values(measure, path, runs, scale):
    """The values of the program and of mosquitto, which are measured alternately."""
    options = {**SERVICE, **measure.server}
    with Server(topics=TOPICS, **options) as server, Mosquitto() as mosquitto:
        tools = [measure.prepare(Load(path, broker), scale) for broker in (server, mosquitto)]
        found = [[tool() for tool in tools] for _ in range(runs)]
    return [measure.choose(each) for each in zip(*found)]


def shown(value):
    if value >= 100:
        return f"{value:,.0f}"
    return f"{value:.1f}" if value >= 1 else f"{value:.2g}"


def processors():
    """The kind of the machine's processors and their number."""
    with open("/proc/cpuinfo") as lines:
        kinds = [line.split(":")[1].strip() for line in lines if line.startswith("model name")]
    return f"{os.cpu_count()} processors, {(kinds or ['unknown'])[0]}"


def table(path, measures):
    """Prints the table; whether all that is wanted is reached."""
    print(f"mosquitto {debian.version('mosquitto')}; {processors()}\n")
    missed = rows("mosquitto", measures, lambda measure: values(measure, path, RUNS, scale=1))
    if measures is MEASURES:
        waits = sorted(echo_wait(path, scale=1) for _ in range(RUNS))
        print("\nlongest wait of an echo server beside the same replaying client, each run, us:")
        print(", ".join(map(shown, waits)))
        if has_redis():
            print(f"\nRedis {debian.version('redis-server')}\n")
            missed += rows(
                "Redis",
                BESIDE_REDIS,
                lambda measure: values_beside_redis(measure, path, RUNS, scale=1),
            )
    if missed:
        print(f"\nnot reached: {'; '.join(missed)}")
    return not missed


def rows(other_name, measures, measured):
    """Prints a table of measures beside another server: those that do not reach what is wanted."""
    print(f"| Measure | rstored | {other_name} | ratio | wanted |\n|---|---|---|---|---|")
    missed = []
    for measure in measures:
        own, other = measured(measure)
        texts = [f"{shown(value)} {measure.unit}".strip() for value in (own, other)]
        # A share is of a broker's own rate.
        ratio = shown(measure.ratio(own, other)) if measure.unit else ""
        print(f"| {measure.name} | {' | '.join(texts)} | {ratio} | {measure.wanted} |", flush=True)
        if not measure.is_reached(own, other):
            missed.append(measure.name)
    return missed


def once(path):
    for measure in (*MEASURES, FLEETS[-1]):
        values(measure, path, runs=1, scale=100)
    echo_wait(path, scale=100)
    if has_redis():
        for measure in BESIDE_REDIS:
            values_beside_redis(measure, path, runs=1, scale=100)
    print("brokers: each measure was made once")


@contextlib.contextmanager
def compiled_load():
    """The path of the clients. A fleet needs a descriptor for each connection, on both sides."""
    most = resource.getrlimit(resource.RLIMIT_NOFILE)[1]
    resource.setrlimit(resource.RLIMIT_NOFILE, (most, most))
    with tempfile.TemporaryDirectory() as folder:
        path = f"{folder}/load"
        words = ["gcc", "-O2", "-pthread", "-o", path, ROOT / "bench" / "load.c"]
        subprocess.run(words, check=True)
        yield path


def run_in_own_network(words):
    """Runs this again in a network of its own, if that may be made."""
    command = ["unshare", "--net"]
    if subprocess.run([*command, "true"], stderr=subprocess.DEVNULL).returncode == 0:
        environment = {**os.environ, OWN_NETWORK: "1"}
        own = [*command, sys.executable, "-m", "bench.brokers", *words]
        sys.exit(subprocess.run(own, env=environment).returncode)


def open_own_network():
    """Brings the loopback up, and lets many connections wait."""
    up = struct.pack("16sh", b"lo", 1)
    with socket.socket() as any_socket:
        # SIOCSIFFLAGS with IFF_UP.
        fcntl.ioctl(any_socket, 0x8914, up)
    with open("/proc/sys/net/core/somaxconn", "w") as most:
        most.write(str(WAITING))


def main():
    words = given_words("--once", "--fleets")
    if not debian.has(PACKAGES):
        return
    if OWN_NETWORK in os.environ:
        open_own_network()
    elif "--fleets" in words:
        run_in_own_network(words)
    with compiled_load() as path:
        if "--once" in words:
            once(path)
        elif not table(path, FLEETS if "--fleets" in words else MEASURES):
            sys.exit(1)


if __name__ == "__main__":
    main()
