"""What a server with `--memory` takes and refuses. Part of `checks/operating`."""

import random
from concurrent.futures import ThreadPoolExecutor
from time import sleep

from checks.listening_messages import publish, replayed, subscribe, topic, wanted
from checks.operating_log import name_of, of_the_store, refused
from harness.client import Client
from harness.packets import NO_SPACE, PUBACK, SUBACK, varint
from harness.server import Server

# What each topic counts beside its name and its message.
TOPIC_BYTES = 360
# The lengths of payloads: some 100 bytes, and some 200 kB.
SIZES = (100, 200_000)
# What the log says when memory is lacking, and when it is no more.
NO_MEMORY = ("WARN", "the store has no memory left: a message was refused")
AGAIN = ("INFO", "the store takes messages again")


def counted(name, payload, expiry=None):
    """How many bytes a topic and its message count."""
    section = 0 if expiry is None else 5
    return TOPIC_BYTES + len(name) + len(varint(section)) + section + len(payload)


def all_counted(messages):
    return sum(counted(name, payload) for name, payload in messages.items())


def sent(client, name, payload):
    """What a client is answered that sets a topic, or clears it."""
    client.send(publish(name, payload))
    return client.take_packet()


def read(client, messages):
    """A client reads each of these messages, and no other of their topics."""
    for name, payload in messages.items():
        client.ask(subscribe(name), SUBACK + replayed(name, payload))


def fits_just(client, memory, messages):
    """The bytes that are left are exactly those that are not counted: they can be filled, and one
    more is refused. Then all of this is cleared."""
    free, number = memory - all_counted(messages), 0
    most = max(SIZES)
    while free >= 2 * counted(b"free/0000", most * b"x"):
        name, payload = b"free/%04d" % number, most * b"x"
        client.ask(publish(name, payload), PUBACK)
        free, number = free - counted(name, payload), number + 1
    half = free // 2 - counted(b"free/0000", b"")
    wanted(half >= 0, f"{free} bytes are left for two topics")
    client.ask(publish(b"free/half", half * b"x"), PUBACK)
    free -= counted(b"free/half", half * b"x")
    rest = free - counted(b"free/rest", b"")
    client.ask(publish(b"free/rest", (rest + 1) * b"x"), NO_SPACE)
    client.ask(publish(b"free/rest", rest * b"x"), PUBACK)
    client.ask(publish(b"free/more", b"x"), NO_SPACE)
    names = [b"free/%04d" % at for at in range(number)] + [b"free/half", b"free/rest"]
    for name in names:
        client.ask(publish(name, b""), PUBACK)


def set_replaced_cleared():
    """Messages of each size are taken until no more fit. A replacement counts only the difference,
    either way. A cleared topic gives back all that it counted."""
    for size in SIZES:
        payload, count, free = size * b"x", 20, 50
        memory = count * counted(topic(0), payload) + free
        with Server(memory=memory, topics=65_536) as server, Client(server).connect() as client:
            kept = {topic(number): payload for number in range(count)}
            for name in kept:
                client.ask(publish(name, payload), PUBACK)
            client.ask(publish(topic(count), payload), NO_SPACE)
            longer, shorter = payload + free * b"x", payload[10:]
            client.ask(publish(topic(0), longer + b"x"), NO_SPACE)
            client.ask(publish(topic(0), longer), PUBACK)
            client.ask(publish(topic(1), payload + b"x"), NO_SPACE)
            client.ask(publish(topic(1), shorter), PUBACK)
            client.ask(publish(topic(2), payload + 11 * b"x"), NO_SPACE)
            client.ask(publish(topic(2), payload + 10 * b"x"), PUBACK)
            client.ask(publish(topic(3), b""), PUBACK)
            client.ask(publish(topic(count), payload), PUBACK)
            # What has no message gives nothing back.
            client.ask(publish(topic(3), b""), PUBACK)
            client.ask(publish(topic(3), b"x"), NO_SPACE)
            kept |= {topic(0): longer, topic(1): shorter, topic(2): payload + 10 * b"x"}
            del kept[topic(3)]
            kept[topic(count)] = payload
            wanted(all_counted(kept) == memory, f"{all_counted(kept)} bytes of {memory} are kept")
            read(client, kept)
            for name in kept:
                client.ask(publish(name, b""), PUBACK)
            for number in range(count):
                client.ask(publish(topic(number), payload), PUBACK)
            client.ask(publish(topic(count), payload), NO_SPACE)
            client.disconnect()


def a_sweep_gives_back():
    """If no topic is left for a new one, what has expired is dropped, and its bytes are free."""
    for size in SIZES:
        payload, count = size * b"x", 10
        memory = count * counted(topic(0), payload, expiry=1)
        with Server(memory=memory, topics=count) as server, Client(server).connect() as client:
            for number in range(count):
                client.ask(publish(topic(number), payload, expiry=1), PUBACK)
            client.ask(publish(topic(0), payload + b"x", expiry=1), NO_SPACE)
            sleep(2.1)
            kept = {topic(count + number): payload for number in range(count)}
            for name in kept:
                client.ask(publish(name, payload), PUBACK)
            read(client, kept)
            client.disconnect()


def publishes(server, worker, rounds, seed):
    """One of the publishers: sets and clears its topics at random. What it keeps, and how much it
    was refused."""
    chosen, kept, misses = random.Random(seed), {}, 0
    with Client(server).connect() as client:
        for _ in range(rounds):
            name = b"w/%d/%d" % (worker, chosen.randrange(12))
            size = chosen.choice((0, *SIZES)) and chosen.choice(SIZES) + chosen.randrange(100)
            answer = sent(client, name, size * b"x")
            if answer == NO_SPACE:
                wanted(size > 0, f"{name} could not be cleared")
                misses += 1
                continue
            wanted(answer == PUBACK, f"{answer.hex()} came")
            kept[name] = size * b"x"
        kept = {name: payload for name, payload in kept.items() if payload}
        client.disconnect()
    return kept, misses


def eight_publishers(rounds=400, publishers=8, seed=7):
    """Eight publishers set and clear topics at once, of a store that has memory for a part. What
    is refused changes nothing, and in the end the count is that of what was acknowledged. Readers
    meanwhile get what is there."""
    memory, wide = 4_000_000, {"places": 4, "clients": 20, "topics": 65_536}
    with Server(memory=memory, **wide) as server, ThreadPoolExecutor(publishers + 4) as threads:
        with Client(server).connect() as client:
            client.ask(publish(b"own", 1_000 * b"x"), PUBACK)
        own = {b"own": 1_000 * b"x"}
        runs = [
            threads.submit(publishes, server, worker, rounds, seed + worker)
            for worker in range(publishers)
        ]
        readers = [threads.submit(reads, server, own, runs) for _ in range(4)]
        ends = [run.result() for run in runs]
        wanted(all(reader.result() > 0 for reader in readers), "a reader read nothing")
        kept = own | {name: payload for part, _ in ends for name, payload in part.items()}
        misses = sum(count for _, count in ends)
        wanted(misses > rounds // 4, f"{misses} publications were refused")
        wanted(all_counted(kept) <= memory, f"{all_counted(kept)} bytes are kept")
        with Client(server).connect() as client:
            read(client, kept)
            for name in list(kept)[::2]:
                client.ask(publish(name, b""), PUBACK)
                del kept[name]
            fits_just(client, memory, kept)
            read(client, kept)
            client.disconnect()


def reads(server, messages, runs):
    """How often a client reads these messages while the publishers run."""
    rounds = 0
    with Client(server).connect() as client:
        while rounds == 0 or not all(run.done() for run in runs):
            read(client, messages)
            rounds += 1
        client.disconnect()
    return rounds


def readers_at_the_limit():
    """While messages are refused, new clients read all that is there."""
    for size in SIZES:
        payload, count = size * b"x", 20
        memory = count * counted(topic(0), payload)
        with Server(memory=memory, topics=65_536, clients=20) as server:
            writer = Client(server).connect()
            kept = {topic(number): payload for number in range(count)}
            for name in kept:
                writer.ask(publish(name, payload), PUBACK)
            for _ in range(10):
                writer.ask(publish(b"more", b"x"), NO_SPACE)
                with Client(server).connect() as reader:
                    whole = b"".join(replayed(*message) for message in kept.items())
                    reader.ask(subscribe(b"t/#"), SUBACK + whole)
                    reader.disconnect()
            writer.disconnect()


def a_log_of_memory():
    """The log says once that no memory is left, however much is refused, and once that messages are
    taken again. Of each connection it says what it was refused. A full store of topics has lines of
    its own."""
    payload = 100 * b"x"
    memory = 2 * counted(b"s/0", payload)
    first, second, third = (publish(b"s/%d" % number, payload) for number in range(3))
    longer, cleared = publish(b"s/0", payload + b"x"), publish(b"s/1", b"")
    for clients in (1, 3):
        expected, log = {}, {"places": 1, "clients": clients, "connections": 5, "log": True}
        with Server(memory=memory, topics=3, **log) as server:
            for asked, answer, what in (
                (first + second + third, PUBACK * 2 + NO_SPACE, "1 publications (no memory)"),
                (longer + third, NO_SPACE * 2, "2 publications (no memory)"),
                (cleared, PUBACK, None),
                (second, PUBACK, None),
                (longer, NO_SPACE, "1 publications (no memory)"),
            ):
                with Client(server).connect() as client:
                    expected[name_of(client)] = what
                    client.ask(asked, answer)
                    client.disconnect()
                # It tells of the store at most once a second.
                sleep(1.1)
            _, _, errors = server.ended()
        wanted(refused(errors) == expected, f"with {clients} clients the log is {errors!r}")
        told = of_the_store(errors)
        wanted(told == [NO_MEMORY, AGAIN, NO_MEMORY], f"of the store the log says {errors!r}")
