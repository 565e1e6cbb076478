"""Takes the program to large numbers, which no other check reaches. With `--short` the numbers are
small, to see that this script works.

Words name the checks to run. None fails by a time.
"""

import itertools
import subprocess
import sys
import tempfile
from bisect import bisect_left
from concurrent.futures import ThreadPoolExecutor
from time import monotonic

from checks import kept_folder, kept_kills
from checks.full_memory import read_and_clear
from checks.kept_compaction import torn_compactions
from checks.listening_messages import all_replayed, publish, replayed, subscribe, topic, wanted
from checks.listening_store import are_of_one_history
from checks.out_of_memory import run_refused
from harness import debian, packets
from harness.client import Client
from harness.packets import CONNACK, CONNECT, DISCONNECT, NO_SPACE, PUBACK, SUBACK, puback
from harness.patience import PATIENCE
from harness.program import ROOT, most_memory, preloaded, program
from harness.server import Server
from harness.sessions import QUOTA
from harness.words import NAME, given_words

# How many publications a client sends in one piece.
PIECE = 1_000
PUBREC = packets.acknowledgement(0x50, 1)
# From so many messages below one level to so many something new is made: a branch at the 9th, two
# chunks at the 33rd, and the halves of the second at the 49th.
GROWTHS = ((0, 20), (30, 36), (46, 52))
# One place for one client, and one that two clients share.
ONE_PLACE = ({"places": 1}, {"places": 1, "clients": 2})


def ends(server, connections):
    """The server ends after so many connections, and knows that all changes were taken."""
    end = (0, f"rstored: served {connections}\n", "")
    wanted(server.ended() == end, "another end")


def serves_one_more(server):
    """A client publishes a message, and another one reads it."""
    with Client(server).connect() as client:
        client.ask(publish(b"more", b"one"), PUBACK)
        client.disconnect()
    with Client(server).connect() as client:
        client.ask(subscribe(b"more"), SUBACK + replayed(b"more", b"one"))
        client.disconnect()


def many_connections(count):
    """So many clients come and go at two places, two or eight at a time, and one more is served."""

    def visit(server):
        with Client(server) as client:
            client.ask(CONNECT + DISCONNECT, CONNACK)
            client.take_end()

    for clients in (2, 8):
        options = {"places": 2, "clients": clients, "connections": count + 2}
        with Server(**options) as server, ThreadPoolExecutor(2 * clients) as threads:
            for _ in threads.map(visit, count * [server]):
                pass
            serves_one_more(server)
            ends(server, count + 2)


def connections_in_c(count):
    """So many clients of bench/load.c come and go, one after the other, at a server without an end,
    and one more is served."""
    if not debian.has(["gcc", "libc6-dev"]):
        return
    with tempfile.TemporaryDirectory() as folder:
        load = f"{folder}/load"
        words = ["gcc", "-O2", "-pthread", "-o", load, ROOT / "bench" / "load.c"]
        subprocess.run(words, check=True)
        options = {"places": 1, "clients": 2, "connections": None, "endless": True}
        with Server(**options) as server:
            connect = [load, str(server.port), "connect", str(count)]
            # A guard against a run that hangs: each connection has a millisecond more.
            guard = PATIENCE + count / 1_000
            subprocess.run(connect, check=True, stdout=subprocess.DEVNULL, timeout=guard)
            serves_one_more(server)


def long_publications(count):
    """So many messages of 110,000 to 200,000 bytes, each of another length, take each other's place
    at QoS 0, and each is read."""
    with Server(places=1, connections=1) as server:
        with Client(server).connect() as client:
            for number in range(count):
                size = 110_000 + 90_000 * number // count
                sent = packets.publish(b"long", number.to_bytes(8, "big") * (size // 8))
                client.ask(sent + subscribe(b"long"), SUBACK + sent)
            client.disconnect()
        ends(server, 1)


def large_messages(count):
    """So many messages of 200,000 bytes are there at once. All of them are cleared."""
    numbers = range(count)
    with Server(places=1, topics=count, connections=1) as server:
        with Client(server).connect() as client:
            for number in numbers:
                client.ask(publish(topic(number), 200_000 * b"x"), PUBACK)
            for number in numbers:
                client.ask(publish(topic(number), b""), PUBACK)
            client.ask(subscribe(b"#"), SUBACK)
            client.disconnect()
        ends(server, 1)


def a_long_replay(count):
    """So many messages go to one client at once, at QoS 0 and 1."""
    with Server(places=1, topics=count, connections=2) as server:
        with Client(server).connect() as client:
            for first in range(0, count, PIECE):
                numbers = range(first, min(first + PIECE, count))
                sent = b"".join(publish(topic(number), b"x") for number in numbers)
                client.ask(sent, len(numbers) * PUBACK)
            client.disconnect()
        with Client(server).connect() as client:
            client.ask(subscribe(b"#"), SUBACK + all_replayed(count, b"x"))
            client.send(packets.subscribe([b"#"], 1))
            client.take(packets.suback(b"\x01"))
            for number in range(count):
                # An identifier that is free again is given next.
                identifier = number % QUOTA + 1
                client.take(packets.publish(topic(number), b"x", 1, identifier))
                client.send(puback(identifier))
            client.disconnect()
        ends(server, 2)


def many_publications(count):
    """One client sends so many, and then one more of each other QoS, which is kept and read."""
    names = [b"%d" % number for number in range(PIECE)]
    piece = b"".join(packets.publish(name, b"x") for name in names)
    for clients in ONE_PLACE:
        with Server(**clients, connections=3) as server:
            with Client(server).connect() as client:
                for _ in range(count // PIECE):
                    client.send(piece)
                # At QoS 2 it is sent alone, behind all that was announced before.
                for qos, answer in ((1, PUBACK), (2, PUBREC)):
                    payload = b"%d" % qos
                    client.ask(packets.publish(b"last", payload, qos), answer)
                    client.ask(subscribe(b"last"), SUBACK + replayed(b"last", payload))
                client.disconnect()
            serves_one_more(server)
            ends(server, 3)


def many_refusals(count):
    """So many publications find no space. Each is told so, and at the end the server knows what
    it took."""
    for clients in ONE_PLACE:
        with Server(**clients, topics=1, connections=1) as server:
            with Client(server).connect() as client:
                client.ask(publish(b"kept", b"x"), PUBACK)
                for _ in range(count // PIECE):
                    client.ask(PIECE * publish(b"other", b"x"), PIECE * NO_SPACE)
                client.ask(publish(b"kept", b"y"), PUBACK)
                client.ask(subscribe(b"#"), SUBACK + replayed(b"kept", b"y"))
                client.disconnect()
            ends(server, 1)


def refused_accepts(count, places=8):
    """So many accepts fail, as if no descriptor was left, and the next clients are served. After
    some failures in a row a place waits for a second. With more clients than places, one client
    accepts at a time, so that it takes as many seconds: there, fewer fail."""
    with tempfile.TemporaryDirectory() as folder:
        library = preloaded("failing_accepts", folder)
        for clients, refused in ((places, count), (5 * places, count // 10)):
            environment = {"LD_PRELOAD": library, "FAILING": str(refused)}
            options = {"places": places, "clients": clients, "connections": refused + 2}
            with Server(environment=environment, **options) as server:
                serves_one_more(server)
                ends(server, refused + 2)


def replaced_levels(rounds, count=50):
    """Topics have long levels, half of which two topics share, and their first messages are large.
    Once each is replaced so often, the process keeps the levels and what came last. A filter may
    be as long.

    The large messages come in as many groups, each after the one before it is replaced, so that
    only one group is there at a time."""
    large = 190_000
    for size in (1_000, 60_000):
        with Server(places=1, connections=1) as server, Client(server).connect() as client:
            started = most_memory(server.run.pid)
            for group in range(rounds):
                levels = [b"%d/%04d" % (group, at) + size * b"l" for at in range(count)]
                second = [level + b"/b" for level in levels[::2]]
                names = [level + b"/a" for level in levels] + second
                for payload in (large * b"x", *(b"%d" % turn for turn in range(rounds))):
                    for name in names:
                        client.ask(publish(name, payload), PUBACK)
                client.ask(subscribe(names[0]), SUBACK + replayed(names[0], payload))
            taken = most_memory(server.run.pid) - started
            # A level is in both topics and once for itself, in two trees. Of a group two messages
            # are there in each place. What levels of one topic alone take less is not counted.
            kept, passing = rounds * count * 4 * size // 1_000, 2 * count * large // 1_000
            limit = 5 * kept // 4 + 2 * passing
            shown = f"{taken} kB for levels of {size} bytes (less than {limit} needed)"
            print(f"{NAME}: {shown}", flush=True)
            wanted(taken < limit, shown)
            client.disconnect()


def a_refused_growth(count):
    """Of the messages below one level memory is refused to one allocation, whichever it is, while
    a bucket becomes a branch, a branch gets chunks, or a chunk is divided. So many messages in all
    take no more memory, one by one, than if it was not refused.

    This stands in for the work of a put: a bucket that should have become a branch, and did not,
    is copied whole for each message that it gets. So is a chunk that should have been divided.
    """
    names = [b"g/%05d" % number for number in range(count)]
    words = [program(), "pipe", "--at", "0"]

    def given(size):
        """What publishes so many of them."""
        return CONNECT + b"".join(publish(name, b"x") for name in names[:size]) + DISCONNECT

    with tempfile.TemporaryDirectory() as folder:
        library = preloaded("failing_malloc", folder)
        made = [allocations(words, given(size), library) for size in itertools.chain(*GROWTHS)]
        refused = [at for few, more in zip(made[::2], made[1::2]) for at in range(few, more)]
        asked = [bytes_asked(words, given(count), library, at) for at in refused]
        # Before the first one none fails.
        least = bytes_asked(words, given(count), library, 0)
    shown = f"{max(asked)} bytes are asked for, and {least} if nothing is refused"
    print(f"{NAME}: {len(asked)} allocations refused in turn: {shown}", flush=True)
    wanted(max(asked) < 11 * least // 10, shown)


def reads_by_one_seat(rounds):
    """Twelve clients share a seat. So often each of them publishes and then reads all that they
    published, and no read shows less of any than another one before it."""
    are_of_one_history({"places": 1, "clients": 40}, 12, 4, rounds)


def sizes_at_the_limit(count):
    """With messages of so many sizes from 1,000 to 10,000 bytes a server is filled up to the limit
    of its process, read and cleared, and then again: so it needs its reserve twice."""
    for number in range(count):
        read_and_clear(1_000 + 9_000 * number // max(count - 1, 1), 2)


def allocations(words, given, library):
    """How many allocations a run makes."""

    def is_last(at):
        return not run_refused(words, given, at + 1, 1, library)[1]

    return bisect_left(range(1_000_000), True, key=is_last)


def bytes_asked(words, given, library, at):
    """How many bytes a run asks for in all, while the allocation of this number fails."""
    with tempfile.TemporaryFile() as told:
        numbers = {"FAIL_AT": at, "FAIL_COUNT": 1, "FAIL_TELL": 1_000, "FAIL_ASKED": told.fileno()}
        environment = {"LD_PRELOAD": library, **{key: str(own) for key, own in numbers.items()}}
        options = {"capture_output": True, "timeout": PATIENCE, "pass_fds": [told.fileno()]}
        subprocess.run(words, input=given, env=environment, **options)
        told.seek(0)
        return int.from_bytes(told.read(), sys.byteorder)


CHECKS = (
    (many_connections, 200_000, 2_000),
    # More than fit 20 bits.
    (connections_in_c, 1_100_000, 2_000),
    (long_publications, 2_000, 50),
    # More than 100 MB.
    (large_messages, 600, 20),
    (a_long_replay, 65_536, 5_000),
    (many_publications, 12_000_000, 100_000),
    (many_refusals, 200_000, 2_000),
    (refused_accepts, 200, 20),
    (replaced_levels, 10, 2),
    (a_refused_growth, 1_000, 200),
    (kept_kills.kills, 500, 2),
    (kept_kills.power_cuts, 500, 2),
    (kept_kills.unsynced_power_cuts, 200, 2),
    (kept_kills.torn_writes, 500, 2),
    (torn_compactions, 200, 2),
    (kept_folder.changed_bytes, 1_000, 2),
    (reads_by_one_seat, 1_000, 10),
    (sizes_at_the_limit, 7, 1),
)


def main():
    checks = {check.__name__: (check, whole, short) for check, whole, short in CHECKS}
    words = given_words("--short", *checks)
    names = [name for name in checks if name in words or not set(words) - {"--short"}]
    for name in names:
        check, whole, short = checks[name]
        number, began = short if "--short" in words else whole, monotonic()
        try:
            check(number)
        except (AssertionError, OSError, RuntimeError) as error:
            sys.exit(f"{NAME}: {name}: {error}")
        shown = name.replace("_", " ")
        print(f"{NAME}: {shown}: {number:,} in {monotonic() - began:.0f} s", flush=True)


if __name__ == "__main__":
    main()
