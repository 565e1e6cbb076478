"""Times whole sessions through the program on growing inputs."""

import os
import subprocess
import sys
import tempfile
import time

from bench.measure import grows_slowly, least, with_rounds
from harness.packets import CONNACK, CONNECT, DISCONNECT, publish
from harness.program import program
from harness.sessions import flooded, published, replayed, subscribed, whole

# What a session is of, how much of it once, and the session of so much and its other numbers. It
# is timed with ten times as much, too. SUBSCRIBE and UNSUBSCRIBE are repeated until they take most
# of the time.
SESSIONS = (
    ("retained PUBLISH at QoS 0", 1_000, published, (0,)),
    ("retained PUBLISH at QoS 1", 1_000, published, (1,)),
    ("retained PUBLISH at QoS 2, released", 1_000, published, (2,)),
    ("retained PUBLISH and their replay at QoS 0", 1_000, replayed, (0,)),
    ("retained PUBLISH and their replay at QoS 1, acknowledged", 1_000, replayed, (1,)),
    ("filters in one packet, over 250 messages", 25, subscribed, (250, 20, True)),
    ("filters in a packet each, over 250 messages", 25, subscribed, (250, 20, False)),
    ("filters in one packet, of which 256 are granted", 1_000, subscribed, (0, 5, True)),
    ("filters in a packet each, of which 256 are granted", 1_000, subscribed, (0, 5, False)),
)

# How many times as long ten times the session may take.
SESSION_LIMIT = 13

# The seconds that a SUBSCRIBE of 40 kB may take, whose 10,000 filters each match 10,000 messages.
FLOOD_LIMIT = 1

# The bytes of a write, where a packet comes in pieces.
PIECES = (1, 65536)


def words():
    return [program(), "pipe", "--at", "0"]


def seconds(session, tries=15):
    """The shortest of some runs of a session. Its replies go to a file, so that no reader of a
    pipe is timed, and are counted."""
    data, replies = session
    with tempfile.TemporaryFile() as file, tempfile.TemporaryFile() as out:
        file.write(data)

        def run():
            file.seek(0)
            out.seek(0)
            out.truncate()
            start = time.perf_counter()
            subprocess.run(words(), stdin=file, stdout=out, check=True)
            took = time.perf_counter() - start
            check_replies(out.seek(0, os.SEEK_END), replies)
            return took

        return least(tries, run)


def check_replies(count, wanted):
    if count != wanted:
        sys.exit(f"bench: {count} bytes of replies, not {wanted}")


def sessions_grow_slowly():
    """Whether ten times as much in one session takes about ten times as long."""
    print(f"start and end alone: {seconds(whole(b'', 0)):.4f} s")
    good = True
    for name, few, session, numbers in SESSIONS:

        def of_session(count):
            return seconds(session(count, *numbers))

        many = 10 * few
        name = f"{few:,} and {many:,} {name}"
        good = grows_slowly(name, of_session, few, many, SESSION_LIMIT) and good
    return good


@with_rounds
def flood_is_short():
    """Whether a SUBSCRIBE cannot keep the store busy: most of its answers find no room, and are
    given up."""
    took = seconds(flooded(10_000, 10_000), tries=3)
    name = "10,000 filters `#` in one packet, over 10,000 messages"
    print(f"{name}: {took:.3f} s (less than {FLOOD_LIMIT} wanted)")
    return took < FLOOD_LIMIT


def in_pieces(count, size):
    """The seconds of one run with a PUBLISH whose payload has so many bytes, written to a pipe in
    pieces."""
    data = CONNECT + publish(b"a", b"x" * count) + DISCONNECT
    start = time.perf_counter()
    run = subprocess.Popen(words(), stdin=subprocess.PIPE, stdout=subprocess.PIPE)
    for at in range(0, len(data), size):
        os.write(run.stdin.fileno(), data[at : at + size])
    run.stdin.close()
    out = run.stdout.read()
    if run.wait() != 0 or len(out) != len(CONNACK):
        sys.exit(f"bench: {len(out)} bytes of replies, not {len(CONNACK)}")
    return time.perf_counter() - start


def pieces_grow_slowly(size):
    """Whether a PUBLISH that comes in pieces of so many bytes takes as much longer as it is
    longer."""
    name = f"PUBLISH of 20 kB and 200 kB in pieces of {size}"
    return grows_slowly(name, lambda count: in_pieces(count, size), 20_000, 200_000)


def is_fast():
    return all([sessions_grow_slowly(), flood_is_short(), *map(pieces_grow_slowly, PIECES)])


def once():
    for _, few, session, numbers in SESSIONS:
        seconds(session(few, *numbers), tries=1)
    seconds(flooded(100, 10_000), tries=1)
    for size in PIECES:
        in_pieces(20_000, size)
