"""Times the decoding and encoding of single packets."""

import subprocess
import sys

from bench.measure import least, with_rounds
from harness.packets import publish, suback, subscribe
from harness.program import program

TOPIC = b"fleet/000042/state"
USER = [(b"name-%d" % i, b"a value of the user property %d" % i) for i in range(10)]
FILTERS = [b"fleet/%06d/+/state/#" % i for i in range(100)]

# The packets, and of each the sum that a round of decoding and one of encoding has to make: the
# bytes of the payload and the number of user properties, or the number of filters; the length and
# the last byte of the PUBLISH, or of the SUBACK of 100 codes.
SUBACK_BYTES = len(suback(bytes(100)))


def published(payload, user=()):
    """A PUBLISH, and its two sums. The server sends the same bytes."""
    data = publish(TOPIC, payload, user=user)
    return data, len(payload) + len(user), len(data) + data[-1]


SMALL = published(b"x" * 64)
USERS = published(b"x" * 64, USER)
LARGE = published(b"x" * 200_000)
MANY = subscribe(FILTERS, 1), len(FILTERS), SUBACK_BYTES + 1

# A task, what is decoded or encoded, the packet and its sums, and how often, so that a run takes
# some tenths of a second.
TASKS = (
    ("decode", "a PUBLISH of 64 bytes", SMALL, 1_000_000),
    ("decode", "a PUBLISH with ten user properties", USERS, 200_000),
    ("decode", "a PUBLISH of 200 kB", LARGE, 1_000_000),
    ("decode", "a SUBSCRIBE of 100 filters", MANY, 30_000),
    ("encode", "a PUBLISH of 64 bytes", SMALL, 1_000_000),
    ("encode", "a PUBLISH with ten user properties", USERS, 500_000),
    ("encode", "a PUBLISH of 200 kB", LARGE, 20_000),
    ("encode", "a SUBACK of 100 codes", MANY, 1_000_000),
)

# A payload is cut out of the bytes that came, and not copied: a PUBLISH of 200 kB takes less than
# so many times as long to be decoded as one of 64 bytes.
LIMIT = 4


def run(task, packet, times):
    """The microseconds of one run, and the sum over what it made."""
    words = [program("bench_timings"), task, str(times)]
    done = subprocess.run(words, input=packet, stdout=subprocess.PIPE, check=True)
    micros, total = done.stdout.split()
    return int(micros), int(total)


def once(times=3):
    """Runs each task a few rounds, and fails if it does not make what is right."""
    for task, what, sums, _ in TASKS:
        timed(task, what, sums, times)


def timed(task, what, sums, times):
    """The microseconds of one run. Fails if it does not make what is right."""
    packet, decoded, encoded = sums
    micros, total = run(task, packet, times)
    if total != times * (decoded if task == "decode" else encoded):
        sys.exit(f"bench: {task} {what} made {total}")
    return micros


@with_rounds
def is_cut_out(small, large):
    """Whether the payload is cut out, by the time that each of the two tasks takes."""
    return each_micros(*large) < LIMIT * each_micros(*small)


def each_micros(task, what, sums, times, tries=5):
    """Prints how many microseconds the task takes each time, the least of some runs."""
    each = least(tries, timed, task, what, sums, times) / times
    print(f"{task} {what}: {each:.3f} us")
    return each


def is_fast():
    small, users, large, *others = TASKS
    for task in (users, *others):
        each_micros(*task)
    return is_cut_out(small, large)
