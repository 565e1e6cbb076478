"""Times a window of messages that wait for a client."""

import subprocess
import sys
import time

from bench.measure import grows_slowly, least
from harness.program import program


def window_seconds(waiting, rounds, tries=15):
    """The shortest of some runs in which so many messages wait in a window, and so many rounds are
    made: a message is given, acknowledged and queued again."""
    words = [program("bench_timings"), "window", str(waiting), str(rounds)]

    def run():
        start = time.perf_counter()
        done = subprocess.run(words, stdout=subprocess.PIPE, text=True, check=True)
        took = time.perf_counter() - start
        if done.stdout != f"{rounds}\n":
            sys.exit(f"bench: {done.stdout!r}, not {rounds} rounds")
        return took

    return least(tries, run)


def is_fast():
    """Whether a round costs as much however many wait, and queueing grows with what is queued."""

    def in_rounds(waiting):
        return window_seconds(waiting, 500_000) - window_seconds(waiting, 0)

    def queued(count):
        return window_seconds(count, 0)

    good = True
    for many in (10_000, 100_000):
        name = f"500,000 rounds of a window with 100 and {many:,} waiting"
        good = grows_slowly(name, in_rounds, 100, many, limit=4) and good
    name = "10,000 and 100,000 messages queued at once"
    return grows_slowly(name, queued, 10_000, 100_000) and good


def once():
    window_seconds(100, 1_000, tries=1)
