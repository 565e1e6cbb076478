"""How a measure is made: as the least of several runs, and again if it exceeds its limit."""

import contextlib
import functools
import subprocess
import sys

from harness.program import most_memory, program


def least(tries, run, *words):
    """The least of some runs, by name if a run gives numbers by name."""
    runs = [run(*words) for _ in range(tries)]
    if isinstance(runs[0], dict):
        return {name: min(made[name] for made in runs) for name in runs[0]}
    return min(runs)


def with_rounds(is_within):
    """Whether a measure is within its limit in one of three rounds: other work on the machine may
    spoil a round."""

    @functools.wraps(is_within)
    def in_a_round(*words, **options):
        return any(is_within(*words, **options) for _ in range(3))

    return in_a_round


@with_rounds
def grows_slowly(name, measure, few, many, limit=15):
    """Whether the time grows less than the limit."""
    first, second = measure(few), measure(many)
    grown = second / first
    times = f"{first:.4f} s, {second:.4f} s, {grown:.1f} times"
    print(f"{name}: {times} (less than {limit} wanted)")
    return grown < limit


def trial(names, task, *numbers):
    """By these names, the numbers that a task of bench_timings prints."""
    words = [program("bench_timings"), task, *map(str, numbers)]
    out = subprocess.run(words, capture_output=True, text=True, check=True).stdout
    return dict(zip(names, map(int, out.split()), strict=True))


def peak_memory(task, topics):
    """The most kilobytes that bench_timings holds while it keeps so many messages. It lets them go
    one by one, so that it is seen then."""
    words = [program("bench_timings"), task, str(topics)]
    running = subprocess.Popen(words, stdout=subprocess.DEVNULL)
    most = 0
    while running.poll() is None:
        # It may have ended since.
        with contextlib.suppress(OSError, StopIteration):
            most = max(most, most_memory(running.pid))
    if running.returncode != 0:
        sys.exit(f"bench: {task} {topics} ended with status {running.returncode}")
    return most
