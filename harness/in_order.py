"""Runs that are made several at a time, and looked at in order."""

import itertools
import os
from concurrent.futures import ThreadPoolExecutor

# How many runs each processor is given at once.
EACH = 8


def in_order(run):
    """What `run` gives for 1, 2, 3 .. on. Whoever has seen enough stops asking: some runs behind
    the last one that is looked at are made in vain."""
    processors = os.cpu_count() or 1
    size = EACH * processors
    with ThreadPoolExecutor(processors) as pool:
        for first in itertools.count(1, size):
            yield from pool.map(run, range(first, first + size))
