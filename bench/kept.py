"""Measures the server with `--keep` by each `--sync` beside itself without, and beside mosquitto
with and without its persistence, and prints a table in Markdown.

All of them are measured alternately; each number is the median of five runs, or the least if a
measure says so. Folders lie where temporary files do, which should be a disk. With `--sync always`
a measure's limit is not a rate without `--keep`, but that of a program in C that writes and syncs
as many bytes in as many commits as the server did. The table is for a person, on a quiet machine.
With `--once` each measure is made once and small, and none is judged.
"""

import contextlib
import itertools
import statistics
import subprocess
import sys
import tempfile
import urllib.request
from collections.abc import Callable
from dataclasses import dataclass, field
from pathlib import Path

from bench.brokers import (
    BELOW,
    FLEET,
    PACKAGES,
    RATE,
    SERVICE,
    TIME,
    TOPICS,
    Load,
    answers,
    compiled_load,
    crowd,
    for_fleet,
    processors,
    replaces,
    replays,
    shown,
)
from harness import debian
from harness.mosquitto import Mosquitto
from harness.server import Server
from harness.words import given_words

RUNS = 5
# Without `--keep`, by each `--sync`, and mosquitto.
NONE, NEVER, SECOND, ALWAYS = "no --keep", "never", "second", "always"
OTHER, OTHER_KEPT = "mosquitto", "mosquitto, saved each second"
WAYS = (NONE, NEVER, SECOND, ALWAYS, OTHER, OTHER_KEPT)
# What the C program does in one go, and the length of the log, which is written again and again.
C_COMMITS, LOG = 500, 4_000 * 1_048
# How the server tells its commits, their bytes, and their changes.
TOLD = (
    "rstored_journal_commits_total",
    "rstored_journal_bytes_written_total",
    "rstored_history_entries_total",
)
# How many messages of 1,000 bytes are 16 MB, and how many changes make the journal 64 MB.
LARGE, CHANGES, LONG = 16_000, 60_000, 1_000


@dataclass
class Measure:
    """What is measured, in which unit, how many times as good `never` and `second` have to be as
    without `--keep`, and `always` if it has to, whether `always` is compared with the C program,
    what is taken of some runs, and options of the server."""

    name: str
    unit: str
    prepare: Callable
    times: float
    always: float | None = None
    beside_c: bool = False
    choose: Callable = statistics.median
    server: dict = field(default_factory=dict)

    def ratio(self, own, other):
        return other / own if self.unit == TIME else own / other


def longest_wait(topics, size, count):
    """The longest that one of some publications, sent one at a time, waits for its PUBACK. The
    journal gets so long meanwhile that it is compacted."""

    def prepare(load, scale):
        load.fill(topics // scale, size, "fleet/%04d%02d/state")
        words = (1, 1, count // scale, topics // scale, size, 1, "fleet")
        return lambda: load.times("publish", *words)[2]

    return prepare


RATES = {"times": 0.8, "beside_c": True}
CROWD = {"times": 0.5, "always": 0.5, "beside_c": True, "server": for_fleet(FLEET)}

MEASURES = (
    Measure("replacements at QoS 0, one connection", RATE, replaces(0, 1), **RATES),
    Measure("replacements at QoS 0, eight connections", RATE, replaces(0, 8), **RATES),
    Measure("replacements at QoS 1, one connection", RATE, replaces(1, 1), **RATES),
    Measure("replacements at QoS 1, eight connections", RATE, replaces(1, 8), **RATES),
    Measure(
        "replacements at QoS 1, one at a time",
        RATE,
        replaces(1, 1, window=1),
        times=0,
        beside_c=True,
    ),
    Measure("1,000 clients at QoS 1, one at a time each", RATE, crowd, **CROWD),
    Measure("replay of 10,000 messages at QoS 0", RATE, replays(0), times=0.9, always=0.9),
    Measure("answer to `a/b/#`, 10 of 60,000 topics", TIME, answers(*BELOW), times=0.9, always=0.9),
    Measure(
        "longest wait for a PUBACK, 10,000 messages of 64 bytes",
        TIME,
        longest_wait(10_000, 64, 40_000),
        times=0,
        choose=min,
    ),
    Measure(
        "longest wait for a PUBACK, 16,000 messages of 1,000 bytes",
        TIME,
        longest_wait(LARGE, LONG, CHANGES),
        times=0,
        choose=min,
    ),
)


@contextlib.contextmanager
def brokers(options):
    """One broker for each way, by its name, and the folder of files."""
    with contextlib.ExitStack() as stack:
        folder = Path(stack.enter_context(tempfile.TemporaryDirectory()))
        given = {**SERVICE, "topics": TOPICS, "metrics": "127.0.0.1:0", **options}
        opened = {NONE: Server(**given)}
        stack.enter_context(opened[NONE])
        for sync in (NEVER, SECOND, ALWAYS):
            opened[sync] = Server(keep=folder / sync, sync=sync, **given)
            stack.enter_context(opened[sync])
        opened[OTHER] = stack.enter_context(Mosquitto())
        # Another user could not write there.
        location = f"user root\npersistence true\npersistence_location {folder}/\n"
        location += "autosave_interval 1\n"
        opened[OTHER_KEPT] = stack.enter_context(Mosquitto(location))
        yield opened, folder


def told(server):
    """How many commits a server has made, of how many bytes, and of how many changes."""
    with urllib.request.urlopen("http://{}:{}/metrics".format(*server.metrics)) as answer:
        lines = answer.read().decode("ascii").splitlines()
    numbers = dict(line.split() for line in lines if not line.startswith("#"))
    return [int(numbers[name]) for name in TOLD]


def rate_in_c(path, folder, commits, written, changes, scale):
    """The changes a second of a program that only writes and syncs: as many of them in a commit,
    and as many bytes."""
    count = max(10, C_COMMITS // scale)
    size = max(1, written // commits)
    words = [path, "0", "commits", f"{folder}/plain", str(count), str(size), str(max(LOG, size))]
    run = subprocess.run(words, capture_output=True, text=True, check=True)
    return changes / commits * count * 1e6 / float(run.stdout)


def values(measure, path, runs, scale):
    """What each way has, and the C program in the end, if it is asked."""
    with brokers(measure.server) as (opened, folder):
        tools = {way: measure.prepare(Load(path, own), scale) for way, own in opened.items()}
        found = {way: [] for way in WAYS}
        plain, always = [], opened[ALWAYS]
        for _, way in itertools.product(range(runs), WAYS):
            before = told(always)
            found[way].append(tools[way]())
            if way == ALWAYS and measure.beside_c:
                made = [now - then for now, then in zip(told(always), before)]
                plain.append(rate_in_c(path, folder, *made, scale))
    chosen = {way: measure.choose(each) for way, each in found.items()}
    return chosen, measure.choose(plain) if plain else None


def missed(measure, found, plain):
    """What is not reached."""
    for way in (NEVER, SECOND):
        ratio = measure.ratio(found[way], found[NONE])
        if ratio < measure.times:
            yield f"{measure.name}, {way}: {ratio:.2f}, and {measure.times} is wanted"
    if plain is not None and found[ALWAYS] < 0.7 * plain:
        share = f"{found[ALWAYS] / plain:.2f} of a program that only writes and syncs"
        yield f"{measure.name}, {ALWAYS}: {share}, and 0.7 is wanted"
    ratio = measure.ratio(found[ALWAYS], found[NONE])
    if measure.always is not None and ratio < measure.always:
        yield f"{measure.name}, {ALWAYS}: {ratio:.2f}, and {measure.always} is wanted"


def table(path):
    """Prints the table; whether all that is wanted is reached."""
    print(f"mosquitto {debian.version('mosquitto')}; {processors()}\n")
    columns = [*WAYS, "writes and syncs alone"]
    print(f"| Measure | {' | '.join(columns)} |\n|---{len(columns) * '|---'}|")
    lacking = []
    for measure in MEASURES:
        found, plain = values(measure, path, RUNS, scale=1)
        texts = [shown(found[way]) for way in WAYS] + [shown(plain) if plain else ""]
        print(f"| {measure.name}, {measure.unit} | {' | '.join(texts)} |", flush=True)
        lacking += missed(measure, found, plain)
    for line in lacking:
        print(f"\nnot reached: {line}")
    return not lacking


def once(path):
    for measure in MEASURES:
        values(measure, path, runs=1, scale=100)
    print("kept: each measure was made once")


def main():
    words = given_words("--once")
    if not debian.has(PACKAGES):
        return
    with compiled_load() as path:
        if "--once" in words:
            once(path)
        elif not table(path):
            sys.exit(1)


if __name__ == "__main__":
    main()
