"""Times puts into a store of versions beside seats that read it all the time, and the opening of
one that begins with messages, and looks at the memory of its copies."""

from bench.measure import least, peak_memory, trial, with_rounds

TOPICS = (100, 10_000, 65_536)
READERS = (0, 3, 63)

# How long a run lasts at least.
MILLIS = 500

# The milliseconds that a put may take that sweeps half of so many topics beside so many seats.
SWEEP_LIMIT = 50
SWEEP_LOAD = (65_536, 3)

# The milliseconds that the opening of a store may take that begins with so many messages.
OPENING_LIMIT = 500
GIVEN = 65_536

# How many times the memory of one catalogue the two of a store of versions may take. They share
# their messages; two that shared nothing would take twice as much.
MEMORY_LIMIT = 2
MESSAGES = 60_000

# How many bytes a message of 64 bytes at a topic of 64 bytes may take in the two catalogues
# together, its packet aside.
EACH_LIMIT = 600


def run(topics, readers, millis=MILLIS):
    """By name, the number of rounds in a run of so many milliseconds, and the nanoseconds that
    their puts took."""
    names = ("rounds", "new", "replace", "sweep")
    return trial(names, "versions", topics, readers, millis)


def put_micros(topics, readers):
    """By name, the microseconds of a put in a run."""
    made = run(topics, readers)
    return {name: made[name] / made["rounds"] / 1_000 for name in ("new", "replace")}


def put_times(topics, readers, tries=3):
    """Prints how long a put takes; the least of some runs."""
    best = least(tries, put_micros, topics, readers)
    shown = f"new {best['new']:.1f} us, replacement {best['replace']:.1f} us"
    print(f"put beside {readers} seats that read, {topics:,} topics: {shown}")


@with_rounds
def sweeps_are_short(tries=3):
    """Whether a put that sweeps half of the topics keeps no other waiting for long."""
    topics, readers = SWEEP_LOAD
    took = least(tries, run, topics, readers)["sweep"] / 1_000_000
    name = f"put that sweeps half of {topics:,} topics beside {readers} seats that read"
    print(f"{name}: {took:.1f} ms (less than {SWEEP_LIMIT} wanted)")
    return took < SWEEP_LIMIT


def opening_millis(given):
    """The milliseconds that an opening with so many messages takes."""
    return trial(("open",), "open", given)["open"] / 1_000_000


@with_rounds
def opening_is_short(tries=3):
    """Whether a store that begins with messages opens soon."""
    took = least(tries, opening_millis, GIVEN)
    name = f"opening of a store with {GIVEN:,} messages"
    print(f"{name}: {took:.0f} ms (at most {OPENING_LIMIT} wanted)")
    return took <= OPENING_LIMIT


def copies_share():
    """Whether two copies take less than twice the memory of one catalogue."""
    one, two = (peak_memory(task, MESSAGES) for task in ("keep", "keep_versions"))
    times = two / one
    shown = f"one catalogue {one:,} kB, two copies {two:,} kB; {times:.2f} times"
    print(f"memory of {MESSAGES:,} messages: {shown} (less than {MEMORY_LIMIT} needed)")
    return times < MEMORY_LIMIT


def copies_are_small():
    """Whether one more topic takes little memory in two copies."""
    few, many = (peak_memory("keep_versions", topics) for topics in (MESSAGES // 2, MESSAGES))
    each = (many - few) * 1024 / (MESSAGES - MESSAGES // 2)
    shown = f"{each:.0f} bytes (at most {EACH_LIMIT} wanted)"
    print(f"memory of a topic of 64 bytes in two copies: {shown}")
    return each <= EACH_LIMIT


def is_fast():
    for topics in TOPICS:
        for readers in READERS:
            put_times(topics, readers)
    return all([sweeps_are_short(), opening_is_short(), copies_share(), copies_are_small()])


def once():
    for readers in READERS:
        run(TOPICS[0], readers, 10)
    run(TOPICS[-1], 1, 10)
    opening_millis(GIVEN)
    for task in ("keep", "keep_versions"):
        peak_memory(task, TOPICS[0])
