"""Times the calls of a tree of topics, and looks at its memory."""

from bench.measure import least, peak_memory, trial, with_rounds

# What the tasks on a tree time, in the order in which bench_timings prints it.
TIMED = {
    "tree": ("set", "replace", "answer_all", "answer_one", "answer_below", "answer_last", "clear"),
    "full": ("space", "full", "sweep"),
}

# With how many topics a tree is timed.
TREES = (1_000, 10_000, 65_536)

# The answers for which a tree does not walk over all topics. Their time is that of one answer, any
# other that of one topic.
DIRECT = ("answer_one", "answer_below")

# How many times as long one topic, or one such answer, may take among 65,536 topics as among
# 10,000. A logarithm, and what no longer fits the caches, make it two to three times; a step in
# each call that grows with the topics would make it more than six and a half.
EACH_LIMIT = 5

# The nanoseconds that the tree may take to answer a filter of one topic among 65,536.
ONE_LIMIT = 1_000

# With how many topics the adds to a full tree are timed. An add that finds it full and nothing
# expired may take so many times as long as one that finds space.
FULL_TOPICS = (10_000, 65_536)
FULL_LIMIT = 2

# The milliseconds that an add may take that sweeps half of 65,536 topics.
SWEEP_LIMIT = 50

# Topics of the most levels, of which two or nine share all levels but the last: two in a bucket,
# nine below a branch.
DEEP = 65_536
DEEP_BYTES = len(b"00000/" + 126 * b"a/" + b"a")

# The bytes that the tree may take for such a topic and a message of 64 bytes.
DEEP_LIMIT = 1_000 + 3 * DEEP_BYTES


def tree_times(task, topics, tries=5):
    """By name, the nanoseconds that the calls of a task on a tree take with so many topics: all
    Sets, replacements and Clears, and one answer to each filter, or the adds to a full tree. The
    least of some runs."""
    return least(tries, trial, TIMED[task], task, topics)


def tree_grows_slowly(name, times):
    """Whether a call takes about as long for each topic among many topics as among fewer, or for
    each answer."""
    is_direct = name in DIRECT
    each = [nanos if is_direct else nanos / topics for nanos, topics in zip(times, TREES)]
    grown = each[2] / each[1]
    shown = ", ".join(f"{nanos:,.1f}" for nanos in each)
    unit = "an answer" if is_direct else "a topic"
    limit = f"{grown:.1f} times (less than {EACH_LIMIT} wanted)"
    print(f"tree, {name} over 1,000, 10,000 and 65,536 topics: {shown} ns {unit}; {limit}")
    return grown < EACH_LIMIT


@with_rounds
def tree_is_fast():
    """Whether the calls of a tree take little longer among many topics, and it finds one topic at
    once."""
    runs = [tree_times("tree", topics) for topics in TREES]
    good = all([tree_grows_slowly(name, [run[name] for run in runs]) for name in runs[0]])
    one = runs[2]["answer_one"]
    print(f"tree, answer to one topic among 65,536: {one} ns (at most {ONE_LIMIT} wanted)")
    return good and one <= ONE_LIMIT


@with_rounds
def full_adds_are_short():
    """Whether a full tree refuses a Set about as fast as it takes one, and sweeps half of its
    topics fast."""
    good = True
    for topics in FULL_TOPICS:
        times = tree_times("full", topics)
        grown = times["full"] / times["space"]
        swept = times["sweep"] / 1_000_000
        add = f"tree, {topics:,} topics: an add that"
        space = f"{grown:.2f} times as long as one that finds space (at most {FULL_LIMIT} wanted)"
        print(f"{add} finds it full takes {space}")
        short = f"{swept:.1f} ms (less than {SWEEP_LIMIT} wanted)"
        print(f"{add} sweeps half of them takes {short}")
        good = grown <= FULL_LIMIT and swept < SWEEP_LIMIT and good
    return good


def deep_topics_are_small(topics=DEEP):
    """Whether the memory of a tree is bounded by the bytes of its topics, however many levels they
    share."""
    kilobytes = peak_memory("keep_deep", topics) - peak_memory("keep_deep", 1)
    each = kilobytes * 1024 / topics
    name = f"tree, {topics:,} topics of 128 levels, of which two or nine share 127"
    shown = f"{each:.0f} bytes a topic of {DEEP_BYTES} bytes (less than {DEEP_LIMIT} wanted)"
    print(f"{name}: {shown}")
    return each < DEEP_LIMIT


def is_fast():
    return all([tree_is_fast(), full_adds_are_short(), deep_topics_are_small()])


def once():
    for task in ("tree", "full"):
        tree_times(task, TREES[0], tries=1)
    peak_memory("keep_deep", 100)
