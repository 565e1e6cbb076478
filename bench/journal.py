"""Times a journal over real files: commits of some changes, with and without a sync, and openings
that find messages."""

import contextlib
import sys
import tempfile
import time

from bench.measure import least, with_rounds
from harness.journal import Shell, numbered

CHANGES = (1, 8, 64)
# How often a commit is made, by the command that makes it with or without a sync.
COMMITS = {"unsynced": 5_000, "often": 1_000}
MESSAGES = (10_000, 65_536)

# So many microseconds a commit that is not synced may take, and each of its changes.
COMMIT_LIMIT, CHANGE_LIMIT = 5, 0.3
# So many seconds an opening may take that finds the most messages.
READ_LIMIT = 0.3


# The payload of a change whose record has some 120 bytes, and of a message that is found again.
CHANGE, MESSAGE = 76, 100


def sets(count, payload):
    """The records of Sets of so many topics, in hex digits."""
    return b"".join(numbered(number, payload, False) for number in range(count)).hex()


def seconds(journal, command):
    """The seconds that a command takes, and what it is answered."""
    start = time.monotonic()
    answer = journal.do(command)
    return time.monotonic() - start, answer


@contextlib.contextmanager
def shell():
    """The program in a folder of its own, with an open journal."""
    with tempfile.TemporaryDirectory() as folder, Shell(folder) as journal:
        journal.do("open")
        yield journal


def commit_micros(command, commits):
    """The microseconds of a commit, by the number of its changes, and of the longest checkpoint. An
    opening between them keeps only the message of each topic."""
    best = {"checkpoint": 0}
    with shell() as journal:
        for changes in CHANGES:
            took = int(journal.do(command, commits, sets(changes, CHANGE)))
            best[changes] = took / commits / 1_000
            found = int(journal.do("retain"))
            if found != changes:
                sys.exit(f"bench: {found} topics with a message, and {changes} were set")
            best["checkpoint"] = max(best["checkpoint"], seconds(journal, "checkpoint")[0] * 1e6)
    return best


def show_commits(task, best):
    shown = ", ".join(f"{changes} changes {best[changes]:.1f} us" for changes in CHANGES)
    last = best["checkpoint"] / 1_000
    print(f"a commit to a journal, {task}: {shown}; the longest checkpoint {last:.0f} ms")


@with_rounds
def commits_are_short(tries=3):
    """Whether a commit that is not synced takes no longer than it may."""
    best = least(tries, commit_micros, "unsynced", COMMITS["unsynced"])
    show_commits("unsynced", best)
    limits = {changes: COMMIT_LIMIT + CHANGE_LIMIT * changes for changes in CHANGES}
    wanted = ", ".join(f"{limits[changes]:.1f} us" for changes in CHANGES)
    print(f"  (less than {wanted} wanted)")
    return all(best[changes] < limits[changes] for changes in CHANGES)


def read_seconds(messages):
    """The seconds of an opening that finds so many messages: in the log, and in the pages."""
    best = {}
    with shell() as journal:
        journal.do("push", sets(messages, MESSAGE))
        journal.do("commit")
        for where in ("log", "pages"):
            journal.do("close")
            best[where], found = seconds(journal, "retain")
            if int(found) != messages:
                sys.exit(f"bench: {found} messages found, and {messages} were kept")
            journal.do("checkpoint")
    return best


@with_rounds
def openings_are_short(tries=3):
    """Whether the most messages are found soon enough."""
    for messages in MESSAGES:
        best = least(tries, read_seconds, messages)
        shown = f"in the log {best['log']:.3f} s, in the pages {best['pages']:.3f} s"
        print(f"{messages:,} messages found in a journal, {shown} (less than {READ_LIMIT} wanted)")
    return max(best.values()) < READ_LIMIT


def is_fast():
    show_commits("synced", least(3, commit_micros, "often", COMMITS["often"]))
    return all([commits_are_short(), openings_are_short()])


def once():
    commit_micros("unsynced", 10)
    commit_micros("often", 10)
    read_seconds(1_000)
