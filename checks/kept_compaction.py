"""A folder whose journal gets long, so that the server compacts it. Part of `checks/kept`."""

import random
import re
import shutil
import time

from checks.kept_disk import Publisher
from checks.kept_server import FILES, Control, Crowd, controls, folder, kept, told_in
from checks.listening_messages import wanted
from checks.metrics_requests import numbers_of
from harness.patience import PATIENCE

# Topics, and the bytes that each message of them has at least.
TOPICS, LONG = 30, 60_000
# So many bytes are published in all, and the folder takes at most so many: a journal of 16 MB, or
# of five times what the messages take, and a log of as many pages as are copied at once.
PUBLISHED, MOST = 60 << 20, 28 << 20
# How the log says that the journal was shortened.
SHORTENED = re.compile("the journal was shortened from ([0-9]+) to ([0-9]+) bytes")
# The length from which a journal is compacted, less five messages.
NEAR = (16 << 20) - 5 * LONG


def publisher():
    return Publisher([b"large/%02d" % number for number in range(TOPICS)], LONG)


def size(path):
    return sum((path / name).stat().st_size for name in FILES)


def bounded():
    """However much is published, the folder stays small, and what was told stays. The log says that
    the journal was shortened."""
    own, published, most = publisher(), 0, 0
    with folder() as path:
        log = path.parent / "log"
        with kept(path, log=True, inside=told_in(log)) as server:
            while published < PUBLISHED:
                own.publish(server)
                published += LONG
                most = max(most, size(path))
        own.start_again(path)
        lengths = SHORTENED.findall(log.read_text())
    is_shorter = lengths and all(int(after) < int(before) for before, after in lengths)
    wanted(is_shorter, f"the log tells of these lengths: {lengths}")
    told = f"{published >> 20} MB published, at most {most / (1 << 20):.1f} MB kept"
    wanted(most <= MOST, told)
    print(f"kept: {told}")


def before_compaction(path, template, own):
    """Leaves in the template a folder that is compacted at the next change, and in the publisher's
    notes what was told by then."""
    with kept(path, metrics="127.0.0.1:0") as server:
        before = 0
        for _ in range(1_000):
            now = numbers_of(server)["rstored_journal_bytes"]
            if now < before:
                return
            before = now
            if now > NEAR:
                shutil.rmtree(template, ignore_errors=True)
                shutil.copytree(path, template)
                own.keep_notes()
            own.publish(server)
    raise AssertionError("the journal does not get shorter")


def torn(path, template, own, control, ahead):
    """Starts a server on the template that ends in a write, so many ahead, and looks at what it
    left. Whether it ended so."""
    shutil.rmtree(path, ignore_errors=True)
    shutil.copytree(template, path)
    own.go_back()
    with kept(path, environment=control.environment) as server:
        if ahead:
            control.fail_writes(Control.TORN, ahead, 1, random.randint(0, 1_000))
        before = control.get("writes")
        try:
            own.publish(server)
        except (AssertionError, OSError):
            wanted(ahead, "a change was not answered")
            server.run.wait(PATIENCE)
        writes = control.get("writes") - before
    own.start_again(path)
    return writes


def torn_compactions(count=8):
    """The server ends within a write of a compaction, whichever that is. Nothing that was told is
    lost."""
    own = publisher()
    with controls() as made, folder() as path:
        template = path.parent / "template"
        before_compaction(path, template, own)
        writes = torn(path, template, own, made(), 0)
        chosen = sorted(random.sample(range(1, writes), min(count, writes - 1)))
        for ahead in chosen:
            wanted(torn(path, template, own, made(), ahead) == ahead, "no write was torn")
    print(f"kept: {len(chosen)} ends within the {writes} writes of a compaction: nothing is older")


def kills_of_long_journals(count=3, most=2.0):
    """A crowd publishes so much that the journal is compacted again and again, and the server is
    killed at random moments. Nothing that was told is lost."""
    crowd = Crowd(8, 8, 2, size=LONG)
    with folder() as path:
        for number in range(count):
            sync = ("always", "second", "never")[number % 3]
            with kept(path, places=4, clients=30, sync=sync) as server:
                crowd.look(server)
                crowd.work(server, lambda: time.sleep(random.uniform(most / 2, most)))
        with kept(path) as server:
            crowd.look(server)
        published = sum(crowd.notes.told.values()) * LONG
    print(f"kept: {count} kills, at least {published >> 20} MB published: nothing is older")


CHECKS = (bounded, torn_compactions, kills_of_long_journals)
