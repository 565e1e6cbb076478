"""A disk that fails, or is full, under a server that keeps its messages. Part of `checks/kept`."""

import contextlib
import errno
import itertools
import os
import random
import shutil
import subprocess
import tempfile
import time
from pathlib import Path

from checks.full_memory import comes
from checks.kept_messages import Notes, change
from checks.kept_server import IN_DOUBT, Crowd, controls, folder, kept, read, replay, told_in
from checks.listening_messages import publish, replayed, topic, wanted
from checks.metrics_requests import numbers_of
from harness.client import Client
from harness.packets import NO_SPACE, PUBACK
from harness.patience import PATIENCE

# The topics of a publisher.
NAMES = [b"disk/%d" % number for number in range(5)]
# The size of a small disk and of a large one, in megabytes, and of a message on it, in bytes.
SMALL_DISK, LARGE_DISK, LONG = 4, 32, 1_000
# How many writes a commit has. The last one is of a byte that the log already has.
WRITES = 3
# So many changes have to be refused before the disk counts as full.
REFUSED = 20


class Publisher:
    """Publishes one change at a time, and knows how each was answered."""

    def __init__(self, names, size=0):
        self.names, self.size, self.next = names, size, 0
        self.notes = Notes(self.names)
        self.keep_notes()

    def keep_notes(self):
        self.then = dict(self.notes.sent), dict(self.notes.told)

    def go_back(self):
        """To when the notes were kept."""
        self.notes.sent, self.notes.told = map(dict, self.then)

    def publish(self, server):
        """Makes a change by a client of its own. How it was answered."""
        name = self.names[self.next % len(self.names)]
        self.next += 1
        number = self.notes.sent[name] + 1
        self.notes.sent[name] = number
        with Client(server).connect() as client:
            client.send(change(name, number, 1, self.size))
            answer = client.take_packet()
        if answer == PUBACK:
            self.notes.tell(name, number)
        elif answer == NO_SPACE:
            # It never comes back.
            self.notes.sent[name] = number - 1
        else:
            wanted(answer == IN_DOUBT, f"{answer.hex()} came")
        return answer

    def try_to_publish(self, server):
        """Makes a change at a server that may end the connection without an answer."""
        with contextlib.suppress(OSError, AssertionError):
            self.publish(server)

    def look(self, server):
        with Client(server).connect() as client:
            read(client, self.notes, self.size)

    def start_again(self, path):
        """A server finds what it has to, and takes changes."""
        with kept(path) as server:
            self.look(server)
            # The first one copies the log.
            answers = {self.publish(server) for _ in range(2)}
            self.look(server)
        wanted(answers == {PUBACK}, "a server that was started again refuses changes")


def a_failing_call(made, path, publisher, fail, ahead):
    """One server, at which a call fails behind so many changes. How the changes behind it were
    answered, and those once calls succeed again. All is read as before."""
    control = made()
    with kept(path, environment=control.environment) as server:
        for _ in range(ahead):
            wanted(publisher.publish(server) == PUBACK, "a change was refused")
        fail(control)
        answers = [publisher.publish(server) for _ in NAMES]
        wanted(control.has_failed(), f"no call failed behind {ahead} changes")
        publisher.look(server)
        control.heal()
        later = [publisher.publish(server) for _ in NAMES]
        publisher.look(server)
    publisher.start_again(path)
    return answers, later


def are_right(answers, later, is_doubtful):
    """Whether changes are answered so while calls fail, and once they succeed again.

    A write that fails refuses its change alone. If a sync fails, or the last write of a commit, its
    change is in doubt or refused, and each one behind it is refused until a restart.
    """
    if not is_doubtful:
        return IN_DOUBT not in answers and set(later) == {PUBACK}
    first = next((at for at, answer in enumerate(answers) if answer != PUBACK), len(answers))
    return set(answers[first + 1 :] + later) == {NO_SPACE}


def failing_calls():
    """While writes fail, because the disk is full or otherwise, changes are refused, and not kept,
    and the next ones are taken once writes succeed. A sync that fails, or the last write of a
    commit, leaves a change in doubt, and each later one is refused until a restart."""
    full, broken, ever = errno.ENOSPC, errno.EIO, 1 << 40
    ways = {
        "all writes to a full disk": lambda own: own.fail_writes(full),
        "a write": lambda own: own.fail_writes(broken, count=1),
        "the last write": lambda own: own.fail_writes(full, WRITES, 1),
        "a sync": lambda own: own.fail_syncs(broken),
        "all syncs": lambda own: own.fail_syncs(broken, ever),
    }
    with controls() as made:
        for what, fail in ways.items():
            with folder() as path:
                publisher = Publisher(NAMES)
                # The call before the first change is one of the copying of the log.
                for ahead in range(int(what == "the last write"), 3):
                    answers, later = a_failing_call(made, path, publisher, fail, ahead)
                    shown = [answer.hex() for answer in answers + later]
                    told = f"{what}, behind {ahead} changes: {shown}"
                    is_doubtful = "sync" in what or "last" in what
                    wanted(are_right(answers, later, is_doubtful), told)
                    # One write may be of a commit that is tried again.
                    is_hidden = what == "a write" or ahead == 0
                    wanted(set(answers) != {PUBACK} or is_hidden, told)


def told_failures():
    """The log and the metrics say that the disk refuses changes while writes fail, and takes them
    again; and that it failed, if a sync did: of a change, or of the copy of the log that comes
    before the first change."""
    with controls() as made:
        for ahead, is_sync in itertools.product((0, 2), (True, False)):
            with folder() as path:
                publisher = Publisher(NAMES)
                with kept(path) as server:
                    wanted(publisher.publish(server) == PUBACK, "a change was refused")
                a_told_failure(made(), path, publisher, ahead, is_sync)


def a_told_failure(control, path, publisher, ahead, is_sync):
    """One server, which tells of what it keeps, and of a call that fails behind so many changes."""
    log = path.parent / "log"

    def tells(line, is_refusing):
        """The log has this line, if not now, then after more changes, and the metrics say so."""

        def is_there():
            publisher.publish(server)
            return line in log.read_text()

        wanted(comes(is_there), f"behind {ahead} changes {line!r} is not in {log.read_text()!r}")
        told = numbers_of(server)["rstored_journal_refusing"]
        wanted(told == is_refusing, f"the log says {line!r}, and the metrics {told}")

    options = {"environment": control.environment, "inside": told_in(log)}
    with kept(path, log=True, metrics="127.0.0.1:0", **options) as server:
        for _ in range(ahead):
            publisher.publish(server)
        if is_sync:
            control.fail_syncs(errno.EIO)
            tells("the disk failed, and changes are refused until a restart: ", True)
        else:
            control.fail_writes(errno.ENOSPC)
            tells("the disk refuses changes: No space left on device", True)
            healed = "the disk takes changes again"
            wanted(healed not in log.read_text(), "the log says that a full disk takes changes")
            control.heal()
            tells(healed, False)
        is_told = "the folder keeps 1 topics" in log.read_text()
        wanted(is_told, "the log does not say what the folder keeps")


def a_failed_sync_of_a_second():
    """If a sync fails that is made each second, each later change is refused until a restart, and
    all is read."""
    publisher = Publisher(NAMES)
    with controls() as made, folder() as path:
        control = made()
        with kept(path, sync="second", environment=control.environment) as server:
            wanted(publisher.publish(server) == PUBACK, "a change was refused")
            control.fail_syncs(errno.EIO)
            began = time.monotonic()
            while publisher.publish(server) == PUBACK:
                wanted(time.monotonic() - began < PATIENCE, "a sync failed, and changes are taken")
                time.sleep(0.1)
            later = {publisher.publish(server) for _ in NAMES}
            wanted(later == {NO_SPACE}, "after a failed sync a change is not refused")
            publisher.look(server)
        publisher.start_again(path)


def failures_under_load(count=6):
    """The disk is full for some writes, again and again, and then a call fails, while a crowd
    publishes and reads. Nothing that was told is lost."""
    crowd = Crowd(4, 4, 2)
    with controls() as made, folder() as path:
        for number in range(count):
            control = made()
            options = {"places": 4, "clients": 20, "environment": control.environment}
            with kept(path, **options) as server:
                crowd.look(server)
                crowd.work(server, lambda: fail_often(control, number % 2 == 0), may_fail=True)
        with kept(path) as server:
            crowd.look(server)


def fail_often(control, is_sync):
    """Lets calls fail, some time after one another, at the end a sync if that is said."""
    for number in range(5):
        control.fail_writes(errno.ENOSPC, random.randint(1, 20), random.randint(1, 20))
        # If the last write of a commit fails, no other is tried.
        is_there = number > 0 or comes(control.has_failed)
        wanted(is_there, "no write failed")
        time.sleep(0.05)
    if is_sync:
        control.fail_syncs(errno.EIO)
        time.sleep(0.1)


@contextlib.contextmanager
def small_disk():
    """A folder on a disk of its own in memory, or None where that may not be made."""
    with tempfile.TemporaryDirectory() as path:
        made = mount(path, SMALL_DISK)
        try:
            yield Path(path) if made else None
        finally:
            if made:
                subprocess.run(["umount", "--lazy", path], check=True)


def mount(path, size, *more):
    """Whether a disk of so many megabytes is there."""
    if os.geteuid() != 0 or shutil.which("mount") is None:
        return False
    words = ["mount", "-t", "tmpfs", "-o", ",".join([*more, f"size={size}m"]), "tmpfs", path]
    return subprocess.run(words, capture_output=True).returncode == 0


def long_message(number):
    return b"%d " % number + LONG * b"x"


def fill(client, numbers):
    """Publishes on new topics, one by one, until some were refused. Those that were taken."""
    taken, refused = [], 0
    for number in numbers:
        client.send(publish(topic(number), long_message(number)))
        answer = client.take_packet()
        wanted(answer in (PUBACK, NO_SPACE), f"{answer.hex()} came")
        if answer == PUBACK:
            taken.append(number)
        refused += answer == NO_SPACE
        if refused == REFUSED:
            return taken
    raise AssertionError(f"a full disk refused {refused} changes")


def has_all(server, numbers):
    """A client reads just these."""
    with Client(server).connect() as client:
        found = replay(client)
        client.disconnect()
    kept = [replayed(topic(number), long_message(number)) for number in sorted(numbers)]
    wanted(found == kept, f"{len(found)} messages are there, and {len(kept)} were taken")


def a_full_disk():
    """A disk is full, and later larger. Changes are refused, and taken then by the same server;
    what is there is read all the time, and after a kill."""
    with small_disk() as disk:
        if disk is None:
            print("kept: skipped a full disk, which only root can mount")
            return
        path = disk / "kept"
        with kept(path, topics=65_536) as server, Client(server).connect() as client:
            taken = fill(client, range(10_000))
            has_all(server, taken)
        with kept(path, topics=65_536) as server, Client(server).connect() as client:
            has_all(server, taken)
            taken += fill(client, range(10_000, 20_000))
            has_all(server, taken)
            wanted(mount(disk, LARGE_DISK, "remount"), "the disk does not get larger")
            more = range(20_000, 21_000)
            for number in more:
                client.ask(publish(topic(number), long_message(number)), PUBACK)
            has_all(server, [*taken, *more])
        with kept(path, topics=65_536) as server:
            has_all(server, [*taken, *more])
        told = f"{len(taken)} messages of {LONG} bytes on a disk of {SMALL_DISK} MB"
        print(f"kept: {told}, {len(more)} more once it was larger")
