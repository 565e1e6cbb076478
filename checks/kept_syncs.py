"""When a server that keeps its messages syncs them, by the syncs that a library counts. Part of
`checks/kept`."""

import time

from checks.full_memory import comes
from checks.kept_disk import Publisher
from checks.kept_messages import change
from checks.kept_server import controls, folder, kept
from checks.listening_messages import wanted
from harness.client import Client
from harness.packets import PUBACK, puback

# The changes that each policy is tried with, the bytes that each has at least, and their topics:
# the log is copied some times, and the journal is not shortened.
CHANGES, LONG, TOPICS = 200, 60_000, 100
# A copy of the log takes so many syncs at least: of the log before it, of the pages behind it.
FEWEST = 2
# Publications that a client sends in one piece, and the most commits that they take.
BURST, FEW = 256, 64


def a_publisher():
    return Publisher([b"synced/%03d" % number for number in range(TOPICS)], LONG)


def counts(sync):
    """How many syncs each change had, and the seconds that all took. The first one copies the log,
    as after each opening, and is left out."""
    own, found = a_publisher(), []
    with controls() as made, folder() as path:
        control = made()
        with kept(path, sync=sync, environment=control.environment) as server:
            wanted(own.publish(server) == PUBACK, "a change was refused")
            began, before = time.monotonic(), control.get("syncs")
            for _ in range(CHANGES):
                wanted(own.publish(server) == PUBACK, "a change was refused")
                now = control.get("syncs")
                found.append(now - before)
                before = now
            took = time.monotonic() - began
    return found, took


def each_policy():
    """`always` syncs for each change. `never` syncs only while it copies the log, and then the log
    and the pages. `second` does so, too, and else at most each second."""
    always, _ = counts("always")
    wanted(min(always) >= 1, f"always: {always}")
    never, _ = counts("never")
    copies = [count for count in never if count > 0]
    wanted(0 < len(copies) <= CHANGES // 20, f"never: {never}")
    wanted(min(copies) >= FEWEST, f"never: {never}")
    second, took = counts("second")
    copies = [count for count in second if count >= FEWEST]
    wanted(copies and len(copies) <= CHANGES // 20 + took, f"second: {second}")
    wanted(sum(count == 1 for count in second) <= took + 1, f"second: {second} in {took} seconds")
    print(f"kept: syncs of {CHANGES} changes: {sum(always)}, {sum(second)}, {sum(never)}")


def each_second():
    """`second` syncs what was written, without another change."""
    own = a_publisher()
    with controls() as made, folder() as path:
        control = made()
        with kept(path, sync="second", environment=control.environment) as server:
            # The first change copies the log.
            wanted(own.publish(server) == PUBACK, "a change was refused")
            for _ in range(3):
                before = control.get("syncs")
                wanted(own.publish(server) == PUBACK, "a change was refused")
                wanted(comes(lambda: control.get("syncs") > before), "nothing was synced")


def a_burst():
    """Publications that a client sends in one piece take few commits, so few syncs."""
    names = [b"burst/%03d" % number for number in range(BURST)]
    with controls() as made, folder() as path:
        control = made()
        with kept(path, environment=control.environment) as server:
            with Client(server).connect() as client:
                client.ask(change(b"burst/first", 1, 1, 0), PUBACK)
                before = control.get("syncs")
                sent = [change(name, 1, at + 1, 0) for at, name in enumerate(names)]
                client.ask(b"".join(sent), b"".join(puback(at + 1) for at in range(BURST)))
                syncs = control.get("syncs") - before
    wanted(syncs <= FEW, f"{BURST} publications took {syncs} syncs")
    print(f"kept: {BURST} publications in one piece took {syncs} syncs")


CHECKS = (each_policy, each_second, a_burst)
