"""A server that keeps its messages is killed at random moments, or loses power. Part of
`checks/kept` and of `checks/long`."""

import random
import tempfile
import time

from checks.full_memory import comes
from checks.kept_server import Crowd, Control, controls, cut_power, folder, kept
from checks.listening_messages import wanted
from harness.patience import PATIENCE
from harness.program import preloaded

# The clients of a crowd: those that publish at QoS 1 and at QoS 0, and readers.
LARGE, SMALL = (8, 50, 4), (4, 4, 2)
# How many places, and all clients share them.
PLACES = (1, 4, 16)
# The seconds after which a server is killed at the latest, once its clients have begun.
LONGEST = 0.6
# How many writes ahead a write is torn at most.
MOST_AHEAD = 60


def options(crowd, number):
    """The options of a server: in turns few places and many, each way to sync."""
    places = PLACES[number % len(PLACES)]
    sync = ("always", "second", "never")[number // len(PLACES) % 3]
    return {"places": places, "clients": crowd.count() + places, "sync": sync}


def go_on(crowd):
    """Lets a crowd publish until anybody was told of anything, and then for a random time."""
    wanted(comes(lambda: any(crowd.notes.told.values())), "nobody was told of anything")
    time.sleep(random.uniform(0, LONGEST))


def kills(count=20):
    """Eight clients publish at QoS 1, 16 in flight, 50 at QoS 0, and four read, again and again on
    the same folder, until the server is killed. No topic is ever older than what anybody was told
    of it, and each message is whole."""
    crowd = Crowd(*LARGE)
    with folder() as path:
        for number in range(count):
            with kept(path, **options(crowd, number)) as server:
                crowd.look(server)
                crowd.work(server, lambda: go_on(crowd))
        with kept(path) as server:
            crowd.look(server)
    told = sum(crowd.notes.told.values())
    print(f"kept: {count} kills, {told:,} changes were told: nothing is older")


def power_cuts(count=10):
    """The same with a loss of power in place of a kill, if each change is synced: of what was
    written since the last sync of each file some blocks are there, and others are not."""
    crowd = Crowd(*SMALL)
    lose_power(crowd, count, ("always",), lambda: None)
    told = sum(crowd.notes.told.values())
    print(f"kept: {count} losses of power, {told:,} changes were told: nothing is older")


def unsynced_power_cuts(count=4):
    """If changes are synced each second, or never, a loss of power may take back what was told. All
    that is left are whole messages of an earlier moment, and the server starts."""
    crowd = Crowd(*SMALL, size=2_000)
    lose_power(crowd, count, ("never", "second"), crowd.notes.forget)
    print(f"kept: {count} losses of power without syncs: what is left is whole")


def lose_power(crowd, count, syncs, forget):
    """Lets a crowd publish on the same folder, and takes the power, again and again. What was told
    before is forgotten then, or not."""
    with tempfile.TemporaryDirectory() as own, folder() as path:
        environment = {"LD_PRELOAD": preloaded("synced_files", own)}
        for number in range(count):
            given = options(crowd, number) | {"environment": environment}
            with kept(path, **given | {"sync": syncs[number % len(syncs)]}) as server:
                crowd.look(server)
                crowd.work(server, lambda: go_on(crowd))
            cut_power(path)
            forget()
        with kept(path) as server:
            crowd.look(server)


def torn_writes(count=18):
    """The server ends within a write, of which a part was written. Nothing that was told is lost,
    whichever write that is."""
    crowd, torn = Crowd(2, 1, 1), 0
    with controls() as made, folder() as path:
        for number in range(count):
            control = made()
            with kept(path, environment=control.environment, **options(crowd, number)) as server:
                crowd.look(server)
                ahead, part = random.randint(1, MOST_AHEAD), random.randint(0, 1_000)
                control.fail_writes(Control.TORN, ahead, 1, part)
                crowd.work(server, lambda: server.run.wait(PATIENCE), may_fail=True)
                torn += control.get("writes") >= control.get("first_write")
        with kept(path) as server:
            crowd.look(server)
    wanted(torn == count, f"{torn} of {count} servers ended in a write")
    print(f"kept: {count} torn writes: nothing is older")
