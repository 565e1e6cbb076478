"""What other checks do, at a server that keeps its messages. Part of `checks/kept`."""

import os
import tempfile
import threading
import time
from concurrent.futures import ThreadPoolExecutor
from types import SimpleNamespace

from checks.full_memory import CLIENTS, SPACES, full_server, payload, read_all, settings
from checks.kept_disk import NAMES, Publisher
from checks.kept_server import CANNOT_KEEP, folder, kept, replay
from checks.listening_messages import replayed, topic, wanted
from checks.listening_store import History, is_no_later
from checks.worked import examples
from harness.client import Client
from harness.in_order import in_order
from harness.patience import PATIENCE
from harness.program import preloaded
from harness.server import start

# What the program says if it is refused memory at its start, with status 1.
NOT_STARTED = (CANNOT_KEEP, "rstored: cannot listen\n", "rstored: out of memory\n")
# How many changes a server makes in which one allocation fails.
CHANGES = 7


def worked_examples():
    """Those that no clock changes are the same by TCP. Whatever the store then has is the same once
    the server was killed and started again."""
    chosen = [each for each in examples() if each.has_no_clock()]
    with ThreadPoolExecutor(os.cpu_count()) as threads:
        for _ in threads.map(run_example, chosen):
            pass
    print(f"kept: {len(chosen)} worked examples are the same")


def run_example(example):
    options = {"places": 1, "topics": example.topics or 10_000}
    with folder() as path:
        with kept(path, **options) as server:
            example.talk(server)
            before = shown_by(server)
        with kept(path, **options) as server:
            wanted(shown_by(server) == before, f"{example.name}: another store after a restart")


def shown_by(server):
    """What the filters of all topics show."""
    with Client(server).connect() as client:
        return replay(client), replay(client, b"$own/#")


def one_history(clients=12, topics=4, turns=2):
    """The reads of all clients, before a server is killed and after it was started again, are of
    one history. The later ones show no topic less than those before."""
    history = History(clients, topics)
    with folder() as path:
        for turn in range(turns + 1):
            counts = [len(own) for own in history.reads]
            before = [max(numbers) for numbers in zip(*sum(history.reads, []))]
            options = {"places": max(1, clients // 2**turn), "clients": 40}
            with kept(path, **options) as server:
                if turn == 0:
                    history.begin(server)
                work_until_killed(history, server, clients, is_last=turn == turns)
            pairs = zip(history.reads, counts)
            later = [read for own, count in pairs for read in own[count:]]
            wanted(later, "nothing was read")
            are_later = all(is_no_later(before, read) for read in later)
            wanted(are_later, "a read after a kill shows less than one before")
        history.look()


def work_until_killed(history, server, count, is_last):
    """All clients publish and read until the server is killed, or so often if it is not."""
    is_killed = threading.Event()

    def work(own):
        try:
            history.work(server, own, 20 if is_last else 1_000_000)
        except (AssertionError, OSError):
            if not is_killed.is_set():
                raise

    with ThreadPoolExecutor(count) as threads:
        running = [threads.submit(work, own) for own in range(count)]
        if not is_last:
            time.sleep(0.5)
            is_killed.set()
            server.stop()
        for own in running:
            own.result(PATIENCE)


def full_memory():
    """At the limit of the process all that was acknowledged is read, and found after a kill."""
    for size in SPACES:
        with folder() as path:
            given = (size, max(CLIENTS), settings())
            with full_server(*given, keep=path) as (server, _, numbers):
                missed = read_all(server, size, numbers)
                wanted(missed == 0, f"{missed} of {len(numbers)} messages of {size} bytes not read")
            with kept(path, topics=65_536) as server, Client(server).connect() as client:
                found = set(replay(client))
            kept_ones = {replayed(topic(number), payload(number, size)) for number in numbers}
            lost = len(kept_ones - found)
            wanted(lost == 0, f"{lost} of {len(numbers)} messages of {size} bytes are lost")


def out_of_memory():
    """Whichever allocation of a server fails, it cannot start and says so, or refuses a change,
    which is not kept, or ends a connection. What was acknowledged is found by the next one."""
    ends = {"started": 0, "not started": 0}
    with tempfile.TemporaryDirectory() as own:
        library = preloaded("failing_malloc", own)
        for at, (is_started, was_refused) in enumerate(
            in_order(lambda at: refused(library, at)), 1
        ):
            if not was_refused:
                break
            ends["started" if is_started else "not started"] += 1
    wanted(min(ends.values()) > 0, f"servers: {ends}")
    print(f"kept: {at - 1} allocations, each refused in turn; servers: {ends}")


def refused(library, at):
    """One server in which the allocation of this number fails, and then one in which none does.
    Whether the first started, and whether there was such an allocation."""
    publisher = Publisher(NAMES)
    # Each refusal is told on standard error.
    refusal = {"FAIL_AT": str(at), "FAIL_COUNT": "1", "FAIL_TELL": "2"}
    with folder() as path:
        is_started, told = run_refused(path, {"LD_PRELOAD": library, **refusal}, publisher)
        publisher.start_again(path)
    return is_started, told


def run_refused(path, environment, publisher):
    words = ("--connections", "1000000", "--keep", str(path))
    run = start("127.0.0.1:0", *words, environment=environment)
    try:
        line = run.stdout.readline()
        if line:
            server = SimpleNamespace(host="127.0.0.1", port=int(line.rpartition(":")[2]))
            for _ in range(CHANGES):
                publisher.try_to_publish(server)
            run.kill()
        _, errors = run.communicate(timeout=PATIENCE)
    finally:
        run.kill()
    if not line:
        wanted(errors.removeprefix("x") in NOT_STARTED, f"a start without memory: {errors!r}")
    return bool(line), errors.startswith("x")


CHECKS = (worked_examples, one_history, full_memory, out_of_memory)
