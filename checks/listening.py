"""Runs the program as a server for many clients at once, some of which behave badly.

The checks wait for what has to come, and PATIENCE only ends a check that hangs. No check fails by a
time: a time only excuses a refused client that was held up.
"""

import itertools

from checks.listening_addresses import addresses, restart
from checks.listening_clients import (
    many_clients,
    many_that_read_nothing,
    one_place_for_all,
    silent_connections,
)
from checks.listening_ends import (
    a_client_that_never_reads,
    abrupt_ends,
    byte_by_byte,
    half_closed,
    refused_early,
)
from checks.listening_messages import wanted
from checks.listening_places import (
    all_connections_served,
    bursts,
    endless,
    few_threads,
    refused_accepts,
    short_connections,
    sixty_four_places,
)
from checks.listening_store import expired_topics, one_history
from checks.worked import examples
from harness.server import Server
from harness.words import run_named


# How many clients a worked example has, and how many places: as many, then fewer, then one.
CROWDS = ({"places": 3}, {"places": 2, "clients": 3}, {"places": 1, "clients": 3})


def worked_examples():
    """Those that no clock changes are the same through a connection: one client serves all of an
    example in turn, and then three do."""
    every = examples()
    chosen = [each for each in every if each.has_no_clock()]
    # Which of three clients a connection gets is not known, and an identifier that it is given
    # depends on that.
    shared = [each for each in chosen if not any(map(is_named, each.connections))]
    for example in chosen:
        run_example(example, places=1)
    for example, crowd in itertools.product(shared, CROWDS):
        run_example(example, **crowd)
    counts = f"{len(chosen)} of {len(every)} worked examples are the same"
    print(f"listening: {counts}, {len(shared)} of them also for three clients")


def run_example(example, **options):
    topics, count = example.topics or 10_000, len(example.connections)
    with Server(topics=topics, connections=count, **options) as server:
        example.talk(server)
        wanted(server.ended()[0] == 0, f"{example.name}: another end")


def is_named(connection):
    """Whether the server gives the client an identifier."""
    return b"rs1-1" in connection.replies()


CHECKS = (
    sixty_four_places,
    short_connections,
    endless,
    bursts,
    one_history,
    few_threads,
    many_clients,
    one_place_for_all,
    many_that_read_nothing,
    silent_connections,
    refused_accepts,
    abrupt_ends,
    a_client_that_never_reads,
    half_closed,
    byte_by_byte,
    refused_early,
    expired_topics,
    restart,
    addresses,
    all_connections_served,
    worked_examples,
)


if __name__ == "__main__":
    run_named(CHECKS)
