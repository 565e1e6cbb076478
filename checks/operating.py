"""Runs the program with `--idle`, with `--log` and with `--memory`: a silent client gives its place
back, what the log says of each connection is true, and messages that count too many bytes are
refused.

The checks wait for what has to come. A connection that has to end may end late, as on a busy
machine. Of one that has to stay they look only at what it is answered.
"""

from checks.operating_idle import (
    a_client_that_never_reads,
    a_client_that_pings,
    a_network_that_is_gone,
    a_stopped_client,
    many_that_vanish,
    not_too_early,
    silent_clients,
    silent_clients_that_stay,
)
from checks.operating_log import (
    a_full_store,
    a_late_write,
    a_long_answer,
    cannot_listen,
    each_end,
    few_descriptors,
    few_may_wait,
    no_log,
    refused_memory,
    sixty_four_at_once,
)
from checks.operating_memory import (
    a_log_of_memory,
    a_sweep_gives_back,
    eight_publishers,
    readers_at_the_limit,
    set_replaced_cleared,
)
from harness.words import run_named

CHECKS = (
    silent_clients,
    not_too_early,
    silent_clients_that_stay,
    a_client_that_never_reads,
    a_client_that_pings,
    a_stopped_client,
    a_network_that_is_gone,
    many_that_vanish,
    each_end,
    a_late_write,
    a_full_store,
    a_long_answer,
    refused_memory,
    sixty_four_at_once,
    few_descriptors,
    few_may_wait,
    no_log,
    cannot_listen,
    set_replaced_cleared,
    a_sweep_gives_back,
    eight_publishers,
    readers_at_the_limit,
    a_log_of_memory,
)


if __name__ == "__main__":
    run_named(CHECKS)
