"""Runs the program as a server with `--keep`, and kills it, fills its disk, lets its disk fail,
takes its power, and damages what it keeps: a server that is started again is never older than what
anybody was told.

The folders lie in memory where the system has one for that. `checks/long` kills more often.
"""

from checks import kept_compaction, kept_folder, kept_others, kept_syncs
from checks.kept_disk import (
    a_failed_sync_of_a_second,
    a_full_disk,
    failing_calls,
    failures_under_load,
    told_failures,
)
from checks.kept_kills import kills, power_cuts, torn_writes, unsynced_power_cuts
from harness.words import run_named

CHECKS = (
    kills,
    power_cuts,
    unsynced_power_cuts,
    torn_writes,
    failing_calls,
    told_failures,
    a_failed_sync_of_a_second,
    failures_under_load,
    a_full_disk,
    *kept_syncs.CHECKS,
    *kept_folder.CHECKS,
    *kept_compaction.CHECKS,
    *kept_others.CHECKS,
)


if __name__ == "__main__":
    run_named(CHECKS)
