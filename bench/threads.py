"""Threads of other processes: how much processor time they get, and where they run."""

import contextlib
import os


def processor_time(process):
    """The microseconds that a process has had of the processors; or a thread, as PID/task/TID."""
    with open(f"/proc/{process}/stat") as stat:
        words = stat.read().rsplit(")", 1)[1].split()
    return (int(words[11]) + int(words[12])) * 1_000_000 / os.sysconf("SC_CLK_TCK")


def thread_times(pid):
    """The processor time that each thread of a process has had."""
    threads = os.listdir(f"/proc/{pid}/task")
    return {int(thread): processor_time(f"{pid}/task/{thread}") for thread in threads}


def busiest(pid, job, times=1):
    """The thread of a process that gets most processor time while a job runs. If it runs several
    times, the least of them counts, so that one is found that works each time."""
    least = {}
    for _ in range(times):
        before = thread_times(pid)
        job()
        for thread, time in thread_times(pid).items():
            gained = time - before.get(thread, 0)
            least[thread] = min(gained, least.get(thread, gained))
    return max(least, key=least.get)


def pin(thread, processors):
    """Lets a thread run on these processors alone. The own thread is 0."""
    if os.sched_getaffinity(thread) != processors:
        os.sched_setaffinity(thread, processors)


@contextlib.contextmanager
def on(processors):
    """Processes that are started in the `with` run on these processors alone."""
    before = os.sched_getaffinity(0)
    pin(0, processors)
    try:
        yield
    finally:
        pin(0, before)
