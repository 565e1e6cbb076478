"""Refuses memory to each allocation in turn, until a run has none that is left to refuse.

Whole sessions go through the program. Each time it must end with status 0, and write the replies
of a session that was refused memory at one packet, which keeps nothing of that packet and takes it
when it comes again; or with status 1, write all replies before one or before a packet, and say on
standard error what failed: never another answer. The program check_tasks does the same with the
calls of a catalogue, of a window, of a store of versions, of stores that are opened with messages,
of the queue to its writer, of clients that share a seat, and of a client that is served, and
out_of_memory_journal.py with those of a journal. Without a refusal check_tasks looks at 200,000
connections as they come back.
"""

import os
import subprocess
import sys
import tempfile
from collections import Counter

from checks import out_of_memory_journal
from checks.exchange import (
    before_each_packet,
    before_each_reply,
    long_exchange,
    possible,
    short_exchange,
)
from checks.out_of_memory_journal import DOUBT, END, KINDS
from harness.in_order import in_order
from harness.patience import PATIENCE
from harness.program import preloaded, program
from harness.words import given_words

# What a run was refused memory for if each call that tells it was given what it asked for.
UNTOLD = "a call that does not tell it"


def run_refused(words, given, at, count, library):
    """One run in which so many allocations fail, of which this is the number of the first, and
    whether there was one."""
    with tempfile.TemporaryFile() as told:
        tell = told.fileno()
        numbers = {"FAIL_AT": at, "FAIL_COUNT": count, "FAIL_TELL": tell}
        environment = {"LD_PRELOAD": library, **{key: str(own) for key, own in numbers.items()}}
        options = {"capture_output": True, "timeout": PATIENCE, "pass_fds": [tell]}
        run = subprocess.run(words, input=given, env=environment, **options)
        return run, told.seek(0, os.SEEK_END) > 0


def in_turn(words, given, library, count=1):
    """The runs in which so many allocations fail, from the first, second, third .. on, and last
    the one that has no such allocation."""
    runs = in_order(lambda at: run_refused(words, given, at, count, library))
    for at, (run, was_refused) in enumerate(runs, 1):
        yield at, run, was_refused
        if not was_refused:
            return


def enough(name, counts, least, runs):
    """Prints how often each kind of call was refused memory, each of which must have been as often
    as `least` says."""
    shown = ", ".join(f"{kind} {counts[kind]}" for kind in least)
    told = f"{runs} allocations, each refused in turn; refused were: {shown}"
    print(f"out of memory: {name}: {told}")
    for kind, wanted in least.items():
        if counts[kind] < wanted:
            missed = f"{kind} was refused memory {counts[kind]} times, and {wanted} are wanted"
            sys.exit(f"{name}: {missed}")


def breaks(steps, is_hex):
    """What is said when a session is broken off, with what was written before.

    A reply takes memory when it is made, and none when it is written, so that `write failed` is
    never said. A read takes memory for what it reads. Lines of hex digits, each a packet, are read
    one by one, and take memory themselves.
    """
    ends = {("rstored: out of memory\n", written) for written in before_each_reply(steps)}
    if is_hex:
        for written in before_each_packet(steps):
            ends |= {("rstored: out of memory\n", written), ("rstored: read failed\n", written)}
    return ends


def sessions(name, steps, least, is_hex, library):
    """Runs a session through the program. It must be broken off in each of the ways that it may
    be, and in no other."""
    answers, broken = possible(steps), breaks(steps, is_hex)
    sent = [step.sent for step in steps]
    words = [program(), "pipe", "--at", "0"] + ["--hex"] * is_hex
    given = b"".join(data.hex().encode() + b"\n" if is_hex else data for data in sent)
    counts, unseen = Counter(), set(broken)
    for at, run, was_refused in in_turn(words, given, library):
        written = bytes.fromhex(run.stdout.decode()) if is_hex else run.stdout
        errors = run.stderr.decode()
        if run.returncode == 0:
            allowed = answers if was_refused else [next(iter(answers))]
            good = errors == "" and written in allowed
        else:
            good = was_refused and run.returncode == 1 and (errors, written) in broken
        if not good:
            shown = f"status {run.returncode}, {written.hex()}, {errors!r}"
            sys.exit(f"{name}, allocation {at}: {shown}")
        if run.returncode == 0:
            counts[answers[written]] += 1
        else:
            unseen.discard((errors, written))
    for errors, written in unseen:
        sys.exit(f"{name}: no run wrote {written.hex()} and said {errors!r}")
    enough(name, counts, least, at - 1)


def calls(task, least, library, count=1, untold=0):
    """Runs a task of check_tasks, in which so many allocations in a row fail. It prints how often
    each kind of call was refused, a number a line.

    At least so many runs as `untold` says must have been refused memory in a call that does not
    tell it. If the task cannot go on, it says so, and in the first runs that the words were not
    read.
    """
    refused, unread = Counter(), 0
    not_read = b"check_tasks: the clock, the words, "
    no_memory = b"check_tasks: out of memory\n"
    words = [program("check_tasks"), task]
    for at, run, was_refused in in_turn(words, b"", library, count):
        printed = [int(line) for line in run.stdout.split()]
        counts = dict(zip(least, printed))
        is_whole = run.returncode == 0 and len(printed) == len(least)
        if is_whole and (was_refused or not any(counts.values())):
            refused.update(counts)
            refused[UNTOLD] += was_refused and not any(counts.values())
            continue
        is_unread = at == unread + 1 and run.stderr.startswith(not_read)
        unread += is_unread
        is_reported = is_unread or run.stderr == no_memory
        if not (was_refused and run.returncode == 1 and run.stdout == b"" and is_reported):
            shown = f"status {run.returncode}, {run.stdout!r}, {run.stderr!r}"
            sys.exit(f"{task}, allocation {at}: {shown}")
    enough(f"{task}, {count} in a row", refused, least | {UNTOLD: untold}, at - 1)


def ended():
    """Serves very many connections without a refusal, each of which must come back as it has to."""
    words = [program("check_tasks"), "ended"]
    run = subprocess.run(words, capture_output=True, timeout=PATIENCE)
    if (run.returncode, run.stdout, run.stderr) != (0, b"200000\n", b""):
        sys.exit(f"ended: status {run.returncode}, {run.stdout!r}, {run.stderr!r}")
    print("out of memory: none of 200,000 connections was refused, and each came back as it has to")


def journal():
    """Works a journal over real files. Each kind of call must be refused memory."""
    refused, untold, runs = out_of_memory_journal.refusals()
    kinds = (*KINDS.values(), DOUBT, END)
    enough("a journal", refused | {UNTOLD: untold}, dict.fromkeys((*kinds, UNTOLD), 2), runs)


def main():
    given_words()
    ended()
    with tempfile.TemporaryDirectory() as folder:
        library = preloaded("failing_malloc", folder)
        for qos in range(3):
            least = {f"a PUBLISH of QoS {qos}": 1, "a SUBSCRIBE": 1}
            name = f"a short session at QoS {qos}"
            sessions(name, short_exchange(qos), least, False, library)
            sessions(f"{name} as hex digits", short_exchange(qos), least, True, library)
        least = {"a PUBLISH of QoS 1": 2, "a SUBSCRIBE": 2}
        sessions("a long session", long_exchange(), least, False, library)
        places = ("at the root", "in the middle", "at a leaf", "above others")
        kinds = [f"a topic that is new {place}" for place in places]
        kinds += ["a topic behind a Sweep", "a Clear"]
        calls("tree", dict.fromkeys(kinds, 2), library, untold=2)
        calls("window", {"a queue": 2}, library)
        calls("given", {"an opening": 2}, library)
        for count in (1, 2, 3):
            # If a put is refused memory, it is made with that of the reserve. A second failure in a
            # row holds its entry, and a third refuses the retry.
            held = 2 if count > 1 else 0
            least = {
                "a put that keeps nothing": 2,
                "a put that keeps its Sweep alone": held,
                "a put that holds": held,
                "a put that holds behind its Sweep": held,
                "a retry": 2 if count > 2 else 0,
                "an answer": 2,
            }
            calls("versions", least, library, count, untold=2)
        for count in (1, 2):
            # A submit takes memory for its job, and the writer takes it for its replies.
            held = 2 if count > 1 else 0
            least = {"a submit that makes no entry": 2, "a submit whose entry is held": held}
            calls("queue", least | {"the last submit": held}, library, count)
            calls("clients", least | {"an answer": 2}, library, count)
            calls("connections", {"a connection": 2, "a publication": 2}, library, count)
    journal()


if __name__ == "__main__":
    main()
