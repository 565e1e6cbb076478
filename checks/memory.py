"""Looks at the memory that the program takes while it reads much and keeps little of it.

A kept message must hold its own packet, and not the buffer that it was read into; a subscription
its own filter, and not the SUBSCRIBE that it came in.
"""

import subprocess
import sys

from harness.packets import CONNACK, CONNECT, DISCONNECT, publish, subscribe
from harness.program import most_memory, program
from harness.sessions import SUBSCRIPTIONS, codes_bytes
from harness.words import given_words

PING = bytes.fromhex("C000")

# The most kilobytes that the program may take. It reads some 65 MB, and takes a tenth of this or
# less.
LIMIT = 40_000


def check(name, packets, replies):
    """Sends these packets, which are answered with so many bytes, and looks at the memory then."""
    words = [program(), "pipe", "--at", "0"]
    run = subprocess.Popen(words, stdin=subprocess.PIPE, stdout=subprocess.PIPE)
    run.stdin.write(CONNECT)
    for data in packets:
        run.stdin.write(data)
    run.stdin.write(PING)
    run.stdin.flush()
    wanted = len(CONNACK) + replies + len(PING)
    answered = len(run.stdout.read(wanted))
    memory = most_memory(run.pid)
    run.communicate(DISCONNECT)
    print(f"memory for {name}: {memory} kB (less than {LIMIT} needed)")
    if answered != wanted or run.returncode != 0 or memory >= LIMIT:
        shown = f"{answered} bytes of {wanted} were answered, status {run.returncode}"
        sys.exit(f"memory for {name}: {shown}")


def main():
    given_words()
    filler = publish(b"filler", b"x" * 65_000)
    messages = (publish(b"kept/%04d" % i, b"x") + filler for i in range(1000))
    check("1,000 messages out of 65 MB", messages, 0)
    refused = [b"#" * 65_000] * 4
    subscriptions = (subscribe([b"kept/%d" % i] + refused) for i in range(SUBSCRIPTIONS))
    check("256 subscriptions out of 67 MB", subscriptions, SUBSCRIPTIONS * codes_bytes(5))


if __name__ == "__main__":
    main()
