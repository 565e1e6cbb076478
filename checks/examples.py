"""Runs the worked examples through the program, if one connection over an empty store can show
them.

The program has one time for all packets and one limit of topics, so an example that needs more is
left to the program check_tasks, which serves all of them. Each one runs in turns, where each reply
has to be there before more is sent, and then as lines of hex digits.
"""

import subprocess
import sys
import threading

from checks.worked import examples
from harness.packets import packets
from harness.patience import PATIENCE
from harness.program import program
from harness.words import given_words

# How many digits a line of hex has at most. The program reads input in smaller pieces than the
# second.
WIDTHS = (1_000, 2_000_000)


def can_run(example):
    """Whether the program alone can show this example."""
    is_alone = len(example.connections) == 1 and example.topics is None
    return is_alone and len(set(example.connections[0].moments)) <= 1


def send(pipe, data):
    try:
        pipe.write(data)
        pipe.flush()
    except BrokenPipeError:
        pass


def in_turns(words, connection):
    """What the program writes: after each turn as much as has to come, and then the rest. And how
    it ends."""
    pipes = dict.fromkeys(("stdin", "stdout", "stderr"), subprocess.PIPE)
    run = subprocess.Popen(words, **pipes)
    stop = threading.Timer(PATIENCE, run.kill)
    stop.start()
    written = b""
    for sent, replies in connection.turns:
        sender = threading.Thread(target=send, args=(run.stdin, sent))
        sender.start()
        written += run.stdout.read(len(replies))
        sender.join()
    rest, errors = run.communicate()
    stop.cancel()
    return run.returncode, written + rest, errors


def hex_lines(data, width):
    """Hex digits on lines of some width."""
    digits = data.hex()
    return "".join(digits[at : at + width] + "\n" for at in range(0, len(digits), width))


def check(example, path):
    connection = example.connections[0]
    words = [path, "pipe", "--at", str((connection.moments or [0])[0])]
    replies = connection.replies()
    ended = status, output, errors = in_turns(words, connection)
    if ended != (0, replies, b""):
        sys.exit(f"{example.name}: status {status}, {output.hex()}, {errors!r}")
    lines = "".join(packet.hex() + "\n" for packet in packets(replies))
    as_text = {"capture_output": True, "text": True, "timeout": PATIENCE}
    for given in {hex_lines(connection.sent(), width) for width in WIDTHS}:
        run = subprocess.run([*words, "--hex"], input=given, **as_text)
        if (run.returncode, run.stdout, run.stderr) != (0, lines, ""):
            shown = f"status {run.returncode}, {run.stdout!r}, {run.stderr!r}"
            sys.exit(f"{example.name}, as hex: {shown}")


def main():
    given_words()
    path = program()
    every = examples()
    chosen = [example for example in every if can_run(example)]
    for example in chosen:
        check(example, path)
    print(f"examples: {len(chosen)} of {len(every)} are the same through the program")


if __name__ == "__main__":
    main()
