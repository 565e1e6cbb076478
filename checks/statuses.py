"""Compares how the program ends in each way that RUNNING.md names, and more: its status,
standard output and standard error.

The texts of this project have to be the same. clap's texts are help, and why a command line is
refused: they have to begin as is said here, and to have certain parts, in this order.
"""

import socket
import subprocess
import sys
import tempfile
from dataclasses import dataclass

from checks.exchange import Connect, Publish, Subscribe, replies
from harness.client import Client
from harness.packets import CONNACK, CONNECT, DISCONNECT, packets
from harness.patience import PATIENCE
from harness.program import crate, preloaded, program
from harness.server import Server
from harness.words import given_words


@dataclass
class Text:
    """Whole lines, of which the first begins so and no other, and later ones, in this order, with
    these parts."""

    first: str
    parts: tuple[str, ...]

    def fits(self, text):
        lines = iter(text.splitlines())
        wanted = (self.first, *self.parts)
        has_all = all(any(line.lstrip().startswith(part) for line in lines) for part in wanted)
        is_first = text.startswith(self.first) and text.count(self.first) == 1
        return is_first and text.endswith("\n") and has_all


@dataclass
class End:
    """How a run has to end. An output that is None is not looked at."""

    status: int
    output: str | Text | None
    errors: str | Text = ""

    def fits(self, run):
        is_ended = run.returncode == self.status
        return is_ended and has(run.stdout, self.output) and has(run.stderr, self.errors)


def has(data, wanted):
    text = data.decode("latin-1")
    is_right = wanted.fits(text) if isinstance(wanted, Text) else wanted == text
    return wanted is None or is_right


def refused(why, *parts):
    """The command line is refused: nothing is written but why."""
    return End(2, "", Text(f"error: {why}", (*parts, "For more information, try '--help'.")))


def invalid(value, option, why):
    """A value of an option is refused."""
    return refused(f"invalid value '{value}' for '--{option}': {why}")


def helped(first, usage, *parts):
    """Help is shown, which names its command and each option."""
    return End(0, Text(first, (f"Usage: rstored {usage}", "Options:", *parts, "-h, --help")))


NOT_READ = End(1, "", "rstored: read failed\n")
NOT_WRITTEN = End(1, None, "rstored: write failed\n")
NO_MEMORY = End(1, "", "rstored: out of memory\n")
NO_LISTENER = End(1, "", "rstored: cannot listen\n")
NO_KEEPER = End(1, "", "rstored: cannot keep\n")
NO_FOLDER = End(2, "", "error: --sync is given without --keep\n")
NO_POLICY = End(2, "", "error: --sync takes always, second or never\n")
NO_SIZE = End(
    2,
    "",
    f"error: --memory takes a number of bytes from 1 to {2**64 - 1}, or a number before K, M or G, "
    "as 512M\n",
)
NO_END = End(2, "", "error: give either --connections or --endless\n")

ABOUT = "Keeps the retained message of each MQTT 5 topic and answers subscriptions from it"
USAGE = "Usage: rstored <COMMAND>"
PARTS = (USAGE, "Commands:", "pipe ", "listen ", "Options:", "-h, --help", "-V, --version")
COMMANDS = End(0, Text(ABOUT, PARTS))
AT = "--at <SECONDS>"
PIPE = f"pipe [OPTIONS] {AT}"
PIPES = "Serves one MQTT 5 connection: "
ADDRESS = "--address <ADDRESS>"
PLACES = "places <1-64>"
CLIENTS = "clients <1-10000>"
TOPICS = "topics <1-65536>"
MEMORY = "memory <SIZE>"
CONNECTIONS = "connections <1-1000000>"
IDLE = "idle <1-86400>"
LISTEN = f"listen [OPTIONS] {ADDRESS}"
LISTENS = "Serves MQTT 5 clients that connect by TCP."
SIZES = (f"--{PLACES}", f"--{CLIENTS}", f"--{TOPICS}", f"--{MEMORY}", f"--{CONNECTIONS}")
LIMITS = (SIZES[0], "[default: 4]", SIZES[1], SIZES[2], "[default: 10000]", *SIZES[3:])
METRICS = "metrics <ADDRESS>"
KEEP = "keep <FOLDER>"
SYNC = "sync <WHEN>"
MORE = ("--endless", f"--{IDLE}", "--log", f"--{METRICS}", f"--{KEEP}", f"--{SYNC}")
MISSING = "the following required arguments were not provided:"
LOOPBACK = "listen --address 127.0.0.1:0"
ONE = f"{LOOPBACK} --connections 1"

# What is no size: no digits, other letters, none at all, or more than 64 bits hold.
NO_SIZES = ("x", "M", "1m", "1MB", "1.5G", "+1", "0", "0K", 2**64, f"{2**34}G", f"{10**30}K")

# Words after the program's name, with nothing to read.
WORDS = {
    "": refused("'rstored' requires a subcommand", "[subcommands: pipe, listen]", USAGE),
    "help": refused("unrecognized subcommand 'help'", USAGE),
    "--help": COMMANDS,
    "-h": COMMANDS,
    "--version": End(0, "rstored 0.1.0\n"),
    "pipe --help": helped(PIPES, PIPE, "--hex", AT),
    "pipe -h": helped("Serve one MQTT 5 connection ", PIPE, "--hex ", f"{AT} "),
    "listen --help": helped(LISTENS, LISTEN, ADDRESS, *LIMITS, *MORE),
    "listen -h": helped(
        "Serve MQTT 5 clients that connect by TCP", LISTEN, f"{ADDRESS} ", *SIZES, *MORE
    ),
    "pipe": refused(MISSING, AT, "Usage: rstored pipe"),
    "pipe --at": refused(f"a value is required for '{AT}' but none was supplied"),
    "pipe --at x": invalid("x", "at <SECONDS>", "invalid digit found in string"),
    f"pipe --at {2**64}": invalid(2**64, "at <SECONDS>", "number too large"),
    "pipe --at \xff": End(2, "", "error: the command line is not UTF-8\n"),
    "pipe --at 0 more": refused("unexpected argument 'more' found", f"Usage: rstored {PIPE}"),
    "listen": refused(MISSING, ADDRESS, "Usage: rstored listen"),
    LOOPBACK: NO_END,
    f"{ONE} --endless": NO_END,
    f"{LOOPBACK} --endless --endless": refused(
        "the argument '--endless' cannot be used multiple times"
    ),
    f"{LOOPBACK} --connections 0": invalid(0, CONNECTIONS, "0 is not in 1..=1000000"),
    f"{ONE} --places 65": invalid(65, PLACES, "65 is not in 1..=64"),
    f"{ONE} --clients 0": invalid(0, CLIENTS, "0 is not in 1..=10000"),
    f"{ONE} --clients 3": End(2, "", "error: --clients is less than --places\n"),
    f"{ONE} --clients 10001": invalid(10001, CLIENTS, "10001 is not in 1..=10000"),
    f"{ONE} --topics 0": invalid(0, TOPICS, "0 is not in 1..=65536"),
    **{f"{ONE} --memory {size}": NO_SIZE for size in NO_SIZES},
    f"{ONE} --memory": refused(f"a value is required for '--{MEMORY}' but none was supplied"),
    f"{ONE} --memory 1 --memory 1": refused(
        f"the argument '--{MEMORY}' cannot be used multiple times"
    ),
    f"{ONE} --metrics": refused(f"a value is required for '--{METRICS}' but none was supplied"),
    f"{ONE} --metrics a --metrics a": refused(
        f"the argument '--{METRICS}' cannot be used multiple times"
    ),
    f"{ONE} --keep": refused(f"a value is required for '--{KEEP}' but none was supplied"),
    f"{ONE} --keep a --keep a": refused(f"the argument '--{KEEP}' cannot be used multiple times"),
    f"{ONE} --sync never": NO_FOLDER,
    f"{ONE} --keep a --sync often": NO_POLICY,
    f"{ONE} --keep a --sync": refused(f"a value is required for '--{SYNC}' but none was supplied"),
    f"{ONE} --idle 0": invalid(0, IDLE, "0 is not in 1..=86400"),
    f"{ONE} --idle 86401": invalid(86401, IDLE, "86401 is not in 1..=86400"),
    f"{ONE} --idle x": invalid("x", IDLE, "invalid digit found in string"),
    f"{ONE} --idle 1 --idle 1": refused(f"the argument '--{IDLE}' cannot be used multiple times"),
    "listen --address nowhere --connections 1": NO_LISTENER,
    f"{ONE} --metrics nowhere": NO_LISTENER,
    f"{ONE} --keep /dev/null": NO_KEEPER,
    f"{ONE} --keep nowhere/at/all": NO_KEEPER,
    "pipe --at 0": End(0, ""),
    f"pipe --hex --at {2**64 - 1}": End(0, ""),
}

STEPS = [Connect(), Publish(b"b", 1, 1), Subscribe(b"a/#", 0, 3)]
SENT = b"".join(step.sent for step in STEPS)

# What a client sends, and what it is answered. It ends with a DISCONNECT, with the input, inside a
# packet, or at a fault.
SESSIONS = (
    (SENT + DISCONNECT, replies(STEPS)),
    (SENT, replies(STEPS)),
    (SENT + CONNECT[:9], replies(STEPS)),
    (CONNECT[:9], b""),
    (DISCONNECT, b""),
    (2 * CONNECT, CONNACK + bytes.fromhex("E00182")),
)

CONNECTED = f"{CONNACK.hex()}\n"


def not_hex(line, output=""):
    return End(2, output, f"rstored: line {line} is not hex\n")


# Text that is read with `--hex`.
LINES = {
    "zz\n": not_hex(1),
    "10 0\n": not_hex(1),
    f"{CONNECT.hex()}\n\nE0,00": not_hex(3, CONNECTED),
    "\n" * 10_000 + "e": not_hex(10_001),
}

# What a shell does with standard input so that it cannot be read, and with standard output so that
# it cannot be written.
UNREADABLE = ("< /", "<&-")
UNWRITABLE = ("> /dev/full", ">&-")


def hex_lines(data):
    return "".join(f"{packet.hex()}\n" for packet in packets(data))


def raw(data):
    return data.decode("latin-1")


def compare(words, given, end, streams="", environment=None):
    """Runs the program, with its streams changed by a shell if that is said, and compares how it
    ends."""
    shell = ["sh", "-c", f'exec "$0" "$@" {streams}'] if streams else []
    command = [*shell, program(), *words.encode("latin-1").split()]
    options = {"capture_output": True, "timeout": PATIENCE, "env": environment}
    run = subprocess.run(command, input=given.encode("latin-1"), **options)
    if not end.fits(run):
        shown = f"status {run.returncode}, {run.stdout!r}, {run.stderr!r}"
        asked = f"{words!r} {streams} with {given[:100]!r}"
        sys.exit(f"statuses: {asked}: {shown}, and not {end}")


def command_lines():
    for words, end in WORDS.items():
        compare(words, "", end)


def first_run():
    """RUNNING.md names it."""
    names = ("args", "stdin", "stdout")
    words, given, answered = ((crate() / name).read_text() for name in names)
    compare(words, given, End(0, answered))


def connections():
    """Those of bytes and those of lines of hex digits."""
    for words, written in ("pipe --at 0", raw), ("pipe --hex --at 0", hex_lines):
        for sent, answered in SESSIONS:
            compare(words, written(sent), End(0, written(answered)))
        for streams in UNREADABLE:
            compare(words, "", NOT_READ, streams)
        for streams in UNWRITABLE:
            compare(words, written(SENT), NOT_WRITTEN, streams)
    for given, end in LINES.items():
        compare("pipe --hex --at 0", given, end)


def refused_memory():
    """To the first allocation alone, and to all: before anything else is done."""
    with tempfile.TemporaryDirectory() as folder:
        library = {"LD_PRELOAD": preloaded("failing_malloc", folder)}
        for count in ("1", "1000000"):
            # There is no such file descriptor, so nothing is told.
            failures = {"FAIL_AT": "1", "FAIL_COUNT": count, "FAIL_TELL": "1000"}
            for words in ("--help", "pipe --at x", "pipe --at 0", "pipe --hex --at 0", ONE):
                compare(words, raw(SENT), NO_MEMORY, environment=library | failures)


def listening():
    """An address that is in use, and a server whose only connection has ended."""
    with socket.create_server(("127.0.0.1", 0)) as other:
        address = f"127.0.0.1:{other.getsockname()[1]}"
        compare(f"listen --address {address} --connections 1", "", NO_LISTENER)
        compare(f"{ONE} --metrics {address}", "", NO_LISTENER)
    with Server(places=1, connections=1) as server:
        Client(server).connect().disconnect()
        ended = server.ended()
        if ended != (0, "rstored: served 1\n", ""):
            sys.exit(f"statuses: a server ended so: {ended}")


def main():
    given_words()
    for check in (command_lines, first_run, connections, refused_memory, listening):
        check()
    counts = f"{len(WORDS)} command lines, {len(SESSIONS)} sessions and {len(LINES)} texts"
    print(f"statuses: {counts} end as they should, and so do failures")


if __name__ == "__main__":
    main()
