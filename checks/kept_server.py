"""A server that keeps its messages in a folder, and is killed. Part of `checks/kept`."""

import contextlib
import itertools
import mmap
import random
import struct
import tempfile
import threading
from pathlib import Path

from checks.kept_messages import Notes, change, shown
from checks.listening_messages import wanted
from harness.client import Client
from harness.journal import FOLDER
from harness.packets import CONNACK, CONNECT, puback, subscribe
from harness.patience import PATIENCE
from harness.program import preloaded
from harness.server import Server, start

# The files of a folder.
FILES = ("retained", "retained-wal")
# How many publications of QoS 1 a publisher sends before their acknowledgements.
WINDOW = 16
PINGREQ, PINGRESP = bytes.fromhex("C000"), bytes.fromhex("D000")
# A DISCONNECT that says that the store may have taken the last change, or not.
IN_DOUBT = bytes.fromhex("E00197")
# What the program says if it cannot keep, with status 1.
CANNOT_KEEP = "rstored: cannot keep\n"


@contextlib.contextmanager
def folder():
    """A folder in memory, in which a server may make its own."""
    with tempfile.TemporaryDirectory(dir=FOLDER) as path:
        yield Path(path) / "kept"


def kept(path, **options):
    """A server that keeps in this folder."""
    return Server(keep=path, **options)


def cannot_keep(path, inside=(), **options):
    """The server must end at its start, and say that it cannot keep."""
    words = ["--connections", "1", "--keep", str(path)]
    words += [word for name, own in options.items() for word in (f"--{name}", str(own))]
    run = start("127.0.0.1:0", *words, inside=inside)
    try:
        line = run.stdout.readline()
        wanted(line == "", f"a server that cannot keep printed {line!r}")
        _, errors = run.communicate(timeout=PATIENCE)
    finally:
        run.kill()
        run.communicate()
    ended = (run.returncode, errors)
    wanted(ended == (1, CANNOT_KEEP), f"a server that cannot keep ended so: {ended}")


def take_packets(client, last):
    """The next packets, up to one that is this."""
    found = []
    while not found or found[-1] != last:
        found.append(client.take_packet())
    return found


def replay(client, text=b"#"):
    """The messages that a filter is answered."""
    client.send(subscribe([text]) + PINGREQ)
    granted, *found, _ = take_packets(client, PINGRESP)
    wanted(granted[0] == 0x90 and granted[-1] == 0, f"{granted.hex()} came, and no SUBACK")
    return found


def read(client, notes, size=0):
    """Reads all topics, and notes what was shown."""
    with notes.lock:
        floor = dict(notes.told)
    notes.look(dict(shown(packet, size) for packet in replay(client)), floor)


class Control:
    """The numbers that a server shares with failing_disk.c, which its environment names."""

    FIELDS = ("writes", "syncs", "first_write", "failing_writes", "write_error", "thousandths")
    FIELDS += ("first_sync", "failing_syncs", "sync_error")
    TORN = -1

    def __init__(self, path, library):
        Path(path).write_bytes(bytes(8 * len(self.FIELDS)))
        self.environment = {"LD_PRELOAD": library, "DISK_CONTROL": str(path)}
        with open(path, "r+b") as file:
            self.shared = mmap.mmap(file.fileno(), 0)

    def get(self, name):
        return struct.unpack_from("@q", self.shared, 8 * self.FIELDS.index(name))[0]

    def set(self, **numbers):
        for name, number in numbers.items():
            struct.pack_into("@q", self.shared, 8 * self.FIELDS.index(name), number)

    def fail_writes(self, error, ahead=1, count=1 << 40, thousandths=0):
        """From the write on that comes so many ahead."""
        first = self.get("writes") + ahead
        self.set(write_error=error, failing_writes=count, thousandths=thousandths)
        self.set(first_write=first)

    def fail_syncs(self, error, count=1):
        """From the next sync on."""
        self.set(sync_error=error, failing_syncs=count, first_sync=self.get("syncs") + 1)

    def has_failed(self):
        """Whether a call failed since they were to fail."""
        writes, syncs = self.get("first_write"), self.get("first_sync")
        return 0 < writes <= self.get("writes") or 0 < syncs <= self.get("syncs")

    def heal(self):
        self.set(first_write=0, first_sync=0)


def told_in(path):
    """What starts a server with a `--log` in this file."""
    return "sh", "-c", f'exec "$@" 2>{path}', "sh"


@contextlib.contextmanager
def controls():
    """What makes a Control of a new name."""
    with tempfile.TemporaryDirectory() as own:
        library, numbers = preloaded("failing_disk", own), itertools.count()
        yield lambda: Control(f"{own}/control{next(numbers)}", library)


class Crowd:
    """Clients that change topics of their own and read all, until the server is killed."""

    def __init__(self, publishers, silent, readers, size=0, topics=2):
        """So many that publish at QoS 1 and at QoS 0, and so many that read. Each message has so
        many bytes more, and each publisher so many topics."""
        self.size, self.readers = size, readers
        self.owners = [
            [b"kept/%02d/%d" % (own, number) for number in range(topics)]
            for own in range(publishers + silent)
        ]
        self.publishers = publishers
        self.notes = Notes(sum(self.owners, []))
        self.is_killed, self.may_fail, self.faults = threading.Event(), False, []

    def change_next(self, topic, identifier=None):
        """The packet of the next change of a topic, and its number."""
        number = self.notes.sent[topic] + 1
        self.notes.sent[topic] = number
        return number, change(topic, number, identifier, self.size)

    def publish_acknowledged(self, client, names):
        """Publishes at QoS 1, so many in flight, and notes each acknowledgement."""
        made = []
        for identifier in range(1, WINDOW + 1):
            topic = names[identifier % len(names)]
            number, sent = self.change_next(topic, identifier)
            made.append((topic, number, identifier, sent))
        client.send(b"".join(sent for *_, sent in made))
        for topic, number, identifier, _ in made:
            answer = client.take_packet()
            if answer == puback(identifier):
                self.notes.tell(topic, number)
            elif not self.may_fail or answer not in (puback(identifier, b"\x97"), IN_DOUBT):
                raise AssertionError(f"{answer.hex()} came, and no PUBACK of {identifier}")
            if answer == IN_DOUBT:
                raise ConnectionError("a change is in doubt")

    def publish_silently(self, client, names):
        """Publishes at QoS 0."""
        sent = [self.change_next(names[at % len(names)])[1] for at in range(WINDOW)]
        client.send(b"".join(sent) + PINGREQ)
        take_packets(client, PINGRESP)

    def read_all(self, client, _):
        read(client, self.notes, self.size)

    def go_on(self, server, do, names):
        """One client does this until the server is killed."""
        try:
            with Client(server) as client:
                client.send(CONNECT)
                wanted(client.take_packet() == CONNACK, "no CONNACK came")
                while not self.is_killed.is_set():
                    do(client, names)
        except OSError as error:
            if not self.is_killed.is_set() and not self.may_fail:
                self.faults.append(error)
        except Exception as error:
            self.faults.append(error)

    def threads(self, server):
        for number, names in enumerate(self.owners):
            is_told = number < self.publishers
            do = self.publish_acknowledged if is_told else self.publish_silently
            yield threading.Thread(target=self.go_on, args=(server, do, names))
        for _ in range(self.readers):
            yield threading.Thread(target=self.go_on, args=(server, self.read_all, None))

    def count(self):
        """How many clients there are."""
        return len(self.owners) + self.readers

    def work(self, server, wait, may_fail=False):
        """Lets all go on until this is over, and kills the server. If that is said, changes may be
        refused, and clients and the server may end before."""
        self.is_killed.clear()
        self.may_fail = may_fail
        running = list(self.threads(server))
        for thread in running:
            thread.start()
        try:
            wait()
        finally:
            self.is_killed.set()
            server.stop()
            for thread in running:
                thread.join(PATIENCE)
        if self.faults:
            raise AssertionError(f"{len(self.faults)} clients failed, one by {self.faults[0]!r}")

    def look(self, server):
        """A client reads all, after the server was started again."""
        with Client(server).connect() as client:
            read(client, self.notes, self.size)
            client.disconnect()


def cut_power(path, chance=random):
    """Leaves of each file what was synced, as synced_files.c notes it, and of all that was written
    since then each block of 512 bytes or not."""
    for name in FILES:
        file, synced = path / name, path / f"{name}.synced"
        now, old = file.read_bytes(), synced.read_bytes()
        length = chance.choice((len(old), len(now)))
        share = chance.choice((0, 0.1, 0.5, 0.9))
        left = bytearray(old[:length].ljust(length, b"\0"))
        for at in range(0, length, 512):
            if now[at : at + 512] != left[at : at + 512] and chance.random() < share:
                left[at : at + 512] = now[at : at + 512][: length - at]
        file.write_bytes(left)
        synced.unlink()
