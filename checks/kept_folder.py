"""Folders that a server finds, or cannot take. Part of `checks/kept`."""

import os
import random
import shutil

from checks.journal import POWERLESS, bytes_in
from checks.kept_server import FILES, cannot_keep, folder, kept, replay
from checks.listening_messages import all_replayed, publish, replayed, topic, wanted
from harness.client import Client
from harness.packets import PUBACK
from harness.server import Server

# As many topics as a store may have, and how many publications are sent in one piece.
TOPICS, PIECE = 65_536, 1_024
# The publications of a folder that is damaged then, their topics, and the bytes of each.
CHANGES, FEW, LONG = 700, 7, 3_000
PAGE, FRAME, HEAD = 1_024, 1_048, 32


def publish_all(server, numbers, payload=b"x"):
    """A client publishes to these topics."""
    with Client(server).connect() as client:
        for first in range(0, len(numbers), PIECE):
            piece = numbers[first : first + PIECE]
            sent = b"".join(publish(topic(number), payload) for number in piece)
            client.ask(sent, len(piece) * PUBACK)
        client.disconnect()


def has_all(server, count, payload=b"x"):
    """A client reads so many topics, and no others."""
    with Client(server).connect() as client:
        found = replay(client)
        client.disconnect()
    is_right = b"".join(found) == all_replayed(count, payload)
    wanted(is_right, f"{len(found)} messages are there, or others than {count}")


def all_topics():
    """As many topics as may be are kept and found, and none more than a server may have."""
    with folder() as path:
        with kept(path, topics=TOPICS) as server:
            publish_all(server, range(TOPICS))
        with kept(path, topics=TOPICS) as server:
            has_all(server, TOPICS)
        before = bytes_in(path)
        cannot_keep(path, topics=TOPICS - 1)
        wanted(bytes_in(path) == before, "a folder of too many topics was changed")
        with kept(path, topics=TOPICS) as server:
            publish_all(server, [TOPICS - 1], b"")
        with kept(path, topics=TOPICS - 1) as server:
            has_all(server, TOPICS - 1)


def own_topics():
    """Topics that begin with `$` are found, too, and so is a folder with nothing in it. It was made
    for its owner alone."""
    with folder() as path:
        with kept(path) as server:
            wanted(path.stat().st_mode & 0o777 == 0o700, "others may use the folder")
        with kept(path) as server, Client(server).connect() as client:
            wanted(replay(client) == [], "there are messages in a new folder")
            for name in (b"$own/a", b"b"):
                client.ask(publish(name, name), PUBACK)
        with kept(path) as server, Client(server).connect() as client:
            for name, text in (b"$own/a", b"$own/#"), (b"b", b"#"):
                wanted(replay(client, text) == [replayed(name, name)], f"{text} finds no {name}")


def held_folder():
    """A folder that another server has is not taken, and that server goes on."""
    with folder() as path:
        with kept(path) as server:
            publish_all(server, range(3))
            cannot_keep(path)
            publish_all(server, range(3, 6))
            has_all(server, 6)
        with kept(path) as server:
            has_all(server, 6)


def read_only_folders():
    """Where nothing may be made or written, nothing is taken."""
    inside = POWERLESS if os.geteuid() == 0 else []
    with folder() as path:
        os.chmod(path.parent, 0o500)
        cannot_keep(path, inside)
        os.chmod(path.parent, 0o700)
        path.mkdir()
        os.chmod(path, 0o500)
        cannot_keep(path, inside)
        os.chmod(path, 0o700)
        with kept(path) as server:
            publish_all(server, range(3))
        for name in FILES:
            os.chmod(path / name, 0o400)
            cannot_keep(path, inside)
            os.chmod(path / name, 0o600)
        with kept(path) as server:
            has_all(server, 3)


def no_folders():
    """A file in the place of the folder, and a folder in the place of a file."""
    with folder() as path:
        path.write_text("no folder")
        cannot_keep(path)
        cannot_keep(path / "deeper")
        path.unlink()
        path.mkdir()
        (path / FILES[0]).mkdir()
        cannot_keep(path)


def copied(path):
    """Lets all that the folder keeps be in the file of pages: the first change after a start copies
    the log."""
    with kept(path) as server:
        publish_all(server, [0])


def foreign_folders():
    """Files of another version or of another program are refused, and stay as they are."""
    with folder() as path:
        with kept(path) as server:
            publish_all(server, range(100))
        copied(path)
        (path / FILES[1]).write_bytes(b"")
        pages = (path / FILES[0]).read_bytes()
        wanted(pages[:8] == b"rstored\x01", f"the file of pages begins with {pages[:8]}")
        text = b"A letter.\n" * 300
        for data in (pages[:7] + b"\x02" + pages[8:], b"R" + pages[1:], text, text[:9]):
            (path / FILES[0]).write_bytes(data)
            before = bytes_in(path)
            cannot_keep(path)
            wanted(bytes_in(path) == before, f"a file with {data[:9]} was changed")
        (path / FILES[0]).write_bytes(pages)
        with kept(path) as server:
            has_all(server, 100)
        (path / FILES[1]).write_bytes(text)
        cannot_keep(path)
        wanted((path / FILES[1]).read_bytes() == text, "a foreign log was changed")


def numbered(number):
    """The publication of this number: its topic, and its payload."""
    return topic(number % FEW), b"%d " % number + LONG * (b"%d" % (number % 10))


def states():
    """What a read shows after so many publications, by topic."""
    state, found = {}, [{}]
    for number in range(CHANGES):
        name, payload = numbered(number)
        state = {**state, name: replayed(name, payload)}
        found.append(state)
    return found


def state_of(server):
    """What a read shows, by topic. A topic that was damaged need not begin as the others do."""
    with Client(server).connect() as client:
        found = replay(client)
        client.disconnect()
    return {packet[packet.index(b"/") - 1 :][:8]: packet for packet in found}


class Damaged:
    """A folder with a known history, of which a byte is changed."""

    def __init__(self, path, template):
        self.path, self.template, self.states = path, template, states()
        with kept(template) as server, Client(server).connect() as client:
            for number in range(CHANGES):
                client.ask(publish(*numbered(number)), PUBACK)

    def found(self, name, at):
        """What a server finds after this byte was changed, or None if it cannot keep."""
        shutil.rmtree(self.path, ignore_errors=True)
        shutil.copytree(self.template, self.path)
        data = bytearray((self.path / name).read_bytes())
        data[at] ^= random.randint(1, 255)
        (self.path / name).write_bytes(data)
        try:
            with Server(keep=self.path) as server:
                return state_of(server)
        except RuntimeError:
            cannot_keep(self.path)
            return None

    def is_prefix(self, state):
        return state is None or state in self.states

    def is_almost_prefix(self, state):
        """Whether one record may be another, and all else is a prefix: a changed byte of a message
        is not found. It may have been the message of another topic."""
        if self.is_prefix(state):
            return True
        names = self.states[-1].keys()
        unknown = len(state.keys() - names)
        for known in self.states:
            differing = sum(state.get(name) != known.get(name) for name in names)
            if unknown + differing <= 2 and unknown <= 1 and differing <= 1:
                return True
        return False


def changed_bytes(count=12):
    """With a byte changed in a page, the folder is refused, or a prefix of its history is found; a
    byte of a message is the only thing that may differ then."""
    refused = 0
    with folder() as path:
        damaged = Damaged(path, path.parent / "template")
        sizes = [(damaged.template / name).stat().st_size for name in FILES]
        for number in range(count):
            page = random.randrange(sizes[0] // PAGE)
            state = damaged.found(FILES[0], page * PAGE + random.randrange(8))
            wanted(damaged.is_prefix(state), f"the number of page {page} was changed")
            refused += state is None
            at = random.randrange(sizes[0])
            state = damaged.found(FILES[0], at)
            wanted(damaged.is_almost_prefix(state), f"byte {at} of the pages was changed")
            refused += state is None
            frame = random.randrange((sizes[1] - HEAD) // FRAME)
            at = HEAD + frame * FRAME + random.randrange(FRAME)
            state = damaged.found(FILES[1], at)
            wanted(damaged.is_prefix(state), f"byte {at} of the log was changed")
            refused += state is None
    print(f"kept: {3 * count} changed bytes, {refused} folders refused, else prefixes")


CHECKS = (
    all_topics,
    own_topics,
    held_folder,
    read_only_folders,
    no_folders,
    foreign_folders,
    changed_bytes,
)
