"""Works a journal in a folder by the program check_journal, whose head has the commands, and makes
the records that it is given."""

import struct
import subprocess
import sys
import threading
from pathlib import Path

from harness.patience import PATIENCE
from harness.program import program

# The names of the files.
FILES = ("journal", "journal-wal")
# The folder whose files lie in memory, or the usual one.
MEMORY = Path("/dev/shm")
FOLDER = MEMORY if MEMORY.is_dir() else None


def counted(data):
    return struct.pack(">H", len(data)) + data


def properties(topic):
    """An interval and all properties, that of the user twice. The Response Topic is the topic."""
    user = [counted(b"room") + counted(value) for value in (b"kitchen", b"")]
    values = (b"text/plain", topic, b"\x00\xff\x11")
    fixed = b"\x01" + struct.pack(">I", 3600) + b"\x01\x01"
    single = b"".join(b"\x01" + counted(value) for value in values)
    return fixed + single + struct.pack(">I", len(user)) + b"".join(user)


# No interval, four properties that are absent, and none of the user.
NO_PROPERTIES = bytes(9)


def set_record(topic, payload, carried=NO_PROPERTIES):
    """The record of a Set at QoS 2 with so many bytes of payload, as the page of rs_journal_record
    has it."""
    head = b"\x01" + counted(topic) + b"\x02" + struct.pack(">Q", 1_700_000_000)
    return head + carried + struct.pack(">I", payload) + b"x" * payload


def numbered(number, payload, has_properties=True):
    """The record of the Set of the topic of this number."""
    topic = b"house/%d/temperature" % number
    carried = properties(topic) if has_properties else NO_PROPERTIES
    return set_record(topic, payload, carried)


class Ended(Exception):
    """The program has ended in place of an answer."""


class Shell:
    """The program in a folder, which is asked one command after the other."""

    def __init__(self, folder, before=(), **options):
        words = [*before, program("check_journal")]
        pipes = dict.fromkeys(("stdin", "stdout", "stderr"), subprocess.PIPE)
        self.run = subprocess.Popen(words, cwd=folder, text=True, **pipes, **options)
        self.stop = threading.Timer(PATIENCE, self.run.kill)
        self.stop.daemon = True
        self.stop.start()

    def __enter__(self):
        return self

    def __exit__(self, *_fault):
        self.end()

    def end(self):
        """Lets the program end. Its status, and what it said on standard error."""
        try:
            errors = self.run.communicate()[1]
        finally:
            self.stop.cancel()
        return self.run.returncode, errors

    def ask(self, *words):
        """Whether a command was done, and what it was answered or refused for."""
        try:
            print(*words, file=self.run.stdin, flush=True)
        except BrokenPipeError as error:
            raise Ended from error
        answer = self.run.stdout.readline()
        if not answer.endswith("\n"):
            raise Ended
        kind, _, text = answer[:-1].partition(" ")
        return kind == "ok", text

    def do(self, *words):
        """What a command is answered, which must be done."""
        try:
            is_done, text = self.ask(*words)
        except Ended:
            is_done, text = False, self.end()
        if not is_done:
            sys.exit(f"check_journal: {' '.join(map(str, words))[:80]}: {text}")
        return text

    def push(self, records):
        self.do("push", records.hex())

    def found(self, command="open"):
        """The records that an opening finds, or that stand."""
        return bytes.fromhex(self.do(command))
